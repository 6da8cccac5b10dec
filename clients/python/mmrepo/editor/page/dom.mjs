// @ts-check
/** Makes elements of the page. A text always becomes a text node, and is never read as HTML. */

const SVG = 'http://www.w3.org/2000/svg';

/** The strokes of icons, in a square of 16. @type {Record<string, string>} */
const ICONS = {
  add: 'M8 3v10M3 8h10',
  delete: 'M3 4.5h10M6.5 4.5V3h3v1.5M4.5 4.5l.6 8.5h5.8l.6-8.5M6.8 7v3.5M9.2 7v3.5',
  save: 'M3 3h8l2 2v8H3zM5.5 3v3.5h4.5V3M5.5 13V9.5h5V13',
  file: 'M4 2.5h5l3 3v8H4zM9 2.5v3h3M8 8v4M6 10h4',
  import: 'M8 2.5v7M5 7l3 3 3-3M3 12.5h10',
  export: 'M8 10V3M5 5.5l3-3 3 3M3 12.5h10',
  picture: 'M2.5 3h4v3h-4zM9.5 10h4v3h-4zM9.5 3h4v3h-4zM4.500 6v5.500h5M6.500 4.500h3',
  verify: 'M3 8.500l3.500 3.500L13 4.500',
  up: 'M8 12.500v-9M4.500 7L8 3.500 11.500 7',
  down: 'M8 3.500v9M4.500 9L8 12.500 11.500 9',
  close: 'M4 4l8 8M12 4l-8 8',
  closed: 'M6 4l4 4-4 4',
  open: 'M4 6l4 4 4-4',
  unset: 'M4 5.500h5.500a3 3 0 0 1 0 6H6M6.500 3L4 5.500 6.500 8',
  grip: 'M6 4v.1M6 8v.1M6 12v.1M10 4v.1M10 8v.1M10 12v.1',
  warning: 'M8 2.500l6 10.500H2zM8 6.500v3M8 11v.2',
  zoomin: 'M7 2.800a4.200 4.200 0 1 1 0 8.400 4.200 4.200 0 1 1 0-8.400M10.200 10.200l3.300 3.300M7 5v4M5 7h4',
  zoomout: 'M7 2.800a4.200 4.200 0 1 1 0 8.400 4.200 4.200 0 1 1 0-8.400M10.200 10.200l3.300 3.300M5 7h4',
  pick: 'M3.500 6L8 10.500 12.500 6',
  null: 'M8 3a5 5 0 1 1 0 10 5 5 0 1 1 0-10M4 12l8-8',
  link: 'M3 8h9M8.500 4.500L12 8l-3.500 3.500',
};

/**
 * Makes an element. A property that begins with `on` is a listener, any other property an attribute; undefined and false are left out.
 * @param {string} tag
 * @param {Record<string, any>} [properties]
 * @param {...(Node | string | null | undefined | false)} children
 * @returns {any}
 */
export function element(tag, properties = {}, ...children) {
  const made = document.createElement(tag);
  change(made, properties);
  made.append(...children.filter((it) => it !== null && it !== undefined && it !== false).map((it) => /** @type {Node | string} */ (it)));
  return made;
}

/**
 * Makes an element of SVG.
 * @param {string} tag
 * @param {Record<string, any>} [properties]
 * @param {...(Node | string)} children
 * @returns {SVGElement}
 */
export function drawn(tag, properties = {}, ...children) {
  const made = document.createElementNS(SVG, tag);
  change(made, properties);
  made.append(...children);
  return made;
}

/**
 * Sets properties of an element.
 * @param {Element} made
 * @param {Record<string, any>} properties
 */
export function change(made, properties) {
  for (const [name, value] of Object.entries(properties)) {
    if (name.startsWith('on')) {
      made.addEventListener(name.slice(2), value);
    } else if (value === undefined || value === false || value === null) {
      made.removeAttribute(name);
    } else {
      made.setAttribute(name, value === true ? '' : String(value));
    }
  }
}

/**
 * An option of a `select`.
 * @param {any} value
 * @param {string} text
 * @param {boolean} [isSelected]
 * @returns {HTMLOptionElement}
 */
export function option(value, text, isSelected = false) {
  return element('option', { value, selected: isSelected }, text);
}

/**
 * A count for a reader, as `100,000`.
 * @param {number} count
 * @returns {string}
 */
export function counted(count) {
  return count.toLocaleString('en');
}

/**
 * An icon, which a screen reader skips.
 * @param {string} name
 * @returns {SVGElement}
 */
export function icon(name) {
  return drawn('svg', { class: 'icon', viewBox: '0 0 16 16', 'aria-hidden': 'true' }, drawn('path', { d: ICONS[name] }));
}

/**
 * A button that shows only an icon; a screen reader reads its label.
 * @param {string} name
 * @param {string} label
 * @param {(event: MouseEvent) => void} press
 * @param {Record<string, any>} [properties]
 * @returns {HTMLButtonElement}
 */
export function iconButton(name, label, press, properties = {}) {
  return element('button', { type: 'button', class: 'bare', 'aria-label': label, title: label, onclick: press, ...properties }, icon(name));
}

/**
 * The badge of a class: its first letters, in a colour of its own.
 * @param {string | null} name
 * @returns {HTMLElement}
 */
export function badge(name) {
  if (name === null) {
    return element('span', { class: 'badge resource', 'aria-hidden': 'true' }, '{}');
  }
  let hue = 0;
  for (const letter of name) {
    hue = (hue * 31 + letter.charCodeAt(0)) % 360;
  }
  const capitals = name.replace(/[^A-Z]/g, '').slice(0, 2) || name.slice(0, 1).toUpperCase();
  const made = element('span', { class: 'badge', 'aria-hidden': 'true' }, capitals);
  made.style.setProperty('--hue', String((hue * 47) % 360));
  return made;
}

/**
 * The element of the page with an id.
 * @param {string} id
 * @returns {any}
 */
export function byId(id) {
  const found = document.getElementById(id);
  if (!found) {
    throw new Error(`the page has no ${id}`);
  }
  return found;
}
