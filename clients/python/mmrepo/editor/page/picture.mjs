// @ts-check
/** Draws the metamodel and objects: the text of `tools/diagram` as SVG. */

import { drawn, element, icon, iconButton, option } from './dom.mjs';
import { attempt, makeDialog } from './dialogs.mjs';
import { layOut } from './layout.mjs';
import { readMermaid } from './mermaid.mjs';
import { call } from './server.mjs';

/** @typedef {import('./model.mjs').Id} Id */
/** @typedef {import('./mermaid.mjs').Box} Box */
/** @typedef {import('./mermaid.mjs').Line} Line */
/** @typedef {import('./layout.mjs').Point} Point */
/** @typedef {import('./layout.mjs').Spot} Spot */

const ROW = 18; // height of a row
const HEAD = 28;
const SIDE = 12; // space beside a text
const PORT = 34; // between two lines at a box
const MOST_PORTS = 14;
const SPREAD = [0.5, 0.34, 0.62];
const FEW = 40; // classes that are drawn at once; of more a part is drawn, around one class

/**
 * The SVG of a diagram.
 * @param {string} text
 * @param {(title: string) => void} [press] is called with the title of the box that is pressed
 * @returns {SVGElement}
 */
export function drawPicture(text, press) {
  const picture = readMermaid(text);
  const made = layOut(picture, picture.boxes.map((it) => sizeOf(it, picture.lines)));
  const places = new Map(picture.boxes.map((it, at) => [it.name, made.boxes[at]]));
  const lines = picture.lines.map((it, at) => drawLine(it, made.lines[at], places, SPREAD[at % SPREAD.length]));
  const boxes = picture.boxes.map((it, at) => drawBox(it, made.boxes[at], press));
  const loops = picture.lines.filter((it) => it.from === it.to).map((it) => {
    const box = places.get(it.from);
    return box ? box.x + box.width / 2 + 30 + widthOf(it.label) : 0;
  });
  const [width, height] = [Math.ceil(Math.max(made.width, ...loops) + 24), Math.ceil(made.height + 12)];
  const says = `A picture of ${picture.boxes.length} boxes`;
  return drawn(
    'svg', { class: 'picture', viewBox: `0 0 ${width} ${height}`, width, height, role: press ? 'group' : 'img', 'aria-label': says },
    markers(), ...lines.map((it) => it[0]), ...boxes, ...lines.map((it) => it[1]),
  );
}

/** @type {CanvasRenderingContext2D | null} */
let ruler = null;

/**
 * The width of a text.
 * @param {string} text
 * @param {boolean} [isBold]
 * @returns {number}
 */
function widthOf(text, isBold = false) {
  ruler ??= document.createElement('canvas').getContext('2d');
  if (!ruler) {
    return text.length * 7.5;
  }
  ruler.font = `${isBold ? '600 13px' : '12px'} system-ui, sans-serif`;
  return ruler.measureText(text).width;
}

/**
 * The size of a box: what its texts need, and what the lines at its upper and lower side need.
 * @param {Box} box
 * @param {Line[]} lines
 * @returns {{width: number, height: number}}
 */
function sizeOf(box, lines) {
  const others = lines.filter((it) => it.from !== it.to);
  const ports = Math.max(others.filter((it) => it.from === box.name).length, others.filter((it) => it.to === box.name).length);
  const text = Math.max(46, widthOf(box.title, true), widthOf(`«${box.above}»`), ...box.rows.map((it) => widthOf(it)));
  const head = HEAD + (box.above ? 14 : 0);
  const width = Math.max(text + 2 * SIDE, (Math.min(ports, MOST_PORTS) + 1) * PORT);
  return { width: Math.ceil(width), height: head + (box.rows.length > 0 ? box.rows.length * ROW + 10 : 0) };
}

/**
 * A box with its rows.
 * @param {Box} box
 * @param {Spot} at
 * @param {((title: string) => void) | undefined} press
 * @returns {SVGElement}
 */
function drawBox(box, at, press) {
  const head = HEAD + (box.above ? 14 : 0);
  const texts = box.rows.map((row, number) => drawn('text', { x: SIDE, y: head + 18 + number * ROW, class: 'line' }, row));
  const go = press && (() => press(box.title));
  const key = (/** @type {KeyboardEvent} */ event) => event.key === 'Enter' && go?.();
  const place = `translate(${at.x - at.width / 2} ${at.y - at.height / 2})`;
  const button = go ? { tabindex: 0, role: 'button', 'aria-label': box.title, onclick: go, onkeydown: key } : {};
  return drawn(
    'g', { class: `box ${box.above}${go ? ' go' : ''}`, transform: place, ...button },
    drawn('rect', { width: at.width, height: at.height, rx: 6 }),
    drawn('path', { class: 'head', d: `M0 6a6 6 0 0 1 6-6h${at.width - 12}a6 6 0 0 1 6 6v${head - 6}h${-at.width}z` }),
    ...(box.above ? [drawn('text', { x: at.width / 2, y: 15, class: 'above' }, `«${box.above}»`)] : []),
    drawn('text', { x: at.width / 2, y: head - 9, class: 'title' }, box.title), ...texts,
  );
}

/**
 * A line with its label and the texts at its ends.
 * @param {Line} line
 * @param {Point[]} points
 * @param {Map<string, Spot>} places
 * @param {number} spread the part of a short line at which its label is, so that those of neighbours do not lie on each other
 * @returns {[SVGElement, SVGElement]}
 */
function drawLine(line, points, places, spread) {
  const [from, to] = [places.get(line.from), places.get(line.to)];
  if (!from || !to) {
    return [drawn('g'), drawn('g')];
  }
  if (from === to) {
    const [right, y] = [from.x + from.width / 2, from.y];
    const way = `M${right} ${y - 12}h22v24h-22`;
    return edge(line, way, drawn('text', { x: right + 26, y: y + 4, class: 'self' }, line.label));
  }
  const half = Math.floor((points.length - 1) / 2);
  const label = between(points[half], points[half + 1], points.length > 2 ? 0.5 : spread);
  const last = points.length - 1;
  const near = between(points[0], points[1], Math.min(0.4, 22 / distance(points[0], points[1])));
  const far = between(points[last], points[last - 1], Math.min(0.4, 22 / distance(points[last], points[last - 1])));
  return edge(
    line, `M${points.map((it) => `${round(it.x)} ${round(it.y)}`).join('L')}`, drawn('text', { x: label.x, y: label.y + 4 }, line.label),
    drawn('text', { x: near.x + 8, y: near.y + 4, class: 'end' }, line.near), drawn('text', { x: far.x + 8, y: far.y + 4, class: 'end' }, line.far),
  );
}

/**
 * @param {Line} line
 * @param {string} way
 * @param {...SVGElement} texts
 * @returns {[SVGElement, SVGElement]}
 */
function edge(line, way, ...texts) {
  return [drawn('g', { class: `edge ${line.kind}` }, drawn('path', { d: way })), drawn('g', { class: 'edge' }, ...texts)];
}

/** @param {Point} one @param {Point} other @param {number} part @returns {Point} */
function between(one, other, part) {
  return { x: one.x + (other.x - one.x) * part, y: one.y + (other.y - one.y) * part };
}

/** @param {Point} one @param {Point} other @returns {number} */
function distance(one, other) {
  return Math.max(1, Math.hypot(one.x - other.x, one.y - other.y));
}

/** @param {number} number @returns {number} */
function round(number) {
  return Math.round(number * 10) / 10;
}

/** The ends of lines. @returns {SVGElement} */
function markers() {
  const size = { viewBox: '0 0 20 12', markerWidth: 20, markerHeight: 12, refX: 18, refY: 6, markerUnits: 'userSpaceOnUse' };
  const marker = (/** @type {string} */ id, /** @type {string} */ d) => (
    drawn('marker', { id, orient: 'auto-start-reverse', ...size }, drawn('path', { d }))
  );
  const diamond = marker('contains', 'M2 6L10 1.5L18 6L10 10.5z');
  return drawn('defs', {}, marker('inherits', 'M2 1L18 6L2 11z'), diamond, marker('refers', 'M8 1L18 6L8 11'));
}

/** A dialog with diagrams of the metamodel and of the selection. */
export class Pictures {
  /**
   * @param {import('./model.mjs').Model} model
   * @param {() => Id | null} selected
   * @param {(id: Id) => void} go
   */
  constructor(model, selected, go) {
    this.model = model;
    this.selected = selected;
    this.go = go;
    this.zoom = 1;
  }

  /** Opens the dialog. */
  open() {
    const { box, body, foot } = makeDialog('Picture', 'wide');
    const names = [...this.model.metamodel.classes.keys()];
    const id = this.selected();
    this.box = box;
    this.room = element('div', { class: 'room', tabindex: 0 });
    this.says = element('p', { class: 'says', role: 'status' });
    this.what = element(
      'select', { 'aria-label': 'What is drawn', onchange: () => this.draw() },
      option('', 'the metamodel'), id !== null && option('selected', `the selection: ${this.model.label(id)}`),
    );
    this.around = element(
      'select', { 'aria-label': 'Around a class', onchange: () => this.draw() },
      names.length <= FEW && option('', 'all classes'), ...[...names].sort().map((it) => option(it, `around ${it}`)),
    );
    const state = id === null ? undefined : this.model.nodes.get(id);
    if (names.length > FEW && state?.class) {
      this.around.value = state.class;
    }
    const zoom = (/** @type {number} */ by) => () => this.scale(this.zoom * by);
    foot.append(
      this.what, this.around, this.says, iconButton('zoomout', 'Smaller', zoom(1 / 1.25)), iconButton('zoomin', 'Larger', zoom(1.25)),
      element('button', { type: 'button', onclick: () => this.fit() }, icon('picture'), 'Fit'),
    );
    body.append(this.room);
    return this.draw();
  }

  /** Draws the chosen diagram. */
  async draw() {
    const isSelection = this.what.value === 'selected';
    this.around.hidden = isSelection;
    const words = isSelection ? { node: this.selected() } : { class: this.around.value || null, steps: 1 };
    const found = await attempt(() => call('draw', words));
    if (found) {
      const press = isSelection ? (/** @type {string} */ title) => this.press(found.objects[title.split(' : ')[0]]) : undefined;
      this.picture = drawPicture(found.text, press);
      this.room.replaceChildren(this.picture);
      this.says.textContent = isSelection ? `${found.shown} objects` : '';
      this.fit();
    }
  }

  /** @param {Id | undefined} id */
  press(id) {
    if (id !== undefined) {
      this.box?.close();
      this.go(id);
    }
  }

  /** Scales the diagram to the window, and never above its own size. */
  fit() {
    const box = /** @type {any} */ (this.picture)?.viewBox.baseVal;
    box && this.scale(Math.min(1, (this.room.clientWidth - 8) / box.width, Math.max(0.35, (this.room.clientHeight - 8) / box.height)));
  }

  /** @param {number} zoom */
  scale(zoom) {
    this.zoom = Math.max(0.1, Math.min(4, zoom));
    const box = /** @type {any} */ (this.picture)?.viewBox.baseVal;
    box && this.picture?.setAttribute('width', String(box.width * this.zoom));
    box && this.picture?.setAttribute('height', String(box.height * this.zoom));
  }
}
