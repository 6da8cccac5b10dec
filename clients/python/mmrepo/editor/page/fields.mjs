// @ts-check
/** The fields of features of one value. */

import { badge, element, icon, iconButton, option } from './dom.mjs';
import { openPicker } from './picker.mjs';
import { call } from './server.mjs';

/** @typedef {import('./model.mjs').Id} Id */
/** @typedef {import('./properties.mjs').Row} Row */
/** @typedef {import('./properties.mjs').Field} Field */
/** @typedef {import('./metamodel.mjs').Feature} Feature */

/** @type {Record<string, [string, string]>} */
const RANGES = {
  EInt: ['-2147483648', '2147483647'],
  ELong: ['-9223372036854775808', '9223372036854775807'],
};

/**
 * The field of a feature of one value.
 * @param {Row} row
 * @returns {Field}
 */
export function fieldOf(row) {
  const { feature } = row;
  if (feature.refers) {
    return new ReferenceField(row);
  }
  if (feature.type === 'EBoolean') {
    return new CheckField(row);
  }
  return row.model.metamodel.enums.has(feature.type) ? new ChoiceField(row) : new TextField(row);
}

/** A text or a number. The typed text is kept until it is accepted. */
class TextField {
  /** @param {Row} row */
  constructor(row) {
    this.row = row;
    this.isTyped = false;
    const isNumber = row.feature.type in RANGES;
    this.input = element(isNumber ? 'input' : 'textarea', {
      id: row.name, rows: isNumber ? undefined : 1, inputmode: isNumber ? 'numeric' : undefined, spellcheck: 'false',
      oninput: () => this.type(), onchange: () => this.send(), onkeydown: (/** @type {KeyboardEvent} */ it) => this.key(it),
    });
    this.element = element('div', {}, this.input, isNumber && element('p', { class: 'range' }, RANGES[row.feature.type].join(' … ')));
  }

  used() {
    return [];
  }

  update() {
    if (!this.isTyped) {
      const value = this.row.value();
      this.input.value = value ?? '';
      this.input.placeholder = value === null ? 'null' : value === '' ? 'empty text' : '';
      this.fit();
    }
  }

  /** Makes the field as high as its lines. */
  fit() {
    this.input.tagName === 'TEXTAREA' && (this.input.rows = Math.min(12, this.input.value.split('\n').length));
  }

  type() {
    this.isTyped = true;
    this.fit();
  }

  /** Sends the typed text. A text that is typed in the meantime stays, and is sent later. */
  async send() {
    const sent = this.input.value;
    if (this.isTyped && (await this.row.edit('set', { value: sent })) && this.input.value === sent) {
      this.isTyped = false;
      this.update();
    }
  }

  /** @param {KeyboardEvent} event */
  key(event) {
    if (event.key === 'Enter' && !event.shiftKey) {
      event.preventDefault();
      this.send();
    } else if (event.key === 'Escape') {
      this.isTyped = false;
      this.row.refuse('');
      this.update();
    }
  }
}

/** A truth value. */
class CheckField {
  /** @param {Row} row */
  constructor(row) {
    this.row = row;
    this.input = element('input', { id: row.name, type: 'checkbox', onchange: () => this.send() });
    this.text = element('span', { class: 'says', 'aria-hidden': 'true' });
    this.element = element('div', { class: 'check' }, this.input, this.text);
  }

  used() {
    return [];
  }

  update() {
    this.input.checked = this.row.value();
    this.text.textContent = String(this.row.value());
  }

  async send() {
    await this.row.edit('set', { value: this.input.checked });
    this.update();
  }
}

/** A literal of an enumeration. */
class ChoiceField {
  /** @param {Row} row */
  constructor(row) {
    this.row = row;
    const literals = row.model.metamodel.enums.get(row.feature.type) ?? [];
    this.input = element('select', { id: row.name, onchange: () => this.send() }, ...literals.map((it) => option(it, it)));
    this.element = element('div', {}, this.input);
  }

  used() {
    return [];
  }

  update() {
    this.input.value = this.row.value();
  }

  async send() {
    await this.row.edit('set', { value: this.input.value });
    this.update();
  }
}

/** An object, a proxy, or null. Containments and container references are changed in the tree. */
class ReferenceField {
  /** @param {Row} row */
  constructor(row) {
    this.row = row;
    this.element = element('div', { class: 'reference' });
    this.shown = ''; // what the element was made for
    this.pick = row.feature.contains || row.feature.holds ? null : pickButton(row, 'pick', `Choose ${row.feature.name}`, 'set');
    this.pick?.setAttribute('id', row.name);
  }

  used() {
    const value = this.row.value();
    return typeof value === 'number' ? [value] : [];
  }

  update() {
    const value = this.row.value();
    const key = JSON.stringify([value, typeof value === 'number' && this.row.model.label(value)]);
    if (key === this.shown) {
      return;
    }
    this.shown = key;
    const none = element('span', { class: 'none' }, this.row.feature.contains ? 'none: make it in the tree' : 'null');
    const shown = value === null ? none : valueElement(this.row, value, 0);
    this.element.replaceChildren(...(this.pick ? [shown, this.pick] : [shown]));
  }
}

/**
 * A button that opens the objects that a reference can take.
 * @param {Row} row
 * @param {string} shown
 * @param {string} label
 * @param {string} verb what is done with the one that is picked
 * @returns {HTMLButtonElement}
 */
export function pickButton(row, shown, label, verb) {
  const words = { object: row.id, feature: row.feature.name };
  const source = async (/** @type {string} */ text) => {
    const found = await call('picks', { ...words, text });
    const choices = found.hits.map((/** @type {any} */ it) => ({ label: it.label, class: it.class, more: it.way.join(' / '), value: it.object }));
    return { choices, count: found.count };
  };
  return iconButton(shown, label, (event) => {
    const anchor = /** @type {HTMLElement} */ (event.currentTarget);
    openPicker(anchor, `${label} (${row.feature.type})`, source, (value) => row.edit(verb, { value }));
  });
}

/**
 * A value of a reference: an object, which a click selects, or a proxy, which a click resolves.
 * @param {Row} row
 * @param {number | string} value
 * @param {number} at
 * @returns {HTMLElement}
 */
export function valueElement(row, value, at) {
  if (typeof value === 'number') {
    const state = row.model.need(value);
    const go = () => row.panel.go(value);
    const label = element('span', { class: 'label' }, row.model.label(value));
    const words = { type: 'button', class: 'object', onclick: go, title: 'Show it in the tree' };
    return element('button', words, badge(state ? state.class : '?'), label);
  }
  return element(
    'span', { class: 'proxy' }, element('span', { class: 'address', title: value }, value),
    element('button', { type: 'button', class: 'small', onclick: () => row.edit('resolve', { at }) }, icon('link'), 'Resolve'),
  );
}
