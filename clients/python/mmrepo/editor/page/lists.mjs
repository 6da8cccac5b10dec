// @ts-check
/** The fields of features that are many-valued. */

import { counted, element, icon, iconButton, option } from './dom.mjs';
import { drags } from './drag.mjs';
import { pickButton, valueElement } from './fields.mjs';

/** @typedef {import('./properties.mjs').Row} Row */
/** @typedef {import('./properties.mjs').Field} Field */

const SOME = 50; // values that are shown, and that each press of `more` shows further

/** A list: its values, each with buttons that move and remove it, and a field that adds a value. @implements {Field} */
export class ListField {
  /** @param {Row} row */
  constructor(row) {
    this.row = row;
    this.most = SOME;
    this.shown = ''; // what the list was made for
    this.isHeld = row.feature.contains;
    this.list = element('ol', { class: 'values', 'aria-labelledby': `${row.name}-label` });
    this.more = element('button', { type: 'button', class: 'small more', onclick: () => this.showMore() });
    this.adds = this.isHeld ? null : row.feature.refers ? this.picks() : this.makeInput();
    this.element = element('div', { class: 'list' }, this.list, this.more, this.adds);
    drags(this.list, {
      grab: (from) => this.grab(from),
      over: (what, event) => this.over(what, event),
      drop: (at, to) => to !== at && this.move(at, to),
    });
  }

  used() {
    return this.row.feature.refers ? this.row.value().slice(0, this.most).filter((/** @type {any} */ it) => typeof it === 'number') : [];
  }

  update() {
    const values = this.row.value();
    const { model, feature } = this.row;
    /** @type {any[]} */
    const some = values.slice(0, this.most);
    const key = JSON.stringify([values.length, some.map((it) => (feature.refers && typeof it === 'number' ? [it, model.label(it)] : it))]);
    if (key === this.shown) {
      return;
    }
    this.shown = key;
    const focused = this.list.contains(document.activeElement) ? document.activeElement?.getAttribute('data-key') : null;
    this.list.replaceChildren(...some.map((it, at) => this.item(it, at, values.length)));
    const left = values.length - this.most;
    this.more.hidden = left <= 0;
    this.more.textContent = `${Math.min(left, SOME)} more of ${counted(values.length)}`;
    focused && this.list.querySelector(`[data-key="${focused}"]`)?.focus();
  }

  showMore() {
    this.most += SOME;
    this.update();
  }

  /**
   * The element of a value.
   * @param {any} value
   * @param {number} at
   * @param {number} count
   * @returns {HTMLElement}
   */
  item(value, at, count) {
    const { feature } = this.row;
    const shown = feature.refers ? valueElement(this.row, value, at) : element('span', { class: 'text' }, String(value));
    const button = (/** @type {string} */ name, /** @type {string} */ says, /** @type {() => void} */ press, off = false) => (
      iconButton(name, `${says} ${feature.name} ${at}`, press, { 'data-key': `${name}-${at}`, disabled: off })
    );
    return element(
      'li', { 'data-at': at },
      element('button', { type: 'button', class: 'bare grip', tabindex: -1, 'aria-hidden': 'true' }, icon('grip')), shown,
      element(
        'span', { class: 'moves' },
        button('up', 'Move up', () => this.move(at, at - 1), at === 0),
        button('down', 'Move down', () => this.move(at, at + 1), at === count - 1),
        !this.isHeld && button('close', 'Remove', () => this.row.edit('remove', { at, was: value })),
      ),
    );
  }

  /**
   * Moves a value to an index.
   * @param {number} at
   * @param {number} to
   */
  move(at, to) {
    const words = { node: this.row.id, to, at, was: this.row.value()[at], object: undefined };
    return this.row.edit('move', words);
  }

  // Adding a value

  /** What adds an object. @returns {HTMLElement} */
  picks() {
    const made = pickButton(this.row, 'add', `Add to ${this.row.feature.name}`, 'add');
    made.className = 'small';
    made.id = this.row.name;
    made.append('Add');
    return made;
  }

  /** What adds data. @returns {HTMLElement} */
  makeInput() {
    const { row } = this;
    const literals = row.model.metamodel.enums.get(row.feature.type) ?? (row.feature.type === 'EBoolean' ? ['false', 'true'] : null);
    const key = (/** @type {KeyboardEvent} */ event) => this.key(event);
    this.input = literals
      ? element('select', { id: row.name }, ...literals.map((it) => option(it, it)))
      : element('input', { id: row.name, type: 'text', placeholder: `a new value of ${row.feature.name}`, spellcheck: 'false', onkeydown: key });
    const add = element('button', { type: 'button', class: 'small', onclick: () => this.send() }, icon('add'), 'Add');
    return element('div', { class: 'adding' }, this.input, add);
  }

  /** @param {KeyboardEvent} event */
  key(event) {
    if (event.key === 'Enter') {
      event.preventDefault();
      this.send();
    } else if (event.key === 'Escape') {
      this.input.value = '';
      this.row.refuse('');
    }
  }

  /** Sends the typed text. If it is refused, the field gets the text back, unless something was typed in the meantime. */
  async send() {
    const typed = this.input.value;
    const isText = this.input.tagName === 'INPUT';
    this.input.value = isText ? '' : typed;
    const done = await this.row.edit('add', { value: this.row.feature.type === 'EBoolean' ? typed === 'true' : typed });
    if (!done && isText && this.input.value === '') {
      this.input.value = typed;
    }
  }

  // Dragging

  /**
   * The value of a grip.
   * @param {Element} from
   * @returns {{what: number, label: string} | null}
   */
  grab(from) {
    const item = from.closest('.grip') ? /** @type {HTMLElement | null} */ (from.closest('li')) : null;
    return item ? { what: Number(item.dataset.at), label: item.querySelector('.label, .text, .address')?.textContent ?? '' } : null;
  }

  /**
   * Shows where a dragged value would go, and returns the index.
   * @param {number} at
   * @param {PointerEvent | null} event
   * @returns {number | null}
   */
  over(at, event) {
    for (const it of this.list.children) {
      it.classList.remove('before', 'after');
    }
    const under = event ? document.elementFromPoint(event.clientX, event.clientY)?.closest('li') : null;
    if (!event || !under || under.parentElement !== this.list) {
      return null;
    }
    const place = Number(/** @type {HTMLElement} */ (under).dataset.at);
    const { top, height } = under.getBoundingClientRect();
    const isAfter = event.clientY > top + height / 2;
    under.classList.add(isAfter ? 'after' : 'before');
    const gap = isAfter ? place + 1 : place;
    return gap > at ? gap - 1 : gap;
  }
}
