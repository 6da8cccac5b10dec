// @ts-check
/** The tree of all resources. The page has elements only for the visible rows. */

import { badge, change, element, icon, iconButton } from './dom.mjs';
import { CONTENTS } from './metamodel.mjs';

/** @typedef {import('./model.mjs').Id} Id */
/** @typedef {import('./model.mjs').Model} Model */
/** @typedef {import('./metamodel.mjs').Feature} Feature */

/**
 * A row: a node, its level, and its feature and index in its container.
 * @typedef {object} Row
 * @property {Id} id
 * @property {number} level
 * @property {Id | null} holder
 * @property {Feature} feature
 * @property {number} index
 * @property {number} place among its siblings, from 1
 * @property {number} size how many siblings there are
 */

/** An element of a row, and what it was made for. @typedef {{key: string, made: HTMLElement}} Drawn */

export const HEIGHT = 28; // of a row
const SPARE = 6; // rows that are drawn above and below those that are seen

export class Tree {
  /**
   * @param {HTMLElement} top the element of the tree
   * @param {Model} model
   * @param {(id: Id | null) => void} choose is called with what is selected
   * @param {(id: Id, at: HTMLElement) => void} add makes a new child
   */
  constructor(top, model, choose, add) {
    this.top = top;
    this.model = model;
    this.choose = choose;
    this.add = add;
    /** @type {Row[]} */
    this.rows = [];
    /** @type {Set<Id>} */
    this.open = new Set(model.files.length <= 3 ? model.files.map((it) => it.resource) : []);
    /** @type {Id | null} */
    this.selected = null;
    /** @type {Id | null} */
    this.marked = null; // what is to be put somewhere else
    this.inner = element('div', { class: 'rows', role: 'presentation' });
    top.append(this.inner);
    this.isStale = this.isWaiting = false;
    this.letters = '';
    /** @type {Map<Id, Drawn>} */
    this.drawn = new Map();
    top.addEventListener('scroll', () => this.draw(), { passive: true });
    top.addEventListener('click', (event) => this.press(event));
    new ResizeObserver(() => this.draw()).observe(top);
    model.users.push(() => this.used());
    model.hearers.push((touched, event) => this.hear(touched, event));
    this.change();
  }

  /** The nodes that are seen, or whose parts are. @returns {Id[]} */
  used() {
    return [...this.open, ...this.shown().map((row) => row.id), ...(this.selected === null ? [] : [this.selected])];
  }

  /** The rows that are drawn. @returns {Row[]} */
  shown() {
    const first = Math.max(0, Math.floor(this.top.scrollTop / HEIGHT) - SPARE);
    return this.rows.slice(first, Math.ceil((this.top.scrollTop + this.top.clientHeight) / HEIGHT) + SPARE);
  }

  /**
   * Is called with the nodes that have changed. Makes the rows again if an open node has arrived, or has different contents.
   * @param {Set<Id>} touched
   * @param {import('./model.mjs').Event | null} event
   */
  hear(touched, event) {
    const { metamodel } = this.model;
    const holds = (/** @type {string | null} */ owner, /** @type {string} */ name) => metamodel.featuresOf(owner).get(name)?.contains;
    const isDifferent = event
      ? event.resources || event.notices?.some(([, node, name, , , , owner]) => this.open.has(node) && holds(owner, name))
      : [...touched].some((id) => this.open.has(id));
    isDifferent ? this.change() : this.drawSoon();
  }

  /** Lets the rows be made again before they are drawn next. */
  change() {
    this.isStale = true;
    this.drawSoon();
  }

  /** Draws once, at the next frame. */
  drawSoon() {
    if (!this.isWaiting) {
      this.isWaiting = true;
      requestAnimationFrame(() => {
        this.isWaiting = false;
        this.draw();
      });
    }
  }

  /** Makes the list of the rows of all open nodes. Existing row objects are used again, since there may be very many. */
  remake() {
    this.isStale = false;
    const { files } = this.model;
    let count = 0;
    const put = (/** @type {Row} */ row) => {
      count < this.rows.length ? Object.assign(this.rows[count], row) : this.rows.push(row);
      count += 1;
    };
    const add = (/** @type {Id} */ id, /** @type {number} */ level) => {
      const state = this.open.has(id) ? this.model.need(id) : undefined;
      const features = state ? this.model.metamodel.partsOf(state.class) : [];
      const values = features.map((it) => /** @type {number[]} */ ([state?.values[it.name] ?? []].flat()));
      const size = values.reduce((sum, it) => sum + it.length, 0);
      let place = 0;
      features.forEach((feature, at) => values[at].forEach((part, index) => {
        place += 1;
        put({ id: part, level, holder: id, feature, index, place, size });
        this.open.has(part) && add(part, level + 1);
      }));
    };
    files.forEach((file, at) => {
      put({ id: file.resource, level: 1, holder: null, feature: CONTENTS, index: at, place: at + 1, size: files.length });
      add(file.resource, 2);
    });
    this.rows.length = count;
  }

  // Drawing

  /** Draws the visible rows. An element stays as long as it shows what its row has. */
  draw() {
    if (this.isStale) {
      this.remake();
    }
    this.inner.style.height = `${this.rows.length * HEIGHT}px`;
    const first = Math.max(0, Math.floor(this.top.scrollTop / HEIGHT) - SPARE);
    const shown = this.shown();
    const before = this.drawn;
    this.drawn = new Map(shown.map((row, at) => [row.id, this.drawRow(row, first + at, before.get(row.id))]));
    for (const [id, one] of before) {
      this.drawn.get(id)?.made === one.made || one.made.remove();
    }
    let last = null;
    for (const { made } of this.drawn.values()) {
      if (made.parentElement !== this.inner || made.previousElementSibling !== last) {
        this.inner.insertBefore(made, last ? last.nextSibling : this.inner.firstChild);
      }
      last = made;
    }
    change(this.top, { 'aria-activedescendant': this.selected !== null && this.drawn.has(this.selected) ? `row-${this.selected}` : undefined });
  }

  /**
   * The element of a row: the present one, if it shows the same.
   * @param {Row} row
   * @param {number} at its number from the top
   * @param {Drawn | undefined} before
   * @returns {Drawn}
   */
  drawRow(row, at, before) {
    const says = this.says(row);
    const key = JSON.stringify([says, row.level, row.place, row.size]);
    const one = before?.key === key ? before : { key, made: this.makeRow(row, says) };
    const isSelected = row.id === this.selected;
    one.made.dataset.at = String(at);
    one.made.style.transform = `translateY(${at * HEIGHT}px)`;
    one.made.classList.toggle('selected', isSelected);
    one.made.classList.toggle('marked', row.id === this.marked);
    one.made.setAttribute('aria-selected', String(isSelected));
    return one;
  }

  /**
   * What a row shows.
   * @param {Row} row
   */
  says(row) {
    const state = this.model.need(row.id);
    const hasParts = this.model.hasParts(row.id);
    return {
      label: this.model.label(row.id), kind: state ? state.class : typeof row.id === 'string' ? null : '',
      isOpen: hasParts ? this.open.has(row.id) : null,
      isWrong: this.model.problems.has(row.id), isChanged: typeof row.id === 'string' && this.model.changed.has(row.id),
      canAdd: !!state && this.model.metamodel.partsOf(state.class).length > 0,
      where: row.holder === null || row.feature === CONTENTS ? '' : row.feature.many ? `${row.feature.name} ${row.index}` : row.feature.name,
    };
  }

  /**
   * Makes the element of a row.
   * @param {Row} row
   * @param {ReturnType<Tree['says']>} says
   * @returns {HTMLElement}
   */
  makeRow(row, { label, kind, isOpen, isWrong, isChanged, canAdd, where }) {
    const { id } = row;
    const spoken = `${label}, ${kind ?? 'file'}${isWrong ? ', has problems' : ''}${isChanged ? ', edited' : ''}`;
    const made = element(
      'div',
      {
        id: `row-${id}`, role: 'treeitem', class: 'row', 'aria-level': row.level, 'aria-posinset': row.place, 'aria-setsize': row.size,
        'aria-expanded': isOpen === null ? undefined : String(isOpen), 'aria-label': spoken,
      },
      element('span', { class: 'twist' }, isOpen !== null && icon(isOpen ? 'open' : 'closed')),
      badge(kind === '' ? '?' : kind),
      element('span', { class: 'label' }, label),
      element('span', { class: 'kind' }, kind || ''),
      isWrong && element('span', { class: 'problem', title: 'it has problems' }, icon('warning')),
      isChanged && element('span', { class: 'changed', title: 'it was edited since it was saved' }, '●'),
      element('span', { class: 'where' }, where),
      canAdd && iconButton('add', 'New child', (event) => this.add(id, /** @type {HTMLElement} */ (event.currentTarget)), { tabindex: -1 }),
    );
    made.style.setProperty('--level', String(row.level - 1));
    return made;
  }

  // The selection

  /**
   * Selects a node, and brings its row into sight.
   * @param {Id | null} id
   */
  select(id) {
    this.selected = id;
    const at = this.rows.findIndex((row) => row.id === id);
    if (at >= 0) {
      const { scrollTop, clientHeight } = this.top;
      if (at * HEIGHT < scrollTop) {
        this.top.scrollTop = at * HEIGHT;
      } else if ((at + 1) * HEIGHT > scrollTop + clientHeight) {
        this.top.scrollTop = (at + 1) * HEIGHT - clientHeight;
      }
    }
    this.drawSoon();
    this.choose(id);
  }

  /**
   * Opens all nodes above a node, and selects it.
   * @param {Id[]} path the nodes from the resource down to it
   */
  async reveal(path) {
    path.slice(0, -1).forEach((id) => this.open.add(id));
    await this.known(path.slice(0, -1));
    this.remake();
    this.draw();
    this.select(path[path.length - 1]);
  }

  /**
   * Waits until nodes are known.
   * @param {Id[]} ids
   */
  async known(ids) {
    for (let tries = 0; tries < 500 && ids.some((id) => !this.model.need(id) && !this.model.absent.has(id)); tries += 1) {
      await new Promise((done) => setTimeout(done, 10));
    }
  }

  /**
   * Opens a node, or closes it.
   * @param {Id | null} id
   */
  toggle(id) {
    if (id !== null) {
      this.open.has(id) ? this.open.delete(id) : this.open.add(id);
      this.change();
    }
  }

  /**
   * The row at which an event of the pointer happened.
   * @param {Event} event
   * @returns {Row | undefined}
   */
  rowAt(event) {
    const found = event.target instanceof Element ? event.target.closest('.row') : null;
    return found instanceof HTMLElement ? this.rows[Number(found.dataset.at)] : undefined;
  }

  /**
   * A click on the mark of a row opens or closes its node, and a click elsewhere selects the node; a double click there opens or closes it.
   * @param {MouseEvent} event
   */
  press(event) {
    const row = this.rowAt(event);
    const target = /** @type {Element} */ (event.target);
    if (row && target.closest('.twist') && this.model.hasParts(row.id)) {
      this.toggle(row.id);
    } else if (row && !target.closest('button')) {
      event.detail % 2 === 0 ? this.toggle(row.id) : this.select(row.id);
    }
  }

  /** The number of the row of what is selected. @returns {number} */
  at() {
    return this.rows.findIndex((row) => row.id === this.selected);
  }
}
