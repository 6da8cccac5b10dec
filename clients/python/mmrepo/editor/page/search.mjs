// @ts-check
/** Search by text and class, and the list of problems: rows that lead to objects of the tree. */

import { badge, byId, counted, element, option } from './dom.mjs';
import { attempt } from './dialogs.mjs';
import { call } from './server.mjs';

/** @typedef {import('./model.mjs').Model} Model */
/** @typedef {import('./model.mjs').Id} Id */

const WAIT = 150; // milliseconds after the last key

export class Search {
  /**
   * @param {Model} model
   * @param {(path: Id[]) => void} reveal
   */
  constructor(model, reveal) {
    this.reveal = reveal;
    this.text = byId('search-text');
    this.kind = byId('search-class');
    this.hits = byId('hits');
    this.kind.append(option('', 'any class'), ...[...model.metamodel.classes.keys()].sort().map((it) => option(it, it)));
    this.text.addEventListener('input', () => this.soon());
    this.kind.addEventListener('change', () => this.search());
    byId('search').addEventListener('submit', (/** @type {Event} */ event) => {
      event.preventDefault();
      this.search();
    });
    byId('search').addEventListener('keydown', (/** @type {KeyboardEvent} */ event) => event.key === 'Escape' && this.clear());
  }

  soon() {
    clearTimeout(this.timer);
    this.timer = setTimeout(() => this.search(), WAIT);
  }

  clear() {
    this.text.value = this.kind.value = '';
    this.search();
  }

  /** Shows the objects that have the text and the class. */
  async search() {
    clearTimeout(this.timer);
    const words = { text: this.text.value, class: this.kind.value || null };
    const isEmpty = !words.text && !words.class;
    const found = isEmpty ? null : await attempt(() => call('search', words));
    const isLate = this.text.value !== words.text || (this.kind.value || null) !== words.class;
    if (!isLate) {
      this.hits.hidden = !found;
      byId('tree').classList.toggle('beside', !!found);
      found && showHits(this.hits, found.hits, `${counted(found.count)} found`, (path) => this.reveal(path));
    }
  }
}

/**
 * Shows objects that were found.
 * @param {HTMLElement} top
 * @param {any[]} hits
 * @param {string} first
 * @param {(path: Id[]) => void} reveal
 */
export function showHits(top, hits, first, reveal) {
  top.replaceChildren(
    element('p', { class: 'count', role: 'status' }, first),
    element('ul', {}, ...hits.map((it) => element('li', {}, hitElement(it, reveal)))),
  );
}

/**
 * A row of an object that was found.
 * @param {any} hit
 * @param {(path: Id[]) => void} reveal
 * @returns {HTMLElement}
 */
function hitElement(hit, reveal) {
  return element(
    'button', { type: 'button', class: 'hit', onclick: () => reveal(hit.path) }, badge(hit.class), element('span', { class: 'label' }, hit.label),
    element('span', { class: 'where' }, hit.says ?? hit.way.join(' / ')),
  );
}

/** The problems of all objects. The counts are in each event; the list is asked for when it is opened. */
export class Problems {
  /**
   * @param {Model} model
   * @param {(path: Id[]) => void} reveal
   */
  constructor(model, reveal) {
    this.model = model;
    this.reveal = reveal;
    this.button = byId('problems');
    this.panel = byId('problem-list');
    this.button.addEventListener('click', () => this.toggle());
    model.hearers.push((_, event) => event && this.update(Object.keys(event.problems?.objects ?? {}).length > 0));
    this.update(false);
  }

  toggle() {
    this.panel.hidden = !this.panel.hidden;
    this.button.setAttribute('aria-expanded', String(!this.panel.hidden));
    this.update(true);
  }

  /** @param {boolean} isList whether the list may have changed */
  update(isList) {
    const { count, short, proxies } = this.model.counts;
    const parts = [short && `${counted(short)} too short`, proxies && `${counted(proxies)} ${proxies === 1 ? 'proxy' : 'proxies'} left`];
    const says = `${counted(count)} ${count === 1 ? 'object' : 'objects'} with problems: ${parts.filter(Boolean).join(', ')}`;
    byId('problem-count').textContent = count === 0 ? 'No problems' : says;
    this.button.classList.toggle('some', count > 0);
    isList && !this.panel.hidden && this.list();
  }

  /** Shows the objects with problems. */
  async list() {
    const found = await attempt(() => call('problems'));
    const hits = found && (await attempt(() => call('hits', { nodes: found.found.map((/** @type {any} */ it) => it.object) })));
    if (hits) {
      const all = found.found.map((/** @type {any} */ it, /** @type {number} */ at) => ({ ...hits[at], says: problemText(it) }));
      const shown = all.filter((/** @type {any} */ it) => it.path);
      const { count } = this.model.counts;
      const first = shown.length < count ? `the first ${shown.length} of ${counted(count)}` : 'all objects with problems';
      showHits(this.panel, shown, first, this.reveal);
    }
  }
}

/**
 * The problems of an object in words.
 * @param {{short: string[], proxies: [string, number][]}} problem
 * @returns {string}
 */
function problemText({ short, proxies }) {
  const left = [...new Set(proxies.map(([name]) => name))].map((name) => `${name}: a proxy is left`);
  return [...short.map((name) => `${name}: too short`), ...left].join('; ');
}
