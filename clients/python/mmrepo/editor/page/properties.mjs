// @ts-check
/** The properties of the selected node: a field for each feature. */

import { badge, element, icon, iconButton } from './dom.mjs';
import { call } from './server.mjs';
import { fieldOf } from './fields.mjs';
import { ListField } from './lists.mjs';

/** @typedef {import('./model.mjs').Id} Id */
/** @typedef {import('./model.mjs').Model} Model */
/** @typedef {import('./metamodel.mjs').Feature} Feature */

/**
 * A field: shows the values of a feature, and changes them.
 * @typedef {object} Field
 * @property {HTMLElement} element
 * @property {() => void} update shows what the feature has now
 * @property {() => Iterable<Id>} used the objects that it shows
 */

export class Properties {
  /**
   * @param {HTMLElement} top
   * @param {Model} model
   * @param {(id: Id) => void} go selects an object in the tree
   * @param {(id: Id, at: HTMLElement) => void} add makes a new child
   */
  constructor(top, model, go, add) {
    this.top = top;
    this.model = model;
    this.go = go;
    this.add = add;
    /** @type {Id | null} */
    this.id = null;
    /** @type {Map<string, Row>} */
    this.rows = new Map();
    this.isWaiting = false;
    model.users.push(() => this.used());
    model.hearers.push((touched) => this.hear(touched));
    this.show(null);
  }

  /** The nodes that are seen. @returns {Id[]} */
  used() {
    const found = this.id === null ? [] : [this.id];
    return found.concat([...this.rows.values()].flatMap((row) => [...row.field.used()]));
  }

  /**
   * Is called with the nodes that have changed.
   * @param {Set<Id>} touched
   */
  hear(touched) {
    if (this.id !== null && !this.isWaiting && this.used().some((id) => touched.has(id))) {
      this.isWaiting = true;
      requestAnimationFrame(() => {
        this.isWaiting = false;
        this.update();
      });
    }
  }

  /**
   * Shows a node.
   * @param {Id | null} id
   */
  show(id) {
    this.id = id;
    this.rows.clear();
    this.top.replaceChildren();
    if (id === null) {
      this.top.append(element('p', { class: 'hint' }, 'Select an object in the tree to see its properties.'));
    } else {
      this.update();
    }
  }

  /** Shows the present values of the node. The fields stay, with the text that is typed in them. */
  update() {
    const { id } = this;
    const state = id === null ? undefined : this.model.need(id);
    if (id === null || !state) {
      if (id !== null && (this.rows.size > 0 || this.model.absent.has(id))) {
        this.show(null);
        this.top.replaceChildren(element('p', { class: 'hint' }, 'The object is deleted.'));
      }
      return;
    }
    if (this.rows.size === 0) {
      this.make(id, state.class);
    }
    this.title?.replaceChildren(badge(state.class), element('span', {}, this.model.label(id)));
    this.kind.textContent = state.class === null ? this.model.files.find((it) => it.resource === id)?.uri ?? '' : `${state.class} · object ${id}`;
    for (const row of this.rows.values()) {
      row.update();
    }
  }

  /**
   * Makes a row for each feature.
   * @param {Id} id
   * @param {string | null} kind
   */
  make(id, kind) {
    this.title = element('h2', { tabindex: -1 });
    this.kind = element('p', { class: 'kind' });
    const add = (/** @type {MouseEvent} */ event) => this.add(id, /** @type {HTMLElement} */ (event.currentTarget));
    const hasParts = this.model.metamodel.partsOf(kind).length > 0;
    const form = element('form', { class: 'features', autocomplete: 'off', onsubmit: (/** @type {Event} */ it) => it.preventDefault() });
    for (const feature of this.model.metamodel.featuresOf(kind).values()) {
      const row = new Row(this, id, feature);
      this.rows.set(feature.name, row);
      form.append(row.element);
    }
    this.top.replaceChildren(
      element(
        'div', { class: 'heading' }, element('div', {}, this.title, this.kind),
        hasParts && element('button', { type: 'button', onclick: add }, icon('add'), 'New child'),
      ),
      form,
    );
  }
}

/** A feature of the node: its name, its field, its problems, and the last refusal. */
export class Row {
  /**
   * @param {Properties} panel
   * @param {Id} id
   * @param {Feature} feature
   */
  constructor(panel, id, feature) {
    this.panel = panel;
    this.model = panel.model;
    this.id = id;
    this.feature = feature;
    this.name = `f-${feature.name}`;
    this.refusal = element('p', { class: 'refusal', role: 'alert', id: `${this.name}-refusal` });
    this.shortage = element('p', { class: 'shortage' });
    this.none = iconButton('null', `Set ${feature.name} to null`, () => this.edit('set', { value: null }));
    this.unset = iconButton('unset', `Take ${feature.name} back to its default`, () => this.edit('unset'));
    /** @type {Field} */
    this.field = feature.many ? new ListField(this) : fieldOf(this);
    const must = feature.lower > 0 && element('span', { class: 'must', title: 'it has to have a value' }, '*');
    const label = element('label', { for: this.name, id: `${this.name}-label` }, feature.name, must);
    this.element = element(
      'div', { class: 'feature', 'data-feature': feature.name },
      element('div', { class: 'name' }, label, element('span', { class: 'type' }, typeText(feature))),
      element('div', { class: 'value' }, this.field.element, this.shortage, this.refusal),
      element('div', { class: 'actions' }, this.canBeNull() && this.none, this.canBeUnset() && this.unset),
    );
  }

  /** Whether there is a null that is not the default. @returns {boolean} */
  canBeNull() {
    const { feature } = this;
    return !feature.many && feature.type === 'EString' && !feature.refers && (feature.default !== null || !!feature.unsettable);
  }

  /** Whether a feature can be taken back to its default here. @returns {boolean} */
  canBeUnset() {
    return !this.feature.contains && !this.feature.holds;
  }

  /** What the feature has. @returns {any} */
  value() {
    const state = this.model.nodes.get(this.id);
    return state ? this.model.get(state, this.feature) : this.feature.many ? [] : null;
  }

  /** Shows the present values of the feature. */
  update() {
    const state = this.model.nodes.get(this.id);
    if (!state) {
      return;
    }
    const isSet = this.model.isSet(state, this.feature);
    this.element.classList.toggle('default', !isSet);
    this.unset.disabled = !isSet;
    this.none.disabled = this.value() === null;
    const isShort = this.model.problems.get(this.id)?.short.includes(this.feature.name);
    this.shortage.textContent = isShort ? shortageText(this.feature, this.value()) : '';
    this.field.update();
  }

  /**
   * Makes an edit of the feature, and shows its refusal here.
   * @param {string} name
   * @param {Record<string, any>} [words]
   * @returns {Promise<boolean>} whether it was done
   */
  async edit(name, words = {}) {
    try {
      await call(name, { object: this.id, feature: this.feature.name, ...words });
      this.refuse('');
      return true;
    } catch (refused) {
      this.refuse(/** @type {Error} */ (refused).message);
      return false;
    }
  }

  /** @param {string} text what was refused, or nothing */
  refuse(text) {
    this.refusal.textContent = text;
    this.element.classList.toggle('refused', text !== '');
    for (const input of this.element.querySelectorAll('input, textarea, select')) {
      input.setAttribute('aria-invalid', String(text !== ''));
      input.setAttribute('aria-describedby', `${this.name}-refusal`);
    }
  }
}

/**
 * The type of a feature, with its bounds if they are not 0..1.
 * @param {Feature} feature
 * @returns {string}
 */
function typeText(feature) {
  const upper = feature.upper < 0 ? '*' : feature.upper;
  const bounds = feature.lower === 0 && feature.upper === 1 ? '' : ` [${feature.lower}..${upper}]`;
  return `${feature.type || 'any class'}${bounds}`;
}

/**
 * How a feature has fewer values than its lower bound, in words.
 * @param {Feature} feature
 * @param {any} value
 * @returns {string}
 */
function shortageText(feature, value) {
  return feature.many ? `it has ${value.length}, and at least ${feature.lower} are wanted` : 'it has to have a value';
}
