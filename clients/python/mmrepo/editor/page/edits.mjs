// @ts-check
/** Edits the tree: new objects, deleting, and moving. */

import { counted, element } from './dom.mjs';
import { drags } from './drag.mjs';
import { attempt, confirm, say } from './dialogs.mjs';
import { known, openPicker } from './picker.mjs';
import { call } from './server.mjs';
import { goByKeys } from './keys.mjs';

/** @typedef {import('./model.mjs').Id} Id */
/** @typedef {import('./tree.mjs').Tree} Tree */
/** @typedef {import('./tree.mjs').Row} Row */
/** @typedef {import('./metamodel.mjs').Feature} Feature */
/**
 * Where something goes: the container, its feature if it is known, and the index.
 * @typedef {{node: Id, feature: Feature | null, at?: number}} Place
 */

export class TreeEdits {
  /** @param {Tree} tree */
  constructor(tree) {
    this.tree = tree;
    this.model = tree.model;
    goByKeys(tree, {
      Delete: () => this.delete(), Insert: () => this.add(), 'Ctrl+x': () => this.mark(), 'Ctrl+v': () => this.put(), Escape: () => this.unmark(),
      'Alt+ArrowUp': () => this.shift(-1), 'Alt+ArrowDown': () => this.shift(1),
    });
    drags(tree.top, {
      grab: (from) => this.grab(from),
      over: (what, event) => this.over(what, event),
      drop: (what, place) => this.drop(what, place),
    });
  }

  // New and deleted objects

  /**
   * Offers the classes of the children that a node can have, by feature.
   * @param {Id | null} [id]
   * @param {HTMLElement} [anchor]
   */
  add(id = this.tree.selected, anchor = this.anchor(id)) {
    const state = id === null ? undefined : this.model.nodes.get(id);
    if (id === null || !state) {
      say('Select a file or an object first: a new object goes into it.');
      return;
    }
    const choices = this.model.metamodel.partsOf(state.class).filter((it) => !this.isFull(id, it)).flatMap((feature) => (
      this.model.metamodel.concrete(feature.type).map((name) => ({ label: name, class: name, more: feature.name, value: [feature, name] }))
    ));
    if (choices.length === 0) {
      say(`${this.model.label(id)} has no room for a child.`);
    } else {
      openPicker(anchor, `New child of ${this.model.label(id)}`, known(choices), ([feature, name]) => this.make(id, feature, name));
    }
  }

  /**
   * The element at which a picker for a node opens.
   * @param {Id | null} id
   * @returns {HTMLElement}
   */
  anchor(id) {
    return document.getElementById(`row-${id}`) ?? this.tree.top;
  }

  /**
   * Makes an object, and selects it.
   * @param {Id} id
   * @param {Feature} feature
   * @param {string} name
   */
  async make(id, feature, name) {
    const made = await attempt(() => call('new', { node: id, feature: feature.name, class: name }));
    if (made) {
      await this.heard(made.number);
      this.tree.open.add(id);
      this.tree.remake();
      this.tree.select(made.done);
      this.tree.top.focus();
    }
  }

  /**
   * Waits until an event was received.
   * @param {number} number
   */
  async heard(number) {
    for (let tries = 0; tries < 500 && this.model.number < number; tries += 1) {
      await new Promise((done) => setTimeout(done, 5));
    }
  }

  /** Deletes the selected object, after it has said how many objects are destroyed. */
  async delete() {
    const id = this.tree.selected;
    if (typeof id !== 'number') {
      say('Select an object first. A file is never deleted; delete its objects.');
      return;
    }
    const holder = this.tree.rows[this.tree.at()]?.holder ?? null;
    const found = await attempt(() => call('below', { object: id }));
    const label = `${this.model.nodes.get(id)?.class ?? ''} “${this.model.label(id)}”`;
    const count = found?.count ?? 0;
    const says = count > 1 ? `${counted(count)} objects go: it and all that is below it.` : 'One object goes.';
    const yes = count > 1 ? `Delete ${counted(count)} objects` : 'Delete';
    if (found && (await confirm('Delete', [`Delete ${label}?`, `${says} References to what goes are taken out.`], yes))) {
      await attempt(() => call('delete', { object: id }));
      this.tree.select(holder);
    }
    this.tree.top.focus();
  }

  // Moving

  /** Marks the selected object to be moved (cut). */
  mark() {
    if (typeof this.tree.selected === 'number') {
      this.tree.marked = this.tree.selected;
      this.tree.drawSoon();
      say(`“${this.model.label(this.tree.selected)}” is cut: select a place and press Ctrl+V.`);
    }
  }

  unmark() {
    this.tree.marked = null;
    this.tree.drawSoon();
  }

  /** Moves the marked object into the selected node (paste). */
  put() {
    const { marked, selected } = this.tree;
    if (typeof marked === 'number' && selected !== null) {
      this.unmark();
      this.drop(marked, { node: selected, feature: null });
    }
  }

  /**
   * Moves the selected object up or down among its siblings.
   * @param {number} step
   */
  async shift(step) {
    const row = this.tree.rows[this.tree.at()];
    if (row && row.holder !== null && row.feature.many && row.index + step >= 0) {
      const { id, holder, feature, index } = row; // the row itself may be another one's soon
      await attempt(() => call('move', { node: holder, feature: feature.name, to: index + step, at: index, was: id }));
      setTimeout(() => this.tree.select(id), 60);
    }
  }

  /**
   * Whether a feature is full.
   * @param {Id} id
   * @param {Feature} feature
   * @returns {boolean}
   */
  isFull(id, feature) {
    const value = this.model.nodes.get(id)?.values[feature.name];
    return feature.many ? feature.upper >= 0 && (value ?? []).length >= feature.upper : value !== undefined;
  }

  /**
   * Moves an object to a place. If several features of the container can take it, the user is asked for one.
   * @param {number} what
   * @param {Place} place
   */
  async drop(what, place) {
    await this.tree.known([place.node, what]);
    const kind = this.model.nodes.get(what)?.class ?? '';
    const owner = this.model.nodes.get(place.node)?.class ?? null;
    const features = this.model.metamodel.partsOf(owner).filter((it) => this.model.metamodel.conforms(kind, it.type));
    const go = (/** @type {Feature} */ feature) => this.place(what, place.node, feature, place.feature === feature ? place.at : undefined);
    if (place.feature && features.includes(place.feature)) {
      go(place.feature);
    } else if (features.length === 1) {
      go(features[0]);
    } else if (features.length === 0) {
      say(`TYPE: ${owner ?? 'a file'} has no feature that contains a ${kind}`, true);
    } else {
      const choices = features.map((it) => ({ label: it.name, more: it.type, value: it }));
      openPicker(this.anchor(place.node), `Put “${this.model.label(what)}” into`, known(choices), go);
    }
  }

  /**
   * @param {number} what
   * @param {Id} node
   * @param {Feature} feature
   * @param {number | undefined} at
   */
  async place(what, node, feature, at) {
    const done = await attempt(() => call('place', { object: what, node, feature: feature.name, at }));
    if (done) {
      await this.heard(done.number);
      this.tree.open.add(node);
      await this.tree.known([node]);
      this.tree.remake();
      this.tree.select(what);
    }
  }

  // Dragging

  /**
   * @param {Element} from
   * @returns {{what: number, label: string} | null}
   */
  grab(from) {
    const found = /** @type {HTMLElement | null} */ (from.closest('.row'));
    const row = found && !from.closest('.twist') ? this.tree.rows[Number(found.dataset.at)] : undefined;
    return row && typeof row.id === 'number' ? { what: row.id, label: this.model.label(row.id) } : null;
  }

  /**
   * Shows where a dragged object would go, and returns that place: at the edges of a row before or after it, otherwise into it.
   * @param {number} what
   * @param {PointerEvent | null} event
   * @returns {Place | null}
   */
  over(what, event) {
    this.line?.remove();
    const under = event && document.elementFromPoint(event.clientX, event.clientY)?.closest('.row');
    if (!event || !(under instanceof HTMLElement)) {
      return null;
    }
    const row = this.tree.rows[Number(under.dataset.at)];
    const { top, height } = under.getBoundingClientRect();
    const part = (event.clientY - top) / height;
    const isBetween = row.holder !== null && row.feature.many && (part < 0.25 || part > 0.75);
    this.line = element('div', { class: `drop ${isBetween ? (part < 0.5 ? 'before' : 'after') : 'inside'}` });
    under.append(this.line);
    if (isBetween && row.holder !== null) {
      return { node: row.holder, feature: row.feature, at: row.index + (part < 0.5 ? 0 : 1) };
    }
    return row.id === what ? null : { node: row.id, feature: null };
  }
}
