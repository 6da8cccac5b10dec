// @ts-check
/** What this window knows of the model: nodes that it has asked for once, and has kept up to date by notifications alone. */

import { call } from './server.mjs';
import { Metamodel } from './metamodel.mjs';

/** @typedef {import('./metamodel.mjs').Feature} Feature */
/** An object by its number, a resource by its word. @typedef {number | string} Id */
/**
 * The kind, the node, the feature, the value before and after, the position, and the class of the node.
 * @typedef {[string, Id, string, any, any, number, string | null]} Notice
 */
/** @typedef {{short: string[], proxies: [string, number][]}} Problem */
/** @typedef {{resource: string, name: string, uri: string, folder: number | null}} File */

/**
 * The values of a node other than defaults. `number` is the last event before the answer.
 * @typedef {object} State
 * @property {string | null} class null for a resource
 * @property {Record<string, any>} values
 * @property {Set<string>} flags
 * @property {[Id, string | null] | null} in
 * @property {number} number
 */

/**
 * @typedef {object} Event
 * @property {number} number
 * @property {Notice[]} [notices]
 * @property {number[]} [gone]
 * @property {{objects: Record<string, Problem | null>, count: number, short: number, proxies: number}} [problems]
 * @property {string[]} [changed]
 * @property {File[]} [resources]
 */

const MOST = 3_000; // nodes that are kept, whether they are seen or not
const TOGETHER = 1_000; // nodes that are asked for at once
const NAMES = ['name', 'id'];

export class Model {
  /** @param {any} start what the server says at first */
  constructor(start) {
    this.metamodel = new Metamodel(start.metamodel);
    /** @type {Map<Id, State>} */
    this.nodes = new Map();
    /** @type {Map<Id, Problem>} */
    this.problems = new Map();
    this.counts = start.problems;
    /** @type {File[]} */
    this.files = start.resources;
    /** @type {Set<string>} */
    this.changed = new Set(start.changed);
    this.number = start.number;
    /** How often each node was asked for. @type {Map<Id, number>} */
    this.asked = new Map();
    /** @type {Set<Id>} */
    this.wanted = new Set();
    /** What was asked for and is in no resource. @type {Set<Id>} */
    this.absent = new Set();
    /** @type {Event[]} */
    this.recent = [];
    this.pending = 0;
    /** @type {((touched: Set<Id>, event: Event | null) => void)[]} */
    this.hearers = [];
    /** What gives the nodes that are seen. @type {(() => Iterable<Id>)[]} */
    this.users = [];
  }

  // Asking the server

  /**
   * The state of a node. If it is not known, the node is asked for, and the listeners are called when the answer comes.
   * @param {Id} id
   * @returns {State | undefined}
   */
  need(id) {
    const found = this.nodes.get(id);
    if (!found && !this.wanted.has(id) && !this.absent.has(id)) {
      if (this.wanted.size === 0) {
        queueMicrotask(() => this.ask());
      }
      this.wanted.add(id);
    }
    return found;
  }

  /** Asks for the nodes that are wanted. */
  async ask() {
    const ids = [...this.wanted].slice(0, TOGETHER);
    this.pending += 1;
    let found;
    try {
      found = await call('nodes', { nodes: ids });
    } catch {
      found = null; // the stream of events ends if the server is gone
    }
    this.pending -= 1;
    ids.forEach((id) => this.wanted.delete(id));
    if (found) {
      this.take(ids, found);
    }
    if (this.pending === 0) {
      this.recent.length = 0;
    }
    if (this.wanted.size > 0) {
      this.ask();
    }
  }

  /**
   * Takes the answer for some nodes, and replays the later events on them.
   * @param {Id[]} ids
   * @param {any} found
   */
  take(ids, found) {
    const came = new Set();
    for (const id of ids) {
      const read = found.nodes[id];
      this.asked.set(id, (this.asked.get(id) ?? 0) + 1);
      if (read) {
        this.nodes.set(id, { class: read.class, values: read.values, flags: new Set(read.flags), in: read.in, number: found.number });
        came.add(id);
      } else {
        this.absent.add(id);
      }
      found.problems[id] ? this.problems.set(id, found.problems[id]) : this.problems.delete(id);
    }
    for (const event of this.recent) {
      this.replay(event, came);
    }
    this.forget();
    this.hearers.forEach((hear) => hear(came, null));
  }

  /** Forgets nodes that are not visible, if there are many. */
  forget() {
    if (this.nodes.size > MOST) {
      const seen = new Set(this.users.flatMap((use) => [...use()]));
      for (const id of this.nodes.keys()) {
        if (!seen.has(id)) {
          this.nodes.delete(id);
          this.problems.delete(id);
          this.asked.delete(id);
        }
      }
    }
  }

  // Events

  /**
   * Handles an event.
   * @param {Event} event
   */
  hear(event) {
    this.number = event.number;
    if (this.pending > 0) {
      this.recent.push(event);
    }
    const touched = this.replay(event, null);
    if (event.problems) {
      const { objects, ...counts } = event.problems;
      this.counts = { ...this.counts, ...counts };
    }
    if (event.changed) {
      const now = new Set(event.changed);
      [...now, ...this.changed].filter((it) => now.has(it) !== this.changed.has(it)).forEach((it) => touched.add(it));
      this.changed = now;
    }
    this.files = event.resources ?? this.files;
    this.hearers.forEach((hear) => hear(touched, event));
  }

  /**
   * Replays an event on all nodes that were asked for before it, or on some of them. Returns the nodes that it has changed.
   * @param {Event} event
   * @param {Set<Id> | null} only
   * @returns {Set<Id>}
   */
  replay(event, only) {
    /** @type {Set<Id>} */
    const touched = new Set();
    const at = (/** @type {Id} */ id) => {
      const found = only && !only.has(id) ? undefined : this.nodes.get(id);
      return found && found.number < event.number ? found : undefined;
    };
    for (const notice of event.notices ?? []) {
      const state = at(notice[1]);
      const feature = state && this.metamodel.featuresOf(state.class).get(notice[2]);
      if (state && feature) {
        apply(state, feature, notice);
      }
      touched.add(notice[1]);
      this.absent.delete(notice[4]);
      this.follow(notice, at);
    }
    for (const [key, problem] of Object.entries(event.problems?.objects ?? {})) {
      if (at(Number(key))) {
        problem ? this.problems.set(Number(key), problem) : this.problems.delete(Number(key));
      }
      touched.add(Number(key));
    }
    for (const id of event.gone ?? []) {
      at(id) && this.nodes.delete(id);
      this.problems.delete(id);
      touched.add(id);
    }
    return touched;
  }

  /**
   * Follows objects that leave a container, and objects that get one.
   * @param {Notice} notice
   * @param {(id: Id) => State | undefined} at
   */
  follow([kind, node, name, old, now, , owner], at) {
    if (!this.metamodel.featuresOf(owner).get(name)?.contains || kind === 'MOVE' || old === now) {
      return;
    }
    const left = typeof old === 'number' ? at(old) : undefined;
    if (left && left.in && left.in[0] === node && left.in[1] === name) {
      left.in = null;
    }
    const came = typeof now === 'number' ? at(now) : undefined;
    if (came) {
      came.in = [node, name];
    }
  }

  // Known nodes

  /**
   * The value of a feature of a node; its default if it has no value.
   * @param {State} state
   * @param {Feature} feature
   * @returns {any}
   */
  get(state, feature) {
    return state.values[feature.name] ?? (feature.many ? [] : feature.default ?? null);
  }

  /**
   * Whether a feature is set.
   * @param {State} state
   * @param {Feature} feature
   * @returns {boolean}
   */
  isSet(state, feature) {
    return feature.unsettable ? state.flags.has(feature.name) : feature.name in state.values;
  }

  /**
   * The name of a node for a reader.
   * @param {Id} id
   * @returns {string}
   */
  label(id) {
    if (typeof id === 'string') {
      return this.files.find((it) => it.resource === id)?.name ?? id;
    }
    const state = this.need(id);
    if (!state) {
      return this.absent.has(id) ? `object ${id}, in no resource` : '…';
    }
    const features = this.metamodel.featuresOf(state.class);
    for (const name of NAMES) {
      const feature = features.get(name);
      const text = feature?.type === 'EString' && !feature.many ? state.values[name] : null;
      if (text) {
        return text;
      }
    }
    return `${state.class} ${id}`;
  }

  /**
   * Whether a node contains something.
   * @param {Id} id
   * @returns {boolean}
   */
  hasParts(id) {
    const state = this.nodes.get(id);
    return !!state && this.metamodel.partsOf(state.class).some((it) => it.name in state.values);
  }
}

/**
 * Changes the end that a notification names, as docs/ADAPTERS.md says. A notification that can't be true is skipped.
 * @param {State} state
 * @param {Feature} feature
 * @param {Notice} notice
 */
function apply(state, feature, [kind, , name, old, now, at]) {
  if (kind === 'SET' || kind === 'UNSET' || (kind === 'RESOLVE' && at < 0)) {
    if (now === (feature.default ?? null)) {
      delete state.values[name];
    } else {
      state.values[name] = now;
    }
    if (feature.unsettable) {
      kind === 'SET' ? state.flags.add(name) : state.flags.delete(name);
    }
    return;
  }
  /** @type {any[]} */
  const values = state.values[name] ?? (state.values[name] = []);
  if (kind === 'ADD' && at <= values.length) {
    values.splice(at, 0, now);
  } else if (kind === 'REMOVE' && at < values.length) {
    values.splice(at, 1);
  } else if (kind === 'MOVE' && Math.max(old, at) < values.length) {
    values.splice(at, 0, ...values.splice(old, 1));
  } else if (kind === 'RESOLVE' && at < values.length) {
    values[at] = now;
  }
  if (values.length === 0) {
    delete state.values[name];
  }
}
