// @ts-check
/** Asks for all nodes again, and compares them with what this window knows by notifications. */

import { call } from './server.mjs';
import { counted, element } from './dom.mjs';
import { attempt, showLines } from './dialogs.mjs';

/** @typedef {import('./model.mjs').Model} Model */
/** @typedef {import('./model.mjs').Id} Id */
/** @typedef {import('./model.mjs').State} State */

const TOGETHER = 500; // nodes that are asked for at once
const TRIES = 20; // at a part of the model that others edit at the same time
const MOST = 20; // differences that are listed

/**
 * The differences, and how much was compared.
 * @typedef {{nodes: number, values: number, objects: number, differences: string[]}} Verified
 */

/**
 * Compares all nodes that the window knows with the repository, and then all that the server knows.
 * @param {Model} model
 * @returns {Promise<Verified>}
 */
export async function verify(model) {
  /** @type {Verified} */
  const done = { nodes: 0, values: 0, objects: 0, differences: [] };
  const ids = [...model.nodes.keys()];
  for (let at = 0; at < ids.length; at += TOGETHER) {
    await compareSome(model, ids.slice(at, at + TOGETHER), done);
  }
  const found = await call('compared');
  done.objects = found.objects;
  done.differences.push(...found.differences.map((/** @type {string} */ it) => `in the server: ${it}`));
  return done;
}

/**
 * Compares some nodes, when the window has received all events up to the answer.
 * @param {Model} model
 * @param {Id[]} ids
 * @param {Verified} done
 */
async function compareSome(model, ids, done) {
  for (let tries = 0; tries < TRIES; tries += 1) {
    const found = await call('asked', { nodes: ids });
    for (let waits = 0; waits < 200 && model.number < found.number; waits += 1) {
      await new Promise((wait) => setTimeout(wait, 10));
    }
    if (model.number === found.number || tries === TRIES - 1) {
      for (const id of ids.filter((it) => model.nodes.has(it))) {
        compare(model, id, found.nodes[id], done);
      }
      return;
    }
  }
}

/**
 * Compares a node.
 * @param {Model} model
 * @param {Id} id
 * @param {any} there
 * @param {Verified} done
 */
function compare(model, id, there, done) {
  const here = /** @type {State} */ (model.nodes.get(id));
  const differ = (/** @type {string} */ what, /** @type {any} */ one, /** @type {any} */ other) => {
    if (JSON.stringify(one) !== JSON.stringify(other)) {
      done.differences.push(`${model.label(id)} (${id})${what}: here ${shown(one)}, there ${shown(other)}`);
    }
  };
  done.nodes += 1;
  if (!there) {
    done.differences.push(`${model.label(id)} (${id}): here it is there, and there it is deleted`);
    return;
  }
  differ(', its class', here.class, there.class);
  differ(', its container', here.in?.[0] ?? null, there.in?.[0] ?? null);
  differ(', what is set', [...here.flags].sort(), there.flags);
  for (const feature of model.metamodel.featuresOf(here.class).values()) {
    done.values += 1;
    differ(`.${feature.name}`, here.values[feature.name], there.values[feature.name]);
  }
}

/**
 * A value in a difference.
 * @param {any} value
 * @returns {string}
 */
function shown(value) {
  const text = value === undefined ? 'the default' : JSON.stringify(value);
  return text.length > 80 ? `${text.slice(0, 80)} ..` : text;
}

/**
 * Verifies, and shows the outcome.
 * @param {Model} model
 */
export async function showVerified(model) {
  const done = await attempt(() => verify(model));
  if (done) {
    const here = `This window has ${counted(done.values)} values of ${counted(done.nodes)} nodes`;
    const says = `${here}, and the server ${counted(done.objects)} objects: all kept by notices.`;
    const isEqual = done.differences.length === 0;
    const again = element('button', { type: 'button', onclick: () => location.reload() }, 'Load again');
    const more = done.differences.length > MOST ? [`.. and ${counted(done.differences.length - MOST)} more`] : [];
    const lines = [...done.differences.slice(0, MOST), ...more];
    const outcome = isEqual ? 'All was asked for once more, and is the same.' : 'It differs from the repository here:';
    const box = showLines(isEqual ? 'Equal' : 'Not equal', `${says} ${outcome}`, lines, isEqual ? [] : [again]);
    box.classList.add(isEqual ? 'equal' : 'unequal');
  }
}
