// @ts-check
/** The keys of the tree, as the tree pattern of ARIA has them. */

import { HEIGHT } from './tree.mjs';

/** @typedef {import('./tree.mjs').Tree} Tree */
/** @typedef {import('./tree.mjs').Row} Row */

const SECONDS = 0.8; // within which letters belong together

/**
 * Moves through a tree by keys. The keys that edit call `edits`.
 * @param {Tree} tree
 * @param {Record<string, () => void>} edits
 */
export function goByKeys(tree, edits) {
  /** @type {Record<string, (at: number) => number | void>} */
  const moves = {
    ArrowDown: (at) => at + 1,
    ArrowUp: (at) => at - 1,
    Home: () => 0,
    End: () => tree.rows.length - 1,
    PageDown: (at) => at + page(tree),
    PageUp: (at) => at - page(tree),
    ArrowRight: (at) => inward(tree, at),
    ArrowLeft: (at) => outward(tree, at),
    Enter: (at) => tree.toggle(tree.rows[at]?.id ?? null),
    ' ': (at) => tree.toggle(tree.rows[at]?.id ?? null),
  };
  tree.top.addEventListener('keydown', (event) => {
    const edit = edits[named(event)];
    const move = moves[event.key];
    if (edit) {
      edit();
    } else if (move && !event.ctrlKey && !event.altKey && !event.metaKey) {
      const to = move(tree.at());
      if (typeof to === 'number' && tree.rows.length > 0) {
        tree.select(tree.rows[Math.max(0, Math.min(to, tree.rows.length - 1))].id);
      }
    } else if (!byLetters(tree, event)) {
      return;
    }
    event.preventDefault();
  });
}

/**
 * The name of a key with its modifiers.
 * @param {KeyboardEvent} event
 * @returns {string}
 */
function named(event) {
  return `${event.ctrlKey || event.metaKey ? 'Ctrl+' : ''}${event.altKey ? 'Alt+' : ''}${event.key}`;
}

/**
 * The number of rows that fit on the screen.
 * @param {Tree} tree
 * @returns {number}
 */
function page(tree) {
  return Math.max(1, Math.floor(tree.top.clientHeight / HEIGHT) - 1);
}

/**
 * Opens a row, or goes to its first part.
 * @param {Tree} tree
 * @param {number} at
 * @returns {number | void}
 */
function inward(tree, at) {
  const row = tree.rows[at];
  if (row && tree.model.hasParts(row.id)) {
    return tree.open.has(row.id) ? at + 1 : tree.toggle(row.id);
  }
}

/**
 * Closes a row, or goes to its container.
 * @param {Tree} tree
 * @param {number} at
 * @returns {number | void}
 */
function outward(tree, at) {
  const row = tree.rows[at];
  if (row && tree.open.has(row.id) && tree.model.hasParts(row.id)) {
    return tree.toggle(row.id);
  }
  return row && row.holder !== null ? tree.rows.findIndex((it) => it.id === row.holder) : undefined;
}

/**
 * Goes to the next row whose label begins with the typed letters. The labels of rows that were never visible are not known.
 * @param {Tree} tree
 * @param {KeyboardEvent} event
 * @returns {boolean} whether the key was a letter
 */
function byLetters(tree, event) {
  if (event.key.length !== 1 || event.ctrlKey || event.altKey || event.metaKey) {
    return false;
  }
  const now = tree.letters + event.key.toLowerCase();
  tree.letters = now;
  setTimeout(() => tree.letters === now && (tree.letters = ''), SECONDS * 1000);
  const from = tree.at() + (now.length === 1 ? 1 : 0);
  const rows = [...tree.rows.slice(from), ...tree.rows.slice(0, from)];
  const found = rows.find((row) => tree.model.nodes.has(row.id) && tree.model.label(row.id).toLowerCase().startsWith(now));
  found && tree.select(found.id);
  return true;
}
