// @ts-check
/** The page: makes its parts, and receives the events. */

import { byId, element } from './dom.mjs';
import { showLines } from './dialogs.mjs';
import { TreeEdits } from './edits.mjs';
import { Files } from './files.mjs';
import { Model } from './model.mjs';
import { Pictures } from './picture.mjs';
import { Properties } from './properties.mjs';
import { Problems, Search } from './search.mjs';
import { call, listen } from './server.mjs';
import { Tree } from './tree.mjs';
import { showVerified, verify } from './verify.mjs';

/** @typedef {import('./model.mjs').Id} Id */

/**
 * Makes the parts of the page.
 * @param {any} start what the server says at first
 */
function begin(start) {
  const model = new Model(start);
  byId('meta').textContent = start.file.split('/').pop();
  const add = (/** @type {Id} */ id, /** @type {HTMLElement} */ at) => edits.add(id, at);
  const tree = new Tree(byId('tree'), model, (id) => properties.show(id), add);
  const go = async (/** @type {Id} */ id) => {
    const [found] = await call('hits', { nodes: [id] });
    found && tree.reveal(found.path);
  };
  const properties = new Properties(byId('properties'), model, go, add);
  const edits = new TreeEdits(tree);
  const files = new Files(start, model, tree);
  const pictures = new Pictures(model, () => tree.selected, go);
  const search = new Search(model, (path) => tree.reveal(path));
  const problems = new Problems(model, (path) => tree.reveal(path));
  byId('new-child').addEventListener('click', () => edits.add(tree.selected, byId('new-child')));
  byId('delete').addEventListener('click', () => edits.delete());
  byId('picture').addEventListener('click', () => pictures.open());
  byId('verify').addEventListener('click', () => showVerified(model));
  splitter();
  listen(start.number, (event) => model.hear(event), connected);
  if (start.findings.length > 0) {
    findings(start.findings);
  }
  // For the console of the browser.
  Object.assign(window, { mmrepo: { model, tree, properties, edits, files, pictures, search, problems, call, verify: () => verify(model) } });
}

/**
 * Shows whether the server answers.
 * @param {'open' | 'waiting' | 'lost' | 'ended'} state
 */
function connected(state) {
  const says = {
    open: 'connected', waiting: 'the editor does not answer: trying again', lost: 'too much was missed',
    ended: 'this window hears nothing: close other windows, and load it again',
  };
  byId('connection').textContent = says[state];
  byId('connection').className = state;
  if (state === 'lost') {
    location.reload();
  }
}

/**
 * Offers a list of what could not be opened.
 * @param {string[]} lines
 */
function findings(lines) {
  const says = `${lines.length} ${lines.length === 1 ? 'finding' : 'findings'}`;
  const show = () => showLines('Findings', 'This was found when the folders were opened:', lines);
  byId('findings').replaceChildren(element('button', { type: 'button', class: 'small', onclick: show }, says));
}

/** Makes the border between the tree and the properties movable, by pointer and by keys. */
function splitter() {
  const bar = byId('splitter');
  const set = (/** @type {number} */ part) => {
    const kept = Math.max(15, Math.min(85, part));
    bar.parentElement?.style.setProperty('--part', `${kept}%`);
    bar.setAttribute('aria-valuenow', String(Math.round(kept)));
  };
  bar.addEventListener('pointerdown', (/** @type {PointerEvent} */ down) => {
    bar.setPointerCapture(down.pointerId);
    const box = bar.parentElement.getBoundingClientRect();
    const move = (/** @type {PointerEvent} */ event) => set(((event.clientX - box.left) / box.width) * 100);
    bar.addEventListener('pointermove', move);
    bar.addEventListener('pointerup', () => bar.removeEventListener('pointermove', move), { once: true });
  });
  bar.addEventListener('keydown', (/** @type {KeyboardEvent} */ event) => {
    const step = { ArrowLeft: -2, ArrowRight: 2 }[event.key];
    step && set(Number(bar.getAttribute('aria-valuenow')) + step);
  });
}

try {
  begin(await call('start'));
} catch (error) {
  byId('tree').replaceChildren(element('p', { class: 'hint' }, `The editor can't begin: ${/** @type {Error} */ (error).message}`));
  throw error;
}
