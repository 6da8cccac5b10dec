// @ts-check
/** Files: saving, new files, and import and export of XMI and documents. */

import { byId, element, option } from './dom.mjs';
import { attempt, confirm, fill, say, showLines } from './dialogs.mjs';
import { Refused, call } from './server.mjs';

/** @typedef {import('./model.mjs').Model} Model */
/** @typedef {import('./model.mjs').Id} Id */
/** @typedef {import('./tree.mjs').Tree} Tree */

const LONGEST = 17_000_000; // bytes of a file that comes in

export class Files {
  /**
   * @param {any} start
   * @param {Model} model
   * @param {Tree} tree
   */
  constructor(start, model, tree) {
    this.model = model;
    this.tree = tree;
    /** @type {string[]} */
    this.folders = start.folders;
    this.hasEcore = start.has_ecore;
    byId('save').addEventListener('click', () => this.save(false));
    byId('new-file').addEventListener('click', () => this.make());
    byId('import').addEventListener('click', () => this.takeIn());
    byId('export').addEventListener('click', () => this.giveOut());
    addEventListener('keydown', (event) => {
      if ((event.ctrlKey || event.metaKey) && event.key === 's') {
        event.preventDefault();
        this.save(false);
      }
    });
    model.hearers.push((_, event) => event && this.update());
    this.update();
  }

  /** Marks the files that have unsaved edits. */
  update() {
    const { size } = this.model.changed;
    byId('save').classList.toggle('primary', size > 0);
    byId('saved').textContent = size === 0 ? '' : `${size} ${size === 1 ? 'file' : 'files'} edited`;
    document.title = `${size > 0 ? '● ' : ''}${byId('meta').textContent} · mmrepo`;
  }

  /**
   * Saves the changed files. Shows what prevents it, and saves by force if that is possible and the user wants it.
   * @param {boolean} force
   */
  async save(force) {
    /** @type {any} */ (document.activeElement)?.blur?.(); // what is typed is sent
    await new Promise((done) => setTimeout(done, 30));
    const done = await attempt(() => call('save', { force }));
    if (done?.findings && done.force) {
      if (await confirm('Nothing was saved', [...done.findings, 'Save all the same, and overwrite what is there?'], 'Overwrite')) {
        await this.save(true);
      }
    } else if (done?.findings) {
      showLines('Nothing was saved', 'This is in the way:', done.findings);
    } else if (done) {
      say(done.saved.length === 0 ? 'Nothing has changed: no file was written.' : `Saved ${done.saved.join(', ')}`);
    }
  }

  /** The field for the folder, if there are several. @returns {HTMLElement[]} */
  folderField() {
    this.folder = element('select', { id: 'folder' }, ...this.folders.map((it, at) => option(at, it)));
    return this.folders.length > 1 ? [element('label', { for: 'folder' }, 'Folder'), this.folder] : [];
  }

  /** Makes a new file. */
  make() {
    const name = element('input', { id: 'file-name', type: 'text', value: 'new.json', spellcheck: 'false' });
    const label = element('label', { for: 'file-name' }, 'Name, as town.json or sub/town.json');
    fill('New file', [...this.folderField(), label, name], 'Make', async () => {
      this.check();
      const made = await call('new file', { folder: Number(this.folder.value), name: name.value });
      this.tree.open.add(made.resource);
      setTimeout(() => this.tree.reveal([made.resource]), 60);
    });
  }

  /** Throws a Refused if there is no folder. */
  check() {
    if (this.folders.length === 0) {
      throw new Refused('NO_FOLDER', 'No folder is open: start the editor with one, as: python3 -m mmrepo edit META FOLDER');
    }
  }

  /** Imports a file. */
  takeIn() {
    const file = element('input', { id: 'file-in', type: 'file', accept: this.hasEcore ? undefined : '.json' });
    const kinds = this.hasEcore ? 'An XMI file, or a document (.json)' : 'A document (.json). For XMI start the editor with --ecore FILE';
    fill('Import', [...this.folderField(), element('label', { for: 'file-in' }, kinds), file], 'Import', async () => {
      this.check();
      const chosen = /** @type {File | undefined} */ (file.files?.[0]);
      if (!chosen || chosen.size > LONGEST) {
        throw new Refused('FILE', chosen ? 'The file is too long: it has more than 17,000,000 bytes' : 'Choose a file');
      }
      const data = base64(new Uint8Array(await chosen.arrayBuffer()));
      const made = await call('import', { folder: Number(this.folder.value), name: chosen.name, data });
      made.notes.length > 0 && showLines('Imported', `${made.count} objects came in. This was left out or bent:`, made.notes);
      this.tree.open.add(made.resource);
      setTimeout(() => this.tree.reveal([made.resource]), 60);
    });
  }

  /** Exports a file, which the browser saves. */
  giveOut() {
    const path = this.selectedFile();
    const kind = element('select', { id: 'kind' }, this.hasEcore && option('xmi', 'XMI'), option('json', 'document (.json)'));
    const options = this.model.files.map((it) => option(it.resource, it.name, it.resource === path));
    const which = element('select', { id: 'which' }, ...options);
    fill('Export', [element('label', { for: 'which' }, 'File'), which, element('label', { for: 'kind' }, 'As'), kind], 'Export', async () => {
      const made = await call('export', { node: which.value, xmi: kind.value === 'xmi' });
      const url = URL.createObjectURL(new Blob([made.text], { type: 'application/octet-stream' }));
      element('a', { href: url, download: made.name }).click();
      setTimeout(() => URL.revokeObjectURL(url), 10_000);
      say(`Exported ${made.name}`);
    });
  }

  /** The resource of what is selected. @returns {Id | undefined} */
  selectedFile() {
    let at = this.tree.selected;
    while (typeof at === 'number') {
      at = this.model.nodes.get(at)?.in?.[0] ?? null;
    }
    return at ?? this.model.files[0]?.resource;
  }
}

/**
 * Bytes as base64.
 * @param {Uint8Array} bytes
 * @returns {string}
 */
function base64(bytes) {
  let text = '';
  for (let at = 0; at < bytes.length; at += 32_768) {
    text += String.fromCharCode(...bytes.subarray(at, at + 32_768));
  }
  return btoa(text);
}
