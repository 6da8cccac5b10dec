// @ts-check
/** A list from which one choice is picked, filtered by the typed text: the combobox pattern of ARIA. */

import { badge, change, counted, element } from './dom.mjs';

/**
 * A choice: its label, its class if it has one, and a text after it.
 * @typedef {{label: string, class?: string | null, more?: string, value: any}} Choice
 */

/**
 * Returns the choices for a text, and how many more there are.
 * @typedef {(text: string) => Promise<{choices: Choice[], count: number}>} Source
 */

/** @type {Picker | null} */
let open = null;

/**
 * Opens a picker at an element.
 * @param {HTMLElement} anchor
 * @param {string} label
 * @param {Source} source
 * @param {(value: any) => void} pick
 */
export function openPicker(anchor, label, source, pick) {
  open?.close(false);
  open = new Picker(anchor, label, source, pick);
}

class Picker {
  /**
   * @param {HTMLElement} anchor
   * @param {string} label
   * @param {Source} source
   * @param {(value: any) => void} pick
   */
  constructor(anchor, label, source, pick) {
    this.anchor = anchor;
    this.source = source;
    this.pick = pick;
    this.at = 0;
    this.asked = 0;
    /** @type {Choice[]} */
    this.choices = [];
    this.list = element('ul', { id: 'choices', role: 'listbox', 'aria-label': label, onpointerdown: (/** @type {Event} */ it) => this.press(it) });
    this.input = element('input', {
      type: 'text', role: 'combobox', 'aria-label': label, 'aria-expanded': 'true', 'aria-controls': 'choices', 'aria-autocomplete': 'list',
      placeholder: 'Type to filter', autocomplete: 'off', spellcheck: 'false', oninput: () => this.ask(),
      onkeydown: (/** @type {KeyboardEvent} */ it) => this.key(it), onblur: () => this.close(false),
    });
    this.more = element('p', { class: 'more', role: 'status' });
    this.box = element('div', { class: 'picker' }, element('p', { class: 'title' }, label), this.input, this.list, this.more);
    document.body.append(this.box);
    this.position();
    this.input.focus();
    this.ask();
  }

  /** Puts the box beside its anchor, within the window. */
  position() {
    const at = this.anchor.getBoundingClientRect();
    const { offsetWidth: width, offsetHeight: height } = this.box;
    const below = at.bottom + 4 + height <= innerHeight || at.top < height;
    this.box.style.left = `${Math.max(8, Math.min(at.left, innerWidth - width - 8))}px`;
    this.box.style.top = `${Math.max(8, Math.min(below ? at.bottom + 4 : at.top - height - 4, innerHeight - height - 8))}px`;
  }

  /** Asks for the choices. An answer that comes too late is dropped. */
  async ask() {
    this.asked += 1;
    const number = this.asked;
    const found = await this.source(this.input.value).catch((error) => ({ choices: [], count: 0, error }));
    if (number === this.asked) {
      this.choices = found.choices;
      this.at = 0;
      const left = found.count - found.choices.length;
      const none = 'error' in found ? found.error.message : 'nothing conforms';
      this.more.textContent = found.count === 0 ? none : left > 0 ? `${counted(left)} more: type to filter` : '';
      this.draw();
      this.position();
    }
  }

  /** Draws the list. */
  draw() {
    this.list.replaceChildren(...this.choices.map((it, at) => element(
      'li', { id: `choice-${at}`, role: 'option', 'aria-selected': String(at === this.at), 'data-at': at },
      it.class !== undefined && badge(it.class), element('span', { class: 'label' }, it.label), element('span', { class: 'where' }, it.more ?? ''),
    )));
    change(this.input, { 'aria-activedescendant': this.choices.length > 0 ? `choice-${this.at}` : undefined });
    this.list.children[this.at]?.scrollIntoView({ block: 'nearest' });
  }

  /** @param {KeyboardEvent} event */
  key(event) {
    const step = { ArrowDown: 1, ArrowUp: -1, PageDown: 8, PageUp: -8 }[event.key];
    if (event.key === 'Escape') {
      this.close(true);
    } else if (event.key === 'Enter') {
      this.choose(this.choices[this.at]);
    } else if (step) {
      this.at = Math.max(0, Math.min(this.at + step, this.choices.length - 1));
      this.draw();
    } else {
      return;
    }
    event.preventDefault();
    event.stopPropagation();
  }

  /** @param {Event} event */
  press(event) {
    event.preventDefault(); // the input keeps the focus
    const found = event.target instanceof Element ? event.target.closest('li') : null;
    found && this.choose(this.choices[Number(found.dataset.at)]);
  }

  /** @param {Choice | undefined} choice */
  choose(choice) {
    if (choice) {
      this.close(true);
      this.pick(choice.value);
    }
  }

  /** @param {boolean} isBack whether the focus goes back to where it was */
  close(isBack) {
    if (open === this) {
      open = null;
      this.box.remove();
      isBack && this.anchor.isConnected && this.anchor.focus();
    }
  }
}

/**
 * A source of known choices.
 * @param {Choice[]} choices
 * @returns {Source}
 */
export function known(choices) {
  return async (text) => {
    const found = choices.filter((it) => `${it.label} ${it.more ?? ''}`.toLowerCase().includes(text.toLowerCase()));
    return { choices: found.slice(0, 200), count: found.length };
  };
}
