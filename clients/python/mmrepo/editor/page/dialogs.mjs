// @ts-check
/** Dialogs, and short messages at the edge of the page. */

import { byId, element, icon, iconButton } from './dom.mjs';

const SECONDS = 8; // that a message stays

/**
 * Shows a short message. A screen reader reads an error at once.
 * @param {string} text
 * @param {boolean} [isWrong]
 */
export function say(text, isWrong = false) {
  const kind = isWrong ? { class: 'message wrong', role: 'alert' } : { class: 'message', role: 'status' };
  const made = element('div', kind, isWrong && icon('warning'), element('span', {}, text));
  const close = () => made.remove();
  made.append(iconButton('close', 'Close the message', close));
  byId('messages').append(made);
  setTimeout(close, SECONDS * 1000);
}

/**
 * Does something, and shows a message if it is refused.
 * @template T
 * @param {() => Promise<T>} does
 * @returns {Promise<T | undefined>}
 */
export async function attempt(does) {
  try {
    return await does();
  } catch (refused) {
    say(/** @type {Error} */ (refused).message, true);
    return undefined;
  }
}

/**
 * A dialog with a title. The caller adds the content.
 * @param {string} title
 * @param {string} [kind] a class of its element
 * @returns {{box: HTMLDialogElement, body: HTMLElement, foot: HTMLElement}}
 */
export function makeDialog(title, kind = '') {
  const body = element('div', { class: 'body' });
  const foot = element('div', { class: 'foot' });
  const box = element(
    'dialog', { class: kind, 'aria-label': title, onclose: () => box.remove() },
    element('div', { class: 'head' }, element('h2', {}, title), iconButton('close', 'Close', () => box.close())), body, foot,
  );
  document.body.append(box);
  box.showModal();
  return { box, body, foot };
}

/**
 * Asks a question.
 * @param {string} title
 * @param {string[]} lines
 * @param {string} yes the button that says yes
 * @returns {Promise<boolean>}
 */
export function confirm(title, lines, yes) {
  return new Promise((done) => {
    const { box, body, foot } = makeDialog(title);
    body.append(...lines.map((it) => element('p', {}, it)));
    const go = element('button', { type: 'button', class: 'primary', onclick: () => box.close('yes') }, yes);
    foot.append(element('button', { type: 'button', onclick: () => box.close('') }, 'Cancel'), go);
    box.addEventListener('close', () => done(box.returnValue === 'yes'));
    go.focus();
  });
}

/**
 * Asks for the values of a form. The dialog stays open until they are accepted.
 * @param {string} title
 * @param {HTMLElement[]} fields
 * @param {string} yes
 * @param {() => Promise<void>} send a Refused is shown in the dialog
 */
export function fill(title, fields, yes, send) {
  const { box, body, foot } = makeDialog(title);
  const refusal = element('p', { class: 'refusal', role: 'alert' });
  const submit = async (/** @type {Event} */ event) => {
    event.preventDefault();
    try {
      await send();
      box.close();
    } catch (refused) {
      refusal.textContent = /** @type {Error} */ (refused).message;
    }
  };
  body.append(element('form', { id: 'filled', onsubmit: submit }, ...fields, refusal));
  foot.append(
    element('button', { type: 'button', onclick: () => box.close() }, 'Cancel'),
    element('button', { type: 'submit', class: 'primary', form: 'filled' }, yes),
  );
  /** @type {HTMLElement | null} */ (body.querySelector('input, select'))?.focus();
}

/**
 * Shows a list of lines.
 * @param {string} title
 * @param {string} first
 * @param {string[]} lines
 * @param {HTMLElement[]} [buttons]
 * @returns {HTMLDialogElement}
 */
export function showLines(title, first, lines, buttons = []) {
  const { box, body, foot } = makeDialog(title);
  body.append(element('p', {}, first), element('ul', { class: 'lines' }, ...lines.map((it) => element('li', {}, it))));
  const close = element('button', { type: 'button', class: 'primary', onclick: () => box.close() }, 'Close');
  foot.append(...buttons, close);
  close.focus();
  return box;
}
