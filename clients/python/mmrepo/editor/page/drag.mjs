// @ts-check
/** Drags something with a pointer: a mouse, a pen or a finger. */

const FAR = 5; // pixels that a pointer goes before it drags
const EDGE = 24; // pixels at the edge of a list in which it scrolls
const STEP = 12; // pixels of a scroll

/**
 * What can be dragged, and where it can be dropped. `grab` returns the dragged thing for the element at which the pointer went down, or
 * null; `over` shows where it would go, or nothing for null; `drop` puts it there.
 * @template T, P
 * @typedef {object} Dragging
 * @property {(from: Element) => {what: T, label: string} | null} grab
 * @property {(what: T, at: PointerEvent | null) => P | null} over
 * @property {(what: T, place: P) => void} drop
 */

/**
 * Makes things in an element draggable.
 * @template T, P
 * @param {HTMLElement} top which scrolls
 * @param {Dragging<T, P>} dragging
 */
export function drags(top, dragging) {
  top.addEventListener('pointerdown', (down) => {
    const from = down.target instanceof Element ? down.target : null;
    const isField = from?.closest('button:not(.grip), input, textarea, select');
    const held = down.button === 0 && from && !isField ? dragging.grab(from) : null;
    if (held) {
      follow(top, dragging, held, down);
    }
  });
}

/**
 * Follows a pointer until it goes up.
 * @template T, P
 * @param {HTMLElement} top
 * @param {Dragging<T, P>} dragging
 * @param {{what: T, label: string}} held
 * @param {PointerEvent} down
 */
function follow(top, dragging, held, down) {
  /** @type {HTMLElement | null} */
  let ghost = null;
  /** @type {P | null} */
  let place = null;
  const over = new AbortController();
  const listen = (/** @type {string} */ kind, /** @type {(event: any) => void} */ hear) => (
    addEventListener(kind, hear, { signal: over.signal, capture: true })
  );
  const end = () => {
    over.abort();
    dragging.over(held.what, null);
    ghost?.remove();
    document.body.classList.remove('dragging');
  };
  listen('pointermove', (/** @type {PointerEvent} */ event) => {
    if (!ghost && Math.hypot(event.clientX - down.clientX, event.clientY - down.clientY) > FAR) {
      ghost = makeGhost(held.label);
    }
    if (ghost) {
      ghost.style.transform = `translate(${event.clientX + 14}px, ${event.clientY + 8}px)`;
      scroll(top, event);
      place = dragging.over(held.what, event);
      ghost.classList.toggle('nowhere', place === null);
    }
  });
  listen('pointerup', () => {
    const isDragged = ghost !== null;
    end();
    if (isDragged) {
      const click = new AbortController(); // the click that ends a drag is none of its own
      addEventListener('click', (event) => event.stopPropagation(), { capture: true, signal: click.signal });
      setTimeout(() => {
        click.abort();
        place !== null && dragging.drop(held.what, place);
      });
    }
  });
  listen('pointercancel', end);
  listen('keydown', (/** @type {KeyboardEvent} */ event) => event.key === 'Escape' && end());
}

/**
 * The label that follows the pointer.
 * @param {string} label
 * @returns {HTMLElement}
 */
function makeGhost(label) {
  const made = document.createElement('div');
  made.className = 'ghost';
  made.textContent = label;
  document.body.append(made);
  document.body.classList.add('dragging');
  return made;
}

/**
 * Scrolls a list if the pointer is at its edge.
 * @param {HTMLElement} top
 * @param {PointerEvent} event
 */
function scroll(top, event) {
  const { top: above, bottom: below } = top.getBoundingClientRect();
  if (event.clientY < above + EDGE) {
    top.scrollTop -= STEP;
  } else if (event.clientY > below - EDGE) {
    top.scrollTop += STEP;
  }
}
