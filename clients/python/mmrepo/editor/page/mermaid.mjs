// @ts-check
/** Reads the class diagrams of `tools/diagram`, which are Mermaid. */

/**
 * A box of a diagram.
 * @typedef {{name: string, title: string, above: string, rows: string[]}} Box
 */

/**
 * A line between two boxes: inheritance, containment or reference; with the texts at its ends.
 * @typedef {{kind: 'inherits' | 'contains' | 'refers' | 'both', from: string, to: string, near: string, far: string, label: string}} Line
 */

/** @typedef {{boxes: Box[], lines: Line[]}} Picture */

const CLASS = /^ {2}class (\w+)(?:\["(.*)"\])?( \{)?$/;
const ABOVE = /^ {4}<<(.*)>>$/;
const LINE = /^ {2}(\w+)(?: "([^"]*)")? (<\|--|\*--|--|-->)(?: "([^"]*)")? (\w+)(?: : (.*))?$/;
/** @type {Record<string, Line['kind']>} */
const KINDS = { '<|--': 'inherits', '*--': 'contains', '-->': 'refers', '--': 'both' };

/**
 * The boxes and lines of a diagram.
 * @param {string} text
 * @returns {Picture}
 */
export function readMermaid(text) {
  /** @type {Picture} */
  const made = { boxes: [], lines: [] };
  /** @type {Box | null} */
  let open = null;
  for (const row of text.split('\n').slice(1)) {
    const box = CLASS.exec(row);
    const line = LINE.exec(row);
    const above = ABOVE.exec(row);
    if (open && row === '  }') {
      open = null;
    } else if (open && above) {
      open.above = plain(above[1]);
    } else if (open) {
      open.rows.push(plain(row.trim()));
    } else if (box) {
      made.boxes.push({ name: box[1], title: plain(box[2] ?? box[1]), above: '', rows: [] });
      open = box[3] ? made.boxes[made.boxes.length - 1] : null;
    } else if (line) {
      const [, from, near = '', arrow, far = '', to, label = ''] = line;
      made.lines.push({ kind: KINDS[arrow], from, to, near, far, label: plain(label) });
    }
  }
  return made;
}

/**
 * A text in which characters that are written by number are decoded.
 * @param {string} text
 * @returns {string}
 */
function plain(text) {
  return text.replace(/#(\d+);/g, (_, number) => String.fromCodePoint(Number(number)));
}
