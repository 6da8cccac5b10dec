// @ts-check
/** The server: makes calls, and receives its events. */

/** A refused call: `name` is the name of the refusal, and `message` its reason in words. */
export class Refused extends Error {
  /**
   * @param {string} name
   * @param {string} text
   */
  constructor(name, text) {
    super(text);
    this.name = name;
  }
}

/**
 * Makes a call, and returns its answer. Throws a Refused if the server refuses it.
 * @param {string} name
 * @param {Record<string, any>} [words]
 * @returns {Promise<any>}
 */
export async function call(name, words = {}) {
  let answer;
  try {
    answer = await fetch('call', {
      method: 'POST', headers: { 'Content-Type': 'application/json' }, body: JSON.stringify({ do: name, ...words }),
    });
  } catch {
    throw new Refused('GONE', 'the editor does not answer: it was ended, or this window is offline');
  }
  const found = await answer.json();
  if (!answer.ok) {
    throw new Refused(found.refused, found.text);
  }
  return found;
}

/**
 * Receives the events after the event of a number.
 * @param {number} after
 * @param {(event: any) => void} hear
 * @param {(is: 'open' | 'waiting' | 'lost' | 'ended') => void} tell
 */
export function listen(after, hear, tell) {
  const source = new EventSource(`events?after=${after}`);
  source.onopen = () => tell('open');
  source.onmessage = (event) => hear(JSON.parse(event.data));
  source.addEventListener('lost', () => {
    source.close();
    tell('lost');
  });
  source.onerror = () => tell(source.readyState === EventSource.CLOSED ? 'ended' : 'waiting');
}
