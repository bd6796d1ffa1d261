/** The one line under the heading: what was done, or why not. */
import { Refused, SECONDS } from '../../js/gearcard/refusals.js';
import { element, write } from './dom.js';

/** Something that the user gave and that cannot be taken; nothing was changed. */
export class Misuse extends Error {}

/** @param {string} words */
export function say(words) {
  element('alert').hidden = true;
  write(element('status'), words);
}

/** @param {string} words */
export function complain(words) {
  const line = element('alert');
  line.hidden = false;
  write(line, words);
}

/**
 * Runs what may be refused: a refusal is said with its number and its place, which is marked. Anything else is a fault of the page, and is thrown on.
 * @param {import('./view.js').View} view
 * @param {() => void} run
 * @param {string} [name] of the file that it is about
 * @returns {boolean} whether it went well
 */
export function trying(view, run, name = '') {
  view.mark = undefined;
  try {
    run();
    view.tell();
    return true;
  } catch (why) {
    if (!(why instanceof Refused) && !(why instanceof Misuse)) throw why;
    complain(name ? `${name}: ${why.message}` : why.message);
    if (why instanceof Refused && !name) markPlace(view, why);
    view.tell();
    return false;
  }
}

/**
 * @param {import('./view.js').View} view
 * @param {Refused} refused
 */
export function markPlace(view, refused) {
  if (!SECONDS.includes(refused.number) || refused.place >= view.count) return;
  view.mark = { second: refused.place, words: `refused ${refused.number} at ${refused.place}` };
  view.reveal(refused.place);
}
