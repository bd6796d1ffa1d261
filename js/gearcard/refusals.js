/**
 * The table of refusals, in words.
 */
import { TABLE } from './words.js';

/** What each number says. `{place}` is the refusal's place. @type {Readonly<Record<number, string>>} */
export const WORDS = Object.freeze(Object.fromEntries(TABLE.refusal.map(({ number, words }) => [number, words])));

/**
 * The vehicle's fields, as refusal 3 numbers them: the key, and what document 01 asks of it, in people's units.
 * @type {Readonly<Record<number, readonly string[]>>}
 */
export const FIELDS = Object.freeze(
  Object.fromEntries(TABLE.field.flatMap(({ number, key, bounds }) => (bounds === undefined ? [] : [[number, [key, bounds]]]))),
);

/** The refusals whose place is a second of the trace. */
export const SECONDS = Object.freeze(numbersOf('second'));

/** The refusals whose place is a byte of the file. */
export const BYTES = Object.freeze(numbersOf('byte'));

/** @param {string} kind */
function numbersOf(kind) {
  return TABLE.refusal.flatMap(({ number, place }) => (place === kind ? [number] : [])).sort((one, other) => one - other);
}

/**
 * The table's words for a refusal; a number that the table does not have is said to be so.
 * @param {number} number
 * @param {number} place
 */
export function inWords(number, place) {
  const words = WORDS[number];
  if (words === undefined) return 'a number that the table of refusals does not have';
  const [key, bounds] = FIELDS[place] ?? ['unknown', 'document 01 has no such field'];
  return words.replace('{place}', String(place)).replace('{field}', `${key}, ${bounds}`);
}

/** The engine refuses, by the number and the place of the table; nothing was changed. `words` says it for people. */
export class Refused extends Error {
  /**
   * @param {number} number
   * @param {number} place
   * @param {string} [words]
   */
  constructor(number, place, words = inWords(number, place)) {
    super(`refused ${number} at ${place}: ${words}`);
    this.name = 'Refused';
    this.number = number;
    this.place = place;
    this.words = words;
  }
}
