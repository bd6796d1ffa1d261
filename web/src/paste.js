/** The points of a power curve, as people paste them. Each line is read right or refused with its number; never as something else. A trace is for `tables`. */
import { Misuse } from './messages.js';
import { ENGINE_SPEED, NotExact, PER_CENT, POWER } from './units.js';

/**
 * The lines that have something in them, cut into cells, with their numbers. Where a tab or a semicolon divides the cells, a comma is a decimal comma; else
 * it divides them.
 * @param {string} text
 * @returns {{line: number, cells: string[]}[]}
 */
function rowsOf(text) {
  const strong = /[\t;]/.test(text);
  return text
    .split(/\r\n|\r|\n/)
    .map((words, k) => ({ line: k + 1, words: words.trim() }))
    .filter(({ words }) => words !== '')
    .map(({ line, words }) => ({
      line,
      cells: strong ? words.split(/[\t;]/).map((cell) => cell.trim().replace(/^([+-]?\d*),(\d+)$/, '$1.$2')) : words.split(/\s*,\s*|\s+/),
    }));
}

/**
 * @param {number} line
 * @param {string} cell
 * @param {import('./units.js').Unit} unit
 */
function numberAt(line, cell, unit) {
  try {
    return unit.whole(cell);
  } catch (why) {
    if (why instanceof NotExact) throw new Misuse(`line ${line}: ${why.message}`);
    throw why;
  }
}

/**
 * Whether a first line names its columns.
 * @param {string[]} cells
 */
const isHeading = (cells) => cells.every((cell) => !/^[+-]?[\d.,]/.test(cell));

/**
 * The points of a power curve.
 * @param {string} text
 * @returns {{n: number, p: number, m: number}[]}
 */
export function curveOf(text) {
  const rows = rowsOf(text);
  const points = rows.length && isHeading(rows[0].cells) ? rows.slice(1) : rows;
  return points.map(({ line, cells }) => {
    if (cells.length < 2 || cells.length > 3) throw new Misuse(`line ${line} has ${cells.length} numbers, and not two or three`);
    const [n, p, m = '0'] = cells;
    return { n: numberAt(line, n, ENGINE_SPEED), p: numberAt(line, p, POWER), m: numberAt(line, m, PER_CENT) };
  });
}
