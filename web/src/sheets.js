/** A spreadsheet's text as rows of cells: its encoding, its separator, and every row of one shape. python/gearcard/sheets.py has the same rules and words. */
import { Misuse } from './messages.js';

/**
 * @typedef {{line: number, cells: string[]}} Row a row's line, from 1, and its cells
 * @typedef {{name: string, mark: string, rows: Row[]}} Sheet the rows, of which the first may be a header, and what separates the cells
 */

// eslint-disable-next-line no-control-regex
const CONTROL = /[\x00-\x08\x0b\x0c\x0e-\x1f\x7f]/;

/** The separators, and which stands between the cells where more than one is in the first line. */
const MARKS = [';', '\t', ','];

export const SKIP = ' (trace.skip = N passes over N lines above the header)';

/**
 * What is wrong, with its place.
 * @param {string} name of the file, if it is one
 * @param {number | null} line
 * @param {string} words
 */
export function wrong(name, line, words) {
  const place = [name, line === null ? '' : `line ${line}`].filter((each) => each).join(' ');
  return new Misuse(place ? `${place}: ${words}` : words);
}

/**
 * A text of a file's bytes.
 * @param {string} name
 * @param {Uint8Array} data
 */
export function decoded(name, data) {
  if (data[0] === 0x50 && data[1] === 0x4b && data[2] === 3 && data[3] === 4) throw wrong(name, null, 'it is a workbook: save the sheet as CSV');
  const wide = data[0] === 0xff && data[1] === 0xfe ? 'utf-16le' : data[0] === 0xfe && data[1] === 0xff ? 'utf-16be' : '';
  try {
    return new TextDecoder(wide || 'utf-8', { fatal: true }).decode(data);
  } catch {
    if (wide) throw wrong(name, null, 'it is no text in UTF-16, as which it begins: save it as CSV in UTF-8');
    // All that is read of it besides names is ASCII, which is the same there.
    return Array.from(data, (byte) => String.fromCharCode(byte)).join('');
  }
}

/**
 * The rows of a text after `skip` lines, of which there may be `most`.
 * @param {string} name
 * @param {string} text
 * @param {number} skip
 * @param {string | undefined} decimal
 * @param {number} most
 * @returns {Sheet}
 */
export function sheetOf(name, text, skip, decimal, most) {
  const found = CONTROL.exec(text);
  if (found !== null) {
    const line = text.slice(0, found.index).split('\n').length;
    throw wrong(name, line, `it has the character ${found[0].charCodeAt(0)}, which no text has: save it as CSV in UTF-8`);
  }
  const lines = text.replaceAll('\r\n', '\n').replaceAll('\r', '\n').split('\n');
  const hint = /^"?sep=(.)"?$/i.exec(lines[0].replace(/^ +| +$/g, ''));
  let start = Math.max(skip, hint === null ? 0 : 1);
  while (start < lines.length && lines[start].trim() === '') start += 1;
  const mark = hint !== null ? hint[1] : markOf(lines[start] ?? '', decimal);
  const rows = rowsOf(name, lines, start, mark, most);
  if (rows.length === 0) throw wrong(name, null, 'it has no row');
  rows.forEach((row, place) => shaped(name, row, rows[0], place === 1));
  return { name, mark, rows };
}

/**
 * What separates the cells, by the first line. With a decimal comma and one column nothing does.
 * @param {string} line
 * @param {string | undefined} decimal
 */
const markOf = (line, decimal) => MARKS.find((mark) => line.includes(mark)) ?? (decimal === ',' ? ';' : ',');

/**
 * The rows from line `start` on, blank ones at the end left out.
 * @param {string} name
 * @param {string[]} lines
 * @param {number} start
 * @param {string} mark
 * @param {number} most
 * @returns {Row[]}
 */
function rowsOf(name, lines, start, mark, most) {
  /** @type {Row[]} */
  const rows = [];
  let blank = 0;
  for (let at = start; at < lines.length;) {
    const { cells, next } = cellsOf(name, lines, at, mark);
    at = next;
    if (cells.every((cell) => cell === '')) {
      blank ||= at;
      continue;
    }
    if (blank) throw wrong(name, blank, 'the row is blank, and more rows follow: there is no second without a speed');
    if (rows.length && cells.some((cell) => cell.includes('\n'))) throw wrong(name, at, 'a cell goes over more than one line: is a quotation mark missing?');
    if (rows.length + 1 > most) throw wrong(name, at, 'it has more rows than a trace can have seconds');
    rows.push({ line: at, cells });
  }
  return rows;
}

/**
 * One row, from line `at` on; a cell in quotation marks may go over more.
 * @param {string} name
 * @param {string[]} lines
 * @param {number} at
 * @param {string} mark
 * @returns {{cells: string[], next: number}} the cells, and the line after them
 */
function cellsOf(name, lines, at, mark) {
  /** @type {string[]} */
  const cells = [];
  let line = lines[at];
  for (let k = 0; k <= line.length;) {
    while (line[k] === ' ') k += 1;
    let cell = '';
    if (line[k] === '"') {
      for (k += 1; line[k] !== '"' || line[k + 1] === '"'; k += 1) {
        if (k < line.length) {
          if (line[k] === '"') k += 1;
          cell += line[k];
          continue;
        }
        at += 1;
        if (at >= lines.length) throw wrong(name, at, 'it is no CSV: unexpected end of data');
        [line, k, cell] = [lines[at], -1, `${cell}\n`];
      }
      k += 1;
      if (k < line.length && line[k] !== mark) throw wrong(name, at + 1, `it is no CSV: '${mark}' expected after '"'`);
    } else {
      const end = line.indexOf(mark, k);
      cell = line.slice(k, end < 0 ? line.length : end);
      k = end < 0 ? line.length : end;
    }
    cells.push(cell.trim());
    k += 1;
  }
  return { cells, next: at + 1 };
}

/**
 * Every row has as many cells as the first. Where the second has another count, the first may be a title.
 * @param {string} name
 * @param {Row} row
 * @param {Row} first
 * @param {boolean} second
 */
function shaped(name, row, first, second) {
  const [count, wanted] = [row.cells.length, first.cells.length];
  if (count === wanted) return;
  throw wrong(name, row.line, `it has ${count} cell${count === 1 ? '' : 's'}, and line ${first.line} has ${wanted}${second || count > wanted ? SKIP : ''}`);
}
