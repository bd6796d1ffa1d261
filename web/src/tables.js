/**
 * A trace from a spreadsheet: a column of speeds, and the times beside it. It is read as what it is, or refused with its line.
 *
 * python/gearcard/tables.py has the same rules and the same words, for the text of a job; tests/tables.json is for both.
 */
import { KMH, OTHER_TIMES, SECONDS, TIMES, bare, heading, isCalled, isSpeed } from './headers.js';
import { SKIP, sheetOf, wrong } from './sheets.js';
import { NotExact, SPEED, TIME, decimalOf } from './units.js';

/**
 * @typedef {import('./sheets.js').Row} Row
 * @typedef {import('./units.js').Decimal} Decimal
 * @typedef {string | number | undefined} Column
 *
 * What is said of a table: columns by name or by number from 1, of the times 0 for none, rows a second, the decimal mark, and lines above the header.
 * @typedef {{column?: Column, time?: Column, hertz?: number, decimal?: string, skip?: number}} Layout
 */

/** The column that is taken where none is named. */
const USUAL = 'speed';

/** Seconds that a job can carry; which it may have is for the engine to say. */
const MOST = 65535;

/** What stands in a cell where there is no number. */
const NONE = ['nan', 'inf', 'infinity', 'null', 'none', 'n/a', 'na', 'nil', 'true', 'false'];

/** A clock's hours, minutes and seconds, behind a date or not. */
const CLOCK = /^(?:([0-9]{4})-([0-9]{2})-([0-9]{2})[T ])?([0-9]{1,2}):([0-5][0-9]):([0-5][0-9](?:[.,][0-9]{1,9})?)(?:Z|[+-][0-9]{2}:?[0-9]{2})?$/;

/** The power of ten from which on no number is a time. */
const SIZE = 12;

const HERTZ = 'trace.hertz = N takes a trace of N rows a second';
const WHICH = 'trace.time says which column has the times, 0 that none has';

/** Characters of a cell that a message shows. */
const SHOWN = 80;

/** @param {string} words */
const short = (words) => (words.length <= SHOWN ? words : `${words.slice(0, SHOWN)}..`);

/**
 * The speeds of a table, tenths of km/h. Without a column named, `speed` is taken, or the only one.
 * @param {string} name of the file, if it is one
 * @param {string} text
 * @param {Layout} [layout]
 * @returns {Uint16Array}
 */
export function speedsOf(name, text, layout = {}) {
  const { hertz = 1, skip = 0, decimal } = layout;
  return new Table(sheetOf(name, text, skip, decimal, MOST * hertz + 2), { ...layout, hertz }).speeds();
}

/** A sheet, with its header known from its rows. */
class Table {
  /**
   * @param {import('./sheets.js').Sheet} sheet
   * @param {Layout & {hertz: number}} layout
   */
  constructor(sheet, layout) {
    this.sheet = sheet;
    this.layout = layout;
    /** @type {{mark: string, line: number} | undefined} */
    this.marked = undefined;
    /** @type {Row | undefined} */
    this.units = undefined;
    const [first] = sheet.rows;
    this.count = first.cells.length;
    this.header = this.isHeader(first) ? first : undefined;
    this.rows = this.header ? sheet.rows.slice(1) : sheet.rows;
    if (this.header === undefined && sheet.mark === ',' && this.count > 1) this.refuseDoubtfulCommas();
  }

  /**
   * @param {number} line
   * @param {string} words
   */
  wrong(line, words) {
    return wrong(this.sheet.name, line, words);
  }

  speeds() {
    const place = this.place(this.layout.column);
    this.passUnits(place);
    for (const times of this.timePlaces(place)) this.checkTimes(times);
    const taken = this.rows.filter((_, k) => k % this.layout.hertz === 0);
    if (taken.length > MOST) throw this.wrong(taken[MOST].line, `there are more than the ${MOST.toLocaleString('en')} seconds that a job can carry`);
    return Uint16Array.from(taken, (row) => this.value(row, place, 'speed', SPEED));
  }

  /**
   * A row with a name that is asked for, or with names alone; else every cell is a number.
   * @param {Row} row
   */
  isHeader(row) {
    const named = [this.layout.column, this.layout.time].filter((each) => typeof each === 'string');
    const wanted = /** @type {string[]} */ (named.length ? named : [USUAL]);
    if (this.count > 1 && row.cells.some((cell) => wanted.some((name) => isCalled(cell, name)))) return true;
    if (row.cells.every((cell) => this.isNumber(cell))) return false;
    if (row.cells.every(isName)) return true;
    throw this.wrong(row.line, `it is neither a header nor a row of numbers${SKIP}`);
  }

  /** @param {string} cell */
  isNumber(cell) {
    return this.number(cell) !== undefined || CLOCK.test(cell);
  }

  /** @param {string} cell */
  number(cell) {
    for (const mark of this.decimals()) {
      const number = decimalOf(cell, mark);
      if (number !== undefined) return number;
    }
    return undefined;
  }

  /** The decimal marks that a number may have here. */
  decimals() {
    if (this.layout.decimal !== undefined) return [this.layout.decimal];
    return this.sheet.mark === ',' ? ['.'] : ['.', ','];
  }

  /** Without a header, `12,5` may be two columns or one with a decimal comma. */
  refuseDoubtfulCommas() {
    const { decimal } = this.layout;
    const two = this.rows.every(({ cells }) => cells.length === 2 && cells.every((cell) => /^[0-9]+$/.test(cell)));
    const alike = new Set(this.rows.map(({ cells }) => cells[cells.length - 1].length)).size === 1;
    if (decimal !== ',' && (decimal !== undefined || !two || !alike)) return;
    const words = 'a comma may stand between columns here or be a decimal comma: give the columns a header';
    throw this.wrong(this.rows[0].line, words + (decimal ? '' : ', or say trace.decimal'));
  }

  /**
   * The place of the column asked for.
   * @param {Column} column
   * @returns {number}
   */
  place(column) {
    const { line } = this.sheet.rows[0];
    if (typeof column === 'number') {
      if (column < 1 || column > this.count) throw this.wrong(line, `there is no column ${column}: there are ${this.count}, from 1`);
      return column - 1;
    }
    const only = column === undefined ? this.only() : undefined;
    if (only !== undefined) return only;
    if (this.header === undefined) {
      const wanted = column === undefined ? 'none is named' : `there is no column '${short(column)}' by name`;
      throw this.wrong(line, `${wanted}, and there is no header: say by trace.column the number of the column, 1 to ${this.count}`);
    }
    const places = this.called(column ?? USUAL);
    if (places.length !== 1) {
      const found = `there is ${places.length ? 'more than one' : 'no'} column '${short(column ?? USUAL)}' among ${short(this.header.cells.join(', '))}`;
      throw this.wrong(line, `${found}: say trace.column, or trace.skip where it is no header`);
    }
    return places[0];
  }

  /** The column that must be the speeds where none is named: the only one, or the one beside a time, or the one in km/h. */
  only() {
    if (this.count === 1) return 0;
    if (this.header === undefined) {
      const risen = this.places((k) => this.rises(k));
      return this.count === 2 && risen.length === 1 ? 1 - risen[0] : undefined;
    }
    if (this.called(USUAL).length) return undefined;
    const { cells } = this.header;
    const found = this.places((k) => KMH.includes(heading(cells[k]).unit));
    return found.length === 1 ? found[0] : undefined;
  }

  /** @param {(place: number) => boolean} which */
  places(which) {
    return Array.from({ length: this.count }, (_, k) => k).filter(which);
  }

  /**
   * The places of the columns of that name; one that is called just so comes before those that have a unit behind it.
   * @param {string} name
   */
  called(name) {
    const cells = this.header?.cells ?? [];
    const exact = this.places((k) => cells[k].toLowerCase() === name.toLowerCase());
    return exact.length ? exact : this.places((k) => isCalled(cells[k], name));
  }

  /**
   * Past a row of units below the header. A speed in another unit than km/h would be another trace.
   * @param {number} place
   */
  passUnits(place) {
    if (this.header === undefined) return;
    this.checkSpeed(this.header, heading(this.header.cells[place]).unit);
    const [row] = this.rows;
    if (row === undefined || row.cells.some((cell) => this.isNumber(cell)) || !isSpeed(row.cells[place])) return;
    this.units = row;
    this.checkSpeed(row, bare(row.cells[place]));
    this.rows = this.rows.slice(1);
  }

  /**
   * @param {Row} row
   * @param {string} unit
   */
  checkSpeed(row, unit) {
    if (unit && !KMH.includes(unit)) throw this.wrong(row.line, `the speed is in ${short(unit)}, and km/h is read`);
  }

  /**
   * The columns of times: the one that is named; or else those that are called so, those in seconds, those of a clock, those that rise evenly.
   * @param {number} speed
   * @returns {number[]}
   */
  timePlaces(speed) {
    const { time } = this.layout;
    if (time === 0) return [];
    if (time !== undefined) return [this.place(time)].filter((place) => place !== speed);
    const ways = [this.isCalledTime, this.isInSeconds, this.isClock, this.rises];
    for (const isTime of ways) {
      const found = this.places((k) => k !== speed && isTime.call(this, k));
      if (found.length) return found;
    }
    return [];
  }

  /** @param {number} place */
  isCalledTime(place) {
    const cell = this.header?.cells[place];
    return cell !== undefined && TIMES.some((name) => isCalled(cell, name));
  }

  /** @param {number} place */
  isInSeconds(place) {
    const found = this.header && heading(this.header.cells[place]);
    return (found?.bracket && SECONDS.includes(found.unit)) || (this.units !== undefined && SECONDS.includes(bare(this.units.cells[place])));
  }

  /** @param {number} place */
  isClock(place) {
    return this.rows.length > 0 && this.rows.every(({ cells }) => CLOCK.test(cells[place]));
  }

  /**
   * Whether the numbers of a column rise from row to row, most of them by the same step, as times do, with gaps or not.
   * @param {number} place
   */
  rises(place) {
    /** @type {Map<string, number>} */
    const steps = new Map();
    /** @type {Decimal | undefined} */
    let before;
    for (const { cells } of this.rows) {
      const now = this.number(cells[place]);
      if (now === undefined || Math.abs(now.adjusted()) > SIZE) return false;
      if (before !== undefined) {
        const step = now.less(before);
        if (step.digits <= 0n) return false;
        steps.set(step.key(), (steps.get(step.key()) ?? 0) + 1);
      }
      before = now;
    }
    return this.rows.length > 2 && 2 * Math.max(...steps.values()) >= this.rows.length - 1;
  }

  /**
   * Each row's time is that of the row before and one second more, or the part of it that the rows a second make.
   * @param {number} place
   */
  checkTimes(place) {
    if (!this.isClock(place)) this.checkSeconds(place);
    const { hertz, time } = this.layout;
    const step = Math.floor(1000 / hertz);
    const hint = hertz > 1 ? WHICH : time !== undefined ? HERTZ : `${HERTZ}; ${WHICH}`;
    /** @type {number | undefined} */
    let before;
    for (const row of this.rows) {
      const now = this.time(row, place);
      if (before !== undefined && now !== before + step) {
        const came = now > before ? `${TIME.text(now - before)} s after the line before` : 'not after that of the line before';
        throw this.wrong(row.line, `the time ${short(row.cells[place])} is ${came}, and must be ${TIME.text(step)} s after it (${hint})`);
      }
      before = now;
    }
  }

  /**
   * Of a column of times that has a unit, it is the second.
   * @param {number} place
   */
  checkSeconds(place) {
    if (this.header) {
      const { unit, bracket } = heading(this.header.cells[place]);
      this.checkTime(this.header, bracket || OTHER_TIMES.includes(unit) ? unit : '');
    }
    if (this.units) this.checkTime(this.units, bare(this.units.cells[place]));
  }

  /**
   * @param {Row} row
   * @param {string} unit
   */
  checkTime(row, unit) {
    if (unit && !SECONDS.includes(unit)) throw this.wrong(row.line, `the time is in ${short(unit)}, and s is read (${WHICH})`);
  }

  /**
   * A row's time in milliseconds: seconds, or a clock's hours, minutes and seconds.
   * @param {Row} row
   * @param {number} place
   */
  time(row, place) {
    const clock = CLOCK.exec(row.cells[place]);
    if (clock === null) return this.value(row, place, 'time', TIME);
    const seconds = /** @type {Decimal} */ (decimalOf(clock[6].replace(',', '.')));
    return this.exact(row, 'time', row.cells[place], TIME, seconds.plus(86400 * this.day(row, clock) + 3600 * Number(clock[4]) + 60 * Number(clock[5])));
  }

  /**
   * The number of a date's day, 0 where there is none.
   * @param {Row} row
   * @param {RegExpExecArray} clock
   */
  day(row, clock) {
    if (clock[1] === undefined) return 0;
    const [year, month, day] = clock.slice(1, 4).map(Number);
    const date = new Date(0);
    date.setUTCFullYear(year, month - 1, day);
    if (year < 1 || date.getUTCMonth() !== month - 1 || date.getUTCDate() !== day) throw this.wrong(row.line, `'${short(clock[0])}' is no date`);
    return date.getTime() / 86400000 + 719163;
  }

  /**
   * @param {Row} row
   * @param {number} place
   * @param {string} what
   * @param {import('./units.js').Unit} unit
   */
  value(row, place, what, unit) {
    const cell = row.cells[place];
    const number = this.number(cell);
    if (number === undefined) {
      const hint = hintOf(cell) || (row === this.rows[0] && cell && isName(cell) ? SKIP : '');
      throw this.wrong(row.line, `'${short(cell)}' is no number${hint}`);
    }
    this.checkMark(row, cell);
    return this.exact(row, what, cell, unit, number);
  }

  /**
   * @param {Row} row
   * @param {string} what
   * @param {string} cell
   * @param {import('./units.js').Unit} unit
   * @param {Decimal} number
   */
  exact(row, what, cell, unit, number) {
    try {
      return unit.exact(number);
    } catch (why) {
      if (!(why instanceof NotExact)) throw why;
      throw this.wrong(row.line, `the ${what} ${short(cell)} ${why.message}`);
    }
  }

  /**
   * One decimal mark in the whole sheet.
   * @param {Row} row
   * @param {string} cell
   */
  checkMark(row, cell) {
    const mark = ['.', ','].find((each) => cell.includes(each));
    if (mark === undefined) return;
    this.marked ??= { mark, line: row.line };
    if (mark !== this.marked.mark) throw this.wrong(row.line, `'${short(cell)}' has another decimal mark than line ${this.marked.line}: say trace.decimal`);
  }
}

/**
 * What may be meant by a cell that is no number.
 * @param {string} cell
 */
function hintOf(cell) {
  if (decimalOf(cell, ',') !== undefined) return ': a decimal point is read, and no comma';
  if (decimalOf(cell) !== undefined) return ': a decimal comma is read, and no point';
  return /[;\t]/.test(cell) ? SKIP : '';
}

/**
 * Whether a cell can be a header's: nothing that could be meant as a number.
 * @param {string} cell
 */
function isName(cell) {
  return cell === '' || (/^[\p{L}[(_%°]/u.test(cell) && !NONE.includes(cell.toLowerCase()));
}
