/** Numbers as people write them, and document 01's whole numbers: exact both ways, nothing is rounded. */

import { TABLE } from '../../js/gearcard/words.js';

/** A number that is not what its unit can carry; the message says why. */
export class NotExact extends Error {}

const NUMBER = /^([+-]?)([0-9]*)(?:\.([0-9]*))?(?:[eE]([+-]?[0-9]{1,9}))?$/;

/** Digits before or after the point that a number may have: more is no number of a bench, and would only take time. */
const DIGITS = 30;

/** A decimal number, exactly: whole digits, times a power of ten. */
export class Decimal {
  /**
   * @param {bigint} digits
   * @param {number} power
   */
  constructor(digits, power) {
    this.digits = digits;
    this.power = power;
  }

  /** The power of ten of its first digit. */
  adjusted() {
    return this.digits === 0n ? 0 : this.power + String(this.digits).replace('-', '').length - 1;
  }

  /**
   * Of numbers of which neither is vast.
   * @param {Decimal} other
   */
  less(other) {
    const power = Math.min(this.power, other.power);
    return new Decimal(this.digits * 10n ** BigInt(this.power - power) - other.digits * 10n ** BigInt(other.power - power), power);
  }

  /** @param {number} whole */
  plus(whole) {
    return this.less(new Decimal(BigInt(-whole), 0));
  }

  /** The same for the same number. */
  key() {
    const [, digits, zeros] = /** @type {RegExpExecArray} */ (/^(-?\d+?)(0*)$/.exec(String(this.digits)));
    return `${digits}e${this.power + zeros.length}`;
  }
}

/**
 * The decimal number that a word writes, in ASCII digits and with that decimal mark; undefined where it writes none, or one of a size that nothing has.
 * @param {string} word
 * @param {string} [mark]
 * @returns {Decimal | undefined}
 */
export function decimalOf(word, mark = '.') {
  if (mark !== '.' && word.includes('.')) return undefined;
  const found = NUMBER.exec(mark === '.' ? word : word.replace(mark, '.'));
  if (found === null) return undefined;
  const [, sign, before, after = '', power = '0'] = found;
  if (before === '' && after === '') return undefined;
  return new Decimal(BigInt(before + after) * (sign === '-' ? -1n : 1n), Number(power) - after.length);
}

/** A unit of document 01: `10 ** decimals` of it are one of the unit that people use. A record carries `least` to `most` of it. */
export class Unit {
  /**
   * @param {number} decimals
   * @param {string} people
   * @param {string} paper
   * @param {number} [least]
   * @param {number} [most]
   */
  constructor(decimals, people, paper, least = 0, most = 65535) {
    this.decimals = decimals;
    this.people = people;
    this.paper = paper;
    this.least = least;
    this.most = most;
  }

  /**
   * The number that a text writes, in document 01's unit, where it is a whole number of it that a record can carry.
   * @param {string} text
   * @returns {number}
   */
  whole(text) {
    const word = text.trim();
    if (word === '') throw new NotExact('a number is missing');
    const found = decimalOf(word);
    if (found === undefined) {
      const why = /^[+-]?\d+,\d+$/.test(word) ? ': a decimal point is read, and no comma' : '';
      throw new NotExact(`'${word.slice(0, 20)}' is no number${why}`);
    }
    try {
      return this.exact(found);
    } catch (why) {
      throw why instanceof NotExact ? new NotExact(`${word.slice(0, 20)} ${why.message}`) : why;
    }
  }

  /**
   * The number in document 01's unit, where it is a whole number of it that a record can carry.
   * @param {Decimal} number
   * @returns {number}
   */
  exact(number) {
    if (Math.abs(number.adjusted()) > DIGITS || String(number.digits).length > 2 * DIGITS) {
      throw new NotExact('is not a number of a size that can be carried');
    }
    const power = number.power + this.decimals;
    const low = power >= 0 ? number.digits * 10n ** BigInt(power) : floored(number.digits, 10n ** BigInt(-power));
    if (power < 0 && low * 10n ** BigInt(-power) !== number.digits) {
      throw new NotExact(`is no whole number of ${this.paper}: the nearest that are, are ${this.text(Number(low))} and ${this.text(Number(low) + 1)}`);
    }
    if (low < this.least || low > this.most) {
      throw new NotExact(`is not from ${this.text(this.least)} to ${this.text(this.most)} ${this.people}, which is what a job can carry`);
    }
    return Number(low);
  }

  /**
   * A whole number of document 01's unit as people write it, with all the decimals of the unit.
   * @param {number} whole
   */
  text(whole) {
    if (this.decimals === 0) return String(whole);
    const digits = String(Math.abs(whole)).padStart(this.decimals + 1, '0');
    return `${whole < 0 ? '-' : ''}${digits.slice(0, -this.decimals)}.${digits.slice(-this.decimals)}`;
  }
}

/**
 * A unit of words.toml, as the page writes it.
 * @param {keyof typeof TABLE.unit} name
 */
export function unitOf(name) {
  /** @type {{decimals: number, people: string, paper: string, page?: string, least?: number, most?: number}} */
  const found = TABLE.unit[name];
  const powers = (/** @type {string} */ words) => words.replace('^-1', '⁻¹').replace('^2', '²');
  return new Unit(found.decimals, found.page ?? powers(found.people), powers(found.paper), found.least, found.most);
}

export const RATIO = unitOf('ratio');
export const ENGINE_SPEED = unitOf('engine_speed');
export const PER_CENT = unitOf('per_cent');
export const POWER = unitOf('power');
export const SPEED = unitOf('speed');
export const FACTOR = unitOf('factor');
export const TIME = unitOf('time');

/**
 * @param {bigint} a
 * @param {bigint} b above 0
 */
function floored(a, b) {
  return a / b - (a % b < 0n ? 1n : 0n);
}
