/**
 * The records of include/gearcard.h in the engine's memory, as layout.js has them, and what a caller's values must be before anything is called.
 */
import { RECORDS } from './layout.js';
import { TABLE } from './words.js';

/** Elements of one list that is taken. */
export const MOST = 1 << 20;

/** What a number of each kind can be, its bytes, and how it is read and written. A number of eight bytes is below 2^53 wherever one is read. */
const NUMBERS = Object.freeze({
  uint8: { least: 0, most: 255, bytes: 1 },
  uint16: { least: 0, most: 65535, bytes: 2 },
  uint32: { least: 0, most: 2 ** 32 - 1, bytes: 4 },
  int32: { least: -(2 ** 31), most: 2 ** 31 - 1, bytes: 4 },
  int64: { least: Number.MIN_SAFE_INTEGER, most: Number.MAX_SAFE_INTEGER, bytes: 8 },
  size: { least: 0, most: Number.MAX_SAFE_INTEGER, bytes: 8 },
  bool: { least: 0, most: 1, bytes: 1 },
});

/** @typedef {keyof typeof NUMBERS} Kind */

/**
 * Bytes of one of its kind, a number or a record.
 * @param {string} kind
 */
export const sizeOf = (kind) => (kind in NUMBERS ? NUMBERS[/** @type {Kind} */ (kind)].bytes : RECORDS[kind].size);

/**
 * @param {DataView} view
 * @param {number} at
 * @param {string} kind
 * @returns {any} a number, a truth, or a record
 */
function valueAt(view, at, kind) {
  switch (kind) {
    case 'uint8': return view.getUint8(at);
    case 'uint16': return view.getUint16(at, true);
    case 'uint32': return view.getUint32(at, true);
    case 'int32': return view.getInt32(at, true);
    case 'int64': return Number(view.getBigInt64(at, true));
    case 'size': return Number(view.getBigUint64(at, true));
    case 'bool': return view.getUint8(at) !== 0;
    default: return recordAt(view, at, kind);
  }
}

/**
 * A record with all its fields.
 * @param {DataView} view
 * @param {number} at
 * @param {string} record
 * @returns {Record<string, any>}
 */
export function recordAt(view, at, record) {
  /** @type {Record<string, any>} */
  const found = {};
  for (const field of RECORDS[record].fields) {
    const here = at + field.at;
    const size = sizeOf(field.kind);
    const several = () => Array.from({ length: field.count }, (_, k) => valueAt(view, here + k * size, field.kind));
    found[field.name] = field.count === 0 ? valueAt(view, here, field.kind) : several();
  }
  return found;
}

/**
 * The bytes of a record of numbers. Of a list past its places nothing is kept.
 * @param {string} record
 * @param {Record<string, number | number[]>} values
 */
function bytesOf(record, values) {
  const { size, fields } = RECORDS[record];
  const bytes = new Uint8Array(size);
  const view = new DataView(bytes.buffer);
  for (const { name, at, kind, count } of fields) {
    const given = values[name];
    const numbers = typeof given === 'number' ? [given] : given.slice(0, count);
    numbers.forEach((number, k) => {
      if (kind === 'uint16') view.setUint16(at + 2 * k, number, true);
      else if (kind === 'int32') view.setInt32(at + 4 * k, number, true);
      else throw new TypeError(`a ${kind} of ${record} is not written`);
    });
  }
  return bytes;
}

/**
 * Places of a list of a record.
 * @type {(record: string, name: string) => number}
 */
const placesOf = (record, name) => RECORDS[record].fields.find((field) => field.name === name)?.count ?? 0;

/** The vehicle's fields that are one number, and their kinds; those that a job of version 1 has not may be left out. */
const SCALARS = TABLE.field.flatMap(({ name, since }) => {
  const found = RECORDS.vehicle.fields.find((field) => field.name === name);
  return found === undefined ? [] : [{ name: found.name, kind: found.kind, optional: (since ?? 1) > 1 }];
});

/** The numbers of a point of the curve. */
const COLUMNS = /** @type {const} */ (['n', 'p', 'm']);

const kindOf = /** @type {(this: unknown) => string | undefined} */ (
  Object.getOwnPropertyDescriptor(Object.getPrototypeOf(Uint8Array.prototype), Symbol.toStringTag)?.get
);

/**
 * A whole number within what a place of a record can carry. Nothing is cut to fit, and no string is taken for a number.
 * @param {string} name
 * @param {unknown} value
 * @param {number} most
 * @param {number} [least]
 * @returns {number}
 */
export function whole(name, value, most, least = 0) {
  if (typeof value !== 'number' || !Number.isInteger(value)) throw new TypeError(`${name} = ${shown(value)} is no whole number`);
  if (value < least || value > most) throw new RangeError(`${name} = ${value} is not from ${least} to ${most}`);
  return value;
}

/** @param {unknown} value */
function shown(value) {
  return typeof value === 'string' ? JSON.stringify(value) : typeof value === 'object' && value !== null ? 'an object' : String(value);
}

/**
 * A whole number within what its kind can carry.
 * @param {string} name
 * @param {unknown} value
 * @param {string} kind
 */
export function fitting(name, value, kind) {
  const { least, most } = NUMBERS[/** @type {Kind} */ (kind)];
  return whole(name, value, most, least);
}

/**
 * A typed array of that kind, of another window too, and not too long.
 * @template {Uint8Array | Uint16Array} T
 * @param {string} name
 * @param {unknown} value
 * @param {new (length: number) => T} kind
 * @returns {T}
 */
export function list(name, value, kind) {
  if (kindOf.call(value) !== kind.name) throw new TypeError(`${name} is no ${kind.name}`);
  const found = /** @type {T} */ (value);
  if (found.length > MOST) throw new RangeError(`${name} has ${found.length} elements, and more than ${MOST} are not taken`);
  return found;
}

/**
 * Refuses lists that share memory: what one call writes must be nobody else's.
 * @param {Record<string, Uint8Array | Uint16Array>} lists
 */
export function apart(lists) {
  const all = Object.entries(lists);
  all.forEach(([name, a], k) => {
    for (const [other, b] of all.slice(k + 1)) {
      const shared = a.buffer === b.buffer && a.byteOffset < b.byteOffset + b.byteLength && b.byteOffset < a.byteOffset + a.byteLength;
      if (shared) throw new TypeError(`${name} and ${other} share memory`);
    }
  });
}

/**
 * @param {string} name
 * @param {unknown} value
 * @returns {ArrayLike<unknown>}
 */
function listed(name, value) {
  if (!Array.isArray(value) && kindOf.call(value) === undefined) throw new TypeError(`${name} is no list`);
  return /** @type {ArrayLike<unknown>} */ (value);
}

/**
 * A point of the curve: an object with n, p and m, or a list of them; m may be left out.
 * @param {number} place
 * @param {unknown} point
 * @returns {{n: unknown, p: unknown, m: unknown}}
 */
function pointOf(place, point) {
  if (Array.isArray(point)) {
    if (point.length < 2 || point.length > 3) throw new TypeError(`curve[${place}] has ${point.length} numbers, and not n, p and perhaps m`);
    return { n: point[0], p: point[1], m: point.length > 2 ? point[2] : 0 };
  }
  if (typeof point !== 'object' || point === null) throw new TypeError(`curve[${place}] is no point`);
  const { n, p, m = 0 } = /** @type {Record<string, unknown>} */ (point);
  return { n, p, m };
}

/**
 * The record of a vehicle. Past its places a list is cut: its count, which is kept whole, is refused before the list is looked at.
 * @param {unknown} vehicle
 * @returns {Uint8Array}
 */
export function vehicleBytes(vehicle) {
  if (typeof vehicle !== 'object' || vehicle === null) throw new TypeError('vehicle is no object');
  const given = /** @type {Record<string, unknown>} */ (vehicle);
  /** @type {Record<string, number | number[]>} */
  const values = {};
  for (const { name, kind, optional } of SCALARS) values[name] = fitting(name, optional && given[name] === undefined ? 0 : given[name], kind);
  values.ratio = Array.from(listed('ratios', given.ratios), (ratio, k) => fitting(`ratios[${k}]`, ratio, 'uint16'));
  values.ng = fitting('ratios.length', values.ratio.length, 'uint16');
  const curve = Array.from(listed('curve', given.curve), (point, k) => ({ k, point: pointOf(k, point) }));
  values.points = fitting('curve.length', curve.length, 'uint16');
  for (const name of COLUMNS) values[name] = curve.map(({ k, point }) => fitting(`curve[${k}].${name}`, point[name], 'uint16'));
  return bytesOf('vehicle', values);
}

/**
 * The vehicle of a record that was read; places past the counts are no part of it.
 * @param {Record<string, any>} record
 * @returns {import('./engine.js').ReadVehicle}
 */
export function vehicleOf(record) {
  const { ng, ratio, points, n, p, m, ...numbers } = record;
  const curve = Array.from({ length: points }, (_, k) => ({ n: n[k], p: p[k], m: m[k] }));
  return /** @type {import('./engine.js').ReadVehicle} */ ({ ratios: ratio.slice(0, ng), ...numbers, curve });
}

/**
 * The counts of a summary, all 0 where none is given.
 * @param {import('./engine.js').Summary | null | undefined} given
 * @returns {Uint8Array}
 */
export function summaryBytes(given) {
  if (given === undefined || given === null) return new Uint8Array(RECORDS.summary.size);
  const gears = Array.from(listed('summary.gears', given.gears), (count, k) => fitting(`summary.gears[${k}]`, count, 'uint16'));
  const places = placesOf('summary', 'gears');
  if (gears.length !== places) throw new RangeError(`summary.gears has ${gears.length} counts, and not ${places}`);
  const [standing, changes] = [fitting('summary.standing', given.standing, 'uint16'), fitting('summary.changes', given.changes, 'uint16')];
  return bytesOf('summary', { standing, gears, changes });
}
