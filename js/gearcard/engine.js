/**
 * The functions of include/gearcard.h over gearcard.wasm, from bytes that the caller has. None works anything out by itself.
 *
 * Speeds are in tenths of km/h. A hold of 0 is no hold. A card has a byte a second: the gear, plus 16 where the clutch is down. A refusal throws
 * `Refused`, a value of a wrong type `TypeError`, and then no array has changed.
 */
import { CYCLE, FUNCTIONS, LONGEST, RECORDS } from './layout.js';
import { MOST, apart, fitting, list, recordAt, sizeOf, summaryBytes, vehicleBytes, vehicleOf, whole } from './records.js';
import { Refused } from './refusals.js';

export { CYCLE, LONGEST, Refused };

/** Bytes of the engine's stack, as it is linked; tests/js measures what its calls use, which is less than a half. */
export const STACK = 65536;

/** A count in a job is at most this, so rooms of this length are never too short. */
const ROOM = 65535;

/** Room that is there from the start: what it takes to read the longest job of the longest trace, every second held, which is the most that a call takes. */
const RESERVED = 3 * ROOM + 5 * LONGEST + 4096;

const PAGE = 65536;

/**
 * The gear of a card byte, 0 for neutral.
 * @param {number} byte
 */
export const gearOf = (byte) => whole('card byte', byte, 255) % 16;

/**
 * Whether a card byte has the clutch down.
 * @param {number} byte
 */
export const clutchDown = (byte) => whole('card byte', byte, 255) >= 16;

/**
 * The engine's memory, as one call uses it: everything above its stack and constants is free between calls.
 */
class Lent {
  /**
   * @param {WebAssembly.Memory} memory
   * @param {number} base
   */
  constructor(memory, base) {
    this.memory = memory;
    this.base = base;
    this.top = base;
    this.reach(base + RESERVED);
  }

  /** @param {number} end */
  reach(end) {
    const missing = end - this.memory.buffer.byteLength;
    if (missing > 0) this.memory.grow(Math.ceil(missing / PAGE));
  }

  /**
   * Begins a call, and answers where its answer goes, of so many bytes.
   * @param {number} size
   */
  begin(size) {
    this.top = this.base;
    return this.room(size);
  }

  /** @param {number} size */
  room(size) {
    const at = (this.top + 15) & ~15;
    this.top = at + size;
    this.reach(this.top);
    return at;
  }

  /**
   * A copy of a list or record.
   * @param {Uint8Array | Uint16Array} values
   */
  copy(values) {
    const at = this.room(values.byteLength);
    this.bytes(at, values.byteLength).set(new Uint8Array(values.buffer, values.byteOffset, values.byteLength));
    return at;
  }

  /**
   * @param {number} at
   * @param {number} length
   */
  bytes(at, length) {
    return new Uint8Array(this.memory.buffer, at, length);
  }

  /**
   * @param {number} at
   * @param {number} length
   */
  shorts(at, length) {
    return new Uint16Array(this.memory.buffer, at, length);
  }

  view() {
    return new DataView(this.memory.buffer);
  }
}

/**
 * The refusal of a verdict, where it is one.
 * @param {{number: number, place: number}} verdict
 */
const refusalOf = ({ number, place }) => (number === 0 ? null : new Refused(number, place));

/**
 * Throws where the verdict is a refusal.
 * @param {{number: number, place: number}} verdict
 */
function accepted(verdict) {
  const refused = refusalOf(verdict);
  if (refused !== null) throw refused;
}

/**
 * The functions over one instance of the engine.
 * @param {Record<string, any>} raw its exports
 * @returns {import('./engine.js').Engine}
 */
function functionsOf(raw) {
  const lent = new Lent(raw.memory, Number(raw.__heap_base.value));

  /**
   * Calls a function of the header. A list is given by its elements, which are copied, or, where it is room to fill, by its length; a record by its bytes.
   * Answers the record that it answers, and where each list stands.
   * @param {string} name
   * @param {Record<string, Uint8Array | Uint16Array | number>} given
   * @returns {{answer: Record<string, any>, at: Record<string, number>}}
   */
  function called(name, given) {
    const { answer, takes } = FUNCTIONS[name];
    const answered = lent.begin(RECORDS[answer].size);
    /** @type {Record<string, number>} */
    const at = {};
    const words = takes.flatMap((each) => {
      const value = given[each.name];
      if (each.list) {
        at[each.name] = typeof value === 'number' ? lent.room(value * sizeOf(each.kind)) : lent.copy(value);
        return [at[each.name], BigInt(typeof value === 'number' ? value : value.length)];
      }
      if (typeof value !== 'number') return [lent.copy(value)];
      const number = fitting(each.name, value, each.kind);
      return [each.kind === 'size' ? BigInt(number) : number];
    });
    raw[`gearcard_${name}`](answered, ...words);
    return { answer: recordAt(lent.view(), answered, answer), at };
  }

  /** @param {Uint8Array} job */
  function read(job) {
    list('job', job, Uint8Array);
    // A whole job has no more seconds than bytes; one that is cut may say more, and is then read into rooms of any count.
    const room = Math.min(job.length, ROOM);
    let { answer, at } = called('read', { job, speeds: room, holds: room });
    if (answer.verdict.number === 2) ({ answer, at } = called('read', { job, speeds: ROOM, holds: ROOM }));
    accepted(answer.verdict);
    return {
      version: answer.version,
      vehicle: vehicleOf(answer.vehicle),
      speeds: lent.shorts(at.speeds, answer.count).slice(),
      holds: lent.bytes(at.holds, answer.count).slice(),
    };
  }

  /** @type {(speeds: Uint16Array, holds?: Uint8Array | null) => Uint8Array} */
  const holdsOf = (speeds, holds) => (holds === undefined || holds === null ? new Uint8Array(speeds.length) : list('holds', holds, Uint8Array));

  /**
   * The vehicle's record, the speeds and the holds of a call.
   * @type {(vehicle: unknown, speeds: Uint16Array, holds?: Uint8Array | null) => {vehicle: Uint8Array, speeds: Uint16Array, holds: Uint8Array}}
   */
  function jobOf(vehicle, speeds, holds) {
    const record = vehicleBytes(vehicle);
    list('speeds', speeds, Uint16Array);
    return { vehicle: record, speeds, holds: holdsOf(speeds, holds) };
  }

  /** @type {import('./engine.js').Engine['write']} */
  function write(vehicle, speeds, holds, version = 1) {
    const given = { ...jobOf(vehicle, speeds, holds), version: fitting('version', version, 'uint16') };
    let { answer, at } = called('write', { ...given, room: 1024 + 2 * speeds.length });
    // The room was too short; the place is the length needed.
    if (answer.verdict.number === 17) ({ answer, at } = called('write', { ...given, room: answer.verdict.place }));
    accepted(answer.verdict);
    return lent.bytes(at.room, answer.length).slice();
  }

  /** @type {import('./engine.js').Engine['work']} */
  function work(vehicle, speeds, holds) {
    const { answer, at } = called('work', { ...jobOf(vehicle, speeds, holds), card: speeds.length });
    accepted(/** @type {any} */ (answer));
    return lent.bytes(at.card, speeds.length).slice();
  }

  /** @type {import('./engine.js').Engine['summary']} */
  function summary(speeds, card) {
    list('speeds', speeds, Uint16Array);
    list('card', card, Uint8Array);
    const { answer } = called('summary_of', { speeds, card });
    accepted(answer.verdict);
    return answer.summary;
  }

  /** @type {import('./engine.js').Engine['why']} */
  function why(vehicle, speeds, holds, second) {
    const { answer } = called('why', { ...jobOf(vehicle, speeds, holds), second: fitting('second', second, 'size') });
    const refused = refusalOf(answer.verdict);
    if (refused !== null && refused.number !== 10) throw refused;
    const { gears, ...rest } = answer.reasons;
    return { second, refused, ...rest, gears: gears.slice(0, vehicle.ratios.length) };
  }

  /**
   * One second changed, in the holds or in the speeds, and the card with it: written together, or nothing.
   * @param {'hold' | 'release' | 'mend'} kind
   * @param {import('./engine.js').Vehicle} vehicle
   * @param {Uint16Array} speeds
   * @param {Uint8Array} holds
   * @param {Uint8Array} card
   * @param {Record<string, number>} numbers the second, and the gear or the speed where there is one
   * @param {import('./engine.js').Summary | null} [counted]
   */
  function edit(kind, vehicle, speeds, holds, card, numbers, counted) {
    const record = vehicleBytes(vehicle);
    list('speeds', speeds, Uint16Array);
    list('holds', holds, Uint8Array);
    list('card', card, Uint8Array);
    apart({ speeds, holds, card });
    const { answer, at } = called(kind, { vehicle: record, speeds, holds, card, ...numbers, summary: summaryBytes(counted) });
    accepted(answer.verdict);
    if (kind === 'mend') speeds.set(lent.shorts(at.speeds, speeds.length));
    else holds.set(lent.bytes(at.holds, holds.length));
    card.set(lent.bytes(at.card, card.length));
    return counted === undefined || counted === null ? null : answer.summary;
  }

  /** @type {import('./engine.js').Engine['hold']} */
  function hold(vehicle, speeds, holds, card, second, gear, given) {
    const numbers = { second: fitting('second', second, 'size'), gear: fitting('gear', gear, 'uint8') };
    return edit('hold', vehicle, speeds, holds, card, numbers, given);
  }

  /** @type {import('./engine.js').Engine['release']} */
  function release(vehicle, speeds, holds, card, second, given) {
    return edit('release', vehicle, speeds, holds, card, { second: fitting('second', second, 'size') }, given);
  }

  /** @type {import('./engine.js').Engine['mend']} */
  function mend(vehicle, speeds, holds, card, second, speed, given) {
    const numbers = { second: fitting('second', second, 'size'), speed: fitting('speed', speed, 'uint16') };
    return edit('mend', vehicle, speeds, holds, card, numbers, given);
  }

  /**
   * The room that the cycle, or the scaled cycle, fills.
   * @param {'cycle' | 'downscale'} kind
   * @param {Record<string, number>} numbers the part, or the factor
   */
  function filled(kind, numbers) {
    const { answer, at } = called(kind, { ...numbers, room: CYCLE });
    accepted(/** @type {any} */ (answer));
    return lent.shorts(at.room, CYCLE).slice();
  }

  /** @type {(speeds: Uint16Array, part: {first: number, count: number}) => Uint16Array} */
  const cut = (speeds, { first, count }) => speeds.slice(first, first + count);

  /** @type {import('./engine.js').Engine['partOf']} */
  function partOf(part) {
    // It is the cycle that refuses a number; a part by itself would be empty.
    filled('cycle', { part: fitting('part', part, 'uint32') });
    return /** @type {any} */ (called('cycle_part', { part, roomLength: CYCLE }).answer);
  }

  /** @type {import('./engine.js').Engine['cycle']} */
  const cycle = (part = 0) => cut(filled('cycle', { part: fitting('part', part, 'uint32') }), partOf(part));

  /** @type {import('./engine.js').Engine['downscale']} */
  const downscale = (factor, part = 0) => cut(filled('downscale', { factor: fitting('factor', factor, 'uint32') }), partOf(part));

  /** @type {import('./engine.js').Engine['exportOf']} */
  function exportOf(bytes) {
    const { verdict, ...found } = called('export', { bytes: list('bytes', bytes, Uint8Array) }).answer;
    accepted(verdict);
    return /** @type {any} */ (found);
  }

  return Object.freeze({
    read,
    write,
    work,
    summary,
    why,
    hold,
    release,
    mend,
    partOf,
    cycle,
    downscale,
    exportOf,
    gearOf,
    clutchDown,
    Refused,
    LONGEST,
    CYCLE,
    MOST,
  });
}

/**
 * The engine from the bytes of gearcard.wasm, or from a module that was compiled of them.
 * @param {BufferSource | WebAssembly.Module} source
 * @returns {Promise<import('./engine.js').Engine>}
 */
export async function load(source) {
  const module = source instanceof WebAssembly.Module ? source : await WebAssembly.compile(source);
  return functionsOf((await WebAssembly.instantiate(module, {})).exports);
}
