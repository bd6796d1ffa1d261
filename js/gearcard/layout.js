/** Written by scripts/boundary from include/gearcard.h: change that, and run it. */

export const LONGEST = 16384;
export const CYCLE = 1801;

/** @typedef {{name: string, at: number, kind: string, count: number}} Field count: 0 where it is no list */

/**
 * The records: their bytes, and their fields with the place of each. Sizes and places are those of 64-bit C in
 * WebAssembly too, where a size_t has eight bytes.
 * @type {Readonly<Record<string, {size: number, fields: Field[]}>>}
 */
export const RECORDS = Object.freeze({
  vehicle: {
    size: 432,
    fields: [
      { name: 'ng', at: 0, kind: 'uint16', count: 0 },
      { name: 'ratio', at: 2, kind: 'uint16', count: 10 },
      { name: 'idle', at: 22, kind: 'uint16', count: 0 },
      { name: 'rated', at: 24, kind: 'uint16', count: 0 },
      { name: 'nmax', at: 26, kind: 'uint16', count: 0 },
      { name: 'f0', at: 28, kind: 'uint16', count: 0 },
      { name: 'f1', at: 32, kind: 'int32', count: 0 },
      { name: 'f2', at: 36, kind: 'uint16', count: 0 },
      { name: 'tm', at: 38, kind: 'uint16', count: 0 },
      { name: 'margin', at: 40, kind: 'uint16', count: 0 },
      { name: 'points', at: 42, kind: 'uint16', count: 0 },
      { name: 'n', at: 44, kind: 'uint16', count: 64 },
      { name: 'p', at: 172, kind: 'uint16', count: 64 },
      { name: 'm', at: 300, kind: 'uint16', count: 64 },
      { name: 'profile', at: 428, kind: 'uint16', count: 0 },
    ],
  },
  verdict: {
    size: 16,
    fields: [
      { name: 'number', at: 0, kind: 'uint32', count: 0 },
      { name: 'place', at: 8, kind: 'size', count: 0 },
    ],
  },
  job: {
    size: 464,
    fields: [
      { name: 'verdict', at: 0, kind: 'verdict', count: 0 },
      { name: 'version', at: 16, kind: 'uint16', count: 0 },
      { name: 'vehicle', at: 20, kind: 'vehicle', count: 0 },
      { name: 'count', at: 456, kind: 'size', count: 0 },
    ],
  },
  written: {
    size: 24,
    fields: [
      { name: 'verdict', at: 0, kind: 'verdict', count: 0 },
      { name: 'length', at: 16, kind: 'size', count: 0 },
    ],
  },
  summary: {
    size: 24,
    fields: [
      { name: 'standing', at: 0, kind: 'uint16', count: 0 },
      { name: 'gears', at: 2, kind: 'uint16', count: 10 },
      { name: 'changes', at: 22, kind: 'uint16', count: 0 },
    ],
  },
  counted: {
    size: 40,
    fields: [
      { name: 'verdict', at: 0, kind: 'verdict', count: 0 },
      { name: 'summary', at: 16, kind: 'summary', count: 0 },
    ],
  },
  gear: {
    size: 32,
    fields: [
      { name: 'q', at: 0, kind: 'int64', count: 0 },
      { name: 'w', at: 8, kind: 'int64', count: 0 },
      { name: 'engine', at: 16, kind: 'uint32', count: 0 },
      { name: 'minimum', at: 20, kind: 'uint32', count: 0 },
      { name: 'rule', at: 24, kind: 'uint8', count: 0 },
      { name: 'allowed', at: 25, kind: 'bool', count: 0 },
      { name: 'overMinimum', at: 26, kind: 'bool', count: 0 },
      { name: 'underNmax', at: 27, kind: 'bool', count: 0 },
      { name: 'fits', at: 28, kind: 'bool', count: 0 },
      { name: 'enough', at: 29, kind: 'bool', count: 0 },
    ],
  },
  reasons: {
    size: 368,
    fields: [
      { name: 'about', at: 0, kind: 'size', count: 0 },
      { name: 'first', at: 8, kind: 'size', count: 0 },
      { name: 'last', at: 16, kind: 'size', count: 0 },
      { name: 'required', at: 24, kind: 'int64', count: 0 },
      { name: 'gears', at: 32, kind: 'gear', count: 10 },
      { name: 'kind', at: 352, kind: 'uint8', count: 0 },
      { name: 'role', at: 353, kind: 'uint8', count: 0 },
      { name: 'held', at: 354, kind: 'uint8', count: 0 },
      { name: 'choice', at: 355, kind: 'uint8', count: 0 },
      { name: 'sentence', at: 356, kind: 'uint8', count: 0 },
      { name: 'afterA', at: 357, kind: 'uint8', count: 0 },
      { name: 'afterB', at: 358, kind: 'uint8', count: 0 },
      { name: 'afterC', at: 359, kind: 'uint8', count: 0 },
      { name: 'floor', at: 360, kind: 'uint8', count: 0 },
      { name: 'ceiling', at: 361, kind: 'uint8', count: 0 },
      { name: 'clutch', at: 362, kind: 'bool', count: 0 },
      { name: 'clutchReason', at: 363, kind: 'uint8', count: 0 },
      { name: 'byte', at: 364, kind: 'uint8', count: 0 },
    ],
  },
  why: {
    size: 384,
    fields: [
      { name: 'verdict', at: 0, kind: 'verdict', count: 0 },
      { name: 'reasons', at: 16, kind: 'reasons', count: 0 },
    ],
  },
  part: {
    size: 16,
    fields: [
      { name: 'first', at: 0, kind: 'size', count: 0 },
      { name: 'count', at: 8, kind: 'size', count: 0 },
    ],
  },
  coefficients: {
    size: 32,
    fields: [
      { name: 'verdict', at: 0, kind: 'verdict', count: 0 },
      { name: 'f0', at: 16, kind: 'uint16', count: 0 },
      { name: 'f1', at: 20, kind: 'int32', count: 0 },
      { name: 'f2', at: 24, kind: 'uint16', count: 0 },
      { name: 'tm', at: 26, kind: 'uint16', count: 0 },
    ],
  },
});

/** @typedef {{name: string, kind: string, list: boolean}} Argument list: it is a pointer and a length */

/**
 * The functions: the record that each answers, and what it takes.
 * @type {Readonly<Record<string, {answer: string, takes: Argument[]}>>}
 */
export const FUNCTIONS = Object.freeze({
  read: {
    answer: 'job',
    takes: [
      { name: 'job', kind: 'uint8', list: true },
      { name: 'speeds', kind: 'uint16', list: true },
      { name: 'holds', kind: 'uint8', list: true },
    ],
  },
  write: {
    answer: 'written',
    takes: [
      { name: 'version', kind: 'uint16', list: false },
      { name: 'vehicle', kind: 'vehicle', list: false },
      { name: 'speeds', kind: 'uint16', list: true },
      { name: 'holds', kind: 'uint8', list: true },
      { name: 'room', kind: 'uint8', list: true },
    ],
  },
  work: {
    answer: 'verdict',
    takes: [
      { name: 'vehicle', kind: 'vehicle', list: false },
      { name: 'speeds', kind: 'uint16', list: true },
      { name: 'holds', kind: 'uint8', list: true },
      { name: 'card', kind: 'uint8', list: true },
    ],
  },
  summary_of: {
    answer: 'counted',
    takes: [
      { name: 'speeds', kind: 'uint16', list: true },
      { name: 'card', kind: 'uint8', list: true },
    ],
  },
  hold: {
    answer: 'counted',
    takes: [
      { name: 'vehicle', kind: 'vehicle', list: false },
      { name: 'speeds', kind: 'uint16', list: true },
      { name: 'holds', kind: 'uint8', list: true },
      { name: 'card', kind: 'uint8', list: true },
      { name: 'second', kind: 'size', list: false },
      { name: 'gear', kind: 'uint8', list: false },
      { name: 'summary', kind: 'summary', list: false },
    ],
  },
  release: {
    answer: 'counted',
    takes: [
      { name: 'vehicle', kind: 'vehicle', list: false },
      { name: 'speeds', kind: 'uint16', list: true },
      { name: 'holds', kind: 'uint8', list: true },
      { name: 'card', kind: 'uint8', list: true },
      { name: 'second', kind: 'size', list: false },
      { name: 'summary', kind: 'summary', list: false },
    ],
  },
  mend: {
    answer: 'counted',
    takes: [
      { name: 'vehicle', kind: 'vehicle', list: false },
      { name: 'speeds', kind: 'uint16', list: true },
      { name: 'holds', kind: 'uint8', list: true },
      { name: 'card', kind: 'uint8', list: true },
      { name: 'second', kind: 'size', list: false },
      { name: 'speed', kind: 'uint16', list: false },
      { name: 'summary', kind: 'summary', list: false },
    ],
  },
  why: {
    answer: 'why',
    takes: [
      { name: 'vehicle', kind: 'vehicle', list: false },
      { name: 'speeds', kind: 'uint16', list: true },
      { name: 'holds', kind: 'uint8', list: true },
      { name: 'second', kind: 'size', list: false },
    ],
  },
  cycle: {
    answer: 'verdict',
    takes: [
      { name: 'part', kind: 'uint32', list: false },
      { name: 'room', kind: 'uint16', list: true },
    ],
  },
  cycle_part: {
    answer: 'part',
    takes: [
      { name: 'part', kind: 'uint32', list: false },
      { name: 'roomLength', kind: 'size', list: false },
    ],
  },
  downscale: {
    answer: 'verdict',
    takes: [
      { name: 'factor', kind: 'uint32', list: false },
      { name: 'room', kind: 'uint16', list: true },
    ],
  },
  export: {
    answer: 'coefficients',
    takes: [
      { name: 'bytes', kind: 'uint8', list: true },
    ],
  },
});
