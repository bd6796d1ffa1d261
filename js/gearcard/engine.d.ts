import { Coefficients, Gear, Part, Point, Reasons, Summary, VehicleNumbers } from './types.js';

export { Coefficients, Gear, Part, Point, Summary };

/** A vehicle in document 01's units. Gear count and point count are the lengths of the lists. The functions refuse what is out of bounds, by 3 at its field. */
export interface Vehicle extends VehicleNumbers {
  /** engine speed over road speed of each gear, hundredths of min^-1 per km/h */
  ratios: ArrayLike<number>;
  /** the power curve */
  curve: ReadonlyArray<Point | [n: number, p: number, m?: number]>;
}

/** A vehicle as `read` gives it: everything is there. */
export interface ReadVehicle extends Required<VehicleNumbers> {
  ratios: number[];
  curve: Required<Point>[];
}

/** What a job says. The arrays are the caller's to change. */
export interface Job {
  version: number;
  vehicle: ReadVehicle;
  /** tenths of km/h */
  speeds: Uint16Array;
  /** the held gear of each second, 0 where there is none */
  holds: Uint8Array;
}

/**
 * How the byte of a second came about. At a standing second before a trip it is said of the trip's first second, `about`. The codes stand in
 * `gearcard/whys`, in document 01's words; `gears` has those of the vehicle, gear 1 first.
 */
export interface Why extends Reasons {
  second: number;
  /** refusal 10, where some second of the trip has no gear: then the corrections and the byte are 0 */
  refused: Refused | null;
}

/** The engine refuses, by the number and the place of the table; nothing was changed. `words` says it for people. */
export class Refused extends Error {
  constructor(number: number, place: number, words?: string);
  readonly number: number;
  readonly place: number;
  readonly words: string;
}

/**
 * The functions. Each throws `Refused` where the engine refuses, and `TypeError` or `RangeError` before anything is called where a value is none that it
 * takes.
 */
export interface Engine {
  /** Reads a job file's bytes. */
  read(job: Uint8Array): Job;
  /** Writes a job: its bytes. What it writes reads back as the same job. */
  write(vehicle: Vehicle, speeds: Uint16Array, holds?: Uint8Array | null, version?: number): Uint8Array;
  /** Works the whole trace: its card. */
  work(vehicle: Vehicle, speeds: Uint16Array, holds?: Uint8Array | null): Uint8Array;
  /** How long a card is in each gear, counted over the whole of it. */
  summary(speeds: Uint16Array, card: Uint8Array): Summary;
  /** Why the card shows at a second what it shows. It looks at the second's trip alone. */
  why(vehicle: Vehicle, speeds: Uint16Array, holds: Uint8Array | null | undefined, second: number): Why;
  /** Holds one second in a gear from 1. Given the card's summary, it answers the new one, else null. */
  hold(vehicle: Vehicle, speeds: Uint16Array, holds: Uint8Array, card: Uint8Array, second: number, gear: number, summary?: Summary | null): Summary | null;
  /** Releases one second, held or free. */
  release(vehicle: Vehicle, speeds: Uint16Array, holds: Uint8Array, card: Uint8Array, second: number, summary?: Summary | null): Summary | null;
  /** Corrects one speed sample. */
  mend(vehicle: Vehicle, speeds: Uint16Array, holds: Uint8Array, card: Uint8Array, second: number, speed: number, summary?: Summary | null): Summary | null;
  /** The seconds of the built-in cycle that a part has: 0 the whole, 1 to 4 Low to Extra High. */
  partOf(part: number): Part;
  /** The speeds of the built-in Class 3 cycle, or of one of its parts. */
  cycle(part?: number): Uint16Array;
  /** That cycle, or a part of it, scaled down for a weak car. The factor is in thousandths, 0 to 500. */
  downscale(factor: number, part?: number): Uint16Array;
  /** Reads the bench computer's export. */
  exportOf(bytes: Uint8Array): Coefficients;
  /** The gear of a card byte, 0 for neutral. */
  gearOf(byte: number): number;
  /** Whether a card byte has the clutch down. */
  clutchDown(byte: number): boolean;
  readonly Refused: typeof Refused;
  /** The longest trace, in seconds. */
  readonly LONGEST: number;
  /** Seconds of the built-in cycle. */
  readonly CYCLE: number;
  /** Elements of one list that is taken. */
  readonly MOST: number;
}

/** The engine from the bytes of gearcard.wasm, or from a module that was compiled of them. */
export function load(source: BufferSource | WebAssembly.Module): Promise<Engine>;
export const LONGEST: number;
export const CYCLE: number;
/** Bytes of the engine's stack. */
export const STACK: number;
export function gearOf(byte: number): number;
export function clutchDown(byte: number): boolean;
