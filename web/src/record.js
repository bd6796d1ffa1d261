/**
 * What was shown in a run, and what was done meanwhile. A line of it is the data that a frame of the driver's window was drawn from, and nothing is worked out
 * afterwards: docs/FORMATS.md describes it, and `./gearcard record` compares it with a job.
 */
import { clutchDown, gearOf } from '../../js/gearcard/engine.js';
import { sha256 } from './sha256.js';

/**
 * @typedef {{second: number, byte: number, hold: number}} Frame what one frame shows: the second, its byte of the card, and the gear that it is held in, or 0
 * @typedef {{time: string, second: number, gear: number, clutch: 'down' | 'up', hold: number}} Shown
 * @typedef {{time: string, at: number, what: string, first: number, last: number, changed: [number, number][], ahead: number, driven: boolean}} Edit
 * @typedef {{time: string, at: number, event: string, value?: number}} Event
 * @typedef {{name: string, seconds: number, before: string, after: string}} Of
 * @typedef {{format: string, version: string, commit: string, job: Of, began: string, ended: string | null, lead: number, shown: Shown[], edits: Edit[],
 *   events: Event[]}} Kept
 */

export const FORMAT = 'gearcard run 1';

/** Where the browser keeps a record until it is saved; how often, in milliseconds, and at most for which part of the time. */
const PLACE = 'gearcard-run';
const OFTEN = 1000;
const SHARE = 20;

/**
 * What the browser keeps for a page: nothing, for some that come from a file.
 * @returns {Storage | undefined}
 */
function storage() {
  try {
    return window.localStorage ?? undefined;
  } catch {
    return undefined;
  }
}

/** The time of the wall. */
const now = () => new Date().toISOString();

export class Record {
  /** @param {string} made the version and the commit of the page */
  constructor(made) {
    this.version = /gearcard ([^ ,]+)/.exec(made)?.[1] ?? '';
    this.commit = /commit ([^ ,]+)/.exec(made)?.[1] ?? '';
    /** @type {Kept | undefined} */
    this.kept = undefined;
    /** @type {string | undefined} */
    this.last = undefined;
    this.saved = true;
    /** When the record is kept again, and whether that is waited for. */
    this.due = 0;
    this.waits = false;
    /**
     * The job's hash, where an edit has made it another.
     * @type {(() => string) | undefined}
     */
    this.hash = undefined;
    window.addEventListener('pagehide', () => {
      if (!this.saved) this.keep();
    });
  }

  /**
   * A run begins.
   * @param {{name: string, job: import('./store.js').Job, bytes: Uint8Array}} of
   * @param {number} lead
   * @returns {boolean} whether the browser keeps the record, should the page end unasked
   */
  begin({ name, job, bytes }, lead) {
    const before = sha256(bytes);
    this.kept = {
      format: FORMAT,
      version: this.version,
      commit: this.commit,
      job: { name, seconds: job.speeds.length, before, after: before },
      began: now(),
      ended: null,
      lead,
      shown: [],
      edits: [],
      events: [],
    };
    this.last = undefined;
    this.saved = false;
    return this.keep();
  }

  /** Whether a run is on. */
  get on() {
    return this.kept !== undefined && this.kept.ended === null;
  }

  /**
   * A frame was drawn. What it shows is written down where it is another than the frame before showed.
   * @param {Frame} frame
   */
  see({ second, byte, hold }) {
    if (this.kept === undefined || !this.on) return;
    const key = `${second},${byte},${hold}`;
    if (key === this.last) return;
    this.last = key;
    this.kept.shown.push({ time: now(), second, gear: gearOf(byte), clutch: clutchDown(byte) ? 'down' : 'up', hold });
    this.keepSoon();
  }

  /**
   * What happened to the run: start, pause, seek, rate, lost, found, end.
   * @param {string} event
   * @param {number} at
   * @param {number} [value]
   */
  note(event, at, value) {
    if (this.kept === undefined || !this.on) return;
    this.kept.events.push({ time: now(), at: rounded(at), event, ...(value === undefined ? {} : { value }) });
    // What is drawn after it is written down, the same second again too.
    this.last = undefined;
    this.keepSoon();
  }

  /**
   * An edit of the job: how many seconds the first that it is of lies ahead of the driver, and whether he is still to drive any of it.
   * @param {{words: string, seconds: [number, number] | null, changed: Uint8Array | null}} change
   * @param {number} at
   * @param {() => string} hash the job's
   */
  edit({ words, seconds, changed }, at, hash) {
    if (this.kept === undefined || !this.on || seconds === null) return;
    const [first, last] = seconds;
    const driven = last >= Math.floor(at);
    this.kept.edits.push({ time: now(), at: rounded(at), what: words, first, last, changed: runsOf(changed), ahead: rounded(first - at), driven });
    this.hash = hash;
    this.keepSoon();
  }

  /** @param {number} at */
  end(at) {
    if (this.kept === undefined || !this.on) return;
    this.note('end', at);
    this.kept.ended = now();
    this.keep();
  }

  /** The job's hash as it is now. */
  settle() {
    if (this.kept !== undefined && this.hash !== undefined) this.kept.job.after = this.hash();
    this.hash = undefined;
  }

  json() {
    this.settle();
    return `${JSON.stringify(this.kept, null, 1)}\n`;
  }

  /** The lines alone, for a spreadsheet. */
  csv() {
    const rows = (this.kept?.shown ?? []).map(({ time, second, gear, clutch, hold }) => `${time},${second},${gear},${clutch},${hold}\n`);
    return `time,second,gear,clutch,hold\n${rows.join('')}`;
  }

  /** Keeps the record in the browser, now or when it is due. */
  keepSoon() {
    if (this.waits) return;
    this.waits = true;
    setTimeout(() => {
      this.waits = false;
      if (!this.saved) this.keep();
    }, Math.max(0, this.due - performance.now()));
  }

  /** Keeps the record in the browser; false where it keeps nothing. */
  keep() {
    const begun = performance.now();
    this.settle();
    try {
      const place = storage();
      place?.setItem(PLACE, JSON.stringify(this.kept));
      return place !== undefined;
    } catch {
      return false;
    } finally {
      const now = performance.now();
      this.due = now + Math.max(OFTEN, SHARE * (now - begun));
    }
  }

  /** The record has a file, or is not wanted. */
  drop() {
    this.saved = true;
    storage()?.removeItem(PLACE);
  }

  /**
   * A record that the browser kept of a page that ended unasked.
   * @returns {boolean} whether there is one
   */
  find() {
    try {
      const found = JSON.parse(storage()?.getItem(PLACE) ?? 'null');
      if (found?.format !== FORMAT || !Array.isArray(found.shown)) return false;
      this.kept = { ...found, ended: found.ended ?? found.shown.at(-1)?.time ?? found.began };
      // The browser has it as long as nobody discards it.
      return true;
    } catch {
      return false;
    }
  }
}

/** @param {number} at */
const rounded = (at) => Math.round(at * 1000) / 1000;

/**
 * The first and the last second of each stretch that is marked.
 * @param {Uint8Array | null} mask
 * @returns {[number, number][]}
 */
function runsOf(mask) {
  /** @type {[number, number][]} */
  const found = [];
  (mask ?? []).forEach((each, k) => {
    const last = found[found.length - 1];
    if (!each) return;
    if (last !== undefined && last[1] === k - 1) last[1] = k;
    else found.push([k, k]);
  });
  return found;
}
