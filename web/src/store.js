/**
 * The one state of the page: a job, its card and its summary, and how it came to be. Every view reads it, and it changes in one step or not at all.
 *
 * No gear is worked out here. An edit of one second is one proved call, and so is its undoing; an edit of many is one whole working.
 */
import { tripsOf } from './trips.js';

/**
 * @typedef {import('../../js/gearcard/engine.js').Engine} Engine
 * @typedef {import('../../js/gearcard/engine.js').Job} Job
 * @typedef {import('../../js/gearcard/engine.js').Summary} Summary
 *
 * One step, forth or back. `whole` has a copy of the job, since edits of one second write into the arrays of the present one.
 * @typedef {{kind: 'hold', second: number, gear: number} | {kind: 'release', second: number} | {kind: 'mend', second: number, speed: number}
 *   | {kind: 'whole', job: Job}} Step
 *
 * What was done, the seconds of the card that are another now, whether the trace is, and the first and the last second whose hold or speed is.
 * @typedef {{words: string, changed: Uint8Array | null, trace: boolean, seconds: [number, number] | null}} Change
 */

/** @param {Job} job */
const copied = (job) => ({ ...job, speeds: job.speeds.slice(), holds: job.holds.slice() });

export class Store {
  /**
   * @param {Engine} engine
   * @param {Uint8Array} bytes of the job to begin with
   * @param {string} name
   */
  constructor(engine, bytes, name) {
    this.engine = engine;
    /** @type {((change: Change) => void)[]} */
    this.listeners = [];
    /** Throws where no other vehicle and no other trace can come in place of these. */
    this.guard = () => {};
    const { job, card, summary } = this.worked(engine.read(bytes));
    /** @type {Job} */
    this.job = job;
    /** @type {Uint8Array} */
    this.card = card;
    /** @type {Summary} */
    this.summary = summary;
    this.name = name;
    /** How often anything has changed: what is drawn once knows by it whether it still holds. */
    this.changes = 0;
    /** @type {{forth: Step, back: Step, words: string}[]} */
    this.done = [];
    /** @type {{forth: Step, back: Step, words: string}[]} */
    this.undone = [];
    /**
     * The trips, and the speeds that they were found in.
     * @type {{speeds: Uint16Array, trips: import('./trips.js').Trip[]} | undefined}
     */
    this.found = undefined;
    /**
     * The last step that the saved file has.
     * @type {object | undefined}
     */
    this.saved = undefined;
  }

  /**
   * The trips of the trace, found once for each trace.
   * @returns {import('./trips.js').Trip[]}
   */
  get trips() {
    const { speeds } = this.job;
    if (this.found?.speeds !== speeds) this.found = { speeds, trips: tripsOf(speeds) };
    return this.found.trips;
  }

  /** @param {(change: Change) => void} listener */
  listen(listener) {
    this.listeners.push(listener);
  }

  /** Whether there are edits that no file has. */
  get unsaved() {
    return this.done[this.done.length - 1] !== this.saved;
  }

  /** Called when the job has been written to a file. */
  markSaved() {
    this.saved = this.done[this.done.length - 1];
    this.tell({ words: '', changed: null, trace: false, seconds: null });
  }

  /**
   * A job worked afresh. What could not be written is refused here too, so that whatever is shown can be saved.
   * @param {Job} job
   */
  worked(job) {
    const { engine } = this;
    engine.write(job.vehicle, job.speeds, job.holds, job.version);
    const card = engine.work(job.vehicle, job.speeds, job.holds);
    return { job, card, summary: engine.summary(job.speeds, card) };
  }

  /**
   * Another job in place of this one; the history begins anew.
   * @param {Uint8Array} bytes
   * @param {string} name
   */
  open(bytes, name) {
    this.guard();
    Object.assign(this, this.worked(this.engine.read(bytes)), { name, done: [], undone: [], saved: undefined });
    this.tell({ words: `${name} opened`, changed: null, trace: true, seconds: null });
  }

  /** The bytes of the job. */
  bytes() {
    const { vehicle, speeds, holds, version } = this.job;
    return this.engine.write(vehicle, speeds, holds, version);
  }

  /**
   * @param {number} first
   * @param {number} last
   * @param {number} gear
   */
  hold(first, last, gear) {
    const words = `${secondsText(first, last)} held in gear ${gear}`;
    if (first === last) this.edit({ kind: 'hold', second: first, gear }, words);
    else this.editHolds(first, last, gear, words);
  }

  /**
   * @param {number} first
   * @param {number} last
   */
  release(first, last) {
    const words = `${secondsText(first, last)} released`;
    if (first === last) this.edit({ kind: 'release', second: first }, words);
    else this.editHolds(first, last, 0, words);
  }

  /**
   * @param {number} second
   * @param {number} speed
   */
  mend(second, speed) {
    this.edit({ kind: 'mend', second, speed }, `second ${second} mended to ${(speed / 10).toFixed(1)} km/h`);
  }

  /**
   * Many seconds as one step: one whole working.
   * @param {number} first
   * @param {number} last
   * @param {number} gear
   * @param {string} words
   */
  editHolds(first, last, gear, words) {
    const holds = this.job.holds.slice();
    holds.fill(gear, first, last + 1);
    this.change({ ...this.job, holds }, words);
  }

  /**
   * A changed job in place of the present one, as one step that can be undone.
   * @param {Job} job
   * @param {string} words
   */
  change(job, words) {
    this.edit({ kind: 'whole', job: copied(job) }, words);
  }

  /**
   * @param {Step} forth
   * @param {string} words
   */
  edit(forth, words) {
    const back = this.backOf(forth);
    const nothing = isSame(forth, back);
    this.apply(forth, words, () => {
      if (nothing) return;
      this.done.push({ forth, back, words });
      this.undone = [];
    });
  }

  /**
   * The step that undoes one.
   * @param {Step} step
   * @returns {Step}
   */
  backOf(step) {
    if (step.kind === 'whole') return { kind: 'whole', job: copied(this.job) };
    const { second } = step;
    if (step.kind === 'mend') return { kind: 'mend', second, speed: this.job.speeds[second] };
    const gear = this.job.holds[second];
    return gear ? { kind: 'hold', second, gear } : { kind: 'release', second };
  }

  /**
   * One step, by a proved call; then `record`, then the views are told. A refusal is thrown, and nothing has changed then.
   * @param {Step} step
   * @param {string} words
   * @param {() => void} record
   */
  apply(step, words, record) {
    const before = this.card.slice();
    const { holds, speeds } = copied(this.job);
    const trace = this.take(step);
    record();
    const same = before.length === this.card.length && !trace;
    const changed = same ? this.card.map((byte, k) => (byte === before[k] ? 0 : 1)) : null;
    this.tell({ words, changed, trace, seconds: same ? this.differing(holds, speeds) : null });
  }

  /**
   * The first and the last second whose hold or speed is another than in these.
   * @param {Uint8Array} holds
   * @param {Uint16Array} speeds
   * @returns {[number, number] | null}
   */
  differing(holds, speeds) {
    const isOther = (/** @type {number} */ k) => holds[k] !== this.job.holds[k] || speeds[k] !== this.job.speeds[k];
    let [first, last] = [0, holds.length - 1];
    while (first <= last && !isOther(first)) first += 1;
    while (last > first && !isOther(last)) last -= 1;
    return first > last ? null : [first, last];
  }

  /**
   * @param {Step} step
   * @returns {boolean} whether the trace is another now
   */
  take(step) {
    const { engine, job, card, summary } = this;
    const { vehicle, speeds, holds } = job;
    if (step.kind === 'whole') {
      const next = this.worked(copied(step.job));
      const trace = next.job.speeds.length !== speeds.length || next.job.speeds.some((speed, k) => speed !== speeds[k]);
      if (trace || JSON.stringify([next.job.vehicle, next.job.version]) !== JSON.stringify([vehicle, job.version])) this.guard();
      Object.assign(this, next);
      return trace;
    }
    const after =
      step.kind === 'hold'
        ? engine.hold(vehicle, speeds, holds, card, step.second, step.gear, summary)
        : step.kind === 'release'
          ? engine.release(vehicle, speeds, holds, card, step.second, summary)
          : engine.mend(vehicle, speeds, holds, card, step.second, step.speed, summary);
    this.summary = /** @type {Summary} */ (after);
    if (step.kind === 'mend') this.found = undefined;
    return false;
  }

  undo() {
    this.move(this.done, this.undone, 'back', 'undone');
  }

  redo() {
    this.move(this.undone, this.done, 'forth', 'done again');
  }

  /**
   * @param {{forth: Step, back: Step, words: string}[]} from
   * @param {{forth: Step, back: Step, words: string}[]} to
   * @param {'forth' | 'back'} way
   * @param {string} said
   */
  move(from, to, way, said) {
    const last = from[from.length - 1];
    if (last === undefined) return;
    this.apply(last[way], `${said}: ${last.words}`, () => {
      from.pop();
      to.push(last);
    });
  }

  /** Whether the present card and summary are those that working afresh gives. */
  isRight() {
    const { card, summary } = this.worked(this.job);
    return card.length === this.card.length && card.every((byte, k) => byte === this.card[k]) && JSON.stringify(summary) === JSON.stringify(this.summary);
  }

  /** @param {Change} change */
  tell(change) {
    this.changes += 1;
    for (const listener of this.listeners) listener(change);
  }
}

/**
 * Whether two steps of one second leave the same.
 * @param {Step} a
 * @param {Step} b
 */
function isSame(a, b) {
  return a.kind !== 'whole' && JSON.stringify(a) === JSON.stringify(b);
}

/**
 * @param {number} first
 * @param {number} last
 */
export const secondsText = (first, last) => (first === last ? `second ${first}` : `seconds ${first} to ${last}`);
