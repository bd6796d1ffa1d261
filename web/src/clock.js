/**
 * The one clock of a run: where the drive is now, in seconds of the trace.
 *
 * Its place is always the difference of two readings of the system's clock, times the rate: nothing is added up from frame to frame, so that it does not drift,
 * whether frames come late or not at all.
 */
export class Clock {
  /** @param {() => number} [now] milliseconds of a clock that never goes back */
  constructor(now = () => performance.now()) {
    this.now = now;
    this.rate = 1;
    this.end = 0;
    /** The place at the last start, step or change of rate, and the reading then; undefined where it stands. */
    this.base = 0;
    /** @type {number | undefined} */
    this.since = undefined;
  }

  /** The place, in seconds. */
  at() {
    const gone = this.since === undefined ? 0 : ((this.now() - this.since) / 1000) * this.rate;
    return Math.min(this.base + gone, this.end);
  }

  /** The second that is being driven. */
  second() {
    return Math.floor(this.at());
  }

  get running() {
    return this.since !== undefined && this.at() < this.end;
  }

  /** For how many seconds of the wall it has stood at the end. */
  over() {
    return this.since === undefined ? 0 : (this.now() - this.since) / 1000 - (this.end - this.base) / this.rate;
  }

  start() {
    const at = this.at();
    this.base = at < this.end ? at : 0;
    this.since = this.now();
  }

  pause() {
    this.base = this.at();
    this.since = undefined;
  }

  /** @param {number} second */
  seek(second) {
    const { running } = this;
    this.base = Math.max(0, Math.min(second, this.end));
    this.since = running ? this.now() : undefined;
  }

  /**
   * By whole seconds, from a standing clock.
   * @param {number} seconds
   */
  step(seconds) {
    this.pause();
    this.seek(Math.floor(this.base) + seconds);
  }

  /** @param {number} rate */
  setRate(rate) {
    const { running } = this;
    this.pause();
    this.rate = rate;
    if (running) this.since = this.now();
  }
}
