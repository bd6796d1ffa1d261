/** The trace that comes, as the driver sees it: a marker at now, and the gears beneath. */
import { clutchDown, gearOf } from '../../js/gearcard/engine.js';
import { Sheet, axisSeen } from './canvas.js';
import { gearText, runs } from './trips.js';

/** Seconds of the trace that are seen behind and ahead of now. */
const [BEHIND, AHEAD] = [5, 20];

/**
 * The trace between two samples is a straight line.
 * @param {Uint16Array} speeds
 * @param {number} at
 */
export function speedAt(speeds, at) {
  const second = Math.min(Math.floor(at), speeds.length - 1);
  const after = speeds[Math.min(second + 1, speeds.length - 1)];
  return speeds[second] + (after - speeds[second]) * (at - second);
}

export class Road extends Sheet {
  /**
   * @param {HTMLCanvasElement} canvas
   * @param {import('./store.js').Store} store
   * @param {() => number} lead the seconds ahead that are as good as driven
   */
  constructor(canvas, store, lead) {
    super(canvas);
    this.store = store;
    this.lead = lead;
    this.at = 0;
    this.size = 0;
    this.axis = { top: 1, step: 1 };
  }

  /** Where the drawing begins, and the line of standstill. */
  get left() {
    return this.size * 2.4;
  }

  get base() {
    return this.height - this.size * 3.1;
  }

  /** The seconds on the sheet, and one more on either side. */
  get seen() {
    return { first: Math.max(0, Math.floor(this.at - BEHIND) - 1), last: Math.min(this.store.card.length, Math.ceil(this.at + AHEAD) + 2) };
  }

  /** @param {number} second */
  x(second) {
    return this.left + ((second - this.at + BEHIND) * (this.width - this.left)) / (BEHIND + AHEAD);
  }

  /** @param {number} speed */
  y(speed) {
    const top = this.size * 1.2;
    return this.base - ((this.base - top) * speed) / this.axis.top;
  }

  /** @param {number} at */
  draw(at) {
    const pen = this.begin();
    this.at = at;
    this.size = Math.max(13, Math.min(this.width, this.height) / 17);
    const { speeds } = this.store.job;
    const { first, last } = this.seen;
    this.axis = axisSeen(speeds, this.store.trips, first, last);
    this.grid();
    pen.save();
    pen.beginPath();
    pen.rect(this.left, 0, this.width - this.left, this.height);
    pen.clip();
    this.near();
    this.gears();
    this.strips();
    /** @type {[number, number][]} */
    const points = Array.from(speeds.subarray(first, last), (speed, k) => [this.x(first + k), this.y(speed)]);
    this.stroke(this.colours.accent, Math.max(3, this.size / 5), points);
    pen.restore();
    this.now();
  }

  grid() {
    const { size, left, axis } = this;
    for (let speed = 0; speed <= axis.top; speed += axis.step) {
      this.stroke(this.colours.line, 1, [[left, this.y(speed)], [this.width, this.y(speed)]]);
      this.text(String(speed / 10), left - size * 0.4, this.y(speed) + size * 0.3, { size: size * 0.8, align: 'right' });
    }
  }

  /**
   * Runs of what is seen in the card.
   * @param {(byte: number) => number} of
   * @returns {[number, number, number][]}
   */
  runsOf(of) {
    const { first, last } = this.seen;
    return runs(this.store.card.subarray(first, last).map(of)).map(([a, b, value]) => [first + a, first + b, value]);
  }

  /** The gear of each stretch, where it has room. */
  gears() {
    const { size, colours } = this;
    for (const [a, b, gear] of this.runsOf(gearOf)) {
      const [from, to] = [Math.max(this.x(a), this.left), Math.min(this.x(b), this.width)];
      this.stroke(colours.line, 1, [[this.x(a), size * 1.2], [this.x(a), this.height - size * 0.4]]);
      if (to - from < size * 0.9) continue;
      const held = this.store.job.holds.subarray(a, b).some((each) => each !== 0);
      const colour = held ? colours.held : colours.ink;
      this.text(gearText(gear), (from + to) / 2, this.height - size * 1.2, { size: size * 1.5, weight: 700, align: 'center', colour });
    }
  }

  /** What is held, above the gears, and where the clutch is down, beneath. */
  strips() {
    const { size, colours } = this;
    const { first, last } = this.seen;
    for (const [a, b, gear] of runs(this.store.job.holds, first, last)) {
      if (gear) this.fill(colours.held, this.x(a), this.base + size * 0.35, this.x(b) - this.x(a), size * 0.35);
    }
    for (const [a, b, down] of this.runsOf((byte) => Number(clutchDown(byte)))) {
      if (down) this.fill(colours.muted, this.x(a), this.height - size * 0.75, this.x(b) - this.x(a), size * 0.35);
    }
  }

  /** The lead time: what is within it comes too soon to be changed without a question. */
  near() {
    const [from, to] = [this.x(this.at), this.x(this.at + this.lead())];
    this.fill(this.colours.chosen, from, this.size * 1.2, to - from, this.base - this.size * 1.2);
  }

  now() {
    const { size, pen, colours } = this;
    const x = this.x(this.at);
    this.stroke(colours.now, Math.max(2, size / 8), [[x, size * 0.36], [x, this.height - size * 0.2]]);
    pen.fillStyle = colours.now;
    pen.beginPath();
    pen.arc(x, this.y(speedAt(this.store.job.speeds, this.at)), size * 0.42, 0, 7);
    pen.fill();
  }
}
