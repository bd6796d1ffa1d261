/** The card as the engineer sees it: speed over time, the gear as steps, clutch, holds and trips, whole or in part, at any zoom. */
import { clutchDown, gearOf } from '../../js/gearcard/engine.js';
import { Sheet, axisSeen, speedAxis, tickOf } from './canvas.js';
import { TOLERANCE, gearText, runs, tolerance } from './trips.js';

/** Room around the drawing, and the heights of its strips, in pixels. */
const [LEFT, RIGHT, TOP, BOTTOM] = [46, 10, 20, 24];
const [GAP, STRIP] = [10, 9];

/** Pixels of the screen a second below which a line is drawn as bars. */
const DENSE = 0.35;

/** For how long what changed stays marked, in milliseconds. */
const MARKED = 1600;

/**
 * What the drawing needs to know of the job, found once after each change.
 * @param {import('./store.js').Store} store
 */
function knownOf({ job, card }) {
  return {
    gears: card.map(gearOf),
    down: card.map((byte) => (clutchDown(byte) ? 1 : 0)),
    top: job.vehicle.ratios.length,
  };
}

/**
 * Where the parts of the drawing stand, from top to bottom.
 * @param {number} height
 * @param {number} top the highest gear
 */
function linesOf(height, top) {
  const held = height - BOTTOM - STRIP;
  const clutch = held - STRIP - 4;
  const gears = clutch - GAP;
  const room = Math.max(0.3 * gears, 13 * (top + 1));
  return { held, clutch, gears, step: room / (top + 1), speeds: gears - room - GAP, end: held + STRIP };
}

export class Chart {
  /**
   * @param {HTMLCanvasElement} canvas
   * @param {import('./store.js').Store} store
   * @param {import('./view.js').View} view
   * @param {import('./clock.js').Clock} clock
   */
  constructor(canvas, store, view, clock) {
    this.sheet = new Sheet(canvas);
    this.store = store;
    this.view = view;
    this.clock = clock;
    /** @type {{mask: Uint8Array, since: number} | undefined} */
    this.changed = undefined;
    this.drawn = 0;
    this.known = knownOf(store);
    this.lines = linesOf(0, 1);
    this.axis = speedAxis(store.job.speeds);
  }

  /** After a change of the job. */
  learn() {
    this.known = knownOf(this.store);
  }

  /**
   * Marks seconds of the card for a moment.
   * @param {Uint8Array | null} mask
   */
  markChanged(mask) {
    this.changed = mask !== null && mask.some((each) => each === 1) ? { mask, since: performance.now() } : undefined;
  }

  /** Whether the next frame differs from this one without anybody doing anything. */
  get moving() {
    return this.clock.running || this.changed !== undefined;
  }

  get perSecond() {
    return (this.sheet.width - LEFT - RIGHT) / this.view.span;
  }

  /** Whether there are many more seconds than pixels of the screen. */
  get isDense() {
    return this.perSecond * this.sheet.sharp < DENSE;
  }

  /** @param {number} second */
  x(second) {
    return LEFT + (second - this.view.first) * this.perSecond;
  }

  /**
   * The second at a place of the canvas.
   * @param {number} x
   */
  secondAt(x) {
    return this.view.first + (x - LEFT) / this.perSecond;
  }

  /** @param {number} speed */
  speedY(speed) {
    return this.lines.speeds - ((this.lines.speeds - TOP) * speed) / this.axis.top;
  }

  /** @param {number} gear */
  gearY(gear) {
    return this.lines.gears - this.lines.step * (gear + 0.5);
  }

  /** The first and the last second on the sheet, in whole seconds. */
  get shown() {
    const { first, span, count } = this.view;
    return { from: Math.max(0, Math.floor(first)), stop: Math.min(count, Math.ceil(first + span) + 1) };
  }

  draw() {
    const pen = this.sheet.begin();
    if (this.sheet.width < LEFT + RIGHT + 10) return;
    this.lines = linesOf(this.sheet.height, this.known.top);
    const { from, stop } = this.shown;
    this.axis = axisSeen(this.store.job.speeds, this.store.trips, from, stop, this.view.tolerances ? TOLERANCE : 0);
    this.frame();
    pen.save();
    pen.beginPath();
    pen.rect(LEFT, 0, this.sheet.width - LEFT - RIGHT, this.sheet.height);
    pen.clip();
    this.bands();
    this.grid();
    this.chosen();
    this.marks();
    if (this.view.tolerances) this.tolerances();
    this.speeds();
    this.holds();
    this.steps();
    this.strip(this.known.down, this.lines.clutch, this.sheet.colours.ink);
    this.now();
    pen.restore();
    this.drawn += 1;
  }

  /** Names and numbers beside the drawing. */
  frame() {
    const { sheet, view } = this;
    const { top } = this.known;
    const { axis } = this;
    for (let speed = 0; speed <= axis.top; speed += axis.step) sheet.text(String(speed / 10), LEFT - 7, this.speedY(speed) + 4, { align: 'right' });
    for (let gear = 0; gear <= top; gear++) sheet.text(gearText(gear), LEFT - 7, this.gearY(gear) + 4, { align: 'right' });
    const tick = tickOf(this.perSecond);
    for (let second = Math.ceil(view.first / tick) * tick; second <= view.first + view.span; second += tick) {
      const x = Math.min(this.x(second), sheet.width - 14);
      sheet.text(String(second), x, sheet.height - 8, { align: 'center' });
    }
    sheet.text('clutch', LEFT - 7, this.lines.clutch + STRIP, { align: 'right', size: 10 });
    sheet.text('held', LEFT - 7, this.lines.held + STRIP, { align: 'right', size: 10 });
    sheet.text('km/h', 4, TOP - 7, { size: 10 });
    sheet.text('gear', 4, this.lines.speeds + GAP + 3, { size: 10 });
  }

  bands() {
    const { sheet, view } = this;
    let end = -1;
    for (const { number, first, stop } of this.store.trips) {
      if (stop <= view.first || first >= view.first + view.span) continue;
      const [a, b] = [Math.max(LEFT, this.x(first)), this.x(stop)];
      // Trips that are closer than a pixel are drawn as one.
      if (b > end) sheet.fill(sheet.colours.band, Math.max(a, end), TOP - 14, Math.max(b - Math.max(a, end), 0.5), this.lines.end - TOP + 14);
      end = b;
      const room = b - a;
      if (room > 48) sheet.text(`trip ${number}`, a + 4, TOP - 4, { size: 10 });
      else if (room > 16) sheet.text(String(number), a + 3, TOP - 4, { size: 10 });
    }
  }

  grid() {
    const { sheet, view } = this;
    const { top } = this.known;
    const { axis } = this;
    const [left, right] = [LEFT, sheet.width - RIGHT];
    const { line } = sheet.colours;
    for (let speed = 0; speed <= axis.top; speed += axis.step) sheet.stroke(line, 1, [[left, this.speedY(speed)], [right, this.speedY(speed)]]);
    for (let gear = 0; gear <= top; gear++) sheet.stroke(line, 1, [[left, this.gearY(gear)], [right, this.gearY(gear)]]);
    const tick = tickOf(this.perSecond);
    for (let second = Math.ceil(view.first / tick) * tick; second <= view.first + view.span; second += tick) {
      sheet.stroke(line, 1, [[this.x(second), TOP], [this.x(second), this.lines.end]]);
    }
  }

  chosen() {
    const { sheet, view } = this;
    const width = Math.max((view.to + 1 - view.from) * this.perSecond, 2);
    sheet.fill(sheet.colours.chosen, this.x(view.from), TOP - 14, width, this.lines.end - TOP + 14);
    sheet.stroke(sheet.colours.accent, 1.5, [[this.x(view.second), TOP - 14], [this.x(view.second), this.lines.end]]);
  }

  /** What changed, for a moment, and the place of a refusal. */
  marks() {
    const { sheet, view } = this;
    if (this.changed !== undefined) {
      const age = (performance.now() - this.changed.since) / MARKED;
      if (age >= 1) this.changed = undefined;
      else {
        const still = window.matchMedia('(prefers-reduced-motion: reduce)').matches;
        sheet.pen.globalAlpha = still ? 1 : 1 - age;
        const { from, stop } = this.shown;
        const top = this.lines.speeds + GAP - 4;
        for (const [a, b, on] of runs(this.changed.mask, from, stop)) {
          if (on) sheet.fill(sheet.colours.changed, this.x(a), top, Math.max((b - a) * this.perSecond, 2), this.lines.end - top);
        }
        sheet.pen.globalAlpha = 1;
      }
    }
    if (view.mark !== undefined) {
      const x = this.x(view.mark.second + 0.5);
      sheet.stroke(sheet.colours.danger, 2, [[x, TOP - 14], [x, this.lines.end]], [6, 4]);
      const left = x > sheet.width / 2;
      sheet.text(view.mark.words, left ? x - 7 : x + 7, TOP + 10, { colour: sheet.colours.danger, size: 12, weight: 600, align: left ? 'right' : 'left' });
    }
  }

  tolerances() {
    const { sheet, store } = this;
    const { from, stop } = this.shown;
    /** @type {[number, number][]} */
    const upper = [];
    /** @type {[number, number][]} */
    const lower = [];
    const each = Math.max(1, Math.floor(1 / this.perSecond));
    for (let k = from; k < stop; k += each) {
      const [low, high] = tolerance(store.job.speeds, k);
      upper.push([this.x(k), this.speedY(high)]);
      lower.unshift([this.x(k), this.speedY(low)]);
    }
    const { pen } = sheet;
    pen.fillStyle = sheet.colours.tolerance;
    pen.beginPath();
    [...upper, ...lower].forEach(([x, y], k) => (k ? pen.lineTo(x, y) : pen.moveTo(x, y)));
    pen.fill();
  }

  /**
   * A line over more seconds than there are pixels: a bar a pixel, from the lowest to the highest value of its seconds, joined to the bar before. Bars are
   * drawn many times faster than a line with as many corners.
   * @param {string} colour
   * @param {number} width of the line
   * @param {ArrayLike<number>} values
   * @param {(value: number) => number} y
   */
  bars(colour, width, values, y) {
    const right = this.sheet.width - RIGHT;
    const pixel = 1 / this.sheet.sharp;
    let [lowest, highest] = [values[0], values[0]];
    for (let x = LEFT; x < right; x += pixel) {
      const a = Math.max(0, Math.floor(this.secondAt(x)));
      const b = Math.min(Math.ceil(this.secondAt(x + pixel)), values.length - 1);
      let low = values[a];
      let high = low;
      for (let k = a + 1; k <= b; k++) {
        if (values[k] < low) low = values[k];
        else if (values[k] > high) high = values[k];
      }
      if (x > LEFT) [low, high, lowest, highest] = [Math.min(low, highest), Math.max(high, lowest), low, high];
      else [lowest, highest] = [low, high];
      this.sheet.fill(colour, x, y(high) - width / 2, Math.min(width, 1.5 * pixel), y(low) - y(high) + width);
    }
  }

  speeds() {
    const { sheet, store } = this;
    const { speeds } = store.job;
    if (this.isDense) {
      this.bars(sheet.colours.accent, 1.75, speeds, (speed) => this.speedY(speed));
      return;
    }
    /** @type {[number, number][]} */
    const points = [];
    const { from, stop } = this.shown;
    for (let k = from; k < stop; k++) points.push([this.x(k), this.speedY(speeds[k])]);
    sheet.stroke(sheet.colours.accent, 1.75, points);
  }

  holds() {
    const { sheet, store } = this;
    const { from, stop } = this.shown;
    const { held, heldfill } = sheet.colours;
    for (const [a, b, gear] of runs(store.job.holds, from, stop)) {
      if (!gear) continue;
      const width = Math.max((b - a) * this.perSecond, 3);
      sheet.fill(held, this.x(a), this.lines.held, width, STRIP);
      if (gear > this.known.top) continue;
      sheet.fill(heldfill, this.x(a), this.gearY(gear) - 5, width, 10);
      sheet.pen.strokeStyle = held;
      sheet.pen.lineWidth = 1;
      sheet.pen.strokeRect(this.x(a), this.gearY(gear) - 5, width, 10);
    }
  }

  /** The gears. */
  steps() {
    const { sheet } = this;
    const { gears } = this.known;
    const { ink } = sheet.colours;
    if (this.isDense) {
      this.bars(ink, 1.25, gears, (gear) => this.gearY(gear));
      return;
    }
    /** @type {[number, number][]} */
    const points = [];
    const { from, stop } = this.shown;
    const found = runs(gears, from, Math.min(stop, gears.length));
    for (const [a, b, gear] of found) points.push([this.x(a), this.gearY(gear)], [this.x(b), this.gearY(gear)]);
    sheet.stroke(ink, 2, points);
    for (const [a, b, gear] of found) {
      if (gear === 0 || (b - a) * this.perSecond < 14) continue;
      sheet.text(String(gear), this.x((a + b) / 2), this.gearY(gear) - 6, { colour: ink, size: 11, weight: 600, align: 'center' });
    }
  }

  /**
   * @param {ArrayLike<number>} values
   * @param {number} top
   * @param {string} colour
   */
  strip(values, top, colour) {
    const { from, stop } = this.shown;
    for (const [a, b, on] of runs(values, from, stop)) {
      if (on) this.sheet.fill(colour, this.x(a), top, Math.max((b - a) * this.perSecond, 1), STRIP);
    }
  }

  /** Where the drive is. */
  now() {
    const { sheet, clock } = this;
    const x = this.x(clock.at());
    sheet.stroke(sheet.colours.now, 2, [[x, TOP - 14], [x, this.lines.end]]);
  }
}

/** The whole trace beneath the chart, with the part that is shown: a place to scroll by. */
export class Overview {
  /**
   * @param {HTMLCanvasElement} canvas
   * @param {import('./store.js').Store} store
   * @param {import('./view.js').View} view
   * @param {import('./clock.js').Clock} clock
   */
  constructor(canvas, store, view, clock) {
    this.sheet = new Sheet(canvas);
    this.store = store;
    this.view = view;
    this.clock = clock;
    /** @type {{key: string, canvas: HTMLCanvasElement} | undefined} */
    this.drawn = undefined;
  }

  /**
   * The second at a place of the canvas.
   * @param {number} x
   */
  secondAt(x) {
    return ((x - LEFT) / (this.sheet.width - LEFT - RIGHT)) * this.view.count;
  }

  draw() {
    const { sheet, view } = this;
    const pen = sheet.begin();
    const width = sheet.width - LEFT - RIGHT;
    if (width < 10) return;
    /** @type {(second: number) => number} */
    const x = (second) => LEFT + (second / view.count) * width;
    pen.drawImage(this.wholeOf(width), LEFT, 0, width, sheet.height);
    const { accent, chosen, now } = sheet.colours;
    const [a, b] = [x(view.first), x(view.first + view.span)];
    sheet.fill(chosen, a, 0, Math.max(b - a, 3), sheet.height);
    sheet.stroke(accent, 1.5, [[a, 1], [b, 1], [b, sheet.height - 1], [a, sheet.height - 1], [a, 1]]);
    sheet.stroke(now, 1.5, [[x(this.clock.at()), 0], [x(this.clock.at()), sheet.height]]);
  }

  /**
   * The trace and its holds, drawn once after each change of the job, of the colours or of the size.
   * @param {number} width
   */
  wholeOf(width) {
    const { sheet, store } = this;
    const key = [store.changes, width, sheet.height, sheet.canvas.width, sheet.colours.accent].join();
    if (this.drawn?.key === key) return this.drawn.canvas;
    const canvas = document.createElement('canvas');
    const sharp = sheet.canvas.width / sheet.width;
    [canvas.width, canvas.height] = [Math.round(width * sharp), sheet.canvas.height];
    const whole = new Sheet(canvas);
    whole.pen.scale(sharp, sharp);
    const { speeds, holds } = store.job;
    const { top } = speedAxis(speeds);
    const perSecond = width / speeds.length;
    const { accent, band, held, line } = sheet.colours;
    whole.fill(band, 0, 0, width, sheet.height);
    /** @type {[number, number][]} */
    const points = [];
    const each = Math.max(1, Math.floor(0.5 / perSecond));
    for (let k = 0; k < speeds.length; k += each) points.push([k * perSecond, sheet.height - 4 - ((sheet.height - 8) * speeds[k]) / top]);
    whole.stroke(accent, 1, points);
    for (const [a, b, gear] of runs(holds)) if (gear) whole.fill(held, a * perSecond, sheet.height - 4, Math.max((b - a) * perSecond, 2), 4);
    whole.stroke(line, 1, [[0.5, 0.5], [width - 0.5, 0.5], [width - 0.5, sheet.height - 0.5], [0.5, sheet.height - 0.5], [0.5, 0.5]]);
    this.drawn = { key, canvas };
    return canvas;
  }
}
