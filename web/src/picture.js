/**
 * The card as a picture: the SVG that `./gearcard picture` draws (python/gearcard/picture.py), byte for byte, which
 * tests/web shows. It is what is saved and printed.
 */
import { clutchDown, gearOf } from '../../js/gearcard/engine.js';
import { runs, tripsOf } from './trips.js';

const WIDTH = 1000;
const [LEFT, RIGHT, HEAD, FOOT] = [62, 14, 64, 8];
const [SPEED_HEIGHT, GEAR_STEP] = [80, 11.5];
const [NUMBERS, STRIP, GAP, AXIS] = [14, 8, 6, 27];
const [LONGEST_ROW, SHORTEST_ROW] = [310, 10];

export const STYLE = `
text { font: 11px Helvetica, Arial, sans-serif; fill: #000 }
.title { font-size: 17px; font-weight: bold }
.refusal { font-size: 14px; font-weight: bold; stroke: #fff; stroke-width: 4; paint-order: stroke }
.end { text-anchor: end } .mid { text-anchor: middle }
.small { font-size: 9px } .onstep { font-size: 9px; text-anchor: middle }
.trip { fill: #ececec } .edge { stroke: #000; stroke-width: 1; fill: none }
.grid { stroke: #bbb; stroke-width: 0.5; fill: none } .tick { stroke: #000; stroke-width: 1; fill: none }
.speeds { stroke: #000; stroke-width: 1.3; fill: none; stroke-linejoin: round }
.gears { stroke: #000; stroke-width: 2; fill: none } .clutch { fill: #000 }
.held { fill: #fff; stroke: #000; stroke-width: 1 }
.mark { stroke: #000; stroke-width: 2.5; stroke-dasharray: 7 3; fill: none }
`.trim();

/** Seconds between the labels of the axis, and between its small ticks. */
const TICKS = [[1, 1], [2, 1], [5, 1], [10, 2], [20, 5], [50, 10], [100, 20]];

/**
 * A number with at most two decimals. A tie goes to the even digit, as Python has it; only eighths can be one.
 * @param {number} number
 */
function n(number) {
  const tie = Number.isInteger(number * 8) && Math.abs(number * 8) % 2 === 1;
  const even = 2 * Math.round((number * 100) / 2);
  return (tie ? (even / 100).toFixed(2) : number.toFixed(2)).replace(/\.?0+$/, '');
}

/** @type {(kind: string, x1: number, y1: number, x2: number, y2: number) => string} */
const line = (kind, x1, y1, x2, y2) => `<path class="${kind}" d="M${n(x1)} ${n(y1)}L${n(x2)} ${n(y2)}"/>`;

/** @type {(kind: string, x: number, y: number, width: number, height: number) => string} */
const rect = (kind, x, y, width, height) => `<rect class="${kind}" x="${n(x)}" y="${n(y)}" width="${n(width)}" height="${n(height)}"/>`;

/** @type {(kind: string, x: number, y: number, words: string | number) => string} */
function text(kind, x, y, words) {
  const escaped = String(words).replaceAll('&', '&amp;').replaceAll('<', '&lt;').replaceAll('>', '&gt;');
  return `<text class="${kind}" x="${n(x)}" y="${n(y)}">${escaped}</text>`;
}

/** @type {(number: number, what: string) => string} */
const counted = (number, what) => `${number} ${what}${number === 1 ? '' : 's'}`;

/** @param {import('./store.js').Job} job */
function scaleOf(job) {
  const count = Math.max(1, job.speeds.length);
  const even = Math.ceil(count / Math.ceil(count / LONGEST_ROW));
  const row = Math.max(SHORTEST_ROW, Math.ceil(even / 10) * 10);
  const most = job.speeds.reduce((a, b) => Math.max(a, b), 100);
  const step = [20, 50, 100, 200, 250, 500].find((each) => most <= 6 * each) ?? 1000;
  const gears = Math.min(job.vehicle.ratios.length, 10);
  const held = job.holds.some((gear) => gear !== 0);
  const gearHeight = GEAR_STEP * (gears + 1.5);
  return {
    row,
    second: (WIDTH - LEFT - RIGHT) / row,
    top: Math.ceil(most / step) * step,
    step,
    gears,
    held,
    gearHeight,
    height: NUMBERS + SPEED_HEIGHT + GAP + gearHeight + GAP + STRIP + (held ? STRIP + 3 : 0) + AXIS,
  };
}

/** @type {(from: number, stop: number, step: number) => number[]} */
function steps(from, stop, step) {
  const found = [];
  for (let k = Math.ceil(from / step) * step; k < stop; k += step) found.push(k);
  return found;
}

/** One row of the picture: seconds `first` up to and without `stop`. */
class Row {
  /**
   * @param {import('./store.js').Job} job
   * @param {Uint8Array} card
   * @param {ReturnType<typeof scaleOf>} scale
   * @param {number} first
   * @param {number} y
   */
  constructor(job, card, scale, first, y) {
    this.job = job;
    this.card = card;
    this.scale = scale;
    this.first = first;
    this.y = y;
    this.stop = Math.min(first + scale.row, job.speeds.length);
    this.speedBase = y + NUMBERS + SPEED_HEIGHT;
    this.gearBase = this.speedBase + GAP + scale.gearHeight;
    this.clutchTop = this.gearBase + GAP;
    this.heldTop = this.clutchTop + STRIP + 3;
    this.base = (scale.held ? this.heldTop : this.clutchTop) + STRIP;
  }

  /** @param {number} second */
  x(second) {
    return LEFT + (second - this.first) * this.scale.second;
  }

  /** @param {number} speed */
  speedY(speed) {
    return this.speedBase - (SPEED_HEIGHT * speed) / this.scale.top;
  }

  /** @param {number} gear */
  gearY(gear) {
    return this.gearBase - GEAR_STEP * (gear + 0.5);
  }

  /** @param {import('./trips.js').Trip[]} trips */
  drawn(trips) {
    const drawn = [...this.bands(trips), ...this.grid(), ...this.labels(), this.speeds(), ...this.holds(), ...this.gears(), ...this.clutch()];
    return ['<g class="row">', ...drawn, '</g>'];
  }

  /** @param {import('./trips.js').Trip[]} trips */
  bands(trips) {
    const parts = [];
    for (const trip of trips) {
      const [first, stop] = [Math.max(trip.first, this.first), Math.min(trip.stop, this.stop)];
      if (first >= stop) continue;
      const width = (stop - first) * this.scale.second;
      parts.push(rect('trip', this.x(first), this.y + 2, width, this.base - this.y - 2));
      const words = `trip ${trip.number}${trip.first < this.first ? ' goes on' : ''}`;
      const short = [words, `trip ${trip.number}`, String(trip.number)].find((each) => each.length <= width / 4.6);
      if (short) parts.push(text('small', this.x(first) + 2, this.y + 11, short));
    }
    return parts;
  }

  grid() {
    const [left, right] = [this.x(this.first), this.x(this.stop)];
    const top = this.speedBase - SPEED_HEIGHT;
    return [
      ...steps(0, this.scale.top + 1, this.scale.step).map((speed) => line('grid', left, this.speedY(speed), right, this.speedY(speed))),
      ...steps(0, this.scale.gears + 1, 1).map((gear) => line('grid', left, this.gearY(gear), right, this.gearY(gear))),
      ...steps(this.first, this.stop, this.ticks()[0]).map((second) => line('grid', this.x(second), top, this.x(second), this.gearBase)),
      rect('edge', left, top, right - left, SPEED_HEIGHT),
      rect('edge', left, this.gearBase - this.scale.gearHeight, right - left, this.scale.gearHeight),
    ];
  }

  ticks() {
    return TICKS.find((pair) => pair[0] * this.scale.second >= 50) ?? TICKS[TICKS.length - 1];
  }

  labels() {
    const parts = steps(0, this.scale.top + 1, this.scale.step).map((speed) => text('speed end', LEFT - 5, this.speedY(speed) + 4, Math.floor(speed / 10)));
    parts.push(text('end', LEFT - 30, this.speedBase - SPEED_HEIGHT / 2 + 4, 'km/h'));
    for (const gear of steps(0, this.scale.gears + 1, 1)) parts.push(text('gear end', LEFT - 5, this.gearY(gear) + 4, gear || 'N'));
    parts.push(text('end', LEFT - 30, this.gearBase - this.scale.gearHeight / 2 + 4, 'gear'));
    parts.push(text('end', LEFT - 5, this.clutchTop + STRIP, 'clutch'));
    if (this.scale.held) parts.push(text('end', LEFT - 5, this.heldTop + STRIP, 'held'));
    parts.push(line('tick', this.x(this.first), this.base + 3, this.x(this.stop), this.base + 3));
    const [label, small] = this.ticks();
    for (const second of steps(this.first, this.stop + 1, small)) {
      const long = second % label === 0;
      parts.push(line('tick', this.x(second), this.base + 3, this.x(second), this.base + (long ? 9 : 6)));
      if (long) parts.push(text('second mid', this.x(second), this.base + 20, second));
    }
    parts.push(text('end', LEFT - 18, this.base + 20, 'second'));
    return parts;
  }

  speeds() {
    const points = [];
    for (let k = this.first; k < Math.min(this.stop + 1, this.job.speeds.length); k++) points.push(`${n(this.x(k))},${n(this.speedY(this.job.speeds[k]))}`);
    return `<polyline class="speeds" points="${points.join(' ')}"/>`;
  }

  holds() {
    return runs(this.job.holds, this.first, this.stop)
      .filter((run) => run[2] !== 0)
      .flatMap(([a, b, gear]) => {
        const width = this.x(b) - this.x(a);
        const on = gear <= this.scale.gears ? [rect('held on', this.x(a), this.gearY(gear) - 4, width, 8)] : [];
        return [rect('held', this.x(a), this.heldTop, width, STRIP), ...on];
      });
  }

  gears() {
    const found = runs(this.card.map(gearOf), this.first, this.stop);
    const path = found.map(([a, b, gear], k) => `${k ? 'V' : `M${n(this.x(a))} `}${n(this.gearY(gear))}H${n(this.x(b))}`).join('');
    const numbers = found
      .filter(([a, b, gear]) => gear !== 0 && (b - a) * this.scale.second >= 12)
      .map(([a, b, gear]) => {
        const held = this.job.holds.subarray(a, b).some((each) => each !== 0);
        return text('onstep', this.x((a + b) / 2), this.gearY(gear) - (held ? 6 : 3), gear);
      });
    return [`<path class="gears" d="${path}"/>`, ...numbers];
  }

  clutch() {
    return runs(Uint8Array.from(this.card, (byte) => (clutchDown(byte) ? 1 : 0)), this.first, this.stop)
      .filter((run) => run[2] === 1)
      .map(([a, b]) => rect('clutch', this.x(a), this.clutchTop, this.x(b) - this.x(a), STRIP));
  }
}

/**
 * The SVG of a job with its card.
 * @param {string} title
 * @param {import('./store.js').Job} job
 * @param {Uint8Array} card
 * @param {string} namespace SVG's own name, which a caller has from an element: the page has no address in it, not even this one
 */
export function picture(title, job, card, namespace) {
  const scale = scaleOf(job);
  const trips = tripsOf(job.speeds);
  const count = job.speeds.length;
  let told = `${counted(count, 'second')}, ${counted(trips.length, 'trip')}, ${counted(job.vehicle.ratios.length, 'gear')}.`;
  told += ' Grey: a trip. Step: the gear, N neutral. Black bar: clutch down.';
  if (scale.held) told += ` White box: a held second, ${job.holds.reduce((sum, gear) => sum + (gear ? 1 : 0), 0)} in all.`;
  const parts = [text('title', LEFT, 26, title), text('', LEFT, 48, told)];
  let y = HEAD;
  for (let first = 0; first < count; first += scale.row) {
    parts.push(...new Row(job, card, scale, first, y).drawn(trips));
    y += scale.height;
  }
  const height = n(y + FOOT);
  const head = `<svg xmlns="${namespace}" width="${WIDTH}" height="${height}" viewBox="0 0 ${WIDTH} ${height}">`;
  return `${[head, `<style>${STYLE}</style>`, `<rect width="${WIDTH}" height="${height}" fill="#fff"/>`, ...parts, '</svg>'].join('\n')}\n`;
}
