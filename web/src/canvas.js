/** A canvas that is as sharp as its screen, and the colours of the page on it. */

const COLOURS = /** @type {const} */ ([
  'surface', 'ink', 'muted', 'line', 'band', 'accent', 'held', 'heldfill', 'danger', 'tolerance', 'chosen', 'changed', 'now',
]);

/** @typedef {Record<typeof COLOURS[number], string>} Colours */

export class Sheet {
  /** @param {HTMLCanvasElement} canvas */
  constructor(canvas) {
    this.canvas = canvas;
    this.pen = /** @type {CanvasRenderingContext2D} */ (canvas.getContext('2d'));
    this.width = 0;
    this.height = 0;
    /** Pixels of the screen in one of the page. */
    this.sharp = 1;
    /** @type {Colours} */
    this.colours = this.readColours();
  }

  /** The window that the canvas stands in, which may be another than the script's. */
  get window() {
    return /** @type {Window} */ (this.canvas.ownerDocument.defaultView);
  }

  /** @returns {Colours} */
  readColours() {
    const style = this.window.getComputedStyle(this.canvas);
    return /** @type {Colours} */ (Object.fromEntries(COLOURS.map((name) => [name, style.getPropertyValue(`--${name}`).trim()])));
  }

  /** Begins a frame: an empty sheet in units of CSS pixels. */
  begin() {
    const { canvas, pen } = this;
    const box = canvas.getBoundingClientRect();
    const sharp = this.window.devicePixelRatio || 1;
    [this.width, this.height, this.sharp] = [box.width, box.height, sharp];
    const [across, down] = [Math.round(box.width * sharp), Math.round(box.height * sharp)];
    if (canvas.width !== across || canvas.height !== down) [canvas.width, canvas.height] = [across, down];
    pen.setTransform(sharp, 0, 0, sharp, 0, 0);
    pen.clearRect(0, 0, this.width, this.height);
    return pen;
  }

  /**
   * @param {string} colour
   * @param {number} width
   * @param {[number, number][]} points
   * @param {number[]} [dashes]
   */
  stroke(colour, width, points, dashes = []) {
    const { pen } = this;
    pen.strokeStyle = colour;
    pen.lineWidth = width;
    pen.lineJoin = 'round';
    pen.setLineDash(dashes);
    pen.beginPath();
    points.forEach(([x, y], k) => (k ? pen.lineTo(x, y) : pen.moveTo(x, y)));
    pen.stroke();
    pen.setLineDash([]);
  }

  /**
   * @param {string} colour
   * @param {number} x
   * @param {number} y
   * @param {number} width
   * @param {number} height
   */
  fill(colour, x, y, width, height) {
    this.pen.fillStyle = colour;
    this.pen.fillRect(x, y, width, height);
  }

  /**
   * @param {string} words
   * @param {number} x
   * @param {number} y
   * @param {{colour?: string, size?: number, weight?: number, align?: CanvasTextAlign}} [how]
   */
  text(words, x, y, how = {}) {
    const { colour = this.colours.muted, size = 11, weight = 400, align = 'left' } = how;
    const { pen } = this;
    pen.font = `${weight} ${size}px system-ui, "Segoe UI", Roboto, "Helvetica Neue", "Liberation Sans", sans-serif`;
    pen.textAlign = align;
    pen.textBaseline = 'alphabetic';
    pen.fillStyle = colour;
    pen.fillText(words, x, y);
  }
}

/** Seconds between labels of a time axis. */
const TICKS = [1, 2, 5, 10, 20, 30, 60, 120, 300, 600, 1200, 1800, 3600];

/**
 * The closest spacing of labels that leaves each room.
 * @param {number} perSecond pixels
 * @param {number} [room]
 */
export const tickOf = (perSecond, room = 56) => TICKS.find((tick) => tick * perSecond >= room) ?? 7200;

/**
 * The top of a speed axis and the step of its labels, tenths of km/h.
 * @param {Uint16Array} speeds
 * @param {number} [above] what is drawn above the highest
 */
export function speedAxis(speeds, above = 0) {
  const most = speeds.reduce((a, b) => Math.max(a, b), 100) + above;
  const step = [50, 100, 200, 250].find((each) => most <= 7 * each) ?? 500;
  return { top: Math.ceil(most / step) * step, step };
}

/**
 * The axis that fits the trips that are seen, so that it does not change while one alone is scrolled or driven.
 * @param {Uint16Array} speeds
 * @param {import('./trips.js').Trip[]} trips
 * @param {number} from
 * @param {number} stop
 * @param {number} [above]
 */
export function axisSeen(speeds, trips, from, stop, above = 0) {
  const seen = trips.filter((trip) => trip.stop > from && trip.first < stop);
  return speedAxis(seen.length ? speeds.subarray(seen[0].first, seen[seen.length - 1].stop) : speeds.subarray(from, stop), above);
}
