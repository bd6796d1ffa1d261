/** What is seen in a trace and its card, for drawing alone: no gear is worked out here. */
import { clutchDown, gearOf } from '../../js/gearcard/engine.js';

/** A second is moving from this speed on, tenths of km/h: document 01's word, by which trips are drawn. */
export const MOVING = 10;

/** The tolerance of Annex 6, 1.2.6.6, tenths of km/h. */
export const TOLERANCE = 20;

/**
 * Moving seconds from `first` on, up to and without `stop`; trips count from 1.
 * @typedef {{number: number, first: number, stop: number}} Trip
 */

/**
 * Runs of equal values: from, up to and without, value.
 * @param {ArrayLike<number>} values
 * @param {number} [first]
 * @param {number} [stop]
 * @returns {[number, number, number][]}
 */
export function runs(values, first = 0, stop = values.length) {
  /** @type {[number, number, number][]} */
  const found = [];
  let start = first;
  for (let k = first + 1; k <= stop; k++) {
    if (k === stop || values[k] !== values[start]) {
      if (start < stop) found.push([start, k, values[start]]);
      start = k;
    }
  }
  return found;
}

/**
 * The trips of a trace: runs of moving seconds.
 * @param {Uint16Array} speeds
 * @returns {Trip[]}
 */
export function tripsOf(speeds) {
  /** @type {Trip[]} */
  const trips = [];
  let first = -1;
  for (let k = 0; k <= speeds.length; k++) {
    const moving = k < speeds.length && speeds[k] >= MOVING;
    if (moving && first < 0) first = k;
    if (moving || first < 0) continue;
    trips.push({ number: trips.length + 1, first, stop: k });
    first = -1;
  }
  return trips;
}

/**
 * The trip that a second lies in.
 * @param {Trip[]} trips in order
 * @param {number} second
 */
export function tripAt(trips, second) {
  let low = 0;
  let high = trips.length;
  while (low < high) {
    const middle = (low + high) >> 1;
    if (trips[middle].stop <= second) low = middle + 1;
    else high = middle;
  }
  return low < trips.length && trips[low].first <= second ? trips[low] : undefined;
}

/**
 * The tolerances at a second: 2.0 km/h above the highest and below the lowest point of the trace within one second either way. For the engineer alone.
 * @param {Uint16Array} speeds
 * @param {number} second
 * @returns {[number, number]} lower and upper, tenths of km/h
 */
export function tolerance(speeds, second) {
  let low = speeds[second];
  let high = low;
  for (let k = Math.max(0, second - 1); k <= Math.min(speeds.length - 1, second + 1); k++) {
    low = Math.min(low, speeds[k]);
    high = Math.max(high, speeds[k]);
  }
  return [Math.max(0, low - TOLERANCE), high + TOLERANCE];
}

/**
 * The next second whose gear is another one.
 * @param {Uint8Array} card
 * @param {number} second
 */
export function nextChange(card, second) {
  const gear = gearOf(card[second]);
  for (let k = second + 1; k < card.length; k++) if (gearOf(card[k]) !== gear) return k;
  return undefined;
}

/**
 * A gear as it is shown.
 * @param {number} gear
 */
export const gearText = (gear) => (gear === 0 ? 'N' : String(gear));

/**
 * A second of the card in words, for people who hear it.
 * @param {{speeds: Uint16Array, holds: Uint8Array}} job
 * @param {Uint8Array} card
 * @param {number} second
 */
export function told(job, card, second) {
  const gear = gearOf(card[second]);
  const held = job.holds[second];
  return [
    `second ${second}`,
    `${(job.speeds[second] / 10).toFixed(1)} km/h`,
    gear === 0 ? 'neutral' : `gear ${gear}`,
    `clutch ${clutchDown(card[second]) ? 'down' : 'up'}`,
    held ? `held in ${held}` : 'not held',
  ].join(', ');
}
