/**
 * The gear card from JavaScript, over the gearcard.wasm that stands beside this file:
 *
 *     import { readFileSync } from 'node:fs';
 *     import { read, work, hold } from 'gearcard';
 *     const { vehicle, speeds, holds } = read(readFileSync('class-3.job'));
 *     const card = work(vehicle, speeds, holds);
 *     hold(vehicle, speeds, holds, card, 60, 3);
 *
 * `gearcard/engine` has `load`, for a caller who has the bytes elsewhere.
 */
import { load } from './engine.js';

const place = new URL('gearcard.wasm', import.meta.url);

/** node reads a file by its own means: its fetch takes no file. */
async function bytes() {
  if (place.protocol !== 'file:') return (await fetch(place)).arrayBuffer();
  const { readFile } = await import('node:fs/promises');
  return readFile(place);
}

export const { read, write, work, summary, why, hold, release, mend, partOf, cycle, downscale, exportOf } = await load(await bytes());
export { CYCLE, LONGEST, Refused, STACK, clutchDown, gearOf, load } from './engine.js';
