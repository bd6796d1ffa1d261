/** Counts what passes and what fails; a test that throws fails. */
import { isDeepStrictEqual } from 'node:util';

export const counts = { passed: Number(process.argv[3] ?? 0), failed: Number(process.argv[4] ?? 0) };

/** The project's folder. */
export const TOP = process.argv[2] ?? '.';

/** @type {(what: string, run: () => unknown) => Promise<void>} */
export async function test(what, run) {
  try {
    await run();
    counts.passed += 1;
  } catch (why) {
    counts.failed += 1;
    console.log(`js: FAILED: ${what}: ${why instanceof Error ? (why.stack ?? why.message) : why}`);
  }
}

/** @type {(found: unknown, wanted: unknown, what?: string) => void} */
export function equal(found, wanted, what = '') {
  if (!isDeepStrictEqual(found, wanted)) throw new Error(`${what} ${show(found)} is not ${show(wanted)}`);
}

/** @param {unknown} value */
function show(value) {
  const text = JSON.stringify(value, (_, each) => (ArrayBuffer.isView(each) ? Array.from(/** @type {any} */ (each)) : each)) ?? String(value);
  return text.length > 200 ? `${text.slice(0, 200)}..` : text;
}

/** What it throws. @type {(run: () => unknown) => any} */
export function thrown(run) {
  try {
    run();
  } catch (why) {
    return why;
  }
  throw new Error('nothing was thrown');
}

/** Numbers from a seed (mulberry32): below `most`, whole. @param {number} seed */
export function seeded(seed) {
  return (/** @type {number} */ most) => {
    seed = (seed + 0x6d2b79f5) | 0;
    let t = Math.imul(seed ^ (seed >>> 15), 1 | seed);
    t = (t + Math.imul(t ^ (t >>> 7), 61 | t)) ^ t;
    return Math.floor((((t ^ (t >>> 14)) >>> 0) / 2 ** 32) * most);
  };
}
