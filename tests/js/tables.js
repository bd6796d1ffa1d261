/** The page's reader of tables against tests/tables.json, which python/gearcard/tables.py is held to as well: the same speeds, the same words. */
import { readFileSync } from 'node:fs';
import { TOP, equal, test } from './harness.js';
import { decoded } from './web/src/sheets.js';
import { speedsOf } from './web/src/tables.js';

/** @type {{text?: string, latin1?: string, repeat?: number, layout?: import('./web/src/tables.js').Layout, speeds?: number[], words?: string}[]} */
const samples = JSON.parse(readFileSync(`${TOP}/tests/tables.json`, 'utf8'));

/** @param {typeof samples[0]} sample */
function bytesOf({ text, latin1 = '', repeat = 1 }) {
  const once = text === undefined ? Uint8Array.from(latin1, (each) => each.charCodeAt(0)) : new TextEncoder().encode(text);
  const all = new Uint8Array(once.length * repeat);
  for (let k = 0; k < repeat; k++) all.set(once, k * once.length);
  return all;
}

/** @param {typeof samples[0]} sample */
function said(sample) {
  try {
    return Array.from(speedsOf('drive.csv', decoded('drive.csv', bytesOf(sample)), sample.layout));
  } catch (why) {
    return why instanceof Error ? why.message : why;
  }
}

for (const sample of samples) {
  await test(`table ${JSON.stringify(sample.text ?? sample.latin1)}`, () => {
    const found = said(sample);
    if (sample.words === undefined) equal(found, sample.speeds);
    else equal(String(found).startsWith(`drive.csv${sample.words}`), true, String(found));
  });
}
await test('a table without a name is refused by its line', () => {
  equal(thrownBy(() => speedsOf('', '0\nfast\n')), "line 2: 'fast' is no number");
  equal(thrownBy(() => speedsOf('', '')), 'it has no row');
});

/** @param {() => unknown} run */
function thrownBy(run) {
  try {
    return run();
  } catch (why) {
    return why instanceof Error ? why.message : why;
  }
}
