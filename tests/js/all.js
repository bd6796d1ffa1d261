/** Most tests of the package, by node; the runner is tests/js/run. */
import { execFileSync } from 'node:child_process';
import { readFileSync, readdirSync } from 'node:fs';
import { runInNewContext } from 'node:vm';
import * as gearcard from 'gearcard';
import { load } from 'gearcard/engine';
import { BYTES, FIELDS, SECONDS, WORDS } from './node_modules/gearcard/refusals.js';
import * as whys from './node_modules/gearcard/whys.js';
import './bytes.js';
import './tables.js';
import { TOP, equal, seeded, test, thrown } from './harness.js';

const { read, write, work, summary, why, hold, release, mend, cycle, downscale, partOf, exportOf, gearOf, clutchDown, Refused, LONGEST } = gearcard;
const bytesOf = (/** @type {string} */ name) => new Uint8Array(readFileSync(`${TOP}/examples/${name}`));
const textOf = (/** @type {string} */ name) => readFileSync(`${TOP}/examples/${name}`, 'utf8');
const wasm = readFileSync(new URL('node_modules/gearcard/gearcard.wasm', import.meta.url));
const jobs = readdirSync(`${TOP}/examples`).filter((name) => name.endsWith('.job') && name !== 'refused.job');

/** The lines that the card program prints. */
function printed(/** @type {import('gearcard').Job} */ job) {
  const card = work(job.vehicle, job.speeds, job.holds);
  const line = (/** @type {number} */ byte, /** @type {number} */ k) =>
    `${k} ${(job.speeds[k] / 10).toFixed(1)} ${gearOf(byte)} ${clutchDown(byte) ? 'down' : 'up'}`;
  return `second speed gear clutch\n${Array.from(card, line).join('\n')}\n`;
}

for (const name of jobs) {
  await test(`${name} has its text's card`, () => equal(printed(read(bytesOf(name))), textOf(name.replace('.job', '.txt'))));
  await test(`${name} is written as the same bytes`, () => {
    const { vehicle, speeds, holds, version } = read(bytesOf(name));
    equal(write(vehicle, speeds, holds, version), bytesOf(name));
  });
}
await test('refused.job is refused as its text says, with words', () => {
  const { vehicle, speeds, holds } = read(bytesOf('refused.job'));
  const why = thrown(() => work(vehicle, speeds, holds));
  equal(why instanceof Refused && why instanceof Error, true);
  equal(`refused ${why.number} at ${why.place}\n`, textOf('refused.txt'));
  equal(why.message, `refused ${why.number} at ${why.place}: the held gear at second ${why.place} would turn the engine past nmax`);
});
await test('a job cut anywhere is refused, and no byte is read past its end', () => {
  const whole = bytesOf('van.job');
  for (let length = 0; length < whole.length; length++) equal(thrown(() => read(whole.slice(0, length))).number, 12, `${length}`);
});

await test('the tables of refusals are those of the Python package', () => {
  const dump = 'import json; from gearcard.refusals import *; print(json.dumps([WORDS, FIELDS, sorted(SECONDS), sorted(BYTES)]))';
  const said = execFileSync('python3', ['-c', dump], { env: { ...process.env, PYTHONPATH: `${TOP}/python` }, encoding: 'utf8' });
  const [words, fields, seconds, bytes] = JSON.parse(said);
  equal({ ...WORDS }, words);
  equal({ ...FIELDS }, fields);
  equal([...SECONDS], seconds);
  equal([...BYTES], bytes);
});

await test('the codes of why are those of the Python package', () => {
  const dump = 'import json; from gearcard.whys import *; print(json.dumps([KINDS, ROLES, RULES, SENTENCES, CLUTCHES]))';
  const said = execFileSync('python3', ['-c', dump], { env: { ...process.env, PYTHONPATH: `${TOP}/python` }, encoding: 'utf8' });
  equal([whys.KINDS, whys.ROLES, whys.RULES, whys.SENTENCES, whys.CLUTCHES].map((each) => [...each]), JSON.parse(said));
});
await test('why: every second of the examples has the byte of its card, and Python says the same', () => {
  for (const name of jobs) {
    const { vehicle, speeds, holds } = read(bytesOf(name));
    const bytes = Array.from(speeds, (_, second) => why(vehicle, speeds, holds, second).byte);
    equal(Uint8Array.from(bytes), work(vehicle, speeds, holds), name);
  }
  const { vehicle, speeds, holds } = read(bytesOf('class-3.job'));
  const dump = 'import json; from gearcard import read, why; j = read(open("examples/class-3.job", "rb").read()); '
    + 'print(json.dumps([why(*j[:3], k)._replace(gears=[list(g) for g in why(*j[:3], k).gears]) for k in range(0, 1801, 97)]))';
  const said = execFileSync('python3', ['-c', dump], { cwd: TOP, env: { ...process.env, PYTHONPATH: `${TOP}/python` }, encoding: 'utf8' });
  const ours = Array.from({ length: 19 }, (_, k) => why(vehicle, speeds, holds, 97 * k));
  const { refused, ...rest } = ours[0];
  const order = /** @type {const} */ ([
    'second', 'about', 'first', 'last', 'required', 'gears', 'kind', 'role', 'held', 'choice',
    'sentence', 'afterA', 'afterB', 'afterC', 'floor', 'ceiling', 'clutch', 'clutchReason', 'byte', 'refused',
  ]);
  equal([Object.keys(rest).length, refused], [order.length - 1, null]);
  equal(ours.map((each) => order.map((key) => (key === 'gears' ? each.gears.map((gear) => Object.values(gear)) : each[key]))), JSON.parse(said));
});
await test('why: refusals, and where a gear is wanting the facts without a byte', () => {
  const { vehicle, speeds, holds } = read(bytesOf('refused.job'));
  equal([thrown(() => why(vehicle, speeds, holds, 4)).number, thrown(() => why(vehicle, speeds, holds, 99999)).number], [9, 11]);
  const gap = { ...read(bytesOf('car-z.job')).vehicle, ratios: [50000, 2000] };
  const found = why(gap, Uint16Array.of(0, 100, 200, 200, 100, 0), null, 2);
  equal(
    [found.refused?.number, found.refused?.place, found.choice, found.sentence, found.byte, found.gears.some((gear) => gear.fits)],
    [10, 2, 0, 5, 0, false],
  );
});

await test('the cycle, its parts and the scaled cycle', () => {
  equal(cycle(), read(bytesOf('class-3.job')).speeds);
  equal([0, 1, 2, 3, 4].map((part) => partOf(part)), [[0, 1801], [0, 590], [589, 434], [1022, 456], [1477, 324]].map(([first, count]) => ({ first, count })));
  equal(cycle(4), cycle().slice(1477));
  equal(downscale(0), cycle());
  equal(downscale(500, 4).every((speed, k) => speed <= cycle(4)[k]) && downscale(500).length === 1801, true);
  equal(
    [thrown(() => cycle(5)).number, thrown(() => partOf(5)).number, thrown(() => downscale(501)).number, thrown(() => downscale(0, 9)).number],
    [18, 18, 23, 18],
  );
});
await test('bench exports', () => {
  equal(exportOf(bytesOf('car-z.export')), { f0: 1000, f1: 0, f2: 4000, tm: 1500 });
  equal([exportOf(bytesOf('loaded.export')).f1, exportOf(bytesOf('loaded.export')).tm], [-313, 2312]);
  equal([thrown(() => exportOf(bytesOf('no-number.export'))).number, thrown(() => exportOf(new Uint8Array(0))).number], [20, 12]);
});

/** The state of an editor over the Class 3 cycle. */
function begun(name = 'class-3.job') {
  const { vehicle, speeds, holds, version } = read(bytesOf(name));
  const card = work(vehicle, speeds, holds);
  return { vehicle, speeds, holds, version, card, counts: summary(speeds, card) };
}
await test('2,000 seeded edits: each leaves what a whole working gives, a refused one leaves all as it was', () => {
  const s = begun();
  const below = seeded(35);
  const refused = /** @type {Record<number, number>} */ ({});
  for (let k = 0; k < 2000; k++) {
    const second = below(1820);
    const before = { speeds: s.speeds.slice(), holds: s.holds.slice(), card: s.card.slice() };
    const kind = below(3);
    try {
      const lists = /** @type {const} */ ([s.vehicle, s.speeds, s.holds, s.card, second]);
      const speed = Math.max(0, (s.speeds[second] ?? 0) + below(120) - 60);
      s.counts = /** @type {any} */ (
        kind === 0 ? hold(...lists, below(9), s.counts) : kind === 1 ? release(...lists, s.counts) : mend(...lists, speed, s.counts)
      );
    } catch (why) {
      if (!(why instanceof Refused)) throw why;
      refused[why.number] = (refused[why.number] ?? 0) + 1;
      equal({ speeds: s.speeds, holds: s.holds, card: s.card }, before);
    }
    equal(s.card, work(s.vehicle, s.speeds, s.holds), `edit ${k}`);
    equal(s.counts, summary(s.speeds, s.card), `edit ${k}`);
  }
  equal(Object.keys(refused).map(Number), [6, 7, 8, 9, 10, 11].filter((number) => number in refused));
  equal([7, 8, 9, 11].every((number) => refused[number] > 0), true, `refusals met: ${JSON.stringify(refused)}`);
});
await test('an edit without a summary answers none', () => {
  const s = begun();
  equal(hold(s.vehicle, s.speeds, s.holds, s.card, 60, 3), null);
  equal([s.holds[60], gearOf(s.card[60])], [3, 3]);
  equal(release(s.vehicle, s.speeds, s.holds, s.card, 60, null), null);
  equal(s.card, begun().card);
});

await test('a wrong type is a TypeError or a RangeError before anything is called, and no array changes', () => {
  const s = begun('car-z.job');
  const v = s.vehicle;
  const wrong = /** @type {[() => unknown, Function][]} */ ([
    [() => read(/** @type {any} */ ('job')), TypeError],
    [() => read(/** @type {any} */ (new Uint16Array(2))), TypeError],
    [() => read(/** @type {any} */ ({ length: 1, 0: 1, [Symbol.toStringTag]: 'Uint8Array' })), TypeError],
    [() => read(new Uint8Array((1 << 20) + 1)), RangeError],
    [() => work(v, /** @type {any} */ ([0, 0])), TypeError],
    [() => work(v, /** @type {any} */ (new Int16Array(2))), TypeError],
    [() => work(v, s.speeds, /** @type {any} */ (new Uint16Array(5))), TypeError],
    [() => work(/** @type {any} */ (null), s.speeds), TypeError],
    [() => work({ ...v, idle: 800.5 }, s.speeds), TypeError],
    [() => work({ ...v, idle: /** @type {any} */ ('800') }, s.speeds), TypeError],
    [() => work({ ...v, f0: -1 }, s.speeds), RangeError],
    [() => work({ ...v, f1: 2 ** 31 }, s.speeds), RangeError],
    [() => work({ ...v, ratios: /** @type {any} */ (7) }, s.speeds), TypeError],
    [() => work({ ...v, ratios: [70000, 2] }, s.speeds), RangeError],
    [() => work({ ...v, curve: /** @type {any} */ ([[1]]) }, s.speeds), TypeError],
    [() => work({ ...v, curve: /** @type {any} */ ([7]) }, s.speeds), TypeError],
    [() => work({ ...v, tm: /** @type {any} */ (undefined) }, s.speeds), TypeError],
    [() => hold(v, s.speeds, s.holds, s.card, 1.5, 2), TypeError],
    [() => hold(v, s.speeds, s.holds, s.card, /** @type {any} */ (2n), 2), TypeError],
    [() => hold(v, s.speeds, s.holds, s.card, -1, 2), RangeError],
    [() => hold(v, s.speeds, s.holds, s.card, 2, 256), RangeError],
    [() => hold(v, s.speeds, s.holds, s.card, 2, /** @type {any} */ (undefined)), TypeError],
    [() => hold(v, s.speeds, s.holds, s.holds, 2, 3), TypeError],
    [() => mend(v, s.speeds, s.holds, new Uint8Array(s.speeds.buffer, 4, 5), 2, 3), TypeError],
    [() => mend(v, s.speeds, s.holds, s.card, 2, 65536), RangeError],
    [() => hold(v, s.speeds, s.holds, s.card, 2, 3, { standing: 1, gears: [1, 2], changes: 0 }), RangeError],
    [() => hold(v, s.speeds, s.holds, s.card, 2, 3, { standing: -1, gears: new Array(10).fill(0), changes: 0 }), RangeError],
    [() => write(v, s.speeds, s.holds, /** @type {any} */ ('1')), TypeError],
    [() => cycle(1.5), TypeError],
    [() => downscale(/** @type {any} */ (null)), TypeError],
    [() => exportOf(/** @type {any} */ (5)), TypeError],
  ]);
  for (const [run, kind] of wrong) equal(thrown(run).constructor, kind, String(run));
  const { speeds, holds, card } = begun('car-z.job');
  equal({ speeds: s.speeds, holds: s.holds, card: s.card }, { speeds, holds, card });
});
await test('a vehicle that cannot be is refused at its field, with lists of any length', () => {
  const { vehicle, speeds } = begun('car-z.job');
  const field = (/** @type {object} */ change) => thrown(() => work({ ...vehicle, ...change }, speeds)).place;
  equal(field({ ratios: new Array(11).fill(1) }), 1);
  equal(field({ ratios: [1, 2] }), 2);
  equal(field({ curve: new Array(65).fill([1, 1]) }), 11);
  equal(field({ profile: 2 }), 1);
  equal([field({ idle: 299 }), field({ rated: 800 }), field({ nmax: 15001 }), field({ f0: 10001 })], [3, 4, 5, 6]);
  equal([field({ f1: 5001 }), field({ f2: 20001 }), field({ tm: 399 }), field({ margin: 51 })], [7, 8, 9, 10]);
});
await test('arrays of another window are taken, and views into a larger buffer', () => {
  const { vehicle, speeds, card } = begun('car-z.job');
  const other = runInNewContext('(list) => Uint16Array.from(list)')(Array.from(speeds));
  equal(work(vehicle, other), card);
  const wide = new Uint16Array(20).fill(7);
  wide.set(speeds, 3);
  equal(work(vehicle, wide.subarray(3, 3 + speeds.length)), card);
});

/** A trace of that length that the vehicle can drive: up to 30 km/h and down again. */
const rising = (/** @type {number} */ length) => Uint16Array.from({ length }, (_, k) => 10 * Math.min(k % 120, 60, 119 - (k % 120), length - 1 - k));

await test('memory: the longest trace needs none beyond what is there from the start, a longer one is refused by 1', async () => {
  const grow = WebAssembly.Memory.prototype.grow;
  const engine = await load(wasm);
  let grown = 0;
  WebAssembly.Memory.prototype.grow = function (pages) {
    grown += 1;
    return grow.call(this, pages);
  };
  try {
    const { vehicle } = begun();
    const speeds = rising(LONGEST);
    const holds = Uint8Array.from(speeds, (speed) => (speed >= 10 ? 6 : 0));
    const card = engine.work(vehicle, speeds, holds);
    engine.release(vehicle, speeds, holds, card, 60, engine.summary(speeds, card));
    equal(engine.read(engine.write(vehicle, speeds, holds)).holds, holds);
    equal(grown, 0);
    equal(thrown(() => engine.work(vehicle, new Uint16Array(LONGEST + 1))).number, 1);
    equal(thrown(() => engine.work(vehicle, new Uint16Array(1 << 20))).number, 1);
    equal(engine.work(vehicle, speeds, holds), card);
  } finally {
    WebAssembly.Memory.prototype.grow = grow;
  }
});

/** Where the stack begins: the first global of the module, which wasm-ld makes. It goes down from there to 0. */
function stackOf(/** @type {Uint8Array} */ bytes) {
  let at = 8;
  const leb = () => {
    let value = 0;
    for (let shift = 0; ; shift += 7) {
      const byte = bytes[at++];
      value += (byte & 127) * 2 ** shift;
      if (byte < 128) return value;
    }
  };
  for (;;) {
    const section = bytes[at++];
    const size = leb();
    if (section !== 6) {
      at += size;
      continue;
    }
    leb();
    equal([...bytes.subarray(at, at + 3)], [0x7f, 1, 0x41], 'the first global is a changing number');
    at += 3;
    return leb();
  }
}
await test('stack: what every function uses, on the longest trace', async () => {
  const instantiate = WebAssembly.instantiate;
  /** @type {WebAssembly.Memory | undefined} */
  let memory;
  WebAssembly.instantiate = /** @type {any} */ (async (/** @type {any} */ module) => {
    const instance = await instantiate(module, {});
    memory = /** @type {any} */ (instance).exports.memory;
    return instance;
  });
  const engine = await load(wasm).finally(() => (WebAssembly.instantiate = instantiate));
  const stack = stackOf(wasm);
  equal(stack, gearcard.STACK, 'the stack that the package states');
  const painted = new Uint8Array(/** @type {WebAssembly.Memory} */ (memory).buffer, 0, stack).fill(0xa5);
  const { vehicle } = begun();
  const speeds = rising(LONGEST);
  const holds = new Uint8Array(LONGEST);
  const card = engine.work(vehicle, speeds, holds);
  const counted = engine.summary(speeds, card);
  engine.hold(vehicle, speeds, holds, card, 60, 3, counted);
  engine.release(vehicle, speeds, holds, card, 60, counted);
  engine.mend(vehicle, speeds, holds, card, 60, 590, counted);
  engine.why(vehicle, speeds, holds, 60);
  engine.read(engine.write(vehicle, speeds, holds));
  engine.downscale(123, 4);
  engine.exportOf(bytesOf('loaded.export'));
  const used = stack - painted.findIndex((byte) => byte !== 0xa5);
  console.log(`js: the engine's calls used ${used} bytes of a stack of ${stack}`);
  equal(used > 0 && used <= stack / 2, true, `${used} of ${stack}`);
});
