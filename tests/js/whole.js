/** Everything of some answers, on every second and at every cut: what Python says of the same bytes, by the native library. */
import { execFileSync } from 'node:child_process';
import { readFileSync } from 'node:fs';
import { clutchDown, gearOf, read, summary, why, work } from 'gearcard';
import { TOP, equal, test, thrown } from './harness.js';

const bytesOf = (/** @type {string} */ name) => new Uint8Array(readFileSync(`${TOP}/examples/${name}`));

/** What a program in Python prints, over the package and the seeded jobs of tests/tools. @type {(program: string) => any} */
function byPython(program) {
  const env = { ...process.env, PYTHONPATH: `${TOP}/python:${TOP}` };
  return JSON.parse(execFileSync('python3', ['-c', program], { cwd: TOP, env, encoding: 'utf8', maxBuffer: 1 << 28 }));
}

/** The order of Python's. */
const ORDER = /** @type {const} */ ([
  ...['second', 'about', 'first', 'last', 'required', 'gears', 'kind', 'role', 'held', 'choice', 'sentence'],
  ...['afterA', 'afterB', 'afterC', 'floor', 'ceiling', 'clutch', 'clutchReason', 'byte', 'refused'],
]);
const GEAR = /** @type {const} */ (['q', 'w', 'engine', 'minimum', 'rule', 'allowed', 'overMinimum', 'underNmax', 'fits', 'enough']);

/** The numbers of an answer in that order. @param {any} found */
function flat(found) {
  const gears = found.gears.map((/** @type {any} */ gear) => GEAR.map((key) => gear[key]));
  const refused = found.refused && [found.refused.number, found.refused.place];
  return ORDER.map((key) => ({ ...found, gears, refused })[key]);
}

const WHYS = `
import json
from pathlib import Path
from gearcard import Refused, read, why, write
from tests.tools import seeded
from tests.tools.whys import GAP, GAP_SPEEDS

def told(job, second):
    try:
        found = why(*job[:3], second)
    except Refused as refused:
        return [refused.number, refused.place]
    return found._replace(gears=[list(each) for each in found.gears], refused=found.refused and [found.refused.number, found.refused.place])

jobs = [path.read_bytes() for path in sorted(Path("examples").glob("*.job"))]
jobs += [bytes(seeded.encoded(seeded.job(seed))) for seed in range(60)] + [write(GAP, GAP_SPEEDS)]
print(json.dumps([[data.hex(), [told(read(data), second) for second in range(len(read(data).speeds) + 1)]] for data in jobs]))
`;

await test('why: every number of every second of the examples, of 60 seeded jobs and of one without a gear is what Python says', () => {
  let [told, refused, without] = [0, 0, 0];
  for (const [hex, wanted] of byPython(WHYS)) {
    const { vehicle, speeds, holds } = read(Uint8Array.from(Buffer.from(hex, 'hex')));
    wanted.forEach((/** @type {any} */ each, /** @type {number} */ second) => {
      /** @type {any} */
      let found;
      try {
        found = flat(why(vehicle, speeds, holds, second));
        told += 1;
        if (found[found.length - 1]) without += 1;
      } catch (error) {
        found = [/** @type {any} */ (error).number, /** @type {any} */ (error).place];
        refused += 1;
      }
      equal(found, each, `second ${second} of ${hex.slice(0, 24)}..`);
    });
  }
  console.log(`js: why of ${told} seconds as Python tells it, ${without} of them without a gear, and ${refused} refused`);
  equal(told > 5000 && refused > 60 && without > 0, true, `${told} told, ${refused} refused, ${without} without a gear`);
});

const SUMMARIES = `
import json
from pathlib import Path
from gearcard import Refused, read, summary, work
from tests.tools import seeded

def counted(data):
    job = read(data)
    try:
        found = summary(job.speeds, work(*job[:3]))
    except Refused:
        return []
    return [{"standing": found.standing, "gears": list(found.gears), "changes": found.changes}]

jobs = [path.read_bytes() for path in sorted(Path("examples").glob("*.job"))] + [bytes(seeded.encoded(seeded.job(seed))) for seed in range(60)]
print(json.dumps([[data.hex(), each] for data in jobs for each in counted(data)]))
`;

await test('summary: every count of the examples and of 60 seeded jobs is what Python says', () => {
  const jobs = byPython(SUMMARIES);
  equal(jobs.length > 40 && jobs.some((/** @type {any} */ [, wanted]) => wanted.changes > 0), true, `${jobs.length} jobs`);
  for (const [hex, wanted] of jobs) {
    const { vehicle, speeds, holds } = read(Uint8Array.from(Buffer.from(hex, 'hex')));
    equal(summary(speeds, work(vehicle, speeds, holds)), wanted, hex.slice(0, 24));
  }
});

await test('every byte that a card can have: the gear, 0 to 10, plus 16 where the clutch is down', () => {
  for (let gear = 0; gear <= 10; gear++) {
    for (const down of [false, true]) equal([gearOf(gear + (down ? 16 : 0)), clutchDown(gear + (down ? 16 : 0))], [gear, down]);
  }
});

await test('a long job cut anywhere is refused by 12 at its end: it says more seconds than it has bytes', () => {
  const whole = bytesOf('class-3.job');
  for (let length = 0; length < whole.length; length += length < 1000 ? 1 : 37) {
    const why = thrown(() => read(whole.slice(0, length)));
    equal([why.number, why.place], [12, length], `${length} bytes`);
  }
});
