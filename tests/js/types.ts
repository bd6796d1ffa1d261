// A caller in TypeScript: that it compiles is the test. A line below @ts-expect-error must not.
import { Job, Refused, Summary, Vehicle, clutchDown, cycle, downscale, exportOf, gearOf, hold, load, mend } from 'gearcard';
import { partOf, read, release, summary, work, write } from 'gearcard';
import { Engine } from 'gearcard/engine';

const vehicle: Vehicle = { ratios: [2, 1], idle: 1, rated: 2, nmax: 3, f0: 0, f1: 0, f2: 0, tm: 400, margin: 0, curve: [{ n: 1, p: 1 }, [2, 2]] };
const speeds: Uint16Array = cycle(0);
const job: Job = read(write(vehicle, speeds, null, 1));
const card: Uint8Array = work(job.vehicle, job.speeds, job.holds);
const counted: Summary = summary(speeds, card);
const after: Summary | null = hold(vehicle, speeds, job.holds, card, 1, 2, counted);
release(vehicle, speeds, job.holds, card, 1);
mend(vehicle, speeds, job.holds, card, 1, 500, after);
const first: number = partOf(1).first + gearOf(card[0]) + exportOf(new Uint8Array(1)).tm + downscale(1).length;
const down: boolean = clutchDown(first);
export const engine: Promise<Engine> = load(new Uint8Array(8));
export const refused: string = new Refused(1, 0).words + down;
// @ts-expect-error: speeds are no plain list
work(vehicle, [0, 0]);
// @ts-expect-error: a gear is a number
hold(vehicle, speeds, job.holds, card, 1, '2');
