import { Engine } from './engine.js';

export const read: Engine['read'];
export const write: Engine['write'];
export const work: Engine['work'];
export const summary: Engine['summary'];
export const why: Engine['why'];
export const hold: Engine['hold'];
export const release: Engine['release'];
export const mend: Engine['mend'];
export const partOf: Engine['partOf'];
export const cycle: Engine['cycle'];
export const downscale: Engine['downscale'];
export const exportOf: Engine['exportOf'];
export {
  CYCLE, Coefficients, Engine, Gear, Job, LONGEST, Part, Point, ReadVehicle, Refused, STACK, Summary, Vehicle, Why, clutchDown, gearOf, load,
} from './engine.js';
