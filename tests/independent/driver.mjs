// gearcard.wasm behind a pipe: `node driver.mjs GEARCARD.wasm` takes the requests of driver.c, which says their form, and answers as it does. The functions are
// called as they stand in the module: pointers are numbers, lengths and seconds BigInts, a struct is a pointer to it, and the first argument is the
// place of the answer. At the end it says how much of the stack was used.
import fs from "node:fs";

const STACK = 65536;
const VEHICLE = 432;
const SUMMARY = 24;
const PAINT = 0xa5;

const { exports } = new WebAssembly.Instance(new WebAssembly.Module(fs.readFileSync(process.argv[2])), {});
exports.memory.grow(128);
const memory = new Uint8Array(exports.memory.buffer);
const view = new DataView(exports.memory.buffer);
memory.fill(PAINT, 0, STACK);

// The packed fields of a vehicle, and the struct: two bytes before f1 and two at the end are no field.
const packed = [[0, 0, 30], [30, 32, 398]];

function fail(why) {
  process.stderr.write(`driver: ${why}\n`);
  process.exit(2);
}

const incoming = Buffer.alloc(1 << 16);
let from = 0;
let to = 0;

// The next bytes, into a target; false where the requests end before the first.
function take(target) {
  let filled = 0;
  while (filled < target.length) {
    if (from === to) {
      from = 0;
      to = fs.readSync(0, incoming);
      if (to === 0) {
        if (filled === 0) return false;
        fail("a request is cut");
      }
    }
    const n = Math.min(to - from, target.length - filled);
    target.set(incoming.subarray(from, from + n), filled);
    from += n;
    filled += n;
  }
  return true;
}

function give(bytes) {
  for (let at = 0; at < bytes.length; ) at += fs.writeSync(1, bytes, at);
}

const base = (exports.__heap_base.value + 15) & ~15;
const answer = base;
const vehicle = answer + 512;
const summary = vehicle + 512;
const lists = summary + 64;

// How each kind is called, what its answer has behind the verdict, and whether that is its struct's first field.
const verdict = (at) => [view.getUint32(at, true), view.getBigUint64(at + 8, true)];
const bytes = (at, n) => memory.slice(at, at + n);
const three = (s, h, t) => [...s, ...h, ...t];
const counted = { extra: () => [bytes(answer + 16, SUMMARY)] };
const KINDS = [
  { name: "read", args: (r) => three(r.third, r.speeds, r.holds), extra: () => [bytes(answer + 16, 2), ...unpacked(answer + 20), bytes(answer + 456, 8)] },
  { name: "work", args: (r) => [vehicle, ...three(r.speeds, r.holds, r.third)] },
  { name: "hold", args: (r) => [vehicle, ...three(r.speeds, r.holds, r.third), r.second, r.gear, summary], ...counted },
  { name: "release", args: (r) => [vehicle, ...three(r.speeds, r.holds, r.third), r.second, summary], ...counted },
  { name: "export", args: (r) => r.third, extra: () => [bytes(answer + 16, 2), bytes(answer + 20, 8)] },
  { name: "cycle", args: (r) => [Number(r.second), ...r.speeds] },
  {
    name: "cycle_part",
    args: (r) => [Number(r.second), r.speeds[1]],
    says: () => [Number(view.getBigUint64(answer + 8, true)), view.getBigUint64(answer, true)],
  },
  { name: "downscale", args: (r) => [Number(r.second), ...r.speeds] },
  { name: "write", args: (r) => [Number(r.second), vehicle, ...three(r.speeds, r.holds, r.third)], extra: () => [bytes(answer + 16, 8)] },
  { name: "mend", args: (r) => [vehicle, ...three(r.speeds, r.holds, r.third), r.second, r.gear, summary], ...counted },
  { name: "summary_of", args: (r) => [...r.speeds, ...r.third], ...counted },
  { name: "why", args: (r) => [vehicle, ...r.speeds, ...r.holds, r.second], extra: reasons },
];

// The fields of the reasons: after each gear's two bytes are no field, and at the end.
function reasons() {
  const gears = Array.from({ length: 10 }, (_, gear) => bytes(answer + 48 + 32 * gear, 30));
  return [bytes(answer + 16, 32), ...gears, bytes(answer + 368, 13)];
}

function unpacked(at) {
  return packed.map(([, offset, n]) => bytes(at + offset, n));
}

const fields = packed.reduce((sum, [, , n]) => sum + n, 0);
const head = Buffer.alloc(16 + fields + SUMMARY + 36);

// Puts a slice with its guards at a place; gives the slice as arguments, and all of it.
function lent(at, spans, size) {
  const [before, length, after] = spans;
  const all = (before + length + after) * size;
  if (at + all > memory.length) fail("a slice is longer than its room");
  if (all > 0 && !take(memory.subarray(at, at + all))) fail("a request is cut");
  return { slice: [at + before * size, BigInt(length)], at, all, end: (at + all + 15) & ~15 };
}

function one() {
  const kind = KINDS[head.readUInt32LE(0)];
  if (kind === undefined) fail("no such request");
  for (const [wire, offset, n] of packed) memory.set(head.subarray(16 + wire, 16 + wire + n), vehicle + offset);
  memory.set(head.subarray(16 + fields, 16 + fields + SUMMARY), summary);
  const spans = [0, 1, 2].map((list) => [0, 1, 2].map((k) => head.readUInt32LE(16 + fields + SUMMARY + 12 * list + 4 * k)));
  const speeds = lent(lists, spans[0], 2);
  const holds = lent(speeds.end, spans[1], 1);
  const third = lent(holds.end, spans[2], 1);
  const request = { gear: head.readUInt32LE(4), second: head.readBigUInt64LE(8), speeds: speeds.slice, holds: holds.slice, third: third.slice };
  exports[`gearcard_${kind.name}`](answer, ...kind.args(request));
  const [number, place] = (kind.says ?? (() => verdict(answer)))();
  const said = Buffer.alloc(12);
  said.writeUInt32LE(number, 0);
  said.writeBigUInt64LE(place, 4);
  give(Buffer.concat([said, ...(kind.extra?.() ?? []), ...[speeds, holds, third].map((list) => memory.subarray(list.at, list.at + list.all))]));
}

while (take(head)) one();
const used = STACK - memory.findIndex((byte) => byte !== PAINT);
process.stderr.write(`driver: ${used} of ${STACK} bytes of the stack were used\n`);
if (used > STACK / 2) fail("that is more than half");
