/* The C library behind a pipe: takes requests from standard input, calls the function asked for, and answers on standard output. So one program compares the
   library of every processor. The other end is src/library.rs; driver.mjs is the same for WebAssembly.

   A request: kind (u32), gear (u32), second (u64), the vehicle's fields in order, the summary's counts in order (u16 each); for the speeds, the holds and the
   third slice (the job where kind is READ, the export where it is EXPORT, the room where it is WRITE, else the card) the number of elements of the guard
   before it, of the slice and of the guard after it (u32 each); then the elements of the three, guards included. An answer: number (u32), place (u64); where
   kind is READ the version (u16), the vehicle's fields and the count (u64), where it is EXPORT F0, F1, F2 and TM, where it is WRITE the length (u64), where
   it is HOLD, RELEASE, MEND or SUMMARY the summary, where it is WHY the fields of the reasons in order; then the elements again. Where kind is CYCLE or
   CYCLE_PART the second is the part's number and the speeds are the room; CYCLE_PART answers the count as number and the first second as place. Where kind is
   DOWNSCALE the second is the factor, where it is MEND the gear is the speed, where it is WRITE the version. All little-endian, as the processors are.
   Exit 0 at the end of the requests, 2 where one is cut or past the limits here. */
#include "gearcard.h"

#include <stdio.h>
#include <stdlib.h>

enum { READ, WORK, HOLD, RELEASE, EXPORT, CYCLE, CYCLE_PART, DOWNSCALE, WRITE, MEND, SUMMARY, WHY };
enum { SECONDS = 1 << 20, BYTES = 1 << 20 };

struct span {
  uint32_t before, length, after;
};

static void refuse(const char *why) {
  fprintf(stderr, "driver: %s\n", why);
  exit(2);
}

static void get(void *to, size_t size) {
  if (size && fread(to, size, 1, stdin) != 1) refuse("a request is cut");
}

static void put(void *from, size_t size) {
  if (size && fwrite(from, size, 1, stdout) != 1) refuse("an answer cannot be written");
}

static void vehicle_fields(struct gearcard_vehicle *v, void (*pass)(void *, size_t)) {
  pass(&v->ng, sizeof v->ng);
  pass(v->ratio, sizeof v->ratio);
  pass(&v->idle, sizeof v->idle);
  pass(&v->rated, sizeof v->rated);
  pass(&v->nmax, sizeof v->nmax);
  pass(&v->f0, sizeof v->f0);
  pass(&v->f1, sizeof v->f1);
  pass(&v->f2, sizeof v->f2);
  pass(&v->tm, sizeof v->tm);
  pass(&v->margin, sizeof v->margin);
  pass(&v->points, sizeof v->points);
  pass(v->n, sizeof v->n);
  pass(v->p, sizeof v->p);
  pass(v->m, sizeof v->m);
  pass(&v->profile, sizeof v->profile);
}

static void gear_facts(struct gearcard_gear *g) {
  put(&g->q, sizeof g->q);
  put(&g->w, sizeof g->w);
  put(&g->engine, sizeof g->engine);
  put(&g->minimum, sizeof g->minimum);
  put(&g->rule, sizeof g->rule);
  put(&g->allowed, sizeof g->allowed);
  put(&g->over_minimum, sizeof g->over_minimum);
  put(&g->under_nmax, sizeof g->under_nmax);
  put(&g->fits, sizeof g->fits);
  put(&g->enough, sizeof g->enough);
}

static void reason_fields(struct gearcard_reasons *r) {
  put(&r->about, sizeof r->about);
  put(&r->first, sizeof r->first);
  put(&r->last, sizeof r->last);
  put(&r->required, sizeof r->required);
  for (size_t k = 0; k < sizeof r->gears / sizeof *r->gears; k++) gear_facts(&r->gears[k]);
  put(&r->kind, sizeof r->kind);
  put(&r->role, sizeof r->role);
  put(&r->held, sizeof r->held);
  put(&r->choice, sizeof r->choice);
  put(&r->sentence, sizeof r->sentence);
  put(&r->after_a, sizeof r->after_a);
  put(&r->after_b, sizeof r->after_b);
  put(&r->after_c, sizeof r->after_c);
  put(&r->floor, sizeof r->floor);
  put(&r->ceiling, sizeof r->ceiling);
  put(&r->clutch, sizeof r->clutch);
  put(&r->clutch_reason, sizeof r->clutch_reason);
  put(&r->byte, sizeof r->byte);
}

static void summary_counts(struct gearcard_summary *s, void (*pass)(void *, size_t)) {
  pass(&s->standing, sizeof s->standing);
  pass(s->gears, sizeof s->gears);
  pass(&s->changes, sizeof s->changes);
}

/* Elements of a slice and its guards, which a room must hold. */
static size_t whole(struct span s, size_t room) {
  uint64_t all = (uint64_t)s.before + s.length + s.after;
  if (all > room) refuse("a slice is longer than its room");
  return (size_t)all;
}

static void answer(uint32_t kind, uint32_t gear, uint64_t second, struct gearcard_vehicle vehicle, struct gearcard_summary summary, struct span s,
                   struct span h, struct span t) {
  static uint16_t speeds[SECONDS];
  static uint8_t holds[SECONDS], third[BYTES];
  size_t all_speeds = whole(s, SECONDS), all_holds = whole(h, SECONDS), all_third = whole(t, BYTES);
  get(speeds, all_speeds * sizeof *speeds);
  get(holds, all_holds);
  get(third, all_third);

  uint16_t *v = speeds + s.before;
  uint8_t *held = holds + h.before, *last = third + t.before;
  struct gearcard_job job;
  struct gearcard_coefficients coefficients;
  struct gearcard_written written;
  struct gearcard_counted counted;
  struct gearcard_why why;
  struct gearcard_verdict verdict;
  int counts = kind == HOLD || kind == RELEASE || kind == MEND || kind == SUMMARY;
  if (kind == EXPORT) {
    coefficients = gearcard_export(last, t.length);
    verdict = coefficients.verdict;
  } else if (kind == READ) {
    job = gearcard_read(last, t.length, v, s.length, held, h.length);
    verdict = job.verdict;
  } else if (kind == WORK) {
    verdict = gearcard_work(vehicle, v, s.length, held, h.length, last, t.length);
  } else if (kind == HOLD) {
    counted = gearcard_hold(vehicle, v, s.length, held, h.length, last, t.length, second, (uint8_t)gear, summary);
  } else if (kind == RELEASE) {
    counted = gearcard_release(vehicle, v, s.length, held, h.length, last, t.length, second, summary);
  } else if (kind == CYCLE) {
    verdict = gearcard_cycle((uint32_t)second, v, s.length);
  } else if (kind == MEND) {
    counted = gearcard_mend(vehicle, v, s.length, held, h.length, last, t.length, second, (uint16_t)gear, summary);
  } else if (kind == SUMMARY) {
    counted = gearcard_summary_of(v, s.length, last, t.length);
  } else if (kind == WHY) {
    why = gearcard_why(vehicle, v, s.length, held, h.length, second);
    verdict = why.verdict;
  } else if (kind == DOWNSCALE) {
    verdict = gearcard_downscale((uint32_t)second, v, s.length);
  } else if (kind == WRITE) {
    written = gearcard_write((uint16_t)second, vehicle, v, s.length, held, h.length, last, t.length);
    verdict = written.verdict;
  } else {
    struct gearcard_part part = gearcard_cycle_part((uint32_t)second, s.length);
    verdict = (struct gearcard_verdict){(uint32_t)part.count, part.first};
  }
  if (counts) verdict = counted.verdict;

  put(&verdict.number, sizeof verdict.number);
  put(&verdict.place, sizeof verdict.place);
  if (kind == READ) {
    put(&job.version, sizeof job.version);
    vehicle_fields(&job.vehicle, put);
    put(&job.count, sizeof job.count);
  }
  if (kind == EXPORT) {
    put(&coefficients.f0, sizeof coefficients.f0);
    put(&coefficients.f1, sizeof coefficients.f1);
    put(&coefficients.f2, sizeof coefficients.f2);
    put(&coefficients.tm, sizeof coefficients.tm);
  }
  if (kind == WRITE) put(&written.length, sizeof written.length);
  if (counts) summary_counts(&counted.summary, put);
  if (kind == WHY) reason_fields(&why.reasons);
  put(speeds, all_speeds * sizeof *speeds);
  put(holds, all_holds);
  put(third, all_third);
  if (fflush(stdout) != 0) refuse("an answer cannot be written");
}

int main(void) {
  static char in[1 << 16], out[1 << 16];
  setvbuf(stdin, in, _IOFBF, sizeof in);
  setvbuf(stdout, out, _IOFBF, sizeof out);
  for (;;) {
    int byte = getchar();
    if (byte == EOF) return 0;
    ungetc(byte, stdin);
    uint32_t kind, gear;
    uint64_t second;
    struct gearcard_vehicle vehicle;
    struct gearcard_summary summary;
    struct span spans[3];
    get(&kind, sizeof kind);
    get(&gear, sizeof gear);
    get(&second, sizeof second);
    vehicle_fields(&vehicle, get);
    summary_counts(&summary, get);
    get(spans, sizeof spans);
    if (kind > WHY || gear > (kind == MEND ? 65535u : 255u)) refuse("no such request");
    answer(kind, gear, second, vehicle, summary, spans[0], spans[1], spans[2]);
  }
}
