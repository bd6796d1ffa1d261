/* The library against its C twins. bench JOB            checks, then every ratio, the sides in turn
                                bench JOB --check      the checks alone
                                bench JOB --list       the cases
                                bench JOB --once CASE lib|twin|hints|bare N   N calls of one side, for an instruction count
   Hints is the second twin, of the workings and the edits; all else it would have from the first. Bare is the twin of a hold or a mended sample that keeps
   no summary; there the others do. A program that is linked without the second twin leaves it out. */
#include "gearcard.h"
#include "twin.h"
#include <stdio.h>
#include <stdlib.h>
#include <string.h>
#include <time.h>

typedef struct gearcard_vehicle car_t;
typedef struct gearcard_verdict verdict_t;
typedef struct gearcard_job job_t;
typedef struct gearcard_written written_t;
typedef struct gearcard_summary summary_t;
typedef struct gearcard_counted counted_t;
typedef struct gearcard_coefficients coefficients_t;
enum { ROOM = GEARCARD_LONGEST, MADE = 2048, BYTES = 9 * GEARCARD_LONGEST + 1024, ROUNDS = 41 }; /* MADE: seconds of a made trace */

static uint64_t seed = 88172645463325252ull;
static uint32_t rnd(uint32_t n) {
  seed ^= seed << 13;
  seed ^= seed >> 7;
  seed ^= seed << 17;
  return (uint32_t)((seed >> 20) % n);
}
static void stop(const char *what) {
  fprintf(stderr, "bench: %s\n", what);
  exit(1);
}

/* ---- cases ---- */
enum kind { WORK, HOLD, AGAIN, RELEASE, MEND, COUNT, READ, FILL, SCALE, WRITE, EXPORT };
enum side { LIB, TWIN, HINTS, BARE };
typedef struct {
  char name[40];
  enum kind kind;
  car_t car;
  size_t count, second, length;
  uint8_t gear;
  uint32_t factor; /* of a scaled cycle */
  uint16_t speed[2]; /* of a mended sample, in turn */
  summary_t summary; /* of the card, kept by the edits */
  uint16_t v[ROOM];
  uint8_t h[ROOM], card[ROOM];
  uint8_t job[BYTES];
} case_t;
static case_t cases[60];
static int ncases;

static case_t *fresh(const char *name, enum kind kind) {
  case_t *c = &cases[ncases++];
  snprintf(c->name, sizeof c->name, "%s", name);
  c->kind = kind;
  return c;
}

/* A plausible car: power spread evenly over the curve's points, which reach from idle to nmax. */
static car_t car_of(unsigned points) {
  static const uint16_t r[6] = {11800, 6900, 4700, 3600, 2900, 2400};
  car_t c;
  memset(&c, 0, sizeof c);
  c.ng = 6;
  memcpy(c.ratio, r, sizeof r);
  c.idle = 800;
  c.rated = points == 5 ? 4400 : 5600;
  c.nmax = points == 5 ? 4800 : 6000;
  c.f0 = 1200, c.f1 = 300, c.f2 = 3300, c.tm = 1500, c.margin = 10;
  c.points = (uint16_t)points;
  for (unsigned i = 0; i < points; i++) {
    uint32_t n = c.idle + (uint32_t)(c.nmax - c.idle) * i / (points - 1);
    double u = (double)(n - c.idle) / (c.nmax - c.idle);
    c.n[i] = (uint16_t)n;
    c.p[i] = (uint16_t)(90 + 1000 * u * (1.55 - 0.70 * u)); /* 9 kW at idle to 94 kW */
  }
  return c;
}

static void put(uint8_t *s, size_t *at, uint32_t x) {
  while (x >= 128) s[(*at)++] = (uint8_t)(x & 127) | 128, x >>= 7;
  s[(*at)++] = (uint8_t)x;
}
static size_t encode(uint8_t *s, uint16_t version, const car_t *c, const uint16_t *v, size_t n, const uint8_t *h) {
  size_t at = 0, held = 0, i;
  put(s, &at, version);
  if (version >= 3) put(s, &at, c->profile);
  put(s, &at, c->ng);
  for (i = 0; i < c->ng; i++) put(s, &at, c->ratio[i]);
  put(s, &at, c->idle), put(s, &at, c->rated), put(s, &at, c->nmax), put(s, &at, c->f0), put(s, &at, (uint32_t)(c->f1 + 5000));
  put(s, &at, c->f2), put(s, &at, c->tm), put(s, &at, c->margin), put(s, &at, c->points);
  for (i = 0; i < c->points; i++) {
    put(s, &at, c->n[i]), put(s, &at, c->p[i]);
    if (version >= 2) put(s, &at, c->m[i]);
  }
  put(s, &at, (uint32_t)n);
  for (i = 0; i < n; i++) put(s, &at, v[i]), held += h[i] != 0;
  put(s, &at, (uint32_t)held);
  for (i = 0; i < n; i++)
    if (h[i]) put(s, &at, (uint32_t)i), put(s, &at, h[i]);
  return at;
}

/* One trip: speeds that go up and down as a drive does, 2 to 131 km/h. */
static void one_trip(uint16_t *v, size_t n) {
  int x = 20, goal = 600;
  v[0] = 0;
  for (size_t i = 1; i < n; i++) {
    if (rnd(40) == 0 || abs(goal - x) < 12) goal = 20 + (int)rnd(1290);
    int far = goal - x, step = far > 0 ? 1 + (int)rnd(x < 500 ? 28 : 12) : -1 - (int)rnd(30);
    if (rnd(5) == 0) step = (int)rnd(7) - 3;
    x += step;
    if (x < 12) x = 12;
    if (x > 1313) x = 1313;
    v[i] = (uint16_t)x;
  }
  /* Down to a stand at the end, by at most 150 a second. */
  v[n - 1] = 0;
  for (size_t i = n - 1; i-- > 1 && v[i] > v[i + 1] + 60;) v[i] = (uint16_t)(v[i + 1] + 60);
}
/* Trips of 1 to 5 seconds, one standing second between. */
static void short_trips(uint16_t *v, size_t n) {
  size_t i = 0;
  v[i++] = 0;
  while (i < n) {
    size_t len = 1 + rnd(5), j;
    if (i + len >= n) break;
    int x = 0;
    for (j = 0; j < len; j++) {
      int hi = x + 120, back = (int)(len - j) * 120;
      if (hi > back) hi = back;
      int lo = x - 100 > 12 ? x - 100 : 12;
      if (lo > hi) lo = hi;
      x = lo + (int)rnd((uint32_t)(hi - lo + 1));
      v[i++] = (uint16_t)x;
    }
    v[i++] = (uint16_t)rnd(10);
  }
  while (i < n) v[i++] = 0;
  v[n - 1] = 0;
}

/* ---- one call of one side ---- */
static const struct {
  verdict_t (*work)(car_t, const uint16_t *, size_t, const uint8_t *, size_t, uint8_t *, size_t);
  counted_t (*hold)(car_t, const uint16_t *, size_t, uint8_t *, size_t, uint8_t *, size_t, size_t, uint8_t, summary_t);
  counted_t (*release)(car_t, const uint16_t *, size_t, uint8_t *, size_t, uint8_t *, size_t, size_t, summary_t);
  counted_t (*mend)(car_t, uint16_t *, size_t, const uint8_t *, size_t, uint8_t *, size_t, size_t, uint16_t, summary_t);
  counted_t (*count)(const uint16_t *, size_t, const uint8_t *, size_t);
  job_t (*read)(const uint8_t *, size_t, uint16_t *, size_t, uint8_t *, size_t);
  written_t (*write)(uint16_t, car_t, const uint16_t *, size_t, const uint8_t *, size_t, uint8_t *, size_t);
  verdict_t (*cycle)(uint32_t, uint16_t *, size_t), (*scale)(uint32_t, uint16_t *, size_t);
  coefficients_t (*export)(const uint8_t *, size_t);
} sides[3] = {{gearcard_work, gearcard_hold, gearcard_release, gearcard_mend, gearcard_summary_of, gearcard_read, gearcard_write, gearcard_cycle,
               gearcard_downscale, gearcard_export},
              {twin_work, twin_hold, twin_release, twin_mend, twin_summary_of, twin_read, twin_write, twin_cycle, twin_downscale, twin_export},
              {hints_work, hints_hold, hints_release, hints_mend, NULL, hints_read, NULL, NULL, NULL, NULL}};
static enum side last_twin(void) { return hints_work ? HINTS : TWIN; }
static int is_edit(const case_t *c) { return c->kind == HOLD || c->kind == AGAIN || c->kind == RELEASE || c->kind == MEND; }
static int has_hints(const case_t *c) { return last_twin() == HINTS && (c->kind == WORK || c->kind == READ || is_edit(c)); }
static int has_bare(const case_t *c) { return c->kind == HOLD || c->kind == MEND; }

static uint16_t room_v[ROOM];
static uint8_t room_h[ROOM], room_w[BYTES];

/* The edits that keep no summary. */
static __attribute__((noinline)) void call_bare(case_t *c, long reps) {
  size_t n = c->count;
  uint32_t refused = 0;
  for (long r = 0; r < reps; r++)
    refused |= (c->kind == MEND ? bare_mend(c->car, c->v, n, c->h, n, c->card, n, c->second, c->speed[r & 1])
                : r & 1         ? bare_release(c->car, c->v, n, c->h, n, c->card, n, c->second)
                                : bare_hold(c->car, c->v, n, c->h, n, c->card, n, c->second, c->gear))
                   .number;
  if (refused) stop("a benchmark input was refused");
}
static __attribute__((noinline)) void call(case_t *c, enum side twin, long reps) {
  size_t n = c->count;
  uint32_t refused = 0;
  counted_t edited;
  if (twin == BARE) {
    call_bare(c, reps);
    return;
  }
  switch (c->kind) {
  case WORK:
    for (long r = 0; r < reps; r++) refused |= sides[twin].work(c->car, c->v, n, c->h, n, c->card, n).number;
    break;
  case HOLD: /* held and released in turn */
    for (long r = 0; r < reps; r++) {
      edited = r & 1 ? sides[twin].release(c->car, c->v, n, c->h, n, c->card, n, c->second, c->summary)
                     : sides[twin].hold(c->car, c->v, n, c->h, n, c->card, n, c->second, c->gear, c->summary);
      refused |= edited.verdict.number, c->summary = edited.summary;
    }
    break;
  case AGAIN:
    for (long r = 0; r < reps; r++) {
      edited = sides[twin].hold(c->car, c->v, n, c->h, n, c->card, n, c->second, c->gear, c->summary);
      refused |= edited.verdict.number, c->summary = edited.summary;
    }
    break;
  case RELEASE:
    for (long r = 0; r < reps; r++) {
      edited = sides[twin].release(c->car, c->v, n, c->h, n, c->card, n, c->second, c->summary);
      refused |= edited.verdict.number, c->summary = edited.summary;
    }
    break;
  case MEND: /* mended there and back in turn */
    for (long r = 0; r < reps; r++) {
      edited = sides[twin].mend(c->car, c->v, n, c->h, n, c->card, n, c->second, c->speed[r & 1], c->summary);
      refused |= edited.verdict.number, c->summary = edited.summary;
    }
    break;
  case COUNT:
    for (long r = 0; r < reps; r++) edited = sides[twin].count(c->v, n, c->card, n), refused |= edited.verdict.number, c->summary = edited.summary;
    break;
  case READ:
    for (long r = 0; r < reps; r++) refused |= sides[twin].read(c->job, c->length, room_v, ROOM, room_h, ROOM).verdict.number;
    break;
  case FILL:
    for (long r = 0; r < reps; r++) {
      refused |= sides[twin].cycle(0, room_v, ROOM).number;
      __asm__ volatile("" : : "r"(room_v) : "memory"); /* the room counts as read */
    }
    break;
  case SCALE:
    for (long r = 0; r < reps; r++) refused |= sides[twin].scale(c->factor, room_v, GEARCARD_CYCLE).number;
    break;
  case EXPORT:
    for (long r = 0; r < reps; r++) refused |= sides[twin].export(c->job, c->length).verdict.number;
    break;
  case WRITE:
    for (long r = 0; r < reps; r++) refused |= sides[twin].write(1, c->car, c->v, n, c->h, n, room_w, BYTES).verdict.number;
  }
  if (refused) stop("a benchmark input was refused");
}

/* ---- the same bytes ---- */
static long numbers[24], stops[2];
/* Any summary: mostly counts as cards have them, some at or near an end. */
static summary_t random_summary(void) {
  uint16_t x[12];
  for (int i = 0; i < 12; i++) x[i] = (uint16_t)(rnd(4) ? rnd(400) : rnd(2) ? rnd(4) : 65535 - rnd(4));
  summary_t s;
  memcpy(&s, x, sizeof s);
  return s;
}
/* Both answers' summaries, and how many counts moved to an end. */
static void same_summary(const char *what, summary_t was, counted_t a, counted_t b) {
  if (memcmp(&a.summary, &b.summary, sizeof a.summary)) {
    fprintf(stderr, "bench: %s: summaries differ\n", what);
    exit(1);
  }
  const uint16_t *x = (const uint16_t *)&was, *y = (const uint16_t *)&a.summary;
  for (int i = 0; i < 12; i++)
    if (x[i] != y[i]) stops[0] += y[i] == 0, stops[1] += y[i] == 65535;
}
/* Counts the answer that both gave. */
static uint32_t same_verdict(const char *what, verdict_t a, verdict_t b) {
  if (a.number != b.number || a.place != b.place) {
    fprintf(stderr, "%s: library %u at %zu, twin %u at %zu\n", what, a.number, a.place, b.number, b.place);
    exit(1);
  }
  return a.number;
}
/* Counts an answer of the library that each twin has given. */
static uint32_t told(verdict_t a) {
  numbers[a.number]++;
  return a.number;
}
static int same_car(const car_t *a, const car_t *b) { /* without the gaps before f1 and behind the profile */
  size_t gap = offsetof(car_t, nmax) + 4, f1 = offsetof(car_t, f1), end = offsetof(car_t, profile) + sizeof a->profile;
  return !memcmp(a, b, gap) && !memcmp((const char *)a + f1, (const char *)b + f1, end - f1);
}
/* Why at some seconds of an accepted trace: the last step comes to the card's byte. */
static void same_bytes(const car_t *car, const uint16_t *v, size_t n, const uint8_t *h, const uint8_t *card) {
  for (size_t s = 0; s < n; s += 1 + n / 7) {
    struct gearcard_why why = gearcard_why(*car, v, n, h, n, s);
    if (why.verdict.number || why.reasons.byte != card[s]) stop("why: not the card's byte");
  }
}

static uint32_t same_work(const car_t *car, const uint16_t *v, size_t n, const uint8_t *h, size_t nh, size_t nc) {
  uint8_t x[ROOM + 64], y[ROOM + 64];
  memset(x, 0xa5, sizeof x);
  verdict_t a = gearcard_work(*car, v, n, h, nh, x, nc);
  for (enum side s = TWIN; s <= last_twin(); s++) {
    memset(y, 0xa5, sizeof y);
    same_verdict("work", a, sides[s].work(*car, v, n, h, nh, y, nc));
    if (memcmp(x, y, sizeof x)) stop("work: bytes differ");
  }
  if (!a.number) same_bytes(car, v, n, h, x);
  return told(a);
}
static counted_t edited_by(enum side s, enum kind kind, const car_t *car, uint16_t *v, size_t n, uint8_t *h, uint8_t *card, size_t second, uint16_t asked,
                           summary_t any) {
  if (kind == HOLD) return sides[s].hold(*car, v, n, h, n, card, n, second, (uint8_t)asked, any);
  if (kind == RELEASE) return sides[s].release(*car, v, n, h, n, card, n, second, any);
  return sides[s].mend(*car, v, n, h, n, card, n, second, asked, any);
}
/* A hold of the gear asked, a release, or a sample mended to the speed asked, with any summary; the twins' on copies. */
static uint32_t same_edit(enum kind kind, const car_t *car, uint16_t *v, size_t n, uint8_t *h, uint8_t *card, size_t second, uint16_t asked) {
  static uint16_t v1[ROOM], v2[ROOM];
  static uint8_t h1[ROOM], h2[ROOM], c1[ROOM], c2[ROOM];
  const char *what = kind == HOLD ? "hold" : kind == RELEASE ? "release" : "mend";
  summary_t any = random_summary();
  memcpy(v1, v, n * sizeof *v), memcpy(h1, h, n), memcpy(c1, card, n);
  counted_t a = edited_by(LIB, kind, car, v, n, h, card, second, asked, any);
  for (enum side s = TWIN; s <= last_twin(); s++) {
    memcpy(v2, v1, n * sizeof *v), memcpy(h2, h1, n), memcpy(c2, c1, n);
    counted_t b = edited_by(s, kind, car, v2, n, h2, c2, second, asked, any);
    same_verdict(what, a.verdict, b.verdict);
    if (memcmp(v, v2, n * sizeof *v) || memcmp(h, h2, n) || memcmp(card, c2, n)) fprintf(stderr, "%s: ", what), stop("bytes differ");
    same_summary(what, any, a, b);
  }
  return told(a.verdict);
}
static uint32_t same_count(const uint16_t *v, size_t n, const uint8_t *card, size_t nc) {
  counted_t a = gearcard_summary_of(v, n, card, nc), b = twin_summary_of(v, n, card, nc);
  same_summary("summary", a.summary, a, b);
  same_verdict("summary", a.verdict, b.verdict);
  return told(a.verdict);
}
static uint32_t same_read(const uint8_t *s, size_t len, size_t rs, size_t rh) {
  static uint16_t v1[ROOM + 64], v2[ROOM + 64];
  static uint8_t h1[ROOM + 64], h2[ROOM + 64];
  memset(v1, 0xa5, sizeof v1), memset(h1, 0xa5, sizeof h1);
  job_t a = gearcard_read(s, len, v1, rs, h1, rh);
  for (enum side t = TWIN; t <= last_twin(); t++) {
    memset(v2, 0xa5, sizeof v2), memset(h2, 0xa5, sizeof h2);
    job_t b = sides[t].read(s, len, v2, rs, h2, rh);
    same_verdict("read", a.verdict, b.verdict);
    if (a.version != b.version || !same_car(&a.vehicle, &b.vehicle) || a.count != b.count) stop("read: answers differ");
    if (memcmp(v1, v2, sizeof v1) || memcmp(h1, h2, sizeof h1)) stop("read: bytes differ");
  }
  return told(a.verdict);
}

static uint32_t same_write(uint16_t version, const car_t *car, const uint16_t *v, size_t n, const uint8_t *h, size_t nh, size_t nr) {
  static uint8_t x[BYTES + 64], y[BYTES + 64];
  memset(x, 0xa5, sizeof x);
  memset(y, 0xa5, sizeof y);
  written_t a = gearcard_write(version, *car, v, n, h, nh, x, nr), b = twin_write(version, *car, v, n, h, nh, y, nr);
  if (a.length != b.length || memcmp(x, y, sizeof x)) stop("write: bytes differ");
  same_verdict("write", a.verdict, b.verdict);
  return told(a.verdict);
}

static car_t random_car(void) {
  car_t c;
  memset(&c, 0, sizeof c);
  c.ng = (uint16_t)(2 + rnd(9));
  uint32_t r = rnd(8) ? 9000 + rnd(9000) : 20000 + rnd(30000);
  for (unsigned i = 0; i < c.ng; i++) {
    c.ratio[i] = (uint16_t)r;
    r = r * (600 + rnd(320)) / 1000;
  }
  c.idle = (uint16_t)(300 + rnd(1200));
  c.rated = (uint16_t)(c.idle + 1 + rnd(6000));
  c.nmax = (uint16_t)(c.rated + rnd(1500));
  c.f0 = (uint16_t)rnd(3000), c.f1 = (int32_t)rnd(3001) - 1500, c.f2 = (uint16_t)rnd(6000), c.tm = (uint16_t)(400 + rnd(3601)), c.margin = (uint16_t)rnd(51);
  uint32_t from = 1 + rnd(c.idle), k = 0, step = 1000;
  /* a point's margin is at most 50, and 90 with M; half of the cars have none */
  uint32_t most = rnd(2) ? 0 : c.margin > 40 ? 90u - c.margin : 50;
  uint32_t least = (c.nmax - from) / 63 + 1;
  if (least < 1000) step = least + rnd(1000 - least + 1);
  for (;; k++) {
    c.n[k] = (uint16_t)(from > 16000 ? 16000 : from);
    c.p[k] = (uint16_t)rnd(rnd(3) ? 1200 : 5001);
    c.m[k] = (uint16_t)rnd(most + 1);
    if (k >= 1 && from >= c.nmax) break;
    if (k == 63) break;
    from += step;
  }
  c.points = (uint16_t)(k + 1);
  c.profile = c.ng > 2 && rnd(3) == 0;
  return c;
}

static void random_checks(long rounds) {
  static uint16_t v[ROOM + 8];
  static uint8_t h[ROOM + 8], card[ROOM + 8], s[BYTES], t[BYTES];
  for (long r = 0; r < rounds; r++) {
    car_t car = random_car();
    size_t n = rnd(20) ? 1 + rnd(r % 10 ? 120 : MADE) : rnd(10) ? MADE : ROOM;
    if (n < 8) n = 1 + rnd(8);
    if (n >= 8 && rnd(2)) one_trip(v, n);
    else if (n >= 8) short_trips(v, n);
    else for (size_t i = 0; i < n; i++) v[i] = (uint16_t)(i == 0 || i + 1 == n ? 0 : rnd(150));
    if (n >= 40 && rnd(2)) /* some stands within */
      for (size_t i = 10; i + 20 < n; i += 15 + rnd(40)) {
        v[i] = (uint16_t)rnd(10);
        for (size_t j = i; j-- > 0 && v[j] > v[j + 1] + 120;) v[j] = (uint16_t)(v[j + 1] + 120);
        for (size_t j = i + 1; j < n && v[j] > v[j - 1] + 120; j++) v[j] = (uint16_t)(v[j - 1] + 120);
      }
    memset(h, 0, sizeof h);
    /* holds: mostly such as pass */
    unsigned held = rnd(3) ? rnd(6) : 0;
    if (rnd(12) == 0) held = (unsigned)n;
    for (unsigned i = 0; i < held; i++) {
      size_t j = rnd((uint32_t)n);
      uint32_t g = 1 + car.profile + rnd(car.ng - car.profile);
      if (v[j] >= 10 && (uint32_t)car.ratio[g - 1] * v[j] <= 1000u * car.nmax) h[j] = (uint8_t)g;
      else if (rnd(60) == 0) h[j] = (uint8_t)rnd(256);
    }
    size_t nh = n, nc = n;
    switch (rnd(16)) { /* faults */
    case 0: ((uint16_t *)&car)[rnd(150)] = (uint16_t)rnd(65536); break;
    case 1: v[rnd((uint32_t)n)] = (uint16_t)rnd(rnd(2) ? 65536 : 2200); break;
    case 2: v[rnd(2) ? 0 : n - 1] = (uint16_t)(8 + rnd(4)); break;
    case 3: if (n > 1) { size_t j = 1 + rnd((uint32_t)n - 1); v[j] = (uint16_t)(v[j - 1] + 149 + rnd(3)); } break;
    case 4: if (rnd(4) == 0) nh = n - 1; else if (rnd(4) == 0) nc = n + 1; break;
    case 5: if (rnd(4) == 0) n = nh = nc = 0; break;
    case 6: car.profile = (uint16_t)(rnd(2) ? rnd(4) : rnd(65536)); break;
    }
    uint32_t no = same_work(&car, v, n, h, nh, nc);
    uint16_t version = (uint16_t)(rnd(16) == 0 ? rnd(5) : car.profile ? 3 : 1 + rnd(3));
    if (same_write(version, &car, v, n, h, nh, BYTES) == 0) { /* and with the last byte that it needs, and without */
      size_t need = gearcard_write(version, car, v, n, h, n, s, BYTES).length;
      same_write(version, &car, v, n, h, n, need);
      same_write(version, &car, v, n, h, n, need - 1 - rnd(2));
      if (encode(t, version, &car, v, n, h) != need || memcmp(s, t, need)) stop("write: not the job");
    }
    same_count(v, n, card, nc);
    if (n == 0) continue;
    for (size_t i = 0; i < n; i++) card[i] = (uint8_t)rnd(256);
    same_count(v, n, card, n);
    if (no == 0) gearcard_work(car, v, n, h, n, card, n), same_count(v, n, card, n);
    for (int k = 0; k < 6; k++) {
      size_t second = rnd((uint32_t)n + (rnd(8) == 0));
      uint8_t gear = (uint8_t)rnd(car.ng + 1u + (rnd(6) == 0));
      if (rnd(20) == 0) gear = (uint8_t)rnd(256);
      same_edit(HOLD, &car, v, n, h, card, second, gear);
      if (rnd(3) == 0) same_edit(RELEASE, &car, v, n, h, card, rnd(2) ? second : rnd((uint32_t)n + (rnd(8) == 0)), 0);
    }
    for (int k = 0; k < 6; k++) { /* a little more or less, at rest, as a neighbour, or anything */
      size_t second = rnd((uint32_t)n + (rnd(8) == 0));
      uint16_t now = second < n ? v[second] : 0;
      uint32_t how = rnd(8);
      uint32_t speed = how < 3   ? now + rnd(40)
                       : how < 5 ? rnd(16)
                       : how < 6 ? (uint32_t)v[second ? second - 1 : 0] + rnd(20)
                       : how < 7 ? now
                                 : rnd(2200);
      same_edit(MEND, &car, v, n, h, card, second, (uint16_t)speed);
    }
    if (no == 0) { /* the quick way gave what the whole working gives */
      uint8_t whole[ROOM];
      twin_work(car, v, n, h, n, whole, n);
      if (memcmp(whole, card, n)) stop("hold, mend: not the card of the whole working");
    }
    if (car.f1 < -5000 || car.f1 > 60535 || car.ng > 10 || car.points > 64) continue;
    size_t len = encode(s, version, &car, v, n, h);
    same_read(s, len, ROOM, ROOM);
    same_read(s, len, n, n);
    if (rnd(4) == 0) same_read(s, len, n - rnd(2), n - rnd(2));
    same_read(s, rnd((uint32_t)len + 1), ROOM, ROOM);
    for (int k = 0; k < 4; k++) {
      size_t j = rnd((uint32_t)(rnd(3) ? (len < 60 ? len : 60) : len));
      uint8_t was = s[j];
      s[j] = (uint8_t)(rnd(3) ? rnd(256) : rnd(2) ? 0x80 : was ^ 0x80);
      same_read(s, len + rnd(2), ROOM, ROOM);
      s[j] = was;
    }
  }
}

/* Of a room filled with the cycle, as it is or scaled. */
static uint32_t same_filled(enum kind kind, uint32_t asked, size_t length) {
  static uint16_t a[ROOM], b[ROOM];
  memset(a, 0xa5, sizeof a), memset(b, 0xa5, sizeof b);
  verdict_t x = kind == FILL ? gearcard_cycle(asked, a, length) : gearcard_downscale(asked, a, length);
  same_verdict("fill", x, kind == FILL ? twin_cycle(asked, b, length) : twin_downscale(asked, b, length));
  if (memcmp(a, b, sizeof a)) stop("fill: bytes differ");
  return told(x);
}
static uint32_t same_export(const uint8_t *s, size_t len) {
  coefficients_t a = gearcard_export(s, len), b = twin_export(s, len);
  same_verdict("export", a.verdict, b.verdict);
  if (a.f0 != b.f0 || a.f1 != b.f1 || a.f2 != b.f2 || a.tm != b.tm) stop("export: numbers differ");
  return told(a.verdict);
}
/* An export of the two records, in either order; its length. */
static size_t export_of(uint8_t *s, const float *load, float mass, int mass_first) {
  size_t at = 0;
  for (int k = 0; k < 2; k++)
    if (k == mass_first) s[at] = 1, memcpy(s + at + 1, load, 12), at += 13;
    else s[at] = 2, memcpy(s + at + 1, &mass, 4), at += 5;
  s[at] = 0;
  return at + 1;
}
static void filled_checks(void) {
  static const struct gearcard_part parts[7] = {{0, 1801}, {0, 590}, {589, 434}, {1022, 456}, {1477, 324}};
  for (uint32_t part = 0; part < 7; part++)
    for (size_t length = GEARCARD_CYCLE - 1; length < GEARCARD_CYCLE + 2; length++) {
      struct gearcard_part a = gearcard_cycle_part(part, length), b = parts[same_filled(FILL, part, length) ? 6 : part];
      if (a.first != b.first || a.count != b.count) stop("part: not where it stands");
    }
  for (uint32_t factor = 0; factor < 503; factor++) same_filled(SCALE, factor, GEARCARD_CYCLE);
  same_filled(SCALE, 0, ROOM);
}
/* Floats at and near a half of a unit, any bits, and exports cut short, lengthened, or with a byte changed. */
static void export_checks(long rounds) {
  static const float unit[4] = {0.1f, 0.001f, 0.00001f, 1};
  for (long r = 0; r < rounds; r++) {
    uint8_t s[24] = {0};
    float x[4];
    for (int k = 0; k < 4; k++) {
      x[k] = ((float)rnd(k == 3 ? 4100 : k == 2 ? 20100 : 10100) + (float)rnd(3) / 2 - (k == 1 ? 5000 : 0)) * unit[k];
      uint32_t bits = rnd(65536) << 16 | rnd(65536);
      if (rnd(24) == 0) memcpy(&x[k], &bits, 4);
    }
    size_t len = export_of(s, x, x[3], (int)rnd(2));
    same_export(s, len);
    same_export(s, len + rnd(3));
    same_export(s, rnd((uint32_t)len));
    s[rnd((uint32_t)len)] = (uint8_t)(rnd(2) ? rnd(4) : rnd(256));
    same_export(s, len);
  }
}

/* ---- the cases ---- */
typedef struct { size_t a, b; } span_t;
static span_t trips[ROOM];
static int ntrips;
static int by_length(const void *x, const void *y) {
  const span_t *a = x, *b = y;
  size_t i = a->b - a->a, j = b->b - b->a;
  return i < j ? -1 : i > j ? 1 : a->a < b->a ? -1 : 1;
}

/* Too weak for its gears: no gear has enough power, so each that fits is looked at. */
static car_t weak_car(unsigned gears, unsigned points) {
  car_t c = car_of(points);
  c.ng = (uint16_t)gears;
  if (gears > 6)
    for (unsigned g = 1; g < gears; g++) c.ratio[g] = (uint16_t)(c.ratio[g - 1] * 82 / 100);
  for (unsigned i = 0; i < points; i++) c.p[i] = (uint16_t)(1 + 8 * i / points);
  return c;
}

/* The lowest gear up to nmax. */
static uint8_t lowest_gear(const car_t *c, uint16_t v) {
  uint8_t g = 1;
  while (g < c->ng && (uint32_t)c->ratio[g - 1] * v > 1000u * c->nmax) g++;
  return g;
}

/* A case of a trace, without holds. */
static case_t *traced(const char *name, enum kind kind, const car_t *car, const uint16_t *v, size_t n) {
  case_t *c = fresh(name, kind);
  c->car = *car, c->count = n;
  memcpy(c->v, v, n * sizeof *v);
  return c;
}

/* A trace worked by the plausible car, with each number of curve points. */
static void work_cases(const char *trace, const uint16_t *v, size_t n) {
  static const unsigned points[3] = {5, 7, 64};
  for (int k = 0; k < 3; k++) {
    char name[40];
    snprintf(name, sizeof name, "work.%s.%u", trace, points[k]);
    car_t car = car_of(points[k]);
    traced(name, WORK, &car, v, n);
  }
}

/* Cycles joined, as durability benches do, the last broken off where it last stood: the working, the reading, and a hold in the trip of
   hold.typical, whose cost must not grow with the trace. */
static void joined_cases(const car_t *car, const uint16_t *v, size_t n) {
  static const size_t seconds[4] = {2048, 4096, 8192, 16384};
  static uint16_t joined[ROOM];
  static uint8_t none[ROOM];
  for (int k = 0; k < 4; k++) {
    size_t all = seconds[k], end = all;
    for (size_t i = 0; i < all; i++) joined[i] = v[i % n];
    while (joined[end - 1] >= 10) joined[--end] = 0;
    const char *kinds[3] = {"work", "hold", "read"};
    for (int w = 0; w < 3; w++) {
      char name[40];
      snprintf(name, sizeof name, "%s.joined.%zu", kinds[w], all);
      case_t *c = traced(name, w == 0 ? WORK : w == 1 ? HOLD : READ, car, joined, all);
      if (w == 1) {
        span_t trip = trips[(ntrips - 1) / 2];
        gearcard_work(c->car, c->v, all, c->h, all, c->card, all);
        c->length = trip.b - trip.a, c->second = trip.a + c->length / 2, c->gear = c->card[c->second] & 15;
      }
      if (w == 2) c->length = encode(c->job, 1, car, joined, all, none);
    }
  }
}

/* The three trips that most edits are tried in. */
static const char *trip_name(int t) { return t == 0 ? "short" : t == ntrips - 1 ? "longest" : t == (ntrips - 1) / 2 ? "typical" : NULL; }
/* An edit at the middle of a trip. */
static case_t *edit_case(enum kind kind, const char *name, int t, const car_t *car, const uint16_t *v, size_t n, const uint8_t *card) {
  case_t *c = traced(name, kind, car, v, n);
  memcpy(c->card, card, n);
  c->length = trips[t].b - trips[t].a;
  c->second = trips[t].a + c->length / 2;
  return c;
}
/* The gear below the card's, or the card's where that would be past nmax. */
static void hold_case(enum kind kind, const char *edit, int t, const char *trip, const car_t *car, const uint16_t *v, size_t n, const uint8_t *card) {
  char name[40];
  snprintf(name, sizeof name, "%s.%s", edit, trip);
  case_t *c = edit_case(kind, name, t, car, v, n, card);
  uint32_t g = card[c->second] & 15;
  if (g > 1 && (uint32_t)c->car.ratio[g - 2] * v[c->second] <= 1000u * c->car.nmax) g--;
  c->gear = (uint8_t)g;
}
/* A little more, and back. */
static case_t *mend_case(int t, const char *trip, const car_t *car, const uint16_t *v, size_t n, const uint8_t *card) {
  char name[40];
  snprintf(name, sizeof name, "mend.%s", trip);
  case_t *c = edit_case(MEND, name, t, car, v, n, card);
  c->speed[0] = (uint16_t)(v[c->second] + 1), c->speed[1] = v[c->second];
  return c;
}

static void build(const char *path) {
  static uint8_t bytes[BYTES];
  FILE *f = fopen(path, "rb");
  if (!f) stop("no job");
  size_t len = fread(bytes, 1, sizeof bytes, f);
  fclose(f);
  static uint16_t v[ROOM];
  static uint8_t h[ROOM];
  job_t job = gearcard_read(bytes, len, v, ROOM, h, ROOM);
  if (job.verdict.number) stop("the job is refused");
  size_t n = job.count;
  case_t *c;
  traced("work.class3.own", WORK, &job.vehicle, v, n); /* the job's own car */
  car_t gap = job.vehicle, weak = weak_car(6, 7), weak10 = weak_car(10, 64);
  gap.ratio[0] = 39400, gap.ratio[1] = 5450; /* between gears 1 and 2: V 158 has no gear after gear 1 */
  traced("work.class3.gap", WORK, &gap, v, n);
  traced("work.weak.6.7", WORK, &weak, v, n);
  traced("work.weak.10.64", WORK, &weak10, v, n);
  c = traced("work.held", WORK, &job.vehicle, v, n); /* every moving second */
  for (size_t i = 0; i < n; i++) c->h[i] = v[i] >= 10 ? lowest_gear(&c->car, v[i]) : 0;
  work_cases("class3", v, n);
  static uint16_t one[MADE], many[MADE];
  one_trip(one, MADE);
  short_trips(many, MADE);
  work_cases("one", one, MADE);
  work_cases("many", many, MADE);
  /* holds: each trip of the Class 3 cycle */
  static uint8_t card[ROOM];
  memset(h, 0, sizeof h);
  gearcard_work(job.vehicle, v, n, h, n, card, n);
  for (size_t i = 1; i < n;) {
    if (v[i] < 10) { i++; continue; }
    size_t b = i;
    while (v[b] >= 10) b++;
    trips[ntrips].a = i, trips[ntrips++].b = b;
    i = b;
  }
  qsort(trips, (size_t)ntrips, sizeof *trips, by_length);
  for (int t = 0; t < ntrips; t++) {
    char what[20];
    snprintf(what, sizeof what, "trip%zu", trips[t].b - trips[t].a);
    hold_case(HOLD, "hold", t, trip_name(t) ? trip_name(t) : what, &job.vehicle, v, n, card);
  }
  /* held again and again, released again and again, and samples mended: a little more and back; of three trips */
  for (int t = 0; t < ntrips; t++)
    if (trip_name(t)) hold_case(AGAIN, "again", t, trip_name(t), &job.vehicle, v, n, card);
  for (int t = 0; t < ntrips; t++)
    if (trip_name(t)) hold_case(RELEASE, "release", t, trip_name(t), &job.vehicle, v, n, card);
  for (int t = 0; t < ntrips; t++)
    if (trip_name(t)) mend_case(t, trip_name(t), &job.vehicle, v, n, card);
  /* the longest trip that can be split by one sample, split and joined again; and the typical one with the car that has a gap */
  c = edit_case(MEND, "mend.split", 0, &job.vehicle, v, n, card);
  for (int t = 0; t < ntrips; t++)
    for (size_t i = trips[t].a + 1; i + 1 < trips[t].b; i++)
      if (v[i - 1] <= 150 && v[i + 1] <= 150) c->second = i, c->length = trips[t].b - trips[t].a;
  c->speed[0] = 0, c->speed[1] = v[c->second];
  c = mend_case((ntrips - 1) / 2, "gap", &gap, v, n, card);
  gearcard_work(gap, v, n, h, n, c->card, n);
  /* a summary counted whole */
  c = traced("count.class3", COUNT, &job.vehicle, v, n);
  memcpy(c->card, card, sizeof card);
  /* reading */
  c = fresh("read.class3", READ);
  memcpy(c->job, bytes, len), c->length = len;
  c = fresh("read.long", READ); /* 2,048 seconds of speeds as they are driven, a hold at every moving one */
  c->car = car_of(64);
  for (size_t i = 0; i < MADE; i++) h[i] = one[i] >= 10 ? 3 : 0;
  c->length = encode(c->job, 1, &c->car, one, MADE, h);
  c = fresh("read.bytes", READ); /* the most bytes: every value as long as it can be */
  car_t big;
  for (size_t i = 0; i < sizeof big / 2; i++) ((uint16_t *)&big)[i] = 65535;
  big.ng = 10, big.points = 64, big.f1 = 60535;
  static uint16_t far[MADE];
  for (size_t i = 0; i < MADE; i++) far[i] = (uint16_t)(16384 + rnd(49152)), h[i] = (uint8_t)(128 + rnd(128));
  c->length = encode(c->job, 2, &big, far, MADE, h);
  joined_cases(&job.vehicle, v, n);
  /* the built-in cycle, which is the job's */
  fresh("fill.class3", FILL);
  if (n != GEARCARD_CYCLE) stop("the job is not the Class 3 cycle");
  memcpy(twin_table, v, sizeof twin_table);
  fresh("scale.class3", SCALE)->factor = 250;
  /* the road load of the job's car, as the bench exports it */
  c = fresh("export", EXPORT);
  float load[3] = {(float)job.vehicle.f0 / 10, (float)job.vehicle.f1 / 1000, (float)job.vehicle.f2 / 100000};
  c->length = export_of(c->job, load, job.vehicle.tm, 0);
  /* writing */
  traced("write.class3", WRITE, &job.vehicle, v, n);
  car_t fine = car_of(64);
  c = traced("write.long", WRITE, &fine, one, MADE); /* 2,048 seconds, a hold at every moving one */
  for (size_t i = 0; i < MADE; i++) c->h[i] = one[i] >= 10 ? lowest_gear(&c->car, one[i]) : 0;
  for (int i = 0; i < ncases; i++)
    if (is_edit(&cases[i])) cases[i].summary = gearcard_summary_of(cases[i].v, cases[i].count, cases[i].card, cases[i].count).summary;
}

/* ---- time ---- */
static double now(void) { /* this thread's own time: what other programs take does not count */
  struct timespec t;
  clock_gettime(CLOCK_THREAD_CPUTIME_ID, &t);
  return t.tv_sec + 1e-9 * t.tv_nsec;
}
static double timed(case_t *c, enum side twin, long reps) {
  double a = now();
  call(c, twin, reps);
  return now() - a;
}
static int up(const void *x, const void *y) {
  double a = *(const double *)x, b = *(const double *)y;
  return a < b ? -1 : a > b;
}
static long reps_for(case_t *c, enum side twin, double want) {
  long r = 2;
  for (;;) {
    double t = timed(c, twin, r);
    if (t > want / 4) {
      r = (long)(r * want / t);
      return r < 2 ? 2 : r & ~1l;
    }
    r *= 2;
  }
}
/* A line of the table: the first ratios, and others beside them where there are some. */
static void spread(double *x) {
  qsort(x, ROUNDS, sizeof *x, up);
  printf(" %7.3f [%.3f .. %.3f]", x[ROUNDS / 2], x[ROUNDS / 10], x[ROUNDS - 1 - ROUNDS / 10]);
}
static void row(const char *name, const char *what, double *x, double *beside) {
  printf("%-18s %-24s", name, what);
  spread(x);
  if (beside) spread(beside);
  printf("\n");
  fflush(stdout);
}

/* Each side in turn, A B C, then C B A; what the summary of an edit costs, too. */
static void against_twins(case_t *c) {
  double x[ROUNDS], y[ROUNDS], took[3];
  long reps = reps_for(c, TWIN, 0.004);
  enum side end = has_hints(c) ? HINTS : TWIN;
  timed(c, LIB, reps);
  for (int r = 0; r < ROUNDS; r++) {
    for (int k = 0; k <= (int)end; k++) {
      int s = r & 1 ? (int)end - k : k;
      took[s] = timed(c, (enum side)s, reps);
    }
    x[r] = took[LIB] / took[TWIN], y[r] = took[LIB] / took[end];
  }
  if (end == HINTS) row(c->name, "library / twin, / second", x, y);
  else row(c->name, "library / twin", x, NULL);
  if (!has_bare(c)) return;
  for (int r = 0; r < ROUNDS; r++) {
    double bare = timed(c, BARE, reps);
    x[r] = timed(c, LIB, reps) / bare, y[r] = timed(c, TWIN, reps) / bare;
  }
  row(c->name, "library, twin / bare", x, y);
}

/* One case's time by another's, each over so many seconds: the library's, and the twin's beside it. */
static void by_other(const char *name, const char *what, case_t *a, case_t *b, double seconds_a, double seconds_b) {
  double x[2][ROUNDS];
  for (enum side s = LIB; s <= TWIN; s++) {
    long ra = reps_for(a, s, 0.003), rb = reps_for(b, s, 0.003);
    for (int r = 0; r < ROUNDS; r++) {
      double of_a = timed(a, s, ra) / (double)ra / seconds_a;
      x[s][r] = of_a / (timed(b, s, rb) / (double)rb / seconds_b);
    }
  }
  row(name, what, x[LIB], x[TWIN]);
}
static case_t *named(const char *name) {
  for (int i = 0; i < ncases; i++)
    if (!strcmp(cases[i].name, name)) return &cases[i];
  stop("no such case");
  return NULL;
}

int main(int argc, char **argv) {
  if (argc < 2) stop("bench JOB [--check | --list | --once CASE lib|twin|hints|bare N]");
  build(argv[1]);
  if (argc > 2 && !strcmp(argv[2], "--list")) {
    for (int i = 0; i < ncases; i++) printf("%s\n", cases[i].name);
    return 0;
  }
  if (argc > 5 && !strcmp(argv[2], "--once")) {
    case_t *c = named(argv[3]);
    enum side side = !strcmp(argv[4], "lib") ? LIB : !strcmp(argv[4], "twin") ? TWIN : !strcmp(argv[4], "hints") ? HINTS : BARE;
    if (side == BARE && !has_bare(c)) stop("only a hold or a mended sample is bare");
    if (side == HINTS && !has_hints(c)) stop("only a working, an edit or a reading has a second twin, where that is linked");
    call(c, side, atol(argv[5]));
    return 0;
  }
  for (int i = 0; i < ncases; i++) {
    case_t *c = &cases[i];
    uint32_t no = 0;
    if (c->kind == WORK) no = same_work(&c->car, c->v, c->count, c->h, c->count, c->count);
    if (c->kind == READ) no = same_read(c->job, c->length, ROOM, ROOM);
    if (c->kind == FILL || c->kind == SCALE) no = same_filled(c->kind, c->factor, GEARCARD_CYCLE);
    if (c->kind == EXPORT) no = same_export(c->job, c->length);
    if (c->kind == COUNT) no = same_count(c->v, c->count, c->card, c->count);
    if (c->kind == WRITE) no = same_write(1, &c->car, c->v, c->count, c->h, c->count, BYTES);
    if (is_edit(c)) { /* as it is called: there, and back where there is a way back */
      uint16_t w[ROOM];
      uint8_t h[ROOM], card[ROOM];
      memcpy(w, c->v, sizeof w), memcpy(h, c->h, ROOM), memcpy(card, c->card, ROOM);
      enum kind there = c->kind == AGAIN ? HOLD : c->kind, back = c->kind == HOLD ? RELEASE : there;
      no = same_edit(there, &c->car, w, c->count, h, card, c->second, there == MEND ? c->speed[0] : c->gear);
      no |= same_edit(back, &c->car, w, c->count, h, card, c->second, back == MEND ? c->speed[1] : c->gear);
      if (c->kind != AGAIN && memcmp(card, c->card, c->count)) stop("an edit and back: not the card as it was");
    }
    if (no) {
      fprintf(stderr, "%s is refused by %u\n", c->name, no);
      return 1;
    }
  }
  printf("same bytes on every benchmark input (%d cases), of %s\n", ncases, last_twin() == HINTS ? "both twins" : "the twin");
  memset(numbers, 0, sizeof numbers);
  random_checks(6000);
  export_checks(6000);
  filled_checks();
  printf("same bytes on 6000 random cars and traces (work, writes, summaries, 6 holds, 6 mended samples, reads each), 6000 random "
         "exports, every factor and part;");
  printf(" answers by number:");
  for (int i = 0; i < 24; i++) printf(" %d:%ld", i, numbers[i]);
  printf("; counts brought to 0: %ld, to 65535: %ld\n", stops[0], stops[1]);
  if (argc > 2 && !strcmp(argv[2], "--check")) return 0;

  printf("\ncase               ratio                      median [10th .. 90th percentile], %d rounds\n", ROUNDS);
  for (int i = 0; i < ncases; i++) against_twins(&cases[i]);
  printf("\ntrips of the Class 3 cycle, seconds:");
  for (int t = 0; t < ntrips; t++) printf(" %zu", trips[t].b - trips[t].a);
  printf("\ncase               library's and twin's       median [10th .. 90th percentile]\n");
  for (int i = 0; i < ncases; i++) {
    char what[40];
    snprintf(what, sizeof what, "whole / edit, %zu s", cases[i].length);
    if (has_bare(&cases[i])) by_other(cases[i].name, what, named("work.class3.own"), &cases[i], 1, 1);
  }
  for (int i = 0; i < ncases; i++) { /* level from 1,801 seconds on */
    case_t *c = &cases[i];
    if (!strstr(c->name, ".joined.")) continue;
    if (c->kind == HOLD) by_other(c->name, "hold / in the cycle", c, named("hold.typical"), 1, 1);
    else by_other(c->name, "a second / of the cycle", c, named(c->kind == READ ? "read.class3" : "work.class3.own"), (double)c->count, GEARCARD_CYCLE);
  }
  return 0;
}
