/* The C twin of the gear card, written by hand for speed: document 01's rules and refusals and no check beyond them.

   What it does for speed:
   - the vehicle by const pointer, and once a call per gear the lowest and highest V at which the gear fits (both rise with the gear, so a second
     needs no product to know which do; only the gear above the lowest may be passed over, after the lowest), and the available power of each curve point;
   - the checks 4 to 10 as one pass without branches; only where it finds something is the exact refusal looked for, or the holds gone through; 10
     then by a dry run of first choices;
   - whether a second is in the closing run is asked only where the minimum of the gear above the lowest decides, and no second is looked at twice for it;
   - first choice, passes A and B and the bytes in one loop over a trip, the gears of the seconds before in registers; pass C on the tail after it;
   - braking (E at most 0) asks for no power, so nothing is looked up; most power is kept along on the way down, so there is no second loop;
   - a summary is brought up to date from the first to the last second that changed: the bytes before are kept aside, and most of a span's stay the same;
   - a job is parsed twice, for its faults and then into the rooms: nothing is written before the last check, and no array is as long as a trace;
   - a job that is written passes the same quick look; its speeds, which are then at most 2,000, are measured and put without a branch.

   To see what each of these is worth, they can be left out one by one at compile time, for the plain way in C: PLAIN_CHECK (each second
   judged in full), PLAIN_CHOOSE (each gear from the top by products; a second loop for most power; no short way when braking), PLAIN_PASSES
   (first choices, A, B, C and bytes as five loops).

   This twin is the fixed mark. With HINTS it is the second one, whose way to a first choice is in hints.h, and which parses a job once, into arrays as long as
   the longest trace, copied when all of it has passed; all else is this file's. */
#include "twin.h"
#include <string.h>

typedef struct gearcard_vehicle car_t;
typedef struct gearcard_verdict verdict_t;
#define LIKELY(x) __builtin_expect(!!(x), 1)
#define UNLIKELY(x) __builtin_expect(!!(x), 0)
#define INLINE static inline __attribute__((always_inline))
typedef struct {
  int64_t q, w;
} power_t;
#ifdef HINTS
#include "hints.h"
#define NAMED(function) hints_##function
#else
#define NAMED(function) twin_##function
#endif

INLINE verdict_t say(uint32_t number, size_t place) {
  verdict_t r = {number, place};
  return r;
}

/* Refusal 3: the first field out of bounds, 0 where none is. */
static uint32_t car_fault(const car_t *c) {
  unsigned ng = c->ng, i;
  if (c->profile > 1 || ng - 2u - c->profile > 8u - c->profile) return 1;
  unsigned bad = c->ratio[0] > 50000;
  for (i = 1; i < ng; i++) bad |= c->ratio[i] >= c->ratio[i - 1];
  if (bad | (c->ratio[ng - 1] == 0)) return 2;
  if (c->idle - 300u > 2700u) return 3;
  if (c->rated <= c->idle || c->rated > 12000) return 4;
  if (c->nmax < c->rated || c->nmax > 15000) return 5;
  if (c->f0 > 10000) return 6;
  if ((uint32_t)(c->f1 + 5000u) > 10000u) return 7;
  if (c->f2 > 20000) return 8;
  if (c->tm - 400u > 3600u) return 9;
  if (c->margin > 50) return 10;
  unsigned m = c->points;
  if (m - 2u > 62u) return 11;
  unsigned most = 90u - c->margin < 50 ? 90u - c->margin : 50; /* of a point's margin */
  bad = (c->n[0] == 0) | (c->p[0] > 5000) | (c->m[0] > most);
  for (i = 1; i < m; i++) bad |= ((uint32_t)(c->n[i] - c->n[i - 1] - 1) > 999u) | (c->p[i] > 5000) | (c->m[i] > most);
  if (bad | (c->n[m - 1] > 16000)) return 12;
  if (c->n[0] > c->idle || c->n[m - 1] < c->nmax) return 13;
  return 0;
}

/* What a call works out once of a vehicle. */
typedef struct {
  const car_t *c;
  uint32_t low, ng, cap, idle1000; /* low: the lowest gear that is driven */
  int64_t a, b, e2, dm;
  int32_t power[64]; /* p x (100 - M - m) of each point */
  uint32_t lo[12], hi[12]; /* the V at which a gear fits; the lowest from 0 on, the one above it where neither of the next two */
  uint32_t lo_closing, lo_after;
#ifdef HINTS
  hints_t hints;
#endif
} prep_t;

INLINE void prepare(prep_t *k, const car_t *c) {
  uint32_t low = 1u + c->profile, ng = c->ng, idle = c->idle, top = 1000u * c->nmax;
  k->c = c;
  k->low = low;
  k->ng = ng;
  k->idle1000 = 1000u * idle;
  k->a = 9000000ll * c->f0;
  k->b = 9000ll * c->f1;
  k->e2 = 9ll * c->f2;
  k->dm = 2575000ll * c->tm;
  int32_t rest = 100 - c->margin;
  for (uint32_t i = 0; i < c->points; i++) k->power[i] = c->p[i] * (rest - c->m[i]);
  uint32_t m2 = 1000u * ((9 * idle + 5) / 10), m2a = 1000u * ((115 * idle + 50) / 100), m3 = 1000u * (idle + (c->rated - idle + 4) / 8);
  uint32_t r2 = c->ratio[low]; /* of the gear above the lowest */
  k->lo[low] = 0;
  k->hi[low] = top / c->ratio[low - 1];
  k->lo[low + 1] = (m2 + r2 - 1) / r2;
  k->lo_closing = (1000u * idle + r2 - 1) / r2;
  k->lo_after = (m2a + r2 - 1) / r2;
  k->hi[low + 1] = top / r2;
  for (uint32_t g = low + 2; g <= ng; g++) {
    uint32_t r = c->ratio[g - 1];
    k->lo[g] = (m3 + r - 1) / r;
    k->hi[g] = top / r;
  }
  /* Up to cap every V is at most 2,000 and has a gear that fits, the first second of a trip too: its V is at most 159. */
  /* lo and hi are filled from low to ng, and ng is above low */
  uint32_t cap = k->hi[ng] < 2000 ? k->hi[ng] : 2000;
  for (uint32_t g = low; g < ng; g++)
    if (k->hi[g] + 1 < (g == low ? k->lo_after : k->lo[g + 1]) && k->hi[g] < cap) cap = k->hi[g];
  if (k->hi[low] < 159 && k->hi[low] < cap) cap = k->hi[low];
  k->cap = cap;
#ifdef HINTS
  prepare_hints(&k->hints, c, k->power, k->lo, low);
#endif
}

/* The lowest V of the gear above the lowest at second j, by the first choice before. From *open on nothing is known of the closing run. */
INLINE uint32_t lowest_2(const prep_t *k, const uint16_t *v, size_t j, uint32_t last, size_t *open) {
  if (j >= *open) {
    size_t e = j;
    while (v[e] >= 10 && v[e] > v[e + 1]) e++;
    if (v[e] < 10) return k->lo_closing;
    *open = e + 1;
  }
  return last == k->low ? k->lo_after : k->lo[k->low + 1];
}

/* The highest gear whose minimum V reaches at second j, not its trip's first, given that of the gears above the lowest two. */
INLINE uint32_t highest_reached(const prep_t *k, const uint16_t *v, size_t j, uint32_t last, size_t *open, uint32_t t) {
  uint32_t x = v[j], low = k->low;
  if (t > low + 1 || x >= k->lo_after) return t;
  if (x < k->lo[low + 1]) return low;
  return x >= lowest_2(k, v, j, last, open) ? low + 1 : low;
}

/* Whether the gear above the lowest fits at second j, not its trip's first, where a gear above it is looked at too. */
INLINE int second_fits(const prep_t *k, const uint16_t *v, size_t j, uint32_t last, size_t *open) {
  uint32_t x = v[j];
  if (x > k->hi[k->low + 1] || x < k->lo[k->low + 1]) return 0;
  return x >= k->lo_after || x >= lowest_2(k, v, j, last, open);
}

/* Whether a held gear is none that is driven. */
INLINE int not_driven(uint32_t low, uint32_t ng, uint32_t g) { return g - low > ng - low; }

INLINE int past_nmax(const prep_t *k, uint32_t g, uint32_t x) {
#ifdef PLAIN_CHECK
  return k->c->ratio[g - 1] * x > 1000u * k->c->nmax;
#else
  return x > k->hi[g];
#endif
}

/* The first refusal of 4 to 9 on [lo, hi), exactly, with the hold of one second in place of the one there. */
static __attribute__((noinline)) verdict_t exact(const prep_t *k, const uint16_t *v, size_t n, const uint8_t *h, size_t second, uint8_t gear, size_t lo,
                                                 size_t hi) {
  uint32_t best = 10;
  size_t place = 0;
  for (size_t i = lo; i < hi; i++) {
    uint32_t x = v[i], held = i == second ? gear : h[i], no = 10;
    int step = i > lo ? (int)x - (int)v[i - 1] : 0;
    if (x > 2000) no = 4;
    else if (step > 150 || step < -150) no = 5;
    else if (x >= 10 && (i == 0 || i == n - 1)) no = 6;
    else if (held) {
      if (not_driven(k->low, k->ng, held)) no = 7;
      else if (x < 10) no = 8;
      else if (past_nmax(k, held, x)) no = 9;
    }
    if (no < best) best = no, place = i;
  }
  return best == 10 ? say(0, 0) : say(best, place);
}

/* Whether a speed of [lo, hi) is over cap or a step over 150. */
INLINE unsigned speeds_odd(const uint16_t *v, size_t lo, size_t hi, uint32_t cap) {
  uint16_t c = (uint16_t)cap, bad = v[lo] > c;
  for (size_t i = lo + 1; i < hi; i++) {
    uint16_t x = v[i], d = (uint16_t)(x - v[i - 1] + 150);
    bad |= (uint16_t)((x > c) | (d > 300));
  }
  return bad;
}

INLINE unsigned any(const uint8_t *h, size_t lo, size_t hi) {
  uint8_t s = 0;
  for (size_t i = lo; i < hi; i++) s |= h[i];
  return s;
}

/* Whether a hold is wrong at its second. */
INLINE unsigned hold_odd(const prep_t *k, uint32_t g, uint32_t x) { return not_driven(k->low, k->ng, g) || x < 10 || x > k->hi[g]; }

/* Makes t the highest gear above the lowest two whose minimum V = x reaches, or the second lowest. */
#ifdef HINTS
#define REACH(x) t = reach_from(&k->hints, x, t)
#else
#define REACH(x)                             \
  while (t < ng && (x) >= k->lo[t + 1]) t++; \
  while (t > low + 1 && (x) < k->lo[t]) t--
#endif

/* Q and w of a gear at x, at least 1000 idle. */
INLINE power_t power(prep_t *k, uint32_t gear, uint32_t x) {
  const car_t *c = k->c;
  const uint16_t *n = c->n;
  if (x < k->idle1000) x = k->idle1000;
#ifdef HINTS
  return power_near(&k->hints, gear, x);
#endif
  uint32_t whole = (x + 999) / 1000, s = 0, len = c->points - 1u;
  while (len > 1) {
    uint32_t half = len / 2;
    s = n[s + half] < whole ? s + half : s;
    len -= half;
  }
  int32_t n1 = n[s], p1 = k->power[s], w = n[s + 1] - n1;
  power_t r;
  r.w = w;
  r.q = (int64_t)p1 * (1000 * w) + (int64_t)(k->power[s + 1] - p1) * ((int32_t)x - 1000 * n1);
  return r;
}

/* The first choice at second j, which has no hold and is not its trip's first, `last` the first choice before and `above` the highest gear above the lowest
   two whose minimum is reached, or the second lowest; 0 where no gear fits. */
INLINE uint32_t choose(prep_t *k, const uint16_t *v, size_t j, uint32_t last, size_t *open, uint32_t above) {
  uint32_t x = v[j], t = highest_reached(k, v, j, last, open, above);
#ifdef HINTS
  if (t == k->low) return x <= k->hi[t] ? t : 0; /* no gear above fits: neither E nor power is asked for */
#endif
  int32_t d = (int32_t)v[j + 1] - (int32_t)x;
  int64_t y = x;
  int64_t e = y * (k->a + y * (k->b + y * k->e2) + k->dm * d);
  if (UNLIKELY(x > k->hi[t])) return 0; /* a higher gear turns slower: none below fits either */
  if (e <= 0) return t;
  const uint16_t *ratio = k->c->ratio;
  power_t m = power(k, t, ratio[t - 1] * x);
  if (3240000 * m.q >= e * m.w) return t;
  uint32_t best = t;
  for (uint32_t g = t - 1; g >= k->low && x <= k->hi[g]; g--) {
    if (UNLIKELY(g == k->low + 1 && x < k->lo_after && !second_fits(k, v, j, last, open))) continue;
    power_t r = power(k, g, ratio[g - 1] * x);
    if (3240000 * r.q >= e * r.w) return g;
    if (r.q * m.w > m.q * r.w) m = r, best = g;
  }
  return best;
}

#ifdef PLAIN_CHOOSE
INLINE int plain_fits(const prep_t *k, const uint16_t *v, size_t j, int first, uint32_t last, size_t *open, uint32_t g) {
  const car_t *c = k->c;
  uint32_t idle = c->idle, x = c->ratio[g - 1] * v[j];
  if (x > 1000u * c->nmax) return 0;
  if (g == k->low) return 1;
  if (first) return 0;
  if (g == k->low + 1) return v[j] >= lowest_2(k, v, j, last, open);
  return x >= 1000u * (idle + (c->rated - idle + 4) / 8);
}
INLINE power_t plain_power(const prep_t *k, uint32_t x) {
  const car_t *c = k->c;
  if (x < k->idle1000) x = k->idle1000;
  uint32_t lo = 0, hi = c->points - 2u;
  while (lo < hi) {
    uint32_t mid = (lo + hi) / 2;
    if (x <= 1000u * c->n[mid + 1]) hi = mid;
    else lo = mid + 1;
  }
  int64_t n1 = c->n[lo], p1 = k->power[lo], w = c->n[lo + 1] - n1;
  power_t r = {1000 * p1 * w + (k->power[lo + 1] - p1) * ((int64_t)x - 1000 * n1), w};
  return r;
}
INLINE uint32_t plain_choose(const prep_t *k, const uint16_t *v, size_t j, int first, uint32_t last, size_t *open) {
  const car_t *c = k->c;
  int32_t d = (int32_t)v[j + 1] - (int32_t)v[j];
  int64_t y = v[j], e = y * (k->a + y * (k->b + y * k->e2) + k->dm * d);
  for (uint32_t g = k->ng; g >= k->low; g--)
    if (plain_fits(k, v, j, first, last, open, g)) {
      power_t r = plain_power(k, c->ratio[g - 1] * v[j]);
      if (3240000 * r.q >= e * r.w) return g;
    }
  uint32_t best = 0;
  power_t m = {0, 1};
  for (uint32_t g = k->low; g <= k->ng; g++)
    if (plain_fits(k, v, j, first, last, open, g)) {
      power_t r = plain_power(k, c->ratio[g - 1] * v[j]);
      if (!best || m.q * r.w <= r.q * m.w) best = g, m = r;
    }
  return best;
}
#endif

/* 10 on [lo, hi), which begins and ends at rest: a dry run of first choices through each trip. */
static __attribute__((noinline)) verdict_t want(prep_t *k, const uint16_t *v, const uint8_t *h, size_t second, uint8_t gear, size_t lo, size_t hi) {
  size_t open = 0;
  uint32_t last = 0, low = k->low, t = low + 1, ng = k->ng;
  for (size_t i = lo + 1; i < hi; i++) {
    uint32_t x = v[i], held = i == second ? gear : h[i];
    if (x < 10) last = 0;
    else if (held) last = held;
    else {
#ifdef PLAIN_CHOOSE
      (void)t, (void)ng, (void)low;
      last = plain_choose(k, v, i, last == 0, last, &open);
#else
      REACH(x);
      if (last == 0) last = x <= k->hi[low] ? low : 0;
      else last = choose(k, v, i, last, &open, t);
#endif
      if (!last) return say(10, i);
    }
  }
  return say(0, 0);
}

/* The first refusal of 4 to 10 on [lo, hi): gone through second by second only where the quick look finds something odd. The hold of one second is taken
   as gear, where that second is in the trace. */
INLINE verdict_t judge(prep_t *k, const uint16_t *v, size_t n, const uint8_t *h, size_t second, uint8_t gear, size_t lo, size_t hi) {
#ifndef PLAIN_CHECK
  unsigned odd = speeds_odd(v, lo, hi, k->cap) | (v[lo] >= 10) | (v[hi - 1] >= 10) | (gear && hold_odd(k, gear, v[second]));
  if (LIKELY(!odd)) {
    if (!any(h, lo, hi)) return say(0, 0);
    size_t i = lo;
    while (i < hi && (!h[i] || i == second || LIKELY(!hold_odd(k, h[i], v[i])))) i++;
    if (i == hi) return say(0, 0);
  }
#endif
  verdict_t r = exact(k, v, n, h, second, gear, lo, hi);
  return r.number ? r : want(k, v, h, second, gear, lo, hi);
}

INLINE uint8_t byte_of(const prep_t *k, uint32_t g, uint32_t v, int32_t d) {
  return (uint8_t)(g + (((d <= 0) & (k->c->ratio[g - 1] * v < k->idle1000)) << 4));
}

#ifdef PLAIN_PASSES
static __attribute__((noinline)) void passes(prep_t *k, const uint16_t *v, const uint8_t *h, uint8_t *g, size_t n) {
  uint32_t ng = k->ng, low = k->low, t = low + 1;
  size_t open = 0;
  const uint16_t *ratio = k->c->ratio;
  uint32_t top = 1000u * k->c->nmax;
  for (size_t j = 0; j < n; j++) {
    uint32_t x = v[j];
#ifdef PLAIN_CHOOSE
    (void)t, (void)ng, (void)x;
    g[j] = h[j] ? h[j] : (uint8_t)plain_choose(k, v, j, j == 0, j ? g[j - 1] : 0, &open);
#else
    if (h[j]) g[j] = h[j];
    else if (j == 0) g[j] = (uint8_t)low;
    else {
      REACH(x);
      g[j] = (uint8_t)choose(k, v, j, g[j - 1], &open, t);
    }
#endif
  }
  for (size_t j = 1; j + 1 < n; j++) {
    uint32_t p = g[j - 1], q = g[j + 1], big = p > q ? p : q, small = p > q ? q : p;
    if (!h[j] && g[j] == big + 1 && g[j] <= small + 2 && ratio[g[j] - 2] * (uint32_t)v[j] <= top) g[j]--;
  }
  uint32_t last = n ? g[0] : 0, ceiling = last;
  for (size_t j = 1; j < n; j++) {
    uint32_t x = g[j];
    if (!h[j] && v[j] > v[j - 1] && x > ceiling) {
      x = ceiling;
      while (ratio[x - 1] * (uint32_t)v[j] > top) x++;
      g[j] = (uint8_t)x;
    }
    ceiling = x + (x == last);
    last = x;
  }
  size_t j = n;
  while (j > 1 && v[j - 1] > v[j]) j--;
  for (; j < n; j++)
    if (!h[j] && g[j] == low) g[j] = (uint8_t)(low + 1);
  for (j = 0; j < n; j++) g[j] = byte_of(k, g[j], v[j], (int32_t)v[j + 1] - (int32_t)v[j]);
}
INLINE size_t trip(prep_t *k, const uint16_t *v, const uint8_t *h, uint8_t *card, size_t a) {
  size_t b = a;
  while (v[b] >= 10) b++;
  passes(k, v + a, h + a, card + a, b - a);
  card[a - 1] = (uint8_t)(16 + (card[a] & 15));
  return b;
}
#else
/* A trip from a on, its card and that of the second before; answers the standing second after it. */
INLINE size_t trip(prep_t *k, const uint16_t *v, const uint8_t *h, uint8_t *card, size_t a) {
  size_t j = a, run = a, open = a;
  uint32_t low = k->low, t = low + 1, ng = k->ng, x = v[a], next = v[a + 1];
  uint32_t g = h[a] ? h[a] : low; /* the first choice here */
  uint32_t pa = 0, b1 = 0, b2 = 0, before = 0;
  card[a - 1] = (uint8_t)(16 + g);
  for (;;) {
    int32_t d = (int32_t)next - (int32_t)x;
    uint32_t more = next >= 10, q = 0, after = 0;
    if (d >= 0) run = j + 1;
    if (more) { /* the first choice of the next second */
      after = v[j + 2];
      q = h[j + 1];
#ifdef PLAIN_CHOOSE
      (void)t, (void)ng;
      if (!q) q = plain_choose(k, v, j + 1, 0, g, &open);
#else
      if (!q) {
        REACH(next);
        q = choose(k, v, j + 1, g, &open, t);
      }
#endif
    }
    uint32_t ga = g;
    if (j > a && !h[j]) {
      if (more) { /* A */
        uint32_t big = pa > q ? pa : q, small = pa > q ? q : pa;
        if (g == big + 1 && g <= small + 2 && x <= k->hi[g - 1]) ga = g - 1;
      }
      pa = ga;
      if (x > before) { /* B */
        uint32_t ceiling = b1 + (b1 == b2);
        if (ga > ceiling) {
          while (k->hi[ceiling] < x) ceiling++;
          ga = ceiling;
        }
      }
    } else
      pa = ga;
    b2 = b1;
    b1 = ga;
    card[j] = byte_of(k, ga, x, d);
    j++;
    if (!more) break;
    before = x;
    x = next;
    next = after;
    g = q;
  }
  if (run == a) run = a + 1;
  for (; run < j; run++) /* C */
    if ((card[run] & 15) == low && !h[run]) card[run] = byte_of(k, low + 1, v[run], -1);
  return j;
}
#endif

/* Refusals 1 to 3. */
INLINE verdict_t opening(const car_t *c, size_t n, size_t nh, size_t nc) {
  if (n - 1 >= GEARCARD_LONGEST) return say(1, 0);
  if (nh != n || nc != n) return say(2, 0);
  uint32_t field = car_fault(c);
  return say(field ? 3 : 0, field);
}

verdict_t NAMED(work)(car_t vehicle, const uint16_t *v, size_t n, const uint8_t *h, size_t nh, uint8_t *card, size_t nc) {
  verdict_t r = opening(&vehicle, n, nh, nc);
  if (UNLIKELY(r.number)) return r;
  prep_t k;
  prepare(&k, &vehicle);
  r = judge(&k, v, n, h, n, 0, 0, n);
  if (UNLIKELY(r.number)) return r;
  for (size_t i = 0; i < n;) {
    if (i + 1 < n && v[i + 1] >= 10)
      i = trip(&k, v, h, card, i + 1);
    else
      card[i++] = 0;
  }
  return say(0, 0);
}

/* Seconds by gear, any of 0 to 15; then standing, and changes. */
enum { STANDING = 16, CHANGES, COUNTS };

/* Counts the seconds of [lo, hi), and the changes with a second of them on either side, each as often as sign says. The card's bytes are given from
   second `from` on; the speed of one second, where that is in the trace, is taken as `speed`. */
INLINE void count(int32_t *counts, const uint16_t *v, size_t n, size_t second, uint16_t speed, const uint8_t *card, size_t from, size_t lo,
                  size_t hi, int32_t sign) {
  unsigned last = 255; /* the gear before, where it was moving */
  for (size_t i = lo ? lo - 1 : 0; i < n && i <= hi; i++) {
    uint16_t x = i == second ? speed : v[i];
    unsigned gear = x < 10 ? 255 : card[i - from] & 15u;
    if (gear != last && gear != 255 && last != 255) counts[CHANGES] += sign;
    if (i >= lo && i < hi) counts[x < 10 ? STANDING : gear] += sign;
    last = gear;
  }
}

INLINE uint16_t settle(uint16_t was, int32_t more) {
  int32_t x = was + more;
  return (uint16_t)(x < 0 ? 0 : x > 65535 ? 65535 : x);
}

INLINE void settle_all(struct gearcard_summary *s, const int32_t *counts) {
  s->standing = settle(s->standing, counts[STANDING]);
  for (int g = 0; g < 10; g++) s->gears[g] = settle(s->gears[g], counts[g + 1]);
  s->changes = settle(s->changes, counts[CHANGES]);
}

/* The bytes of [lo, hi) and the one on either side, kept aside; the first of them. */
INLINE size_t aside(uint8_t *old, const uint8_t *card, size_t n, size_t lo, size_t hi) {
  size_t from = lo ? lo - 1 : 0, to = hi < n ? hi + 1 : n;
  memcpy(old, card + from, to - from);
  return from;
}

/* The summary, where the bytes of [lo, hi) may be new and were `old`, from second `from` on; and the speed of one second, where that is in
   the trace, was another. */
INLINE void bring(struct gearcard_summary *s, const uint16_t *v, size_t n, const uint8_t *card, const uint8_t *old, size_t from, size_t lo,
                  size_t hi, size_t second, uint16_t was) {
  while (lo < hi && lo != second && card[lo] == old[lo - from]) lo++;
  while (lo < hi && hi - 1 != second && card[hi - 1] == old[hi - 1 - from]) hi--;
  if (lo == hi) return;
  int32_t counts[COUNTS] = {0};
  count(counts, v, n, second, was, old, from, lo, hi, -1);
  count(counts, v, n, n, 0, card, 0, lo, hi, 1);
  settle_all(s, counts);
}

/* A second's hold made gear: 0 releases it. A gear of 0 to hold comes as 255, which is above ng. Without a summary none is kept. */
INLINE verdict_t edit(const car_t *vehicle, const uint16_t *v, size_t n, uint8_t *h, size_t nh, uint8_t *card, size_t nc, size_t second, uint8_t gear,
                      struct gearcard_summary *summary) {
  verdict_t r = opening(vehicle, n, nh, nc);
  if (UNLIKELY(r.number)) return r;
  if (second >= n) return say(11, second);
  if (v[second] < 10) {
    if (gear) return say(not_driven(1u + vehicle->profile, vehicle->ng, gear) ? 7 : 8, second);
    h[second] = 0;
    return say(0, 0);
  }
  prep_t k;
  prepare(&k, vehicle);
  size_t a = second, b = second + 1;
  while (a > 0 && v[a - 1] >= 10) a--;
  while (b < n && v[b] >= 10) b++;
  size_t lo = a ? a - 1 : 0, hi = b < n ? b + 1 : n;
  r = judge(&k, v, n, h, second, gear, lo, hi);
  if (UNLIKELY(r.number)) return r;
  h[second] = gear;
  if (!summary) {
    trip(&k, v, h, card, a);
    return say(0, 0);
  }
  uint8_t old[GEARCARD_LONGEST];
  size_t from = aside(old, card, n, lo, b);
  trip(&k, v, h, card, a);
  bring(summary, v, n, card, old, from, lo, b, n, 0);
  return say(0, 0);
}

/* A sample made speed. It is written, judged in its place, and put back where it is refused. */
INLINE verdict_t mend(const car_t *vehicle, uint16_t *v, size_t n, const uint8_t *h, size_t nh, uint8_t *card, size_t nc, size_t second, uint16_t speed,
                      struct gearcard_summary *summary) {
  verdict_t r = opening(vehicle, n, nh, nc);
  if (UNLIKELY(r.number)) return r;
  if (second >= n) return say(11, second);
  prep_t k;
  prepare(&k, vehicle);
  size_t a = second, b = second + 1;
  while (a > 0 && v[a - 1] >= 10) a--;
  while (b < n && v[b] >= 10) b++;
  size_t lo = a ? a - 1 : 0, hi = b < n ? b + 1 : n, from = 0;
  uint16_t was = v[second];
  v[second] = speed;
  r = judge(&k, v, n, h, n, 0, lo, hi);
  if (UNLIKELY(r.number)) {
    v[second] = was;
    return r;
  }
  uint8_t old[GEARCARD_LONGEST];
  if (summary) from = aside(old, card, n, lo, b);
  for (size_t i = lo; i < b;) {
    if (i + 1 < b && v[i + 1] >= 10)
      i = trip(&k, v, h, card, i + 1);
    else
      card[i++] = 0;
  }
  if (summary) bring(summary, v, n, card, old, from, lo, b, second, was);
  return say(0, 0);
}

struct gearcard_counted NAMED(hold)(car_t vehicle, const uint16_t *v, size_t n, uint8_t *h, size_t nh, uint8_t *card, size_t nc, size_t second, uint8_t gear,
                                  struct gearcard_summary summary) {
  verdict_t r = edit(&vehicle, v, n, h, nh, card, nc, second, gear ? gear : 255, &summary);
  return (struct gearcard_counted){r, summary};
}

struct gearcard_counted NAMED(release)(car_t vehicle, const uint16_t *v, size_t n, uint8_t *h, size_t nh, uint8_t *card, size_t nc, size_t second,
                                     struct gearcard_summary summary) {
  verdict_t r = edit(&vehicle, v, n, h, nh, card, nc, second, 0, &summary);
  return (struct gearcard_counted){r, summary};
}

struct gearcard_counted NAMED(mend)(car_t vehicle, uint16_t *v, size_t n, const uint8_t *h, size_t nh, uint8_t *card, size_t nc, size_t second, uint16_t speed,
                                  struct gearcard_summary summary) {
  verdict_t r = mend(&vehicle, v, n, h, nh, card, nc, second, speed, &summary);
  return (struct gearcard_counted){r, summary};
}

#ifndef HINTS /* nothing below but the reading is another in the second twin */
struct gearcard_counted twin_summary_of(const uint16_t *v, size_t n, const uint8_t *card, size_t nc) {
  struct gearcard_counted r;
  memset(&r, 0, sizeof r);
  r.verdict = n - 1 >= GEARCARD_LONGEST ? say(1, 0) : say(nc == n ? 0 : 2, 0);
  if (UNLIKELY(r.verdict.number)) return r;
  int32_t counts[COUNTS] = {0};
  count(counts, v, n, n, 0, card, 0, 0, n, 1);
  settle_all(&r.summary, counts);
  return r;
}

verdict_t bare_hold(car_t vehicle, const uint16_t *v, size_t n, uint8_t *h, size_t nh, uint8_t *card, size_t nc, size_t second, uint8_t gear) {
  return edit(&vehicle, v, n, h, nh, card, nc, second, gear ? gear : 255, NULL);
}

verdict_t bare_release(car_t vehicle, const uint16_t *v, size_t n, uint8_t *h, size_t nh, uint8_t *card, size_t nc, size_t second) {
  return edit(&vehicle, v, n, h, nh, card, nc, second, 0, NULL);
}

verdict_t bare_mend(car_t vehicle, uint16_t *v, size_t n, const uint8_t *h, size_t nh, uint8_t *card, size_t nc, size_t second, uint16_t speed) {
  return mend(&vehicle, v, n, h, nh, card, nc, second, speed, NULL);
}

#endif

/* A group at *at into *out; 0, or the number of its fault. */
INLINE uint32_t group(const uint8_t *s, size_t end, size_t *at, uint32_t *out) {
  size_t i = *at;
  if (UNLIKELY(i >= end)) return 12;
  uint32_t a = s[i];
  if (a < 128) {
    *out = a;
    *at = i + 1;
    return 0;
  }
  if (UNLIKELY(i + 1 >= end)) return 12;
  uint32_t b = s[i + 1];
  if (LIKELY(b < 128)) {
    if (UNLIKELY(b == 0)) return 13;
    *out = a - 128 + (b << 7);
    *at = i + 2;
    return 0;
  }
  if (UNLIKELY(i + 2 >= end)) return 12;
  uint32_t c = s[i + 2];
  if (UNLIKELY(c - 1u > 2u)) return 13;
  *out = a - 128 + ((b - 128) << 7) + (c << 14);
  *at = i + 3;
  return 0;
}

/* The whole of a job; the refusal, and where it was met. */
INLINE verdict_t parse(struct gearcard_job *r, const uint8_t *s, size_t end, uint16_t *speeds, size_t rs, uint8_t *holds, size_t rh) {
  car_t *c = &r->vehicle;
  size_t at = 0;
  uint32_t x, y, f;
#define GROUP(out)                            \
  if (UNLIKELY(f = group(s, end, &at, &out))) \
  return say(f, f == 12 ? end : at)
#define FIELD(place) \
  GROUP(x);          \
  place = (uint16_t)x
/* A hold, its second in x and its gear in y. */
#define HELD                                                         \
  size_t from = at;                                                  \
  GROUP(x);                                                          \
  if (UNLIKELY(x < next || x >= count)) return say(15, from);        \
  GROUP(y);                                                          \
  if (UNLIKELY(y - 1u > 254u)) return say(15, from);                 \
  next = x + 1
  GROUP(x);
  if (x - 1u > 2u) return say(14, 0);
  r->version = (uint16_t)x;
  if (r->version == 3) {
    FIELD(c->profile);
    if (x > 1) return say(3, 1);
  }
  FIELD(c->ng);
  if (x - 2u - c->profile > 8u - c->profile) return say(3, 1);
  for (uint32_t i = 0; i < c->ng; i++) {
    FIELD(c->ratio[i]);
  }
  FIELD(c->idle);
  FIELD(c->rated);
  FIELD(c->nmax);
  FIELD(c->f0);
  GROUP(x);
  c->f1 = (int32_t)x - 5000;
  FIELD(c->f2);
  FIELD(c->tm);
  FIELD(c->margin);
  FIELD(c->points);
  if (x - 2u > 62u) return say(3, 11);
  for (uint32_t i = 0; i < c->points; i++) {
    FIELD(c->n[i]);
    FIELD(c->p[i]);
    if (r->version >= 2) {
      FIELD(c->m[i]);
    }
  }
  GROUP(x);
  if (x - 1u >= GEARCARD_LONGEST) return say(1, 0);
  uint32_t count = x;
  if (rs < count || rh < count) return say(2, 0);
#ifndef HINTS
  size_t trace = at, first;
  uint32_t held, next = 0, i;
  for (i = 0; i < count; i++) {
    GROUP(x);
  }
  GROUP(held);
  first = at;
  for (i = 0; i < held; i++) {
    HELD;
  }
  if (at != end) return say(16, at);
  at = trace;
  for (i = 0; i < count; i++) {
    GROUP(x);
    speeds[i] = (uint16_t)x;
  }
  memset(holds, 0, count);
  at = first;
  for (i = 0; i < held; i++) {
    GROUP(x);
    GROUP(y);
    holds[x] = (uint8_t)y;
  }
#else
  uint16_t vs[GEARCARD_LONGEST];
  uint32_t i = 0;
  /* Three bytes a second are there for the next so many seconds: no end to look for. */
  while (i < count) {
    size_t room = (end - at) / 3;
    if (room == 0) break;
    uint32_t stop = room < count - i ? i + (uint32_t)room : count;
    for (; i < stop; i++) {
      uint32_t a = s[at], b, z;
      if (a < 128) {
        vs[i] = (uint16_t)a;
        at++;
      } else if (LIKELY((b = s[at + 1]) < 128)) {
        if (UNLIKELY(b == 0)) return say(13, at);
        vs[i] = (uint16_t)(a - 128 + (b << 7));
        at += 2;
      } else {
        z = s[at + 2];
        if (UNLIKELY(z - 1u > 2u)) return say(13, at);
        vs[i] = (uint16_t)(a - 128 + ((b - 128) << 7) + (z << 14));
        at += 3;
      }
    }
  }
  for (; i < count; i++) {
    GROUP(x);
    vs[i] = (uint16_t)x;
  }
  uint32_t held;
  GROUP(held);
  if (held) {
    uint8_t hs[GEARCARD_LONGEST];
    uint32_t next = 0;
    memset(hs, 0, count);
    for (i = 0; i < held; i++) {
      HELD;
      hs[x] = (uint8_t)y;
    }
    if (at != end) return say(16, at);
    memcpy(holds, hs, count);
  } else {
    if (at != end) return say(16, at);
    memset(holds, 0, count);
  }
  memcpy(speeds, vs, 2 * (size_t)count);
#endif
  r->count = count;
  return say(0, 0);
}

struct gearcard_job NAMED(read)(const uint8_t *job, size_t nj, uint16_t *speeds, size_t rs, uint8_t *holds, size_t rh) {
  struct gearcard_job r;
  memset(&r, 0, sizeof r);
  verdict_t said = parse(&r, job, nj, speeds, rs, holds, rh);
  if (UNLIKELY(said.number)) memset(&r, 0, sizeof r);
  r.verdict = said;
  return r;
}

#ifndef HINTS
/* The first refusal of 4 to 9 on a whole trace, exactly. */
static __attribute__((noinline)) verdict_t exact_written(const car_t *c, const uint16_t *v, size_t n, const uint8_t *h) {
  uint32_t best = 10;
  size_t place = 0;
  for (size_t i = 0; i < n; i++) {
    uint32_t x = v[i], held = h[i], no = 10;
    int step = i > 0 ? (int)x - (int)v[i - 1] : 0;
    if (x > 2000) no = 4;
    else if (step > 150 || step < -150) no = 5;
    else if (x >= 10 && (i == 0 || i == n - 1)) no = 6;
    else if (held) {
      if (not_driven(1u + c->profile, c->ng, held)) no = 7;
      else if (x < 10) no = 8;
      else if (c->ratio[held - 1] * x > 1000u * c->nmax) no = 9;
    }
    if (no < best) best = no, place = i;
  }
  return best == 10 ? say(0, 0) : say(best, place);
}

INLINE size_t size_of(uint32_t x) { return 1 + (size_t)(x >= 128) + (size_t)(x >= 16384); }

INLINE uint8_t *put(uint8_t *s, uint32_t x) {
  while (x >= 128) *s++ = (uint8_t)(x | 128), x >>= 7;
  *s++ = (uint8_t)x;
  return s;
}

/* The values of a vehicle in a job's order, behind the version. */
INLINE uint32_t values_of(uint16_t version, const car_t *c, uint16_t *to) {
  uint32_t k = 0, i;
  to[k++] = version;
  if (version == 3) to[k++] = c->profile;
  to[k++] = c->ng;
  for (i = 0; i < c->ng; i++) to[k++] = c->ratio[i];
  to[k++] = c->idle, to[k++] = c->rated, to[k++] = c->nmax, to[k++] = c->f0, to[k++] = (uint16_t)(c->f1 + 5000);
  to[k++] = c->f2, to[k++] = c->tm, to[k++] = c->margin, to[k++] = c->points;
  for (i = 0; i < c->points; i++) {
    to[k++] = c->n[i], to[k++] = c->p[i];
    if (version >= 2) to[k++] = c->m[i];
  }
  return k;
}

struct gearcard_written twin_write(uint16_t version, car_t vehicle, const uint16_t *v, size_t n, const uint8_t *h, size_t nh, uint8_t *room, size_t nr) {
  const car_t *c = &vehicle;
  struct gearcard_written r = {say(14, 0), 0};
  if (UNLIKELY(version - 1u > 2u)) return r;
  r.verdict = opening(c, n, nh, n);
  if (UNLIKELY(version < 3 && c->profile && (!r.verdict.number || r.verdict.number == 3))) r.verdict = say(3, 1); /* nor 1 and 2 for a profile */
  if (version == 1 && (!r.verdict.number || (r.verdict.number == 3 && r.verdict.place == 13))) { /* version 1 has no place for a margin */
    unsigned marked = 0;
    for (uint32_t k = 0; k < c->points; k++) marked |= c->m[k];
    if (UNLIKELY(marked)) r.verdict = say(3, 12);
  }
  if (UNLIKELY(r.verdict.number)) return r;
  unsigned held = any(h, 0, n), odd = speeds_odd(v, 0, n, 2000) | (v[0] >= 10) | (v[n - 1] >= 10);
  if (held)
    for (size_t j = 0; j < n; j++) odd |= h[j] && (not_driven(1u + c->profile, c->ng, h[j]) || v[j] < 10 || c->ratio[h[j] - 1] * v[j] > 1000 * c->nmax);
  if (UNLIKELY(odd)) {
    r.verdict = exact_written(c, v, n, h);
    if (UNLIKELY(r.verdict.number)) return r;
  }
  uint16_t values[224];
  uint32_t most = values_of(version, c, values), i;
  size_t need = size_of((uint32_t)n) + n, early = 0, late = 0;
  for (i = 0; i < most; i++) need += size_of(values[i]);
  uint16_t long_ones = 0; /* speeds of two bytes; a trace has at most 2,048 */
  for (size_t j = 0; j < n; j++) long_ones = (uint16_t)(long_ones + (v[j] >= 128));
  need += long_ones;
  if (held) {
    size_t edge = n < 128 ? n : 128;
    for (size_t j = 0; j < edge; j++) early += h[j] != 0;
    for (size_t j = edge; j < n; j++) late += h[j] != 0;
    need += 2 * early + 3 * late; /* a gear is one byte, a second from 128 on two */
  }
  need += size_of((uint32_t)(early + late));
  if (UNLIKELY(nr < need)) {
    r.verdict = say(17, need);
    return r;
  }
  uint8_t *s = room;
  for (i = 0; i < most; i++) s = put(s, values[i]);
  s = put(s, (uint32_t)n);
  for (size_t j = 0; j < n; j++) { /* the second byte, where there is none, is put over: the hold count follows */
    uint32_t x = v[j], two = x >= 128;
    s[0] = (uint8_t)(x | two << 7);
    s[1] = (uint8_t)(x >> 7);
    s += 1 + two;
  }
  s = put(s, (uint32_t)(early + late));
  if (held)
    for (size_t j = 0; j < n; j++)
      if (h[j]) s = put(s, (uint32_t)j), *s++ = h[j];
  r.length = need;
  return r;
}

uint16_t twin_table[GEARCARD_CYCLE];

verdict_t twin_cycle(uint32_t part, uint16_t *room, size_t nr) {
  if (part > 4) return say(18, 0);
  if (nr < GEARCARD_CYCLE) return say(2, 0);
  memcpy(room, twin_table, sizeof twin_table);
  return say(0, 0);
}

/* From the first second of the rise, and of the fall, to the end of that: both as one fraction a second, halves up. */
enum { RISE = 1533, FALL = 1725, LEVEL = 1763 };
verdict_t twin_downscale(uint32_t factor, uint16_t *room, size_t nr) {
  if (factor > 500) return say(23, 0);
  if (nr != GEARCARD_CYCLE) return say(2, 0);
  memcpy(room, twin_table, sizeof twin_table);
  uint32_t foot = twin_table[RISE], top = twin_table[FALL - 1], level = twin_table[LEVEL], keep = 1000 - factor, add = factor * foot + 500;
  for (int i = RISE; i < FALL; i++) room[i] = (uint16_t)((keep * room[i] + add) / 1000);
  uint32_t whole = 1000 * (top - level), less = factor * (top - foot), more = less * level + whole / 2, rest = whole - less;
  for (int i = FALL; i < LEVEL; i++) room[i] = (uint16_t)((rest * room[i] + more) / whole);
  return say(0, 0);
}

/* The float at s, so many times over, to the nearest whole number, halves away from zero; 0, or why not. Its bytes are in the machine's order. */
INLINE uint32_t rounded(const uint8_t *s, uint32_t scale, int32_t lo, int32_t hi, int32_t *out) {
  uint32_t bits;
  memcpy(&bits, s, sizeof bits);
  uint32_t field = bits >> 23 & 255;
  if (UNLIKELY(field >= 150)) return field == 255 ? 20 : 21; /* from 2^23 on past every bound */
  int64_t size = 0;
  if (field > 108) { /* below, even 100,000 times over it is under a half */
    uint32_t places = 150 - field;
    size = (int64_t)(((uint64_t)(1u << 23 | (bits & 0x7fffff)) * scale + (1ull << (places - 1))) >> places);
  }
  int64_t x = bits >> 31 ? -size : size;
  if (UNLIKELY(x < lo || x > hi)) return 21;
  *out = (int32_t)x;
  return 0;
}

struct gearcard_coefficients twin_export(const uint8_t *s, size_t end) {
  int32_t f0 = 0, f1 = 0, f2 = 0, tm = 0;
  uint32_t seen = 0, no;
  size_t at = 0;
#define REFUSED(number, place) return (struct gearcard_coefficients){say(number, place), 0, 0, 0, 0}
#define NUMBER(offset, scale, lo, hi, out)                      \
  if (UNLIKELY(end - at < (offset) + 4)) REFUSED(12, end);      \
  if (UNLIKELY(no = rounded(s + at + (offset), scale, lo, hi, &out))) REFUSED(no, at)
  for (;;) {
    if (UNLIKELY(at >= end)) REFUSED(12, end);
    uint32_t kind = s[at];
    if (kind == 0) break;
    if (UNLIKELY(kind > 2 || seen & kind)) REFUSED(19, at);
    seen |= kind;
    if (kind == 1) {
      NUMBER(1, 10, 0, 10000, f0);
      NUMBER(5, 1000, -5000, 5000, f1);
      NUMBER(9, 100000, 0, 20000, f2);
      at += 13;
    } else {
      NUMBER(1, 1, 400, 4000, tm);
      at += 5;
    }
  }
  if (UNLIKELY(seen != 3)) REFUSED(22, at);
  if (UNLIKELY(at + 1 != end)) REFUSED(16, at + 1);
  return (struct gearcard_coefficients){say(0, 0), (uint16_t)f0, f1, (uint16_t)f2, (uint16_t)tm};
}
#endif
