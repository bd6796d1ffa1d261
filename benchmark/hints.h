/* The second twin's way to a first choice: what a C programmer would take over from the library, by hand. twin.c with HINTS takes it.
   - the highest gear in reach is handed on with ends on either side, so that no other end is looked for;
   - each gear keeps the curve segment where its power was last looked up, for a speed moves little in a second;
   - where no gear above the lowest can fit, that one is chosen at once;
   - the vehicle's plan, worked out once a call, has of each segment its ends in thousandths and Q as a line. */
typedef struct {
  uint32_t from, to; /* 1000 n of its points */
  uint64_t base, slope; /* Q is base + slope x: its 64 bits are right where the sum's are */
  int64_t w;
} segment_t;

typedef struct {
  uint32_t from[12]; /* the lowest V of each gear above the lowest two; 0 of the one below, and past every V of the one above */
  const segment_t *near[12]; /* by gear */
  segment_t segments[63];
} hints_t;

INLINE void prepare_hints(hints_t *k, const car_t *c, const int32_t *power, const uint32_t *lo, uint32_t low) {
  uint32_t ng = c->ng;
  k->from[low + 1] = 0;
  for (uint32_t g = low + 2; g <= ng; g++) k->from[g] = lo[g];
  k->from[ng + 1] = UINT32_MAX;
  for (uint32_t g = low; g <= ng; g++) k->near[g] = k->segments;
  for (uint32_t i = 0; i + 1 < c->points; i++) {
    segment_t *s = &k->segments[i];
    int64_t n = c->n[i], p = power[i], w = c->n[i + 1] - n, rise = power[i + 1] - p;
    s->from = 1000u * c->n[i];
    s->to = 1000u * c->n[i + 1];
    s->base = (uint64_t)(1000 * (p * w - rise * n));
    s->slope = (uint64_t)rise;
    s->w = w;
  }
}

INLINE uint32_t reach_from(const hints_t *k, uint32_t x, uint32_t t) {
  while (x >= k->from[t + 1]) t++;
  while (x < k->from[t]) t--;
  return t;
}

/* Q and w of gear g at x, which lies on the curve. */
INLINE power_t power_near(hints_t *k, uint32_t g, uint32_t x) {
  const segment_t *s = k->near[g];
  if (UNLIKELY(x > s->to || x < s->from)) {
    while (x > s->to) s++;
    while (x < s->from) s--;
    k->near[g] = s;
  }
  return (power_t){(int64_t)(s->base + s->slope * x), s->w};
}
