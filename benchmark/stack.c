/* How deep the stack of each C function goes: the benchmark linked with --wrap, so that the calls its checks make of the library come here. Each function gets
   two stacks of its own, painted beforehand: one for the calls, one for a function of the same form that does nothing. At the end the bytes that were
   written of each are told apart: what a function takes is the difference, all below its arguments and its return address. */
#include "gearcard.h"
#include <stdio.h>
#include <stdlib.h>
#include <string.h>
#include <ucontext.h>

typedef struct gearcard_vehicle car_t;
typedef struct gearcard_verdict verdict_t;
typedef struct gearcard_summary summary_t;
typedef struct gearcard_counted counted_t;
enum { FUNCTIONS = 12, STACK = 1 << 16, PAINT = 0xa5 };
static struct { /* of each function; the first stack is the calls' */
  const char *name;
  long calls;
  _Alignas(16) uint8_t stacks[2][STACK];
} functions[FUNCTIONS];
static ucontext_t home, there;

static void run_on(uint8_t *stack, void (*call)(void)) {
  getcontext(&there);
  there.uc_stack.ss_sp = stack, there.uc_stack.ss_size = STACK, there.uc_link = &home;
  makecontext(&there, call, 0);
  swapcontext(&home, &there);
}
static size_t written(const uint8_t *stack) {
  size_t lowest = 0;
  while (lowest < STACK && stack[lowest] == PAINT) lowest++;
  return STACK - lowest;
}
static void tell(void) {
  printf("\nfunction             bytes of stack   calls\n");
  for (int i = 0; i < FUNCTIONS; i++) {
    size_t deep = written(functions[i].stacks[0]), none = written(functions[i].stacks[1]);
    if (deep > STACK / 2) fprintf(stderr, "bench: the stack of %s is too small to measure it\n", functions[i].name), _Exit(2);
    printf("%-20s %14zu %7ld\n", functions[i].name, deep - none, functions[i].calls);
  }
}
static void begin(int i, const char *name) {
  static int begun;
  if (!begun++) atexit(tell);
  if (functions[i].calls++) return;
  functions[i].name = name;
  memset(functions[i].stacks, PAINT, sizeof functions[i].stacks);
}

/* A function's arguments wait here, for what is called on another stack takes none. */
static struct {
  car_t car;
  uint16_t *v;
  uint8_t *h, *card, *bytes;
  size_t n, nh, nc, second, length;
  uint32_t number;
  summary_t summary;
} given;
static void keep(const car_t *car, const uint16_t *v, size_t n, const uint8_t *h, size_t nh, uint8_t *card, size_t nc) {
  given.car = *car, given.v = (uint16_t *)v, given.n = n, given.h = (uint8_t *)h, given.nh = nh, given.card = card, given.nc = nc;
}
#define TRACE given.car, given.v, given.n, given.h, given.nh, given.card, given.nc

/* PARAMETERS of the function NAME, the I-th, are kept by KEPT and given on as ARGUMENTS. */
#define MEASURED(I, RESULT, NAME, PARAMETERS, KEPT, ARGUMENTS)             \
  RESULT __real_gearcard_##NAME PARAMETERS;                                \
  static RESULT none_##NAME PARAMETERS { return (RESULT){0}; }             \
  static RESULT (*volatile called_##NAME) PARAMETERS;                      \
  static RESULT answer_##NAME;                                             \
  static void call_##NAME(void) { answer_##NAME = called_##NAME ARGUMENTS; } \
  RESULT __wrap_gearcard_##NAME PARAMETERS {                               \
    KEPT;                                                                  \
    begin(I, "gearcard_" #NAME);                                           \
    called_##NAME = none_##NAME;                                           \
    run_on(functions[I].stacks[1], call_##NAME);                           \
    called_##NAME = __real_gearcard_##NAME;                                \
    run_on(functions[I].stacks[0], call_##NAME);                           \
    return answer_##NAME;                                                  \
  }

MEASURED(0, struct gearcard_job, read, (const uint8_t *job, size_t length, uint16_t *v, size_t n, uint8_t *h, size_t nh),
         (given.bytes = (uint8_t *)job, given.length = length, given.v = v, given.n = n, given.h = h, given.nh = nh),
         (given.bytes, given.length, given.v, given.n, given.h, given.nh))
MEASURED(1, struct gearcard_written, write,
         (uint16_t version, car_t car, const uint16_t *v, size_t n, const uint8_t *h, size_t nh, uint8_t *room, size_t length),
         (keep(&car, v, n, h, nh, NULL, 0), given.number = version, given.bytes = room, given.length = length),
         ((uint16_t)given.number, given.car, given.v, given.n, given.h, given.nh, given.bytes, given.length))
MEASURED(2, verdict_t, work, (car_t car, const uint16_t *v, size_t n, const uint8_t *h, size_t nh, uint8_t *card, size_t nc),
         keep(&car, v, n, h, nh, card, nc), (TRACE))
MEASURED(3, counted_t, summary_of, (const uint16_t *v, size_t n, const uint8_t *card, size_t nc),
         (given.v = (uint16_t *)v, given.n = n, given.card = (uint8_t *)card, given.nc = nc), (given.v, given.n, given.card, given.nc))
MEASURED(4, counted_t, hold,
         (car_t car, const uint16_t *v, size_t n, uint8_t *h, size_t nh, uint8_t *card, size_t nc, size_t second, uint8_t gear, summary_t summary),
         (keep(&car, v, n, h, nh, card, nc), given.second = second, given.number = gear, given.summary = summary),
         (TRACE, given.second, (uint8_t)given.number, given.summary))
MEASURED(5, counted_t, release,
         (car_t car, const uint16_t *v, size_t n, uint8_t *h, size_t nh, uint8_t *card, size_t nc, size_t second, summary_t summary),
         (keep(&car, v, n, h, nh, card, nc), given.second = second, given.summary = summary), (TRACE, given.second, given.summary))
MEASURED(6, counted_t, mend,
         (car_t car, uint16_t *v, size_t n, const uint8_t *h, size_t nh, uint8_t *card, size_t nc, size_t second, uint16_t speed, summary_t summary),
         (keep(&car, v, n, h, nh, card, nc), given.second = second, given.number = speed, given.summary = summary),
         (TRACE, given.second, (uint16_t)given.number, given.summary))
MEASURED(7, verdict_t, cycle, (uint32_t part, uint16_t *room, size_t length), (given.number = part, given.v = room, given.n = length),
         (given.number, given.v, given.n))
MEASURED(8, struct gearcard_part, cycle_part, (uint32_t part, size_t length), (given.number = part, given.n = length), (given.number, given.n))
MEASURED(9, verdict_t, downscale, (uint32_t factor, uint16_t *room, size_t length), (given.number = factor, given.v = room, given.n = length),
         (given.number, given.v, given.n))
MEASURED(10, struct gearcard_coefficients, export, (const uint8_t *bytes, size_t length),
         (given.bytes = (uint8_t *)bytes, given.length = length), (given.bytes, given.length))
MEASURED(11, struct gearcard_why, why, (car_t car, const uint16_t *v, size_t n, const uint8_t *h, size_t nh, size_t second),
         (keep(&car, v, n, h, nh, NULL, 0), given.second = second), (given.car, given.v, given.n, given.h, given.nh, given.second))
