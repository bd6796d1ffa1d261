/* The card of the built-in Class 3 cycle, or of one of its parts, for a vehicle: no trace has to be typed or read.
   usage: cycle PART      0 the whole cycle, 1 to 4 Low, Medium, High and Extra High */
#include "gearcard.h"

#include <stdio.h>
#include <stdlib.h>

/* The vehicle of class-3.job. */
static const struct gearcard_vehicle car = {
    .ng = 6,
    .ratio = {13300, 7150, 4760, 3510, 2780, 2300},
    .idle = 750,
    .rated = 5500,
    .nmax = 6200,
    .f0 = 1000,
    .f1 = 500,
    .f2 = 3300,
    .tm = 1400,
    .margin = 10,
    .points = 7,
    .n = {750, 1500, 2500, 3500, 4500, 5500, 6200},
    .p = {80, 260, 480, 700, 880, 950, 900},
};

/* Says a refusal, and whether there is one. */
static int refused(struct gearcard_verdict verdict) {
  if (verdict.number != 0) printf("refused %u at %zu\n", (unsigned)verdict.number, verdict.place);
  return verdict.number != 0;
}

int main(int argc, char **argv) {
  static uint16_t room[GEARCARD_CYCLE];
  static uint8_t holds[GEARCARD_CYCLE], card[GEARCARD_CYCLE];
  if (argc != 2) {
    fprintf(stderr, "usage: cycle PART\n");
    return 2;
  }
  uint32_t number = (uint32_t)strtoul(argv[1], NULL, 10);
  if (refused(gearcard_cycle(number, room, GEARCARD_CYCLE))) return 1;
  struct gearcard_part part = gearcard_cycle_part(number, GEARCARD_CYCLE);
  const uint16_t *speeds = room + part.first;
  if (refused(gearcard_work(car, speeds, part.count, holds, part.count, card, part.count))) return 1;
  printf("second speed gear clutch\n");
  for (size_t i = 0; i < part.count; i++)
    printf("%zu %d.%d %d %s\n", part.first + i, speeds[i] / 10, speeds[i] % 10, card[i] % 16, card[i] >= 16 ? "down" : "up");
  return 0;
}
