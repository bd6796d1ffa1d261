/* What the office does with the bench computer's export: reads it, puts the coefficients into a job's vehicle, works the job with both, and shows the
   seconds that changed.
   usage: export EXPORT JOB */
#include "gearcard.h"

#include <stdio.h>
#include <string.h>

/* Says a refusal, and whether there is one. */
static int refused(const char *what, struct gearcard_verdict verdict) {
  if (verdict.number == 0) return 0;
  printf("%s refused %u at %zu\n", what, (unsigned)verdict.number, verdict.place);
  return 1;
}

/* The bytes of a file, as many as there is room for; -1 where it cannot be read. */
static long bytes_of(const char *name, uint8_t *room, size_t size) {
  FILE *file = fopen(name, "rb");
  if (file == NULL) {
    perror(name);
    return -1;
  }
  size_t length = fread(room, 1, size, file);
  fclose(file);
  return (long)length;
}

int main(int argc, char **argv) {
  static uint8_t export[64], job[20000];
  static uint16_t speeds[GEARCARD_LONGEST];
  static uint8_t holds[GEARCARD_LONGEST], card[GEARCARD_LONGEST], before[GEARCARD_LONGEST];
  if (argc != 3) {
    fprintf(stderr, "usage: export EXPORT JOB\n");
    return 2;
  }
  long export_length = bytes_of(argv[1], export, sizeof export), job_length = bytes_of(argv[2], job, sizeof job);
  if (export_length < 0 || job_length < 0) return 2;

  struct gearcard_coefficients bench = gearcard_export(export, (size_t)export_length);
  if (refused("export", bench.verdict)) return 1;
  printf("F0 %d, F1 %d, F2 %d, TM %d\n", bench.f0, (int)bench.f1, bench.f2, bench.tm);

  struct gearcard_job read = gearcard_read(job, (size_t)job_length, speeds, GEARCARD_LONGEST, holds, GEARCARD_LONGEST);
  if (refused("job", read.verdict)) return 1;
  size_t n = read.count;
  if (refused("trace", gearcard_work(read.vehicle, speeds, n, holds, n, before, n))) return 1;

  struct gearcard_vehicle vehicle = read.vehicle;
  vehicle.f0 = bench.f0;
  vehicle.f1 = bench.f1;
  vehicle.f2 = bench.f2;
  vehicle.tm = bench.tm;
  if (refused("trace", gearcard_work(vehicle, speeds, n, holds, n, card, n))) return 1;
  size_t changed = 0;
  for (size_t i = 0; i < n; i++) {
    if (card[i] == before[i]) continue;
    changed++;
    if (changed <= 3) printf("second %zu: gear %d, was %d\n", i, card[i] % 16, before[i] % 16);
  }
  printf("%zu of %zu seconds changed\n", changed, n);
  return 0;
}
