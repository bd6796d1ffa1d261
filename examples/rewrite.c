/* What the screen does where an engineer keeps his holds: reads a job, holds one second, and writes the job anew.
   usage: rewrite JOB SECOND GEAR NEW     holds it, and writes the job into the file NEW
          rewrite JOB NEW                 writes the job as it was read
   Exit status: 0 where the job was written, 1 where something was refused, 2 where the words are not these or a file cannot be opened or written. */
#include "gearcard.h"

#include <stdio.h>

/* The number that a word of digits writes, where it is at most most (9 or more); answers whether it is. */
static int number(const char *word, size_t most, size_t *value) {
  *value = 0;
  if (*word == '\0') return 0;
  for (; *word != '\0'; word++) {
    if (*word < '0' || *word > '9') return 0;
    size_t digit = (size_t)(*word - '0');
    if (*value > (most - digit) / 10) return 0;
    *value = *value * 10 + digit;
  }
  return 1;
}

/* Says a refusal, and whether there is one. */
static int refused(const char *what, struct gearcard_verdict verdict) {
  if (verdict.number == 0) return 0;
  printf("%s refused %u at %zu\n", what, (unsigned)verdict.number, verdict.place);
  return 1;
}

/* Whether so many bytes could be written into the file. */
static int kept(const char *name, const uint8_t *bytes, size_t length) {
  FILE *file = fopen(name, "wb");
  if (file == NULL) {
    perror(name);
    return 0;
  }
  size_t done = fwrite(bytes, 1, length, file);
  if (fclose(file) == 0 && done == length) return 1;
  perror(name);
  return 0;
}

int main(int argc, char **argv) {
  static uint8_t job[20000], anew[20000];
  static uint16_t speeds[GEARCARD_LONGEST];
  static uint8_t holds[GEARCARD_LONGEST], card[GEARCARD_LONGEST];
  size_t second = 0, gear = 0;
  int hold = argc == 5;
  if (argc != 3 && (!hold || !number(argv[2], SIZE_MAX, &second) || !number(argv[3], UINT8_MAX, &gear))) {
    fprintf(stderr, "usage: rewrite JOB SECOND GEAR NEW, or rewrite JOB NEW\n");
    return 2;
  }
  const char *name = argv[argc - 1];
  FILE *file = fopen(argv[1], "rb");
  if (file == NULL) {
    perror(argv[1]);
    return 2;
  }
  size_t length = fread(job, 1, sizeof job, file);
  fclose(file);

  struct gearcard_job read = gearcard_read(job, length, speeds, GEARCARD_LONGEST, holds, GEARCARD_LONGEST);
  if (refused("job", read.verdict)) return 1;
  size_t n = read.count;
  if (hold) {
    if (refused("trace", gearcard_work(read.vehicle, speeds, n, holds, n, card, n))) return 1;
    struct gearcard_summary none = {0}; /* no card is shown here, and no summary of it */
    if (refused("hold", gearcard_hold(read.vehicle, speeds, n, holds, n, card, n, second, (uint8_t)gear, none).verdict)) return 1;
  }

  /* A room that is too short is refused by 17 with the length needed, so it can be asked for. */
  struct gearcard_written asked = gearcard_write(read.version, read.vehicle, speeds, n, holds, n, anew, 0);
  if (asked.verdict.number != 17) return refused("write", asked.verdict);
  struct gearcard_written written = gearcard_write(read.version, read.vehicle, speeds, n, holds, n, anew, asked.verdict.place);
  if (refused("write", written.verdict)) return 1;
  if (!kept(name, anew, written.length)) return 2;
  printf("%zu bytes, were %zu\n", written.length, length);
  return 0;
}
