/* What a driver's aid screen does: reads a job, works it, holds one second, releases it or mends its speed, and shows the seconds that changed, with how long
   the drive is in each gear: counted once, and kept by each edit.
   usage: screen JOB SECOND GEAR        holds it
          screen JOB SECOND release     releases it
          screen JOB SECOND =SPEED      mends its speed, in tenths of km/h
   More seconds with their edits may follow, each shown by itself.
   Exit status: 0 where each edit was taken, 1 where something was refused, 2 where the words are not these or the file cannot be opened. */
#include "gearcard.h"

#include <stdio.h>
#include <string.h>

static void show(size_t second, uint8_t byte) { printf("second %zu: gear %d, clutch %s\n", second, byte % 16, byte >= 16 ? "down" : "up"); }

/* The number that a word of digits writes, where it is at most most (9 or more); answers whether it is. Nothing is cut to fit: a gear of 257 that
   became 1 would be held. */
static int number(const char *word, size_t most, size_t *value) {
  *value = 0;
  if (*word == '\0') return 0;
  for (; *word != '\0'; word++) {
    if (*word < '0' || *word > '9') return 0;
    size_t digit = (size_t)(*word - '0');
    if (*value > (most - digit) / 10) return 0;
    *value = *value * 10 + digit;
  }
  return 1;
}

/* Says a refusal, and whether there is one. */
static int refused(const char *what, struct gearcard_verdict verdict) {
  if (verdict.number == 0) return 0;
  printf("%s refused %u at %zu\n", what, (unsigned)verdict.number, verdict.place);
  return 1;
}

static uint16_t speeds[GEARCARD_LONGEST];
static uint8_t holds[GEARCARD_LONGEST], card[GEARCARD_LONGEST], before[GEARCARD_LONGEST];
static struct gearcard_summary summary; /* of the card as it is */

/* How long in each gear: nothing of the card is read. */
static void show_summary(void) {
  printf("standing %u s", (unsigned)summary.standing);
  for (int i = 0; i < 10; i++)
    if (summary.gears[i] != 0) printf(", gear %d %u s", i + 1, (unsigned)summary.gears[i]);
  printf(", changes %u\n", (unsigned)summary.changes);
}

/* One edit, and what it changed. */
static int edit(struct gearcard_vehicle vehicle, size_t count, const char *where, const char *what) {
  size_t second, value = 0;
  int release = strcmp(what, "release") == 0, mend = *what == '=';
  if (!number(where, SIZE_MAX, &second)) {
    fprintf(stderr, "screen: %s is no second\n", where);
    return 2;
  }
  if (mend && !number(what + 1, UINT16_MAX, &value)) {
    fprintf(stderr, "screen: %s is no speed from 0 to 65535\n", what + 1);
    return 2;
  }
  if (!mend && !release && !number(what, UINT8_MAX, &value)) {
    fprintf(stderr, "screen: %s is no gear from 0 to 255\n", what);
    return 2;
  }
  memcpy(before, card, count);
  struct gearcard_counted edited;
  if (mend)
    edited = gearcard_mend(vehicle, speeds, count, holds, count, card, count, second, (uint16_t)value, summary);
  else if (release)
    edited = gearcard_release(vehicle, speeds, count, holds, count, card, count, second, summary);
  else
    edited = gearcard_hold(vehicle, speeds, count, holds, count, card, count, second, (uint8_t)value, summary);
  summary = edited.summary;
  if (refused(mend ? "speed" : release ? "release" : "hold", edited.verdict)) return 1;
  for (size_t i = 0; i < count; i++)
    if (card[i] != before[i]) show(i, card[i]);
  show_summary();
  return 0;
}

int main(int argc, char **argv) {
  static uint8_t job[20000];
  if (argc < 4 || argc % 2 != 0) {
    fprintf(stderr, "usage: screen JOB SECOND GEAR, screen JOB SECOND release, or screen JOB SECOND =SPEED\n");
    return 2;
  }
  FILE *file = fopen(argv[1], "rb");
  if (file == NULL) {
    perror(argv[1]);
    return 2;
  }
  size_t length = fread(job, 1, sizeof job, file);
  fclose(file);

  struct gearcard_job read = gearcard_read(job, length, speeds, GEARCARD_LONGEST, holds, GEARCARD_LONGEST);
  if (refused("job", read.verdict)) return 1;
  if (refused("trace", gearcard_work(read.vehicle, speeds, read.count, holds, read.count, card, read.count))) return 1;
  struct gearcard_counted counted = gearcard_summary_of(speeds, read.count, card, read.count);
  if (refused("summary", counted.verdict)) return 1;
  summary = counted.summary;
  for (int word = 2; word < argc; word += 2) {
    int status = edit(read.vehicle, read.count, argv[word], argv[word + 1]);
    if (status != 0) return status;
    if (word + 2 < argc) printf("then\n");
  }
  return 0;
}
