/* The C twins: functions of gearcard.h, written by hand for speed. Same rules, same bytes. */
#ifndef TWIN_H
#define TWIN_H
#include "gearcard.h"

#define WORKING(work, hold, release, mend)                                                                                                               \
  struct gearcard_verdict work(struct gearcard_vehicle vehicle, const uint16_t *speeds, size_t speeds_length, const uint8_t *holds, size_t holds_length, \
                               uint8_t *card, size_t card_length);                                                                                       \
  struct gearcard_counted hold(struct gearcard_vehicle vehicle, const uint16_t *speeds, size_t speeds_length, uint8_t *holds, size_t holds_length,       \
                               uint8_t *card, size_t card_length, size_t second, uint8_t gear, struct gearcard_summary summary);                         \
  struct gearcard_counted release(struct gearcard_vehicle vehicle, const uint16_t *speeds, size_t speeds_length, uint8_t *holds, size_t holds_length,    \
                                  uint8_t *card, size_t card_length, size_t second, struct gearcard_summary summary);                                    \
  struct gearcard_counted mend(struct gearcard_vehicle vehicle, uint16_t *speeds, size_t speeds_length, const uint8_t *holds, size_t holds_length,       \
                               uint8_t *card, size_t card_length, size_t second, uint16_t speed, struct gearcard_summary summary);

/* The twin, the fixed mark; and the second one, which is twin.c with HINTS. Weak: a program can be linked without that one. */
WORKING(twin_work, twin_hold, twin_release, twin_mend)
#pragma weak hints_work
#pragma weak hints_hold
#pragma weak hints_release
#pragma weak hints_mend
WORKING(hints_work, hints_hold, hints_release, hints_mend)
#pragma weak hints_read
struct gearcard_job twin_read(const uint8_t *job, size_t job_length, uint16_t *speeds, size_t speeds_length, uint8_t *holds, size_t holds_length);
struct gearcard_job hints_read(const uint8_t *job, size_t job_length, uint16_t *speeds, size_t speeds_length, uint8_t *holds, size_t holds_length);

struct gearcard_counted twin_summary_of(const uint16_t *speeds, size_t speeds_length, const uint8_t *card, size_t card_length);
struct gearcard_written twin_write(uint16_t version, struct gearcard_vehicle vehicle, const uint16_t *speeds, size_t speeds_length, const uint8_t *holds,
                                   size_t holds_length, uint8_t *room, size_t room_length);

/* The built-in cycle, for the twins of what fills a room with it: the caller gives its speeds. */
extern uint16_t twin_table[GEARCARD_CYCLE];
struct gearcard_verdict twin_cycle(uint32_t part, uint16_t *room, size_t room_length);
struct gearcard_verdict twin_downscale(uint32_t factor, uint16_t *room, size_t room_length);
struct gearcard_coefficients twin_export(const uint8_t *bytes, size_t length);

/* The same edits without a summary, to see what it costs. */
struct gearcard_verdict bare_hold(struct gearcard_vehicle vehicle, const uint16_t *speeds, size_t speeds_length, uint8_t *holds, size_t holds_length,
                                  uint8_t *card, size_t card_length, size_t second, uint8_t gear);
struct gearcard_verdict bare_release(struct gearcard_vehicle vehicle, const uint16_t *speeds, size_t speeds_length, uint8_t *holds, size_t holds_length,
                                     uint8_t *card, size_t card_length, size_t second);
struct gearcard_verdict bare_mend(struct gearcard_vehicle vehicle, uint16_t *speeds, size_t speeds_length, const uint8_t *holds, size_t holds_length,
                                  uint8_t *card, size_t card_length, size_t second, uint16_t speed);
#endif
