/* The gear card: the C functions of the driver's aid engine.

   A vehicle, a trace of speeds and its holds give a card: one byte a second, the gear, plus 16 where the clutch is down. Speeds are in tenths of
   km/h. A hold of 0 is no hold. docs/01-scope.md has the rules, the units and the bounds; README.md has the refusals for people.

   Every function takes what it is given and answers: none asks anything of its caller but that each pointer is aligned for its type and not null, with
   a length of 0 too, that it points to as many initialised elements as its length says (with a length of 0 to none: any such pointer will do), that
   nothing else writes them during the call, and that elements behind a pointer without const overlap nothing else. The memory stays the caller's:
   nothing is kept after a call. A refusal changes no byte of it. */
#ifndef GEARCARD_H
#define GEARCARD_H

#include <stdbool.h>
#include <stddef.h>
#include <stdint.h>

#ifdef __cplusplus
extern "C" {
#endif

/* On Windows a datum of a DLL has to be declared as such; functions need nothing. */
#ifdef _WIN32
#define GEARCARD_DATA extern __declspec(dllimport)
#else
#define GEARCARD_DATA extern
#endif

/* The version of the library that is linked or loaded: "1.1.0" or another. */
GEARCARD_DATA const char gearcard_version[];

/* The longest trace, in seconds. */
#define GEARCARD_LONGEST 16384

/* The seconds of the built-in Class 3 cycle, 0 to 1800. */
#define GEARCARD_CYCLE 1801

/* Document 01's vehicle record and the profile, with the numbers of the fields, which refusal 3 gives; field 13 is that the first n is at most idle and the last at least
   nmax. Places of ratio past ng, and of n, p and m past points, are no part of it: they may hold any number. In profile 1 gears 2, 3 and 4 take the parts of
   first, second and third gear in every rule; the crawler keeps its number and its ratio, and is in no card. */
struct gearcard_vehicle {
  uint16_t ng;        /* 1: gear count, 2 to 10; 3 to 10 in profile 1 */
  uint16_t ratio[10]; /* 2: engine speed over road speed, hundredths of min^-1 per km/h, 1 to 50,000, falling */
  uint16_t idle;      /* 3: min^-1, 300 to 3,000 */
  uint16_t rated;     /* 4: min^-1, above idle, at most 12,000 */
  uint16_t nmax;      /* 5: min^-1, from rated to 15,000 */
  uint16_t f0;        /* 6: tenths of N, 0 to 10,000 */
  int32_t f1;         /* 7: thousandths of N/(km/h), -5,000 to 5,000 */
  uint16_t f2;        /* 8: hundred-thousandths of N/(km/h)^2, 0 to 20,000 */
  uint16_t tm;        /* 9: test mass, kg, 400 to 4,000 */
  uint16_t margin;    /* 10: safety margin, per cent, 0 to 50 */
  uint16_t points;    /* 11: number of power curve points, 2 to 64 */
  uint16_t n[64];     /* 12: engine speed, min^-1, 1 to 16,000, rising by 1 to 1,000 */
  uint16_t p[64];     /* 12: full-load power, tenths of kW, 0 to 5,000 */
  uint16_t m[64];     /* 12: the point's own safety margin, per cent, 0 to 50, and at most 90 with margin */
  uint16_t profile;   /* 1: 1 where first gear is a crawler that is not driven, as in some vans, else 0 */
};

/* The answer: number 0 and place 0 where it is accepted, else the refusal and its place. Seconds and bytes count from 0. Where several apply,
   gearcard_work, gearcard_summary_of, gearcard_hold, gearcard_release, gearcard_mend, gearcard_why and gearcard_write give the first in this order, at its
   lowest second; gearcard_read the first fault of the job from left to right.

    1  trace empty or over 16,384 seconds                             place 0
    2  holds or card not as long as the trace;                        place 0
       in gearcard_read, a room smaller than the count;
       in gearcard_cycle, a room under 1,801;
       in gearcard_downscale, a room not 1,801
    3  a vehicle field out of bounds, the first such;                 field, 1 to 13
       in gearcard_read only profile, ng and points, as it meets
       them;
       in gearcard_write also profile 1 in version 1 or 2,            1
       and a margin m above 0 in version 1                            12
   11  second outside the trace (gearcard_hold, gearcard_release,     second asked
       gearcard_mend, gearcard_why)
    4  speed over 2,000                                               second
    5  step from the second before over 150                           second
    6  first, then last, sample is moving                             second
    7  hold above ng, or of gear 1 in profile 1;                      second
       in gearcard_hold, gear 0
    8  hold at a standing second                                      second
    9  held gear turns the engine past nmax                           second
   10  no gear fits, no hold; in gearcard_hold and gearcard_release   second
       it may be a later second of the trip
   12  job ends early                                                 its length
   13  group not shortest, or over 65,535, or longer than 3 bytes     group's first byte
   14  version not 1, 2 or 3 (gearcard_write: before all others)      place 0
   15  hold second not rising or past the trace,                      first byte of the second
       or its gear 0 or over 255
   16  bytes after the end                                            first of them
   17  room too short for the job (gearcard_write)                    the length needed
   18  part number not 0 to 4 (gearcard_cycle; before 2)              place 0
   19  kind unknown or met twice (gearcard_export)                    byte where the record begins
   20  not a finite number (gearcard_export)                          byte where the record begins
   21  rounded value outside its field's bounds (gearcard_export)     byte where the record begins
   22  ended with a kind missing (gearcard_export)                    byte where the record begins
   23  factor over 500 (gearcard_downscale; before 2)                 place 0

   gearcard_export gives the first fault of the export from left to right, 12 and 16 among them. */
struct gearcard_verdict {
  uint32_t number;
  size_t place;
};

/* What gearcard_read answers; where it refuses, the version is 0, the vehicle all zeros and the count 0. Version 2 has a margin m behind each p; in version 1
   every m is 0. Version 3 is version 2 with the profile behind the version; in versions 1 and 2 it is 0. */
struct gearcard_job {
  struct gearcard_verdict verdict;
  uint16_t version; /* 1, 2 or 3 */
  struct gearcard_vehicle vehicle;
  size_t count; /* seconds of the trace */
};

/* Reads a job: fills the first count places of speeds and of holds, hold 0 where the job names none. Room beyond is untouched. It
   judges the profile, the counts and the holds' seconds, and that a held gear is 1 to 255: other bounds are left to gearcard_work. */
struct gearcard_job gearcard_read(const uint8_t *job, size_t job_length, uint16_t *speeds, size_t speeds_length, uint8_t *holds, size_t holds_length);

/* What gearcard_write answers; where it refuses, the length is 0. */
struct gearcard_written {
  struct gearcard_verdict verdict;
  size_t length; /* bytes of the job */
};

/* Writes the job of a version, a vehicle, a trace and its holds into the start of the room; room beyond is untouched, and room of exactly the length is enough. It
   refuses by 14, by 1 to 9 as gearcard_work does, with no card to look at, and then by 17; never by 10. What it writes reads back as the same job, places of the
   vehicle that are no part of it as 0, and a job that was read and passes 1 to 9 is written in its own version as the same bytes. */
struct gearcard_written gearcard_write(uint16_t version, struct gearcard_vehicle vehicle, const uint16_t *speeds, size_t speeds_length, const uint8_t *holds,
                                       size_t holds_length, uint8_t *room, size_t room_length);

/* Works the whole trace: fills the card, which is as long as the speeds and the holds. */
struct gearcard_verdict gearcard_work(struct gearcard_vehicle vehicle, const uint16_t *speeds, size_t speeds_length, const uint8_t *holds,
                                      size_t holds_length, uint8_t *card, size_t card_length);

/* How long in each gear: what a screen keeps beside a card. A second's gear is its byte modulo 16, so the clutch does not count. On a card that is not right a moving
   second whose gear is none of 1 to 10 is in no gear, and makes changes like any other. On a right card the seconds add up to the length of the trace. */
struct gearcard_summary {
  uint16_t standing;  /* standing seconds */
  uint16_t gears[10]; /* moving seconds in gear 1, 2, .. 10 */
  uint16_t changes;   /* gear changes: neighbouring moving seconds with different gears */
};

/* A verdict with a summary. */
struct gearcard_counted {
  struct gearcard_verdict verdict;
  struct gearcard_summary summary;
};

/* Counts a whole card, once; after that the edits keep the summary up to date, and asking for a count is reading the struct. It refuses by 1 and 2 alone, and then
   all counts are 0. Any bytes are counted, those of a card that is not right too. */
struct gearcard_counted gearcard_summary_of(const uint16_t *speeds, size_t speeds_length, const uint8_t *card, size_t card_length);

/* The three edits take the summary of the speeds and the card as they are, and answer it anew, from the changed span alone: each count becomes the old one, less what
   the span counted before, plus what it counts after. Where the summary was the one that gearcard_summary_of would give, so is the new one. A count
   that would leave 0 to 65,535, as only a wrong summary can cause, stops at that end. Where the edit is refused the summary is the one that was given. */

/* Holding and releasing are two buttons. Each writes the second's hold, and re-works the card for that second's trip and the standing second before it.
   Of the trace it checks these and the standing second after, and no others. Where the card was the right one for the holds, it is then the one that
   gearcard_work would give for the new holds. */

/* Holds one second in a gear from 1, in profile 1 from 2. Gear 0 is refused by 7, in the order above; at a standing second every gear is refused. */
struct gearcard_counted gearcard_hold(struct gearcard_vehicle vehicle, const uint16_t *speeds, size_t speeds_length, uint8_t *holds, size_t holds_length,
                                      uint8_t *card, size_t card_length, size_t second, uint8_t gear, struct gearcard_summary summary);

/* Releases one second: its hold becomes 0. A free second is worked like any other, so where the card was right no byte changes. At a standing second
   only the hold is written. */
struct gearcard_counted gearcard_release(struct gearcard_vehicle vehicle, const uint16_t *speeds, size_t speeds_length, uint8_t *holds,
                                         size_t holds_length, uint8_t *card, size_t card_length, size_t second, struct gearcard_summary summary);

/* Corrects one speed sample. The speed is written, and the card re-worked for the trips that hold this second or a neighbour in the new trace, the
   standing second before each, this second and the one before it; no other byte changes, and no hold. Trips may split or join. Of the new trace it
   checks those trips with a standing second on either side, this second and its neighbours, and no others. A held second that would stand is refused
   by 8. Where the card was the right one for the speeds and the holds, it is then the one that gearcard_work would give for the new speeds. */
struct gearcard_counted gearcard_mend(struct gearcard_vehicle vehicle, uint16_t *speeds, size_t speeds_length, const uint8_t *holds, size_t holds_length,
                                      uint8_t *card, size_t card_length, size_t second, uint16_t speed, struct gearcard_summary summary);

/* Why this gear: what is said of one gear of the car at a moving second. */
struct gearcard_gear {
  int64_t q;         /* available power is q / (100,000 w) tenths of kW; q and w are 0 where the gear turns past nmax, where no power is read */
  int64_t w;
  uint32_t engine;   /* engine speed X, thousandths of min^-1 */
  uint32_t minimum;  /* the gear's minimum speed there, min^-1 */
  uint8_t rule;      /* of that minimum: 1 the lowest gear, idle; of the next gear 2 nine tenths of idle, 3 in the closing run, at a trip's first second too,
                        idle itself, 4 after a second whose first choice is the lowest gear 1.15 times idle; 5 the gears above, idle plus an eighth of
                        rated less idle */
  bool allowed;      /* at the first second of a trip only the lowest gear may fit */
  bool over_minimum; /* X is at least 1000 x minimum */
  bool under_nmax;   /* X is at most 1000 x nmax */
  bool fits;         /* all three; the lowest gear also fits below its minimum */
  bool enough;       /* enough power, 3,240,000 q >= required w; said up to nmax of gears that do not fit too */
};

/* How the byte of a second came about. The lowest gear is gear 1, in profile 1 gear 2. */
struct gearcard_reasons {
  size_t about;                   /* the moving second of which the rest is said: the second asked, or before a trip the trip's first second */
  size_t first;                   /* its trip's first second */
  size_t last;                    /* and last */
  int64_t required;               /* required power E; E / (3.24 x 10^12) kW, negative while braking */
  struct gearcard_gear gears[10]; /* gear 1, 2, .. 10; zeros for gears that are not driven: the crawler and those above ng */
  uint8_t kind;                   /* 0 standing; 1 standing, the second before a trip; 2 moving */
  uint8_t role;                   /* 1 the trip's first second; 2 in the closing run; 3 after a first choice of the lowest gear; 4 any other */
  uint8_t held;                   /* the held gear, 0 for none */
  uint8_t choice;                 /* the first choice; 0 where no gear fits */
  uint8_t sentence;               /* which sentence gave it: 1 the held gear; 2 the highest gear that fits and has enough power; 3 if none has enough, the
                                     fitting gear with most power; 4 at the first second of a trip only the lowest gear; 5 none fits */
  uint8_t after_a;                /* the gear after correction A, one-second peak */
  uint8_t after_b;                /* after B, rising speed */
  uint8_t after_c;                /* after C, closing run: the card's gear */
  uint8_t floor;                  /* the lowest gear whose X is at most 1000 x nmax; ng + 1 where there is none */
  uint8_t ceiling;                /* B's ceiling where it looks: no hold, not the trip's first second, the speed before lower; otherwise 0 */
  bool clutch;                    /* clutch down at the second asked */
  uint8_t clutch_reason;          /* 1 down, the second before a trip; 2 down, D is 0 or less and X of the final gear below 1000 x idle; 3 up, D is above 0;
                                     4 up, X is not below */
  uint8_t byte;                   /* the card's byte at the second asked */
};

/* A verdict with the reasons. */
struct gearcard_why {
  struct gearcard_verdict verdict;
  struct gearcard_reasons reasons;
};

/* Why the byte of a second is what it is. Nothing is written. It refuses by 1, 2, 3 and 11, then by 4 to 10 on the seconds that holding the second spoken of
   would check, and on no others: its trip with the standing second on either side, or a standing second that no trip follows alone. Refused by 1 to 9 the
   reasons are all 0, as they are at such a standing second. Refused by 10, at the lowest second of the trip without a gear, they are given but for the
   corrections: after_a, after_b, after_c, ceiling, clutch, clutch_reason and byte are 0. Where gearcard_work accepts, byte is its byte at that second. */
struct gearcard_why gearcard_why(struct gearcard_vehicle vehicle, const uint16_t *speeds, size_t speeds_length, const uint8_t *holds, size_t holds_length,
                                 size_t second);

/* Fills the first 1,801 places of the room with the Class 3 cycle for top speeds of 120 km/h and over, the whole of it whatever the part. Room beyond is
   untouched. Part 0 is the whole cycle, 1 to 4 are Low, Medium, High and Extra High. */
struct gearcard_verdict gearcard_cycle(uint32_t part, uint16_t *room, size_t room_length);

/* Seconds of a room that follow each other. */
struct gearcard_part {
  size_t first;
  size_t count;
};

/* Where a part stands in a filled room of that length, with the standing second on either side: 0 to 1800, 0 to 589, 589 to 1022, 1022 to 1477 and 1477 to
   1800, ends included. The part is the count speeds from room + first on. The count is 0 where gearcard_cycle would refuse. */
struct gearcard_part gearcard_cycle_part(uint32_t part, size_t room_length);

/* Fills the room, which is 1,801 long, with the same cycle scaled down for a weak car (Annex 1, "Downscaling procedure for Class 3 vehicles"): the rise
   of the extra high part from second 1533, the fall brought back to the cycle at 1763. The factor is in thousandths, 0 to 500; 0 gives the cycle. Speeds
   are worked out exactly and rounded once, to the nearest tenth of km/h, halves up. The parts stand where gearcard_cycle_part says. */
struct gearcard_verdict gearcard_downscale(uint32_t factor, uint16_t *room, size_t room_length);

/* What gearcard_export answers, in the units of struct gearcard_vehicle; where it refuses, all are 0. */
struct gearcard_coefficients {
  struct gearcard_verdict verdict;
  uint16_t f0;
  int32_t f1;
  uint16_t f2;
  uint16_t tm;
};

/* Reads the bench computer's export: records of a kind byte and single-precision floats, little-endian. Kind 1 carries f0, f1, f2 in N and km/h, kind 2
   the test mass in kg, each exactly once and in either order; kind 0 ends it. Each number is the nearest whole number of its units to the exact
   value of the float, halves away from zero, so -0.0 gives 0; accepted, it is within the bounds of its field. */
struct gearcard_coefficients gearcard_export(const uint8_t *bytes, size_t length);

/* Bytes of stack that a call takes below its arguments and its return address, on x86-64: the most that was measured over the benchmark's inputs and 6,000
   random cars and traces, of up to 16,384 seconds (./bench --stack).

     gearcard_read        2,576
     gearcard_write         880
     gearcard_work        1,600
     gearcard_summary_of     88
     gearcard_hold        1,568
     gearcard_release     1,552
     gearcard_mend        1,568
     gearcard_why        18,880
     gearcard_cycle           0
     gearcard_cycle_part      0
     gearcard_downscale       0
     gearcard_export        200 */

#ifdef __cplusplus
}
#endif

#endif
