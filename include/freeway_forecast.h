/*
 * The freeway queue forecast engine, for programs in C. Link with target/staticlib/libstudy.a for the forecast, with
 * target/staticlib/libconvert.a for the conversions, and with target/staticlib/libplanning.a for the planning sheet.
 * docs/manual.md tells the rules.
 *
 * What changed when part-feet came: a forecast fills 265 numbers, not 200. FREEWAY_PART_FEET and FREEWAY_PART_FEET_OF(i)
 * are new, FREEWAY_ORIGIN is 8, not 7, and the numbers of segment i begin at 9 + 4 * i, not at 8 + 3 * i. Programs have to be
 * compiled again: one that was not and lends room for 200 numbers gets 7, and one that lends room for 265 finds other numbers
 * at the old places.
 */

#ifndef FREEWAY_FORECAST_H
#define FREEWAY_FORECAST_H

#include <stddef.h>
#include <stdint.h>

#ifdef __cplusplus
extern "C" {
#endif

/* How many numbers a forecast fills. */
#define FREEWAY_FORECAST_NUMBERS 265

/* Where each number stands in `out`. */
enum {
    FREEWAY_REFUSAL = 0,    /* number of the refusal, 0 for none */
    FREEWAY_PLACE = 1,      /* the refusal's place in the study, in bytes from its start */
    FREEWAY_SEGMENTS = 2,   /* how many segments the road has, 1 to 64 */
    FREEWAY_ARRIVED = 3,    /* parts that arrived in all steps (a part is 1/240 vehicle) */
    FREEWAY_LEFT = 4,       /* parts that left */
    FREEWAY_STORED = 5,     /* parts in all segments and queues at the end */
    FREEWAY_PART_STEPS = 6, /* sum over the steps of what was stored after each */
    FREEWAY_PART_FEET = 7,  /* part-feet of the road, the sum of its segments' (a vehicle-mile is 240 * 5280 of them) */
    FREEWAY_ORIGIN = 8      /* parts in the mainline queue before the first segment */
};

/* Where segment i stands in `out`, counted from 0. */
#define FREEWAY_PARTS(i) (9 + 4 * (i))         /* parts in the segment */
#define FREEWAY_QUEUE(i) (10 + 4 * (i))        /* parts in its on-ramp's queue */
#define FREEWAY_LETTER(i) (11 + 4 * (i))       /* level letter, 'A' to 'F' */
#define FREEWAY_PART_FEET_OF(i) (12 + 4 * (i)) /* its part-feet: in all steps, the parts that left it times its length in feet */

/*
 * Reads a study (a road sheet, then period sheets to the end), runs every period whole, and fills the first 265 numbers
 * of `out`; those of segments past the last are 0. After a refusal all but the first two are 0. Numbers past the 265th keep
 * their contents. A period sheet has three numbers for each segment: ramp demand, meter rate, open lanes. What an
 * off-ramp's share has beside its whole parts is carried from step to step, over periods too.
 *
 * Gives the refusal's number, 0 for none. Where `out_len` is below 265 it gives 7 and leaves `out` as it was.
 *
 * `study` and `out` must not overlap. Nothing is allocated, and nothing is kept between calls.
 */
uint64_t freeway_forecast(const uint8_t *study, size_t study_len, uint64_t *out, size_t out_len);

/* How many bytes the longest study takes in each layout: 64 segments, 96 periods. */
#define FREEWAY_LONGEST_FIRST 26149
#define FREEWAY_LONGEST_SECOND 32293

/*
 * Converts a study from the first layout, whose period sheets have two numbers for each segment (ramp demand, meter rate),
 * to the second, with every lane open. Its forecast is then that of the first rules. Nothing in the bytes tells the layout.
 *
 * Gives the refusal's number, 0 for none. `*count` gets the bytes written from the start of `target`, or the refusal's
 * place in the study, in bytes from its start. Bytes of `target` past the count keep their contents, and after a refusal
 * all do. Where the study converts but `target_len` is below its new length it gives 7, with place 0.
 *
 * `study`, `target` and `count` must not overlap. Nothing is allocated, and nothing is kept between calls.
 */
uint64_t freeway_to_second(const uint8_t *study, size_t study_len, uint8_t *target, size_t target_len, uint64_t *count);

/*
 * The same from the second layout to the first. Where a lane is closed it gives 16, with the place of the first open-lane
 * number that is below its segment's lanes.
 */
uint64_t freeway_to_first(const uint8_t *study, size_t study_len, uint8_t *target, size_t target_len, uint64_t *count);

/* How many numbers a plan fills. */
#define FREEWAY_PLAN_NUMBERS 325

/* Where each number of a plan stands in `out`. */
enum {
    FREEWAY_PLAN_REFUSAL = 0, /* number of the refusal, 0 for none */
    FREEWAY_PLAN_OFFSET = 1,  /* the refusal's offset, in bytes from the sheet's start */
    FREEWAY_PLAN_USED = 2,    /* bytes of the sheet */
    FREEWAY_PLAN_DENSITY = 3, /* the facility's density, in vehicles a mile and lane: the 64 bits of a double */
    FREEWAY_PLAN_LETTER = 4   /* its level letter, 'A' to 'F' */
};

/* Where section i stands in `out`, counted from 0. All but its case are the 64 bits of a double, 0 where the case has none. */
#define FREEWAY_PLAN_CASE(i) (5 + 5 * (i))       /* one of the three below */
#define FREEWAY_PLAN_UNDER(i) (6 + 5 * (i))      /* RU, in seconds a mile; of a slowed or queued section */
#define FREEWAY_PLAN_OVER(i) (7 + 5 * (i))       /* RO, in seconds a mile; of a queued section */
#define FREEWAY_PLAN_SPEED(i) (8 + 5 * (i))      /* speed, in miles an hour */
#define FREEWAY_PLAN_DENSITY_OF(i) (9 + 5 * (i)) /* density, in vehicles a mile and lane */

enum {
    FREEWAY_PLAN_FREE = 0,
    FREEWAY_PLAN_SLOWED = 1,
    FREEWAY_PLAN_QUEUED = 2
};

/*
 * Works a planning sheet out, and fills the first 325 numbers of `out`; sections past the sheet's are free with zeros.
 * `carryover` has a number for each section, what the period before left (zeros at first); the new carryover replaces it.
 * Numbers of `out` past the 325th keep their contents.
 *
 * Gives the refusal's number, 0 for none: 1 to 4 for the sheet's bytes, 8 where `carryover_len` isn't the section count, 15
 * for a demand below 0 or above 1,000,000. `carryover` is then as it was, and all numbers but the first two are 0, the letter
 * 'A'. Where `out_len` is below 325 it gives 7, before the sheet is looked at, and leaves `out` and `carryover` as they were.
 *
 * `sheet`, `carryover` and `out` must not overlap. Nothing is allocated, and nothing is kept between calls.
 */
uint64_t freeway_plan(const uint8_t *sheet, size_t sheet_len, uint32_t *carryover, size_t carryover_len, uint64_t *out, size_t out_len);

#ifdef __cplusplus
}
#endif

#endif
