/*
 * Koelstool for programs in C: what is true of every run of a plan.
 *
 * Link with libkoelstool.a, which `rt lib` makes in crates/koelstool/out. It needs memcpy and memset and nothing else,
 * allocates nothing, keeps nothing between calls, and may be called from several threads at once.
 */
#ifndef KOELSTOOL_H
#define KOELSTOOL_H

#include <stddef.h>
#include <stdint.h>

#ifdef __cplusplus
extern "C" {
#endif

/* The length of a record, in bytes. */
#define KOELSTOOL_RECORD 17

/*
 * The first byte of a record: what is said of the plan. Two numbers go with it.
 *
 * A state is what all handlers still have to do at one time. Mark times are the settling time, the greatest offset, and
 * whole rounds after it, a round being the least common multiple of all periods; marks are the states at these times.
 */
enum {
    KOELSTOOL_KEPT = 1,    /* no run is ever late: after how many rounds no new mark came, and how many marks */
    KOELSTOOL_MISSED = 2,  /* some run is late: the earliest time at which one is, and the lowest number late then */
    KOELSTOOL_WORKING = 3, /* more states at one time than rows: that time, and the rows, which are 128 */
    KOELSTOOL_MARKS = 4,   /* more marks than rows: the mark time, and the rows, which are 128 */
    KOELSTOOL_REFUSED = 5  /* not the file of a plan: the number of the test that fails first, and the place, counted
                              in bytes from 0, of the record that fails it */
};

/*
 * Reads the bytes as the file of a plan, checks the plan, and fills the record:
 *
 *     byte 0        one of the words above
 *     bytes 1 - 8   the first number, the high byte first
 *     bytes 9 - 16  the second number, likewise
 *
 * and answers 1. Where record_length is not 17, it answers 0, and the record is as it was; the bytes are not looked at.
 *
 * Any bytes may be handed over, of any length: they are only read. What the record held before does not matter.
 * Neither pointer may be null, also where a length is 0, and the record may not overlap the bytes. The tables are on
 * the stack: a call has used 68 KiB of it, by measure, so have 128 KiB.
 *
 * A call ends for all bytes, but it may take long: it goes through the units of the settling time and of one or more
 * rounds, at 0.1 to 1.1 microseconds a unit with one state, and 14 in the worst plan found, by measure on an idle
 * machine of 2.5 GHz. A round of some millions of units takes seconds where there are few states, and minutes where
 * there are many.
 */
uint8_t koelstool_check(const uint8_t *bytes, size_t bytes_length, uint8_t *record, size_t record_length);

#ifdef __cplusplus
}
#endif

#endif
