/*
 * The line engine: a proved library that reads the table of a line, runs its steps, prints the result and writes the table back.
 *
 * Platform: x86-64 Linux, System V calls; the archive is compiled for user programs of this platform and for no other.
 * Stack: a call takes less than LINEENGINE_STACK bytes, whatever is passed. No heap, no variables of its own; from outside the
 * library needs memcpy and memset alone.
 * Link: `rt lib` in crates/lineengine writes crates/lineengine/out/liblineengine.a. Header and archive are those of one commit.
 *
 * What each function does is proved for every input; the contracts are in crates/lineengine/src/lib.rt. docs/EMBEDDING.md says
 * what that means for a unit.
 *
 * Any bytes may be passed as table, steps and input: what is wrong with them is answered by a code. With any code but
 * LINEENGINE_ACCEPTED nothing was done: all memory that was passed is as it was, except `*train` and `*place`.
 *
 * Every call that takes `train` and `place` sets both, refused or not, whatever stood there. With codes 11 and 28 they are the
 * train and the place on its route for which the table is refused, both counted from 1; docs/CODES.md says which byte of the table
 * that is. With every other code, LINEENGINE_ACCEPTED among them, both are 0.
 *
 * What the proofs assume of the caller, in the terms of C:
 *
 *   - A pointer points to as many bytes as the length or room beside it says, which is at most PTRDIFF_MAX. With length or room 0
 *     it is not used, and may be NULL. `text_length`, `train` and `place` have no length beside them: in every call, refused ones
 *     too, they point to a size_t and to a byte each, and are never NULL.
 *   - What is written (no `const`) overlaps nothing else that is passed in the same call: `train` and `place` are two different
 *     bytes, outside every buffer. What is only read may overlap what is only read.
 *   - While a call runs, nothing else writes what was passed, and nothing else reads what the call writes.
 *
 * The library keeps nothing between calls, so calls that write different memory may run at the same time.
 */
#ifndef LINEENGINE_H
#define LINEENGINE_H

#include <stddef.h>
#include <stdint.h>

#ifdef __cplusplus
extern "C" {
#endif

/* The version of this interface. The second number grows when something is added and every program that was right stays right,
 * but for steps of kinds that were answered 13: these may be given a meaning. The first grows, and the second is 0 again, when a
 * name, a parameter, a code, a size or a promise changes. This is not the version in the head of a table. */
#define LINEENGINE_VERSION_MAJOR 4
#define LINEENGINE_VERSION_MINOR 0

/* The bytes of stack that are enough for any call. */
#define LINEENGINE_STACK 65536

/* The codes. docs/CODES.md has an entry for each: what it means on the track, where to look, an example. */
enum lineengine_code {
    LINEENGINE_ACCEPTED = 0,               /* yes: the table is accepted, the call or the step was carried out */

    /* The table is refused, by its head and length: its bytes are no whole table. */
    LINEENGINE_SHORTER_THAN_HEAD = 1,      /* fewer than 8 bytes */
    LINEENGINE_NO_MARK = 2,                /* the first three bytes are not NET */
    LINEENGINE_UNKNOWN_VERSION = 3,        /* the table's version is neither 1 nor 2 */
    LINEENGINE_COUNT_OUT_OF_RANGE = 4,     /* too few or too many segments, boxes or trains */
    LINEENGINE_WRONG_TABLE_LENGTH = 5,     /* another length than counts and routes say */
    /* The table is refused, by its network. */
    LINEENGINE_SEGMENT_MALFORMED = 6,      /* a segment ends at no box, or at one box twice, or its way is above 2 */
    LINEENGINE_BOX_MALFORMED = 7,          /* kind, segments or position of a box do not fit together */
    LINEENGINE_SEGMENTS_BOXES_DIFFER = 8,  /* segment records and box records tell different tracks */
    LINEENGINE_TRACK_HAS_LOOP = 9,         /* segments follow one another back to the first */
    /* The table is refused, by its trains. */
    LINEENGINE_TRAIN_OUT_OF_RANGE = 10,    /* a direction is not 0 or 1, or a route has not 1 to 64 segments */
    LINEENGINE_ROUTE_SEGMENT_UNKNOWN = 11, /* a route has a segment that there is not; `train` and `place` say where */
    LINEENGINE_ROUTE_NOT_FOLLOWING = 28,   /* a segment does not follow the one before; `train` and `place` say where */
    LINEENGINE_START_SHARED = 12,          /* two trains start on one segment */
    LINEENGINE_START_AGAINST_THE_WAY = 32, /* a train starts against the way of its one-way segment */

    /* A step is refused; only in `answers`. Nothing has changed. */
    LINEENGINE_NO_SUCH_STEP = 13,          /* no such kind, a box byte in kinds 3 to 6, 9 or 10, or a last step cut short */
    LINEENGINE_NO_SUCH_TRAIN = 14,         /* the train byte is 0 or above the number of trains */
    LINEENGINE_REQUEST_OPEN = 15,          /* the train's last request or give-back is not yet answered and heard, or is lost */
    LINEENGINE_ROUTE_ENDED = 16,           /* the route has no next segment */
    LINEENGINE_NOT_THE_BOX_TO_ASK = 17,    /* no end of the next segment; for a lock, not the point ahead */
    LINEENGINE_HELD_ALREADY = 18,          /* the train has that reservation or lock */
    LINEENGINE_NOTHING_TO_GIVE_BACK = 29,  /* the train gives back a reservation or lock that it has not */
    LINEENGINE_HOLDING_MISSING = 19,       /* the train enters without a reservation or the lock that it needs */
    LINEENGINE_MOVE_OUT_OF_TURN = 20,      /* the train enters while it crosses a box, or clears while it crosses none */
    LINEENGINE_NO_MESSAGE = 21,            /* there is nothing to answer, or nothing to hear */
    LINEENGINE_NOTHING_TO_REPEAT = 30,     /* there is nothing to lose, or nothing to send again */

    /* A box says no to a train; only in `answers`, when the box answers and when the train hears. */
    LINEENGINE_AGAINST_THE_WAY = 31,       /* the segment is one-way, and the train goes against its way: asking again is in vain */
    LINEENGINE_SEGMENT_RESERVED = 22,      /* the segment is reserved for another train */
    LINEENGINE_POINT_LOCKED = 24,          /* the point is locked for another train, which may be on it */
    LINEENGINE_POINT_OCCUPIED = 23,        /* a train is on the point, and no train has its lock; no function here answers this */
    LINEENGINE_POINT_NOT_RESERVED = 25,    /* a segment that the point is to join is not reserved for this train */

    LINEENGINE_BUFFER_TOO_SHORT = 26,      /* a buffer has less room than the call needs */
    LINEENGINE_LINE_RECORD_WRONG = 27      /* a line record that no line can have; no function here takes one or answers this */
};

/* No table with more bytes is accepted: version 2, 96 segments and boxes, 16 trains with routes of 64. Of version 1, whose segments
 * have two bytes and not three, none with more than 1736 is. Whoever loads a table into a buffer loads up to one byte more than this,
 * so that a longer file is refused and not cut. */
#define LINEENGINE_MOST_TABLE 1832

/* The most steps that `lineengine_print` takes; `lineengine_run` takes any number. */
#define LINEENGINE_MOST_PRINTED_STEPS 65535

/* How many steps so many bytes are: three bytes each; a last one of one or two bytes counts and is answered 13. */
#define LINEENGINE_STEPS(bytes) ((bytes) / 3 + ((bytes) % 3 != 0))

/* How many of them `lineengine_print` takes. */
#define LINEENGINE_PRINTED_STEPS(bytes) \
    (LINEENGINE_STEPS(bytes) < LINEENGINE_MOST_PRINTED_STEPS ? LINEENGINE_STEPS(bytes) : LINEENGINE_MOST_PRINTED_STEPS)

/* The room that the text of so many printed steps is asked to have: lines of at most 18 bytes, for each step, 16 trains, 96 boxes
 * and the last line. That of LINEENGINE_MOST_PRINTED_STEPS, 1,181,664 bytes, is enough for every text. */
#define LINEENGINE_TEXT_ROOM(steps) (18 * ((size_t)(steps) + 113))

/*
 * The code of a table: 0, or the first of 1 to 12, 28 and 32 that refuses it. 11 and 28 are one search, after 10 and before 12: train
 * by train, each route from its start, at one place 11 before 28. 32 comes after 12.
 * NULL with length 0: `table` is a table of no bytes, code 1. `train` and `place` are never NULL.
 */
uint8_t lineengine_check(const uint8_t *table, size_t table_length, uint8_t *train, uint8_t *place);

/*
 * Runs the steps from the start of the table's line on, and stores the code of each of them in `answers`, which needs a byte for
 * each step, LINEENGINE_STEPS(steps_length). Bytes of `answers` beyond these stay as they were.
 * Answers the table's code, or 26 where `answers` is too short.
 * NULL with length 0: `table` is a table of no bytes, code 1; `steps` are no steps; `answers` is room enough for no steps alone.
 * `train` and `place` are never NULL.
 */
uint8_t lineengine_run(const uint8_t *table, size_t table_length,
                       const uint8_t *steps, size_t steps_length,
                       uint8_t *answers, size_t answers_room,
                       uint8_t *train, uint8_t *place);

/*
 * Stores the printout of a run at the front of `text` and its length in `*text_length`, and the codes of the steps in `answers`.
 * At most 65,535 steps are taken; bytes beyond them add a last line `more`. The text has no zero byte at its end.
 * Room needed: LINEENGINE_PRINTED_STEPS(input_length) for `answers`, and of that number LINEENGINE_TEXT_ROOM for `text`, however
 * short the text then is. Bytes beyond the text and the answers stay as they were.
 * Answers 0, or 26 where a buffer is too short; `*text_length` is then as it was, too. A refused table is no refusal of the
 * printout: it prints `file` and the table's code, with 11 and 28 train and place after it, and `answers` is as it was.
 * NULL with length 0: `table` is a table of no bytes, printed as `file 1`; `input` are no steps; `answers` is room enough for no
 * steps alone; `text` is always too short. `text_length` is never NULL.
 */
uint8_t lineengine_print(const uint8_t *table, size_t table_length,
                         const uint8_t *input, size_t input_length,
                         uint8_t *answers, size_t answers_room,
                         uint8_t *text, size_t text_room,
                         size_t *text_length);

/*
 * Reads the table and writes it out again, to the front of `buffer`: the bytes that were read. `buffer` needs table_length bytes;
 * those beyond stay as they were. Answers the table's code, or 26 where the buffer is too short.
 * NULL with length 0: `table` is a table of no bytes, code 1; `buffer` is too short for every accepted table. `train` and `place` are
 * never NULL.
 */
uint8_t lineengine_write_back(const uint8_t *table, size_t table_length,
                              uint8_t *buffer, size_t buffer_room,
                              uint8_t *train, uint8_t *place);

#ifdef __cplusplus
}
#endif

#endif
