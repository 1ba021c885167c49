/* The reversing bench: its calls for C. Each is proved; docs/THEOREMS.md names what is shown of them.
 *
 * A slice goes as a pointer and a count of elements. A call returns value * 2^32 + number: the number is one of enum bench_answer, the value
 * is named beside each call and is 0 elsewhere. No call reads or writes outside the slices that it is lent, and none needs anything of what
 * stands in them: a store that is not the image of a sound state is answered BENCH_NOT_A_STATE by every call but bench_load. A refusal (any
 * number but BENCH_DONE) leaves every word of the store and every byte of the output as it was.
 *
 * What the caller owes, since C does not check it: a pointer is valid and aligned for its whole count, never NULL (for a count of 0 any aligned
 * address that isn't NULL will do), and no slice that a call writes overlaps another slice of the same call. Nothing else is asked, but for the
 * stack: bench_rollback, and bench_line for a rollback, take some 141 KiB of it for their arrays alone; a step was measured at 16 to 68 KiB, by how
 * its control is nested (docs/SPEED.md). */
#ifndef BENCH_H
#define BENCH_H

#include <stddef.h>
#include <stdint.h>

enum bench_answer {
    BENCH_DONE = 0,
    BENCH_BAD_MODULE = 1,
    BENCH_BAD_SIZES = 2,
    BENCH_NO_PROCESS = 3,
    BENCH_FINISHED = 4,
    BENCH_WAITING = 5,
    BENCH_STUCK = 6,
    BENCH_WRONG_COMMAND = 7,
    BENCH_PLACE_TAKEN = 8,
    BENCH_TOO_LARGE = 9,
    BENCH_HISTORY_FULL = 10,
    BENCH_NO_MESSAGE = 11,
    BENCH_NOTHING_TO_UNDO = 12,
    BENCH_HELD = 13,
    BENCH_NO_CHECKPOINT = 14,
    BENCH_NOT_A_STATE = 15,
    BENCH_NO_ROOM = 16,
    BENCH_BAD_LINE = 17
};

/* The parts of a word, tag * 2^24 + n * 2^16 + k, and its tags. */
#define BENCH_TAG(w) ((unsigned)((w) >> 24))
#define BENCH_N(w) ((unsigned)((w) >> 16 & 0xFFu))
#define BENCH_K(w) ((unsigned)((w) & 0xFFFFu))

enum bench_tag {
    BENCH_VARIABLE = 1,
    BENCH_ATOM = 2,
    BENCH_INTEGER = 3,
    BENCH_PID = 4,
    BENCH_NIL = 5,
    BENCH_CONS = 6,
    BENCH_TUPLE = 7,
    BENCH_CALL = 8,
    BENCH_APPLY = 9,
    BENCH_CASE = 10,
    BENCH_LET = 11,
    BENCH_RECEIVE = 12,
    BENCH_SPAWN = 13,
    BENCH_SEND = 14,
    BENCH_SELF = 15,
    BENCH_CHECK = 16,
    BENCH_CLAUSE = 17,
    BENCH_FUNCTION = 18
};

#define BENCH_NUMBER(r) ((uint32_t)((r) & 0xFFFFFFFFu))
#define BENCH_VALUE(r) ((uint32_t)((r) >> 32))

/* How many words a store needs for P process places, H history entries and W words for an expression. Words past them are neither read nor
 * written. */
#define BENCH_NEEDED(P, H, W) ((size_t)516 + (size_t)(P) * ((H) + 1) * (8 + (size_t)(W) + (size_t)(P) * (H)))

/* Puts a module (at most 512 words) into the store, with `apply 0()` at place 0, whatever stood there. P is 1 to 16, H 1 to 64, W 16 to 255.
 * DONE; BAD_SIZES for a size out of range or a store that is too short; BAD_MODULE with the position of the fault as the value. */
uint64_t bench_load(const uint32_t *module, size_t module_len, uint32_t places, uint32_t entries, uint32_t words, uint32_t *store, size_t store_len);

/* One step of process p that isn't a spawn. DONE, NO_PROCESS, FINISHED, WRONG_COMMAND (p stands at a spawn), WAITING, STUCK, TOO_LARGE,
 * HISTORY_FULL. */
uint64_t bench_step(uint32_t *store, size_t store_len, uint32_t p);

/* Process p, which stands at a spawn, spawns into place f. DONE, NO_PROCESS, FINISHED, WRONG_COMMAND, PLACE_TAKEN, HISTORY_FULL. */
uint64_t bench_spawn(uint32_t *store, size_t store_len, uint32_t p, uint32_t f);

/* Message s.k comes from flight to the end of its target's queue. DONE, NO_MESSAGE. */
uint64_t bench_deliver(uint32_t *store, size_t store_len, uint32_t s, uint32_t k);

/* Undoes p's newest entry. DONE, NO_PROCESS, NOTHING_TO_UNDO, HELD (something depends on it). */
uint64_t bench_back(uint32_t *store, size_t store_len, uint32_t p);

/* The newest message of p's queue goes back into flight. DONE, NO_PROCESS, NOTHING_TO_UNDO, HELD (a rec has seen it). */
uint64_t bench_undeliver(uint32_t *store, size_t store_len, uint32_t p);

/* Undoes p's newest passing of checkpoint t, all that depends on it and nothing else. DONE with the count of events undone as the value,
 * NO_PROCESS, NO_CHECKPOINT, HELD (never in a store that was loaded and changed by these calls alone). */
uint64_t bench_rollback(uint32_t *store, size_t store_len, uint32_t p, uint32_t t);

/* No listing has more bytes than this, whatever the sizes. */
#define BENCH_LISTING_MOST 65536

/* Writes the listing. DONE with its length as the value; NO_ROOM where the output is shorter. Bytes past the listing stay as they were. */
uint64_t bench_listing(const uint32_t *store, size_t store_len, uint8_t *out, size_t out_len);

/* One command line without its LF: step=0  spawn=0,1  deliver=0,0  back=0  undeliver=1  rollback=0,7 (numbers 0 to 255, no leading zeros).
 * BAD_LINE for a malformed one, whatever the store holds; else as the call that it names. */
uint64_t bench_line(uint32_t *store, size_t store_len, const uint8_t *line, size_t line_len);

#endif
