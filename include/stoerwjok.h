/* Calls of the proved planner, version 0.2.0. Words and numbers are those of the paper (01).

   What a caller keeps:
   - A pointer and the length after it are one lent buffer: bytes (text), 16-bit masks (plan, past) or 64-bit numbers (table).
     The length counts those, not bytes. Where it is 0 the pointer may be null.
   - Two buffers have a size of their own and no length after them: `numbers` is 5 numbers, `room` 228 bytes. Neither is null.
   - A buffer of numbers begins at an address that 8 divides, one of masks at an address that 2 divides, as C arrays of
     uint64_t and uint16_t do.
   - No two buffers of one call overlap.
   - Calls may run on several threads at once, as long as no buffer that one of them writes is lent to another.

   What a call keeps:
   - It reads and writes its buffers and its stack, and nothing else: no heap, no variables of its own, no input or output.
     Nothing is kept between calls. Of the C library it needs memcpy and memset.
   - It returns for all arguments. The deepest, stoerwjok_judge, was measured to take 2,840 bytes of stack
     (docs/SPEED.md has each call; bench/stack.c measures). */

#ifndef STOERWJOK_H
#define STOERWJOK_H

#include <stddef.h>
#include <stdint.h>

#ifdef __cplusplus
extern "C" {
#endif

/* The version, in words and as 10,000 times the first number, 100 times the second, and the third. Until the first
   number is 1, a change of the second may change calls and codes. */
#define STOERWJOK_VERSION "0.2.0"
#define STOERWJOK_VERSION_NUMBER 200

/* The codes, each STOERWJOK_ and its name: the one list that docs/ANSWER.md, the Rust crate and the tests are held to. */
#define STOERWJOK_CODES(CODE) \
    CODE(GOOD, 0)    /* feasible and the plan fits; past accepted; text read or written; room within its limits */ \
    CODE(NONE, 1)    /* infeasible */ \
    CODE(TEXT, 2)    /* the room text breaks the grammar; place: the first bad line, from 0 */ \
    CODE(ENGINES, 3) /* the number of engines is out of range */ \
    CODE(JOBS, 4)    /* the number of jobs is out of range */ \
    CODE(JOB, 5)     /* a job's numbers are out of range; place: the least bad job */ \
    CODE(SECTION, 6) /* more than 32 sections, or a bad one; place: 32, or the least bad index */ \
    CODE(LINK, 7)    /* more than 16 links, or a bad one; place: 16, or the least bad index */ \
    CODE(LONG, 8)    /* the least common multiple of the periods is above 4,096; place: the job at which it passes that */ \
    CODE(TABLE, 9)   /* the table is longer than 4,194,304 numbers */ \
    CODE(ROOM, 10)   /* more configurations than the table holds */ \
    CODE(SHORT, 11)  /* a plan or text longer than its buffer; place: the length needed */ \
    CODE(OUT, 12)    /* the past is not in the centre; place: the length of its shortest beginning outside */

#define STOERWJOK_NUMBERED(name, number) STOERWJOK_##name = number,
enum { STOERWJOK_CODES(STOERWJOK_NUMBERED) };
#undef STOERWJOK_NUMBERED

/* The name of a code, as "GOOD"; "UNKNOWN" for a number that is no code. */
static inline const char *stoerwjok_name(uint64_t code)
{
#define STOERWJOK_NAMED(name, number) case number: return #name;
    switch (code) {
        STOERWJOK_CODES(STOERWJOK_NAMED)
    default:
        return "UNKNOWN";
    }
#undef STOERWJOK_NAMED
}

/* The places of a reply's fields in `numbers`. */
enum {
    STOERWJOK_CODE = 0,
    STOERWJOK_COUNT = 1,
    STOERWJOK_PLACE = 2,
    STOERWJOK_PREFIX = 3,
    STOERWJOK_CYCLE = 4,
    STOERWJOK_NUMBERS = 5
};

/* The bytes of a room, and of the longest room text. */
enum {
    STOERWJOK_ROOM_BYTES = 228,
    STOERWJOK_TEXT_BYTES = 648
};

/* A parameter of so many entries, or more. C++ cannot say so, and takes it for a pointer. */
#ifdef __cplusplus
#define STOERWJOK_OF(size) size
#else
#define STOERWJOK_OF(size) static size
#endif

/* Each function returns the code, and writes code, count, place, prefix and cycle to `numbers`. */

/* Checks the room of a text.
   Returns 0 GOOD; 2 TEXT with place; 3 to 8 with their places. */
uint64_t stoerwjok_check(const uint8_t *text, size_t text_length,
                         uint64_t numbers[STOERWJOK_OF(STOERWJOK_NUMBERS)]);

/* Plans the room of a text. Needs a table, four numbers for each configuration, with anything in it. No plan has more slots
   than its room has configurations, so a quarter of the table's length is enough for `plan`.
   Returns 0 GOOD with count, prefix and cycle, and `plan` begins with the masks of prefix and cycle;
   1 NONE with count; 2 TEXT; 3 to 8; 9 TABLE; 10 ROOM; 11 SHORT with the slots needed as place.
   The table is as found for 2 to 9, else all zeros; `plan` is as found but for 0. */
uint64_t stoerwjok_plan(const uint8_t *text, size_t text_length,
                        uint64_t *table, size_t table_length,
                        uint16_t *plan, size_t plan_length,
                        uint64_t numbers[STOERWJOK_OF(STOERWJOK_NUMBERS)]);

/* Judges a past, masks from slot 0 on. Needs a table as stoerwjok_plan does.
   Returns 0 GOOD with count; 2 TEXT; 3 to 8; 9 TABLE; 10 ROOM; 12 OUT with count and, as place, the
   length of the shortest beginning outside the centre.
   The table is as found for 2 to 9, else all zeros. */
uint64_t stoerwjok_judge(const uint8_t *text, size_t text_length,
                         uint64_t *table, size_t table_length,
                         const uint16_t *past, size_t past_length,
                         uint64_t numbers[STOERWJOK_OF(STOERWJOK_NUMBERS)]);

/* A room is 228 bytes: engines, jobs, sections, links; 16 jobs of first, load, deadline, period; 32 sections of job, block,
   first, after; 16 links of sender, receiver. */

/* Reads a room text.
   Returns 0 GOOD; 2 TEXT with place. The room is written either way: its unused entries are zeros, and on 2 all of it is. */
uint64_t stoerwjok_read(const uint8_t *text, size_t text_length,
                        uint8_t room[STOERWJOK_OF(STOERWJOK_ROOM_BYTES)],
                        uint64_t numbers[STOERWJOK_OF(STOERWJOK_NUMBERS)]);

/* Writes a room as its text.
   Returns 0 GOOD with the bytes written as place; 3 to 8; 11 SHORT with the length of the text as place.
   `text` is as found but for 0. */
uint64_t stoerwjok_write(const uint8_t room[STOERWJOK_OF(STOERWJOK_ROOM_BYTES)],
                         uint8_t *text, size_t text_length,
                         uint64_t numbers[STOERWJOK_OF(STOERWJOK_NUMBERS)]);

#undef STOERWJOK_OF

#ifdef __cplusplus
}
#endif

#endif
