/*
 * Ties between wrapping counters: what the library offers to C.
 *
 * Each call takes the bytes of a whole tie file (docs/tie_file.md) and works by the scale that the file's own mark names.
 * It returns 0 where it was done, a refusal's number where it was refused, and 255 where there was no memory for a book.
 * What it answers beside that it writes through pointers, and says below what each of these holds afterwards.
 *
 * What the caller owes, which nothing checks:
 *   - No pointer is null, not even that of a list of length 0, and each is aligned for its type.
 *   - A list has as many items as the length behind its pointer says, in bytes no more than PTRDIFF_MAX.
 *   - What a call writes to overlaps nothing else that the same call is handed, and no other thread uses it meanwhile.
 *   - Every number of a list and a struct that a call writes to has some value when the call begins: initialize them.
 *   - `malloc` and `free` are those of one allocator, which aligns a block to each power of two up to 16 that divides
 *     its size. A call is not made from a signal handler, nor in the forked child of a process with threads.
 *
 * A call keeps nothing when it returns: no memory, no pointer, no state. So calls may run in several threads at once.
 */
#ifndef COUNTER_TIES_H
#define COUNTER_TIES_H

#include <stddef.h>
#include <stdint.h>

#ifdef __cplusplus
extern "C" {
#endif

/* What a call returns. docs/refusals.md says which refusal has which condition, and in which order they are tried. */
enum counter_ties_status {
    COUNTER_TIES_DONE = 0,
    COUNTER_TIES_CONTENTS = 1,       /* the file is empty or too long, or ends within its table */
    COUNTER_TIES_ENTRY = 2,          /* an entry's kind is wrong, or the bodies do not follow one another */
    COUNTER_TIES_BODY = 3,           /* a body's length is none of its kind */
    COUNTER_TIES_NUMBERS = 4,        /* the scale's base or length is not one of its kind */
    COUNTER_TIES_SHAPE = 5,          /* the number of heads or of counters is out of bounds */
    COUNTER_TIES_WIDTH = 6,          /* a width is 0 or greater than the scale's length */
    COUNTER_TIES_MARK = 7,           /* given by no call here: the file's own mark and layout are used */
    COUNTER_TIES_LIST = 8,           /* the caller's list is too short */
    COUNTER_TIES_TARGET = 9,         /* a tie's target is no counter of a head */
    COUNTER_TIES_ABSENT = 10,        /* a term's head or counter does not exist */
    COUNTER_TIES_ORDER = 11,         /* a term does not stand above the one before it */
    COUNTER_TIES_NO_CODE = 12,       /* a factor or the right side is no code */
    COUNTER_TIES_COARSE = 13,        /* a factor's level plus its counter's width is less than the target's width */
    COUNTER_TIES_FULL = 14,          /* given by no call here: a file has no more than 64 ties */
    COUNTER_TIES_CONTRADICTION = 15, /* no assignment meets this tie and all those before it */
    COUNTER_TIES_NOTHING = 16,       /* given by no call here: none withdraws */
    COUNTER_TIES_NO_MEMORY = 255
};

/* A longer file is refused with 1. */
#define COUNTER_TIES_MOST_BYTES 16384

/* So many numbers are enough for every sheet: 32 counters, 32 * 33 numbers. */
#define COUNTER_TIES_SHEET_NUMBERS 1056

/* So many numbers a list of multipliers has at least. */
#define COUNTER_TIES_MULTIPLIERS 64

/* A tie of the file, and a term of that tie, both counted from 0. */
struct counter_ties_spot {
    size_t tie;
    size_t place; /* in refusal 12 the number of terms stands for the right side */
};

/* What the report says of a file. */
struct counter_ties_summary {
    size_t standing;                     /* so many ties stand, the first ones of the file */
    struct counter_ties_spot stopped_at; /* where a tie was refused; 0 where none was, and the place where it has none */
    uint16_t free;                       /* so many digits are free: q^free different assignments meet the ties */
    uint8_t stopped;                     /* the number of the refusal of the tie behind those, or 0 where all stand */
    uint8_t heads;
    uint8_t counters;                    /* on each head */
    uint8_t settled[32];                 /* how many digits of each counter's code are settled, by head, then counter, and
                                            0 behind the last counter */
};

#if defined(__STDC_VERSION__) && __STDC_VERSION__ >= 201112L
_Static_assert(sizeof(size_t) == 8, "the library is built for 64 bits");
_Static_assert(sizeof(struct counter_ties_spot) == 16, "docs/bindings.md");
_Static_assert(offsetof(struct counter_ties_summary, stopped_at) == 8, "docs/bindings.md");
_Static_assert(offsetof(struct counter_ties_summary, free) == 24, "docs/bindings.md");
_Static_assert(offsetof(struct counter_ties_summary, settled) == 29, "docs/bindings.md");
_Static_assert(sizeof(struct counter_ties_summary) == 64, "docs/bindings.md");
#endif

/*
 * The report on a file: its ties are posted in order until one is refused.
 *
 * Returns 0, 1 to 6, or 255. On 0 every field of *summary is written; otherwise *summary is kept. A tie that is refused
 * is part of the report, and the call returns 0.
 */
uint8_t counter_ties_report(const uint8_t *file, size_t file_length, struct counter_ties_summary *summary);

/*
 * The sheet of the ties that stand, by the report. With N counters on all heads it has N * (N + 1) numbers: one point,
 * then N generators, each of N codes in the order head, then counter. The assignments that meet the ties are just the
 * point plus multiples of the generators.
 *
 * Returns 0, 1 to 6, 8, or 255. On 0 the sheet is at the front of the list, the list is kept behind it, and *free is the
 * number of free digits. On 8 the list has fewer numbers than the sheet. On all but 0 the list and *free are kept.
 */
uint8_t counter_ties_sheet(const uint8_t *file, size_t file_length, uint32_t *list, size_t list_length, uint16_t *free);

/*
 * The multipliers by which anybody can see that the ties of a file contradict each other. The ties are posted in order
 * until one is refused.
 *
 * Returns 0 where all ties stand, the number of the refusal of the first that does not, or 1 to 6 or 255.
 *   0         the list and *spot are kept
 *   15        spot->tie is the tie that contradicts those before it, and the list begins with spot->tie + 1 multipliers,
 *             to which counter_ties_check says yes if the file ends with that tie; behind them it is kept, and so is
 *             spot->place
 *   10 to 13  spot->tie is the tie and spot->place the term; the list is kept
 *   9         spot->tie is the tie; the list and spot->place are kept
 *   8         the list has fewer than 64 numbers and the file has a tie: spot->tie is 0; the list and spot->place are kept
 *   1 to 6, 255   the list and *spot are kept
 */
uint8_t counter_ties_multipliers(
    const uint8_t *file, size_t file_length, uint32_t *list, size_t list_length, struct counter_ties_spot *spot);

/*
 * The check of multipliers, which solves nothing: one multiplier for each tie of the file, in order; those behind are
 * not looked at. On yes no assignment meets all ties of the file.
 *
 * Returns 0, 1 to 6, 8, or 9 to 13. On 0 *yes is 1 for yes and 0 for no, and *spot is kept. On 8 there are fewer
 * multipliers than ties. On all but 0 *yes is kept; on 9 to 13 spot->tie is the tie, on 10 to 13 spot->place is the term,
 * and the rest of *spot is kept. The call takes no memory.
 */
uint8_t counter_ties_check(
    const uint8_t *file, size_t file_length, const uint32_t *multipliers, size_t multipliers_length, uint8_t *yes,
    struct counter_ties_spot *spot);

#ifdef __cplusplus
}
#endif

#endif
