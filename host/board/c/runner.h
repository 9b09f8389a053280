/*
 * runner.h: what the steps on a card (runner.c), those on an index (index.c), on postings
 * (postings.c) and on a single record (records.c) share.
 */
#ifndef RUNNER_H
#define RUNNER_H

#include "isis.h"
#include "semihosting.h"

#include <string.h>

extern uint8_t cards_start[], cards_end[];

enum { STRIP = 64, PAINT = 0xB7, RUBBISH = 0xEE };

/* How many steps are done. */
extern uint32_t step;

/* The list, word by word. */
uint32_t word(void);
const uint8_t *bytes(uint32_t count);

/* Each says what of the step is not as the list wants it, and ends the run. */
void differs(const char *what, uint32_t given, uint32_t wanted);
void is_wanted(const char *what, uint64_t given);
void file_is_wanted(const char *what, const uint8_t *given, const uint8_t *wanted, uint32_t len);
void is_painted(const char *what, uint8_t *strip);

/* Paints a strip of memory beside a buffer. */
void paint(const char *what, uint8_t *strip);

/* A slice of a step on an index, on postings or on a record: what is said of it, and where it stands. */
struct slice {
    const char *of, *before, *behind;
    uint8_t *at;
    uint32_t len;
};

/* The words for a slice of a name. */
#define NAMED(name) { .of = " of " name, .before = " before " name, .behind = " behind " name }

/* The longest slice, and the memory that one stands in. */
enum { SLICE_MAX = 32 * 1024, ROOM = SLICE_MAX + 4 * STRIP };

/* Finds places for some slices: one at the last byte of the memory for cards and one at the first, each in
   turn, the others between, at addresses of every remainder by 4 but for one that is aligned, if there is such. */
enum { NONE_ALIGNED = ~0 };
void place_slices(struct slice *slices, uint32_t count, uint32_t aligned);

/* Calls a function for each strip of memory beside a slice. */
void each_side(const struct slice *slices, uint32_t count, void (*look)(const char *what, uint8_t *strip));

static inline uint32_t *stack_pointer(void)
{
    uint32_t *here;

    __asm__ volatile("mov %0, sp" : "=r"(here));
    return here;
}

/* Where the stack pointer was at the library's door. */
extern uint32_t *door;

/* Makes a call, which sets the door, over so many painted words of stack; keeps the most that calls of its kind used. */
uint32_t measured(uint32_t kind, uint32_t (*answer)(void), uint32_t words);

/* A step on an index, one on postings, and one on a record. */
void index_step(void);
void postings_step(void);
void record_step(void);

#endif
