/*
 * index.c: a step on an index. Six slices are lent, the five files and a term, and none
 * may change.
 *
 * One slice stands at the last byte of the memory for cards and one at the first, each
 * of the six in turn; the others stand between, at addresses of every remainder by 4.
 * The sides that face memory are painted.
 */
#include "runner.h"

enum { FILES = 5, TERM = FILES, SLICES };
enum { STACK = 2048, LOOKUP = 18 };

/* The slices that the list wants, and those that a call is lent. */
static uint8_t wanted[SLICES][SLICE_MAX];
static struct slice lent[SLICES] = { NAMED("CNT"), NAMED("N01"), NAMED("L01"), NAMED("N02"), NAMED("L02"), NAMED("the term") };
static struct {
    int32_t block, word;
} out;

#define SLICE(i) lent[i].at, lent[i].len
#define INDEX SLICE(0), SLICE(1), SLICE(2), SLICE(3), SLICE(4)

__attribute__((noinline)) static uint32_t lookup(void)
{
    door = stack_pointer();
    return isis_lookup(INDEX, SLICE(TERM), &out.block, &out.word);
}

__attribute__((noinline)) static uint32_t check_index(void)
{
    door = stack_pointer();
    return isis_check_index(INDEX);
}

/* The files' lengths and what changed in them, the call, and the term. */
static uint32_t read_step(void)
{
    uint32_t kind;

    for (uint32_t i = 0; i < FILES; i++)
        lent[i].len = word();
    for (uint32_t count = word(); count > 0; count--) {
        uint32_t file = word(), from = word(), len = word();

        memcpy(wanted[file] + from, bytes(len), len);
    }
    kind = word();
    lent[TERM].len = word();
    memcpy(wanted[TERM], bytes(lent[TERM].len), lent[TERM].len);
    return kind;
}

static void lend(void)
{
    place_slices(lent, SLICES, NONE_ALIGNED);
    each_side(lent, SLICES, paint);
    for (uint32_t i = 0; i < SLICES; i++)
        memcpy(lent[i].at, wanted[i], lent[i].len);
}

void index_step(void)
{
    uint32_t kind = read_step();

    lend();
    memset(&out, RUBBISH, sizeof out);
    is_wanted("the answer", measured(kind, kind == LOOKUP ? lookup : check_index, STACK));
    is_wanted("the block", (uint32_t)out.block);
    is_wanted("the word", (uint32_t)out.word);
    for (uint32_t i = 0; i < SLICES; i++)
        file_is_wanted(lent[i].of, lent[i].at, wanted[i], lent[i].len);
    each_side(lent, SLICES, is_painted);
}
