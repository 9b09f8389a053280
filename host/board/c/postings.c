/*
 * postings.c: a step on postings. Two slices are lent to be read, the postings file and the
 * bytes of a posting, and one to be written, the list.
 *
 * One slice stands at the last byte of the memory for cards and one at the first, each of
 * the three in turn; the third stands between, at addresses of every remainder by 4 if it is
 * not the list. The sides that face memory are painted.
 */
#include "runner.h"

enum { IFP, POSTING, LIST, SLICES, STACK = 512 };
enum { POSTINGS = 20, COMMON, JOINED, READ, WRITE, COMPARE };

/* The slices that the list wants, and those that a call is lent. */
static uint8_t wanted[SLICES][SLICE_MAX];
static struct slice lent[SLICES] = { NAMED("the IFP"), NAMED("the posting"), NAMED("the list") };

/* The call: its kind, its numbers, and how many elements of the list it is lent. */
static uint32_t kind, numbers[4], room;
static struct {
    isis_size count;
    uint32_t mfn, tag, occurrence, sequence;
} out;

#define SLICE(i) lent[i].at, lent[i].len
#define PLACES (int32_t)numbers[0], (int32_t)numbers[1], (int32_t)numbers[2], (int32_t)numbers[3]
#define PAIR(i) (numbers[i] | (uint64_t)numbers[(i) + 1] << 32)

__attribute__((noinline)) static uint32_t answer(void)
{
    void *list = lent[LIST].at;

    door = stack_pointer();
    switch (kind) {
    case POSTINGS:
        return isis_postings(SLICE(IFP), (int32_t)numbers[0], (int32_t)numbers[1], list, room, &out.count);
    case COMMON:
        return isis_common(SLICE(IFP), PLACES, list, room, &out.count);
    case JOINED:
        return isis_joined(SLICE(IFP), PLACES, list, room, &out.count);
    case READ:
        return isis_posting_read(SLICE(POSTING), &out.mfn, &out.tag, &out.occurrence, &out.sequence);
    case WRITE:
        return isis_posting_write(numbers[0], numbers[1], numbers[2], numbers[3], list, room);
    case COMPARE:
        return isis_posting_compare(PAIR(0), PAIR(2));
    }
    differs("the call", kind, 0);
    return 0;
}

/* The file's length and what changed in it, the call, and the bytes of a posting. */
static void read_step(void)
{
    lent[IFP].len = word();
    for (uint32_t count = word(); count > 0; count--) {
        uint32_t file = word(), from = word(), len = word();

        memcpy(wanted[file] + from, bytes(len), len);
    }
    kind = word();
    for (uint32_t i = 0; i < 4; i++)
        numbers[i] = word();
    room = word();
    lent[POSTING].len = word();
    memcpy(wanted[POSTING], bytes(lent[POSTING].len), lent[POSTING].len);
    lent[LIST].len = word();
}

static void lend(void)
{
    place_slices(lent, SLICES, LIST);
    each_side(lent, SLICES, paint);
    memcpy(lent[IFP].at, wanted[IFP], lent[IFP].len);
    memcpy(lent[POSTING].at, wanted[POSTING], lent[POSTING].len);
    memset(lent[LIST].at, RUBBISH, lent[LIST].len);
}

void postings_step(void)
{
    read_step();
    lend();
    memset(&out, RUBBISH, sizeof out);
    is_wanted("the answer", measured(kind, answer, STACK));
    is_wanted("the count", out.count);
    is_wanted("the MFN", out.mfn);
    is_wanted("the field", out.tag);
    is_wanted("the occurrence", out.occurrence);
    is_wanted("the term's number", out.sequence);
    memcpy(wanted[LIST], bytes(lent[LIST].len), lent[LIST].len);
    for (uint32_t i = 0; i < SLICES; i++)
        file_is_wanted(lent[i].of, lent[i].at, wanted[i], lent[i].len);
    each_side(lent, SLICES, is_painted);
}
