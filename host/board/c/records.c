/*
 * records.c: a step on a single record, which is lent to be read and may not change.
 *
 * The record stands at the last byte of the memory for cards, at the first, and between, in
 * turn; there at addresses of every remainder by 4. The sides that face memory are painted.
 */
#include "runner.h"

enum { STACK = 512, RECORD_TEST = 26 };

/* The record that the list wants, and the one that a call is lent. */
static uint8_t wanted[SLICE_MAX];
static struct slice lent = NAMED("the record");

static uint32_t mfn, deleted;
static struct {
    uint32_t before, entry, behind;
} out;

__attribute__((noinline)) static uint32_t record_test(void)
{
    door = stack_pointer();
    return isis_record_test(lent.at, lent.len, mfn, deleted, &out.entry);
}

static void place(void)
{
    switch (step % 3) {
    case 0:
        lent.at = cards_end - lent.len;
        return;
    case 1:
        lent.at = cards_start;
        return;
    }
    lent.at = cards_start + ROOM + step / 3 % 4;
}

static void is_rubbish(uint32_t beside)
{
    if (beside != RUBBISH * 0x01010101u)
        differs("what stands beside the entry", beside, RUBBISH * 0x01010101u);
}

void record_step(void)
{
    lent.len = word();
    mfn = word();
    deleted = word();
    memcpy(wanted, bytes(lent.len), lent.len);
    place();
    each_side(&lent, 1, paint);
    memcpy(lent.at, wanted, lent.len);
    memset(&out, RUBBISH, sizeof out);
    is_wanted("the answer", measured(RECORD_TEST, record_test, STACK));
    is_wanted("the entry", out.entry);
    is_rubbish(out.before);
    is_rubbish(out.behind);
    file_is_wanted(lent.of, lent.at, wanted, lent.len);
    each_side(&lent, 1, is_painted);
}
