/*
 * runner.c: runs a list of calls on a board and holds every answer, output and byte
 * to what the list says.
 *
 * The list stands in memory as 32-bit words (src/list.rs writes it). Each step gives
 * the lengths of both buffers and where in memory they stand, what somebody else
 * changed in them, a call, what the call must give, and what it must change. The
 * wanted bytes are kept beside the card and the two are compared, whole, after
 * every call.
 *
 * On neither side of the card's memory is there any, so that an access outside of it
 * is a fault; where the board has something there, the memory protection unit shuts
 * it. One buffer stands at the last byte and the other one at the first, or the
 * other way round, or both in the middle and at odd addresses; then one list of the
 * call's draft stands at the last byte. The sides of a buffer that face memory are
 * painted, and the paint is looked at.
 *
 * The stack below each call is painted too, so that the most that a call ever used
 * is known at the end of the list. A step on an index is index.c's, one on postings
 * postings.c's, and one on a single record records.c's.
 */
#include "runner.h"

extern const uint32_t list[];

enum { MST_MAX = 128 * 1024, XRF_MAX = 8 * 1024, STACK = 512, KINDS = 27 };
enum { MST_LAST, XRF_LAST, MIDDLE, ON_AN_INDEX, ON_POSTINGS, ON_A_RECORD };

/* The list, and how much of it is done. */
static const uint32_t *at = list;
uint32_t step;
static uint32_t made[KINDS], most_stack[KINDS];

/* The card that the list wants, and the card that the calls are lent. */
static uint8_t wanted_mst[MST_MAX], wanted_xrf[XRF_MAX];
static uint8_t *mst, *xrf;
static uint32_t mst_len, xrf_len;

/* The call's arguments and outputs; the lists have one element more than is ever lent. */
enum { LENT = 9, ANSWERS = ISIS_SETTLE_MAX + 2, SETTLE_LIST = 10 };

static struct {
    uint32_t kind, mfn, tag, occurrence, tags_len, lens_len, data_len;
    isis_size index;
    const uint8_t *tags, *lens, *data;
    const uint32_t *mfns;
    uint32_t mfns_len;
} call;
static struct {
    isis_size start, len, end, count, starts[LENT + 1], lens[LENT + 1];
    uint32_t mfn, occurrences, next, mark, deleted;
    uint16_t tag, tags[LENT + 1];
} out;
static uint32_t answers[ANSWERS + 1];

static void say_with(const char *words, uint32_t number)
{
    say(words);
    say_number(number);
}

/* What start.c adds to its report. */
void at_fault(void)
{
    say_with("in step ", step);
    say("\n");
}

void differs(const char *what, uint32_t given, uint32_t wanted)
{
    say(what);
    say_with(" is ", given);
    say_with(", wanted ", wanted);
    say_with(", in step ", step);
    say("\n");
    leave(0);
}

static void byte_differs(const char *what, uint32_t where, uint32_t given, uint32_t wanted)
{
    say_with("byte ", where);
    differs(what, given, wanted);
}

uint32_t word(void)
{
    return *at++;
}

static uint64_t long_word(void)
{
    uint64_t low = word();

    return low | (uint64_t)word() << 32;
}

const uint8_t *bytes(uint32_t count)
{
    const uint8_t *here = (const uint8_t *)at;

    at += (count + 3) / 4;
    return here;
}

/* Changes bytes of the wanted card. */
static void read_changes(void)
{
    for (uint32_t count = word(); count > 0; count--) {
        uint8_t *file = word() ? wanted_xrf : wanted_mst;
        uint32_t from = word(), len = word();

        memcpy(file + from, bytes(len), len);
    }
}

/* Lends a list of MFNs, or one list of a draft, at the last byte of the card's memory. */
static const uint8_t *at_the_last_byte(const uint8_t *items, uint32_t len)
{
    return memcpy(cards_end - len, items, len);
}

static void read_call(uint32_t stands)
{
    call.kind = word();
    call.mfn = word();
    call.tag = word();
    call.occurrence = word();
    call.index = long_word();
    call.tags_len = word();
    call.lens_len = word();
    call.data_len = word();
    call.tags = bytes(2 * call.tags_len);
    call.lens = bytes(2 * call.lens_len);
    call.data = bytes(call.data_len);
    call.mfns_len = word();
    call.mfns = (const uint32_t *)bytes(4 * call.mfns_len);
    if (stands == MIDDLE && call.kind == SETTLE_LIST)
        call.mfns = (const uint32_t *)at_the_last_byte((const uint8_t *)call.mfns, 4 * call.mfns_len);
    if (stands == MIDDLE && step % 3 == 0)
        call.tags = at_the_last_byte(call.tags, 2 * call.tags_len);
    if (stands == MIDDLE && step % 3 == 1)
        call.lens = at_the_last_byte(call.lens, 2 * call.lens_len);
    if (stands == MIDDLE && step % 3 == 2)
        call.data = at_the_last_byte(call.data, call.data_len);
}

/* Calls a function for each strip of memory beside a buffer. */
static void each_strip(void (*look)(const char *what, uint8_t *strip))
{
    if (mst != cards_start)
        look(" before the MST", mst - STRIP);
    if (mst + mst_len != cards_end)
        look(" behind the MST", mst + mst_len);
    if (xrf != cards_start)
        look(" before the XRF", xrf - STRIP);
    if (xrf + xrf_len != cards_end)
        look(" behind the XRF", xrf + xrf_len);
}

void paint(const char *what, uint8_t *strip)
{
    (void)what;
    memset(strip, PAINT, STRIP);
}

void is_painted(const char *what, uint8_t *strip)
{
    for (uint32_t i = 0; i < STRIP; i++)
        if (strip[i] != PAINT)
            byte_differs(what, i, strip[i], PAINT);
}

/* Lends the wanted card anew. */
static void lend(uint32_t stands)
{
    mst = stands == MST_LAST ? cards_end - mst_len : cards_start;
    xrf = stands == XRF_LAST ? cards_end - xrf_len : cards_start;
    if (stands == MIDDLE) {
        mst = cards_start + STRIP + 1;
        xrf = mst + MST_MAX + 2 * STRIP + 2;
    }
    each_strip(paint);
    memcpy(mst, wanted_mst, mst_len);
    memcpy(xrf, wanted_xrf, xrf_len);
}

#define CARD mst, mst_len, xrf, xrf_len
#define LISTS out.tags, call.tag, out.starts, call.occurrence, out.lens, call.index, &out.count
#define DRAFT (const uint16_t *)call.tags, call.tags_len, (const uint16_t *)call.lens, call.lens_len, call.data, call.data_len

/* The calls, numbered as model::Call::kind does. */
__attribute__((noinline)) static uint32_t answer(void)
{
    door = stack_pointer();
    switch (call.kind) {
    case 0:
        return isis_format(CARD);
    case 1:
        return isis_view(CARD, call.mfn, call.tag, call.occurrence, &out.start, &out.len, &out.occurrences);
    case 2:
        return isis_view_settled(CARD, call.mfn, call.tag, call.occurrence, &out.start, &out.len, &out.occurrences);
    case 3:
        return isis_create(CARD, DRAFT, &out.mfn);
    case 4:
        return isis_update(CARD, call.mfn, DRAFT);
    case 5:
        return isis_delete(CARD, call.mfn);
    case 6:
        return isis_settle(CARD, call.mfn);
    case 7:
        return isis_revert(CARD, call.mfn);
    case 8:
        return isis_check(CARD);
    case 9:
        return isis_migrate(CARD);
    case SETTLE_LIST:
        return isis_settle_list(CARD, call.mfns, call.mfns_len, answers, call.index);
    case 11:
        return isis_recount(CARD);
    case 12:
        return isis_field(CARD, call.mfn, call.index, &out.tag, &out.start, &out.len);
    case 13:
        return isis_field_settled(CARD, call.mfn, call.index, &out.tag, &out.start, &out.len);
    case 14:
        return isis_next(CARD, &out.next, &out.end);
    case 15:
        return isis_state(CARD, call.mfn, &out.mark, &out.deleted);
    case 16:
        return isis_fields(CARD, call.mfn, LISTS);
    case 17:
        return isis_fields_settled(CARD, call.mfn, LISTS);
    }
    differs("the call", call.kind, 0);
    return 0;
}

uint32_t *door;

__attribute__((noinline)) uint32_t measured(uint32_t kind, uint32_t (*answer)(void), uint32_t words)
{
    volatile uint32_t *low = stack_pointer() - words;
    uint32_t given, used;

    for (uint32_t i = 0; i < words; i++)
        low[i] = PAINT;
    given = answer();
    if (*low != PAINT)
        differs("a word under the stack", *low, PAINT);
    while (*low == PAINT)
        low++;
    used = (uint32_t)((uintptr_t)door - (uintptr_t)low);
    if (most_stack[kind] < used)
        most_stack[kind] = used;
    made[kind]++;
    return given;
}

void is_wanted(const char *what, uint64_t given)
{
    uint64_t wanted = long_word();

    if (given != wanted)
        differs(what, (uint32_t)given, (uint32_t)wanted);
}

void file_is_wanted(const char *what, const uint8_t *given, const uint8_t *wanted, uint32_t len)
{
    if (memcmp(given, wanted, len) == 0)
        return;
    for (uint32_t i = 0; i < len; i++)
        if (given[i] != wanted[i])
            byte_differs(what, i, given[i], wanted[i]);
}

/* The list of answers that was lent, whole, and what stands behind it. */
static void answers_are_wanted(void)
{
    uint32_t lent = word();

    for (uint32_t i = 0; i < lent; i++) {
        uint32_t wanted = word();

        if (answers[i] != wanted)
            differs("an answer of the list", answers[i], wanted);
    }
    if (answers[lent] != RUBBISH * 0x01010101u)
        differs("what stands behind the answers", answers[lent], RUBBISH * 0x01010101u);
}

static void outputs_are_wanted(void)
{
    is_wanted("the MFN", out.mfn);
    is_wanted("the tag", out.tag);
    is_wanted("the start", out.start);
    is_wanted("the length", out.len);
    is_wanted("the number of occurrences", out.occurrences);
    is_wanted("the next MFN", out.next);
    is_wanted("the end", out.end);
    is_wanted("the mark", out.mark);
    is_wanted("the deleted flag", out.deleted);
    is_wanted("the count", out.count);
    for (uint32_t i = 0; i <= LENT; i++) {
        is_wanted("a tag of the list", out.tags[i]);
        is_wanted("a start of the list", out.starts[i]);
        is_wanted("a length of the list", out.lens[i]);
    }
    answers_are_wanted();
}

/* A step on the card, which stood somewhere before. */
static void card_step(uint32_t stands, uint32_t stood)
{
    uint32_t mst_was = mst_len, xrf_was = xrf_len, changed, given;

    mst_len = word();
    xrf_len = word();
    changed = *at;
    read_changes();
    if (stands != stood || mst_len != mst_was || xrf_len != xrf_was || changed)
        lend(stands);
    read_call(stands);
    memset(&out, RUBBISH, sizeof out);
    memset(answers, RUBBISH, call.kind == SETTLE_LIST ? 4 * ((uint32_t)call.index + 1) : 4);
    given = measured(call.kind, answer, STACK);
    is_wanted("the answer", given);
    outputs_are_wanted();
    read_changes();
    file_is_wanted(" of the MST", mst, wanted_mst, mst_len);
    file_is_wanted(" of the XRF", xrf, wanted_xrf, xrf_len);
    each_strip(is_painted);
}

static void one_step(void)
{
    static uint32_t stood = ~0u;
    uint32_t stands = word();

    switch (stands) {
    case ON_AN_INDEX:
        index_step();
        break;
    case ON_POSTINGS:
        postings_step();
        break;
    case ON_A_RECORD:
        record_step();
        break;
    default:
        card_step(stands, stood);
    }
    stood = stands;
}

/* Shuts what stands beside the card's memory, by the memory protection unit where there is one; where there is none, nothing stands there. */
static void shut(uint32_t region, uint32_t base, uint32_t size_bits)
{
    volatile uint32_t *const mpu = (volatile uint32_t *)0xE000ED90; /* type, control, number, base, attributes and size */

    if (mpu[0] == 0)
        return;
    mpu[2] = region;
    mpu[3] = base;
    mpu[4] = (size_bits - 1) << 1 | 1; /* no access */
    mpu[1] = 5;                        /* on, and the rest of memory as it is */
    __asm__ volatile("dsb\n\tisb");
}

int main(void)
{
    shut(0, (uintptr_t)cards_end, 20);
    shut(1, (uintptr_t)cards_start - (1u << 20), 20);
    for (uint32_t steps = word(); step < steps; step++)
        one_step();
    for (uint32_t kind = 0; kind < KINDS; kind++) {
        if (made[kind] == 0)
            continue;
        say_with("call ", kind);
        say_with(" made ", made[kind]);
        say_with(" stack ", most_stack[kind]);
        say("\n");
    }
    say_with("steps ", step);
    say("\n");
    return 0;
}
