/*
 * count.c: how many instructions each call takes.
 *
 * The emulator is told that every instruction takes the same time, and the board's
 * own clock (SysTick) is read before and after each call. What a thousand
 * instructions take is measured first, so that no frequency need be known; and what
 * it takes to call a function that does nothing is taken away.
 *
 * The list in memory is an index: its five files, a term of each tree, a postings file
 * and the places of two lists in it, each behind its length (src/main.rs writes them).
 */
#include "isis.h"
#include "semihosting.h"

#include <string.h>

extern const uint32_t list[];

enum { FIELDS = 8, FIELD = 20, RECORDS = 50, POSTINGS = 100, CLOCK_BITS = 24 };
enum { FILES = 5, SHORT_TERM = FILES, LONG_TERM, IFP, PLACES, SLICES };

static uint8_t mst[64 * ISIS_BLOCK], xrf[ISIS_BLOCK];
static uint16_t tags[FIELDS], lens[FIELDS];
static uint8_t data[FIELDS * FIELD];
static isis_size start, len, end, count, starts[FIELDS], field_lens[FIELDS];
static uint32_t mfn, answer, occurrences, mark, deleted, entry;
static uint16_t tag, field_tags[FIELDS];
static uint32_t mfns[RECORDS], answers[RECORDS];
static uint64_t postings[POSTINGS];
static uint32_t merged[2 * POSTINGS];
static int32_t block, word;
static struct {
    const uint8_t *at;
    isis_size len;
} slices[SLICES];

static volatile uint32_t *const systick = (volatile uint32_t *)0xE000E010; /* control, reload, current */

#define CARD mst, sizeof mst, xrf, sizeof xrf
#define SHOWN &start, &len, &occurrences
#define LISTS field_tags, FIELDS, starts, FIELDS, field_lens, FIELDS, &count
#define DRAFT tags, FIELDS, lens, FIELDS, data, sizeof data
#define RECORD mst + ISIS_FIRST_RECORD, sizeof mst - ISIS_FIRST_RECORD
#define SLICE(i) slices[i].at, slices[i].len
#define INDEX SLICE(0), SLICE(1), SLICE(2), SLICE(3), SLICE(4)
#define FIRST places()[0], places()[1]
#define SECOND places()[2], places()[3]
#define MERGED merged, 2 * POSTINGS, &count

/* Blocks and words of two lists. */
static const int32_t *places(void) { return (const int32_t *)slices[PLACES].at; }

static void nothing(void) {}
__attribute__((naked)) static void a_thousand_more(void)
{
    __asm__(".rept 1000\n\tnop\n\t.endr\n\tbx lr");
}
static void format(void) { answer = isis_format(CARD); }
static void view_first(void) { answer = isis_view(CARD, 7, 1, 1, SHOWN); }
static void view_last(void) { answer = isis_view(CARD, 7, FIELDS, 1, SHOWN); }
static void view_settled_last(void) { answer = isis_view_settled(CARD, 7, FIELDS, 1, SHOWN); }
static void field_last(void) { answer = isis_field(CARD, 7, FIELDS - 1, &tag, &start, &len); }
static void field_settled_last(void) { answer = isis_field_settled(CARD, 7, FIELDS - 1, &tag, &start, &len); }
static void fields(void) { answer = isis_fields(CARD, 7, LISTS); }
static void fields_settled(void) { answer = isis_fields_settled(CARD, 7, LISTS); }
static void next(void) { answer = isis_next(CARD, &mfn, &end); }
static void state(void) { answer = isis_state(CARD, 7, &mark, &deleted); }
static void create(void) { answer = isis_create(CARD, DRAFT, &mfn); }
static void update(void) { answer = isis_update(CARD, 7, DRAFT); }
static void delete(void) { answer = isis_delete(CARD, 7); }
static void settle(void) { answer = isis_settle(CARD, 7); }
static void settle_list(void) { answer = isis_settle_list(CARD, mfns, RECORDS, answers, RECORDS); }
static void revert(void) { answer = isis_revert(CARD, 7); }
static void migrate(void) { answer = isis_migrate(CARD); }
static void recount(void) { answer = isis_recount(CARD); }
static void check(void) { answer = isis_check(CARD); }
static void record_test(void) { answer = isis_record_test(RECORD, 1, 0, &entry); }
static void lookup_short(void) { answer = isis_lookup(INDEX, SLICE(SHORT_TERM), &block, &word); }
static void lookup_long(void) { answer = isis_lookup(INDEX, SLICE(LONG_TERM), &block, &word); }
static void check_index(void) { answer = isis_check_index(INDEX); }
static void read_list(void) { answer = isis_postings(SLICE(IFP), FIRST, postings, POSTINGS, &count); }
static void common(void) { answer = isis_common(SLICE(IFP), FIRST, SECOND, MERGED); }
static void joined(void) { answer = isis_joined(SLICE(IFP), FIRST, SECOND, MERGED); }

/* A card of RECORDS records of FIELDS fields: new, settled, one of them changed, one of them deleted; or settled and as it was
   written before isis.h 2.0, or before 4.0. */
enum kind { NEW, SETTLED, CHANGED, DELETED, OLD, UNCOUNTED };

static void make_card(enum kind kind)
{
    format();
    for (uint32_t i = 1; i <= RECORDS; i++) {
        create();
        mfns[i - 1] = i;
        if (kind != NEW)
            isis_settle(CARD, i);
    }
    if (kind == CHANGED)
        update();
    if (kind == DELETED)
        delete();
    if (kind == OLD)
        mst[12]--;
    if (kind == UNCOUNTED)
        mst[ISIS_RECCNT_AT] = 0;
}

static const struct {
    const char *name;
    enum kind kind;
    void (*call)(void);
} measured[] = {
    { "view, first of 8 fields", CHANGED, view_first },
    { "view, last of 8 fields", CHANGED, view_last },
    { "view settled, last of 8 fields", CHANGED, view_settled_last },
    { "field by index, last of 8", CHANGED, field_last },
    { "settled field by index, last of 8", CHANGED, field_settled_last },
    { "all 8 fields in one call", CHANGED, fields },
    { "all 8 settled fields in one call", CHANGED, fields_settled },
    { "next MFN and end", CHANGED, next },
    { "state of a record", CHANGED, state },
    { "create, 8 fields of 20 bytes", NEW, create },
    { "update in place, 8 fields of 20 bytes", NEW, update },
    { "update at the end, 8 fields of 20 bytes", SETTLED, update },
    { "delete in place", NEW, delete },
    { "delete by a copy at the end", SETTLED, delete },
    { "settle, a new record", NEW, settle },
    { "settle, a changed record", CHANGED, settle },
    { "settle 50 new records in one call", NEW, settle_list },
    { "revert", CHANGED, revert },
    { "revert a deletion", DELETED, revert },
    { "migrate an old card", OLD, migrate },
    { "format, 32 KB", NEW, format },
    { "check, 50 records", SETTLED, check },
    { "recount, 50 records", UNCOUNTED, recount },
    { "record test, 8 fields", SETTLED, record_test },
    { "lookup, 9 bytes, in 1000 terms", NEW, lookup_short },
    { "lookup, 17 bytes, in 1000 terms", NEW, lookup_long },
    { "index check, 1000 terms", NEW, check_index },
    { "100 postings read", NEW, read_list },
    { "two lists of 100 postings in common", NEW, common },
    { "two lists of 100 postings joined", NEW, joined },
};

/* The clock counts down. */
static uint32_t since(uint32_t then)
{
    return (then - systick[2]) & ((1u << CLOCK_BITS) - 1);
}

static uint32_t ticks_of(void (*call)(void))
{
    uint32_t then = systick[2];

    call();
    return since(then);
}

static void find_slices(void)
{
    const uint32_t *at = list;

    for (uint32_t i = 0; i < SLICES; i++) {
        slices[i].len = *at++;
        slices[i].at = (const uint8_t *)at;
        at += (slices[i].len + 3) / 4;
    }
}

/* By 32-bit division, since divide.c does no other. */
static uint32_t instructions(uint32_t ticks, uint32_t thousand)
{
    return ticks / thousand * 1000 + (ticks % thousand * 1000 + thousand / 2) / thousand;
}

int main(void)
{
    uint32_t thousand, none;

    find_slices();
    for (uint32_t i = 0; i < FIELDS; i++) {
        tags[i] = (uint16_t)(i + 1);
        lens[i] = FIELD;
    }
    memset(data, 'x', sizeof data);
    systick[1] = (1u << CLOCK_BITS) - 1;
    systick[2] = 0;
    systick[0] = 5; /* on, by the processor's clock */
    none = ticks_of(nothing);
    thousand = ticks_of(a_thousand_more) - none;
    for (uint32_t i = 0; i < sizeof measured / sizeof *measured; i++) {
        make_card(measured[i].kind);
        uint32_t ticks = ticks_of(measured[i].call) - none;

        if (answer != ISIS_DONE)
            return 1;
        say_number(instructions(ticks, thousand));
        say(" ");
        say(measured[i].name);
        say("\n");
    }
    return 0;
}
