/*
 * main.c: the firmware of a key that keeps a catalogue.
 *
 * The card stands in two static buffers. Nothing is written to it unless somebody
 * touches the key: one touch approves one write, and a write that nobody approved
 * is not made. The key makes a short run from format on and prints each answer and
 * what the card holds afterwards: where the next record goes, and MFN 1's entry.
 */
#include "isis.h"
#include "semihosting.h"

enum { TITLE = 24, MST_BLOCKS = 16, XRF_BLOCKS = 1 };

static uint8_t mst[MST_BLOCKS * ISIS_BLOCK];
static uint8_t xrf[XRF_BLOCKS * ISIS_BLOCK];

/* The touch sensor. This board has none, so what it would report is set here. */
static volatile uint32_t touches;

static void somebody_touches_the_key(void)
{
    touches++;
}

/* Uses up one touch; 0 where nobody touched the key since the last write. */
static int approved(void)
{
    if (touches == 0)
        return 0;
    touches--;
    return 1;
}

/* A write: what it is called, how it is made, and how it must be answered. */
typedef struct {
    const char *name;
    uint32_t (*make)(const char *title);
    const char *title;
    uint32_t answer;
} write;

static uint32_t format(const char *title)
{
    (void)title;
    return isis_format(mst, sizeof mst, xrf, sizeof xrf);
}

/* A draft of one field is one tag, one length and the field's bytes. */
static uint16_t length_of(const char *title)
{
    uint16_t len = 0;

    while (title[len])
        len++;
    return len;
}

static uint32_t create(const char *title)
{
    const uint16_t tag = TITLE, len = length_of(title);
    uint32_t mfn;

    return isis_create(mst, sizeof mst, xrf, sizeof xrf, &tag, 1, &len, 1, (const uint8_t *)title, len, &mfn);
}

static uint32_t update(const char *title)
{
    const uint16_t tag = TITLE, len = length_of(title);

    return isis_update(mst, sizeof mst, xrf, sizeof xrf, 1, &tag, 1, &len, 1, (const uint8_t *)title, len);
}

static uint32_t settle(const char *title)
{
    (void)title;
    return isis_settle(mst, sizeof mst, xrf, sizeof xrf, 1);
}

static uint32_t revert(const char *title)
{
    (void)title;
    return isis_revert(mst, sizeof mst, xrf, sizeof xrf, 1);
}

static const write run[] = {
    { "format", format, "", ISIS_DONE },
    { "create \"Kite\"", create, "Kite", ISIS_DONE },
    { "update to \"Kit\"", update, "Kit", ISIS_DONE },
    { "settle", settle, "", ISIS_DONE },
    { "update to \"Kites\"", update, "Kites", ISIS_DONE },
    { "revert", revert, "", ISIS_DONE },
    { "revert again", revert, "", ISIS_NOT_PENDING },
};

static uint32_t number_at(const uint8_t *bytes)
{
    return bytes[0] | (uint32_t)bytes[1] << 8 | (uint32_t)bytes[2] << 16 | (uint32_t)bytes[3] << 24;
}

/* Prints where the next record goes, MFN 1's entry, and its title. */
static void show_card(void)
{
    isis_size start, len, end;
    uint32_t next, occurrences;

    isis_next(mst, sizeof mst, xrf, sizeof xrf, &next, &end);
    say("    end ");
    say_number((uint32_t)end);
    say(", entry ");
    say_number(number_at(xrf + ISIS_ENTRY_AT(1)));
    if (isis_view(mst, sizeof mst, xrf, sizeof xrf, 1, TITLE, 1, &start, &len, &occurrences) == ISIS_DONE) {
        say(", title ");
        while (len--) {
            const char letter[] = { (char)mst[start++], 0 };
            say(letter);
        }
    }
    say("\n");
}

/* Makes a write if it is approved; says what came of it and gives 1 if that is as it must be. */
static int made(const write *w)
{
    uint32_t answer;

    say(w->name);
    if (!approved()) {
        say(": nobody touched the key, not made\n");
        return 0;
    }
    answer = w->make(w->title);
    say(": answer ");
    say_number(answer);
    say("\n");
    show_card();
    return answer == w->answer;
}

int main(void)
{
    for (unsigned i = 0; i < sizeof run / sizeof *run; i++) {
        if (made(&run[i]))
            return 1; /* a write that nobody approved */
        somebody_touches_the_key();
        if (!made(&run[i]))
            return 1;
    }
    say("check: answer ");
    say_number(isis_check(mst, sizeof mst, xrf, sizeof xrf));
    say("\n");
    return 0;
}
