/*
 * key.c: a catalogue key in two minutes.
 *
 * The key keeps a card in two static buffers. This program formats it, catalogues
 * two books, changes a title by mistake while the index still describes the right
 * one, takes the change back, deletes the other book, settles what is left in one call,
 * and checks the card. Then it migrates a card of the old rule, recounts one that did not
 * keep the number of its records, looks terms up in a search index, and reads where they
 * occur. On a key, each call that writes would follow one touch of the sensor;
 * firmware/main.c does so. It compiles unchanged for both:
 *
 *   cc -std=c11 -Wall -Wextra -Werror -Iinclude examples/key.c crates/isis/out/libisis.a -o key
 *   firmware/run cortex-m0 examples/key.c
 */
#include "isis.h"

#include <stdio.h>
#include <string.h>

enum { TITLE = 24, AUTHOR = 70 };

static uint8_t mst[16 * ISIS_BLOCK]; /* the records */
static uint8_t xrf[1 * ISIS_BLOCK];  /* where each record stands: 127 MFNs a block */

/* Prints what was done and how it was answered; only 0 is success. */
static uint32_t report(const char *what, uint32_t answer)
{
    printf("%-34s answer %u\n", what, (unsigned)answer);
    return answer;
}

/* Prints the title in the current and in the settled version of a record. */
static void show_title(uint32_t mfn)
{
    isis_size start, len;
    uint32_t titles;

    if (isis_view(mst, sizeof mst, xrf, sizeof xrf, mfn, TITLE, 1, &start, &len, &titles) == ISIS_DONE)
        printf("    title now:     %.*s\n", (int)len, (const char *)mst + start);
    if (isis_view_settled(mst, sizeof mst, xrf, sizeof xrf, mfn, TITLE, 1, &start, &len, &titles) == ISIS_DONE)
        printf("    title settled: %.*s\n", (int)len, (const char *)mst + start);
    else
        printf("    title settled: none yet\n");
}

/* Prints one of the authors of a record, or which kind of missing it is: there are fewer, or none. */
static uint32_t show_author(uint32_t mfn, uint32_t number)
{
    isis_size start, len;
    uint32_t authors;
    uint32_t answer = isis_view(mst, sizeof mst, xrf, sizeof xrf, mfn, AUTHOR, number, &start, &len, &authors);

    if (answer == ISIS_DONE)
        printf("    author %u: %.*s\n", (unsigned)number, (int)len, (const char *)mst + start);
    else if (answer == ISIS_FEWER_FIELDS)
        printf("    author %u: not there, the record has %u\n", (unsigned)number, (unsigned)authors);
    else if (answer == ISIS_NO_FIELD)
        printf("    no author\n");
    return answer;
}

/* Hands out a field by its index: isis_field or isis_field_settled. */
typedef uint32_t field_call(const uint8_t *mst, isis_size mst_len, const uint8_t *xrf, isis_size xrf_len,
                            uint32_t mfn, isis_size index, uint16_t *tag, isis_size *start, isis_size *len);

/* Prints every field of a record in the order of its draft: index 0, 1, 2 and so on
 * until there is none. A field may be empty, and a tag may come more than once. */
static unsigned show_fields(field_call *field, uint32_t mfn)
{
    isis_size start, len;
    unsigned index = 0;
    uint16_t tag;

    while (field(mst, sizeof mst, xrf, sizeof xrf, mfn, index, &tag, &start, &len) == ISIS_DONE) {
        printf("    %5u  %.*s\n", (unsigned)tag, (int)len, (const char *)mst + start);
        index++;
    }
    return index;
}

/* Hands out all fields at once: isis_fields or isis_fields_settled. */
typedef uint32_t fields_call(const uint8_t *mst, isis_size mst_len, const uint8_t *xrf, isis_size xrf_len,
                             uint32_t mfn, uint16_t *tags, isis_size tags_len, isis_size *starts,
                             isis_size starts_len, isis_size *lens, isis_size lens_len, isis_size *count);

/* Prints how many fields a record has and how long they are together, if it has four at most. */
static uint32_t show_length(const char *which, fields_call *fields, uint32_t mfn)
{
    isis_size starts[4], lens[4], count, sum = 0;
    uint16_t four_tags[4];
    uint32_t answer = fields(mst, sizeof mst, xrf, sizeof xrf, mfn, four_tags, 4, starts, 4, lens, 4, &count);

    for (unsigned i = 0; i < count; i++)
        sum += lens[i];
    if (answer == ISIS_DONE)
        printf("    %s: %u fields, %u bytes\n", which, (unsigned)count, (unsigned)sum);
    return answer;
}

/* Prints the mark of a record, and where the next one goes. */
static uint32_t show_state(uint32_t mfn)
{
    static const char *const marks[] = { "settled", "changed", "new" };
    uint32_t mark, deleted, next, answer;
    isis_size end;

    answer = isis_state(mst, sizeof mst, xrf, sizeof xrf, mfn, &mark, &deleted);
    if (answer == ISIS_DONE)
        printf("    MFN %u is %s%s\n", (unsigned)mfn, marks[mark], deleted ? " and deleted" : "");
    answer |= isis_next(mst, sizeof mst, xrf, sizeof xrf, &next, &end);
    printf("    the next MFN is %u, its record begins at %u\n", (unsigned)next, (unsigned)end);
    return answer;
}

/* Prints RECCNT, how many records are neither deleted nor physically deleted: four bytes, the least significant first. */
static uint32_t show_count(void)
{
    const uint8_t *at = mst + ISIS_RECCNT_AT;
    uint32_t count = at[0] | (uint32_t)at[1] << 8 | (uint32_t)at[2] << 16 | (uint32_t)at[3] << 24;

    printf("    RECCNT is %u\n", (unsigned)count);
    return count;
}

/* Tests the first record, which is read from its first byte to the end, and prints where it is broken. */
static uint32_t show_broken(uint32_t mfn)
{
    uint32_t next, entry = 0, answer;
    isis_size end;

    if (isis_next(mst, sizeof mst, xrf, sizeof xrf, &next, &end) != ISIS_DONE)
        return ISIS_BAD_CONTROL;
    answer = isis_record_test(mst + ISIS_FIRST_RECORD, end - ISIS_FIRST_RECORD, mfn, 0, &entry);
    report("test the first record", answer);
    if (answer != ISIS_DONE && entry == 0)
        printf("    its leader is broken\n");
    else if (answer != ISIS_DONE)
        printf("    entry %u of its directory is broken\n", (unsigned)entry);
    return answer;
}

/* A draft: the tags, the length of each field, and the bytes one after the other. */
static const uint16_t tags[] = { TITLE, AUTHOR };

static uint32_t draft_of(const char *title, const char *author, uint16_t lens[2], uint8_t data[128])
{
    lens[0] = (uint16_t)strlen(title);
    lens[1] = (uint16_t)strlen(author);
    memcpy(data, title, lens[0]);
    memcpy(data + lens[0], author, lens[1]);
    return (uint32_t)lens[0] + lens[1];
}

/* A search index: CNT, and for each of its two trees one node, the root, and one leaf. The
 * desktop writes it; here it is made by hand. An order of 1 gives records of two entries. */
static uint8_t cnt[ISIS_CNT];
static uint8_t n01[8 + 2 * (10 + 4)], l01[12 + 2 * (10 + 8)]; /* terms of up to 10 bytes */
static uint8_t n02[8 + 2 * (30 + 4)], l02[12 + 2 * (30 + 8)]; /* longer ones */

/* Writes a number into so many bytes, the lowest first. */
static void put(uint8_t *at, int32_t number, unsigned bytes)
{
    for (unsigned i = 0; i < bytes; i++)
        at[i] = (uint8_t)((uint32_t)number >> 8 * i);
}

/* Writes a tree of one term, whose postings begin at a block and word of the IFP. */
static void write_tree(int type, uint8_t *node, uint8_t *leaf, const char *term, int32_t block, int32_t word)
{
    const unsigned key = type == 1 ? ISIS_SHORT_TERM_MAX : ISIS_TERM_MAX;
    uint8_t *control = cnt + (type - 1) * ISIS_CNT / 2;

    put(control, type, 2);      /* IDTYPE: the tree's type */
    put(control + 2, 1, 2);     /* ORDN: the order of nodes */
    put(control + 4, 1, 2);     /* ORDF: the order of leaves */
    put(control + 12, 1, 4);    /* POSRX: the root is node 1 */
    put(node, 1, 4);            /* POS: its number */
    put(node + 4, 1, 2);        /* OCK: one key is active */
    put(node + 6, type, 2);     /* IT: the tree's type */
    memset(node + 8, ' ', key); /* KEY: the term, padded with spaces */
    memcpy(node + 8, term, strlen(term));
    put(node + 8 + key, -1, 4); /* PUNT: leaf 1 */
    memcpy(leaf, node, 8);      /* POS, OCK and IT are the same; PS stays 0: no leaf follows */
    memcpy(leaf + 12, node + 8, key);
    put(leaf + 12 + key, block, 4);
    put(leaf + 16 + key, word, 4);
}

/* A place in the postings file. */
struct place {
    int32_t block, word;
};

/* Looks a term up and prints where its postings begin. */
static uint32_t look_up(const char *what, const char *term, struct place *at)
{
    uint32_t answer = isis_lookup(cnt, sizeof cnt, n01, sizeof n01, l01, sizeof l01, n02, sizeof n02, l02,
                                  sizeof l02, (const uint8_t *)term, strlen(term), &at->block, &at->word);

    report(what, answer);
    if (answer == ISIS_DONE)
        printf("    postings of %s: block %d, word %d\n", term, (int)at->block, (int)at->word);
    return answer;
}

/* A postings file of one block: the block's number, and words of four bytes. The desktop
 * writes this too. KITE has two segments, so its list is read on from word 2 at word 16. */
static uint8_t ifp[ISIS_BLOCK];

enum { KITE = 2, HOSSEINI = 9, KITE_MORE = 16, UNUSED = 23 };

/* Three postings, eight bytes each, most significant first: the record in three, the field
 * in two, the occurrence of the field in one, the term's number in it in two. */
static const uint8_t kite_1[ISIS_POSTING] = { 0, 0, 1, 0, TITLE, 1, 0, 2 };
static const uint8_t kite_4[ISIS_POSTING] = { 0, 0, 4, 0, TITLE, 1, 0, 3 };
static const uint8_t hosseini_1[ISIS_POSTING] = { 0, 0, 1, 0, AUTHOR, 1, 0, 1 };

/* Where a word of block 1 stands. */
static uint8_t *word_at(unsigned word)
{
    return ifp + 4 + 4 * word;
}

/* Writes a segment of one posting. The next one of its list is in block 1 too; 0 if there is none. */
static void write_segment(unsigned word, int32_t next, int32_t total, const uint8_t posting[ISIS_POSTING])
{
    put(word_at(word), next ? 1 : 0, 4); /* IFPNXTB, IFPNXTP: the next segment's block and word */
    put(word_at(word + 1), next, 4);
    put(word_at(word + 2), total, 4);    /* IFPTOTP: the postings of the whole list */
    put(word_at(word + 3), 1, 4);        /* IFPSEGP: those of this segment */
    put(word_at(word + 4), 1, 4);        /* IFPSEGC: how many it has room for */
    memcpy(word_at(word + 5), posting, ISIS_POSTING);
}

static void write_postings(void)
{
    put(ifp, 1, 4); /* the block's number; words 0 and 1 are the place of the next unused word */
    put(word_at(0), 1, 4);
    put(word_at(1), UNUSED, 4);
    write_segment(KITE, KITE_MORE, 2, kite_1);
    write_segment(HOSSEINI, 0, 1, hosseini_1);
    write_segment(KITE_MORE, 0, 2, kite_4);
}

/* Prints a posting that was handed out, and tells whether its numbers are those of eight
 * bytes, read by the library and written again. */
static int show_posting(uint64_t posting, const uint8_t bytes[ISIS_POSTING])
{
    uint32_t mfn, tag, occurrence, sequence;
    uint8_t written[ISIS_POSTING];

    printf("    MFN %u, field %u, occurrence %u, term %u\n", (unsigned)ISIS_PMFN(posting),
           (unsigned)ISIS_PTAG(posting), (unsigned)ISIS_POCC(posting), (unsigned)ISIS_PCNT(posting));
    return isis_posting_read(bytes, ISIS_POSTING, &mfn, &tag, &occurrence, &sequence) == ISIS_DONE
           && mfn == ISIS_PMFN(posting) && tag == ISIS_PTAG(posting) && occurrence == ISIS_POCC(posting)
           && sequence == ISIS_PCNT(posting)
           && isis_posting_write(mfn, tag, occurrence, sequence, written, sizeof written) == ISIS_DONE
           && memcmp(written, bytes, sizeof written) == 0;
}

/* Gives MFNs of two lists: isis_common or isis_joined. */
typedef uint32_t merge_call(const uint8_t *ifp, isis_size ifp_len, int32_t block_a, int32_t word_a, int32_t block_b,
                            int32_t word_b, uint32_t *mfns, isis_size mfns_len, isis_size *count);

/* Prints the MFNs of two lists, and tells whether they are those that are wanted, two at most. */
static int show_mfns(const char *what, merge_call *merge, struct place a, struct place b, const uint32_t *wanted,
                     unsigned wanted_len)
{
    uint32_t mfns[2] = { 0, 0 };
    isis_size count;

    report(what, merge(ifp, sizeof ifp, a.block, a.word, b.block, b.word, mfns, 2, &count));
    printf("    MFNs:");
    for (unsigned i = 0; i < count; i++)
        printf(" %u", (unsigned)mfns[i]);
    printf("\n");
    return count == wanted_len && memcmp(mfns, wanted, wanted_len * sizeof *wanted) == 0;
}

int main(void)
{
    uint16_t lens[2];
    uint8_t data[128];
    uint32_t mfn, other, size, failed = 0;

    failed |= report("format the card", isis_format(mst, sizeof mst, xrf, sizeof xrf));

    size = draft_of("The Kite Runner", "Hosseini, Khaled", lens, data);
    failed |= report("create a record (touch 1)",
                     isis_create(mst, sizeof mst, xrf, sizeof xrf, tags, 2, lens, 2, data, size, &mfn));
    printf("    its MFN is %u\n", (unsigned)mfn);
    show_title(mfn);
    printf("    its fields:\n");
    if (show_fields(isis_field, mfn) != 2)
        failed = 1;
    if (show_author(mfn, 1) != ISIS_DONE || show_author(mfn, 2) != ISIS_FEWER_FIELDS)
        failed = 1;

    failed |= report("settle it, now indexed (touch 2)",
                     isis_settle(mst, sizeof mst, xrf, sizeof xrf, mfn));

    size = draft_of("The Kite", "Hosseini, Khaled", lens, data);
    failed |= report("update it by mistake (touch 3)",
                     isis_update(mst, sizeof mst, xrf, sizeof xrf, mfn, tags, 2, lens, 2, data, size));
    show_title(mfn);
    failed |= show_length("now", isis_fields, mfn);
    failed |= show_length("settled", isis_fields_settled, mfn);
    failed |= show_state(mfn);

    failed |= report("revert the update (touch 4)",
                     isis_revert(mst, sizeof mst, xrf, sizeof xrf, mfn));
    show_title(mfn);

    /* A refusal changes nothing and names its reason. */
    if (report("revert again: nothing is pending", isis_revert(mst, sizeof mst, xrf, sizeof xrf, mfn))
        != ISIS_NOT_PENDING)
        failed = 1;

    /* A record without fields: the lists of its draft have no element, so they may be NULL. */
    failed |= report("create an empty record (touch 5)",
                     isis_create(mst, sizeof mst, xrf, sizeof xrf, NULL, 0, NULL, 0, NULL, 0, &other));
    if (show_author(other, 1) != ISIS_NO_FIELD)
        failed = 1;
    failed |= report("delete it (touch 6)", isis_delete(mst, sizeof mst, xrf, sizeof xrf, other));
    failed |= show_state(other);
    if (show_fields(isis_field_settled, other) != 0)
        failed = 1;

    /* The index is up to date again, and all is settled in one call. Each MFN has an answer of
     * its own; the first has nothing pending. */
    const uint32_t mfns[] = { mfn, other };
    uint32_t answers[2];
    failed |= report("settle both (touch 7)", isis_settle_list(mst, sizeof mst, xrf, sizeof xrf, mfns, 2, answers, 2));
    printf("    MFN %u: answer %u, MFN %u: answer %u\n", (unsigned)mfn, (unsigned)answers[0], (unsigned)other,
           (unsigned)answers[1]);
    if (answers[0] != ISIS_NOT_PENDING || answers[1] != ISIS_DONE)
        failed = 1;

    failed |= report("check the whole card", isis_check(mst, sizeof mst, xrf, sizeof xrf));
    if (show_count() != 1)
        failed = 1;

    /* A damaged record says where: here POS, two bytes into the second entry of the directory. */
    uint8_t *pos = mst + ISIS_FIRST_RECORD + ISIS_LEADER + ISIS_DIRECTORY_ENTRY + 2;
    failed |= show_broken(mfn);
    ++*pos;
    if (show_broken(mfn) != ISIS_BAD_RECORD)
        failed = 1;
    --*pos;

    /* A card as it was written before isis.h 2.0: NXTMFP, in bytes 12 and 13, is one less. It is
     * migrated once; firmware that meets a 2 from isis_check may try this before it gives up. */
    mst[12]--;
    if (report("check a card of the old rule", isis_check(mst, sizeof mst, xrf, sizeof xrf)) != ISIS_BAD_CONTROL)
        failed = 1;
    failed |= report("migrate it", isis_migrate(mst, sizeof mst, xrf, sizeof xrf));
    failed |= report("check it again", isis_check(mst, sizeof mst, xrf, sizeof xrf));
    if (report("migrate again: it is not old", isis_migrate(mst, sizeof mst, xrf, sizeof xrf)) != ISIS_BAD_CONTROL)
        failed = 1;

    /* A card that was formatted before isis.h 4.0: RECCNT is 0. It is sound apart from that, so it
     * can be read and written, but nothing can be deleted (2); firmware that meets a 14 from
     * isis_check may try this first. */
    mst[ISIS_RECCNT_AT] = 0;
    if (report("check a card that was not counted", isis_check(mst, sizeof mst, xrf, sizeof xrf)) != ISIS_NOT_SOUND)
        failed = 1;
    if (report("delete a record of it", isis_delete(mst, sizeof mst, xrf, sizeof xrf, mfn)) != ISIS_BAD_CONTROL)
        failed = 1;
    failed |= report("count its records", isis_recount(mst, sizeof mst, xrf, sizeof xrf));
    if (show_count() != 1)
        failed = 1;
    failed |= report("check it once more", isis_check(mst, sizeof mst, xrf, sizeof xrf));

    struct place kite, hosseini, none;
    write_tree(1, n01, l01, "KITE", 1, KITE);
    write_tree(2, n02, l02, "HOSSEINI, KHALED", 1, HOSSEINI);
    failed |= report("check the search index",
                     isis_check_index(cnt, sizeof cnt, n01, sizeof n01, l01, sizeof l01, n02, sizeof n02, l02,
                                      sizeof l02));
    failed |= look_up("look a short term up", "KITE", &kite);
    failed |= look_up("look a long term up", "HOSSEINI, KHALED", &hosseini);
    if (look_up("look for what is not there", "WIND", &none) != ISIS_NO_TERM)
        failed = 1;

    /* From the place that a lookup gave: where the term occurs, in ascending order. */
    uint64_t list[2] = { 0, 0 };
    isis_size count;
    write_postings();
    failed |= report("read the postings of KITE",
                     isis_postings(ifp, sizeof ifp, kite.block, kite.word, list, 2, &count));
    if (count != 2 || !show_posting(list[0], kite_1) || !show_posting(list[1], kite_4))
        failed = 1;
    if (isis_posting_compare(list[0], list[1]) != 0) /* 0: the first is less */
        failed = 1;

    /* Both terms are in MFN 1, and KITE is in MFN 4 besides. */
    const uint32_t one_and_four[] = { 1, 4 };
    if (!show_mfns("find records that have both terms", isis_common, kite, hosseini, one_and_four, 1))
        failed = 1;
    if (!show_mfns("find records that have either", isis_joined, kite, hosseini, one_and_four, 2))
        failed = 1;

    /* A list that leads back to its own beginning is refused, and not followed for ever. */
    write_segment(KITE_MORE, KITE, 2, kite_4);
    if (report("read a list that goes round",
               isis_postings(ifp, sizeof ifp, kite.block, kite.word, list, 2, &count))
        != ISIS_BAD_POSTINGS)
        failed = 1;

    puts(failed ? "something was refused" : "all done");
    return failed ? 1 : 0;
}
