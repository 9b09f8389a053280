/*
 * null.c: a pointer may be NULL where its length is 0. Every function is called so, for
 * each area that it is lent; the exit status is the line of the first wrong answer.
 */
#include "isis.h"

static uint8_t mst[2 * ISIS_BLOCK], xrf[ISIS_BLOCK];

#define IS(answer, call) \
    if ((call) != (answer)) \
    return __LINE__

#define NO_CARD NULL, 0, NULL, 0
#define CARD mst, sizeof mst, xrf, sizeof xrf
#define NO_DRAFT NULL, 0, NULL, 0, NULL, 0
#define NO_LISTS NULL, 0, NULL, 0, NULL, 0
#define NO_INDEX NULL, 0, NULL, 0, NULL, 0, NULL, 0, NULL, 0

int main(void)
{
    isis_size start, len, end, count;
    uint32_t mfn, next, mark, deleted, answer, occurrences;
    const uint32_t one = 1;
    uint16_t tag;
    int32_t block, word;
    uint32_t sequence;
    uint8_t bytes[ISIS_POSTING];
    uint64_t posting;
    static uint8_t empty_list[ISIS_BLOCK]; /* at word 0 of block 1 a header of five zeros */

    IS(ISIS_BAD_LENGTH, isis_format(NO_CARD));
    IS(ISIS_BAD_LENGTH, isis_format(mst, sizeof mst, NULL, 0));
    IS(ISIS_BAD_LENGTH, isis_format(NULL, 0, xrf, sizeof xrf));
    IS(ISIS_BAD_LENGTH, isis_view(NO_CARD, 1, 24, 1, &start, &len, &occurrences));
    IS(ISIS_BAD_LENGTH, isis_view_settled(NO_CARD, 1, 24, 1, &start, &len, &occurrences));
    IS(ISIS_BAD_LENGTH, isis_field(NO_CARD, 1, 0, &tag, &start, &len));
    IS(ISIS_BAD_LENGTH, isis_field_settled(NO_CARD, 1, 0, &tag, &start, &len));
    IS(ISIS_BAD_LENGTH, isis_fields(NO_CARD, 1, NO_LISTS, &count));
    IS(ISIS_BAD_LENGTH, isis_fields_settled(NO_CARD, 1, NO_LISTS, &count));
    IS(ISIS_BAD_LENGTH, isis_next(NO_CARD, &next, &end));
    IS(ISIS_BAD_LENGTH, isis_state(NO_CARD, 1, &mark, &deleted));
    IS(ISIS_BAD_LENGTH, isis_create(NO_CARD, NO_DRAFT, &mfn));
    IS(ISIS_BAD_LENGTH, isis_update(NO_CARD, 1, NO_DRAFT));
    IS(ISIS_BAD_LENGTH, isis_delete(NO_CARD, 1));
    IS(ISIS_BAD_LENGTH, isis_settle(NO_CARD, 1));
    IS(ISIS_BAD_LENGTH, isis_revert(NO_CARD, 1));
    IS(ISIS_DONE, isis_settle_list(NO_CARD, NULL, 0, NULL, 0));
    IS(ISIS_DONE, isis_settle_list(NO_CARD, &one, 1, &answer, 1));
    IS(ISIS_BAD_LENGTH, answer);
    IS(ISIS_NO_ROOM_IN_LIST, isis_settle_list(NO_CARD, &one, 1, NULL, 0));
    IS(ISIS_NO_ROOM_IN_LIST, isis_settle_list(NO_CARD, NULL, 0, &answer, 1));
    IS(ISIS_BAD_LENGTH, isis_migrate(NO_CARD));
    IS(ISIS_BAD_LENGTH, isis_migrate(mst, sizeof mst, NULL, 0));
    IS(ISIS_BAD_LENGTH, isis_migrate(NULL, 0, xrf, sizeof xrf));
    IS(ISIS_BAD_LENGTH, isis_recount(NO_CARD));
    IS(ISIS_BAD_LENGTH, isis_recount(mst, sizeof mst, NULL, 0));
    IS(ISIS_BAD_LENGTH, isis_recount(NULL, 0, xrf, sizeof xrf));
    IS(ISIS_BAD_LENGTH, isis_check(NO_CARD));
    IS(ISIS_BAD_RECORD, isis_record_test(NULL, 0, 1, 0, &mark));
    IS(0, mark);
    IS(ISIS_BAD_TERM, isis_lookup(NO_INDEX, NULL, 0, &block, &word));
    IS(ISIS_BAD_INDEX, isis_lookup(NO_INDEX, (const uint8_t *)"KITE", 4, &block, &word));
    IS(ISIS_BAD_INDEX, isis_check_index(NO_INDEX));
    IS(ISIS_BAD_POSTINGS, isis_posting_read(NULL, 0, &mfn, &next, &mark, &sequence));
    IS(ISIS_BAD_POSTINGS, isis_posting_write(0, 0, 256, 0, NULL, 0));
    IS(ISIS_NO_ROOM_IN_LIST, isis_posting_write(0, 0, 255, 0, NULL, 0));
    IS(ISIS_DONE, isis_posting_write(0, 0, 255, 0, bytes, sizeof bytes));
    IS(ISIS_BAD_POSTINGS, isis_postings(NULL, 0, 1, 0, NULL, 0, &count));
    IS(ISIS_BAD_POSTINGS, isis_postings(NULL, 0, 1, 0, &posting, 1, &count));
    IS(ISIS_BAD_POSTINGS, isis_common(NULL, 0, 1, 0, 1, 0, NULL, 0, &count));
    IS(ISIS_BAD_POSTINGS, isis_joined(NULL, 0, 1, 0, 1, 0, NULL, 0, &count));
    IS(ISIS_DONE, isis_postings(empty_list, sizeof empty_list, 1, 0, NULL, 0, &count));
    IS(ISIS_DONE, isis_common(empty_list, sizeof empty_list, 1, 0, 1, 0, NULL, 0, &count));
    IS(ISIS_DONE, isis_joined(empty_list, sizeof empty_list, 1, 0, 1, 0, NULL, 0, &count));
    IS(0, count);

    IS(ISIS_DONE, isis_format(CARD));
    IS(ISIS_DONE, isis_create(CARD, NO_DRAFT, &mfn));
    IS(1, mfn);
    IS(ISIS_DONE, isis_update(CARD, mfn, NO_DRAFT));
    IS(ISIS_NO_FIELD, isis_field(CARD, mfn, 0, &tag, &start, &len));
    IS(ISIS_DONE, isis_fields(CARD, mfn, NO_LISTS, &count));
    IS(0, count);
    IS(ISIS_DONE, isis_recount(CARD));
    IS(1, mst[ISIS_RECCNT_AT]);
    IS(ISIS_DONE, isis_check(CARD));
    return 0;
}
