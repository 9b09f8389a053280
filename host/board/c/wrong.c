/*
 * wrong.c: a library that is wrong in one way, so that a test sees the runner say so.
 *
 * The linker puts these in the place of isis_check, isis_create, isis_delete, isis_revert,
 * isis_recount, isis_view, isis_field, isis_lookup, isis_postings and isis_record_test (--wrap).
 * Each makes the call and does what WRONG names: behind the call, or in its place.
 */
#include "isis.h"

uint32_t __real_isis_check(const uint8_t *, isis_size, const uint8_t *, isis_size);
uint32_t __real_isis_create(uint8_t *, isis_size, uint8_t *, isis_size, const uint16_t *, isis_size,
                            const uint16_t *, isis_size, const uint8_t *, isis_size, uint32_t *);
uint32_t __real_isis_delete(uint8_t *, isis_size, uint8_t *, isis_size, uint32_t);
uint32_t __real_isis_revert(uint8_t *, isis_size, uint8_t *, isis_size, uint32_t);
uint32_t __real_isis_recount(uint8_t *, isis_size, uint8_t *, isis_size);
uint32_t __real_isis_view(const uint8_t *, isis_size, const uint8_t *, isis_size, uint32_t, uint16_t, uint32_t,
                          isis_size *, isis_size *, uint32_t *);
uint32_t __real_isis_field(const uint8_t *, isis_size, const uint8_t *, isis_size, uint32_t, isis_size, uint16_t *,
                           isis_size *, isis_size *);
uint32_t __real_isis_lookup(const uint8_t *, isis_size, const uint8_t *, isis_size, const uint8_t *, isis_size,
                            const uint8_t *, isis_size, const uint8_t *, isis_size, const uint8_t *, isis_size,
                            int32_t *, int32_t *);
uint32_t __real_isis_postings(const uint8_t *, isis_size, int32_t, int32_t, uint64_t *, isis_size, isis_size *);
uint32_t __real_isis_record_test(const uint8_t *, isis_size, uint32_t, uint32_t, uint32_t *);

enum way {
    READ_BEHIND_MST,
    READ_BEFORE_MST,
    READ_BEHIND_XRF,
    READ_BEFORE_XRF,
    READ_BEHIND_DATA,
    WRITE_BEHIND_MST,
    WRITE_BEFORE_MST,
    WRITE_BEHIND_XRF,
    CHANGE_A_BYTE,
    ANSWER_ONE_MORE,
    LEAVE_THE_MFN,
    READ_AN_ODD_WORD,
    NONE_FOR_FEWER,
    ONE_TOO_FEW,
    ONE_TOO_MANY,
    FEWER_FOR_OCCURRENCE_0,
    LEAVE_THE_OCCURRENCES,
    FEWER_BY_INDEX,
    READ_BEHIND_L01,
    READ_BEFORE_CNT,
    WRITE_BEHIND_N02,
    CHANGE_THE_TERM,
    TAKE_THE_NEXT_WORD,
    LEAVE_THE_BLOCK,
    READ_BEHIND_IFP,
    READ_BEFORE_IFP,
    WRITE_BEHIND_LIST,
    WRITE_BEFORE_LIST,
    CHANGE_THE_IFP,
    CHANGE_A_POSTING,
    LEAVE_THE_COUNT,
    READ_BEHIND_RECORD,
    READ_BEFORE_RECORD,
    CHANGE_THE_RECORD,
    PASS_A_BROKEN_ENTRY,
    COUNT_ENTRIES_FROM_0,
    TELL_AN_ENTRY_OF_A_LEADER,
    LEAVE_THE_ENTRY,
    WRITE_BEHIND_THE_ENTRY,
    CREATE_FORGETS,
    ADD_FOR_A_LIVE_RECORD,
    TAKE_FOR_NO_ROOM,
    REFUSE_BEFORE_NO_MFN,
    CHECK_WITHOUT_RECCNT,
    COUNT_THE_DELETED,
    REFUSE_FOR_RECCNT,
    WRITE_BEHIND_RECCNT,
};

static void read_at(const uint8_t *at)
{
    (void)*(const volatile uint8_t *)at;
}

static void write_at(const uint8_t *at)
{
    *(volatile uint8_t *)at = 0;
}

static void read_word(const uint8_t *at)
{
    uint32_t word;

    __asm__ volatile("ldr %0, [%1]" : "=r"(word) : "r"(at));
}

uint32_t __wrap_isis_check(const uint8_t *mst, isis_size mst_len, const uint8_t *xrf, isis_size xrf_len)
{
    uint32_t answer = __real_isis_check(mst, mst_len, xrf, xrf_len);

    switch ((enum way)WRONG) {
    case READ_BEHIND_MST: read_at(mst + mst_len); break;
    case READ_BEFORE_MST: read_at(mst - 1); break;
    case READ_BEHIND_XRF: read_at(xrf + xrf_len); break;
    case READ_BEFORE_XRF: read_at(xrf - 1); break;
    case WRITE_BEHIND_MST: write_at(mst + mst_len); break;
    case WRITE_BEFORE_MST: write_at(mst - 1); break;
    case WRITE_BEHIND_XRF: write_at(xrf + xrf_len); break;
    case CHANGE_A_BYTE: write_at(mst + 4); break;
    case ANSWER_ONE_MORE: answer++; break;
    case READ_AN_ODD_WORD: read_word((const uint8_t *)((uintptr_t)mst | 1)); break;
    case CHECK_WITHOUT_RECCNT: answer = answer == ISIS_NOT_SOUND ? ISIS_DONE : answer; break;
    default: break;
    }
    return answer;
}

/* RECCNT, at any address. */
static int32_t count_at(const uint8_t *mst)
{
    const uint8_t *at = mst + ISIS_RECCNT_AT;

    return (int32_t)(at[0] | (uint32_t)at[1] << 8 | (uint32_t)at[2] << 16 | (uint32_t)at[3] << 24);
}

uint32_t __wrap_isis_create(uint8_t *mst, isis_size mst_len, uint8_t *xrf, isis_size xrf_len, const uint16_t *tags,
                            isis_size tags_len, const uint16_t *lens, isis_size lens_len, const uint8_t *data,
                            isis_size data_len, uint32_t *mfn)
{
    uint32_t made = 0;
    uint32_t answer = __real_isis_create(mst, mst_len, xrf, xrf_len, tags, tags_len, lens, lens_len, data, data_len,
                                         WRONG == LEAVE_THE_MFN ? &made : mfn);

    if (WRONG == READ_BEHIND_DATA)
        read_at(data + data_len);
    if (WRONG == CREATE_FORGETS && answer == ISIS_DONE)
        mst[ISIS_RECCNT_AT]--;
    return answer;
}

uint32_t __wrap_isis_delete(uint8_t *mst, isis_size mst_len, uint8_t *xrf, isis_size xrf_len, uint32_t mfn)
{
    uint32_t answer = __real_isis_delete(mst, mst_len, xrf, xrf_len, mfn);

    if (WRONG == TAKE_FOR_NO_ROOM && answer == ISIS_NO_ROOM)
        mst[ISIS_RECCNT_AT]--;
    if (WRONG == REFUSE_BEFORE_NO_MFN && answer == ISIS_NO_MFN && count_at(mst) <= 0)
        answer = ISIS_BAD_CONTROL;
    return answer;
}

uint32_t __wrap_isis_revert(uint8_t *mst, isis_size mst_len, uint8_t *xrf, isis_size xrf_len, uint32_t mfn)
{
    int32_t before = count_at(mst);
    uint32_t answer = __real_isis_revert(mst, mst_len, xrf, xrf_len, mfn);

    if (WRONG == ADD_FOR_A_LIVE_RECORD && answer == ISIS_DONE && count_at(mst) == before)
        mst[ISIS_RECCNT_AT]++;
    return answer;
}

uint32_t __wrap_isis_recount(uint8_t *mst, isis_size mst_len, uint8_t *xrf, isis_size xrf_len)
{
    int32_t before = count_at(mst);
    uint32_t answer;

    if (WRONG == REFUSE_FOR_RECCNT && before < 0)
        return ISIS_BAD_CONTROL;
    answer = __real_isis_recount(mst, mst_len, xrf, xrf_len);
    if (WRONG == COUNT_THE_DELETED) /* the highest byte of a deleted record's entry is that of a negative number */
        for (uint32_t i = 1; i < mst[4]; i++)
            mst[ISIS_RECCNT_AT] += xrf[ISIS_ENTRY_AT(i) + 3] >> 7;
    if (WRONG == WRITE_BEHIND_RECCNT)
        write_at(mst + ISIS_RECCNT_AT + 4);
    return answer;
}

uint32_t __wrap_isis_view(const uint8_t *mst, isis_size mst_len, const uint8_t *xrf, isis_size xrf_len, uint32_t mfn,
                          uint16_t tag, uint32_t occurrence, isis_size *start, isis_size *len, uint32_t *occurrences)
{
    uint32_t left = *occurrences;
    uint32_t asked = WRONG == FEWER_FOR_OCCURRENCE_0 && occurrence == 0 ? UINT32_MAX : occurrence;
    uint32_t answer = __real_isis_view(mst, mst_len, xrf, xrf_len, mfn, tag, asked, start, len, occurrences);
    int fewer = answer == ISIS_FEWER_FIELDS;

    switch ((enum way)WRONG) {
    case NONE_FOR_FEWER: answer = fewer ? ISIS_NO_FIELD : answer; break;
    case ONE_TOO_FEW: *occurrences -= fewer; break;
    case ONE_TOO_MANY: *occurrences += fewer; break;
    case LEAVE_THE_OCCURRENCES: *occurrences = fewer ? *occurrences : left; break;
    default: break;
    }
    return answer;
}

uint32_t __wrap_isis_field(const uint8_t *mst, isis_size mst_len, const uint8_t *xrf, isis_size xrf_len, uint32_t mfn,
                           isis_size index, uint16_t *tag, isis_size *start, isis_size *len)
{
    uint32_t answer = __real_isis_field(mst, mst_len, xrf, xrf_len, mfn, index, tag, start, len);

    return WRONG == FEWER_BY_INDEX && answer == ISIS_NO_FIELD ? ISIS_FEWER_FIELDS : answer;
}

uint32_t __wrap_isis_lookup(const uint8_t *cnt, isis_size cnt_len, const uint8_t *n01, isis_size n01_len,
                            const uint8_t *l01, isis_size l01_len, const uint8_t *n02, isis_size n02_len,
                            const uint8_t *l02, isis_size l02_len, const uint8_t *term, isis_size term_len,
                            int32_t *block, int32_t *word)
{
    int32_t left = *block;
    uint32_t answer = __real_isis_lookup(cnt, cnt_len, n01, n01_len, l01, l01_len, n02, n02_len, l02, l02_len, term,
                                         term_len, block, word);

    switch ((enum way)WRONG) {
    case READ_BEHIND_L01: read_at(l01 + l01_len); break;
    case READ_BEFORE_CNT: read_at(cnt - 1); break;
    case WRITE_BEHIND_N02: write_at(n02 + n02_len); break;
    case CHANGE_THE_TERM: write_at(term); break;
    case TAKE_THE_NEXT_WORD: ++*word; break;
    case LEAVE_THE_BLOCK: *block = answer == ISIS_DONE ? *block : left; break;
    default: break;
    }
    return answer;
}

uint32_t __wrap_isis_postings(const uint8_t *ifp, isis_size ifp_len, int32_t block, int32_t word, uint64_t *out,
                              isis_size out_len, isis_size *count)
{
    isis_size left = *count;
    uint32_t answer = __real_isis_postings(ifp, ifp_len, block, word, out, out_len, count);

    switch ((enum way)WRONG) {
    case READ_BEHIND_IFP: read_at(ifp + ifp_len); break;
    case READ_BEFORE_IFP: read_at(ifp - 1); break;
    case WRITE_BEHIND_LIST: write_at((const uint8_t *)(out + out_len)); break;
    case WRITE_BEFORE_LIST: write_at((const uint8_t *)out - 1); break;
    case CHANGE_THE_IFP: write_at(ifp + 20); break;
    case CHANGE_A_POSTING: write_at((const uint8_t *)out); break;
    case LEAVE_THE_COUNT: *count = answer == ISIS_DONE ? *count : left; break;
    default: break;
    }
    return answer;
}

uint32_t __wrap_isis_record_test(const uint8_t *record, isis_size len, uint32_t mfn, uint32_t deleted, uint32_t *entry)
{
    uint32_t left = *entry;
    uint32_t answer = __real_isis_record_test(record, len, mfn, deleted, entry);

    switch ((enum way)WRONG) {
    case READ_BEHIND_RECORD: read_at(record + len); break;
    case READ_BEFORE_RECORD: read_at(record - 1); break;
    case CHANGE_THE_RECORD: write_at(record); break;
    case PASS_A_BROKEN_ENTRY: answer = *entry ? ISIS_DONE : answer; break;
    case COUNT_ENTRIES_FROM_0: *entry -= *entry > 0; break;
    case TELL_AN_ENTRY_OF_A_LEADER: *entry += answer != ISIS_DONE && *entry == 0; break;
    case LEAVE_THE_ENTRY: *entry = answer == ISIS_DONE ? left : *entry; break;
    case WRITE_BEHIND_THE_ENTRY: entry[1] = 0; break;
    default: break;
    }
    return answer;
}
