/*
 * isis.h: a CDS/ISIS catalogue in two lent buffers.
 *
 * A card is two files, each whole in memory: the master file (MST), which holds
 * the records, and the cross-reference file (XRF), which tells where each record
 * stands. A record is named by its MFN, counted from 1. Its fields have tags
 * (1 to 32767); a tag may occur more than once, and occurrences count from 1.
 *
 * A change is pending until it is settled, that is until the search index has
 * been brought up to date. While a change of a settled record is pending, the
 * settled version can still be read, and revert makes it current again.
 *
 * The MST begins with the control record, which says where the next record goes,
 * the end: its block, and in bytes 12 and 13 its offset in the block plus 1
 * (NXTMFP), as desktop programs write it. Cards written before isis.h 2.0 have the
 * offset itself there; isis_migrate makes them cards of today, and until then every
 * other function but isis_format answers 2 to them, isis_settle_list for each MFN.
 *
 * Bytes 16 to 19 of the control record (RECCNT, a signed number) hold how many records
 * are there that are neither deleted nor physically deleted, as the desktop's statistics
 * page reads it. isis_create, isis_delete and isis_revert keep it. A card that was
 * formatted before isis.h 4.0 holds 0 there, others may hold anything; isis_recount
 * writes it, and until then isis_check answers 14 where it is wrong. No other function
 * compares it with the records: each does its work whatever stands there, but for the
 * numbers that leave no room for one more or one less, see isis_create, isis_delete and
 * isis_revert. So isis_delete answers 2 to a card that holds 0 until it is recounted.
 *
 * Every function may be called on any bytes with any arguments; it stays inside
 * what it is lent and always ends. C's own rules are all that is asked for:
 *   - every pointer is valid for its length, counted in elements;
 *   - a pointer may be NULL where its length is 0; an output's may not;
 *   - no area that is written overlaps another area.
 * A refused call (any answer but 0) changes no byte of the MST, the XRF or a list
 * that it is lent for its outputs, and sets its other outputs to 0, but for the two
 * that come with an answer: the number of occurrences with 15, and the number of an
 * entry with isis_record_test's 8. A call that is done writes its outputs and the bytes
 * that its paragraph names under "Touches", and no other; what is lent as const is only
 * read. So firmware needs to flush no more than these.
 *
 * Nothing is kept between calls and nothing is allocated: every function may be
 * entered again while it runs, from an interrupt or another thread, as long as no
 * call writes a buffer that another one is using.
 *
 * The archive. `rt lib` in crates/isis writes it for x86-64, `./key-archive` for
 * cortex-m0, cortex-m3, cortex-m4 and 64-bit Arm, all from one proved module.
 * The one for x86-64 is compiled for x86-64-v2: the processor has SSE4.2 and POPCNT.
 * Lengths have 64 bits on every one of them, see isis_size. What it needs from
 * the program that it is linked into:
 *   x86-64     memcpy memset
 *   aarch64    memcpy memset
 *   cortex-m0  __aeabi_lmul __aeabi_memclr __aeabi_memcpy __aeabi_uidiv __aeabi_uldivmod
 *   cortex-m3  __aeabi_memclr __aeabi_memcpy __aeabi_uldivmod
 *   cortex-m4  __aeabi_memclr __aeabi_memcpy __aeabi_uldivmod
 * The C library and the compiler's own have them. The code for cortex-m3 and
 * cortex-m4 reads and writes words at any address, so UNALIGN_TRP stays 0, as it
 * is after reset.
 */
#ifndef ISIS_H
#define ISIS_H

#include <stddef.h>
#include <stdint.h>

#ifdef __cplusplus
extern "C" {
#endif

/* The interface. The first number rises when a function that was here changes, the second when something is added. */
#define ISIS_VERSION_MAJOR 4
#define ISIS_VERSION_MINOR 0

/* The format. */
#define ISIS_BLOCK           512     /* bytes of a block, of either file */
#define ISIS_MST_BLOCKS_MAX  1048575 /* an MST has 1 to so many blocks */
#define ISIS_XRF_BLOCKS_MAX  4096    /* an XRF has 1 to so many blocks */
#define ISIS_MFNS_PER_BLOCK  127     /* MFNs that a block of the XRF has entries for */
#define ISIS_FIRST_RECORD    64      /* the first record's place; the control record stands before it */
#define ISIS_LEADER          18      /* bytes of a record's leader, and so of the shortest record */
#define ISIS_DIRECTORY_ENTRY 6       /* bytes of a record's directory for each field */
#define ISIS_RECORD_MAX      32766   /* bytes of the longest record */
#define ISIS_TAG_MAX         32767   /* the highest tag; the lowest is 1 */
#define ISIS_FIELDS_MAX      5458    /* the most fields of a record */
#define ISIS_RECCNT_AT       16      /* where the four bytes of RECCNT begin in the MST */
#define ISIS_CNT             52      /* bytes of an index's CNT */
#define ISIS_SHORT_TERM_MAX  10      /* bytes of the longest term of the first tree */
#define ISIS_TERM_MAX        30      /* bytes of the longest term */
#define ISIS_NODES_MAX       16      /* the most nodes on one way down from a root */
#define ISIS_SETTLE_MAX      4096    /* the most MFNs that isis_settle_list takes */
#define ISIS_POSTING         8       /* bytes of a posting in the IFP */
#define ISIS_IFP_WORDS       127     /* words of a block of the IFP, behind the block's number */
#define ISIS_IFP_HEADER_MAX  120     /* the last word of a block at which a segment begins; the first is 0 */

/* Bytes that a draft of so many fields and so many bytes of data takes in the MST: always even. */
#define ISIS_NEED(fields, data) ((ISIS_LEADER + ISIS_DIRECTORY_ENTRY * (fields) + (data) + 1) / 2 * 2)

/* Where the four bytes of an MFN's entry begin in the XRF. */
#define ISIS_ENTRY_AT(mfn) \
    (((mfn) - 1) / ISIS_MFNS_PER_BLOCK * ISIS_BLOCK + 4 + ((mfn) - 1) % ISIS_MFNS_PER_BLOCK * 4)

/* The four numbers of a posting as isis_postings hands it out: the record, the field identifier, the occurrence of
   the field, and the term's number in it. */
#define ISIS_PMFN(posting) ((uint32_t)((posting) >> 40))
#define ISIS_PTAG(posting) ((uint16_t)((posting) >> 24))
#define ISIS_POCC(posting) ((uint8_t)((posting) >> 16))
#define ISIS_PCNT(posting) ((uint16_t)(posting))

/* A length, a start or an index: 64 bits wide on every processor, as in the library's proofs. */
#if SIZE_MAX == UINT64_MAX
typedef size_t isis_size;
#else
typedef uint64_t isis_size;
#endif

/* No compiler accepts this where isis_size is not what the archive passes. */
typedef char isis_size_has_64_bits[sizeof(isis_size) == 8 && (isis_size)-1 > 0 ? 1 : -1];

/* The answers. Where more than one refusal applies, the lowest number is given, but for 17: it comes last, so 23 before 17. */
enum isis_answer {
    ISIS_DONE            = 0,  /* done */
    ISIS_BAD_LENGTH      = 1,  /* a buffer is not 1 to 1048575 (MST) or 1 to 4096 (XRF) blocks of 512 bytes */
    ISIS_BAD_CONTROL     = 2,  /* the control record (MST bytes 0 to 15) is not right; isis_migrate: not right by the
                                  rule before isis.h 2.0; create, revert: RECCNT is 2147483647; delete: RECCNT is 0
                                  or below, and none of 4 to 9 applies */
    ISIS_BAD_DRAFT       = 3,  /* the draft is not right, see isis_create */
    ISIS_NO_MFN          = 4,  /* the MFN is 0 or was never given out */
    ISIS_NO_SLOT         = 5,  /* create: every MFN of the XRF is given out */
    ISIS_BAD_ENTRY       = 6,  /* the MFN's entry names no place that a record can have, holds both marks, or is 0;
                                  the first integer of its XRF block is wrong; create: the next MFN's entry is not 0 */
    ISIS_GONE            = 7,  /* the record is physically deleted */
    ISIS_BAD_RECORD      = 8,  /* the record, or the settled version that is needed, is not well formed, see
                                  isis_record_test */
    ISIS_DELETED         = 9,  /* the record is deleted, pending or settled; where the settled version is asked for:
                                  deleted, and the deletion is settled */
    ISIS_NOT_PENDING     = 10, /* settle, revert: nothing is pending */
    ISIS_NEVER_SETTLED   = 11, /* revert, a field of the settled version: the record was never settled */
    ISIS_NO_FIELD        = 12, /* the tag does not occur, or occurrence 0 is asked for; no field of that index */
    ISIS_NO_ROOM         = 13, /* the record does not fit before the end of the MST */
    ISIS_NOT_SOUND       = 14, /* check: the store is not sound; recount: not sound apart from RECCNT */
    ISIS_FEWER_FIELDS    = 15, /* a view by tag: the tag occurs, but fewer times than asked for */
    ISIS_NO_ROOM_IN_LIST = 17, /* a list that is lent for outputs is too short for them; isis_settle_list: the two
                                  lists are not equally long, or over-long */
    ISIS_BAD_TERM        = 20, /* lookup: the term is not 1 to 30 bytes long, or ends with a space */
    ISIS_BAD_INDEX       = 21, /* lookup, index check: a rule of the index is broken, see isis_lookup */
    ISIS_NO_TERM         = 22, /* lookup: the index does not hold the term */
    ISIS_BAD_POSTINGS    = 23  /* a list of postings breaks a rule, see isis_postings; a posting: fewer than eight bytes
                                  to read, or a number too wide to write */
};

/*
 * Empties a card: both buffers are filled with zero and get the control record
 * and the block numbers of an empty catalogue; RECCNT is 0. Answers 0 or 1.
 * Touches every byte of both.
 */
uint32_t isis_format(uint8_t *mst, isis_size mst_len, uint8_t *xrf, isis_size xrf_len);

/*
 * Shows a field of the current version of a record. The field is the part
 * mst[*start] to mst[*start + *len - 1]; it may be empty.
 * Answers 0, 1, 2, 4, 6, 7, 8, 9, 12 or 15: 12 if no field of the record has the
 * tag, or occurrence 0 is asked for; 15 if some have it, but fewer than asked for.
 * *occurrences is how many have it where the answer is 15, and 0 where it is any
 * other, 0 among them. No record has occurrence UINT32_MAX of a tag, so who asks for
 * it is told how many there are.
 */
uint32_t isis_view(const uint8_t *mst, isis_size mst_len, const uint8_t *xrf, isis_size xrf_len,
                   uint32_t mfn, uint16_t tag, uint32_t occurrence,
                   isis_size *start, isis_size *len, uint32_t *occurrences);

/*
 * Shows a field of the settled version of a record: the version before the
 * pending change, or the current one if nothing is pending. It is there even
 * while the deletion of the record is pending.
 * Answers 0, 1, 2, 4, 6, 7, 8, 9, 11, 12 or 15; *occurrences is how many fields of
 * the settled version have the tag where the answer is 15, and 0 otherwise.
 */
uint32_t isis_view_settled(const uint8_t *mst, isis_size mst_len, const uint8_t *xrf, isis_size xrf_len,
                           uint32_t mfn, uint16_t tag, uint32_t occurrence,
                           isis_size *start, isis_size *len, uint32_t *occurrences);

/*
 * Hands out a field of the current version of a record by its index in the
 * record's directory, counted from 0: its tag, and where it lies as in isis_view.
 * The indexes from 0 up to the first answer 12 give every field, in the order of
 * the draft that wrote them. Answers 0, 1, 2, 4, 6, 7, 8, 9 or 12.
 */
uint32_t isis_field(const uint8_t *mst, isis_size mst_len, const uint8_t *xrf, isis_size xrf_len,
                    uint32_t mfn, isis_size index, uint16_t *tag, isis_size *start, isis_size *len);

/*
 * The same for the settled version, as in isis_view_settled.
 * Answers 0, 1, 2, 4, 6, 7, 8, 9, 11 or 12.
 */
uint32_t isis_field_settled(const uint8_t *mst, isis_size mst_len, const uint8_t *xrf, isis_size xrf_len,
                            uint32_t mfn, isis_size index, uint16_t *tag, isis_size *start, isis_size *len);

/*
 * Hands out all fields of the current version of a record in one call, in the
 * order of the record's directory: tags[i], and the part of the MST that begins
 * at starts[i] and has lens[i] bytes. *count is the number of fields; the first so
 * many elements of each list are written and the others kept. A record has at
 * most ISIS_FIELDS_MAX fields.
 * Answers 0, 1, 2, 4, 6, 7, 8, 9 or 17, the last where one of the three lists has
 * fewer elements than the record has fields.
 */
uint32_t isis_fields(const uint8_t *mst, isis_size mst_len, const uint8_t *xrf, isis_size xrf_len,
                     uint32_t mfn, uint16_t *tags, isis_size tags_len,
                     isis_size *starts, isis_size starts_len,
                     isis_size *lens, isis_size lens_len, isis_size *count);

/*
 * The same for the settled version, as in isis_view_settled.
 * Answers 0, 1, 2, 4, 6, 7, 8, 9, 11 or 17.
 */
uint32_t isis_fields_settled(const uint8_t *mst, isis_size mst_len, const uint8_t *xrf, isis_size xrf_len,
                             uint32_t mfn, uint16_t *tags, isis_size tags_len,
                             isis_size *starts, isis_size starts_len,
                             isis_size *lens, isis_size lens_len, isis_size *count);

/*
 * Tells what the next create is given: its MFN, and the end, where its record
 * begins in the MST. Answers 0, 1 or 2.
 */
uint32_t isis_next(const uint8_t *mst, isis_size mst_len, const uint8_t *xrf, isis_size xrf_len,
                   uint32_t *next, isis_size *end);

/*
 * Tells the state of a record: *mark is 0 if nothing is pending, 1 if a settled
 * record was changed, 2 if the record was never settled; *deleted is 1 if it is
 * deleted, pending or settled, and 0 if not. Answers 0, 1, 2, 4, 6, 7 or 8.
 */
uint32_t isis_state(const uint8_t *mst, isis_size mst_len, const uint8_t *xrf, isis_size xrf_len,
                    uint32_t mfn, uint32_t *mark, uint32_t *deleted);

/*
 * Writes a new record at the end of the MST, pending, and gives its MFN. RECCNT grows
 * by one.
 * The draft is three lists: the fields' tags, their lengths, and their bytes one
 * after the other. It is right if tags_len equals lens_len, every tag is in 1 to
 * 32767, the lengths sum to data_len, and ISIS_NEED(tags_len, data_len) is at most
 * 32766. No fields and empty fields are permitted.
 * Answers 0, 1, 2, 3, 5, 6 or 13; 2 too where RECCNT is 2147483647, whatever the draft.
 * Touches bytes 4 to 13 and 16 to 19 of the MST, as many bytes as the draft needs from
 * the end on, and the four bytes of the MFN's entry in the XRF.
 */
uint32_t isis_create(uint8_t *mst, isis_size mst_len, uint8_t *xrf, isis_size xrf_len,
                     const uint16_t *tags, isis_size tags_len,
                     const uint16_t *lens, isis_size lens_len,
                     const uint8_t *data, isis_size data_len, uint32_t *mfn);

/*
 * Replaces all fields of a record by a draft's; the change is pending. The
 * settled version, if there is one, is kept.
 * Answers 0, 1, 2, 3, 4, 6, 7, 8, 9 or 13.
 * Touches the record's own bytes in the MST if it was pending and is long enough
 * for the draft; otherwise bytes 8 to 13 of the MST, as many bytes as the draft
 * needs from the end on, and the four bytes of the entry in the XRF.
 */
uint32_t isis_update(uint8_t *mst, isis_size mst_len, uint8_t *xrf, isis_size xrf_len, uint32_t mfn,
                     const uint16_t *tags, isis_size tags_len,
                     const uint16_t *lens, isis_size lens_len,
                     const uint8_t *data, isis_size data_len);

/*
 * Deletes a record; the deletion is pending. Its settled version, if there is
 * one, is kept. RECCNT falls by one.
 * Answers 0, 1, 2, 4, 6, 7, 8, 9 or 13; 2 too where RECCNT is 0 or below and none of 4
 * to 9 applies, and so before 13.
 * Touches the four bytes of the entry in the XRF and bytes 16 to 19 of the MST; the
 * record's own bytes in the MST if it was pending, otherwise bytes 8 to 13 and, from
 * the end on, as many bytes as a draft of its fields needs.
 */
uint32_t isis_delete(uint8_t *mst, isis_size mst_len, uint8_t *xrf, isis_size xrf_len, uint32_t mfn);

/*
 * Makes the pending change of a record final: to be called once the search index
 * describes the current version. Answers 0, 1, 2, 4, 6, 7, 8 or 10.
 * Touches bytes 6 to 11 of the record and the four bytes of its entry in the XRF.
 */
uint32_t isis_settle(uint8_t *mst, isis_size mst_len, uint8_t *xrf, isis_size xrf_len, uint32_t mfn);

/*
 * Settles each MFN of a list, in order, as isis_settle does, and writes its answer
 * (0, 1, 2, 4, 6, 7, 8 or 10) to the same place of answers. So the same MFN again
 * after a 0 gets 10, unless an earlier check refuses it, and on buffers of a length
 * that is not permitted every answer is 1. The call itself answers 0, or 17, before
 * anything is read, if the two lists are not equally long or have more than
 * ISIS_SETTLE_MAX elements; then nothing is changed, answers included.
 * Touches bytes 6 to 11 of each record that is settled and the four bytes of its
 * entry in the XRF, and all of answers.
 */
uint32_t isis_settle_list(uint8_t *mst, isis_size mst_len, uint8_t *xrf, isis_size xrf_len,
                          const uint32_t *mfns, isis_size mfns_len, uint32_t *answers, isis_size answers_len);

/*
 * Makes the settled version of a record current again, whatever was done since;
 * a pending deletion is undone too, and then RECCNT grows by one.
 * Answers 0, 1, 2, 4, 6, 7, 8, 10 or 11; 2 too where RECCNT is 2147483647, whatever the
 * record.
 * Touches the four bytes of the entry in the XRF, and bytes 16 to 19 of the MST if a
 * deletion is undone; otherwise nothing of the MST.
 */
uint32_t isis_revert(uint8_t *mst, isis_size mst_len, uint8_t *xrf, isis_size xrf_len, uint32_t mfn);

/*
 * Makes a card written before isis.h 2.0 one of today: NXTMFP becomes the number
 * that stands there plus 1. Answers 0, 1 or 2, the last where the control record is
 * not right by the rule of that time, under which NXTMFP is the end's offset, even
 * and at most 498. A card of today is not right by it, so a second call answers 2
 * and changes nothing. Afterwards the card holds what it held: the same end, the
 * same records and fields, and it is sound apart from RECCNT exactly if it was.
 * RECCNT is neither read nor written: isis_recount comes next.
 * Touches bytes 12 and 13 of the MST, and nothing of the XRF.
 */
uint32_t isis_migrate(uint8_t *mst, isis_size mst_len, uint8_t *xrf, isis_size xrf_len);

/*
 * Writes RECCNT of a card that did not keep it: the number of records whose entry is
 * neither deleted nor physically deleted. Answers 0, 1, 2 or 14, the last where the
 * store is not sound apart from RECCNT; what RECCNT holds never refuses it. Where it
 * answers 0 the card is sound then; one that was sound stays as it is, byte by byte.
 * Touches bytes 16 to 19 of the MST, and nothing of the XRF.
 */
uint32_t isis_recount(uint8_t *mst, isis_size mst_len, uint8_t *xrf, isis_size xrf_len);

/*
 * Checks the whole store: 0 exactly if it is sound, otherwise 1, 2 or 14. A store whose
 * RECCNT is not the number of records that are neither deleted nor physically deleted
 * is not sound; isis_recount mends it if it is sound apart from that.
 */
uint32_t isis_check(const uint8_t *mst, isis_size mst_len, const uint8_t *xrf, isis_size xrf_len);

/*
 * Tests a single record, as every function that names an MFN does before it uses the
 * record, and says where it is broken. record begins at the record's first byte and
 * stops at the store's end, so that len is the end (see isis_next) less the record's
 * address; what stands behind the record changes nothing. deleted is 0 for a record whose
 * entry in the XRF says that it is not deleted, and anything else for one that is.
 *
 * The leader is right if there are 18 bytes; the MFN field is mfn, compared as 32 bits;
 * MFRL is even, in 18 to 32766 and at most len; BASE is 18 + 6 times NVF and at most
 * MFRL; and STATUS is 0, or 1 for a deleted record. An entry of the directory is right if
 * its TAG is in 1 to 32767; its POS is 0 in the first entry, and the one before plus its
 * LEN in every other; and the lengths up to its own sum to at most MFRL - BASE.
 *
 * Answers 0 or 8. *entry is the number, from 1, of the first entry that breaks a rule; 0
 * where the record passes or its leader already fails. The back pointer is no part of
 * this test, since it needs the mark and the addresses: where another function answers 8
 * to a record that passes, it is the back pointer that is wrong, or the settled version.
 */
uint32_t isis_record_test(const uint8_t *record, isis_size len, uint32_t mfn, uint32_t deleted, uint32_t *entry);

/*
 * The search index of a catalogue: five files, each whole in memory, which the two
 * functions below only read. CNT describes two B*trees, one for terms of up to 10
 * bytes (nodes in N01, leaves in L01) and one for terms of 11 to 30 (N02, L02).
 *
 * Looks a term up and gives the place in the postings file (IFP) where the list of
 * its postings begins: block and word as they stand beside the first key of the leaf
 * that equals the term. The term is padded with spaces and compared with the keys
 * byte by byte as unsigned numbers; capitals are the caller's to make.
 * Answers 0, 20, 21 or 22. 21 is given where CNT does not have 52 bytes; where its
 * part for the term's tree has another tree's type or an order that is not 1 to 16;
 * where a node or leaf on the way is not there, has another number or type than its
 * own, or a count of keys that is not 1 to twice the order; where a node on the way
 * has a pointer 0 among its active entries; and where there are more than 16 nodes on
 * the way. At most 16 nodes and one leaf are read, and nothing of the other tree.
 * 22 is given too where the term is below every key of a node on the way.
 */
uint32_t isis_lookup(const uint8_t *cnt, isis_size cnt_len, const uint8_t *n01, isis_size n01_len,
                     const uint8_t *l01, isis_size l01_len, const uint8_t *n02, isis_size n02_len,
                     const uint8_t *l02, isis_size l02_len, const uint8_t *term, isis_size term_len,
                     int32_t *block, int32_t *word);

/*
 * Checks the whole index: 0 exactly if in both trees no rule of 21 is broken by what
 * is met from the root, keys ascend strictly in nodes and along the leaves, each
 * pointer's key is the first key of its target, and the walk from the root meets no
 * leaf twice, in the order of the leaves' successors, of which the last is 0.
 * Otherwise 21. On an index that passes, a lookup finds a term exactly if a leaf
 * that is met from the root of the term's tree holds it.
 */
uint32_t isis_check_index(const uint8_t *cnt, isis_size cnt_len, const uint8_t *n01, isis_size n01_len,
                          const uint8_t *l01, isis_size l01_len, const uint8_t *n02, isis_size n02_len,
                          const uint8_t *l02, isis_size l02_len);

/*
 * The postings file (IFP) of a search index, whole in memory: for each term a list of
 * postings, of which each says where the term occurs. A posting has four numbers: the
 * record (PMFN, 24 bits), the field identifier that the indexing program assigned (PTAG,
 * 16), the occurrence of the field (POCC, 8), and the term's number in it (PCNT, 16). In
 * the file it is eight bytes, most significant first. In a list that is handed out it is
 * the number PMFN x 2^40 + PTAG x 2^24 + POCC x 2^16 + PCNT of the machine, which
 * ISIS_PMFN and the others take apart.
 *
 * Reads the four numbers of a posting from the first eight of len bytes. Answers 0, or 23
 * where there are fewer than eight.
 */
uint32_t isis_posting_read(const uint8_t *bytes, isis_size len,
                           uint32_t *mfn, uint32_t *tag, uint32_t *occurrence, uint32_t *sequence);

/*
 * Writes a posting of four numbers. Answers 0; 23 where a number is too wide for its
 * bits; 17 where out has fewer than eight bytes. Touches the first eight bytes of out.
 */
uint32_t isis_posting_write(uint32_t mfn, uint32_t tag, uint32_t occurrence, uint32_t sequence,
                            uint8_t *out, isis_size out_len);

/*
 * Compares two postings by PMFN, PTAG, POCC and PCNT in this order: 0 if a is less than
 * b, 1 if they are equal, 2 if a is greater. These are no answers of the list above. The
 * eight bytes of two postings, compared as unsigned bytes from the first on, stand in the
 * same order.
 */
uint32_t isis_posting_compare(uint64_t a, uint64_t b);

/*
 * Hands out the postings of the list that begins at a block and word of the IFP, as
 * isis_lookup gives them, in stored order. *count is their number; the first so many
 * elements of out are written and the others kept.
 *
 * A block has 512 bytes: its number, and words 0 to 126 of four bytes. Blocks count from
 * 1. A list is one segment or more. A segment's header is five words: the block and word
 * of the next segment, which are 0 and 0 in the last; the total of the list's postings,
 * read in the first segment only; the count of postings in this segment; its capacity.
 * Its postings follow, two words each. None is split between two blocks: where a single
 * word is left, the posting stands at word 0 of the next block. Neither the numbers of
 * the blocks nor the pointer to free space in block 1 are read, and the file may have any
 * length.
 *
 * Answers 0, 23 or 17; 23 before 17. 23 is given where a header, the first or one that
 * another names, does not stand whole in the file at one of words 0 to 120 of a block;
 * where a posting that is counted is not whole in the file; where the first segment's
 * total, or a segment's count or capacity, is below 0, or a count is above its capacity;
 * where the total is not the sum of the counts; where a segment comes twice; and where
 * the postings do not ascend strictly over the whole list. 17 is given where there are
 * more than out_len.
 */
uint32_t isis_postings(const uint8_t *ifp, isis_size ifp_len, int32_t block, int32_t word,
                       uint64_t *out, isis_size out_len, isis_size *count);

/*
 * Gives the MFNs that two lists have in common, ascending, each once. *count is their
 * number; the first so many elements of mfns are written and the others kept. Both lists
 * may begin at the same place.
 * Answers 0, 23 or 17. Both lists are read whole before 17 is given, where there are more
 * than mfns_len: 23 before 17, and by the rules of isis_postings for each list.
 */
uint32_t isis_common(const uint8_t *ifp, isis_size ifp_len,
                     int32_t block_a, int32_t word_a, int32_t block_b, int32_t word_b,
                     uint32_t *mfns, isis_size mfns_len, isis_size *count);

/*
 * Gives the MFNs that are in one of two lists or in both, ascending, each once; a list
 * beside itself gives its own. All else is as in isis_common.
 */
uint32_t isis_joined(const uint8_t *ifp, isis_size ifp_len,
                     int32_t block_a, int32_t word_a, int32_t block_b, int32_t word_b,
                     uint32_t *mfns, isis_size mfns_len, isis_size *count);

#ifdef __cplusplus
}
#endif

#endif
