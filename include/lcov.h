/* The LCOV gatherer in the C calling form. Link the static library: `make install` and `pkg-config --libs lcov`, or
 * crates/lcov_c/out/liblcov_c.a, which `rt lib` in crates/lcov_c writes.
 *
 * Any bytes and any buffers may be handed in: every call returns. A slice is a pointer and a length; a pointer may be anything where the
 * length is 0. Slices that are written to must not overlap others of the call.
 *
 * A call that can be refused returns 0, or a number of `enum lcov_refusal`, and puts eight words into `answer` where that holds them all (a
 * shorter slice stays). On a refusal they are
 *    text index from 0, line from 1, field from 1, needed length, 0, 0, 0, 0      (what does not apply is 0)
 */
#ifndef LCOV_H
#define LCOV_H

#include <stddef.h>
#include <stdint.h>

#ifdef __cplusplus
extern "C" {
#endif

#define LCOV_VERSION "0.1.0"

/* The words of an answer. */
#define LCOV_ANSWER_WORDS 8

/* So many words of scratch allow one entry. */
#define LCOV_WORDS_PER_ENTRY 32

/* The most entries, however long the scratch. */
#define LCOV_MAX_ENTRIES 65535

/* The most texts that a bundle names. */
#define LCOV_MAX_TEXTS 64

/* The most texts of a window. */
#define LCOV_MAX_WIDTH 16

/* Labs are numbered from 1 to this, and each has so many words of marks. */
#define LCOV_LABS 8
#define LCOV_MARK_WORDS 5

/* A table of tags: so many kinds of record, so many bytes for a tag, and so many for the table, which has a length and a tag for each kind. */
#define LCOV_KINDS 13
#define LCOV_TAG_SLOT 16
#define LCOV_TAGS_LEN 221

/* The table that the calls without one use: `static const uint8_t tags[LCOV_TAGS_LEN] = LCOV_DEFAULT_TAGS;`. */
#define LCOV_DEFAULT_TAGS \
    { \
        2, 2, 2, 4, 3, 3, 4, 3, 3, 2, 2, 2, 13, \
        'T', 'N', 0, 0, 0, 0, 0, 0, 0, 0, 0, 0, 0, 0, 0, 0, \
        'S', 'F', 0, 0, 0, 0, 0, 0, 0, 0, 0, 0, 0, 0, 0, 0, \
        'F', 'N', 0, 0, 0, 0, 0, 0, 0, 0, 0, 0, 0, 0, 0, 0, \
        'F', 'N', 'D', 'A', 0, 0, 0, 0, 0, 0, 0, 0, 0, 0, 0, 0, \
        'F', 'N', 'F', 0, 0, 0, 0, 0, 0, 0, 0, 0, 0, 0, 0, 0, \
        'F', 'N', 'H', 0, 0, 0, 0, 0, 0, 0, 0, 0, 0, 0, 0, 0, \
        'B', 'R', 'D', 'A', 0, 0, 0, 0, 0, 0, 0, 0, 0, 0, 0, 0, \
        'B', 'R', 'F', 0, 0, 0, 0, 0, 0, 0, 0, 0, 0, 0, 0, 0, \
        'B', 'R', 'H', 0, 0, 0, 0, 0, 0, 0, 0, 0, 0, 0, 0, 0, \
        'D', 'A', 0, 0, 0, 0, 0, 0, 0, 0, 0, 0, 0, 0, 0, 0, \
        'L', 'F', 0, 0, 0, 0, 0, 0, 0, 0, 0, 0, 0, 0, 0, 0, \
        'L', 'H', 0, 0, 0, 0, 0, 0, 0, 0, 0, 0, 0, 0, 0, 0, \
        'e', 'n', 'd', '_', 'o', 'f', '_', 'r', 'e', 'c', 'o', 'r', 'd', 0, 0, 0 \
    }

/* Why a call is refused, and which of its words are told. */
enum lcov_refusal {
    LCOV_UNKNOWN_RECORD = 1,           /* tag unknown: text, line */
    LCOV_FIELD_NOT_FOUND = 2,          /* field missing: text, line, field */
    LCOV_TOO_MANY_FIELDS = 3,          /* too many fields: text, line */
    LCOV_EMPTY_NUMBER = 4,             /* number empty: text, line, field */
    LCOV_INVALID_DIGIT = 5,            /* bad digit: text, line, field */
    LCOV_NUMBER_OVERFLOW = 6,          /* number too large: text, line, field */
    LCOV_UNEXPECTED_RECORD = 7,        /* TN inside a section: text, line */
    LCOV_UNEXPECTED_EOF = 8,           /* text ends inside a section: text, last line + 1 */
    LCOV_CALL_OVERFLOW = 9,            /* FNDA sum past 2^64 - 1: text, line */
    LCOV_TOO_MANY_ENTRIES = 10,        /* more entries than the scratch allows: text, line; line 0 in a merge */
    LCOV_UNMATCHED_FUNCTION_LINE = 11, /* start lines differ: text */
    LCOV_UNMATCHED_CHECKSUM = 12,      /* checksums differ: text */
    LCOV_COUNT_OVERFLOW = 13,          /* line or branch sum past 2^64 - 1: text */
    LCOV_OUTPUT_TOO_SHORT = 14,        /* output shorter than the bytes to be written: needed length */
    LCOV_RANGES_FULL = 15,             /* range list full */
    LCOV_MALFORMED_BUNDLE = 16,        /* bundle not well formed */
    LCOV_PART_OUTSIDE = 17,            /* record's text part outside the lent text */
    LCOV_MALFORMED_RANGES = 18,        /* range list not well formed */
    LCOV_SIGNED_NUMBER = 19,           /* number with a plus sign: text, line, field */
    LCOV_REPEATED_REVISION = 20,       /* run with the same revision twice: text */
    LCOV_MALFORMED_TAGS = 21,          /* table of tags not well formed */
    LCOV_EQUAL_TAGS = 22,              /* two equal tags in the table */
    LCOV_END_BEFORE_START = 23,        /* end line below the start line: text, line */
    LCOV_WIDTH_OUTSIDE = 24,           /* window width 0 or above 16 */
    LCOV_SECOND_SOURCE_FILE = 25,      /* second SF in a section: text, line */
    LCOV_DIFFERENT_KEYS = 27,          /* the two texts do not hold the same keys */
    LCOV_LEAST_ABOVE_GREATEST = 28,    /* a least count above its greatest */
    LCOV_MALFORMED_LABS = 29           /* lab number outside 1 to 8, not one lab number for each text, or not eight quotas */
};

/* Reads one line, with or without its end. The words are
 *    kind, four numbers, given, start, length
 * kind: 1 TN, 2 SF, 3 FN, 4 FNDA, 5 FNF, 6 FNH, 7 BRDA, 8 BRF, 9 BRH, 10 DA, 11 LF, 12 LH, 13 end_of_record;
 * numbers, in the order of the line's fields; for FN the second is the end line where given is 1, and given is 0 where FN gives none; for
 * BRDA the fourth is the taken count where given is 1, and given is 0 for "-";
 * start and length: the text (TN, SF), name (FN, FNDA) or checksum (DA, where given is 1) in the line. What a kind does not have is 0.
 * FN gives an end line where digits alone, one or more, stand between its first two commas; otherwise all after the first comma is the name.
 * Refuses with 1 to 6, 19 and 23. */
uint32_t lcov_read_line(const uint8_t *line, size_t line_len, uint64_t *answer, size_t answer_len);

/* Reads one line and prints its record, with byte 10 after it, to out. The first word is the written length. Bytes past it stay, and all of
 * out stays on a refusal. Refuses with 1 to 6, 14, 19 and 23. */
uint32_t lcov_print_line(const uint8_t *line, size_t line_len, uint8_t *out, size_t out_len, uint64_t *answer, size_t answer_len);

/* Reads one number field, all of it, as the fields of a line are read: a number up to max. The first two words are its value and how many
 * digits were read, leading zeros included; the other six are 0. Refuses an empty field with 4, one whose first byte is '+' with 19, and
 * else byte by byte with 5, if the byte is no digit (a comma is none), or 6, if the number is then above max. A refusal has no place: all
 * its words are 0. */
uint32_t lcov_read_number(const uint8_t *field, size_t field_len, uint64_t max, uint64_t *answer, size_t answer_len);

/* The calls below print a report to out, each record a line with byte 10 after it. The first word is the written length; the other seven
 * are 0. Bytes past the written length stay, and all of out stays on a refusal. They refuse an output that is too short last, so that the
 * needed length of refusal 14 is the length of the whole report.
 *
 * scratch is lent for the call: it may hold anything before, no call reads what it held, and it holds anything afterwards. It allows
 * scratch_len / LCOV_WORDS_PER_ENTRY entries, rounded down, and never more than LCOV_MAX_ENTRIES; the entries are the sections and all
 * functions, branches and lines in them.
 *
 * A bundle is n and T, then n starts, then n lengths, all little-endian u32, then T bytes of text. n is at most LCOV_MAX_TEXTS, the slice is
 * exactly 8 + 8n + T long, and each start + length is at most T. Texts may overlap; a text named twice counts twice. With n = 0 the
 * report is empty. */

/* Reads one text and prints its report. Refuses with 1 to 10, 14, 19, 23 and 25. */
uint32_t lcov_read_text(const uint8_t *text, size_t text_len, uint64_t *scratch, size_t scratch_len, uint8_t *out, size_t out_len,
                        uint64_t *answer, size_t answer_len);

/* Reads each text of the bundle in turn, adds it to what is joined so far, and prints the joined report. Two start lines that are given for
 * a function must agree (11), and so must two checksums of a line (12); of two end lines the larger is kept. Has 8,192 words of scratch
 * inside, which allow 256 entries. Refuses with 1 to 14, 16, 19, 23 and 25; a refusal 10 at line 0 is one of the joined report. */
uint32_t lcov_gather(const uint8_t *bundle, size_t bundle_len, uint8_t *out, size_t out_len, uint64_t *answer, size_t answer_len);

/* The same in lent scratch. */
uint32_t lcov_gather_with(const uint8_t *bundle, size_t bundle_len, uint64_t *scratch, size_t scratch_len, uint8_t *out, size_t out_len,
                          uint64_t *answer, size_t answer_len);

/* The lossy gather: the later given start line or checksum wins, a start line with its end line or none. Refuses with 1 to 10, 13, 14, 16,
 * 19, 23 and 25. */
uint32_t lcov_gather_lossy(const uint8_t *bundle, size_t bundle_len, uint64_t *scratch, size_t scratch_len, uint8_t *out, size_t out_len,
                           uint64_t *answer, size_t answer_len);

/* Gathers as lcov_gather_with does, and writes in place of the report its page of totals: for each section, in the report's order, a line
 *    FH/FF BH/BF LH/LF share test path
 * and a last line of the sums, which ends with their share. The numbers are the functions, branches and lines that are hit and found. They
 * are counted over the report's entries, whatever totals the texts give; a branch without a taken count is found and not hit. share is 1000 LH
 * / LF rounded down, the lines' share in tenths of a percent, and "-" where LF is 0. The names are as the report has them. A blank stands
 * between two columns, also where a name is empty, and byte 10 ends each line. The first word, and the needed length of refusal 14, are the
 * page's. Refuses as lcov_gather_with does. With n = 0 the page is the line "0/0 0/0 0/0 -". */
uint32_t lcov_totals(const uint8_t *bundle, size_t bundle_len, uint64_t *scratch, size_t scratch_len, uint8_t *out, size_t out_len,
                     uint64_t *answer, size_t answer_len);

/* Gathers a bundle with revisions as lcov_gather_with does one without: of each run the text with the highest revision is gathered, in the
 * order of the bundle. The others are not read, so that neither their faults nor their entries count. Such a bundle is n and T, then n
 * starts, n lengths, n run numbers and n revisions, all little-endian u32, then T bytes of text. n is at most LCOV_MAX_TEXTS, the slice is
 * exactly 8 + 16n + T long, and each start + length is at most T, also of a text that is not read (16). A run may not have the same revision
 * twice, be it the highest or not: 20 tells the first text that has the run and revision of an earlier one, whatever the texts hold. Text
 * indexes count all texts of the bundle. Refuses with 16, then 20, then as lcov_gather_with does. */
uint32_t lcov_gather_revisions(const uint8_t *bundle, size_t bundle_len, uint64_t *scratch, size_t scratch_len, uint8_t *out,
                               size_t out_len, uint64_t *answer, size_t answer_len);

/* Coverage over the latest texts: for each text, in the order of the bundle, writes a line
 *    hit/found
 * and byte 10. The numbers are the lines that are hit and found in the report that lcov_gather_with joins of that text and the up to
 * width - 1 texts before it, over all sections; that report is not written, so that the first word, and the needed length of refusal 14,
 * are the lines'. Each window has all of the scratch's entries for itself. Refuses with 16, then 24 where width is 0 or above
 * LCOV_MAX_WIDTH, then as lcov_gather_with does the first window that it refuses; text indexes count all texts of the bundle. With n = 0
 * nothing is written. */
uint32_t lcov_windows(const uint8_t *bundle, size_t bundle_len, uint32_t width, uint64_t *scratch, size_t scratch_len, uint8_t *out,
                      size_t out_len, uint64_t *answer, size_t answer_len);

/* A quota of entries for each lab. labs has the lab number of each text, 1 to LCOV_LABS; quotas has LCOV_LABS quotas, for labs 1 to LCOV_LABS
 * in order. The texts of each lab are gathered by themselves, as lcov_gather_with does. A lab whose gather is refused, or has more entries
 * than its quota, is left out. The texts of the others are gathered together in the order of the bundle, and their report is printed.
 *
 * Where marks holds LCOV_MARK_WORDS words for each lab, they are written there, for labs 1 to LCOV_LABS in order:
 *    0, entries, 0, 0, 0                     let in
 *    1, entries, 0, 0, 0                     more entries than its quota
 *    2, refusal, text, line, field           the refusal of its gather, never 14; the text index counts that lab's texts alone
 * Words past them stay, and so does a shorter slice. A lab without texts is let in with no entries. A quota is no entry limit: E holds for
 * each gather.
 *
 * Refuses with 16, then 29 where labs does not have one number from 1 to LCOV_LABS for each text, or quotas_len is not LCOV_LABS; marks stays
 * then. Otherwise the marks are written, and the gather of the labs that are let in is refused as lcov_gather_with does; text indexes count
 * all texts of the bundle. */
uint32_t lcov_gather_quotas(const uint8_t *bundle, size_t bundle_len, const uint8_t *labs, size_t labs_len, const uint32_t *quotas,
                            size_t quotas_len, uint64_t *scratch, size_t scratch_len, uint8_t *out, size_t out_len, uint64_t *marks,
                            size_t marks_len, uint64_t *answer, size_t answer_len);

/* Bounds of the hit numbers of a run whose counts are known only as least and greatest values, in two texts. Both are read, least first, and each
 * may have all of the scratch's entries. They must hold the same keys: sections by test name and path, functions by name, branches by line,
 * block and branch, lines by number (27); start lines, end lines, checksums and spellings do not count. No least count may be above its
 * greatest (28); a taken count of "-" is 0 here. The words are
 *    hit lines: least, greatest, hit functions: least, greatest, hit branches: least, greatest, 0, 0
 * over all sections. Every text with the same keys and counts between the two has its numbers within these. Refuses as lcov_read_text does,
 * without 14: text 0 is least, text 1 greatest; then with 27, then with 28. */
uint32_t lcov_hit_bounds(const uint8_t *least, size_t least_len, const uint8_t *greatest, size_t greatest_len, uint64_t *scratch,
                         size_t scratch_len, uint64_t *answer, size_t answer_len);

/* Ranges of lines are pairs of start and end, both in the range, in a lent list of which the first `used` pairs count. They are well formed
 * if used is at most the list's length, each start is at most its end, and they ascend with at least one line between two. pairs_len
 * counts pairs. What is not well formed is refused with 18 and stays. */

/* Puts the range from start to end among the pairs: it is joined with those that it overlaps or is next to; one that ends before it starts
 * is dropped. The first word is the new number of pairs, and the pairs past it are zeroed. Refuses with 15, and leaves the list, if it
 * can't hold the result. */
uint32_t lcov_insert_range(uint32_t (*pairs)[2], size_t pairs_len, size_t used, uint32_t start, uint32_t end, uint64_t *answer,
                           size_t answer_len);

/* Asks whether some pair starts at `end` or before and ends at `start` or later: the first word is 1 or 0. */
uint32_t lcov_query_range(const uint32_t (*pairs)[2], size_t pairs_len, size_t used, uint32_t start, uint32_t end, uint64_t *answer,
                          size_t answer_len);

/* The range that the half-open a..b is, its start and end as the first two words: a to b - 1, with b = 0 read as b = 1. */
void lcov_half_open(uint32_t a, uint32_t b, uint64_t *answer, size_t answer_len);

/* Reads one text and prints what of its report the pairs hold: branches and lines whose line is held; functions that have a start line s
 * and for which a pair starts at e or before and ends at s or later, where e is the function's end line, and where it gives none, one before
 * the next function's start (0 stays 0), and 2^32 - 1 for the last function. A section that is emptied is printed as TN, SF and
 * end_of_record. Refuses with 18, then as lcov_read_text does. */
uint32_t lcov_filter(const uint8_t *text, size_t text_len, const uint32_t (*pairs)[2], size_t pairs_len, size_t used, uint64_t *scratch,
                     size_t scratch_len, uint8_t *out, size_t out_len, uint64_t *answer, size_t answer_len);

/* Does the same, but a function that gives no end line ends one before the next greater start of its section, and at 2^32 - 1 where there is
 * none. So functions that start on one line end together, and a pair of that line alone keeps them all, where lcov_filter keeps the last. It
 * keeps all that lcov_filter keeps, and the same where all starts of a section differ. */
uint32_t lcov_filter_distinct_starts(const uint8_t *text, size_t text_len, const uint32_t (*pairs)[2], size_t pairs_len, size_t used,
                                     uint64_t *scratch, size_t scratch_len, uint8_t *out, size_t out_len, uint64_t *answer,
                                     size_t answer_len);

/* Compares two paths by their components, as sections are ordered: 0 less, 1 equal, 2 greater. */
uint32_t lcov_compare_paths(const uint8_t *a, size_t a_len, const uint8_t *b, size_t b_len);

/* A table of tags takes the place of the default ones, in what is read and in what is printed: a default tag that it lacks is unknown. It has
 * a byte for the length of each tag, then a slot for each, in the order of the kinds at lcov_read_line. It is well formed if the slice is
 * LCOV_TAGS_LEN long, each length is 1 to LCOV_TAG_SLOT, the bytes of a slot past its tag are 0, and no tag has byte 10, byte 13 or ':'. Any
 * other byte may be in a tag, also byte 0. The calls below take it first, and refuse one that is not well formed with 21, and one in which
 * two tags are equal with 22, before all else and with all words 0. Otherwise each does what the call without _tagged does, with the table's
 * tags: the needed length of refusal 14 counts them. */
uint32_t lcov_read_line_tagged(const uint8_t *tags, size_t tags_len, const uint8_t *line, size_t line_len, uint64_t *answer,
                               size_t answer_len);

uint32_t lcov_print_line_tagged(const uint8_t *tags, size_t tags_len, const uint8_t *line, size_t line_len, uint8_t *out, size_t out_len,
                                uint64_t *answer, size_t answer_len);

uint32_t lcov_read_text_tagged(const uint8_t *tags, size_t tags_len, const uint8_t *text, size_t text_len, uint64_t *scratch,
                               size_t scratch_len, uint8_t *out, size_t out_len, uint64_t *answer, size_t answer_len);

/* As lcov_gather_with, in lent scratch. */
uint32_t lcov_gather_tagged(const uint8_t *tags, size_t tags_len, const uint8_t *bundle, size_t bundle_len, uint64_t *scratch,
                            size_t scratch_len, uint8_t *out, size_t out_len, uint64_t *answer, size_t answer_len);

uint32_t lcov_gather_lossy_tagged(const uint8_t *tags, size_t tags_len, const uint8_t *bundle, size_t bundle_len, uint64_t *scratch,
                                  size_t scratch_len, uint8_t *out, size_t out_len, uint64_t *answer, size_t answer_len);

/* The page has no tags. */
uint32_t lcov_totals_tagged(const uint8_t *tags, size_t tags_len, const uint8_t *bundle, size_t bundle_len, uint64_t *scratch,
                            size_t scratch_len, uint8_t *out, size_t out_len, uint64_t *answer, size_t answer_len);

uint32_t lcov_gather_revisions_tagged(const uint8_t *tags, size_t tags_len, const uint8_t *bundle, size_t bundle_len, uint64_t *scratch,
                                      size_t scratch_len, uint8_t *out, size_t out_len, uint64_t *answer, size_t answer_len);

uint32_t lcov_windows_tagged(const uint8_t *tags, size_t tags_len, const uint8_t *bundle, size_t bundle_len, uint32_t width,
                             uint64_t *scratch, size_t scratch_len, uint8_t *out, size_t out_len, uint64_t *answer, size_t answer_len);

/* 21 and 22 leave marks as it is. */
uint32_t lcov_gather_quotas_tagged(const uint8_t *tags, size_t tags_len, const uint8_t *bundle, size_t bundle_len, const uint8_t *labs,
                                   size_t labs_len, const uint32_t *quotas, size_t quotas_len, uint64_t *scratch, size_t scratch_len,
                                   uint8_t *out, size_t out_len, uint64_t *marks, size_t marks_len, uint64_t *answer,
                                   size_t answer_len);

uint32_t lcov_hit_bounds_tagged(const uint8_t *tags, size_t tags_len, const uint8_t *least, size_t least_len, const uint8_t *greatest,
                                size_t greatest_len, uint64_t *scratch, size_t scratch_len, uint64_t *answer, size_t answer_len);

uint32_t lcov_filter_tagged(const uint8_t *tags, size_t tags_len, const uint8_t *text, size_t text_len, const uint32_t (*pairs)[2],
                            size_t pairs_len, size_t used, uint64_t *scratch, size_t scratch_len, uint8_t *out, size_t out_len,
                            uint64_t *answer, size_t answer_len);

uint32_t lcov_filter_distinct_starts_tagged(const uint8_t *tags, size_t tags_len, const uint8_t *text, size_t text_len,
                                            const uint32_t (*pairs)[2], size_t pairs_len, size_t used, uint64_t *scratch,
                                            size_t scratch_len, uint8_t *out, size_t out_len, uint64_t *answer, size_t answer_len);

/* Makes a table of strings, in the order of the kinds. Returns 0, or -1 where one is empty or longer than LCOV_TAG_SLOT bytes; the table then
 * holds anything. What else is wrong in it the calls refuse. */
static inline int lcov_make_tags(const char *const tags[LCOV_KINDS], uint8_t table[LCOV_TAGS_LEN])
{
    size_t kind, at;
    for (kind = 0; kind < LCOV_KINDS; kind++) {
        uint8_t *slot = table + LCOV_KINDS + LCOV_TAG_SLOT * kind;
        for (at = 0; at < LCOV_TAG_SLOT; at++)
            slot[at] = 0;
        for (at = 0; tags[kind][at] != 0; at++) {
            if (at == LCOV_TAG_SLOT)
                return -1;
            slot[at] = (uint8_t)tags[kind][at];
        }
        if (at == 0)
            return -1;
        table[kind] = (uint8_t)at;
    }
    return 0;
}

#ifdef __cplusplus
}
#endif

#endif
