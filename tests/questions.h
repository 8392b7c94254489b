/* Random texts, bundles, lab numbers, quotas, tables of tags and range lists for tests/memcheck.c, from a fixed seed. They have few names and lines, so that keys meet. */
#ifndef QUESTIONS_H
#define QUESTIONS_H

#include <stdarg.h>
#include <stdbool.h>
#include <stdio.h>
#include <stdlib.h>
#include <string.h>

#include "lcov.h"

#define COUNT(array) (sizeof(array) / sizeof *(array))
#define PICK(array) ((array)[below(COUNT(array))])

static void expect(bool holds, const char *call, const char *what)
{
    if (!holds) {
        fprintf(stderr, "%s: %s\n", call, what);
        exit(1);
    }
}

/* ---- numbers and bytes */

/* A number below the bound, from a fixed seed (xorshift). */
static size_t below(size_t bound)
{
    static uint64_t state = 0x9e3779b97f4a7c15;
    state ^= state << 13;
    state ^= state >> 7;
    state ^= state << 17;
    return (size_t)(state >> 11) % bound;
}

static bool one_in(size_t many)
{
    return below(many) == 0;
}

/* A block that nothing was written to. */
static void *block(size_t len)
{
    void *made = malloc(len);
    expect(made != NULL, "malloc", "no memory");
    return made;
}

static void copy(void *to, const void *from, size_t len)
{
    if (len > 0)
        memcpy(to, from, len);
}

static void *copy_of(const void *bytes, size_t len)
{
    void *made = block(len);
    copy(made, bytes, len);
    return made;
}

/* ---- texts */

struct text {
    uint8_t *bytes;
    size_t len;
};

static void put_bytes(struct text *text, const void *bytes, size_t len)
{
    text->bytes = realloc(text->bytes, text->len + len + 1);
    expect(text->bytes != NULL, "realloc", "no memory");
    copy(text->bytes + text->len, bytes, len);
    text->len += len;
}

static void put(struct text *text, const char *format, ...)
{
    char line[256];
    va_list values;
    va_start(values, format);
    int len = vsnprintf(line, sizeof line, format, values);
    va_end(values);
    put_bytes(text, line, (size_t)len);
}

static const char *const TESTS[] = { "", "a", "b", "a,b" };
static const char *const SOURCES[] = { "a/b", "a//b", "a/./b", "c", "/c", "./c", "" };
static const char *const NAMES[] = { "f", "g", "f,1", "gh", "" };
static const char *const COUNTS[] = {
    "0", "1", "2", "7", "0012", "99", "12345", "1234567", "123456789", "12345678901234", "18446744073709551615",
};

/* How many of the test names and paths a question uses: the fewer, the more sections meet. */
static size_t names_used = 1;

static const char *count(void)
{
    return COUNTS[below(one_in(60) ? COUNT(COUNTS) : COUNT(COUNTS) - 1)];
}

/* An end line and the comma behind it, or none. Most are near the start line, few before it. */
static void put_end(struct text *text, size_t start)
{
    if (one_in(2))
        return;
    if (one_in(20))
        put(text, "%s,", one_in(2) ? "4294967295" : "000000000000000000000000000000000000009");
    else
        put(text, "%zu,", one_in(60) && start > 0 ? start - 1 : start + below(9));
}

/* Start lines and checksums of a key mostly agree. */
static void put_item(struct text *text, size_t lines)
{
    static const char *const OTHERS[] = { "FNF", "FNH", "BRF", "BRH", "LF", "LH" };
    const char *name = PICK(NAMES);
    size_t line = below(lines), number = lines > 10 ? line : 0, start = one_in(20) ? line : strlen(name);
    switch (below(8)) {
    case 0:
        put(text, "FN:%zu,", start);
        put_end(text, start);
        put(text, "%s%zu\n", name, number);
        break;
    case 1:
        put(text, "FNDA:%s,%s%zu\n", count(), name, number);
        break;
    case 2:
    case 3:
        put(text, "BRDA:%zu,%zu,%zu,%s\n", line, below(2), below(2), one_in(3) ? "-" : count());
        break;
    case 4:
        put(text, "DA:%zu,%s,%s\n", line, count(), one_in(8) ? "c2" : one_in(20) ? "-" : line % 2 == 0 ? "" : "c1");
        break;
    case 5:
        put(text, "%s:%zu\n", PICK(OTHERS), line);
        break;
    default:
        put(text, "DA:%zu,%s\n", line, count());
    }
}

/* A section, and perhaps the same once more with more items, fewer or none. */
static void put_section(struct text *text, size_t lines, size_t items)
{
    const char *test = TESTS[below(COUNT(TESTS)) % names_used], *source = SOURCES[below(COUNT(SOURCES)) % names_used];
    do {
        if (!one_in(5))
            put(text, "TN:%s\n", test);
        if (!one_in(8))
            put(text, "SF:%s\n", source);
        for (size_t k = one_in(6) ? 0 : below(items); k > 0; k--)
            put_item(text, lines);
        put(text, "end_of_record%s\n", one_in(20) ? ":z" : "");
    } while (one_in(3));
}

static void flip_byte(struct text *text)
{
    static const char BYTES[] = ":,-+019 \n\rTNSFDABRHx\377";
    text->bytes[below(text->len)] = (uint8_t)PICK(BYTES);
}

/* The place after a line. */
static size_t line_end(const struct text *text, size_t from)
{
    while (from < text->len && text->bytes[from++] != '\n')
        ;
    return from;
}

static void insert(struct text *text, size_t place, const void *bytes, size_t len)
{
    size_t rest_len = text->len - place;
    uint8_t *rest = copy_of(text->bytes + place, rest_len);
    text->len = place;
    put_bytes(text, bytes, len);
    put_bytes(text, rest, rest_len);
    free(rest);
}

/* From a place in a line to the line's end, once more. */
static void double_line(struct text *text)
{
    size_t from = below(text->len), to = line_end(text, from);
    uint8_t *line = copy_of(text->bytes + from, to - from);
    insert(text, to, line, to - from);
    free(line);
}

/* Lines that are refused with 1 to 9, 19, 23 and 25 in a text, with 1 to 6, 19 and 23 alone; `SF:a` only at the text's end. */
static const char *const FAULTS[] = {
    "VER:1\n", "FN:5\n", "LF:1,2\n", "DA:,1\n", "DA:1,-3\n", "DA:4294967296,1\n", "SF:a\nTN:b\n", "SF:a\n",
    "FNDA:18446744073709551615,f\nFNDA:1,f\n", "SF:a\nSF:b\n", "DA:1,+1\n", "FN:5,4,f\n", "FN:1,4294967296,f\n",
};

static void put_fault(struct text *text)
{
    const char *fault = PICK(FAULTS);
    insert(text, one_in(2) ? text->len : line_end(text, below(text->len)), fault, strlen(fault));
}

static void damage(struct text *text)
{
    if (text->len == 0)
        put(text, "\n");
    switch (below(5)) {
    case 0:
        flip_byte(text);
        break;
    case 1:
        text->len = below(text->len);
        break;
    case 2:
        double_line(text);
        break;
    default:
        put_fault(text);
    }
}

/* A text, damaged once in so many. */
static struct text some_text(size_t sound)
{
    static const size_t LINES[] = { 5, 120, 1000 }, ITEMS[] = { 12, 150, 1500 };
    struct text text = { NULL, 0 };
    size_t size = one_in(12) ? 1 + one_in(12) : 0;
    for (size_t k = below(4); k > 0; k--)
        put_section(&text, LINES[size], ITEMS[size]);
    if (one_in(6))
        put(&text, "TN:%s\n", PICK(TESTS));
    if (one_in(sound))
        damage(&text);
    if (text.len > 0 && one_in(8))
        text.len--;
    return text;
}

/* ---- bundles */

static void put_number(struct text *text, size_t number)
{
    uint8_t bytes[4];
    for (size_t k = 0; k < 4; k++)
        bytes[k] = (uint8_t)(number >> 8 * k);
    put_bytes(text, bytes, 4);
}

/* Both ends, and the ends of lines, so that most parts are whole lines. */
static size_t place_in(const struct text *bytes)
{
    if (bytes->len == 0 || one_in(3))
        return 0;
    return one_in(3) ? bytes->len : line_end(bytes, below(bytes->len));
}

static struct text bundle_of(const struct text *bytes, const size_t *starts, const size_t *lens, size_t many)
{
    struct text bundle = { NULL, 0 };
    put_number(&bundle, many);
    put_number(&bundle, bytes->len);
    for (size_t k = 0; k < many; k++)
        put_number(&bundle, starts[k]);
    for (size_t k = 0; k < many; k++)
        put_number(&bundle, lens[k]);
    put_bytes(&bundle, bytes->bytes, bytes->len);
    return bundle;
}

static struct text bundle_of_two(const char *first, const char *second)
{
    size_t lens[] = { strlen(first), strlen(second) }, starts[] = { 0, lens[0] };
    struct text bytes = { NULL, 0 };
    put_bytes(&bytes, first, lens[0]);
    put_bytes(&bytes, second, lens[1]);
    struct text bundle = bundle_of(&bytes, starts, lens, 2);
    free(bytes.bytes);
    return bundle;
}

/* Numbers may be changed in the head, of which each text has so many. */
static void damage_bundle(struct text *bundle, size_t many, size_t numbers)
{
    if (one_in(8))
        bundle->bytes[below(8 + 4 * numbers * many)] += (uint8_t)(1 + below(255));
    if (one_in(12))
        bundle->len = below(bundle->len);
    if (one_in(20))
        put(bundle, "x");
}

/* Texts that are one after another, or any parts of the same bytes; one of them may be named many times. */
static struct text sound_bundle(size_t many)
{
    size_t starts[LCOV_MAX_TEXTS + 1], lens[LCOV_MAX_TEXTS + 1];
    bool overlapping = many > 5 || one_in(4);
    struct text bytes = some_text(12);
    for (size_t k = 0; k < many; k++) {
        if (overlapping) {
            size_t a = place_in(&bytes), b = place_in(&bytes);
            starts[k] = a < b ? a : b;
            lens[k] = a < b ? b - a : a - b;
        } else if (k > 0 && one_in(4)) {
            starts[k] = starts[k - 1];
            lens[k] = lens[k - 1];
        } else {
            struct text next = some_text(12);
            starts[k] = bytes.len;
            lens[k] = next.len;
            put_bytes(&bytes, next.bytes, next.len);
            free(next.bytes);
        }
    }
    struct text bundle = bundle_of(&bytes, starts, lens, many);
    free(bytes.bytes);
    return bundle;
}

static size_t some_count(void)
{
    return one_in(30) ? LCOV_MAX_TEXTS - 1 + below(3) : below(5);
}

static struct text some_bundle(void)
{
    size_t many = some_count();
    struct text bundle = sound_bundle(many);
    damage_bundle(&bundle, many, 2);
    return bundle;
}

/* Makes a bundle with revisions of one without: they stand after the lengths. */
static void put_revisions(struct text *bundle, const size_t *runs, const size_t *revisions, size_t many)
{
    struct text numbers = { NULL, 0 };
    for (size_t k = 0; k < many; k++)
        put_number(&numbers, runs[k]);
    for (size_t k = 0; k < many; k++)
        put_number(&numbers, revisions[k]);
    insert(bundle, 8 + 8 * many, numbers.bytes, numbers.len);
    free(numbers.bytes);
}

/* Few runs, so that some texts are not read; few have a revision twice. */
static struct text some_revisions(void)
{
    size_t runs[LCOV_MAX_TEXTS + 1], revisions[LCOV_MAX_TEXTS + 1], many = some_count();
    for (size_t k = 0; k < many; k++) {
        runs[k] = one_in(4) ? UINT32_MAX - below(2) : below(3);
        revisions[k] = one_in(20) ? below(3) : 255 + k * (one_in(2) ? 1 : 256);
    }
    struct text bundle = sound_bundle(many);
    put_revisions(&bundle, runs, revisions, many);
    damage_bundle(&bundle, many, 4);
    return bundle;
}

/* Mostly narrow, so that most windows are not refused. */
static uint32_t some_width(void)
{
    static const uint32_t OTHERS[] = { 0, LCOV_MAX_WIDTH, LCOV_MAX_WIDTH + 1, UINT32_MAX };
    return one_in(8) ? PICK(OTHERS) : (uint32_t)(1 + below(4));
}

/* ---- labs and quotas */

static void put_lab(struct text *labs, size_t lab)
{
    uint8_t byte = (uint8_t)lab;
    put_bytes(labs, &byte, 1);
}

static struct text labs_of_two(void)
{
    struct text labs = { NULL, 0 };
    put_lab(&labs, 1);
    put_lab(&labs, 2);
    return labs;
}

/* Of the texts that the bundle says it has, mostly of two labs; few numbers are wrong, or one too many or too few. */
static struct text some_labs(const struct text *bundle)
{
    struct text labs = { NULL, 0 };
    for (size_t k = bundle->len == 0 ? 0 : bundle->bytes[0]; k > 0; k--)
        put_lab(&labs, one_in(100) ? below(256) : 1 + below(one_in(4) ? LCOV_LABS : 2));
    if (one_in(20))
        put_lab(&labs, 1);
    else if (labs.len > 0 && one_in(20))
        labs.len--;
    return labs;
}

struct quotas {
    uint32_t *of;
    size_t len;
};

static struct quotas same_quotas(size_t len, uint32_t quota)
{
    struct quotas quotas = { block(len * sizeof *quotas.of), len };
    for (size_t k = 0; k < len; k++)
        quotas.of[k] = quota;
    return quotas;
}

static struct quotas some_quotas(void)
{
    struct quotas quotas = same_quotas(one_in(20) ? LCOV_LABS - 1 + 2 * below(2) : LCOV_LABS, UINT32_MAX);
    for (size_t k = 0; k < quotas.len; k++)
        if (one_in(3))
            quotas.of[k] = (uint32_t)below(20);
    return quotas;
}

/* ---- tables of tags */

static struct text default_tags(void)
{
    static const uint8_t DEFAULT[LCOV_TAGS_LEN] = LCOV_DEFAULT_TAGS;
    struct text tags = { NULL, 0 };
    put_bytes(&tags, DEFAULT, sizeof DEFAULT);
    return tags;
}

/* Any bytes, few of them of the three that no tag may have; the rest of the slot is zeroed. */
static void replace_tag(struct text *tags, size_t kind)
{
    uint8_t *slot = tags->bytes + LCOV_KINDS + LCOV_TAG_SLOT * kind;
    tags->bytes[kind] = (uint8_t)(1 + below(LCOV_TAG_SLOT));
    for (size_t k = 0; k < LCOV_TAG_SLOT; k++)
        slot[k] = k < tags->bytes[kind] ? (uint8_t)below(256) : 0;
}

static void double_tag(struct text *tags)
{
    size_t from = below(LCOV_KINDS), to = (from + 1 + below(LCOV_KINDS - 1)) % LCOV_KINDS;
    uint8_t *slots = tags->bytes + LCOV_KINDS;
    tags->bytes[to] = tags->bytes[from];
    memcpy(slots + LCOV_TAG_SLOT * to, slots + LCOV_TAG_SLOT * from, LCOV_TAG_SLOT);
}

/* Mostly the default ones, since the texts have those. */
static struct text some_tags(void)
{
    struct text tags = default_tags();
    for (size_t k = one_in(4) ? 1 + below(3) : 0; k > 0; k--)
        replace_tag(&tags, below(LCOV_KINDS));
    if (one_in(16))
        double_tag(&tags);
    if (one_in(16))
        tags.bytes[below(tags.len)] = (uint8_t)below(one_in(2) ? 18 : 256);
    if (one_in(30))
        tags.len = one_in(2) ? below(tags.len) : LCOV_TAGS_LEN - 1;
    else if (one_in(30))
        put(&tags, "x");
    return tags;
}

/* ---- range lists */

struct list {
    uint32_t (*pairs)[2];
    size_t len, used;
};

static uint32_t some_line(void)
{
    static const uint32_t ENDS[] = { 0, 1, UINT32_MAX, UINT32_MAX - 1 };
    return one_in(8) ? PICK(ENDS) : (uint32_t)below(one_in(4) ? 200 : 40);
}

/* Mostly well formed. The pairs past `used` are unwritten. */
static struct list some_list(void)
{
    struct list list = { NULL, below(one_in(4) ? 60 : 9), 0 };
    list.pairs = block(list.len * sizeof *list.pairs);
    list.used = below(list.len + 1);
    uint32_t next = (uint32_t)below(3);
    for (size_t k = 0; k < list.used; k++) {
        list.pairs[k][0] = next;
        list.pairs[k][1] = next + (uint32_t)below(3);
        next = list.pairs[k][1] + 2 + (uint32_t)below(3);
    }
    if (list.used > 0 && one_in(8))
        list.pairs[below(list.used)][below(2)] = some_line();
    if (list.used == list.len && one_in(8))
        list.used += one_in(2) ? 1 : SIZE_MAX - list.used;
    return list;
}

#endif
