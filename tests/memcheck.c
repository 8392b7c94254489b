/* Calls every function of include/lcov.h under valgrind's memcheck. Each buffer is a block of its own from malloc, exactly as long as the
 * call is told, so that memcheck reports a byte that is read or written outside. Scratch, output and answer come from malloc unwritten, so
 * that it reports a decision by what a call has not written, and a byte that is promised and not written.
 *
 *     cc -g -Iinclude tests/memcheck.c crates/lcov_c/out/liblcov_c.a -o memcheck
 *     valgrind --quiet --error-exitcode=9 --leak-check=full ./memcheck [--filled] [CALL..]
 *
 * CALL is the name of a function without lcov_; none means all. --filled fills the scratch before each call. The questions are the same in
 * each run. The status is 1 if an answer is wrong by itself: see `ask`.
 */
#include "questions.h"

enum { PATTERN = 0xa5, TEXTS = 600, BUNDLES = 600, RECORDS = 600, NUMBERS = 600, LISTS = 300, PATHS = 300, BOUNDS = 150 };
enum { MARKS = LCOV_LABS * LCOV_MARK_WORDS };

static bool scratch_filled;
static unsigned long calls;

/* ---- bytes and pairs */

static bool is_pattern(const void *bytes, size_t len)
{
    const uint8_t *byte = bytes;
    for (size_t k = 0; k < len; k++)
        if (byte[k] != PATTERN)
            return false;
    return true;
}

/* The sum of a block of bytes, added to another sum. It is undefined to memcheck if some byte is. */
static uint64_t add_to_sum(uint64_t sum, const void *bytes, size_t len)
{
    const uint8_t *byte = bytes;
    for (size_t k = 0; k < len; k++)
        sum = (sum ^ byte[k]) * 0x100000001b3;
    return sum;
}

static bool is_same(const struct text *a, const struct text *b)
{
    return a->len == 0 || memcmp(a->bytes, b->bytes, a->len) == 0;
}

static bool is_same_quotas(const struct quotas *a, const struct quotas *b)
{
    return a->len == 0 || memcmp(a->of, b->of, a->len * sizeof *a->of) == 0;
}

static size_t written_pairs(const struct list *list)
{
    return list->used < list->len ? list->used : list->len;
}

/* A copy with the pairs past `used` as unwritten as they were, or filled. */
static struct list list_copy(const struct list *list, bool filled)
{
    struct list made = *list;
    made.pairs = block(list->len * sizeof *list->pairs);
    if (filled)
        memset(made.pairs, PATTERN, list->len * sizeof *list->pairs);
    copy(made.pairs, list->pairs, written_pairs(list) * sizeof *list->pairs);
    return made;
}

static bool is_kept(const struct list *after, const struct list *before)
{
    size_t len = written_pairs(before) * sizeof *before->pairs;
    return len == 0 || memcmp(after->pairs, before->pairs, len) == 0;
}

/* ---- questions: a call, what it is told, and how long its buffers are */

struct input {
    struct text bytes, other, tags, labs;
    struct quotas quotas;
    size_t marks; /* words of marks that are lent */
    struct list list;
    uint32_t start, end, width;
    uint64_t max;
    bool has_largest; /* asked with more scratch than a call can use */
};

struct room {
    size_t scratch, out, answer;
};

/* The buffers of one call, each a block of its own. */
struct lent {
    struct input in;
    uint64_t *scratch, *marks, *answer;
    uint8_t *out;
    struct room room;
};

struct call {
    const char *name;
    uint32_t (*run)(struct lent *lent);
    bool has_scratch, has_out, has_answer, writes_list;
    uint32_t numbers; /* that it can return, each a bit */
};

#define TEXT lent->in.bytes.bytes, lent->in.bytes.len
#define TABLE lent->in.tags.bytes, lent->in.tags.len
#define OTHER_TEXT lent->in.other.bytes, lent->in.other.len
#define LIST lent->in.list.pairs, lent->in.list.len, lent->in.list.used
#define CONST_LIST (const uint32_t(*)[2])lent->in.list.pairs, lent->in.list.len, lent->in.list.used
#define LABS lent->in.labs.bytes, lent->in.labs.len
#define QUOTAS lent->in.quotas.of, lent->in.quotas.len
#define MARKED lent->marks, lent->in.marks
#define SCRATCH lent->scratch, lent->room.scratch
#define OUT lent->out, lent->room.out
#define ANSWER lent->answer, lent->room.answer

static uint32_t read_line(struct lent *lent)
{
    return lcov_read_line(TEXT, ANSWER);
}

static uint32_t print_line(struct lent *lent)
{
    return lcov_print_line(TEXT, OUT, ANSWER);
}

static uint32_t read_number(struct lent *lent)
{
    return lcov_read_number(TEXT, lent->in.max, ANSWER);
}

static uint32_t read_text(struct lent *lent)
{
    return lcov_read_text(TEXT, SCRATCH, OUT, ANSWER);
}

static uint32_t gather(struct lent *lent)
{
    return lcov_gather(TEXT, OUT, ANSWER);
}

static uint32_t gather_with(struct lent *lent)
{
    return lcov_gather_with(TEXT, SCRATCH, OUT, ANSWER);
}

static uint32_t gather_lossy(struct lent *lent)
{
    return lcov_gather_lossy(TEXT, SCRATCH, OUT, ANSWER);
}

static uint32_t totals(struct lent *lent)
{
    return lcov_totals(TEXT, SCRATCH, OUT, ANSWER);
}

static uint32_t gather_revisions(struct lent *lent)
{
    return lcov_gather_revisions(TEXT, SCRATCH, OUT, ANSWER);
}

static uint32_t windows(struct lent *lent)
{
    return lcov_windows(TEXT, lent->in.width, SCRATCH, OUT, ANSWER);
}

static uint32_t gather_quotas(struct lent *lent)
{
    return lcov_gather_quotas(TEXT, LABS, QUOTAS, SCRATCH, OUT, MARKED, ANSWER);
}

static uint32_t hit_bounds(struct lent *lent)
{
    return lcov_hit_bounds(TEXT, OTHER_TEXT, SCRATCH, ANSWER);
}

static uint32_t filter(struct lent *lent)
{
    return lcov_filter(TEXT, CONST_LIST, SCRATCH, OUT, ANSWER);
}

static uint32_t filter_distinct_starts(struct lent *lent)
{
    return lcov_filter_distinct_starts(TEXT, CONST_LIST, SCRATCH, OUT, ANSWER);
}

static uint32_t insert_range(struct lent *lent)
{
    return lcov_insert_range(LIST, lent->in.start, lent->in.end, ANSWER);
}

static uint32_t query_range(struct lent *lent)
{
    return lcov_query_range(CONST_LIST, lent->in.start, lent->in.end, ANSWER);
}

static uint32_t half_open(struct lent *lent)
{
    lcov_half_open(lent->in.start, lent->in.end, ANSWER);
    return 0;
}

static uint32_t compare_paths(struct lent *lent)
{
    return lcov_compare_paths(TEXT, OTHER_TEXT);
}

static uint32_t read_line_tagged(struct lent *lent)
{
    return lcov_read_line_tagged(TABLE, TEXT, ANSWER);
}

static uint32_t print_line_tagged(struct lent *lent)
{
    return lcov_print_line_tagged(TABLE, TEXT, OUT, ANSWER);
}

static uint32_t read_text_tagged(struct lent *lent)
{
    return lcov_read_text_tagged(TABLE, TEXT, SCRATCH, OUT, ANSWER);
}

static uint32_t gather_tagged(struct lent *lent)
{
    return lcov_gather_tagged(TABLE, TEXT, SCRATCH, OUT, ANSWER);
}

static uint32_t gather_lossy_tagged(struct lent *lent)
{
    return lcov_gather_lossy_tagged(TABLE, TEXT, SCRATCH, OUT, ANSWER);
}

static uint32_t totals_tagged(struct lent *lent)
{
    return lcov_totals_tagged(TABLE, TEXT, SCRATCH, OUT, ANSWER);
}

static uint32_t gather_revisions_tagged(struct lent *lent)
{
    return lcov_gather_revisions_tagged(TABLE, TEXT, SCRATCH, OUT, ANSWER);
}

static uint32_t windows_tagged(struct lent *lent)
{
    return lcov_windows_tagged(TABLE, TEXT, lent->in.width, SCRATCH, OUT, ANSWER);
}

static uint32_t gather_quotas_tagged(struct lent *lent)
{
    return lcov_gather_quotas_tagged(TABLE, TEXT, LABS, QUOTAS, SCRATCH, OUT, MARKED, ANSWER);
}

static uint32_t hit_bounds_tagged(struct lent *lent)
{
    return lcov_hit_bounds_tagged(TABLE, TEXT, OTHER_TEXT, SCRATCH, ANSWER);
}

static uint32_t filter_tagged(struct lent *lent)
{
    return lcov_filter_tagged(TABLE, TEXT, CONST_LIST, SCRATCH, OUT, ANSWER);
}

static uint32_t filter_distinct_starts_tagged(struct lent *lent)
{
    return lcov_filter_distinct_starts_tagged(TABLE, TEXT, CONST_LIST, SCRATCH, OUT, ANSWER);
}

enum {
    READ_LINE,
    PRINT_LINE,
    READ_NUMBER,
    READ_TEXT,
    GATHER,
    GATHER_WITH,
    GATHER_LOSSY,
    TOTALS,
    GATHER_REVISIONS,
    WINDOWS,
    GATHER_QUOTAS,
    HIT_BOUNDS,
    FILTER,
    FILTER_DISTINCT_STARTS,
    INSERT_RANGE,
    QUERY_RANGE,
    HALF_OPEN,
    COMPARE_PATHS,
    READ_LINE_TAGGED,
    PRINT_LINE_TAGGED,
    READ_TEXT_TAGGED,
    GATHER_TAGGED,
    GATHER_LOSSY_TAGGED,
    TOTALS_TAGGED,
    GATHER_REVISIONS_TAGGED,
    WINDOWS_TAGGED,
    GATHER_QUOTAS_TAGGED,
    HIT_BOUNDS_TAGGED,
    FILTER_TAGGED,
    FILTER_DISTINCT_STARTS_TAGGED,
};

#define BIT(number) (1u << (number))
#define UP_TO(number) (2 * BIT(number) - 1)
#define OF_LINE (UP_TO(6) | BIT(19) | BIT(23))
#define OF_TEXT (OF_LINE | UP_TO(10) | BIT(25))
#define OF_CHECKED (OF_TEXT | UP_TO(14) | BIT(16))
/* A text that a reading refuses is left out with its lab. */
#define OF_QUOTAS (BIT(0) | BIT(10) | BIT(11) | BIT(12) | BIT(13) | BIT(14) | BIT(16) | BIT(29))
#define OF_BOUNDS (OF_TEXT | BIT(27) | BIT(28))
#define OF_LOSSY (OF_TEXT | BIT(13) | BIT(14) | BIT(16))
#define OF_FILTER (OF_TEXT | BIT(14) | BIT(18))
#define OF_TAGS (BIT(21) | BIT(22))

static const struct call CALLS[] = {
    [READ_LINE] = { "read_line", read_line, false, false, true, false, OF_LINE },
    [PRINT_LINE] = { "print_line", print_line, false, true, true, false, OF_LINE | BIT(14) },
    [READ_NUMBER] = { "read_number", read_number, false, false, true, false, BIT(0) | BIT(4) | BIT(5) | BIT(6) | BIT(19) },
    [READ_TEXT] = { "read_text", read_text, true, true, true, false, OF_TEXT | BIT(14) },
    [GATHER] = { "gather", gather, false, true, true, false, OF_CHECKED },
    [GATHER_WITH] = { "gather_with", gather_with, true, true, true, false, OF_CHECKED },
    [GATHER_LOSSY] = { "gather_lossy", gather_lossy, true, true, true, false, OF_LOSSY },
    [TOTALS] = { "totals", totals, true, true, true, false, OF_CHECKED },
    [GATHER_REVISIONS] = { "gather_revisions", gather_revisions, true, true, true, false, OF_CHECKED | BIT(20) },
    [WINDOWS] = { "windows", windows, true, true, true, false, OF_CHECKED | BIT(24) },
    [GATHER_QUOTAS] = { "gather_quotas", gather_quotas, true, true, true, false, OF_QUOTAS },
    [HIT_BOUNDS] = { "hit_bounds", hit_bounds, true, false, true, false, OF_BOUNDS },
    [FILTER] = { "filter", filter, true, true, true, false, OF_FILTER },
    [FILTER_DISTINCT_STARTS] = { "filter_distinct_starts", filter_distinct_starts, true, true, true, false, OF_FILTER },
    [INSERT_RANGE] = { "insert_range", insert_range, false, false, true, true, BIT(0) | BIT(15) | BIT(18) },
    [QUERY_RANGE] = { "query_range", query_range, false, false, true, false, BIT(0) | BIT(18) },
    [HALF_OPEN] = { "half_open", half_open, false, false, true, false, BIT(0) },
    [COMPARE_PATHS] = { "compare_paths", compare_paths, false, false, false, false, UP_TO(2) },
    [READ_LINE_TAGGED] = { "read_line_tagged", read_line_tagged, false, false, true, false, OF_LINE | OF_TAGS },
    [PRINT_LINE_TAGGED] = { "print_line_tagged", print_line_tagged, false, true, true, false, OF_LINE | BIT(14) | OF_TAGS },
    [READ_TEXT_TAGGED] = { "read_text_tagged", read_text_tagged, true, true, true, false, OF_TEXT | BIT(14) | OF_TAGS },
    [GATHER_TAGGED] = { "gather_tagged", gather_tagged, true, true, true, false, OF_CHECKED | OF_TAGS },
    [GATHER_LOSSY_TAGGED] = { "gather_lossy_tagged", gather_lossy_tagged, true, true, true, false, OF_LOSSY | OF_TAGS },
    [TOTALS_TAGGED] = { "totals_tagged", totals_tagged, true, true, true, false, OF_CHECKED | OF_TAGS },
    [GATHER_REVISIONS_TAGGED] = { "gather_revisions_tagged", gather_revisions_tagged, true, true, true, false,
                                  OF_CHECKED | BIT(20) | OF_TAGS },
    [WINDOWS_TAGGED] = { "windows_tagged", windows_tagged, true, true, true, false, OF_CHECKED | BIT(24) | OF_TAGS },
    [GATHER_QUOTAS_TAGGED] = { "gather_quotas_tagged", gather_quotas_tagged, true, true, true, false, OF_QUOTAS | OF_TAGS },
    [HIT_BOUNDS_TAGGED] = { "hit_bounds_tagged", hit_bounds_tagged, true, false, true, false, OF_BOUNDS | OF_TAGS },
    [FILTER_TAGGED] = { "filter_tagged", filter_tagged, true, true, true, false, OF_FILTER | OF_TAGS },
    [FILTER_DISTINCT_STARTS_TAGGED] = { "filter_distinct_starts_tagged", filter_distinct_starts_tagged, true, true, true, false,
                                        OF_FILTER | OF_TAGS },
};

static uint32_t met[COUNT(CALLS)];
static bool chosen[COUNT(CALLS)];

/* What a call answers: its number, its words, and a sum of all that it promises. */
struct told {
    uint32_t number;
    uint64_t words[LCOV_ANSWER_WORDS];
    uint64_t sum;
};

static struct lent lend(const struct input *in, struct room room, bool filled)
{
    struct lent lent = { *in, NULL, NULL, NULL, NULL, room };
    lent.in.bytes.bytes = copy_of(in->bytes.bytes, in->bytes.len);
    lent.in.other.bytes = copy_of(in->other.bytes, in->other.len);
    lent.in.tags.bytes = copy_of(in->tags.bytes, in->tags.len);
    lent.in.labs.bytes = copy_of(in->labs.bytes, in->labs.len);
    lent.in.quotas.of = copy_of(in->quotas.of, in->quotas.len * sizeof *in->quotas.of);
    lent.in.list = list_copy(&in->list, filled);
    lent.scratch = block(room.scratch * sizeof *lent.scratch);
    lent.out = block(room.out);
    lent.marks = block(in->marks * sizeof *lent.marks);
    lent.answer = block(room.answer * sizeof *lent.answer);
    if (scratch_filled)
        memset(lent.scratch, PATTERN, room.scratch * sizeof *lent.scratch);
    if (filled) {
        memset(lent.out, PATTERN, room.out);
        memset(lent.marks, PATTERN, in->marks * sizeof *lent.marks);
        memset(lent.answer, PATTERN, room.answer * sizeof *lent.answer);
    }
    return lent;
}

static void give_back(struct lent *lent)
{
    free(lent->in.bytes.bytes);
    free(lent->in.other.bytes);
    free(lent->in.tags.bytes);
    free(lent->in.labs.bytes);
    free(lent->in.quotas.of);
    free(lent->in.list.pairs);
    free(lent->scratch);
    free(lent->out);
    free(lent->marks);
    free(lent->answer);
}

/* The words of marks that a call writes: none where it is refused before any lab is gathered, or where the slice is too short. */
static size_t written_marks(const struct input *in, uint32_t number)
{
    uint32_t unmarked = BIT(LCOV_MALFORMED_BUNDLE) | BIT(LCOV_MALFORMED_LABS) | OF_TAGS;
    return (BIT(number) & unmarked) == 0 && in->marks >= MARKS ? MARKS : 0;
}

static void check_stays(const struct call *call, const struct input *in, const struct lent *lent, const struct told *told, size_t written)
{
    size_t answered = call->has_answer && lent->room.answer >= LCOV_ANSWER_WORDS ? LCOV_ANSWER_WORDS : 0;
    expect(is_pattern(lent->out + written, lent->room.out - written), call->name, "a byte past the written length is written");
    expect(is_pattern(lent->answer + answered, (lent->room.answer - answered) * sizeof *lent->answer), call->name,
           "a word past the answer, or of an answer too short, is written");
    size_t marked = written_marks(in, told->number);
    expect(is_pattern(lent->marks + marked, (in->marks - marked) * sizeof *lent->marks), call->name,
           "a word past the marks, or of marks too short, is written");
    bool list_stays = !call->writes_list || told->number != 0;
    size_t pairs = written_pairs(&in->list);
    if (list_stays)
        expect(is_pattern(lent->in.list.pairs + pairs, (in->list.len - pairs) * sizeof *in->list.pairs), call->name,
               "a pair past those used is written");
}

/* Makes the call, reads all that it promises, and checks the words that are known. `written` is the length for an answer that is too short
 * to tell it. */
static struct told run(const struct call *call, const struct input *in, struct room room, size_t written, bool filled)
{
    struct lent lent = lend(in, room, filled);
    struct told told = { 0 };
    told.number = call->run(&lent);
    calls++;
    expect(told.number < 32, call->name, "a number that is no refusal");
    met[call - CALLS] |= BIT(told.number);

    if (call->has_answer && room.answer >= LCOV_ANSWER_WORDS)
        memcpy(told.words, lent.answer, sizeof told.words);
    if (!call->has_out || told.number != 0)
        written = 0;
    else if (room.answer >= LCOV_ANSWER_WORDS)
        written = (size_t)told.words[0];
    expect(written <= room.out, call->name, "more is written than the output holds");

    expect(is_same(&lent.in.bytes, &in->bytes) && is_same(&lent.in.other, &in->other) && is_same(&lent.in.tags, &in->tags) &&
               is_same(&lent.in.labs, &in->labs) && is_same_quotas(&lent.in.quotas, &in->quotas),
           call->name, "an input is written");
    told.sum = add_to_sum(told.number, told.words, sizeof told.words);
    told.sum = add_to_sum(told.sum, lent.out, written);
    told.sum = add_to_sum(told.sum, lent.marks, written_marks(in, told.number) * sizeof *lent.marks);
    if (call->writes_list && told.number == 0)
        told.sum = add_to_sum(told.sum, lent.in.list.pairs, in->list.len * sizeof *in->list.pairs);
    else
        expect(is_kept(&lent.in.list, &in->list), call->name, "a pair is written");
    if (filled)
        check_stays(call, in, &lent, &told, written);
    give_back(&lent);
    return told;
}

/* Asks with output and answer unwritten, and once more with them filled by a pattern: the bytes and words that are not promised keep it.
 * Both answers are the same; the comparison depends on each promised byte. */
static struct told ask_written(const struct call *call, const struct input *in, struct room room, size_t written)
{
    struct told fresh = run(call, in, room, written, false), filled = run(call, in, room, written, true);
    expect(fresh.sum == filled.sum, call->name, "two answers to one question differ");
    return fresh;
}

static struct told ask(const struct call *call, const struct input *in, size_t scratch, size_t out)
{
    return ask_written(call, in, (struct room){ scratch, out, LCOV_ANSWER_WORDS }, 0);
}

/* ---- the lengths that each question is asked with */

static void ask_answers(const struct call *call, const struct input *in, struct room room, const struct told *expected)
{
    static const size_t LENS[] = { 0, 1, LCOV_ANSWER_WORDS - 1, LCOV_ANSWER_WORDS + 1 };
    for (size_t k = 0; k < COUNT(LENS); k++) {
        room.answer = LENS[k];
        struct told told = ask_written(call, in, room, (size_t)expected->words[0]);
        expect(told.number == expected->number, call->name, "the number depends on the answer's length");
    }
}

/* Outputs of no byte, one byte short, exact, and longer. Returns a length that is enough. */
static size_t ask_outputs(const struct call *call, const struct input *in, size_t scratch)
{
    struct told none = ask(call, in, scratch, 0), told;
    if (none.number != LCOV_OUTPUT_TOO_SHORT) {
        told = ask(call, in, scratch, 64);
        expect(told.sum == none.sum, call->name, "an answer without output depends on its length");
        ask_answers(call, in, (struct room){ scratch, 64, 0 }, &told);
        return 64;
    }
    size_t needed = (size_t)none.words[3];
    told = ask(call, in, scratch, needed - 1);
    expect(told.sum == none.sum, call->name, "one byte short is not refused as no byte is");
    struct told exact = ask(call, in, scratch, needed);
    expect(exact.number == 0 && exact.words[0] == needed, call->name, "the needed length is not enough");
    told = ask(call, in, scratch, needed + 4096);
    expect(told.sum == exact.sum, call->name, "a longer output has another report");
    ask_answers(call, in, (struct room){ scratch, needed, 0 }, &exact);
    return needed;
}

static bool is_enough(const struct call *call, const struct input *in, size_t entries, size_t out)
{
    return ask(call, in, entries * LCOV_WORDS_PER_ENTRY, out).number != LCOV_TOO_MANY_ENTRIES;
}

/* The least number of entries that is enough. */
static size_t entries_needed(const struct call *call, const struct input *in, size_t out)
{
    size_t enough = 1, short_of = 0;
    if (is_enough(call, in, 0, out))
        return 0;
    while (!is_enough(call, in, enough, out)) {
        short_of = enough;
        enough *= 2;
    }
    while (enough - short_of > 1) {
        size_t middle = short_of + (enough - short_of) / 2;
        if (is_enough(call, in, middle, out))
            enough = middle;
        else
            short_of = middle;
    }
    return enough;
}

static size_t line_ends(const struct text *text)
{
    size_t ends = 0;
    for (size_t k = 0; k < text->len; k++)
        ends += text->bytes[k] == '\n';
    return ends;
}

/* Words for more entries than the input can have: a line makes two at most, and a text may end inside a line. */
static size_t enough_words(const struct input *in)
{
    return 2 * (1 + LCOV_MAX_TEXTS + line_ends(&in->bytes) + line_ends(&in->other)) * LCOV_WORDS_PER_ENTRY;
}

static void ask_scratches(const struct call *call, const struct input *in, size_t out)
{
    size_t most = in->has_largest ? (size_t)(LCOV_MAX_ENTRIES + 1) * LCOV_WORDS_PER_ENTRY : enough_words(in);
    struct told large = ask(call, in, most, out);
    size_t limit = entries_needed(call, in, out) * LCOV_WORDS_PER_ENTRY;
    size_t lens[] = { 1, 31, 32, 33, limit + 1, limit + 31 };
    for (size_t k = 0; k < COUNT(lens); k++) {
        struct told told = ask(call, in, lens[k], out);
        bool enough = lens[k] / LCOV_WORDS_PER_ENTRY * LCOV_WORDS_PER_ENTRY >= limit;
        expect(enough ? told.sum == large.sum : told.number == LCOV_TOO_MANY_ENTRIES, call->name, "the entry limit is not the scratch's");
    }
    if (limit > 0) {
        struct told told = ask(call, in, limit - 1, out);
        expect(told.number == LCOV_TOO_MANY_ENTRIES, call->name, "a word short of the limit is enough");
    }
}

/* A lab that the limit leaves out takes no entries from the others, so that more scratch may be refused where less is not. Words that make no
 * entry change nothing. */
static void ask_limits(const struct call *call, const struct input *in, size_t out)
{
    size_t most = enough_words(in) / LCOV_WORDS_PER_ENTRY;
    for (size_t entries = 0; entries < most; entries += 1 + entries / 2) {
        size_t words = entries * LCOV_WORDS_PER_ENTRY;
        struct told least = ask(call, in, words, out), more = ask(call, in, words + LCOV_WORDS_PER_ENTRY - 1, out);
        expect(least.sum == more.sum, call->name, "the entry limit is not the scratch's");
    }
    if (in->has_largest) {
        struct told enough = ask(call, in, enough_words(in), out);
        struct told largest = ask(call, in, (size_t)(LCOV_MAX_ENTRIES + 1) * LCOV_WORDS_PER_ENTRY, out);
        expect(enough.sum == largest.sum, call->name, "more scratch than enough has another answer");
    }
}

static void ask_report(size_t place, const struct input *in)
{
    const struct call *call = &CALLS[place];
    if (!chosen[place])
        return;
    size_t out = ask_outputs(call, in, call->has_scratch ? enough_words(in) : 0);
    if (place == GATHER_QUOTAS || place == GATHER_QUOTAS_TAGGED)
        ask_limits(call, in, out);
    else if (call->has_scratch)
        ask_scratches(call, in, out);
}

static void ask_words(size_t place, const struct input *in)
{
    const struct call *call = &CALLS[place];
    if (!chosen[place])
        return;
    struct told told = ask(call, in, 0, 0);
    if (call->has_answer)
        ask_answers(call, in, (struct room){ 0, 0, 0 }, &told);
}

/* ---- all questions */

static void free_input(struct input *in)
{
    free(in->bytes.bytes);
    free(in->other.bytes);
    free(in->tags.bytes);
    free(in->labs.bytes);
    free(in->quotas.of);
    free(in->list.pairs);
}

static void ask_text(struct text text, struct text tags)
{
    struct input in = { .bytes = text, .tags = tags, .list = some_list(), .has_largest = one_in(40) };
    ask_report(READ_TEXT, &in);
    ask_report(FILTER, &in);
    ask_report(FILTER_DISTINCT_STARTS, &in);
    ask_report(READ_TEXT_TAGGED, &in);
    ask_report(FILTER_TAGGED, &in);
    ask_report(FILTER_DISTINCT_STARTS_TAGGED, &in);
    free_input(&in);
}

static void ask_bundle(struct text bundle, struct text tags)
{
    struct input in = { .bytes = bundle, .tags = tags, .has_largest = one_in(40) };
    ask_report(GATHER, &in);
    ask_report(GATHER_WITH, &in);
    ask_report(GATHER_LOSSY, &in);
    ask_report(TOTALS, &in);
    ask_report(GATHER_TAGGED, &in);
    ask_report(GATHER_LOSSY_TAGGED, &in);
    ask_report(TOTALS_TAGGED, &in);
    free_input(&in);
}

static void ask_revised(struct text bundle, struct text tags)
{
    struct input in = { .bytes = bundle, .tags = tags, .has_largest = one_in(40) };
    ask_report(GATHER_REVISIONS, &in);
    ask_report(GATHER_REVISIONS_TAGGED, &in);
    free_input(&in);
}

static void ask_windows(struct text bundle, struct text tags, uint32_t width)
{
    struct input in = { .bytes = bundle, .tags = tags, .width = width, .has_largest = one_in(40) };
    ask_report(WINDOWS, &in);
    ask_report(WINDOWS_TAGGED, &in);
    free_input(&in);
}

static void ask_labs(struct text bundle, struct text tags, struct text labs, struct quotas quotas)
{
    static const size_t LENS[] = { 0, 1, MARKS - 1, MARKS, MARKS, MARKS + 1 };
    struct input in = { .bytes = bundle, .tags = tags, .labs = labs, .quotas = quotas, .marks = PICK(LENS), .has_largest = one_in(40) };
    ask_report(GATHER_QUOTAS, &in);
    ask_report(GATHER_QUOTAS_TAGGED, &in);
    free_input(&in);
}

static void ask_bounds(struct text least, struct text greatest, struct text tags)
{
    struct input in = { .bytes = least, .other = greatest, .tags = tags, .has_largest = one_in(40) };
    ask_report(HIT_BOUNDS, &in);
    ask_report(HIT_BOUNDS_TAGGED, &in);
    free_input(&in);
}

/* Both texts are read, the last window has both, and both labs are let in that read theirs. */
static void ask_two(const char *first, const char *second)
{
    static const size_t RUNS[] = { 9, 1 }, REVISIONS[] = { 1, 1 };
    struct text revised = bundle_of_two(first, second);
    put_revisions(&revised, RUNS, REVISIONS, 2);
    ask_revised(revised, default_tags());
    ask_windows(bundle_of_two(first, second), default_tags(), 2);
    ask_labs(bundle_of_two(first, second), default_tags(), labs_of_two(), same_quotas(LCOV_LABS, UINT32_MAX));
    ask_bundle(bundle_of_two(first, second), default_tags());
}

static void ask_line(struct text line, struct text tags)
{
    struct input in = { .bytes = line, .tags = tags };
    ask_words(READ_LINE, &in);
    ask_report(PRINT_LINE, &in);
    ask_words(READ_LINE_TAGGED, &in);
    ask_report(PRINT_LINE_TAGGED, &in);
    free_input(&in);
}

/* One question at least for each refusal that random texts seldom meet. */
static void ask_faults(void)
{
    static const char *const CONFLICTS[][2] = {
        { "SF:m\nFN:1,f\nend_of_record\n", "SF:m\nFN:2,f\nend_of_record\n" },
        { "SF:m\nDA:1,1,a\nend_of_record\n", "SF:m\nDA:1,1,b\nend_of_record\n" },
        { "SF:m\nDA:1,18446744073709551615\nend_of_record\n", "SF:m\nDA:1,1\nend_of_record\n" },
        { "SF:m\nBRDA:1,0,0,18446744073709551615\nend_of_record\n", "SF:m\nBRDA:1,0,0,1\nend_of_record\n" },
    };
    for (size_t k = 0; k < COUNT(FAULTS); k++) {
        struct text line = { NULL, 0 }, text = { NULL, 0 };
        put(&line, "%s", FAULTS[k]);
        put(&text, "%s", FAULTS[k]);
        ask_line(line, default_tags());
        ask_text(text, default_tags());
        ask_two("SF:m\nDA:1,1\nend_of_record\n", FAULTS[k]);
    }
    for (size_t k = 0; k < COUNT(CONFLICTS); k++)
        ask_two(CONFLICTS[k][0], CONFLICTS[k][1]);

    /* more entries than lcov_gather has words for */
    struct text many = { NULL, 0 };
    for (size_t line = 0; line < 300; line++)
        put(&many, "DA:%zu,1\n", line);
    put(&many, "end_of_record\n");
    size_t start = 0;
    ask_bundle(bundle_of(&many, &start, &many.len, 1), default_tags());
    free(many.bytes);
}

/* Functions of one section, a line, and what a range of that line alone keeps by lcov_filter and by lcov_filter_distinct_starts: SPEC 11.1,
 * case (k), and starts 3, 3, 3, 7. */
#define THREE_AND_SEVEN "FN:3,f\nFN:3,g\nFN:3,h\nFN:7,i\n"
#define SEVENTH "FN:7,i\nFNDA:0,i\nFNF:1\nFNH:0\n"
static const struct starts {
    const char *functions;
    uint32_t line;
    const char *by_all, *by_distinct;
} STARTS[] = {
    { "FN:3,f\nFN:3,g\n", 3, "FN:3,g\nFNDA:0,g\nFNF:1\nFNH:0\n", "FN:3,f\nFN:3,g\nFNDA:0,f\nFNDA:0,g\nFNF:2\nFNH:0\n" },
    { THREE_AND_SEVEN, 6, "FN:3,h\nFNDA:0,h\nFNF:1\nFNH:0\n",
      "FN:3,f\nFN:3,g\nFN:3,h\nFNDA:0,f\nFNDA:0,g\nFNDA:0,h\nFNF:3\nFNH:0\n" },
    { THREE_AND_SEVEN, 7, SEVENTH, SEVENTH },
};

/* These bytes are written, and the output holds no more. */
static void ask_printed(size_t place, const struct input *in, const char *printed, const char *else_what)
{
    const struct call *call = &CALLS[place];
    if (!chosen[place])
        return;
    struct lent lent = lend(in, (struct room){ enough_words(in), strlen(printed), LCOV_ANSWER_WORDS }, false);
    bool is_answered = call->run(&lent) == 0 && lent.answer[0] == strlen(printed);
    expect(is_answered && memcmp(lent.out, printed, strlen(printed)) == 0, call->name, else_what);
    calls++;
    give_back(&lent);
}

static void ask_kept(size_t place, const struct input *in, const char *kept)
{
    char printed[256];
    snprintf(printed, sizeof printed, "TN:\nSF:a\n%send_of_record\n", kept);
    ask_printed(place, in, printed, "other functions are kept");
}

static void ask_starts(void)
{
    for (size_t k = 0; k < COUNT(STARTS); k++) {
        const struct starts *starts = &STARTS[k];
        struct input in = { .tags = default_tags(), .list = { block(sizeof *in.list.pairs), 1, 1 } };
        put(&in.bytes, "SF:a\n%send_of_record\n", starts->functions);
        in.list.pairs[0][0] = in.list.pairs[0][1] = starts->line;
        ask_kept(FILTER, &in, starts->by_all);
        ask_kept(FILTER_DISTINCT_STARTS, &in, starts->by_distinct);
        ask_kept(FILTER_TAGGED, &in, starts->by_all);
        ask_kept(FILTER_DISTINCT_STARTS_TAGGED, &in, starts->by_distinct);
        free_input(&in);
    }
}

/* The page of two equal texts: SPEC 11.1, case (l), also where they give totals that are not true. */
static void ask_page(void)
{
    static const char TEXT_OF_L[] = "TN:a\nSF:m.c\nFN:3,f\nFNDA:2,f\nDA:3,2\nDA:4,0\nLF:7\nLH:7\nend_of_record\n";
    static const char PAGE[] = "1/1 0/0 1/2 500 a m.c\n1/1 0/0 1/2 500\n";
    struct input in = { .bytes = bundle_of_two(TEXT_OF_L, TEXT_OF_L), .tags = default_tags() };
    ask_printed(TOTALS, &in, PAGE, "another page is written");
    ask_printed(TOTALS_TAGGED, &in, PAGE, "another page is written");
    free_input(&in);
}

/* Of a run the second text is read, whatever the first holds. Equal revisions are refused, whatever both hold. */
static void ask_replaced(size_t place)
{
    static const char CHOSEN[] = "TN:\nSF:m\nDA:1,1\nLF:1\nLH:1\nend_of_record\n";
    static const size_t RUNS[] = { 7, 7 }, DIFFERENT[] = { 255, 256 }, EQUAL[] = { 256, 256 };
    struct input in = { .bytes = bundle_of_two("x\n", CHOSEN), .tags = default_tags() };
    put_revisions(&in.bytes, RUNS, DIFFERENT, 2);
    ask_printed(place, &in, CHOSEN, "another text is gathered");
    free(in.bytes.bytes);
    in.bytes = bundle_of_two("x\n", CHOSEN);
    put_revisions(&in.bytes, RUNS, EQUAL, 2);
    if (chosen[place]) {
        struct told told = ask(&CALLS[place], &in, 0, 0);
        expect(told.number == LCOV_REPEATED_REVISION && told.words[0] == 1, CALLS[place].name, "equal revisions are not refused as such");
    }
    free_input(&in);
}

/* Two texts whose start lines differ: windows of one text have their lines, and the window of both is refused. */
static void ask_moved(size_t place)
{
    static const char FIRST[] = "SF:m\nFN:1,f\nDA:1,1\nDA:2,0\nend_of_record\n", SECOND[] = "SF:m\nFN:2,f\nDA:2,1\nend_of_record\n";
    struct input in = { .bytes = bundle_of_two(FIRST, SECOND), .tags = default_tags(), .width = 1 };
    ask_printed(place, &in, "1/2\n1/1\n", "other lines are written");
    in.width = 2;
    if (chosen[place]) {
        struct told told = ask(&CALLS[place], &in, enough_words(&in), 64);
        expect(told.number == LCOV_UNMATCHED_FUNCTION_LINE && told.words[0] == 1, CALLS[place].name, "another refusal comes");
    }
    free_input(&in);
}

/* Both labs have a quota of two entries, and the second has three. The marks come with refusal 14 too. */
static void ask_left_out(size_t place)
{
    static const char SENT[] = "SF:m\nDA:1,1\nend_of_record\n", PRINTED[] = "TN:\nSF:m\nDA:1,1\nLF:1\nLH:1\nend_of_record\n";
    static const char MORE[] = "SF:m\nDA:1,1\nDA:2,1\nend_of_record\n";
    static const uint64_t MARKED_SO[MARKS] = { 0, 2, 0, 0, 0, 1, 3, 0, 0, 0 };
    struct input in = { .bytes = bundle_of_two(SENT, MORE), .tags = default_tags(), .labs = labs_of_two(), .quotas = same_quotas(LCOV_LABS, 2),
                        .marks = MARKS };
    ask_printed(place, &in, PRINTED, "another report is written");
    if (chosen[place]) {
        struct lent lent = lend(&in, (struct room){ enough_words(&in), 0, LCOV_ANSWER_WORDS }, false);
        bool is_too_short = CALLS[place].run(&lent) == LCOV_OUTPUT_TOO_SHORT;
        expect(is_too_short && memcmp(lent.marks, MARKED_SO, sizeof MARKED_SO) == 0, CALLS[place].name, "other marks are written");
        calls++;
        give_back(&lent);
    }
    free_input(&in);
}

static struct text text_of(const char *bytes)
{
    struct text text = { NULL, 0 };
    put(&text, "%s", bytes);
    return text;
}

/* A line and a function that ran at the greatest only, a line that ran anyway, and a branch that was not taken. */
#define LEAST "SF:m\nFN:1,f\nFNDA:0,f\nBRDA:1,0,0,-\nDA:1,0\nDA:2,3\nend_of_record\n"
#define GREATEST "SF:m\nFN:2,f\nFNDA:2,f\nBRDA:1,0,0,0\nDA:1,1\nDA:2,3\nend_of_record\n"

/* The hit numbers of a run, and the two refusals of texts that do not bound one. */
static void ask_bounded(size_t place)
{
    static const uint64_t BOUNDED_SO[LCOV_ANSWER_WORDS] = { 1, 2, 0, 1, 0, 0, 0, 0 };
    static const struct {
        const char *least, *greatest;
        uint32_t number;
    } QUESTIONS[] = {
        { LEAST, GREATEST, 0 },
        { GREATEST, LEAST, LCOV_LEAST_ABOVE_GREATEST },
        { LEAST, "SF:n\nDA:1,0\nend_of_record\n", LCOV_DIFFERENT_KEYS },
    };
    for (size_t k = 0; k < COUNT(QUESTIONS); k++) {
        struct input in = { .bytes = text_of(QUESTIONS[k].least), .other = text_of(QUESTIONS[k].greatest), .tags = default_tags() };
        if (chosen[place]) {
            struct told told = ask(&CALLS[place], &in, enough_words(&in), 0);
            expect(told.number == QUESTIONS[k].number, CALLS[place].name, "another refusal comes");
            if (told.number == 0)
                expect(memcmp(told.words, BOUNDED_SO, sizeof BOUNDED_SO) == 0, CALLS[place].name, "other bounds are told");
        }
        free_input(&in);
    }
}

/* Mostly one text as the least and the greatest. Each refusal of a text comes in both. */
static void ask_all_bounds(void)
{
    for (size_t k = 0; k < COUNT(FAULTS); k++) {
        ask_bounds(text_of(FAULTS[k]), text_of(LEAST), default_tags());
        ask_bounds(text_of(LEAST), text_of(FAULTS[k]), default_tags());
    }
    for (size_t k = 0; k < BOUNDS; k++) {
        names_used = 1 + below(COUNT(TESTS));
        struct text least = some_text(6), greatest = { copy_of(least.bytes, least.len), least.len };
        if (one_in(4))
            damage(&greatest);
        ask_bounds(least, greatest, some_tags());
    }
}

static void ask_texts(void)
{
    for (size_t k = 0; k < TEXTS; k++) {
        names_used = 1 + below(COUNT(TESTS));
        ask_text(some_text(3), some_tags());
    }
}

static void ask_bundles(void)
{
    for (size_t k = 0; k < BUNDLES; k++) {
        names_used = 1 + below(COUNT(TESTS));
        ask_bundle(some_bundle(), some_tags());
        ask_revised(some_revisions(), some_tags());
        ask_windows(some_bundle(), some_tags(), some_width());
        struct text sent = some_bundle(), labs = some_labs(&sent);
        ask_labs(sent, some_tags(), labs, some_quotas());
    }
}

/* A number of 1 to 21 digits, or what is none. */
static void put_field(struct text *line)
{
    static const char *const OTHERS[] = { "", "-", "+", "f", "+1", "1x" };
    if (one_in(8)) {
        put(line, "%s", PICK(OTHERS));
        return;
    }
    for (size_t digits = one_in(3) ? 1 + below(21) : 1 + below(9); digits > 0; digits--)
        put(line, "%zu", below(10));
}

static void ask_lines(void)
{
    static const char *const TAGS[] = {
        "TN", "SF", "FN", "FN", "FNDA", "FNF", "FNH", "BRDA", "BRF", "BRH", "DA", "LF", "LH", "end_of_record",
    };
    static const size_t FIELDS[] = { 1, 1, 2, 3, 2, 1, 1, 4, 1, 1, 2, 1, 1, 1 };
    for (size_t k = 0; k < RECORDS; k++) {
        size_t kind = below(COUNT(TAGS)), fields = FIELDS[kind] + one_in(5) - one_in(10);
        struct text line = { NULL, 0 };
        put(&line, "%s%s", TAGS[kind], one_in(10) ? "" : ":");
        for (size_t field = 0; field < fields; field++) {
            put(&line, "%s", field == 0 ? "" : ",");
            put_field(&line);
        }
        put(&line, "%s", one_in(3) ? "\r\n" : one_in(2) ? "\n" : "");
        if (one_in(6))
            damage(&line);
        ask_line(line, some_tags());
    }
}

static uint64_t some_max(void)
{
    static const uint64_t ENDS[] = { 0, 9, 10, 99999999, UINT32_MAX, UINT64_MAX };
    return one_in(2) ? PICK(ENDS) : (uint64_t)below(SIZE_MAX) >> below(64);
}

static void ask_numbers(void)
{
    for (size_t k = 0; k < NUMBERS; k++) {
        struct input in = { .max = some_max() };
        for (size_t zeros = one_in(4) ? below(300) : 0; zeros > 0; zeros--)
            put(&in.bytes, "0");
        put_field(&in.bytes);
        if (one_in(8))
            put(&in.bytes, "%s", one_in(2) ? "," : "x");
        ask_words(READ_NUMBER, &in);
        free_input(&in);
    }
}

static void ask_lists(void)
{
    for (size_t k = 0; k < LISTS; k++) {
        struct input in = { .list = some_list(), .start = some_line(), .end = some_line() };
        if (!one_in(4))
            in.end = in.start + (uint32_t)below(one_in(4) ? 100 : 4);
        ask_words(INSERT_RANGE, &in);
        ask_words(QUERY_RANGE, &in);
        ask_words(HALF_OPEN, &in);
        free_input(&in);
    }
}

static void ask_paths(void)
{
    static const char *const PARTS[] = { "/", "/", ".", "..", "a", "b", "-" };
    for (size_t k = 0; k < PATHS; k++) {
        struct input in = { 0 };
        for (size_t part = below(6); part > 0; part--)
            put(&in.bytes, "%s", PICK(PARTS));
        for (size_t part = below(6); part > 0; part--)
            put(&in.other, "%s", PICK(PARTS));
        ask_words(COMPARE_PATHS, &in);
        free_input(&in);
    }
}

/* A pointer may be anything where the length is 0. */
static void ask_nothing(void)
{
    struct lent lent = { 0 };
    for (size_t place = 0; place < COUNT(CALLS); place++) {
        if (!chosen[place])
            continue;
        CALLS[place].run(&lent);
        calls++;
    }
}

/* Every number that a call can return was returned, and no other. */
static void check_met(void)
{
    for (size_t place = 0; place < COUNT(CALLS); place++)
        expect(!chosen[place] || met[place] == CALLS[place].numbers, CALLS[place].name, "the numbers returned are not those it can return");
}

static bool choose(const char *name)
{
    bool found = false;
    for (size_t place = 0; place < COUNT(CALLS); place++)
        if (name == NULL || strcmp(CALLS[place].name, name) == 0)
            found = chosen[place] = true;
    return found;
}

int main(int argc, char **argv)
{
    bool named = false;
    for (int k = 1; k < argc; k++) {
        if (strcmp(argv[k], "--filled") == 0)
            scratch_filled = true;
        else if (choose(argv[k]))
            named = true;
        else
            return 2;
    }
    if (!named)
        choose(NULL);

    ask_nothing();
    ask_faults();
    ask_starts();
    ask_page();
    ask_replaced(GATHER_REVISIONS);
    ask_replaced(GATHER_REVISIONS_TAGGED);
    ask_moved(WINDOWS);
    ask_moved(WINDOWS_TAGGED);
    ask_left_out(GATHER_QUOTAS);
    ask_left_out(GATHER_QUOTAS_TAGGED);
    ask_bounded(HIT_BOUNDS);
    ask_bounded(HIT_BOUNDS_TAGGED);
    ask_lines();
    ask_numbers();
    ask_lists();
    ask_paths();
    ask_texts();
    ask_bundles();
    ask_all_bounds();
    check_met();
    printf("%lu calls\n", calls);
    return 0;
}
