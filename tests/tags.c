/* The table of tags that include/lcov.h makes, as C and as C++. The status is 1 if one is wrong. */
#include <string.h>

#include "lcov.h"

static const char *const DEFAULT[LCOV_KINDS] = {
    "TN", "SF", "FN", "FNDA", "FNF", "FNH", "BRDA", "BRF", "BRH", "DA", "LF", "LH", "end_of_record",
};

static const uint8_t DEFAULT_TABLE[LCOV_TAGS_LEN] = LCOV_DEFAULT_TAGS;

/* What is answered for the default tags with another one at a place; the table is filled before. */
static int made_with(size_t place, const char *tag, uint8_t table[LCOV_TAGS_LEN])
{
    const char *tags[LCOV_KINDS];
    memcpy(tags, DEFAULT, sizeof tags);
    tags[place] = tag;
    memset(table, 0xa5, LCOV_TAGS_LEN);
    return lcov_make_tags(tags, table);
}

static int is_wrong(size_t place)
{
    uint8_t table[LCOV_TAGS_LEN];
    const uint8_t *slot = table + LCOV_KINDS + LCOV_TAG_SLOT * place;
    if (made_with(place, DEFAULT[place], table) != 0 || memcmp(table, DEFAULT_TABLE, LCOV_TAGS_LEN) != 0)
        return 1;
    if (made_with(place, "", table) != -1 || made_with(place, "12345678901234567", table) != -1)
        return 1;
    if (made_with(place, "1234567890\xff, :56", table) != 0 || table[place] != 16 || memcmp(slot, "1234567890\xff, :56", 16) != 0)
        return 1;
    return made_with(place, "x", table) != 0 || table[place] != 1 || memcmp(slot, "x\0\0\0\0\0\0\0\0\0\0\0\0\0\0", 16) != 0;
}

int main(void)
{
    size_t place;
    for (place = 0; place < LCOV_KINDS; place++)
        if (is_wrong(place))
            return 1;
    return 0;
}
