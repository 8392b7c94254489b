/* Gathers two tracefiles with the C calls: the texts are packed into a bundle, and the output is lent again where it was too short.
 *
 *     cc -Iinclude examples/gather.c crates/lcov_c/out/liblcov_c.a -o gather && ./gather a.info b.info
 *
 * or, after `make install`,
 *
 *     cc examples/gather.c $(pkg-config --cflags --libs lcov) -o gather
 */
#include <stdio.h>
#include <stdlib.h>
#include <string.h>

#include "lcov.h"

static void put(uint8_t *bundle, size_t place, uint32_t number)
{
    for (size_t k = 0; k < 4; k++)
        bundle[4 * place + k] = (uint8_t)(number >> 8 * k);
}

/* The whole file; its length goes to len. */
static uint8_t *read_file(const char *path, size_t *len)
{
    FILE *file = fopen(path, "rb");
    if (file == NULL || fseek(file, 0, SEEK_END) != 0)
        return NULL;
    *len = (size_t)ftell(file);
    rewind(file);
    uint8_t *text = malloc(*len + 1);
    if (text != NULL && fread(text, 1, *len, file) != *len)
        *len = 0;
    fclose(file);
    return text;
}

int main(int argc, char **argv)
{
    if (argc != 3)
        return 2;
    size_t a_len = 0, b_len = 0;
    uint8_t *a = read_file(argv[1], &a_len), *b = read_file(argv[2], &b_len);
    if (a == NULL || b == NULL)
        return 2;

    /* n, T, two starts, two lengths, and the texts */
    size_t len = 24 + a_len + b_len;
    uint8_t *bundle = malloc(len);
    uint32_t head[6] = { 2, (uint32_t)(a_len + b_len), 0, (uint32_t)a_len, (uint32_t)a_len, (uint32_t)b_len };
    for (size_t place = 0; place < 6; place++)
        put(bundle, place, head[place]);
    memcpy(bundle + 24, a, a_len);
    memcpy(bundle + 24 + a_len, b, b_len);

    size_t words = (size_t)LCOV_MAX_ENTRIES * LCOV_WORDS_PER_ENTRY, room = len;
    uint64_t *scratch = malloc(words * sizeof *scratch), answer[LCOV_ANSWER_WORDS];
    uint8_t *out = malloc(room);
    uint32_t refused = lcov_gather_with(bundle, len, scratch, words, out, room, answer, LCOV_ANSWER_WORDS);
    if (refused == LCOV_OUTPUT_TOO_SHORT) {
        room = (size_t)answer[3];
        out = realloc(out, room);
        refused = lcov_gather_with(bundle, len, scratch, words, out, room, answer, LCOV_ANSWER_WORDS);
    }
    if (refused != 0) {
        fprintf(stderr, "%s: refusal %u at line %llu, field %llu\n", argv[1 + answer[0]], refused, (unsigned long long)answer[1],
                (unsigned long long)answer[2]);
        return 1;
    }
    fwrite(out, 1, (size_t)answer[0], stdout);
    free(a), free(b), free(bundle), free(scratch), free(out);
    return 0;
}
