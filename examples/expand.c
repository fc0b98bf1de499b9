/* Expands a sparse image: expand IMAGE OUT [BYTES TO READ AT ONCE] */
#include "abootimg.h"

#include <errno.h>
#include <stdio.h>
#include <stdlib.h>
#include <string.h>

static uint8_t input[1 << 20];
static uint8_t words[1 << 16];

static void write_all(FILE *out, const uint8_t *bytes, size_t length) {
    if (fwrite(bytes, 1, length, out) != length) {
        perror("write");
        exit(2);
    }
}

/* Writes `length` bytes that repeat a word. */
static void write_words(FILE *out, const uint8_t *word, uint64_t length) {
    size_t laid = length < sizeof words ? (size_t)length : sizeof words;
    for (size_t i = 0; i < laid; i += 4)
        memcpy(words + i, word, 4);
    while (length > 0) {
        size_t some = length < laid ? (size_t)length : laid;
        write_all(out, words, some);
        length -= some;
    }
}

static int refuse(const abt_part *part) {
    fprintf(stderr, "refused: %u (%llu)\n", part->fault, (unsigned long long)part->detail);
    return 1;
}

int main(int argc, char **argv) {
    static const uint8_t zeros[4] = {0, 0, 0, 0};
    size_t most = argc > 3 ? strtoul(argv[3], NULL, 10) : sizeof input;
    if (argc < 3 || most == 0 || most > sizeof input) {
        fprintf(stderr, "usage: expand IMAGE OUT [BYTES TO READ AT ONCE]\n");
        return 2;
    }
    FILE *in = fopen(argv[1], "rb");
    FILE *out = fopen(argv[2], "wb");
    if (in == NULL || out == NULL) {
        fprintf(stderr, "open: %s\n", strerror(errno));
        return 2;
    }
    abt_sparse state;
    abt_part part;
    size_t have = 0, at = 0;
    abt_sparse_init(&state);
    for (;;) {
        uint32_t fault = abt_sparse_next(&state, input + at, have - at, &part);
        const uint8_t *raw = input + at + part.offset;
        at += part.used;
        if (fault != 0)
            return refuse(&part);
        if (part.kind == ABT_RAW) {
            write_all(out, raw, (size_t)part.length);
        } else if (part.kind == ABT_FILL) {
            write_words(out, part.word, part.length);
        } else if (part.kind == ABT_SKIP) {
            write_words(out, zeros, part.length);
        } else if (part.kind == ABT_END) {
            break;
        } else if (part.kind == ABT_NEED) {
            have = fread(input, 1, most, in);
            at = 0;
            if (have == 0) {
                if (ferror(in)) {
                    perror("read");
                    return 2;
                }
                if (abt_sparse_last(&state, &part) != 0)
                    return refuse(&part);
            }
        }
    }
    fclose(in);
    if (fclose(out) != 0) {
        perror("close");
        return 2;
    }
    return 0;
}
