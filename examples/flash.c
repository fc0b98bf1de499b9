/*
 * Writes a sparse image over a file or a device, each part at its place; what the image does not care about stays as it
 * is: flash IMAGE DEVICE
 */
#define _POSIX_C_SOURCE 200809L
#define _FILE_OFFSET_BITS 64

#include "abootimg.h"

#include <fcntl.h>
#include <stdio.h>
#include <stdlib.h>
#include <string.h>
#include <unistd.h>

static uint8_t input[1 << 20];
static uint8_t words[1 << 16];

static void fail(const char *what) {
    perror(what);
    exit(2);
}

static void write_at(int device, const uint8_t *bytes, uint64_t length, uint64_t place) {
    while (length > 0) {
        ssize_t some = pwrite(device, bytes, (size_t)length, (off_t)place);
        if (some <= 0)
            fail("write");
        bytes += some;
        length -= (uint64_t)some;
        place += (uint64_t)some;
    }
}

static void fill_at(int device, const uint8_t *word, uint64_t length, uint64_t place) {
    uint64_t laid = length < sizeof words ? length : sizeof words;
    for (size_t i = 0; i < laid; i += 4)
        memcpy(words + i, word, 4);
    while (length > 0) {
        uint64_t some = length < laid ? length : laid;
        write_at(device, words, some, place);
        length -= some;
        place += some;
    }
}

/* Refuses a device that is too small, as soon as the size of the image is known and before anything is written. */
static void check_size(const abt_sparse *state, uint64_t room) {
    abt_size size;
    if (abt_sparse_size(state, &size) == 0 && size.bytes > room) {
        fprintf(stderr, "too small: %llu bytes are needed\n", (unsigned long long)size.bytes);
        exit(1);
    }
}

int main(int argc, char **argv) {
    if (argc != 3) {
        fprintf(stderr, "usage: flash IMAGE DEVICE\n");
        return 2;
    }
    int image = open(argv[1], O_RDONLY);
    int device = open(argv[2], O_RDWR);
    if (image < 0 || device < 0)
        fail("open");
    off_t end = lseek(device, 0, SEEK_END);
    if (end < 0)
        fail("seek");
    abt_sparse state;
    abt_part part;
    size_t have = 0, at = 0;
    abt_sparse_init(&state);
    do {
        abt_sparse_next(&state, input + at, have - at, &part);
        const uint8_t *raw = input + at + part.offset;
        at += part.used;
        check_size(&state, (uint64_t)end);
        if (part.kind == ABT_RAW) {
            write_at(device, raw, part.length, part.position);
        } else if (part.kind == ABT_FILL) {
            fill_at(device, part.word, part.length, part.position);
        } else if (part.kind == ABT_NEED) {
            ssize_t some = read(image, input, sizeof input);
            if (some < 0)
                fail("read");
            at = 0;
            have = (size_t)some;
            if (have == 0)
                abt_sparse_last(&state, &part);
        }
    } while (part.kind != ABT_END && part.kind != ABT_FAULT);
    if (part.kind == ABT_FAULT) {
        fprintf(stderr, "refused: %u (%llu)\n", part.fault, (unsigned long long)part.detail);
        return 1;
    }
    if (fsync(device) != 0)
        fail("sync");
    close(device);
    close(image);
    return 0;
}
