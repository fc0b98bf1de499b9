/*
 * Tries the C library on an image: try IMAGE EXPANDED [STATES]
 * In every cut of the input from 1 to 100 bytes and in one piece, joined parts are the expanded image; each truncation is
 * refused as one at its place; the last part comes in a few calls. A state with spoiled bytes is answered without a
 * read or a write outside what was lent, and with ABT_STATE exactly where its numbers are no reader's. What is told of
 * chunks and of fields agrees with the parts and the sections, and what a version does not have is 0.
 * Prints one line for each kind of trial: 'ok NAME' or 'failed NAME'.
 */
#define _DEFAULT_SOURCE

#include "abootimg.h"

#include <stdio.h>
#include <stdlib.h>
#include <string.h>
#include <sys/mman.h>

static uint8_t *image, *want;
static size_t image_length, want_length;
static int failures;

static void report(const char *name, int good) {
    printf("%s %s\n", good ? "ok" : "failed", name);
    failures += !good;
}

static uint8_t *read_file(const char *name, size_t *length) {
    FILE *file = fopen(name, "rb");
    if (file == NULL) {
        perror(name);
        exit(2);
    }
    fseek(file, 0, SEEK_END);
    *length = (size_t)ftell(file);
    rewind(file);
    uint8_t *bytes = malloc(*length + 1);
    if (bytes == NULL || fread(bytes, 1, *length, file) != *length) {
        perror(name);
        exit(2);
    }
    fclose(file);
    return bytes;
}

/* Whether a part says what stands in the expanded image at its place. */
static int is_there(const abt_part *part, const uint8_t *in) {
    if (part->position + part->length > want_length)
        return 0;
    const uint8_t *there = want + part->position;
    if (part->kind == ABT_RAW)
        return part->offset + part->length <= part->used && memcmp(there, in + part->offset, part->length) == 0;
    for (uint64_t i = 0; i < part->length; i++)
        if (there[i] != (part->kind == ABT_FILL ? part->word[i % 4] : 0))
            return 0;
    return 1;
}

/* Expands `length` bytes of the image in cuts; answers the last part, and how far the parts came without a gap. */
static abt_part expand(size_t length, size_t cut, uint64_t *place, int *good) {
    abt_sparse state;
    abt_part part;
    abt_size size;
    size_t at = 0;
    *place = 0;
    *good = 1;
    abt_sparse_init(&state);
    for (;;) {
        size_t some = length - at < cut ? length - at : cut;
        uint8_t *lent = malloc(some + 1); /* so that a sanitizer sees each read behind it */
        memcpy(lent, image + at, some);
        uint32_t fault = abt_sparse_next(&state, lent, some, &part);
        *good &= fault == part.fault && (fault != 0) == (part.kind == ABT_FAULT) && part.used <= some;
        if (part.kind == ABT_RAW || part.kind == ABT_FILL || part.kind == ABT_SKIP) {
            *good &= part.position == *place && is_there(&part, lent);
            *place += part.length;
        }
        free(lent);
        at += part.used;
        *good &= part.kind != ABT_NEED || part.used == some;
        if (part.kind == ABT_NEED && at == length)
            abt_sparse_last(&state, &part);
        if (part.kind == ABT_END || part.kind == ABT_FAULT) {
            abt_part again;
            abt_sparse_next(&state, image, image_length, &again);
            *good &= again.kind == part.kind && again.fault == part.fault && again.detail == part.detail && again.used == 0;
            if (part.kind == ABT_END)
                *good &= abt_sparse_size(&state, &size) == 0 && size.bytes == want_length;
            return part;
        }
    }
}

static void try_cuts(void) {
    int all = 1;
    for (size_t cut = 1; cut <= 101; cut++) {
        uint64_t place;
        int good;
        abt_part part = expand(image_length, cut == 101 ? image_length : cut, &place, &good);
        all &= good && part.kind == ABT_END && place == want_length;
    }
    report("every cut", all);
}

/* The blocks of chunks are those of the parts, all of each chunk is read behind it, and the header counts them. */
static void try_chunks(void) {
    abt_sparse state;
    abt_part part;
    abt_chunk chunk = {0};
    abt_header header;
    abt_size size;
    uint64_t bytes = 0;
    size_t at = 0;
    int all = 1;
    abt_sparse_init(&state);
    all &= abt_sparse_header(&state, &header) == 0 && header.major == 0;
    do {
        abt_sparse_next(&state, image + at, image_length - at, &part);
        at += part.used;
        bytes += part.length;
        all &= abt_sparse_chunk(&state, &chunk) == 0 && abt_sparse_size(&state, &size) == 0;
        all &= bytes <= (uint64_t)chunk.blocks * size.block_size;
    } while (part.kind < ABT_END);
    all &= chunk.headers == size.chunks && chunk.blocks == size.blocks && chunk.left + chunk.due + chunk.extra == 0;
    all &= abt_sparse_header(&state, &header) == 0 && header.major == 1 && header.header_size >= 28;
    report("chunks and headers", all);
}

static void try_truncations(void) {
    int all = 1;
    size_t step = image_length / 5000 + 1;
    for (size_t length = 0; length < image_length; length += step) {
        uint64_t place;
        int good;
        abt_part part = expand(length, 1 + length % 100, &place, &good);
        all &= good && part.kind == ABT_FAULT && part.fault == ABT_TRUNCATED && part.detail == length;
    }
    report("each truncation", all);
}

/* What follows no byte more comes in at most four calls, END or a fault last; and that is answered again. */
static int is_last(abt_sparse *state, abt_part *part) {
    int calls = 0;
    do
        if (++calls > 4 || abt_sparse_last(state, part) != part->fault || part->kind == ABT_NEED || part->used != 0)
            return 0;
    while (part->kind < ABT_END);
    abt_part again, next;
    abt_sparse before = *state;
    uint8_t none = 0;
    abt_sparse_last(state, &again);
    abt_sparse_next(state, &none, 0, &next);
    return again.kind == part->kind && again.fault == part->fault && again.detail == part->detail &&
           next.kind == part->kind && next.fault == part->fault && next.detail == part->detail &&
           memcmp(state, &before, sizeof before) == 0;
}

/* An input that ends anywhere, a part at a time: only behind the whole image the end comes. */
static void try_last(void) {
    int all = 1, ends = 0;
    size_t step = image_length / 5000 + 1;
    abt_sparse state;
    abt_part part;
    abt_sparse_init(&state);
    for (size_t at = 0; at <= image_length;) {
        abt_sparse copy = state;
        all &= is_last(&copy, &part);
        all &= part.kind == ABT_END ? at == image_length : part.fault == ABT_TRUNCATED && part.detail == at;
        ends += part.kind == ABT_END;
        size_t some = image_length - at < step ? image_length - at : step;
        abt_sparse_next(&state, image + at, some, &part);
        at += part.used;
        if (part.kind == ABT_END)
            break;
    }
    report("the last part", all && ends > 0);
}

static uint64_t seed = 88172645463325252u;

static uint64_t chance(void) {
    seed ^= seed << 13;
    seed ^= seed >> 7;
    seed ^= seed << 17;
    return seed;
}

/* A state within the image, or none of them, with some bytes of it spoiled. */
static void spoil(abt_sparse *state, size_t *at) {
    abt_part part;
    abt_sparse_init(state);
    *at = 0;
    if (chance() % 2) {
        for (uint64_t steps = chance() % 40; steps > 0 && *at < image_length; steps--) {
            size_t some = 1 + chance() % 5000;
            if (some > image_length - *at)
                some = image_length - *at;
            abt_sparse_next(state, image + *at, some, &part);
            *at += part.used;
        }
        for (uint64_t i = chance() % 3; i > 0; i--)
            ((uint8_t *)state)[chance() % sizeof *state] = (uint8_t)chance();
    } else {
        for (size_t i = 0; i < sizeof *state; i++)
            ((uint8_t *)state)[i] = chance() % 4 ? 0 : (uint8_t)chance();
    }
}

/* Whether a fault of this number may tell this; no fault, 0, tells nothing. */
static int may_tell(uint32_t fault, uint64_t detail) {
    static const int bits[] = {0, 0, 16, 16, 16, 32, 48, 32, 32, 32, 64};
    return fault <= 10 && (bits[fault] == 64 || detail >> bits[fault] == 0);
}

/* How many bytes are taken whole next: a header or a word, of which fewer may be held. */
static uint32_t whole(const abt_sparse *s) {
    uint32_t phase = s->m[0], kind = s->h[3], index = s->m[7], chunks = s->m[4], extra = s->m[9];
    if (phase != 1)
        return phase == 0 ? 28 : 0;
    if (extra > 0 || (kind == 0xCAC1 && s->n[1] > 0))
        return 0;
    if ((kind == 0xCAC2 || kind == 0xCAC4) && s->d[0] == 1)
        return 4;
    if ((kind == 0xCAC2 || kind == 0xCAC3) && s->n[2] > 0)
        return 0;
    return index < chunks ? 12 : 0;
}

/* Whether the numbers are a reader's, by the rules that src/stored.rt has. */
static int is_reader(const abt_sparse *s) {
    uint64_t position = s->n[0], raw = s->n[1], words = s->n[2], detail = s->n[3];
    uint32_t phase = s->m[0], fault = s->m[1], block = s->m[2], blocks = s->m[3], chunks = s->m[4];
    uint32_t index = s->m[7], have = s->m[8], extra = s->m[9], kind = s->h[3], due = s->d[0], count = s->d[1];
    if (phase > 3 || (phase == 3) != (fault > 0) || !may_tell(fault, detail))
        return 0;
    if (s->h[1] < 28 || s->h[2] < 12 || block == 0 || block % 4 != 0 || kind < 0xCAC1 || kind > 0xCAC4)
        return 0;
    if (index > chunks || have > blocks || due > 1 || have > (uint64_t)index * 0xFFFFFFFF)
        return 0;
    uint64_t laid = (uint64_t)have * block, most = 65535 + (uint64_t)index * 0xFFFFFFFF;
    if ((kind == 0xCAC1 && raw > laid) || ((kind == 0xCAC2 || kind == 0xCAC3) && words > laid / 4))
        return 0;
    if (position > most || raw > most - position || (uint64_t)extra + due * 4 > most - position - raw)
        return 0;
    return count == 0 || count < whole(s);
}

/* Each call answers ABT_STATE exactly where the numbers are no reader's; what only asks answers the kept fault. */
static int is_told(const abt_sparse *state) {
    uint32_t want = is_reader(state) ? state->m[1] : ABT_STATE;
    abt_sparse next = *state, last = *state;
    abt_part part;
    abt_size size;
    abt_header header;
    abt_chunk chunk;
    uint8_t none = 0;
    int all = abt_sparse_size(state, &size) == want && abt_sparse_header(state, &header) == want;
    all &= abt_sparse_chunk(state, &chunk) == want;
    uint32_t fault = abt_sparse_next(&next, &none, 0, &part);
    all &= want == 0 ? fault <= 10 : fault == want;
    fault = abt_sparse_last(&last, &part);
    all &= want == 0 ? fault <= 10 : fault == want;
    return all && (want == ABT_STATE || (is_reader(&next) && is_reader(&last) && is_last(&last, &part)));
}

/* One call at the end of a page behind which nothing may be read. */
static int is_answered(uint8_t *page, abt_sparse *state, size_t at) {
    size_t length = chance() % 64;
    if (!is_told(state))
        return 0;
    uint8_t *in = page + 4096 - length;
    for (size_t i = 0; i < length; i++)
        in[i] = at + i < image_length ? image[at + i] : 0;
    for (int calls = 0; calls < 4; calls++) {
        abt_sparse before = *state;
        abt_part part;
        uint32_t fault = abt_sparse_next(state, in, length, &part);
        if (fault != part.fault || (fault != 0) != (part.kind == ABT_FAULT) || part.kind > ABT_FAULT || part.used > length)
            return 0;
        if (part.kind == ABT_RAW && part.offset + part.length > part.used)
            return 0;
        if (fault == ABT_STATE)
            return memcmp(state, &before, sizeof before) == 0;
        if (part.kind == ABT_FAULT || part.kind == ABT_END) {
            abt_part again;
            abt_sparse_next(state, in, length, &again);
            return again.kind == part.kind && again.fault == part.fault;
        }
    }
    return 1;
}

static void try_states(long states) {
    uint8_t *page = mmap(NULL, 8192, PROT_READ | PROT_WRITE, MAP_PRIVATE | MAP_ANONYMOUS, -1, 0);
    if (page == MAP_FAILED || mprotect(page + 4096, 4096, PROT_NONE) != 0) {
        perror("mmap");
        exit(2);
    }
    int all = 1;
    for (long i = 0; i < states; i++) {
        abt_sparse state;
        size_t at;
        spoil(&state, &at);
        all &= is_answered(page, &state, at);
    }
    report("spoiled states", all);
}

/* A fault that no call left: of another phase, of a number that no image has, or with a detail that it can't have. */
static void try_faults(void) {
    static const uint64_t details[] = {0,           1,           65535,          65536,           0xFFFFFFFF,
                                       0x100000000, 0xFFFFFFFFFFFF, 0x1000000000000, UINT64_MAX};
    int all = 1, readers = 0;
    abt_sparse state;
    abt_part part;
    for (uint32_t phase = 0; phase <= 5; phase++)
        for (uint32_t fault = 0; fault <= 100; fault++)
            for (size_t i = 0; i < sizeof details / sizeof *details; i++) {
                abt_sparse_init(&state);
                abt_sparse_next(&state, image, 28, &part);
                all &= is_reader(&state);
                state.m[0] = phase;
                state.m[1] = fault;
                state.n[3] = details[i];
                all &= is_told(&state);
                readers += is_reader(&state);
            }
    /* (phases 0 to 2 without a fault; then 1 of fault 1, 3 of 2, 3 and 4, 5 of 5 and 7 to 9, 7 of 6 and 9 of 10) */
    report("faults that no call left", all && readers == 3 + 1 + 3 * 3 + 4 * 5 + 7 + 9);
}

static int is_zero(const void *bytes, size_t length) {
    const uint8_t *at = bytes;
    for (size_t i = 0; i < length; i++)
        if (at[i] != 0)
            return 0;
    return 1;
}

/* What the version does not have is 0, and so is what stands behind a text, and behind a fault all. */
static int is_bare(const abt_boot *boot, const abt_fields *f) {
    if (boot->fault != 0)
        return is_zero(&boot->kind, sizeof *boot - 8) && is_zero(&f->has, sizeof *f - 8);
    int vendor = boot->kind == ABT_VENDOR_BOOT, early = !vendor && boot->version <= 2;
    size_t text = vendor ? 2048 : early ? 512 : 1536;
    int all = is_zero(f->cmdline + text, 2048 - text) && f->reserved == 0;
    all &= early || (is_zero(f->id, sizeof f->id) && is_zero(f->extra, sizeof f->extra) && f->second_addr == 0);
    all &= early || vendor || (is_zero(f->name, sizeof f->name) && is_zero(&f->kernel_addr, 16));
    all &= vendor || (f->fragments == 0 && (boot->version == 2 || f->dtb_addr == 0));
    return all && (!vendor || is_zero(f->os, sizeof f->os));
}

static void put(uint8_t *at, uint32_t n) {
    for (int i = 0; i < 4; i++)
        at[i] = (uint8_t)(n >> 8 * i);
}

/* Numbers in the place of random bytes, by which the header mostly is one. */
static void mend(uint8_t *head) {
    int vendor = head[0] == 'V';
    put(head + (vendor ? 8 : 40), vendor ? 3 + (uint32_t)(chance() % 2) : (uint32_t)(chance() % 5));
    put(head + (vendor ? 12 : 36), 2048u << chance() % 3);
    if (vendor) {
        uint32_t entries = (uint32_t)(chance() % 4);
        put(head + 2112, 108 * entries);
        put(head + 2116, entries);
        put(head + 2120, 108);
    }
}

/* Whatever stands behind a header, and with fewer bytes than it has how many are needed. */
static void try_random_headers(void) {
    static const char magics[2][9] = {"ANDROID!", "VNDRBOOT"};
    static uint8_t head[4096];
    int all = 1, seen[2][5] = {{0}};
    for (int i = 0; i < 20000; i++) {
        abt_boot boot, more;
        abt_fields fields;
        abt_fragment fragment;
        for (size_t j = 0; j < 2200; j++)
            head[j] = chance() % 3 ? 0 : (uint8_t)chance();
        memcpy(head, magics[chance() % 2], 8);
        if (chance() % 4)
            mend(head);
        size_t length = chance() % 2200;
        uint32_t fault = abt_boot_info(head, length, &boot);
        all &= abt_boot_fields(head, length, &fields) == fault && fields.detail == boot.detail;
        all &= is_bare(&boot, &fields);
        if (fault == 0)
            seen[boot.kind - 1][boot.version] = 1;
        all &= (fields.has == 0) == (fault != 0) && (fields.fragments == 0 || boot.version == 4);
        all &= abt_boot_fragment(head, length, &fragment) == (length < 108 ? 0 : 108);
        all &= fault == boot.fault && boot.count <= 5 && (fault == 0 || boot.count == 0);
        if (fault == ABT_BOOT_SHORT)
            all &= abt_boot_info(head, boot.detail, &more) != ABT_BOOT_SHORT || more.detail > boot.detail;
    }
    for (int version = 0; version <= 4; version++)
        all &= seen[0][version] && (version < 3 || seen[1][version]);
    report("headers", all);
}

int main(int argc, char **argv) {
    if (argc < 3) {
        fprintf(stderr, "usage: try IMAGE EXPANDED [STATES]\n");
        return 2;
    }
    image = read_file(argv[1], &image_length);
    want = read_file(argv[2], &want_length);
    report("sizes", sizeof(abt_sparse) == 120 && sizeof(abt_part) == 56 && sizeof(abt_chunk) == 32 &&
                        sizeof(abt_header) == 20 && sizeof(abt_boot) == 112 && sizeof(abt_fields) == 3184 &&
                        sizeof(abt_fragment) == 108);
    try_cuts();
    try_chunks();
    try_truncations();
    try_last();
    try_faults();
    try_states(argc > 3 ? atol(argv[3]) : 200000);
    try_random_headers();
    free(image);
    free(want);
    return failures != 0;
}
