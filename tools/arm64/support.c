/*
 * What the compiled program calls beside the C library, for a machine for which the toolchain has no such object file.
 * This is C and trusted: nothing proves it. Above each function stands what the toolchain's contract says of it.
 */
#include <errno.h>
#include <stdbool.h>
#include <stdint.h>
#include <stdlib.h>
#include <string.h>
#include <sys/types.h>

/* Whether memory was there, and where; the pointer is never null. */
struct tried {
    bool ok;
    void *memory;
};

static struct tried tried(void *memory) {
    static char nothing;
    struct tried answer = {memory != NULL, memory != NULL ? memory : &nothing};
    return answer;
}

/* Tries to get new memory of a size, aligned so; the alignment divides 16, as every block of malloc is aligned. */
struct tried rattle_alloc(size_t size, size_t alignment) {
    return tried(malloc(size != 0 ? size : alignment));
}

/* Tries to make a block one of another size, whose first kept bytes are as they were; where it fails it is as it was. */
struct tried rattle_realloc(void *block, size_t kept, size_t size, size_t alignment) {
    (void)kept;
    return tried(realloc(block, size != 0 ? size : alignment));
}

/* Frees what either answered. */
void rattle_dealloc(void *block) {
    free(block);
}

/* The number of the last error, and a new one. */
int32_t rattle_errno(void) {
    return errno;
}

void rattle_set_errno(int32_t error) {
    errno = error;
}

static size_t word_count;
static char **words;

__attribute__((constructor)) static void keep_words(int count, char **given) {
    word_count = (size_t)count;
    words = given;
}

/* Puts word i at the start of buf and answers its length, -1 where there is none, -2 where buf is too short and full. */
ssize_t rattle_arg(size_t i, uint8_t *buf, size_t length) {
    if (i >= word_count)
        return -1;
    size_t size = strlen(words[i]);
    if (size > length) {
        memcpy(buf, words[i], length);
        return -2;
    }
    memcpy(buf, words[i], size);
    return (ssize_t)size;
}
