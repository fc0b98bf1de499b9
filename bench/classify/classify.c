/* Tells the class of each block of a raw image as a C program would: reads 64 KiB at a time, and
 * compares each block with itself one word on, by memcmp, which the C library does by lanes. Prints
 * how many runs of one class there are, and how many raw and fill blocks.
 *
 * A block that ends past the image is filled up with zeros.
 */
#include <fcntl.h>
#include <stdint.h>
#include <stdio.h>
#include <string.h>
#include <unistd.h>

enum { BLOCK = 4096, WINDOW = 65536 };

static unsigned char window[WINDOW];

/* Reads until the window is full or the image ends: how many bytes came, or -1. */
static ssize_t fill_window(int fd)
{
    size_t have = 0;
    while (have < WINDOW) {
        ssize_t n = read(fd, window + have, WINDOW - have);
        if (n < 0)
            return -1;
        if (n == 0)
            break;
        have += (size_t)n;
    }
    return (ssize_t)have;
}

int main(int argc, char **argv)
{
    unsigned long runs = 0, raw = 0, fill = 0;
    /* The run before: none, raw (1) or fill with this word (2). */
    int kind = 0;
    uint32_t word = 0;
    ssize_t have;
    int fd;

    if (argc < 2 || (fd = open(argv[1], O_RDONLY)) < 0)
        return 1;
    while ((have = fill_window(fd)) > 0) {
        size_t whole = ((size_t)have + BLOCK - 1) / BLOCK * BLOCK;
        memset(window + have, 0, whole - (size_t)have);
        for (size_t at = 0; at < whole; at += BLOCK) {
            const unsigned char *block = window + at;
            if (memcmp(block, block + 4, BLOCK - 4) != 0) {
                raw++;
                runs += kind != 1;
                kind = 1;
            } else {
                uint32_t first;
                memcpy(&first, block, 4);
                fill++;
                runs += kind != 2 || word != first;
                kind = 2;
                word = first;
            }
        }
    }
    if (have < 0)
        return 1;
    printf("runs %lu raw %lu fill %lu\n", runs, raw, fill);
    return 0;
}
