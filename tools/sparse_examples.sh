#!/usr/bin/env bash
# Makes the sparse images of examples/ again, with AOSP's own tools. Nothing in the gate runs this.
#
#   apt-get install android-sdk-libsparse-utils android-libsparse-dev gcc
#   tools/sparse_examples.sh [FOLDER]          FOLDER is examples/ if none is given
#
# Each image stands beside what simg2img gives for it, as NAME.simg and NAME.raw:
#
#   img2simg    a raw file of 8 blocks of 1,024 bytes, through img2simg: fill and raw chunks
#   short       the same without its last 5 bytes, through img2simg: the last block is filled up
#   libsparse   written by a program over libsparse: raw, fill and don't care
#   libsparse_crc   the same with the CRC32 chunk that libsparse puts at the end
set -euo pipefail
here=$(cd "$(dirname "$0")/.." && pwd)
to=$(mkdir -p "${1:-$here/examples}" && cd "${1:-$here/examples}" && pwd)
work=$(mktemp -d)
trap 'rm -rf "$work"' EXIT
cd "$work"

# Two blocks of zeros, one of text, three of ABCD, one of ff, one of zeros.
{
    head -c 2048 /dev/zero
    for _ in $(seq 128); do echo 'sparse!'; done
    for _ in $(seq 768); do printf ABCD; done
    head -c 1024 /dev/zero | tr '\0' '\377'
    head -c 1024 /dev/zero
} > plain
img2simg plain "$to/img2simg.simg" 1024
head -c -5 plain > cut
img2simg cut "$to/short.simg" 1024

cat > make.c <<'C'
#include <fcntl.h>
#include <stdbool.h>
#include <stdlib.h>
#include <sparse/sparse.h>
#include <string.h>
#include <unistd.h>

/* Blocks of 1,024 bytes: 0 don't care, 1 text, 2 to 4 fill, 5 and 6 don't care, 7 text. */
int main(int argc, char **argv) {
    char text[1024];
    for (int i = 0; i < 1024; i += 8) memcpy(text + i, "sparse!\n", 8);
    struct sparse_file *image = sparse_file_new(1024, 8 * 1024);
    if (argc != 3 || !image) return 1;
    if (sparse_file_add_data(image, text, sizeof text, 1)) return 1;
    if (sparse_file_add_fill(image, 0x44434241, 3 * 1024, 2)) return 1;
    if (sparse_file_add_data(image, text, sizeof text, 7)) return 1;
    int out = open(argv[2], O_WRONLY | O_CREAT | O_TRUNC, 0644);
    if (out < 0) return 1;
    if (sparse_file_write(image, out, false, true, atoi(argv[1]) != 0)) return 1;
    return close(out) != 0;
}
C
gcc -O1 -o make make.c -I/usr/include/android -L/usr/lib/x86_64-linux-gnu/android \
    -Wl,-rpath,/usr/lib/x86_64-linux-gnu/android -lsparse -lz
./make 0 "$to/libsparse.simg"
./make 1 "$to/libsparse_crc.simg"

for image in "$to"/*.simg; do
    rm -f "${image%.simg}.raw"
    simg2img "$image" "${image%.simg}.raw"
done
ls -l "$to"
