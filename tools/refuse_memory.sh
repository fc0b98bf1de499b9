#!/usr/bin/env bash
# Refuses each allocation of each command in turn: the Nth call of malloc, calloc or realloc, for N from 1 until a run ends
# clean. Each run must print `abootimg: memory` and end with status 1, or give what it gives with memory. Pieces that `cut` had
# written before stand, as its lines say. Before that it refuses each buffer in turn: all but the window and the 4 KiB of a
# file that is written are for speed alone, and without them the command goes on. Nothing in the gate runs this.
#
#   tools/refuse_memory.sh [buffers]     the buffers alone, by that word; needs gcc
#
# The program is $ABOOTIMG, or crates/abootimg/out/abootimg. It must be one that is linked to the C library as it starts.
set -uo pipefail
here=$(cd "$(dirname "$0")/.." && pwd)
program=$(realpath "${ABOOTIMG:-$here/crates/abootimg/out/abootimg}")
work=$(mktemp -d)
trap 'rm -rf "$work"' EXIT
cp "$here/examples/libsparse_crc.simg" "$work/image.simg"
cp "$here/examples/libsparse_crc.raw" "$work/plain.raw"
cd "$work"
# A boot image of version 0 with pages of 2,048 bytes and a kernel of one byte.
{ printf 'ANDROID!\001' && head -c 27 /dev/zero && printf '\000\010' && head -c 2010 /dev/zero && printf 'K'; } > boot.img
{ cat boot.img && head -c 4000 /dev/zero; } > longer.img
mkdir parts
head -c 70000 /dev/urandom > big.raw
head -c 30000 /dev/zero >> big.raw
head -c 150000 /dev/urandom >> big.raw
truncate -s 253952 big.raw
"$program" sparse big.raw big.simg > told || exit 1
printf '%s\n' --version 4 --kernel image.simg > words
"$program" cut image.simg 1200 one > told || exit 1

cat > refuse.c <<'C'
#define _GNU_SOURCE
#include <dlfcn.h>
#include <stdlib.h>
#include <unistd.h>

static long calls, refused;

/* Whether this call is the one to refuse, of all or of those of buffers, whose sizes are powers of two from 4,096 on: what
   reads the words of the command line asks for none of these. That it was is told through descriptor 9. */
static int refuse(size_t size) {
    if (!refused) {
        const char *n = getenv("REFUSE");
        refused = n ? atol(n) : -1;
    }
    if (getenv("BUFFERS") && (size < 4096 || (size & (size - 1)))) return 0;
    if (++calls != refused) return 0;
    (void)!write(9, "refused", 7);
    return 1;
}
void *malloc(size_t size) {
    static void *(*next)(size_t);
    if (!next) next = (void *(*)(size_t))dlsym(RTLD_NEXT, "malloc");
    return refuse(size) ? NULL : next(size);
}
void *realloc(void *block, size_t size) {
    static void *(*next)(void *, size_t);
    if (!next) next = (void *(*)(void *, size_t))dlsym(RTLD_NEXT, "realloc");
    return refuse(size) ? NULL : next(block, size);
}
void *aligned_alloc(size_t align, size_t size) {
    static void *(*next)(size_t, size_t);
    if (!next) next = (void *(*)(size_t, size_t))dlsym(RTLD_NEXT, "aligned_alloc");
    return refuse(size) ? NULL : next(align, size);
}
int posix_memalign(void **block, size_t align, size_t size) {
    static int (*next)(void **, size_t, size_t);
    if (!next) next = (int (*)(void **, size_t, size_t))dlsym(RTLD_NEXT, "posix_memalign");
    return refuse(size) ? 12 : next(block, align, size);
}
C
gcc -shared -fPIC -O1 -o refuse.so refuse.c -ldl

run() { # N words
    local n=$1
    shift
    rm -f raw.img piece.* parts/* part
    truncate -s 260K part
    REFUSE=$n LD_PRELOAD=$work/refuse.so "$program" "$@" > out 2> err 9> told < image.simg
    status=$?
}

# Each piece whose line is printed is whole, and the lines are the first of those that a run with memory prints.
pieces_stand() {
    local line number
    while read -r line; do
        [ "${line%% *}" = piece ] || continue
        number=${line#piece }
        number=${number%% *}
        cmp -s "piece.$number" "want_pieces/piece.$number" || return 1
    done < out
    cmp -s -n "$(stat -c %s out)" out want_out
}

# Refuses each allocation in turn, as $BUFFERS says, and leaves in $wants how often that ended the command.
each_refused() { # words
    # shellcheck disable=SC2086
    run 0 $words
    want_status=$status
    cp out want_out && cp err want_err && cp part want_part
    rm -f want_raw && [ -f raw.img ] && cp raw.img want_raw
    rm -rf want_parts && cp -r parts want_parts
    rm -rf want_pieces && mkdir want_pieces && cp piece.* want_pieces 2> /dev/null
    wants=0
    for n in $(seq 100000); do
        # shellcheck disable=SC2086
        run "$n" $words
        if [ $status = 1 ] && [ "$(cat err)" = 'abootimg: memory' ]; then
            wants=$((wants + 1))
        elif [ $status != $want_status ] || ! cmp -s out want_out || ! cmp -s err want_err || ! cmp -s part want_part ||
            { [ -f want_raw ] && ! cmp -s raw.img want_raw; } || ! diff -r parts want_parts > /dev/null; then
            echo "abootimg $words: allocation $n refused: status $status, $(head -c 100 err)"
            failed=1
        fi
        if ! pieces_stand; then
            echo "abootimg $words: allocation $n refused: a piece before it does not stand"
            failed=1
        fi
        [ -s told ] || break
    done
    echo "abootimg $words: $((n - 1)) allocations refused in turn, $wants times 'abootimg: memory' with status 1"
}

failed=0
export BUFFERS=1
while read -r most words; do
    each_refused
    if [ "$wants" -gt "$most" ]; then
        echo "abootimg $words: only $most of these allocations may end it"
        failed=1
    fi
done <<'END'
3 cut big.simg 150K piece
3 cut big.raw 150K piece --raw 4096
2 sparse big.raw raw.img
1 flash big.simg part 100K spool
1 flash big.raw part 100K spool --raw 4096
1 expand big.simg big.simg raw.img
END
[ "${1-}" = buffers ] && exit $failed

unset BUFFERS
for words in "" "list image.simg" "expand image.simg raw.img" "list no-such-file" "nothing" "--help" \
    "pack --version 2 --kernel image.simg --dtb image.simg --name board --os 13.0.0-2023-05 raw.img" \
    "pack --vendor --version 4 --dtb image.simg raw.img platform:a:image.simg none:b:image.simg" \
    "pack --version 3 --signature image.simg raw.img" "pack --version 4 raw.img none:a:image.simg" \
    "pack --version 4 --kernel no-such-file raw.img" \
    "info boot.img" "unpack boot.img parts" "unpack boot.img none" \
    "cut image.simg 1200 piece" "cut plain.raw 1200 piece --raw 1024" "cut no-such-file 1200 piece" \
    "cut image.simg 1200 no-such-folder/piece" "cut image.simg 1k piece" \
    "sparse plain.raw raw.img --block 1024" "sparse plain.raw no-such-folder/raw.img" \
    "expand image.simg image.simg" "flash image.simg part" "flash image.simg part 1200 spool" "verify image.simg part" \
    "flash plain.raw part 1200 spool --raw 1024 --from 2" "flash image.simg no-such-file" \
    "expand - raw.img" "expand -q image.simg -" "sparse plain.raw - --block 1K" "cut image.simg 0x4b0 piece" \
    "pack --version 2 --base 0x10000000 --kernel image.simg --dtb image.simg --page 2K raw.img" \
    "info --check boot.img" "info --check image.simg" "completions bash" "completions zsh" "completions fish" \
    "expand one.1 one.2 raw.img" "repack boot.img raw.img --ramdisk image.simg" \
    "repack longer.img raw.img --keep-trailing" "unpack --words boot.img parts" \
    "pack @words raw.img"; do
    each_refused
done
exit $failed
