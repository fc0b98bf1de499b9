#!/usr/bin/env bash
# Cuts a mixed image with `abootimg cut`, joins all pieces with one call of simg2img, and compares the result with the raw
# image: of a sparse image (as tools/make_sparse.py and as img2simg write it) and, with --raw, of the raw image itself. The
# same for what `abootimg sparse` writes. Nothing in the gate runs this.
#
#   apt-get install android-sdk-libsparse-utils
#   tools/pieces_simg2img.sh [MIB]             the program is $ABOOTIMG, or build/abootimg; MIB is 32
set -euo pipefail
here=$(cd "$(dirname "$0")/.." && pwd)
program=$(realpath "${ABOOTIMG:-$here/build/abootimg}")
mib=${1:-32}
work=$(mktemp -d)
trap 'rm -rf "$work"' EXIT
cd "$work"
failed=0

tell() { # NAME VERDICT WHAT
    [ "$2" = same ] || failed=1
    echo "$1: $2 ($3)"
}

# Each piece in the order of its number; each must be within the limit, and as long as its line says.
join_pieces() { # NAME LIMIT RAW WORDS..
    local name=$1 limit=$2 raw=$3 verdict=same piece=0
    shift 3
    rm -f piece.* joined
    "$program" cut "$@" > said || verdict="status $?"
    local files=()
    while read -r word _ _ _ _ _ bytes; do
        [ "$word" = piece ] || continue
        piece=$((piece + 1))
        files+=("piece.$piece")
        [ "$(stat -c %s "piece.$piece")" = "$bytes" ] || verdict="piece $piece is not $bytes bytes"
        [ "$bytes" -le "$limit" ] || verdict="piece $piece is above the limit"
    done < said
    [ "$(tail -n 1 said)" = "pieces $piece" ] || verdict='the lines do not agree'
    [ "$(find . -name 'piece.*' | wc -l)" = "$piece" ] || verdict='there are other files'
    simg2img "${files[@]}" joined || verdict='refused by simg2img'
    cmp -s joined "$raw" || verdict='differs from the raw image'
    tell "$name" "$verdict" "$piece pieces"
}

# Runs of raw data, zeros, another fill and don't care; and data without runs.
"$here/tools/make_sparse.py" mixed.simg --mib "$mib" --run 37
simg2img mixed.simg mixed.raw
"$here/tools/make_sparse.py" turns.simg --block 4096 --chunks $((mib * 64))
simg2img turns.simg turns.raw
head -c $((mib * 65536)) /dev/urandom > random.raw
img2simg random.raw random.simg 4096

for name in mixed turns random; do
    size=$(stat -c %s $name.raw)
    img2simg $name.raw $name.img2simg 4096
    for limit in $((size / 3)) $((size / 20 + 4160)) 4294967295; do
        join_pieces "$name.simg at $limit" $limit $name.raw $name.simg $limit piece
        join_pieces "$name.img2simg at $limit" $limit $name.raw $name.img2simg $limit piece
        join_pieces "$name.raw at $limit" $limit $name.raw --raw 4096 $name.raw $limit piece
    done
    for block in 4096 1024 65536; do
        [ $((size % block)) = 0 ] || continue
        verdict=same
        "$program" sparse $name.raw ours --block $block > said || verdict="status $?"
        rm -f back
        simg2img ours back || verdict='refused by simg2img'
        cmp -s back $name.raw || verdict='differs from the raw image'
        "$program" expand ours back > /dev/null || verdict="status $? of expand"
        cmp -s back $name.raw || verdict='differs when expanded'
        tell "sparse $name.raw --block $block" "$verdict" "$(cat said)"
    done
done

# What has no length can't be cut.
verdict=same
"$program" cut /dev/stdin 5000 piece < <(cat mixed.simg) > said 2> told && verdict='cut from a pipe'
[ "$(cat told)" = 'abootimg: cannot open /dev/stdin' ] || verdict="$(cat told)"
tell 'cut from a pipe' "$verdict" "$(cat told)"
exit $failed
