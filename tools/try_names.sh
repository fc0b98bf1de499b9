#!/usr/bin/env bash
# Runs what people do with AOSP's tools (tests/names: a board's makefile and a recovery's script) with the tools of a
# folder, and compares all that is left with tests/names/expected. Where AOSP's tools are, the same is run with these.
#
#   TOOLS=DIR tools/try_names.sh      DIR has the five tools by their names; without TOOLS they are links to the
#                                     program, $ABOOTIMG, or build/abootimg
#   THEIRS=DIR                        AOSP's tools, of Android 12 or later; without it those of the path
#   tools/try_names.sh --expected     prints what AOSP's tools leave, as tests/names/expected has it
#
# The makefile makes boot images of each version, vendor boot images with fragments, and sparse images, and cuts one.
# The script expands, joins, unpacks, packs again and compares. Pieces of a cut are left out: they may be cut elsewhere.
. "$(dirname "$0")/trying.sh" || exit 1
names="simg2img img2simg simg2simg mkbootimg unpack_bootimg"
tests=$here/tests/names

# What a folder has, in lines: checksums of files, and targets of links.
left() { # FOLDER
    (cd "$1" && find . -type f ! -name 'super.img*' -exec sha256sum {} + && find . -type l -printf '%l  %p\n') |
        sed 's,  \./,  ,' | LC_ALL=C sort -k 2
}

# Runs the makefile and the script with the tools of a folder, in a folder of its own.
flow() { # TOOLS WHERE
    mkdir -p "$2/product"
    (
        cd "$2" || exit 1
        export PATH=$1:$PATH LC_ALL=C.UTF-8
        make -s -f "$tests/board.mk" IN=../inputs OUT=product all && bash "$tests/recovery.sh" product ../inputs
    ) >"$2.log" 2>&1 </dev/null
    status=$?
    cp "$2.log" err
    left "$2" >"$2.sums"
    return $status
}

# The tools of AOSP, if they know all that is asked; else why they are not taken.
theirs() {
    local folder=${THEIRS:-$(dirname "$(command -v mkbootimg || echo /none/x)")} it
    folder=$(realpath "$folder")
    for it in $names; do
        [ -x "$folder/$it" ] || { echo "there is no $it"; return 1; }
    done
    "$folder/unpack_bootimg" --help 2>&1 | grep -q -- --format || { echo 'they are older than Android 12'; return 1; }
    echo "$folder"
}

# simg2img 34.0.5 says at random that it cannot write what it has written, of an image that ends with don't care.
again() {
    local turn
    for turn in 1 2 3 4 5 6 7 8; do
        rm -rf theirs
        flow "$folder" theirs && return
        grep -qx 'Cannot write output file' theirs.log || return
    done
}

lacks 'the use of the names' make sha256sum && { tried; exit; }
"$tests/make_inputs.py" inputs
if [ "${1:-}" = --expected ]; then
    folder=$(theirs) || { echo "$folder" >&2; exit 1; }
    again || { cat theirs.log >&2; exit 1; }
    cat theirs.sums
    exit
fi
if [ -z "${TOOLS:-}" ]; then
    mkdir tools
    for it in $names; do ln -s "$program" "tools/$it"; done
    TOOLS=$room/tools
fi
try 'the makefile and the script' flow "$(realpath "$TOOLS")" ours
: >out
while read -r sum name; do
    grep -Fqx "$sum  $name" ours.sums
    try "$name is as expected" [ $? = 0 ]
done <"$tests/expected"
try 'nothing else is left' cmp -s <(sed 's/^[^ ]*  //' "$tests/expected") <(sed 's/^[^ ]*  //' ours.sums)
if folder=$(theirs); then
    try "AOSP's tools run through" again
    try "AOSP's tools leave the same" cmp -s theirs.sums ours.sums
else
    echo "NOT RUN  AOSP's tools: $folder"
fi
tried
