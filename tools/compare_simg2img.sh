#!/usr/bin/env bash
# Compares `abootimg expand` with simg2img on each image of a folder (examples/ if none is given), and with the bytes
# that stand beside it. Nothing in the gate runs this.
#
#   tools/compare_simg2img.sh [FOLDER]         the program is $ABOOTIMG, or build/abootimg
set -euo pipefail
here=$(cd "$(dirname "$0")/.." && pwd)
program=${ABOOTIMG:-$here/build/abootimg}
folder=${1:-$here/examples}
work=$(mktemp -d)
trap 'rm -rf "$work"' EXIT
failed=0
for image in "$folder"/*.simg; do
    name=$(basename "$image" .simg)
    verdict=same
    "$program" expand "$image" "$work/ours" > "$work/said" || verdict="status $?"
    "$program" expand /dev/stdin "$work/piped" < <(cat "$image") > /dev/null || verdict="status $? from a pipe"
    cmp -s "$work/ours" "$work/piped" || verdict='differs from a pipe'
    if [ -f "$folder/$name.raw" ]; then
        cmp -s "$work/ours" "$folder/$name.raw" || verdict="differs from $name.raw"
    fi
    if command -v simg2img > /dev/null; then
        rm -f "$work/theirs"
        simg2img "$image" "$work/theirs"
        cmp -s "$work/ours" "$work/theirs" || verdict='differs from simg2img'
    fi
    [ "$verdict" = same ] || failed=1
    echo "$name: $verdict ($(cat "$work/said"))"
done
exit $failed
