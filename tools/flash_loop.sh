#!/usr/bin/env bash
# Tries `abootimg flash` on a loop device: straight, in pieces, raw, from a piece on, and on one that is too small. Where the
# machine has no loop device to give, or this is not root, it says so and ends with 0. Nothing in the gate runs this.
#
#   tools/flash_loop.sh [MIB]                  the program is $ABOOTIMG, or build/abootimg; MIB is 32
set -euo pipefail
here=$(cd "$(dirname "$0")/.." && pwd)
program=$(realpath "${ABOOTIMG:-$here/build/abootimg}")
mib=${1:-32}
work=$(mktemp -d)
device=
finish() {
    [ -z "$device" ] || losetup -d "$device" || true
    rm -rf "$work"
}
trap finish EXIT
cd "$work"

"$here/tools/make_sparse.py" image --mib "$mib" --run 37
truncate -s $((mib << 20)) zeros
"$here/tools/lay_sparse.py" image zeros
truncate -s $(((mib + 1) << 20)) disk
if [ "$(id -u)" != 0 ] || ! command -v losetup > /dev/null || ! device=$(losetup --find --show disk 2> told); then
    device=
    echo "no loop device here: $(head -n 1 told 2> /dev/null || true)"
    echo 'flash was not tried on a block device'
    exit 0
fi
failed=0

# What must stand on the device: the image over ones, with the mebibyte behind it as it was.
head -c $(((mib + 1) << 20)) /dev/zero | tr '\0' '\377' > over
"$here/tools/lay_sparse.py" image over

tell() { # NAME VERDICT
    [ "$2" = same ] || failed=1
    echo "$1: $2"
}

try() { # NAME LAST-LINE WORDS.. (after the device was filled with ones)
    local name=$1 line=$2 verdict=same
    shift 2
    head -c $(((mib + 1) << 20)) /dev/zero | tr '\0' '\377' > "$device"
    "$program" flash "$@" > said 2>&1 || verdict="status $?: $(head -n 1 said)"
    blockdev --flushbufs "$device"
    cmp -s over "$device" || verdict="${verdict#same} the device differs"
    [[ $(tail -n 1 said) == $line ]] || verdict="${verdict#same} it printed $(tail -n 1 said)"
    tell "$name" "$verdict"
}

limit=$(((mib << 20) / 12 + 4160))
try 'straight' 'blocks *' image "$device"
try 'from a pipe' 'blocks *' /dev/stdin "$device" < <(cat image)
try "in pieces of $limit" 'pieces *' image "$device" "$limit" spool

# The first pieces stand; going on from the third makes the device whole.
verdict=same
"$program" cut image "$limit" piece > /dev/null
head -c $(((mib + 1) << 20)) /dev/zero | tr '\0' '\377' > "$device"
"$program" flash piece.1 "$device" > /dev/null
"$program" flash piece.2 "$device" > /dev/null
"$program" flash image "$device" "$limit" spool --from 3 > said || verdict="status $?"
blockdev --flushbufs "$device"
cmp -s over "$device" || verdict='the device differs'
tell 'from piece 3 on' "$verdict"

head -c $(((mib + 1) << 20)) /dev/zero | tr '\0' '\377' > over
dd if=zeros of=over conv=notrunc bs=1M status=none
try 'raw, in pieces' 'pieces *' zeros "$device" "$limit" spool --raw 4096

# A device that is too small is refused, and stays as it is.
losetup -d "$device"
device=
truncate -s $(((mib - 1) << 20)) small
head -c $(((mib - 1) << 20)) /dev/zero | tr '\0' '\252' > small
cp small before
device=$(losetup --find --show small)
verdict=same
"$program" flash image "$device" > said 2>&1 && verdict='it was flashed'
blockdev --flushbufs "$device"
[ "$(head -n 1 said)" = "abootimg: 17 PartitionTooSmall need $((mib << 20))" ] || verdict=$(head -n 1 said)
cmp -s before "$device" || verdict='the device was written'
tell 'on one that is too small' "$verdict"
exit $failed
