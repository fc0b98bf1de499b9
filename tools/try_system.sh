#!/usr/bin/env bash
# Tries the built program on what only the superuser can make: a root folder without /dev and /proc, file systems that lie
# over one another, block devices that are files or parts of others, devices that are mounted, and a file system that is full.
# What this machine can't have is said, in a line that begins with LEFT OUT. Prints each thing that it tries, and ends with a
# line 'N passed, M failed'; the status is 1 where one failed.
#
#   tools/try_system.sh            the program is $ABOOTIMG, or build/abootimg
. "$(dirname "$0")/trying.sh" || exit 1

left_out() { echo "LEFT OUT  $*"; }
if [ "$(id -u)" != 0 ]; then
    left_out "all of this: it takes the superuser"
    tried
    exit
fi

# What is undone at the end, the newest first.
undone=()
undo() {
    local i
    cd /
    for ((i = ${#undone[@]} - 1; i >= 0; i--)); do ${undone[i]} >/dev/null 2>&1; done
    rm -rf "$room"
}
trap undo EXIT

# The image of one raw block, one fill block and one don't-care block of 4,096 bytes.
head -c 4096 /dev/urandom >one
{ cat one; for _ in $(seq 1024); do printf '\4\3\2\1'; done; head -c 4096 /dev/zero; } >whole
"$program" sparse whole x.simg >/dev/null || exit 1
"$program" expand x.simg expanded >/dev/null
"$program" pack --version 0 --page 2048 --kernel one b.img >/dev/null
same() { cmp -s "$1" "$2"; }
is_empty() { [ ! -s "$1" ]; }
# refused NAME PATH: the last run was refused, since what it would write is a file that is read.
refused() { try "$1" said 1 "" "abootimg: same file $2"; }

echo "== a root folder without /dev"
stands_alone() { head -c 4 "$program" | grep -q ELF && ! head -c 4096 "$program" | grep -qa /ld-linux; }
if stands_alone && command -v chroot >/dev/null; then
    mkdir -p cell/proc
    cp "$program" cell/abootimg
    cp x.simg whole cell/
    in_cell() { (cd cell && exec chroot . /abootimg "$@") >out 2>err; status=$?; }
    if mount -t proc proc cell/proc 2>/dev/null; then
        undone+=("umount $room/cell/proc")
        in_cell expand - x.simg <cell/x.simg
        refused "expand - x.simg < x.simg" x.simg
        try "  and x.simg stays" same cell/x.simg x.simg
        (cd cell && exec chroot . /abootimg list x.simg) >>cell/x.simg 2>err
        status=$?
        try "list x.simg >> x.simg is refused" test "$status" = 1 -a "$(cat err)" = "abootimg: same file x.simg"
        try "  and x.simg stays" same cell/x.simg x.simg
        (cd cell && exec chroot . /abootimg expand x.simg -) >cell/o 2>&1
        try "expand x.simg - > o 2>&1 writes nothing" is_empty cell/o
        if strace -o log true 2>/dev/null; then
            (cd cell && exec strace -qqq -f -y -e trace=fsync -o ../log chroot . /abootimg expand --sync x.simg -) >cell/o 2>err
            try "expand --sync x.simg - > o syncs o" grep -q 'fsync(.*= 0' log
            try "  and o is whole" same cell/o whole
        else
            left_out "what is synced there: there is no strace that may trace"
        fi
        { head -c 4096 >/dev/null; in_cell flash - whole --raw 4096; } <expanded
        try "flash - PARTITION --raw reads from where standard input stands" said 0 "blocks 2" ""
        cp whole cell/whole
        umount cell/proc
    else
        left_out "a root folder with /proc alone: it cannot be mounted there"
    fi
    in_cell expand - x.simg <cell/x.simg
    refused "without /proc, too: expand - x.simg < x.simg" x.simg
    try "  and x.simg stays" same cell/x.simg x.simg
    in_cell expand --sync x.simg -
    try "expand --sync x.simg - can't be synced there, and says so" said 1 "" "abootimg: cannot open -"
    in_cell expand - new <cell/x.simg
    try "a new OUT is written from standard input" same cell/new whole
    in_cell expand x.simg again
    try "and from a file" said 0 "blocks 3 bytes 12288" ""
else
    left_out "a root folder without /dev: the program does not run by itself alone, or there is no chroot"
fi

echo "== file systems that lie over one another"
mkdir lower upper work over
cp x.simg b.img one lower/
for it in f:x.simg g:b.img k:one; do ln "lower/${it#*:}" "lower/${it%:*}"; done
if mount -t overlay overlay -o lowerdir=lower,upperdir=upper,workdir=work over 2>/dev/null; then
    undone+=("umount $room/over")
    while read -r file words; do
        before=$(cksum <"over/$file")
        (cd over && exec "$program" $words) >out 2>err </dev/null
        status=$?
        refused "a lower file of two links: $words" "$file"
        try "  and it stays" test "$(cksum <"over/$file")" = "$before"
    done <<'END'
f expand f f
k sparse k k
k pack --version 0 --kernel k k
g repack g g
END
else
    left_out "overlayfs: it cannot be mounted here"
fi

echo "== block devices"
# loop_of FILE [OPTION ..]: a loop device over it, in $loop.
loop_of() {
    loop=$(losetup -f --show "${@:2}" "$1" 2>/dev/null) || return 1
    undone+=("losetup -d $loop")
}
truncate -s 1M d
cat x.simg 1<>d >d.front
dd if=x.simg of=d conv=notrunc status=none
cp d d.before
if loop_of d; then
    first=$loop
    run flash d "$first"
    refused "flash from a file to a loop device over it" "$first"
    run flash "$first" d
    refused "flash from a loop device to the file below it" d
    run expand "$first" d
    refused "expand from it to the file below it" d
    run flash x.simg "$first" 64K d
    refused "SPOOL is the file below PARTITION" d
    try "  and the file stays" same d d.before
    if loop_of d; then
        run flash "$first" "$loop"
        refused "flash from one loop device over a file to another" "$loop"
    fi
    truncate -s 1M e
    if loop_of e; then
        run flash x.simg "$loop"
        try "flash to a loop device over another file is done" said 0 "blocks 3" ""
        sync
        try "  and the file has the image" cmp -s -n 8192 e whole
    fi
    # fits WORDS..: it ends well with 64 KiB of stack. Where in them it begins differs from one start to the next, so it has
    # twenty turns.
    fits() {
        for _ in {1..20}; do
            (ulimit -c 0 -s 64 && exec env -i "$program" "$@" >out 2>err </dev/null) && return 0
        done 2>/dev/null
        return 1
    }
    truncate -s 1M g
    : >spool
    if loop_of g; then
        while read -r words; do
            try "$words: with 64 KiB of stack" fits $words
        done <<END
flash x.simg $loop
flash x.simg $loop 64K spool
flash whole $loop --raw 4096
flash whole $loop 64K spool --raw 4096
expand x.simg $loop
expand --sync x.simg new.raw
sparse $loop again.simg
cut $loop 64K piece --raw 4096
cut --sync x.simg 64K little
END
    fi
    # Two partitions of 256 KiB, the first at 64 KiB and the second behind it.
    truncate -s 1M disk
    if loop_of disk -P && addpart "$loop" 1 128 512 2>/dev/null && addpart "$loop" 2 640 512 && [ -b "${loop}p2" ]; then
        disk=$loop
        "$program" flash x.simg "${disk}p1" >/dev/null
        dd if=x.simg of="${disk}p1" conv=notrunc status=none
        run flash "${disk}p1" "$disk"
        refused "flash from a partition to its disk" "$disk"
        run expand "$disk" "${disk}p2"
        refused "from a disk to a partition of it" "${disk}p2"
        run flash "${disk}p1" "${disk}p2"
        try "from one partition of a disk to another it is done" said 0 "blocks 3" ""
        run flash "${disk}p1" disk
        refused "from a partition to the file below its disk" disk
    else
        left_out "partitions: this machine shows none of a loop device"
    fi
    if command -v mkfs.ext2 >/dev/null; then
        truncate -s 1M fs
        loop_of fs
        mkfs.ext2 -q "$loop" 2>/dev/null
        mkdir at
        mount "$loop" at && undone+=("umount $room/at")
        cp fs fs.before
        run flash x.simg "$loop"
        try "flash to a device that is mounted is refused" said 1 "" "abootimg: mounted $loop"
        run expand x.simg "$loop"
        try "  as expand is" said 1 "" "abootimg: mounted $loop"
        run flash -v x.simg "$loop"
        try "  and the second line says what can be done" grep -q -e --mounted err
        run flash --mounted x.simg "$loop"
        try "flash --mounted goes on" said 0 "blocks 3" ""
        umount at
        run flash x.simg "$loop"
        try "once it is not mounted it is done" said 0 "blocks 3" ""
        if [ -b "${disk-none}p1" ]; then
            mkfs.ext2 -q "${disk}p2" 2>/dev/null
            mount "${disk}p2" at
            run flash x.simg "$disk"
            try "a disk of which a partition is mounted is refused" said 1 "" "abootimg: mounted $disk"
            run flash x.simg "${disk}p1"
            try "  another partition of it is not" said 0 "blocks 3" ""
            umount at
        fi
    else
        left_out "what is mounted: there is no mkfs.ext2"
    fi
    truncate -s 1M swap
    if loop_of swap && mkswap "$loop" >/dev/null 2>&1 && swapon "$loop" 2>/dev/null; then
        undone+=("swapoff $loop")
        run flash x.simg "$loop"
        try "flash to a device that is swap is refused" said 1 "" "abootimg: mounted $loop"
        swapoff "$loop"
        run flash x.simg "$loop"
        try "  once it is none it is done" said 0 "blocks 3" ""
    else
        left_out "swap: a loop device can't be it here"
    fi
    if dmsetup version >/dev/null 2>&1; then
        truncate -s 1M below
        loop_of below
        echo "0 2048 linear $loop 0" | dmsetup create abootimg_tried && undone+=("dmsetup remove abootimg_tried")
        run flash x.simg /dev/mapper/abootimg_tried
        dd if=x.simg of="$loop" conv=notrunc status=none
        run flash /dev/mapper/abootimg_tried "$loop"
        refused "flash from a mapped device to what it maps" "$loop"
    else
        left_out "mapped devices: this machine has no device mapper"
    fi
else
    left_out "block devices: there is no loop device"
fi

echo "== a file system that is full"
mkdir small
if mount -t tmpfs -o size=64k tmpfs small 2>/dev/null; then
    undone+=("umount $room/small")
    truncate -s 1M part
    head -c 1M /dev/urandom >raw
    run flash -v raw part 512K small/spool --raw 4096
    try "SPOOL has no room" grep -q 'No space left on device' err
    try "  and nothing is said to mend it but room" grep -q 'make room, then --from 1 mends it' err
    rm -f small/spool
    "$program" sparse raw raw.simg >/dev/null
    run flash -v raw.simg part 512K small/spool
    try "SPOOL of a sparse image has none" grep -q 'No space left on device' err
    rm -f small/spool
    run expand -v raw.simg small/out
    try "expand has none" test "$status" = 1 -a "$(head -n 1 err)" = "abootimg: 12 Write"
else
    left_out "a file system that is full: tmpfs cannot be mounted here"
fi

tried
