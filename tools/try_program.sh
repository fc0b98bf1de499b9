#!/usr/bin/env bash
# Tries the built program where a proof can't, and a case of tests/cases/ neither: killed in the middle, on a terminal, by the
# clock; how often a file is read, and how much memory and stack that takes. Prints each thing that it tries, and ends with a
# line 'N passed, M failed'; the status is 1 where one failed. It needs bash and coreutils.
#
#   tools/try_program.sh            the program is $ABOOTIMG, or build/abootimg
#
# What a terminal shows is tried where there is Python 3, what is read where there is strace, and memory where there is GNU time.
. "$(dirname "$0")/trying.sh" || exit 1

# until_there COMMAND..: waits until it succeeds, for ten seconds.
until_there() {
    for _ in $(seq 100); do
        "$@" && return 0
        sleep 0.1
    done
    return 1
}
is_longer() { [ "$(stat -c %s "$1" 2>/dev/null || echo 0)" -gt "$2" ]; }
# no_magic FILE: it has bytes, and begins with zeros.
no_magic() { [ -s "$1" ] && cmp -s -n 8 "$1" /dev/zero; }
head -c 3000000 /dev/urandom >long.raw
"$program" sparse long.raw long.simg >/dev/null

echo "== half an output is never taken for a whole one"
# A part that takes time to be hashed, and no room.
truncate -s 3G huge
"$program" pack --version 0 --kernel huge broken.img >out 2>err &
pid=$!
until_there is_longer broken.img 1000000
kill -9 $pid
wait $pid 2>/dev/null
try "pack that is killed has no magic" no_magic broken.img
run info broken.img
try "  so it is refused" said 1 "" "abootimg: 20 Magic"
rm broken.img
"$program" pack --version 2 --kernel long.simg --ramdisk huge broken.img >out 2>err &
pid=$!
until_there is_longer broken.img 4000000
truncate -s 1000 huge
wait $pid
status=$?
try "pack of a part that gets shorter" said 1 "" "abootimg: 14 SourceChanged"
try "  has no magic" no_magic broken.img
run info broken.img
try "  so it is refused" said 1 "" "abootimg: 20 Magic"
if command -v unpack_bootimg >/dev/null; then
    unpack_bootimg --boot_img broken.img --out broken.parts >out 2>err
    try "  and unpack_bootimg unpacks nothing" test ! -e broken.parts/kernel
fi
rm huge
mkfifo slow
"$program" expand slow slow.raw >out 2>err &
pid=$!
{
    head -c 1000000 long.simg
    until_there is_longer slow.raw 100000
    kill -9 $pid
} >slow
wait $pid 2>/dev/null
try "expand that is killed leaves what came" cmp -s -n 100000 slow.raw long.raw

echo "== what is read once"
head -c 300001 long.raw >kernel
head -c 65536 long.raw >ramdisk
# Parts that a boot image of this version has.
parts_of() { # VERSION
    local words=(--kernel kernel --ramdisk ramdisk)
    case $1 in 1 | 2) words+=(--recovery-dtbo ramdisk) ;; esac
    printf '%s\n' --version "$1" "${words[@]}" >words
}
# Whether the last run, whose system calls are in log, read so many bytes of a file in all, or a few more.
has_read() { # FILE BYTES [FEW]
    local all
    all=$(awk -v file="/$1>" 'index($0, file) { all += $NF } END { print all + 0 }' log)
    [ "$all" -ge "$2" ] && [ "$all" -le $(($2 + ${3:-0})) ]
}
# traced WORDS..: runs the program, and what it reads is in log.
traced() {
    strace -y -e trace=read,pread64 -o log "$program" "$@" >out 2>err </dev/null
    status=$?
}
# few_calls FILE MOST: fewer calls than that read the file.
few_calls() { [ "$(grep -c "$1>" log)" -lt "$2" ]; }
if strace -o log true 2>/dev/null; then
    for version in 0 1 2 3 4; do
        parts_of $version
        traced pack @words once.img
        try "pack --version $version reads the kernel once" has_read kernel 300001
        traced repack once.img again.img --ramdisk ramdisk
        try "  as repack does with a part" has_read ramdisk 65536
    done
    truncate -s 4M onto
    traced flash long.raw onto 1M through --raw 4096
    try "flash --raw in pieces reads IN once, and a window a piece more" has_read long.raw "$(stat -c %s long.raw)" $((3 * 65536))
    # 3,000 chunks of one block of zeros.
    {
        printf '\x3a\xff\x26\xed\x01\0\0\0\x1c\0\x0c\0\x04\0\0\0\xb8\x0b\0\0\xb8\x0b\0\0\0\0\0\0'
        for _ in $(seq 3000); do printf '\xc2\xca\0\0\x01\0\0\0\x10\0\0\0\0\0\0\0'; done
    } >many.simg
    traced list many.simg
    try "list reads 3,000 headers by few calls" few_calls many.simg 12
    traced expand -q many.simg many.raw
    try "  as expand does" few_calls many.simg 12
    traced expand long.simg long.again
    try "expand reads large data by few calls" few_calls long.simg 60
    try "  nearly all of them large" test "$(awk '/long.simg>/ && $NF <= 8192' log | wc -l)" -lt 5
else
    echo "LEFT OUT  how much is read of a file: there is no strace that may trace"
fi

echo "== progress"
# on_terminal WORDS..: runs the program with standard output and error on a terminal, and what it shows is in out.
on_terminal() {
    python3 - "$program" "$@" >out 2>err <<'END'
import os, pty, sys
child, terminal = pty.fork()
if child == 0:
    os.execv(sys.argv[1], sys.argv[1:])
shown = b""
while True:
    try:
        some = os.read(terminal, 65536)
    except OSError:
        break
    if not some:
        break
    shown += some
_, status = os.waitpid(child, 0)
sys.stdout.buffer.write(shown)
sys.exit(os.WEXITSTATUS(status))
END
    status=$?
}
# slowly FILE: its bytes, of which the last come after more than a second.
slowly() {
    head -c 1000000 "$1"
    sleep 1.3
    tail -c +1000001 "$1" | head -c 1000000
    sleep 0.3
    tail -c +2000001 "$1"
}
shows() { grep -q "$1" out; }
shows_not() { ! grep -q "$1" out; }
if command -v python3 >/dev/null; then
    slowly long.simg >slow &
    on_terminal expand slow shown.raw
    wait $!
    try "expand on a terminal shows how far it is" shows 'expand [0-9.]* MiB  [0-9.]* MiB/s'
    try "  and erases the line at the end" shows $'MiB/s\033\\[K\033\\[?7h\r\r\033\\[Kblocks 733 bytes 3002368'
    try "  and the image is whole" cmp -s -n 3000000 shown.raw long.raw
    slowly long.simg >slow &
    on_terminal expand -q slow shown.raw
    wait $!
    try "expand -q does not" shows_not MiB
    slowly long.simg >slow &
    "$program" expand slow shown.raw >out 2>err
    wait $!
    try "nor does it where there is no terminal" test ! -s err -a "$(cat out)" = "blocks 733 bytes 3002368"
    on_terminal expand long.simg shown.raw
    try "nor where the work is short" shows_not MiB
    head -c 47 long.simg >half
    on_terminal list half
    try "a refusal on a terminal has its second line" shows 'fetch or copy it again'
else
    echo "LEFT OUT  what a terminal shows: there is no python3"
fi

echo "== stack"
# fits KIB WORDS..: the program ends well with so many KiB of stack. Where in them it begins differs by up to 8 KiB from one
# start to the next, so it has twenty turns.
fits() {
    local size=$1
    shift
    for _ in {1..20}; do
        (ulimit -c 0 -s "$size" && exec env -i "$program" "$@" >out 2>err </dev/null) && return 0
    done 2>/dev/null
    return 1
}
truncate -s 4M place
cp long.raw stands
truncate -s 3002368 stands
: >spool
mkdir stack.parts
while read -r size words; do
    try "$words: with $size KiB" fits "$size" $words
done <<'END'
64 expand long.simg long.again
64 list long.simg
64 sparse long.raw again.simg
64 cut long.simg 1M cut
64 cut long.raw 1M raw --raw 4096
64 expand cut.1 cut.2 cut.3 long.again
64 flash long.simg place
64 flash long.simg place 1M spool
64 flash long.raw place --raw 4096
64 flash long.raw place 1M spool --raw 4096
64 verify long.simg stands
64 verify long.raw stands --raw 4096
64 completions bash
64 --help
112 pack --version 2 --kernel kernel --ramdisk ramdisk stack.img
112 pack --version 4 --kernel kernel --ramdisk ramdisk stack.img
112 pack --vendor --version 4 --dtb kernel vendor.img platform:a:ramdisk
112 repack stack.img stack.again --ramdisk kernel
112 unpack stack.img stack.parts
112 info stack.img
112 info --check stack.img
END

echo "== resident memory"
# below LIMIT WORDS..: at no moment more KiB of the program are resident than the limit.
below() {
    local limit=$1
    shift
    "$gnu_time" -f %M -o peak "$program" "$@" >out 2>err </dev/null && [ "$(tail -n 1 peak)" -lt "$limit" ]
}
# Where it needs the shared C library of the machine, that library's pages count too, and those of what runs it.
stands_alone() { head -c 4 "$program" | grep -q ELF && ! head -c 4096 "$program" | grep -qa /ld-linux; }
if gnu_time=$(type -P time) && stands_alone; then
    head -c 32M /dev/urandom >big
    truncate -s 64M big part
    mkdir parts
    while IFS= read -r words; do
        try "$words: below 2 MiB" below 2048 $words
    done <<'END'
sparse big big.simg
expand big.simg big.raw
list big.simg
cut big.simg 8M big
cut big 8M raw --raw 4096
flash big.simg part
flash big.simg part 8M spool
verify big.simg part
pack --version 0 --page 2048 --kernel big --ramdisk big big.img
pack --version 4 --kernel big --ramdisk big big.img
info big.img
unpack big.img parts
END
else
    echo "LEFT OUT  resident memory: there is no GNU time, or the program does not run by itself alone"
fi

tried
