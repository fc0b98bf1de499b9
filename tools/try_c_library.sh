#!/bin/bash
# Tries the C library and its examples: tools/try_c_library.sh LIBRARY [PROGRAM]
# LIBRARY is the static library (build/libabootimg.a), PROGRAM abootimg, whose answers are compared where it is given.
# Everything is compiled with warnings as errors. The last line is 'c library: N passed, N failed'.
#
# For another machine: CC='aarch64-linux-gnu-gcc -static' RUN=qemu-aarch64-static tools/try_c_library.sh LIBRARY
set -u
top=$(cd "$(dirname "$0")/.." && pwd)
library=$(realpath "$1")
program=${2:+$(realpath "$2")}
cc=${CC:-cc}
cxx=${CXX:-c++}
run=${RUN:-}
states=200000
if [ -n "$run" ]; then states=5000; fi
work=$(mktemp -d)
trap 'rm -rf "$work"' EXIT
passed=0
failed=0

ok() { passed=$((passed + 1)); }
bad() { failed=$((failed + 1)); echo "failed: $*"; }
check() { local name=$1; shift; if "$@" > "$work/log" 2>&1; then ok; else bad "$name"; head -5 "$work/log"; fi; }

warnings="-Wall -Wextra -Werror -pedantic -I$top/include"
echo '#include "abootimg.h"' > "$work/header.c"
cp "$work/header.c" "$work/header.cc"
check "header as C99" $cc -std=c99 $warnings -c "$work/header.c" -o "$work/header.o"
if [ -z "$run" ]; then check "header as C++" $cxx -std=c++11 $warnings -c "$work/header.cc" -o "$work/header.o"; fi
for name in expand flash boot; do
    check "build of $name" $cc -std=c99 -O2 $warnings "$top/examples/$name.c" "$library" -o "$work/$name"
done
sanitizers=-fsanitize=address,undefined
if [ -n "$run" ]; then sanitizers=; fi
echo 'int main(void) { return 0; }' > "$work/none.c"
if [ -n "$sanitizers" ] && ! $cc $sanitizers "$work/none.c" -o "$work/none" 2> /dev/null; then
    echo "no sanitizers on this machine: try.c is built without them"
    sanitizers=
fi
check "build of try" $cc -std=c99 -O1 -g $warnings $sanitizers "$top/tools/c_library/try.c" "$library" -o "$work/try"

# every cut, each truncation, spoiled states
for image in "$top"/examples/*.simg; do
    raw=${image%.simg}.raw
    while read -r result rest; do
        if [ "$result" = ok ]; then ok; else bad "$rest of $(basename "$image")"; fi
    done < <($run "$work/try" "$image" "$raw" "$states" 2>&1)
done

# the examples, whole and in small reads, and beside the program
for image in "$top"/examples/*.simg; do
    name=$(basename "$image" .simg)
    raw=${image%.simg}.raw
    for cut in 1 7 100 4096 1048576; do
        $run "$work/expand" "$image" "$work/out" $cut && cmp -s "$work/out" "$raw" && ok || bad "expand $name by $cut"
    done
    head -c "$(($(stat -c %s "$raw") + 100))" /dev/zero | tr '\0' 'x' > "$work/device"
    cp "$work/device" "$work/device2"
    $run "$work/flash" "$image" "$work/device" && ok || bad "flash $name"
    if [ -n "$program" ]; then
        "$program" expand "$image" "$work/out2" > /dev/null 2>&1 && cmp -s "$work/out" "$work/out2" && ok || bad "expand $name beside the program"
        "$program" flash "$image" "$work/device2" > /dev/null 2>&1 && cmp -s "$work/device" "$work/device2" && ok || bad "flash $name beside the program"
    fi
    head -c 100 /dev/zero > "$work/small"
    $run "$work/flash" "$image" "$work/small" > /dev/null 2>&1; [ $? = 1 ] && ok || bad "flash $name on a small device"
    size=$(stat -c %s "$image")
    for length in 0 1 27 28 29 40 100 $((size / 2)) $((size - 1)); do
        head -c "$length" "$image" > "$work/cut"
        if [ "$($run "$work/expand" "$work/cut" "$work/out" 2>&1)" = "refused: 10 ($length)" ]; then ok; else bad "expand $name cut at $length"; fi
    done
done
if [ -z "$run" ] && command -v valgrind > /dev/null; then
    check "expand under valgrind" valgrind -q --error-exitcode=9 "$work/expand" "$top/examples/short.simg" "$work/out" 100
    check "boot under valgrind" bash -c "valgrind -q --error-exitcode=9 '$work/boot' '$top/examples/short.simg'; [ \$? = 1 ]"
fi
printf 'ANDROID!' | cat - /dev/zero | head -c 1632 > "$work/boot0"
if [ "$($run "$work/boot" "$work/boot0" 2>&1)" = "refused: 22 (0)" ]; then ok; else bad "boot header without a page size"; fi
printf '\x00\x08\x00\x00' | dd of="$work/boot0" bs=1 seek=36 conv=notrunc status=none
[ "$($run "$work/boot" "$work/boot0" | head -1)" = "boot version 0, pages of 2048 bytes" ] && ok || bad "boot header of version 0"
echo "c library: $passed passed, $failed failed"
[ "$failed" = 0 ]
