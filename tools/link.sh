#!/usr/bin/env bash
# Links the program that was proved and compiled as OBJECT.
#
#   tools/link.sh OBJECT OUT [--rt rt]
#
# OUT needs no library where the machine has a C compiler and a static C library (Debian: gcc, libc6-dev): it runs on any
# x86-64 Linux, in a recovery's ramdisk too, and maps a megabyte less of memory. Elsewhere OUT is the program as the toolchain
# linked it, beside OBJECT, which needs the C library of the machine. Both are the same compiled code, and the gate tries the
# one that stands in OUT then.
set -u
cd "$(dirname "$0")/.."
object=$1
out=$2
rt=rt
if [ "${3:-}" = --rt ]; then rt=$4; fi
kit=$(dirname "$("$rt" doc)")
mkdir -p "$(dirname "$out")"
temporary=$out.new
trap 'rm -f "$temporary"' EXIT
# Links with the options given, and runs what came of it.
link_static() {
    "${CC:-cc}" -static "$@" -Wl,--gc-sections -Wl,-z,noexecstack -s -o "$temporary" "$object" \
        "$kit/c/libos_c.a" "$kit/c/liblibc_c.a" 2> "$out.log" && "$temporary" > "$out.log" 2>&1
}
# The linker of the toolchain keeps one copy of functions that have the same code, which is 27 KB less.
if link_static -B"$kit/toolchain/bin" -fuse-ld=lld -Wl,--icf=safe || link_static; then
    rm -f "$out.log"
else
    rm -f "$out.log"
    echo 'tools/link.sh: there is no static C library, so the program needs the one of this machine'
    install -m 755 "${object%.o}" "$temporary"
fi
chmod 755 "$temporary"
mv -f "$temporary" "$out"
