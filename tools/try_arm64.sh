#!/usr/bin/env bash
# Tries what is built for ARM64 on another machine, by QEMU: the examples of the documents, the cases and the scripts over the
# program, and the C library with its examples. It ends with a line 'N passed, M failed'; the status is 1 where one failed.
#
#   tools/try_arm64.sh PROGRAM LIBRARY      build/aarch64/abootimg and build/aarch64/libabootimg.a
#
# It needs qemu-aarch64-static and aarch64-linux-gnu-gcc (Debian: qemu-user-static, gcc-aarch64-linux-gnu, libc6-dev-arm64-cross);
# where one is not there nothing is run, and that is said.
ABOOTIMG=${1:?the program} library=$(realpath "${2:?the library}")
. "$(dirname "$0")/trying.sh" || exit 1
if lacks "what is built for ARM64" qemu-aarch64-static aarch64-linux-gnu-gcc; then
    tried
    exit
fi

# A program of this machine, so that all scripts can call it.
{ echo '#!/bin/sh'; echo "exec $(command -v qemu-aarch64-static) '$program' \"\$@\""; } >abootimg
chmod +x abootimg
export ABOOTIMG=$room/abootimg PYTHONDONTWRITEBYTECODE=1
for it in tools/check_examples.py tests/run.py tools/try_program.sh tools/try_words.sh; do
    script "ARM64: $it" "$here/$it"
done
CC='aarch64-linux-gnu-gcc -static' RUN=qemu-aarch64-static script "ARM64: tools/try_c_library.sh" \
    "$here/tools/try_c_library.sh" "$library"
tried
