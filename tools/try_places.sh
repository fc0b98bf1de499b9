#!/usr/bin/env bash
# Builds what runs elsewhere than here, and tries it: the C library for ARM64 (by QEMU), the WebAssembly module (in Node),
# the page (in Chromium), and the archive that has all of it, unpacked elsewhere. What takes a command that is not there is not run, and that is said. It ends with a line 'N passed,
# M failed'; the status is 1 where one failed.
#
#   tools/try_places.sh             this machine's program is $ABOOTIMG, or build/abootimg; the toolchain's command $RT, or rt
#
# The program for ARM64 takes longer: make test TARGET=aarch64 tries it (tools/try_arm64.sh).
. "$(dirname "$0")/trying.sh" || exit 1

wanted=(wasm abootimg.wasm)
lacks "the C library for ARM64" aarch64-linux-gnu-gcc qemu-aarch64-static || wanted+=(library arm64.a)
build() { "$here/tools/build_places.py" "${wanted[@]}" >out 2>err; }
try "${wanted[*]}" build

if [ -e arm64.a ]; then
    try_library() { CC='aarch64-linux-gnu-gcc -static' RUN=qemu-aarch64-static "$here/tools/try_c_library.sh" "$@"; }
    script "ARM64 c library" try_library arm64.a
fi

# in_node IMAGE: expands it to the file raw.
in_node() {
    node $memory64 "$here/examples/expand.mjs" abootimg.wasm "$1" raw >out 2>err
}
expands() { in_node "$1" && cmp -s raw "${1%.simg}.raw"; }
refuses() { ! in_node "$1" && [ "$(cat err)" = "$2" ]; }
if ! lacks "the module in Node" node; then
    memory64=--experimental-wasm-memory64
    node $memory64 -e 0 2>/dev/null || memory64=
    for image in "$here"/examples/*.simg; do
        try "expand.mjs of ${image##*/}" expands "$image"
    done
    head -c 47 "$here/examples/short.simg" >half
    try "expand.mjs of half an image" refuses half "refused: 10 (47)"
fi

make_page() { "$here/web/build.py" abootimg.wasm abootimg.html >out 2>err; }
try "the page is made" make_page
script page "$here/web/test_page.py" abootimg.html "$program"

# What make dist leaves, unpacked elsewhere.
library=$here/build/libabootimg.a
listed='bin/abootimg
bin/make_links
include/abootimg.h
lib/libabootimg.a
lib/pkgconfig/abootimg.pc
LICENSE
share/abootimg/abootimg.html
share/bash-completion/completions/abootimg
share/fish/vendor_completions.d/abootimg.fish
share/man/man1/abootimg.1
share/zsh/site-functions/_abootimg'
make_dist() { "$here/tools/make_dist.sh" "$program" "$library" abootimg.html dist/abootimg-it.tar.gz >out 2>err; }
unpacked() { mkdir -p else/where && tar -C else/where -xzf dist/abootimg-it.tar.gz 2>err; }
has_all() { [ "$(cd else/where/abootimg-it && find . -type f | sed 's,^./,,' | LC_ALL=C sort -f)" = "$listed" ]; }
expands_there() {
    else/where/abootimg-it/bin/abootimg expand "$here/examples/libsparse.simg" raw >out 2>err &&
        cmp -s raw "$here/examples/libsparse.raw"
}
makes_links() {
    else/where/abootimg-it/bin/make_links 2>err && rm -f raw &&
        else/where/abootimg-it/bin/simg2img "$here/examples/libsparse.simg" raw >out 2>err &&
        cmp -s raw "$here/examples/libsparse.raw"
}
completes() { "$program" completions bash | cmp -s - else/where/abootimg-it/share/bash-completion/completions/abootimg; }
links() {
    local words
    words=$(PKG_CONFIG_PATH=$room/else/where/abootimg-it/lib/pkgconfig pkg-config --cflags --libs abootimg 2>err) || return 1
    cc "$here/examples/expand.c" $words -o linked 2>err && ./linked "$here/examples/short.simg" raw >out 2>err &&
        cmp -s raw "$here/examples/short.raw"
}
if [ -e "$library" ]; then
    try "the archive is made" make_dist
    try "  and unpacked elsewhere" unpacked
    try "  it has all that it shall have, and nothing else" has_all
    try "  its program expands an image" expands_there
    try "  its script makes the links, and a link is the tool" makes_links
    try "  its completions are the program's" completes
    lacks "a program in C with its library" cc pkg-config || try "  a program in C is built with its library" links
else
    echo "NOT RUN  the archive: there is no ${library#"$here"/}"
fi
tried
