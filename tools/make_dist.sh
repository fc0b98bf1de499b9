#!/usr/bin/env bash
# Packs what was built into an archive: the program, its manual page and completions, the C library with its header and a file
# for pkg-config, the page for a browser, a script that makes the links with the names of AOSP's tools, and the licence. They
# stand below one folder as they do below PREFIX, so the archive is unpacked anywhere, or with --strip-components=1 below
# /usr/local.
#
#   tools/make_dist.sh PROGRAM LIBRARY PAGE OUT      OUT is a path whose name is FOLDER.tar.gz
set -eu
here=$(cd "$(dirname "$0")/.." && pwd)
program=$1 library=$2 page=$3 out=$4
name=${out##*/}
name=${name%.tar.gz}
version=$(sed -n 's/^pub const VERSION: &str = "\(.*\)";$/\1/p' "$here/crates/words_orders/src/table.rt")
room=$(mktemp -d)
trap 'rm -rf "$room"' EXIT
top=$room/$name

install -D -m 755 "$program" "$top/bin/abootimg"
mkdir -p "$top/share/man/man1" "$top/lib/pkgconfig"
{
    echo '#!/bin/sh'
    echo '# Makes links to abootimg, in its folder, with the names of the tools of AOSP that it stands in for.'
    echo 'cd "$(dirname "$0")" || exit 1'
    echo "for tool in $("$here/tools/make_completions.py" --tools); do ln -sf abootimg \"\$tool\" || exit 1; done"
} >"$top/bin/make_links"
chmod 755 "$top/bin/make_links"
"$here/tools/make_man.py" "$here/docs/COMMANDS.md" >"$top/share/man/man1/abootimg.1"
completions() { mkdir -p "$(dirname "$top/share/$2")" && "$here/tools/make_completions.py" --print "$1" >"$top/share/$2"; }
completions bash bash-completion/completions/abootimg
completions zsh zsh/site-functions/_abootimg
completions fish fish/vendor_completions.d/abootimg.fish
# bash and fish look for the file of a tool's name; that of zsh names the tools.
for tool in $("$here/tools/make_completions.py" --tools); do
    ln -s abootimg "$top/share/bash-completion/completions/$tool"
    ln -s abootimg.fish "$top/share/fish/vendor_completions.d/$tool.fish"
done
install -D -m 644 "$here/include/abootimg.h" "$top/include/abootimg.h"
install -D -m 644 "$library" "$top/lib/libabootimg.a"
# The folder is unpacked anywhere, so the file for pkg-config says where it stands itself.
sed -e 's,@PREFIX@,${pcfiledir}/../..,' -e "s,@VERSION@,$version," "$here/include/abootimg.pc.in" \
    >"$top/lib/pkgconfig/abootimg.pc"
install -D -m 644 "$page" "$top/share/abootimg/abootimg.html"
install -m 644 "$here/LICENSE" "$top/LICENSE"

chmod -R u=rwX,go=rX "$top"
mkdir -p "$(dirname "$out")"
tar -C "$room" --sort=name --owner=0 --group=0 --numeric-owner --mtime=@0 -cf - "$name" | gzip -n9 >"$out.new"
mv "$out.new" "$out"
