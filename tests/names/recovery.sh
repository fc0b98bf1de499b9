#!/usr/bin/env bash
# What installers and recoveries do with images by AOSP's tools: expand, unpack, change a ramdisk, pack again.
#
#   recovery.sh OUT INPUTS         in a new folder; OUT is what board.mk made
set -euo pipefail
out=$1
inputs=$2

# Expand the system images; the pieces of a cut, in the order of their numbers, give the same image.
for name in system vendor vendor-1024 product; do
    simg2img "$out/$name.img" "$name.raw"
    cmp -n "$(stat -c %s "$inputs/${name%-1024}.raw")" "$name.raw" "$inputs/${name%-1024}.raw"
done
number=0
pieces=()
while [ -f "$out/super.img.$number" ]; do
    pieces+=("$out/super.img.$number")
    [ "$(stat -c %s "$out/super.img.$number")" -le 65536 ]
    number=$((number + 1))
done
simg2img "${pieces[@]}" super.raw
cmp super.raw system.raw
rm super.raw
simg2img - stdin.raw < "$out/vendor.img"
img2simg vendor.raw - > stdout.img

# Patch the boot image as tools for rooting do: words in a shell's quotes.
unpack_bootimg --boot_img "$out/boot.img" --out boot --format=mkbootimg > boot.args
sh -c "mkbootimg $(cat boot.args) -o boot.same.img"
cmp boot.same.img "$out/boot.img"
cat "$inputs/overlay.cpio" >> boot/ramdisk
sh -c "mkbootimg $(cat boot.args) -o boot.patched.img"

# Each image again, from words that end with zeros.
repack() { # NAME OPTION
    local words=() word
    unpack_bootimg --boot_img "$out/$1" --out "parts of $1" --format mkbootimg -0 > "$1.args"
    while IFS= read -r -d '' word; do words+=("$word"); done < "$1.args"
    mkbootimg "${words[@]}" "$2" "$1"
    cmp "$1" "$out/$1"
}
for name in boot.img boot-0.img boot-1.img boot-3.img recovery.img both.img; do repack $name -o; done
for name in vendor_boot-3.img both_vendor.img; do repack $name --vendor_boot; done

# Another ramdisk of a name in the vendor boot image.
unpack_bootimg --boot_img="$out/vendor_boot.img" --out=vendor > vendor.info
cat "$inputs/overlay.cpio" > vendor/vendor-ramdisk-by-name/ramdisk_dlkm
unpack_bootimg --boot_img "$out/vendor_boot.img" --out again --format mkbootimg | sed 's,again/,vendor/,g' > vendor.args
eval "mkbootimg $(cat vendor.args) --vendor_boot vendor_boot.patched.img"
unpack_bootimg --boot_img vendor_boot.patched.img --out patched --format info > patched.info
[ "$(sed -n 's/^vendor ramdisk total size: //p' patched.info)" -gt 0 ]

# What scripts read of an image.
for name in boot.img boot-0.img boot-1.img boot-3.img recovery.img vendor_boot-3.img; do
    unpack_bootimg --boot_img "$out/$name" > "$name.info"
done
sed -n -e 's/^os version: //p' -e 's/^os patch level: //p' -e 's/^page size: //p' recovery.img.info > recovery.facts
