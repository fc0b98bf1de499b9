#!/usr/bin/env bash
# Packs the same parts with `abootimg pack` and with AOSP's mkbootimg (Debian: apt-get install mkbootimg), and compares
# the images byte for byte. Then unpacks each image of mkbootimg with unpack_bootimg and with `abootimg unpack`, and
# compares both with the parts. Nothing in the gate runs this.
#
#   tools/mkbootimg_interop.sh            the program is $ABOOTIMG, or build/abootimg
#
# The images are the same but for one byte, the low byte of header_size: mkbootimg 29 writes 1596 in boot version 3 and
# 2108 in vendor version 3, where the records of bootimg.h have 1580 and 2112 bytes, as abootimg writes.
# What else mkbootimg does otherwise is asked of abootimg in the words: it has load addresses of its own, writes 0 for
# that of an empty ramdisk or second stage, and takes the OS version and the patch level apart. It divides by `/` where
# it places the recovery DTBO, which stops Python 3: versions 1 and 2 come from a copy in which that one sign is `//`.
set -euo pipefail
here=$(cd "$(dirname "$0")/.." && pwd)
program=$(realpath "${ABOOTIMG:-$here/build/abootimg}")
work=$(mktemp -d)
trap 'rm -rf "$work"' EXIT
cd "$work"
sed 's| / page_size| // page_size|' "$(command -v mkbootimg)" > mkbootimg_whole_pages
failed=0
compared=0

report() { # TITLE VERDICT
    compared=$((compared + 1))
    [ "$2" = same ] && return
    failed=1
    echo "$1: $2"
}

# Both images are there. They differ in nothing but these bytes: lines of cmp -l, each a place from 1 on, ours and
# theirs in octal digits.
same_image() { # TITLE [DIFFERENCES]
    local differences
    differences=$(cmp -l ours theirs 2>&1 | tr -s ' ' | sed 's/^ //' || true)
    if [ "$differences" = "${2:-}" ]; then report "$1" same; else report "$1" "the images differ: $differences"; fi
}

# Each part of mkbootimg's image is what it was packed from, as both programs unpack it. unpack_bootimg leaves out some
# empty parts, which abootimg writes, and takes a vendor header for one page, which is too little at 2048 bytes a page.
same_parts() { # TITLE NAME=FILE..
    local title=$1 pair name file
    shift
    rm -rf our_parts their_parts
    mkdir our_parts
    unpack_bootimg --boot_img theirs --out their_parts > unpacked
    if ! "$program" unpack theirs our_parts > said 2>&1; then
        report "$title" "abootimg unpack: $(head -n 1 said)"
        return
    fi
    for pair in "$@"; do
        name=${pair%%=*} file=${pair#*=}
        grep -qx "$name $(stat -c %s "$file")" said || report "$title $name" "printed otherwise"
        if ! cmp -s "our_parts/$name" "$file"; then
            report "$title $name" 'abootimg unpack differs from the part'
        elif [ -s "$file" ] && [ "$title" = "${title#vendor 3 page 2048}" ] && ! cmp -s "their_parts/$name" "$file"; then
            report "$title $name" 'unpack_bootimg differs from the part'
        else
            report "$title $name" same
        fi
    done
    [ "$(find our_parts -type f | wc -l)" = $# ] || report "$title" 'abootimg unpack wrote other files'
}

# The address where there is such a part, else 0.
if_any() { # FILE ADDRESS
    if [ -s "$1" ]; then echo "$2"; else echo 0; fi
}

part() { # FILE SIZE
    seq 1 99999 | sed "s/^/$1 /" | head -c "$2" > "$1" || true
}

addresses=(--base 0x10000000 --kernel_offset 0x8000 --ramdisk_offset 0x1000000 --second_offset 0xf00000
    --tags_offset 0x100)

boot() { # VERSION PAGE CMDLINE, of the parts as they lie here
    local version=$1 page=$2 cmdline=$3 title="boot $1 page $2 of $sizes"
    local ours=(--version "$version" --page "$page" --kernel kernel --ramdisk ramdisk --os 13.0.0-2023-05 --cmdline "$cmdline")
    local theirs=(--header_version "$version" --pagesize "$page" --kernel kernel --ramdisk ramdisk
        --os_version 13.0.0 --os_patch_level 2023-05 --cmdline "$cmdline")
    local parts=(kernel=kernel ramdisk=ramdisk)
    if [ "$version" -lt 3 ]; then
        ours+=(--second second --kernel-addr $((0x10008000)) --ramdisk-addr "$(if_any ramdisk $((0x11000000)))"
            --second-addr "$(if_any second $((0x10f00000)))" --tags-addr $((0x10000100)) --name fifteen_letters)
        theirs+=(--second second "${addresses[@]}" --board fifteen_letters)
        parts+=(second=second)
    fi
    if [ "$version" = 1 ] || [ "$version" = 2 ]; then
        ours+=(--recovery-dtbo recovery_dtbo)
        # An empty file would get a place, and no file a zero, which is what abootimg writes for both.
        [ -s recovery_dtbo ] && theirs+=(--recovery_dtbo recovery_dtbo)
        parts+=(recovery_dtbo=recovery_dtbo)
    fi
    if [ "$version" = 2 ]; then
        ours+=(--dtb dtb --dtb-addr $((0x101f00000)))
        theirs+=(--dtb dtb --dtb_offset 0xf1f00000)
        parts+=(dtb=dtb)
    fi
    "$program" pack "${ours[@]}" ours > said
    python3 mkbootimg_whole_pages "${theirs[@]}" --output theirs
    [ "$(cat said)" = "bytes $(stat -c %s ours)" ] || report "$title" "printed $(cat said)"
    if [ "$version" = 3 ]; then same_image "$title" '21 54 74'; else same_image "$title"; fi
    same_parts "$title" "${parts[@]}"
}

vendor() { # PAGE CMDLINE
    local title="vendor 3 page $1 of $sizes"
    "$program" pack --vendor --version 3 --page "$1" --ramdisk ramdisk --dtb dtb --kernel-addr $((0x10008000)) \
        --ramdisk-addr $((0x11000000)) --tags-addr $((0x10000100)) --dtb-addr $((0x101f00000)) \
        --name fifteen_letters --cmdline "$2" ours > said
    mkbootimg --header_version 3 --pagesize "$1" --vendor_ramdisk ramdisk --dtb dtb "${addresses[@]}" \
        --dtb_offset 0xf1f00000 --board fifteen_letters --vendor_cmdline "$2" --vendor_boot theirs
    [ "$(cat said)" = "bytes $(stat -c %s ours)" ] || report "$title" "printed $(cat said)"
    same_image "$title" '2097 100 74'
    same_parts "$title" vendor_ramdisk=ramdisk dtb=dtb
}

text() { # LENGTH
    printf 'x%.0s' $(seq "$1")
}

# The sizes of kernel, ramdisk, second stage, recovery DTBO and device tree.
for sizes in '1 0 0 0 1' '2047 2048 2049 4096 4097' '0 1 0 5 2049' '70000 65536 1 0 16384'; do
    read -r kernel ramdisk second recovery_dtbo dtb <<< "$sizes"
    part kernel "$kernel"
    part ramdisk "$ramdisk"
    part second "$second"
    part recovery_dtbo "$recovery_dtbo"
    part dtb "$dtb"
    for page in 2048 4096 16384; do
        boot 0 "$page" ''
        boot 1 "$page" 'console=ttyS0 quiet'
        boot 2 "$page" "$(text 512)"
        boot 2 "$page" "$(text 1535)"
        vendor "$page" "$(text 2047)"
    done
    boot 3 4096 "$(text 1535)"
done
echo "$compared comparisons, $([ $failed = 0 ] && echo 'all the same' || echo 'NOT all the same')"
exit $failed
