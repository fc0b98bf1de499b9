#!/usr/bin/env bash
# Tries what gives an image back, `unpack --words` with `pack @pack.words`, and `repack`, on images that no recipe of tests/ writes:
# of all versions with texts that are hard to write down, and those of AOSP's mkbootimg (Debian: apt-get install mkbootimg),
# where it is there. Prints each thing that it tries, and ends with a line 'N passed, M failed'; the status is 1 where one
# failed. It needs bash, coreutils and Python 3.
#
#   tools/try_words.sh            the program is $ABOOTIMG, or build/abootimg
. "$(dirname "$0")/trying.sh" || exit 1

# made FILE OTHER: the last run succeeded, and made the same bytes as these.
made() {
    [ "$status" = 0 ] && cmp -s "$1" "$2"
}

is_canonical() {
    "$program" info "$1" | grep -q '^check canonical yes'
}

# Everything that must hold of an image that packing writes.
both_ways() { # NAME IMAGE
    local name=$1 image=$2
    rm -rf parts again other
    mkdir parts
    try "$name: is canonical" is_canonical "$image"
    run unpack "$image" parts --words
    try "$name: unpack --words" test "$status" = 0
    run pack @parts/pack.words again
    try "$name: pack @parts/pack.words" made again "$image"
    run repack "$image" other
    try "$name: repack" made other "$image"
}

part() { # FILE SIZE
    seq 1 99999 | sed "s/^/$1 /" | head -c "$2" > "$1" || true
}

text() { # LENGTH
    head -c "$1" /dev/zero | tr '\0' x
}

# ---- images by hand, of all versions

# make.py OUT KIND VERSION PAGE: writes an image of the parts that lie here as bootimg.h says, with texts that are hard to write down.
cat > make.py <<'END'
import hashlib, struct, sys

out, kind, version, page = sys.argv[1], sys.argv[2], int(sys.argv[3]), int(sys.argv[4])
name, cmdline, os_version = b"na'me \\x41\xff\n", b'-a "b"\\\\x\\x4g \xc3\xa9\xff\x01\n\r@x=%s', int(sys.argv[5], 0)
long_text = (cmdline + b"y" * 1535)[:1535]
part = {it: open(it, "rb").read() for it in "kernel ramdisk second dtbo dtb signature bootconfig".split()}


def padded(x):
    return x + bytes(-len(x) % page)


def boot_front(sections):
    made = hashlib.sha1()
    for it in sections:
        made.update(it + struct.pack("<I", len(it)))
    text = long_text.ljust(1536, b"\0")
    k, r, s = (len(it) for it in sections[:3])
    return b"ANDROID!" + struct.pack("<10I", k, 0x10008000, r, 0xffffffff, s, 1, 0x100, page, version, os_version) \
        + name.ljust(16, b"\0") + text[:512] + made.digest().ljust(32, b"\0") + text[512:]


def boot():
    if version > 2:
        sections = [part["kernel"], part["ramdisk"]] + [part["signature"]] * (version == 4)
        size = 1580 if version == 3 else 1584
        head = b"ANDROID!" + struct.pack("<4I16xI", len(part["kernel"]), len(part["ramdisk"]), os_version, size, version)
        head += cmdline.ljust(1536, b"\0") + (struct.pack("<I", len(part["signature"])) if version == 4 else b"")
        return head, sections
    sections = [part["kernel"], part["ramdisk"], part["second"], part["dtbo"], part["dtb"]][: 3 + version]
    head = boot_front(sections)
    if version > 0:
        at = page * (1 + sum(-(-len(it) // page) for it in sections[:3])) if part["dtbo"] else 0
        head += struct.pack("<IQI", len(part["dtbo"]), at, 1648 if version == 1 else 1660)
    if version > 1:
        head += struct.pack("<IQ", len(part["dtb"]), 0xfedcba9876543210)
    return head, sections


FRAGMENTS = [
    (1, b"base", [0] * 16, "ramdisk"), (0, b"", [0] * 15 + [4294967295], "second"), (4294967295, b"a:b\\x3a\"\xff", [7] * 16, "dtbo"),
    (77, b"mid\0dle", [0, 1] + [0] * 14, "kernel"), (3, b"n" * 32, [0] * 16, "dtb"), (2, b"\0x", list(range(16)), "signature"),
]


def vendor():
    ramdisk, table = part["ramdisk"], b""
    if version == 4:
        ramdisk = b""
        for kind, it, board, file in FRAGMENTS:
            table += struct.pack("<3I32s16I", len(part[file]), len(ramdisk), kind, it, *board)
            ramdisk += part[file]
    head = b"VNDRBOOT" + struct.pack("<5I", version, page, 1, 2, len(ramdisk)) + (cmdline * 99)[:2047].ljust(2048, b"\0")
    head += struct.pack("<I16sIIQ", 3, name, 2112 if version == 3 else 2128, len(part["dtb"]), 4)
    if version == 3:
        return head, [ramdisk, part["dtb"]]
    head += struct.pack("<4I", len(table), len(FRAGMENTS), 108, len(part["bootconfig"]))
    return head, [ramdisk, part["dtb"], table, part["bootconfig"]]


head, sections = boot() if kind == "boot" else vendor()
with open(out, "wb") as file:
    for it in [head, *sections]:
        file.write(padded(it))
END

echo "== images by hand"
for sizes in '2049 1 4096 5 7 4095 30' '0 0 0 0 0 0 0'; do
    read -r a b c d e f g <<< "$sizes"
    part kernel "$a"; part ramdisk "$b"; part second "$c"; part dtbo "$d"; part dtb "$e"; part signature "$f"; part bootconfig "$g"
    # All OS versions that have a month, and numbers without one.
    python3 make.py image boot 0 2048 0x1a00016c && both_ways "boot 0, page 2048, sizes $sizes" image
    python3 make.py image boot 1 131072 0 && both_ways "boot 1, page 131072, no OS, sizes $sizes" image
    python3 make.py image boot 2 4096 0xffffffff && both_ways "boot 2, OS ffffffff, sizes $sizes" image
    python3 make.py image boot 3 4096 0x1a000000 && both_ways "boot 3, no patch level, sizes $sizes" image
    python3 make.py image boot 4 4096 0x00000013 && both_ways "boot 4, a month alone, sizes $sizes" image
    python3 make.py image vendor 3 2048 0 && both_ways "vendor 3, page 2048, sizes $sizes" image
    python3 make.py image vendor 4 16384 0 && both_ways "vendor 4, page 16384, sizes $sizes" image
done

# ---- images of mkbootimg

if command -v mkbootimg > made_by; then
    echo "== images of mkbootimg"
    # It divides by `/` where it places the recovery DTBO, which stops Python 3; and writes 1596 and 2108 for the sizes of
    # headers of version 3, where bootimg.h has 1580 and 2112.
    sed 's| / page_size| // page_size|' "$(cat made_by)" > whole_pages
    boot_3() { printf '\x2c\x06' | dd of="$1" bs=1 seek=20 conv=notrunc status=none; }
    vendor_3() { printf '\x40\x08' | dd of="$1" bs=1 seek=2096 conv=notrunc status=none; }
    for sizes in '1 0 0 0 1' '2047 2048 2049 4096 4097' '0 1 0 5 2049' '70000 65536 1 0 16384'; do
        read -r a b c d e <<< "$sizes"
        part kernel "$a"; part ramdisk "$b"; part second "$c"; part dtbo "$d"; part dtb "$e"
        dtbo=(); [ -s dtbo ] && dtbo=(--recovery_dtbo dtbo)
        for page in 2048 4096 16384; do
            common=(--kernel kernel --ramdisk ramdisk --pagesize "$page" --os_version 13.0.0 --os_patch_level 2023-05)
            for version in 0 1 2; do
                of=(--header_version "$version" "${common[@]}" --second second --base 0x10000000 --board fifteen_letters)
                [ "$version" -ge 1 ] && of+=("${dtbo[@]}")
                [ "$version" = 2 ] && of+=(--dtb dtb --dtb_offset 0xf1f00000)
                python3 whole_pages "${of[@]}" --cmdline "$(text 1535)" --output image
                both_ways "mkbootimg $version, page $page, sizes $sizes" image
            done
            mkbootimg --header_version 3 --pagesize "$page" --vendor_ramdisk ramdisk --dtb dtb --board "" \
                --vendor_cmdline "$(text 2047)" --vendor_boot image
            vendor_3 image
            both_ways "mkbootimg vendor 3, page $page, sizes $sizes" image
        done
        mkbootimg --header_version 3 "${common[@]}" --cmdline 'a b' --output image
        boot_3 image
        both_ways "mkbootimg 3, sizes $sizes" image
    done
else
    echo "== no images of mkbootimg, which is not there"
fi

tried
