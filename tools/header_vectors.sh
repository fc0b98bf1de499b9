#!/usr/bin/env bash
# Makes images with AOSP's mkbootimg (Debian: apt-get install mkbootimg) and prints the records at
# their front as the Rust constants of crates/test_boot/src/vectors.rt:
#
#     tools/header_vectors.sh > crates/test_boot/src/vectors.rt
#     (cd crates/abt_headers && rt fmt)
#
# A record is mostly zeros, so a constant lists its runs of other bytes, each with its place. The
# tests build the record from them again. mkbootimg 29.0.6 knows boot versions 0 to 3 and vendor
# version 3. It computes the place of the recovery DTBO with `/`, which Python 3 takes for a
# fraction, and stops: boot version 1 is made by a copy in which that one sign is `//`.
set -euo pipefail

work=$(mktemp -d)
trap 'rm -rf "$work"' EXIT
cd "$work"

printf 'a kernel' > kernel
printf 'the ramdisk' > ramdisk
printf 'second' > second
printf 'recovery dtbo' > recovery_dtbo
printf 'device tree' > dtb
printf 'the vendor ramdisk' > vendor_ramdisk

addresses=(--base 0x10000000 --kernel_offset 0x8000 --ramdisk_offset 0x1000000
    --second_offset 0xf00000 --tags_offset 0x100)

mkbootimg --header_version 0 --kernel kernel --ramdisk ramdisk --second second \
    "${addresses[@]}" --pagesize 2048 --os_version 13.0.0 --os_patch_level 2023-05 \
    --board board0 --cmdline 'console=ttyS0 quiet' --output boot_0

sed 's| / page_size| // page_size|' "$(command -v mkbootimg)" > mkbootimg_whole_pages
python3 mkbootimg_whole_pages --header_version 1 --kernel kernel --ramdisk ramdisk \
    --recovery_dtbo recovery_dtbo "${addresses[@]}" --pagesize 4096 --os_version 9.8.7 --os_patch_level 2018-12 \
    --board board1 --cmdline 'androidboot.slot=a' --output boot_1

mkbootimg --header_version 2 --kernel kernel --ramdisk ramdisk --second second \
    --dtb dtb --dtb_offset 0x101f00000 \
    "${addresses[@]}" --pagesize 16384 --os_version 127.127.127 --os_patch_level 2127-11 \
    --board fifteen_letters --cmdline 'loglevel=4' --output boot_2

mkbootimg --header_version 3 --kernel kernel --ramdisk ramdisk \
    --os_version 11.0.0 --os_patch_level 2020-09 --cmdline 'init=/init' --output boot_3

mkbootimg --header_version 3 --vendor_ramdisk vendor_ramdisk --dtb dtb \
    "${addresses[@]}" --dtb_offset 0x1f00000 --pagesize 2048 --board board3 \
    --vendor_cmdline 'firmware_class.path=/vendor' --vendor_boot vendor_3

python3 - <<'PYTHON'
print('//! Records that AOSP\'s `mkbootimg` 29.0.6 wrote; `tools/header_vectors.sh` prints this file.')
print('//! Each is given as its runs of bytes that are not zero, with their places.')

for name, size, title in (
    ('boot_0', 1632, 'Boot header version 0.'),
    ('boot_1', 1648, 'Boot header version 1.'),
    ('boot_2', 1660, 'Boot header version 2.'),
    ('boot_3', 1580, 'Boot header version 3.'),
    ('vendor_3', 2112, 'Vendor boot header version 3.'),
):
    record = open(name, 'rb').read()[:size]
    runs, at = [], 0
    while at < size:
        if record[at] == 0:
            at += 1
            continue
        end = at
        while end < size and record[end:end + 16].strip(b'\0'):
            end += 1
        runs.append((at, record[at:end].rstrip(b'\0')))
        at = end
    print(f'\n/// {title}')
    print(f'pub const {name.upper()}: [(usize, &[u8]); {len(runs)}] = [')
    for place, run in runs:
        text = ''.join(chr(b) if 0x20 <= b < 0x7f and b not in b'"\\' else f'\\x{b:02x}' for b in run)
        print(f'    ({place}, b"{text}"),')
    print('];')
PYTHON
