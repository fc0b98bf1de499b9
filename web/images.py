"""Images on which the page is tried: those of examples/, one for each fault, and boot images of every version."""
import os
import struct
import subprocess

HERE = os.path.dirname(os.path.dirname(os.path.abspath(__file__)))
EXAMPLES = os.path.join(HERE, "examples")
MAGIC = 0xED26FF3A
RAW, FILL, SKIP, CRC32 = 0xCAC1, 0xCAC2, 0xCAC3, 0xCAC4


def sparse(blocks, chunks, *, magic=MAGIC, major=1, header=28, chunk_header=12, block=16, count=None, checksum=0):
    """A sparse image of chunks: (type, blocks, data) each, or (type, blocks, data, total_sz)."""
    made = struct.pack("<IHHHHIIII", magic, major, 0, header, chunk_header, block, blocks,
                       len(chunks) if count is None else count, checksum)
    made += bytes(max(0, header - 28))
    for kind, length, data, *total in chunks:
        size = total[0] if total else chunk_header + len(data)
        made += struct.pack("<HHII", kind, 0, length, size) + bytes(max(0, chunk_header - 12)) + data
    return made


def sparse_faults():
    """An image for each fault of a sparse image, by its name."""
    raw = (RAW, 1, b"sixteen bytes ..")
    whole = sparse(2, [raw, raw])
    return {
        "magic": sparse(2, [raw, raw], magic=0xED26FF3B),
        "major": sparse(2, [raw, raw], major=2),
        "file_header_size": sparse(2, [raw, raw], header=24),
        "chunk_header_size": sparse(2, [raw, raw], chunk_header=8),
        "block_size": sparse(2, [raw, raw], block=18),
        "chunk_type": sparse(2, [raw, (0xBEEF, 1, b"")]),
        "chunk_length": sparse(2, [raw, (RAW, 1, b"fifteen bytes .")]),
        "too_many_blocks": sparse(2, [raw, raw, raw]),
        "too_few_blocks": sparse(3, [raw, raw]),
        "truncated": whole[:-5],
        "truncated_header": whole[:20],
        "empty": b"",
    }


def sparse_wholes():
    """Sparse images with what no example has, by their names."""
    raw = (RAW, 1, b"sixteen bytes ..")
    return {
        "no_chunks": sparse(0, []),
        "longer_headers": sparse(4, [raw, (SKIP, 1, b""), (FILL, 2, b"abcd")], header=40, chunk_header=20, checksum=7),
        "empty_chunks": sparse(1, [(RAW, 0, b""), (FILL, 0, b"wxyz"), (SKIP, 0, b""), raw, (CRC32, 0, b"\1\2\3\4")]),
        "behind_the_end": sparse(1, [raw]) + b"what stands behind the image",
        "alternating": sparse(600, [raw, (FILL, 1, b"abcd"), (SKIP, 1, b"")] * 200),
        "long_raw": sparse(3, [(RAW, 1, b"a" * (1 << 21)), (FILL, 1, b"b\0\0\0"), (RAW, 1, b"c" * (1 << 21))], block=1 << 21),
    }


def system():
    """A sparse image with a bit of everything, as one of a system partition has it."""
    chunks = []
    for i in range(24):
        raw, fill, skip = 1 + i * 5 % 17, i * 3 % 7, i * 11 % 19
        chunks += [(RAW, raw, b"\1\2\3\4" * 1024 * raw)]
        chunks += [(FILL, fill, bytes(4) if i % 3 else b"\xff\xff\xff\xff")] * (fill > 0) + [(SKIP, skip, b"")] * (skip > 0)
    return sparse(sum(it[1] for it in chunks), chunks, block=4096)


def packed(program, folder):
    """Boot images of every version, by their names, and one of each fault."""
    parts = os.path.join(EXAMPLES, "boot")
    part = lambda name: os.path.join(parts, name)
    boot = ["--kernel", part("Image"), "--ramdisk", part("ramdisk.img"), "--os", "13.0.0-2023-05", "--cmdline", "a \"b\""]
    old = ["--second", part("board.dtb"), "--name", "board", "--kernel-addr", "0x10008000", "--page", "2048"]
    vendor = ["--vendor", "--dtb", part("board.dtb"), "--dtb-addr", "0x100000000", "--name", "v"]
    words = {
        "boot0": ["--version", "0", *boot, *old],
        "boot1": ["--version", "1", *boot, *old, "--recovery-dtbo", part("board.dtb")],
        "boot2": ["--version", "2", *boot, *old, "--dtb", part("board.dtb"), "--dtb-addr", "0x123456789"],
        "boot3": ["--version", "3", *boot],
        "boot4": ["--version", "4", *boot, "--signature", part("Image")],
        "vendor3": ["--version", "3", *vendor, "--ramdisk", part("ramdisk.img")],
        "vendor4": ["--version", "4", *vendor, "--bootconfig", part("bootconfig")],
    }
    fragments = {"vendor4": [f"platform:base:{part('ramdisk.img')}", f"9:rec:{part('recovery.img')}"]}
    made = {}
    for name, options in words.items():
        out = os.path.join(folder, f"{name}.img")
        subprocess.run([program, "pack", *options, out, *fragments.get(name, [])], check=True, stdout=subprocess.DEVNULL)
        with open(out, "rb") as file:
            made[name] = file.read()
    return made


def changed(image, at, number):
    return image[:at] + struct.pack("<I", number) + image[at + 4:]


def boot_faults(packed_images):
    """An image for each fault of a boot image, by its name."""
    boot, vendor = packed_images["boot2"], packed_images["vendor4"]
    table = next(at for at in range(4096, len(vendor), 4096) if vendor[at + 12:at + 17] == b"base\0")
    return {
        "boot_version": changed(boot, 40, 9),
        "vendor_version": changed(vendor, 8, 2),
        "boot_page_size": changed(boot, 36, 3000),
        "vendor_table": changed(vendor, 2120, 100),
        "boot_short": boot[:1000],
        "boot_cut": boot[:-3000],
        "vendor_entry": changed(vendor, table, 1000),
    }
