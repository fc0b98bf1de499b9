"""Boot images for names_calls.py, made at random, and what is peculiar in images: where tools may answer otherwise."""
import struct

PAGES = tuple(1 << it for it in range(11, 18))
SPARSE = struct.pack("<I", 0xED26FF3A)


def text_of(maker, most):
    """The bytes of a text of an image, mostly such as people write."""
    rare = (b"it's", b"\xc3\xa9", b"a\nb", b"\xff", most * b"x", (most - 1) * b"y", b"a\0b", b"\x1b[1m",
            b"$x `y` \"z\"")
    some = (b"", b"console=ttyS0 quiet", b"a b c", b"a=1", b"name")
    return maker.one(*some, *(rare if maker.chance.randrange(4) == 0 else ()))[:most]


def padded(page, *parts):
    return b"".join(it + bytes(-len(it) % page) for it in parts)


def part_of(maker):
    return maker.data(maker.one(0, 1, 100, 2048, 4096, 5000))


def number_of(maker, bits=32):
    return maker.one(0, 1, 0x10008000, 2**bits - 1, maker.chance.randrange(2**bits))


def boot_image(maker, has_fourth=True):
    version = maker.one(0, 1, 2, 3, 4) if has_fourth else maker.one(0, 1, 2)
    kernel, ramdisk, second, recovery, dtb = (part_of(maker) for _ in range(5))
    system = maker.one(0, 0x1A000175, 2**32 - 1, maker.chance.randrange(2**32))
    if version > 2:
        sign = maker.one(b"", b"", maker.data(4096)) if version == 4 else b""
        sizes = len(kernel), len(ramdisk), system, (1580, 1584)[version - 3], 0, 0, 0, 0, version
        head = b"ANDROID!" + struct.pack("<9I", *sizes) + text_of(maker, 1536).ljust(1536, b"\0")
        return padded(4096, head + (struct.pack("<I", len(sign)) if version == 4 else b""), kernel, ramdisk, sign)
    page = maker.one(2048, 2048, 4096, 16_384, 131_072)
    recovery, dtb = recovery if version else b"", dtb if version == 2 else b""
    second = maker.one(b"", second)
    numbers = len(kernel), len(ramdisk), len(second)
    head = b"ANDROID!" + b"".join(struct.pack("<II", it, number_of(maker)) for it in numbers)
    head += struct.pack("<IIII", number_of(maker), page, version, system) + text_of(maker, 16).ljust(16, b"\0")
    head += text_of(maker, 512).ljust(512, b"\0") + maker.chance.randbytes(32) + text_of(maker, 1024).ljust(1024, b"\0")
    at = len(padded(page, head, kernel, ramdisk, second)) if recovery else 0
    head += struct.pack("<IQI", len(recovery), at, (1648, 1660)[version - 1]) if version else b""
    head += struct.pack("<IQ", len(dtb), number_of(maker, 64)) if version == 2 else b""
    return padded(page, head, kernel, ramdisk, second, recovery, dtb)


def vendor_image(maker, _=True):
    version, page = maker.one(3, 4, 4), maker.one(2048, 4096, 4096, 131_072)
    ramdisks = [part_of(maker) for _ in range(maker.one(0, 1, 1, 2, 3) if version == 4 else 1)]
    dtb, config, inside = part_of(maker), maker.one(b"", b"androidboot.a=b\n"), b"".join(ramdisks)
    head = b"VNDRBOOT" + struct.pack("<5I", version, page, number_of(maker), number_of(maker), len(inside))
    head += text_of(maker, 2048).ljust(2048, b"\0") + struct.pack("<I", number_of(maker))
    head += text_of(maker, 16).ljust(16, b"\0")
    head += struct.pack("<IIQ", (2112, 2128)[version - 3], len(dtb), number_of(maker, 64))
    if version == 3:
        return padded(page, head, inside, dtb)
    table, at = b"", 0
    for it in ramdisks:
        name = maker.one(b"", b"one", b"two", text_of(maker, 32)).ljust(32, b"\0")
        ids = [maker.one(0, 0, 0, number_of(maker)) for _ in range(16)]
        table += struct.pack("<III", len(it), at, maker.one(0, 1, 2, 3, 77)) + name + struct.pack("<16I", *ids)
        at += len(it)
    head += struct.pack("<4I", len(table), len(ramdisks), 108, len(config))
    return padded(page, head, inside, dtb, table, config)


def with_number(maker, image):
    """The image, with another number in one field of its header."""
    is_vendor = image[:8] == b"VNDRBOOT"
    boot, vendor = (*range(8, 48, 4), 1632, 1636, 1644, 1648), (*range(8, 28, 4), 2096, 2100, *range(2112, 2128, 4))
    places = vendor if is_vendor else boot
    at = maker.one(*places)
    if at + 4 > len(image):
        return image
    old = struct.unpack("<I", image[at : at + 4])[0]
    some = 0, 1, 3, 4, 5, 108, 1024, 2048, 3000, 2**31, 2**32 - 1
    new = maker.one(*some, old ^ 1, old ^ 4096, (old + 108) % 2**32)
    return image[:at] + struct.pack("<I", new) + image[at + 4 :]


def peculiar_text(*texts):
    """What is peculiar in texts of an image, which end with their first zero."""
    found = set()
    for it in (it.split(b"\0", 1)[0] for it in texts):
        if any(byte < 32 or byte == 127 for byte in it) or b"\xe2\x80" in it or b"\xc2" in it:
            found.add("control characters in a text")
    for it in texts:
        try:
            it.decode()
        except UnicodeDecodeError:
            found.add("a text that is not UTF-8")
    return found


def past_end(image, page, pages, *sizes):
    """Where parts of these sizes begin, after this number of pages, and whether one of them is not whole."""
    places = []
    for it in sizes:
        places.append(pages * page)
        pages += -(-it // page)
    is_past = any(it and at + it > len(image) for at, it in zip(places, sizes))
    return places, {"a part past the end"} if is_past else set()


def peculiar_boot(image):
    """What is peculiar in a boot image or a vendor boot image. Of a header that is not whole nothing is told."""
    if image[:8] == b"VNDRBOOT" and len(image) >= 2112:
        return peculiar_vendor(image)
    if image[:8] != b"ANDROID!" or len(image) < 1660:
        return {"no whole header"}
    numbers = struct.unpack("<9I", image[8:44])
    version, found = numbers[8], set()
    if version > 4:
        return {"a version that there is not"}
    if version > 2:
        sign = struct.unpack("<I", image[1580:1584])[0] if version == 4 else 0
        found |= {"a header size of another version"} if numbers[3] != (1580, 1584)[version - 3] else set()
        return found | peculiar_text(image[44:1580]) | past_end(image, 4096, 1, *numbers[:2], sign)[1]
    kernel, ramdisk, second, page = (numbers[it] for it in (0, 2, 4, 7))
    recovery, at, head = struct.unpack("<IQI", image[1632:1648]) if version else (0, 0, 0)
    dtb = struct.unpack("<I", image[1648:1652])[0] if version == 2 else 0
    found |= peculiar_text(image[48:64], image[64:576], image[608:1632])
    if page not in PAGES:
        return found | {"a page size that there is not"}
    if version and head != (1648, 1660)[version - 1]:
        found.add("a header size of another version")
    places, is_past = past_end(image, page, 1, kernel, ramdisk, second, recovery, dtb)
    if recovery and at != places[3]:
        found.add("a recovery DTBO at another place")
    if any(byte for byte in image[575:576]):
        found.add("a cmdline without a zero")
    return found | is_past


def peculiar_vendor(image):
    version, page, _, _, inside = struct.unpack("<5I", image[8:28])
    head, dtb = struct.unpack("<II", image[2096:2104]) if len(image) >= 2112 else (0, 0)
    found = peculiar_text(image[28:2076], image[2080:2096])
    if version not in (3, 4):
        return found | {"a version that there is not"}
    if page not in PAGES:
        return found | {"a page size that there is not"}
    if head != (2112, 2128)[version - 3]:
        found.add("a header size of another version")
    if version == 3:
        return found | past_end(image, page, -(-2112 // page), inside, dtb)[1]
    if len(image) < 2128:
        return found | {"no whole header"}
    table, count, entry, config = struct.unpack("<4I", image[2112:2128])
    places, is_past = past_end(image, page, -(-2128 // page), inside, dtb, table, config)
    found |= is_past
    if entry != 108 or table != entry * count:
        return found | {"a table that is not of whole entries"}
    return found | peculiar_entries(image[places[2] : places[2] + table], inside)


def peculiar_entries(table, inside):
    found, names = set(), []
    for at in range(0, len(table) - 107, 108):
        size, place, _, name = struct.unpack("<III32s", table[at : at + 44])
        found |= peculiar_text(name)
        names.append(name.split(b"\0", 1)[0])
        if place + size > inside:
            found.add("a fragment past the vendor ramdisk")
        if b"/" in names[-1]:
            found.add("a name with a slash")
    return found | ({"two fragments of one name"} if len(set(names)) < len(names) else set())


def peculiar_sparse(images):
    """What is peculiar in the sparse images of one call."""
    found, partitions = set(), set()
    for it in images:
        if it[:4] != SPARSE or len(it) < 28:
            found.add("no whole header")
            continue
        _, head, _, block, blocks, chunks = struct.unpack("<HHHIII", it[6:24])
        partitions.add((block, blocks))
        at = head
        if blocks == 0 or chunks == 0:
            found.add("an image of no blocks")
        for _ in range(min(chunks, len(it) // 12)):
            kind, _, count, size = struct.unpack("<HHII", it[at : at + 12].ljust(12, b"\1"))
            found |= {"a chunk of no blocks"} if not count and kind != 0xCAC4 else set()
            found |= {"a CRC chunk that counts blocks"} if count and kind == 0xCAC4 else set()
            at += max(size, 12)
        if at > len(it):
            found.add("a part past the end")
    return found | ({"images of other partitions"} if len(partitions) > 1 else set())
