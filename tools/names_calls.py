"""Random calls of AOSP's tools, for compare_names.py: the words, the files before, and what is peculiar in them.

A peculiarity is a short text, as "a part past the end". The table of compare_names.py says which of them explain what.
"""
import collections
import os
import re
import struct

from compare_programs import Maker
from names_images import boot_image, peculiar_boot, peculiar_sparse, vendor_image, with_number

# words: of the call. files: what stands before, by name. stdin: the file that standard input is. kept: files that no
# tool may change. peculiar: what explains a difference.
Call = collections.namedtuple("Call", "name words files stdin kept peculiar")
FILES = ("kernel", "ramdisk", "second", "dtb", "recovery_dtbo", "vendor_ramdisk", "vendor_bootconfig")
NUMBERS = ("base", "kernel_offset", "ramdisk_offset", "second_offset", "dtb_offset", "tags_offset")
TEXTS = {"board": 15, "cmdline": 1534, "vendor_cmdline": 2047}
OTHERS = ("recovery_acpio", "os_version", "os_patch_level", "pagesize", "id", "header_version", "output", "vendor_boot",
          "help")
OPTIONS = (*FILES, *NUMBERS, *TEXTS, *OTHERS)
OS_VERSIONS = ("13", "12.1", "11.0.3", "127.127.127", "1000", "1.2.3.4", "13.0.0-2023-05", "a13", "", " 1", "128",
               "1.300")
PATCH_LEVELS = ("2023-05", "2000-01", "2127-12", "2023-05-31", "2023-5", "2023", "x", "2023-13", "2023-00", "1999-01")
SPOILS = (
    ["--bogus", "1"], ["plain"], ["-k"], ["--"], ["--kernel"], ["--kernel", "none"], ["--k", "kernel"],
    ["--kernel", "."], ["--base", "5k"], ["--base", "02"], ["--base", ""], ["--base", "1__0"], ["--base", "0xffffffff"],
    ["--base", "-9999999999"], ["--pagesize", "4095"], ["--pagesize", "32768"], ["--header_version", "5"],
    ["--header_version", "x"],
    ["--header_version", "-1"], ["--board", 16 * "b"], ["--cmdline", 1536 * "c"], ["--vendor_cmdline", 2048 * "v"],
    ["--cmdline", "-x"], ["--id=1"], ["-o", "none/x"], ["-h"], ["--board", "-1e3"], ["--board", "-1."], ["--kernel", "-5"],
    ["--board", "--id"], ["--board", "-o b"], ["--board", "--ker=a b"], ["--board", "-"], ["--board", "-a"],
    ["--recovery_dtbo", "kernel", "--recovery_acpio", "kernel"],
    ["--ramdisk_name", "late"], ["--vendor_ramdisk_fragment=kernel"], ["--board_id3", "1"], ["--gki_signing_key", "k"],
    ["--output"])


def chance_of(maker, percent):
    return maker.chance.randrange(100) < percent


def missing_or(maker, name):
    return "none" if chance_of(maker, 3) else name


def sparse_files(maker, names):
    """Sparse images of one partition, mostly; some of them are marred, or of another partition."""
    first, blocks = maker.sparse()
    files = {names[0]: maker.marred(first)}
    for it in names[1:]:
        files[it] = maker.marred(maker.sparse(None if chance_of(maker, 8) else blocks)[0])
    return files


def call_of_simg2img(maker):
    names = ["a", "b", "c"][: maker.one(1, 1, 1, 2, 2, 3)]
    files = sparse_files(maker, names)
    words, stdin = [missing_or(maker, it) for it in names], None
    peculiar = peculiar_sparse([files[it] for it in words if it in files])
    if chance_of(maker, 10):
        words[0], stdin = "-", names[0]
        peculiar.add("standard input")
    out = maker.one(*["out"] * 12, "-", "folder/out", "none/out", names[0])
    if chance_of(maker, 30):
        files["out"] = maker.data(maker.near(9000))
    files["folder/x"] = b""
    words = [*words, out]
    words = maker.one(*[words] * 20, [out], [], ["-x", *words], ["--help"], ["-", *words])
    if out in names:
        peculiar.add("an output that is an input")
    if out == "-":
        peculiar.add("a file named -")
    if "--help" in words:
        peculiar.add("help")
    return Call("simg2img", words, files, stdin, set(names) - {out}, peculiar)


def long_image(maker):
    """A raw image around 64 MiB, where AOSP's newer img2simg splits chunks: no block of it is a fill, or all are, or half."""
    size = maker.near(maker.one(64 << 20, 65 << 20, 128 << 20), 4096)
    unit = maker.one(bytes(range(256)) * 4, bytes(1024), bytes(range(256)) * (1 << 18) + bytes(64 << 20))
    return (unit * (size // len(unit) + 1))[:size]


def call_of_img2simg(maker):
    size = maker.near(maker.one(0, 1024, 4096, 65_536, 3 * 65_536, 300_000), 9)
    files = {"raw": long_image(maker) if chance_of(maker, 3) else maker.data(size)}
    blocks = ("1024", "2048", "4096", "8192", "65536", " 4096", "+1024", "4096x", "131072", "1048576", "1028",
              "4294971392")
    block = maker.one(*["", *blocks] * 3, "1000", "1026", "0x1000", "-4096", "x", "", "99999999999999999999", "0")
    ins, out = missing_or(maker, maker.one(*["raw"] * 9, "-")), maker.one(*["out"] * 9, "-", "none/out", "raw")
    words = [ins, out] + ([block] if block or chance_of(maker, 5) else [])
    if chance_of(maker, 15):
        wrong = ["-q", *words], words[:1], [*words, "4096", "x"], []
        words = maker.one(["--", *words], [*words, "-s"], ["-s", *words], *wrong)
    peculiar = set()
    if out == "raw" and ins in ("raw", "-"):
        peculiar.add("an output that is an input")
    if "-s" in words:
        peculiar.add("-s")
    if "--" in words:
        peculiar.add("the word --")
    if block and not (re.fullmatch("[0-9]+", block) and int(block) < 2**32):
        peculiar.add("a BLOCK that is not digits alone")
    number = block.strip().rstrip("x").lstrip("+")
    number = int(number) % 2**32 if number.isdigit() else 4096
    if number > 65_536:
        peculiar.add("a block size above 65,536")
    return Call("img2simg", words, files, "raw" if ins == "-" else None, {"raw"} - {out}, peculiar)


def call_of_simg2simg(maker):
    files = sparse_files(maker, ["a"])
    size, least = len(files["a"]), maker.block + 68
    limit = maker.near(maker.one(least, size, size // 2, size // 3, 65_536, least + 12, size + 5000), maker.one(12, 80))
    limit = max(limit, size // 40, least)
    text = maker.one(*[str(limit)] * 12, f" {limit}", f"{limit}x", f"+{limit}", str(limit + 2**32), "0", "abc",
                     "0x10000", "-5", "55", str(least - 1), "56", "4294967295")
    words = [missing_or(maker, "a"), maker.one(*["p"] * 12, "none/p", "a"), text]
    words = maker.one(*[words] * 15, words[:2], [*words, "1"], [], ["-", *words[1:]])
    if chance_of(maker, 20):
        files[maker.one("p.0", "p.1", "p.77", "p.x")] = b"old"
    peculiar = peculiar_sparse([files["a"]])
    digits = text.strip().lstrip("+").rstrip("x")
    number = int(digits) % 2**32 if digits.isdigit() else 0
    if 56 <= number < struct.unpack("<I", files["a"][12:16].ljust(4, b"\0"))[0] + 68:
        peculiar.add("a MAX without room for a block")
    elif number < 56:
        peculiar.add("a MAX below 56")
    if not re.fullmatch("[0-9]+", text):
        peculiar.add("a MAX that is not digits alone")
    elif int(text) >= 2**32:
        peculiar.add("a MAX of 4 GiB or more")
    return Call("simg2simg", words, files, None, {"a"}, peculiar)


def number_word(maker, number):
    """A number as int(WORD, 0) reads it."""
    plain = (str(number), hex(number), hex(number), hex(number), f"{number:#010x}")
    rare = (oct(number), bin(number), f"{number:_}", hex(number).upper(), f"+{number}", f" {number} ", f"+{number:#x}\n",
            f"\t\v\f\r {number}", f"\u3000{number:#o}\u00a0", f"-{number:#x}")
    return maker.one(*plain * 4, *rare)


def option(maker, name, value, among=OPTIONS):
    """The words of an option and its value."""
    short = [f"--{name[:at]}" for at in range(3, len(name)) if sum(it.startswith(name[:at]) for it in among) == 1]
    spelt = maker.one(*short) if short and chance_of(maker, 10) else f"--{name}"
    if name == "output":
        return maker.one(["-o", value], ["-o", value], [f"-o{value}"], [f"-o={value}"], [f"{spelt}={value}"])
    percent = 50 if value.startswith("-") and value != "-" else 20
    return [f"{spelt}={value}"] if chance_of(maker, percent) else [spelt, value]


def text_for(maker, most):
    some = ("", "a", "console=ttyS0 quiet", "é", "it's \"x\"", "-x y", "#$ \\n`", "a=b c=d", "-5", "-.5", "--kern l")
    text = maker.one(*some, most * "x", 511 * "y", 512 * "z")
    return text if len(text.encode()) <= most else text.encode()[:most].decode("utf-8", "ignore")


def fragment_units(maker, files):
    """The groups of words of vendor ramdisks, each of which ends with its file."""
    units, boards = [], (f"board_id{it}" for it in range(16))
    among = ("ramdisk_type", "ramdisk_name", *boards, "vendor_ramdisk_fragment", *OPTIONS)
    for at in range(maker.one(0, 1, 1, 2, 3)):
        name = f"part{at}"
        files[name] = maker.data(maker.one(0, 1, 100, 3000, 5000))
        named = maker.one(*[f"name{at}"] * 9, "", "default", "name0", "a/b", 31 * "n", 32 * "n")
        group = [option(maker, "ramdisk_name", named, among)]
        if chance_of(maker, 60):
            kinds = "none", "platform", "recovery", "dlkm", "DLKM", "Recovery", "3", "0x7", str(2**32 - 1), "bogus"
            kind = maker.one(*kinds)
            group.append(option(maker, "ramdisk_type", kind, among))
        for it in maker.chance.sample(range(16), maker.one(0, 0, 1, 3)):
            group.append([f"--board_id{it}", number_word(maker, maker.one(0, 1, 2**32 - 1, 2**32, 77))])
        if chance_of(maker, 5):
            group.pop()
        maker.chance.shuffle(group)
        units.append([*sum(group, []), "--vendor_ramdisk_fragment", missing_or(maker, name)])
    return units


def main_units(maker, version, files, outputs):
    """Groups of words of mkbootimg, but those of fragments, and which of the files they name."""
    units = [option(maker, "header_version", number_word(maker, version))] if version or chance_of(maker, 30) else []
    units += [option(maker, *it) for it in outputs]
    odds = {"kernel": 85, "ramdisk": 85, "dtb": 95 if version == 2 else 40, "second": 3 if version > 2 else 40,
            "vendor_ramdisk": 80 if version == 3 else 25}
    for it in FILES:
        if it in files and chance_of(maker, odds.get(it, 30)):
            units.append(option(maker, maker.one(it, it, "recovery_acpio") if it == "recovery_dtbo" else it, it))
    for it in NUMBERS:
        if chance_of(maker, 25):
            most = maker.chance.randrange(2**62 if it == "dtb_offset" else 2**31 - 1)
            units.append(option(maker, it, number_word(maker, maker.one(0, 1, 0x8000, 0x1000000, most))))
    for it, most in TEXTS.items():
        if chance_of(maker, 35):
            units.append(option(maker, it, text_for(maker, most + (it == "cmdline" and version > 2))))
    for it, some in (("os_version", OS_VERSIONS), ("os_patch_level", PATCH_LEVELS)):
        if chance_of(maker, 35):
            units.append(option(maker, it, maker.one(*some[:3] * 5, *some)))
    if chance_of(maker, 40):
        units.append(option(maker, "pagesize", number_word(maker, maker.one(2048, 4096, 8192, 16_384))))
    return units + ([["--id"]] if chance_of(maker, 40) else [])


def not_there(words):
    """What ours has not of mkbootimg's words."""
    is_below = any(re.fullmatch(r"(--\w+=)?\s*-(?=[0-9])(0[xXoObB])?[0_]*[1-9a-fA-F]\w*\s*", it) for it in words)
    return {"a number below 0"} if is_below else set()


def taken_here(words, version, outputs):
    """What theirs refuses of mkbootimg's words, and ours takes: mostly the spoils of options without a field."""
    names, found = [name for name, _ in outputs], set()
    boot, vendor = "output" in names, "vendor_boot" in names
    carried = {"none": boot, ".": boot, "4095": vendor or version < 3, 16 * "b": vendor or version < 3, 1536 * "c": boot,
               2048 * "v": vendor}
    if any(it in words and not is_carried for it, is_carried in carried.items()):
        found.add("a wrong value without a field")
    found |= {told for it, told in (("32768", "a page size above 16,384"), ("-x", "a text that begins with a hyphen"),
                                    ("--", "the word --")) if it in words}
    return found


def call_of_mkbootimg(maker, has_fourth=True):
    parts = FILES if has_fourth else FILES[:-1]
    peculiar, files = set(), {it: maker.data(maker.one(0, 1, 100, 2048, 4096, 5000, 70_000)) for it in parts}
    version = maker.one(0, 1, 2, 3, 4, 4) if has_fourth else maker.one(0, 0, 1, 2, 3)
    both = (("output", "boot.img"), ("vendor_boot", "vendor.img"))
    late = (both, both[1:], both[1:]) if version > 2 else ()
    outputs = maker.one(*[both[:1]] * 4, (), *late)
    if chance_of(maker, 3) and len(outputs) == 1:
        outputs = ((outputs[0][0], maker.one("-", "kernel", "ramdisk")),)
    units = main_units(maker, version, files, outputs)
    if chance_of(maker, 12):
        units.append(maker.one(*SPOILS))
    maker.chance.shuffle(units)
    at = 0
    is_carrying = version == 4 and len(outputs) and outputs[-1][0] == "vendor_boot"
    for it in fragment_units(maker, files) if is_carrying or chance_of(maker, 2) else ():
        at = maker.chance.randint(at, len(units)) + 1
        units.insert(at - 1, it)
    words, stdin, names = sum(units, []), None, {it for _, it in outputs}
    if chance_of(maker, 3) and "kernel" in words:
        words[words.index("kernel")], stdin = "-", "kernel"
        peculiar.add("standard input")
    values = [it[2:] if re.match("-o[^=]", it) else it.rpartition("=")[2] for it in words]
    if names & set(values) & set(FILES) and len([it for it in values if it in names]) > 1:
        peculiar.add("an output that is an input")
    if "-h" in words:
        peculiar.add("help")
    if not files["recovery_dtbo"] and {"recovery_dtbo"} & {it.rpartition("=")[2] for it in words}:
        peculiar.add("an empty recovery DTBO")
    if any(len(it.encode()) > 511 for it in words):
        peculiar.add("a long command line")
    options = [it.partition("=")[0] for it in words if it.startswith("--")]
    if len(options) > len(set(options)):
        peculiar.add("a value that another replaces")
    if chance_of(maker, 20):
        files["boot.img"] = maker.data(maker.one(10, 100_000))
    peculiar |= not_there(words) | taken_here(words, version, outputs)
    return Call("mkbootimg", words, files, stdin, set(files) - names, peculiar)


def call_of_unpack(maker, has_format=True):
    make = boot_image if chance_of(maker, 60) or not has_format else vendor_image
    image = make(maker, has_format)
    image = with_number(maker, image) if chance_of(maker, 25) else maker.marred(image)
    files, peculiar = {"b": image}, peculiar_boot(image)
    folder = maker.one(*["d"] * 8, "d/e/f", "./d/", "d/", "it's", "a b", ".", "b")
    at = os.path.normpath(folder)
    among = ("boot_img", "out", "format", "null", "help")
    units = [option(maker, "boot_img", missing_or(maker, "b"), among)]
    if folder != "d" or chance_of(maker, 80):
        units.append(option(maker, "out", folder, among))
    if has_format and chance_of(maker, 60):
        units.append(option(maker, "format", maker.one(*["mkbootimg", "info"] * 9, "INFO", "x"), among))
    if has_format and chance_of(maker, 30):
        units.append([maker.one("-0", "-0", "--null", "-00")])
    if chance_of(maker, 6):
        units.append(maker.one(["plain"], ["--bogus"], ["--out"], ["-h"], ["--null=1"], ["-0", "--format"]))
    if chance_of(maker, 20) and at not in (".", "b"):
        for it in ("kernel", "vendor_ramdisk00", "other"):
            files[f"{at}/{it}"] = maker.data(maker.one(3, 9000))
        if chance_of(maker, 30):
            files[f"{at}/vendor-ramdisk-by-name/ramdisk_one"] = b"old"
    maker.chance.shuffle(units)
    words = sum(units, [])
    if "-h" in words:
        peculiar.add("help")
    return Call("unpack_bootimg", words, files, None, {"b"}, peculiar)


CALLS = {"simg2img": call_of_simg2img, "img2simg": call_of_img2simg, "simg2simg": call_of_simg2simg,
         "mkbootimg": call_of_mkbootimg, "unpack_bootimg": call_of_unpack}


def call_of(name, number, seed, has_fourth):
    """Call `number` of a tool; without `has_fourth` one that the tools of Android 10 know."""
    maker = Maker(f"{seed} {name} {number}", None, "plain")
    return CALLS[name](maker) if name not in ("mkbootimg", "unpack_bootimg") else CALLS[name](maker, has_fourth)
