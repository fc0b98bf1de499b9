#!/usr/bin/env python3
"""Compares AOSP's tools with those of abootimg that stand in their place, over the same random calls.

  tools/compare_names.py OURS [--theirs DIR] [--names NAME,..] [--seed N] [--runs N] [--jobs N] [--run NAME:N]
                         [--keep DIR]

OURS is a folder that has our tools by their names (links to abootimg, say), or the words that come before a name:
`tools/compare_names.py "build/abootimg as"`. DIR has AOSP's tools; without --theirs those of the path are taken
(Debian: apt-get install android-sdk-libsparse-utils mkbootimg). Each tool gets --runs calls, and call I is the same at
every turn with this seed. names_calls.py makes them: good words, wrong words, and images that are cut off, changed or
missing.

Both run with the same words in folders of the same files. It is compared whether the status is 0, and if both are:

  - standard output;
  - every file, folder and link that is left, by name and bytes;
  - of simg2simg in place of the pieces' bytes: laid over one another in turn by AOSP's simg2img they give one raw
    image, no piece is above MAX, and ours are not more.

If ours is not 0: it is 1 or 2, standard output is empty (unless it is OUT), standard error is not, and each input has
its bytes.
ROWS explains what may differ, also the words that ours has not. What it explains is counted by its reason and not
printed. Other differences are printed
with their words, and with the words that repeat them; --keep leaves both folders in DIR. The last line is
'N passed, M failed'.

Android 10's tools (Debian 12) know no version 4, no fragments and no --format. With these, calls have none, and what
unpack_bootimg prints is not compared.
"""
import argparse
import collections
import concurrent.futures
import os
import re
import shlex
import shutil
import subprocess
import sys
import tempfile

sys.dont_write_bytecode = True
HERE = os.path.dirname(os.path.dirname(os.path.abspath(__file__)))
sys.path.insert(0, os.path.join(HERE, "tests"))
from compare_programs import write_files
from names_calls import CALLS, Call, call_of
from run import difference, seen

SECONDS = 60
SOON = 4  # seconds, where theirs is known not to end
TURNS = 12  # of simg2img 34.0.5, which at random says so of an image that it has written, if that ends with don't care
AT_RANDOM = b"Cannot write output file\n"
Answer = collections.namedtuple("Answer", "status out err left")
Row = collections.namedtuple("Row", "names theirs ours what peculiar reason")
# What may differ. names: of the tools. theirs, ours: how each ends: "done", "fails", "no end". what: a pattern of what
# differs, as it is printed. peculiar: what the call or its image must have. reason: why, with what ours does.
BOTH = "unpack_bootimg mkbootimg"
ROWS = (
    Row("simg2img simg2simg", "done", "fails", "status", "a part past the end", "theirs fills up a cut-off last chunk"),
    Row("simg2img", "done", "fails", "status", "images of other partitions", "theirs joins them"),
    Row("simg2img simg2simg", "fails", "done", "status", "an image of no blocks", "theirs refuses it"),
    Row("simg2img simg2simg", "fails", "done", "status", "a chunk of no blocks", "theirs refuses it"),
    Row("simg2img simg2simg", "fails", "done", "status", "a CRC chunk that counts blocks", "theirs refuses it"),
    Row("simg2img img2simg mkbootimg", "done", "fails", "status", "an output that is an input", "theirs empties it"),
    Row("img2simg", "done", "fails", "status", "a block size above 65,536", "ours has blocks of up to 65,536 bytes"),
    Row("img2simg", "done", "fails", "status", "-s", "ours has no -s"),
    Row("img2simg", "done", "fails", "status", "a BLOCK that is not digits alone", "ours takes digits alone"),
    Row("simg2img", "done", "(done|fails)", "(status|file .*|standard output)", "a file named -",
        "ours is standard output"),
    Row("simg2img img2simg", "fails", "done", "status", "help", "theirs has none"),
    Row("mkbootimg", "done", "fails", "status", "a number below 0", "ours has none"),
    Row("mkbootimg", "done", "fails", "status", "standard input", "ours reads parts of files"),
    Row("mkbootimg", "fails", "done", "status", "a wrong value without a field", "ours does not look at it"),
    Row("mkbootimg", "fails", "done", "status", "a value that another replaces", "ours looks at the last one"),
    Row("mkbootimg", "fails", "done", "status", "a page size above 16,384", "ours has pages of up to 131,072 bytes"),
    Row("mkbootimg", "fails", "done", "status", "a text that begins with a hyphen", "ours takes it"),
    Row("mkbootimg", "fails", "done", "status", "the word --", "theirs refuses it"),
    Row("mkbootimg", "done", "done", "file .*", "help", "theirs has emptied outputs by then"),
    Row("mkbootimg", "done", "fails", "status", "an empty recovery DTBO", "theirs writes its offset"),
    Row("simg2simg", "no end", "(done|fails)", "status", "a MAX without room for a block", "theirs does not end"),
    Row("simg2simg", "done", "fails", "status", "a MAX without room for a block", "ours asks for room for any block"),
    Row("simg2simg", "done", "fails", "status", "a MAX below 56", "theirs takes such a MAX for 4 GiB"),
    Row("simg2simg", "done", "fails", "status", "a MAX of 4 GiB or more", "theirs takes its last 32 bits"),
    Row("simg2simg", "(done|no end)", "fails", "status", "a MAX that is not digits alone", "ours takes digits alone"),
    Row(BOTH, "done", "done", "standard output", "help", "our help has another text"),
    Row("unpack_bootimg", "done", "fails", "status", "a part past the end", "theirs writes parts that are cut off"),
    Row("unpack_bootimg", "done", "fails", "status", "a version that there is not", "theirs reads it"),
    Row("unpack_bootimg", "done", "fails", "status", "a page size that there is not", "theirs takes any"),
    Row("unpack_bootimg", "done", "fails", "status", "a table that is not of whole entries", "theirs reads it"),
    Row("unpack_bootimg", "done", "fails", "status", "a fragment past the vendor ramdisk", "theirs takes it"),
    Row("unpack_bootimg", "done", "fails", "status", "a name with a slash", "theirs makes a link elsewhere"),
    Row("unpack_bootimg", "done", "done", "file .*", "a recovery DTBO at another place", "ours has one order"),
    Row("unpack_bootimg", "done", "(done|fails)", ".*", "a header size of another version", "ours has its own"),
    Row("unpack_bootimg", "fails", "done", "status", "a text that is not UTF-8", "theirs breaks off there"),
)
OLD_ROWS = (
    Row("img2simg", "fails", "done", "status", "the word --", "Android 10's img2simg has no options"),
    Row("mkbootimg", "fails", "done", "status", "recovery", "Android 10's mkbootimg breaks off at a recovery DTBO"),
    Row("mkbootimg", "fails", "done", "status", "no kernel", "Android 10's mkbootimg needs a kernel"),
    Row("mkbootimg", "fails", "done", "status", "no dtb", "Android 10's mkbootimg needs a dtb in a vendor boot image"),
    Row("mkbootimg", "done", "(done|fails)", "(status|file .*)", "a long command line", "Android 10 has other limits"),
    Row("mkbootimg", "done", "fails", "status", "a board of 16 bytes", "Android 10 has other limits"),
    Row("unpack_bootimg", "done", "fails", "status", "no whole header", "Android 10's unpack_bootimg takes any magic"),
    Row("mkbootimg", "done", "done", r"(file (boot|vendor)\.img|standard output)", "version 3",
        "Android 10 writes another header_size"),
    Row("unpack_bootimg", "done", "done", "standard output", "", "Android 10's unpack_bootimg prints another text"),
)


def ends(answer):
    if answer.status == "no end":
        return "no end"
    return "done" if answer.status == 0 else "fails"


class Tools:
    """The tools of one side: in a folder, or behind words."""

    def __init__(self, where):
        if os.path.isdir(where):
            self.folder, self.before = os.path.abspath(where), []
        else:
            self.folder, self.before = "", shlex.split(where)
            if self.before and os.sep in self.before[0]:
                self.before[0] = os.path.abspath(self.before[0])

    def words(self, name):
        return [os.path.join(self.folder, name)] if self.folder else [*self.before, name]

    def has(self, name):
        return shutil.which(self.words(name)[0]) is not None

    def answer(self, call, room, seconds=SECONDS, turns=1):
        """How the tool answers a call in a new folder, which has just its files; `turns` against what is random."""
        shutil.rmtree(room, ignore_errors=True)
        os.makedirs(room)
        for name, data in call.files.items():
            write_files(os.path.join(room, os.path.dirname(name)), {os.path.basename(name): data})
        environment = {**os.environ, "LC_ALL": "C.UTF-8", "PYTHONDONTWRITEBYTECODE": "1"}
        words = [*self.words(call.name), *call.words]
        taken = os.path.join(room, call.stdin) if call.stdin else os.devnull
        with open(taken, "rb") as into, tempfile.TemporaryFile() as out:
            try:
                ran = subprocess.run(
                    words, cwd=room, env=environment, stdin=into, stdout=out, stderr=subprocess.PIPE, timeout=seconds)
                status, err = ran.returncode, ran.stderr
            except subprocess.TimeoutExpired as it:
                status, err = "no end", it.stderr or b""
            out.seek(0)
            if turns > 1 and err == AT_RANDOM:
                return self.answer(call, room, seconds, turns - 1)
            return Answer(status, out.read(), err, seen(room))


def laid(theirs, pieces):
    """The raw image that these pieces give, one after the other, by AOSP's simg2img; nothing where it refuses them."""
    order = sorted(pieces, key=lambda it: int(it.rpartition(".")[2]))
    with tempfile.TemporaryDirectory(prefix="compare-") as folder:
        call = Call("simg2img", [*order, "raw"], pieces, None, set(), set())
        got = theirs.answer(call, os.path.join(folder, "room"), turns=TURNS)
        return got.left["raw"] if pieces and got.status == 0 else None


def pieces_wrong(theirs, call, old, new):
    """What differs between the pieces of both sides, and the rest of what they left."""
    prefix, most = call.words[1], int(re.match(r"\s*[+-]?\d*", call.words[2])[0] or 0) % 2**32
    sides = []
    for it in (old, new):
        names = [name for name in it.left if re.fullmatch(re.escape(prefix) + r"\.\d+", name)]
        sides.append({name: it.left.pop(name)[1] for name in names if it.left[name][1] != call.files.get(name)})
    was, now = sides
    if set(now) != {f"{prefix}.{it}" for it in range(len(now))}:
        yield "pieces", [f"the pieces are {' '.join(sorted(now))}"]
    if len(now) > len(was):
        yield "number of pieces", [f"there are {len(now)} pieces, and {len(was)} of theirs"]
    if "a MAX" not in " ".join(call.peculiar) and any(len(it) > most for it in now.values()):
        yield "length of a piece", [f"a piece is above {most} bytes"]
    if len(now) <= 300 and laid(theirs, was) != laid(theirs, now):
        yield "raw image", ["the pieces give another raw image"]


def files_wrong(old, new):
    for path in sorted({*old.left, *new.left}):
        was, now = old.left.get(path), new.left.get(path)
        if was != now:
            yield f"file {path}", [it.replace("should be", "was") for it in difference(path, was, now)]


def refusal_wrong(call, old, new):
    """What is not so of a refusal of ours."""
    if new.status not in (1, 2) and (new.status, old.status) != (255, 255):
        yield "refusal", [f"the status is {new.status}"]
    if not new.err:
        yield "refusal", ["nothing is said"]
    # Where standard output is OUT, it has what comes before the fault of an image.
    is_output = call.name == "simg2img" and call.words[-1:] == ["-"]
    if new.out and new.out != old.out and not is_output:
        yield "refusal", [f"standard output has {new.out[:80]}"]
    for name in sorted(call.kept):
        if new.left.get(name) != ("file", call.files[name]):
            yield f"input {name}", [f"{name} was touched"]


def differences(theirs, call, old, new):
    """What differs between their answer and ours: what it is, and lines that tell it."""
    if ends(new) == "fails":
        yield from refusal_wrong(call, old, new)
    if ends(old) != ends(new):
        yield "status", [f"the status is {new.status} and was {old.status}", f"  ours said {new.err[-160:]}",
                         f"  theirs said {old.err[-160:]}"]
    elif new.status == 0:
        if old.out != new.out:
            yield from (("standard output", difference("standard output", ("file", old.out), ("file", new.out))),)
        if call.name == "simg2simg":
            yield from pieces_wrong(theirs, call, old, new)
        yield from files_wrong(old, new)


def row_of(rows, call, old, new, what):
    """The row that explains this difference, if one does."""
    for it in rows:
        is_so = call.name in it.names.split() and re.fullmatch(it.theirs, ends(old)) and re.fullmatch(it.ours, ends(new))
        if is_so and re.fullmatch(it.what, what) and (not it.peculiar or it.peculiar in call.peculiar):
            return it
    return None


def with_old(call):
    """The call, with what is peculiar for Android 10's tools."""
    found = set(call.peculiar)
    if any(it.startswith("--rec") for it in call.words):
        found.add("recovery")
    if not any(re.match("--kernel(=|$)", it) for it in call.words):
        found.add("no kernel")
    if not call.files.get("dtb") or not any(re.match("--dtb(=|$)", it) for it in call.words):
        found.add("no dtb")
    if any(re.match(r"(--hea\w*=)?\s*[+]?(3|0x0*3|0b11|0o3|0X3)\s*$", it) for it in call.words):
        found.add("version 3")
    if any(it.rpartition("=")[2] == 16 * "b" for it in call.words):
        found.add("a board of 16 bytes")
    return call._replace(peculiar=found)


def judged(words, theirs, ours, is_old, name, number):
    """Makes and runs one call: lines of what differs, and counts of what is explained, by the reason."""
    call = call_of(name, number, words.seed, not is_old)
    call = with_old(call) if is_old else call
    rows = (*ROWS, *OLD_ROWS) if is_old else ROWS
    seconds = SOON if "a MAX without room for a block" in call.peculiar else SECONDS
    with tempfile.TemporaryDirectory(prefix="compare-") as base:
        rooms = [os.path.join(base, it, "room") for it in ("theirs", "ours")]
        old, new = theirs.answer(call, rooms[0], seconds, TURNS), ours.answer(call, rooms[1], seconds)
        if words.keep:
            shutil.copytree(base, os.path.join(words.keep, f"{name}-{number}"), symlinks=True, dirs_exist_ok=True)
    told, counts = [], collections.Counter()
    for what, lines in differences(theirs, call, old, new):
        row = row_of(rows, call, old, new, what)
        if row:
            counts[f"{name}: {row.peculiar or what}: {row.reason}"] += 1
        else:
            told += [f"         {what}:", *(f"           {it}" for it in lines)]
    if told:
        again = f"again: --seed {words.seed} --run {name}:{number} --keep DIR"
        shown = re.sub(r"(.)\1{40,}", lambda it: f"{it[1]}..{len(it[0])}..", shlex.join([name, *call.words]))
        told = [f"DIFFERS  {shown}", *told, f"         peculiar: {', '.join(sorted(call.peculiar)) or 'nothing'}",
                f"         {again}"]
    return told, counts


def read_words():
    parser = argparse.ArgumentParser(description=__doc__, formatter_class=argparse.RawDescriptionHelpFormatter)
    parser.add_argument("ours", metavar="OURS")
    parser.add_argument("--theirs", metavar="DIR")
    parser.add_argument("--names", default=",".join(CALLS), metavar="NAME,..", help="of the tools; all if not given")
    parser.add_argument("--seed", type=int, default=1, metavar="N")
    parser.add_argument("--runs", type=int, default=300, metavar="N", help="of each tool; 300 if not given")
    parser.add_argument("--jobs", type=int, default=2, metavar="N")
    parser.add_argument("--run", metavar="NAME:N", help="one call alone")
    parser.add_argument("--keep", metavar="DIR", help="leave the folders that both ran in there")
    return parser.parse_args()


def is_android_10(theirs):
    ran = subprocess.run([*theirs.words("mkbootimg"), "--help"], stdout=subprocess.PIPE, stderr=subprocess.STDOUT)
    return b"--vendor_bootconfig" not in ran.stdout


def main():
    words = read_words()
    names = words.names.split(",")
    theirs, ours = Tools(words.theirs or os.path.dirname(shutil.which("mkbootimg") or "/none/x")), Tools(words.ours)
    lacking = [it for it in names if it not in CALLS or not ours.has(it)]
    if lacking:
        print(f"OURS has no {' '.join(lacking)}\n0 passed, 1 failed")
        return 1
    if not all(theirs.has(it) for it in (*names, "simg2img", "mkbootimg")):
        print("NOT RUN  there are no tools of AOSP\n0 passed, 0 failed")
        return 0
    is_old = is_android_10(theirs)
    calls = [(name, number) for name in names for number in range(words.runs)]
    if words.run:
        calls = [(words.run.split(":")[0], int(words.run.split(":")[1]))]
    explained, failed = collections.Counter(), 0
    with concurrent.futures.ThreadPoolExecutor(words.jobs) as lanes:
        for told, counts in lanes.map(lambda it: judged(words, theirs, ours, is_old, *it), calls):
            explained += counts
            failed += bool(told)
            print(*told, sep="\n", end="\n" if told else "", flush=True)
    for reason, count in sorted(explained.items()):
        print(f"{count:5} explained  {reason}")
    print(f"{len(calls) - failed} passed, {failed} failed")
    return 1 if failed else 0


if __name__ == "__main__":
    sys.exit(main())
