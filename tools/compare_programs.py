#!/usr/bin/env python3
"""Runs two built programs over the same random images, and compares status, what is printed and every file that is left.

  tools/compare_programs.py OLD NEW [--seed N] [--runs N] [--faults N] [--jobs N] [--mode MODE] [--run NAME] [--keep DIR]

OLD and NEW are paths of programs. Run I of a mode has the same images and the same shell line at every turn with this
seed. Images are on both sides of what the program asks for or holds at once: 256 bytes, 4 KiB, 8 KiB and 64 KiB. Many
are cut off or changed. Modes, of which --mode names one (each has --runs runs, and `faults` as many as --faults says):

  plain    every command, from and to files and pipes
  room     the same, with `ulimit -f` at a random limit, where the signal is ignored
  full     /dev/full as OUT, as PARTITION, as SPOOL or as standard output
  fifos    outputs are FIFOs
  changes  an IN gets shorter or longer at a moment that both programs have: once so much was read of a FIFO that is
           written, or while a sync or write is delayed (by strace)
  faults   a call of the system fails by strace, each kind of call of each file in turn. The programs make other calls,
           so what NEW answers must be one of OLD's answers where any call of that kind of that file fails so. It ends
           with status 0 only where all is written, and else with status 1 and a line; no input is touched, and no
           broken-off image has its magic

Each difference is printed with its shell line, and with the words that repeat it; --keep leaves what stood there before
in DIR, and but for faults what both left. What docs/DECISIONS.md explains stands in EXPLAINED, is counted and not
printed. The last line is 'N passed, M failed'. What needs strace is left out, and this is said, where there is none
that may trace.
"""
import argparse
import collections
import concurrent.futures
import hashlib
import os
import random
import re
import shutil
import signal
import struct
import subprocess
import sys
import tempfile

sys.dont_write_bytecode = True
HERE = os.path.dirname(os.path.dirname(os.path.abspath(__file__)))
sys.path.insert(0, os.path.join(HERE, "tests"))
from recipes import CRC32, FILL, RAW, SKIP
from run import difference, seen
from try_faults import CALL, may_trace

# What may differ, and why: a pattern of the mode and the line, one of what differs, as it is printed, and the reason, which
# docs/DECISIONS.md says. ("^faults ", "^answer: read of (x|y|spool) gives status 0$", "why") is one, say.
EXPLAINED = (
    (r"^faults", r"^answer: read of .* gives status 0$", "a read ahead that fails is made again for what was asked"),
    (r"^faults", r"^answer: fstat of .* gives status 0$", "an IN whose length is not told counts as it was"),
    (r"^changes ", r"^(status|stdout|stderr|file \S+)$", "an IN that was written is refused where a piece or the work ends"),
    (r"^changes .*\bexpand\b", r"^(stderr|file \w+)$", "IN ends where it ends now, and more of it may be laid"),
    (r"^changes .*\b(cut|flash)\b", r"^file (got\.p\.\d+|p\.\d+|spool)$", "more of a broken-off piece may be written"),
    (r"^room .*\bflash r part \d+ spool\b", r"^file spool$", "a raw piece that is not finished has no magic number in SPOOL"),
    (r"^changes .*\bflash r part \d+ spool\b", r"^(stderr|file part)$", "IN is refused up to a window before its new end"),
)
SECONDS = 60
MODES = ("plain", "room", "full", "fifos", "changes", "faults")
EDGES = (256, 4096, 8192, 65_536, 131_072)
FAMILIES = {"pread64": "read", "readv": "read", "preadv": "read", "pwrite64": "write", "writev": "write", "pwritev": "write",
            "newfstatat": "fstat", "statx": "fstat"}
CALLS = ("read", "write", "ftruncate", "fsync", "lseek", "fstat", "openat", "close", *FAMILIES)
ERRORS = {"read": ("EIO", "EINTR", None), "write": ("EIO", "ENOSPC", "EINTR"), "ftruncate": ("EIO", "ENOSPC", "EINTR")}
MAGIC = struct.pack("<I", 0xED26FF3A)
Answer = collections.namedtuple("Answer", "status out err left")


class Task:
    """One run of both programs: what stands there before, the shell line, and what the line writes."""

    def __init__(self, mode, number, line, files):
        self.mode = mode
        self.name = f"{mode}:{number}"
        self.line = line
        self.files = files


class Maker:
    """Makes images and lines, by chance alone."""

    def __init__(self, seed, run, mode):
        self.chance = random.Random(seed)
        self.run = run  # answers a line by OLD
        self.are_good = mode in ("changes", "faults")  # images are
        self.are_long = mode == "changes"  # they are above all thresholds
        self.block = self.one(4, 4, 8, 64, 1024, 4096, 4096, 4096, 4096, *(() if self.are_good else (8192, 65_536)))

    def one(self, *of):
        return self.chance.choice(of)

    def near(self, edge, most=12):
        return max(0, edge + self.chance.randint(-most, most))

    def word(self):
        return self.one(b"\0\0\0\0", b"\0\0\0\0", b"\xff\xff\xff\xff", self.chance.randbytes(4), b"ABCD")

    def data(self, size):
        """Bytes of which some are zeros, some equal words, and some only look so."""
        made = bytearray(self.one(self.chance.randbytes, self.chance.randbytes, bytes)(size))
        for _ in range(self.one(0, 0, 1, 3)):
            at, long = self.chance.randrange(size + 1), self.one(4, self.block, 4096, 65_536)
            made[at : at + long] = ((self.word() * (long // 4))[:long])[: max(0, size - at)]
        if size and self.one(True, False):
            made[self.chance.randrange(size)] ^= 1
        return bytes(made)

    def raw_blocks(self):
        """How many blocks a raw chunk has: at the edges of what is held or asked for, or few."""
        edge = self.one(4096, 4096, 65_536, 8192) // self.block + self.chance.randint(-2, 2)
        return min(max(1, self.one(1, self.chance.randint(1, 20), edge)), max(1, 200_000 // self.block))

    def chunk(self, kinds):
        kind = self.one(*kinds)
        count = self.one(1, 1, 1, 2, self.chance.randint(1, 20)) if kind != CRC32 else 0
        if kind == RAW:
            count = self.raw_blocks()
            return kind, count, self.data(count * self.block)
        return kind, count, self.word() if kind in (FILL, CRC32) else b""

    def chunks(self, like=None):
        """Chunks until the image is as long as an edge; of as many blocks as `like` where there is one."""
        kinds = self.one((FILL,), (FILL, SKIP), (RAW, FILL, SKIP), (RAW, FILL, SKIP, CRC32), (RAW,), (RAW, FILL))
        target, most = self.near(self.one(*EDGES), 40), self.one(5, 40, 400, 4000)
        made, size, blocks = [], 28, 0
        if self.are_long and like is None:
            target, blocks = self.one(0, 0, self.near(70_000, 4000), self.near(131_072)), -(-65_536 // self.block)
            made, size = [(RAW, blocks, self.chance.randbytes(blocks * self.block))], size + 12 + blocks * self.block
        while size < target and len(made) < most and blocks * self.block < 3_000_000:
            made.append(self.chunk(kinds))
            if like is not None and blocks + made[-1][1] > like:
                made[-1] = SKIP, like - blocks, b""
            size += 12 + len(made[-1][2])
            blocks += made[-1][1]
            if like is not None and blocks >= like:
                break
        if like is not None and blocks < like:
            made.append((SKIP, like - blocks, b""))
        elif self.are_long:
            made += [(FILL, 1, self.chance.randbytes(4)) for _ in range(self.chance.randint(9, 260))]
        return made

    def sparse(self, like=None):
        chunks = self.chunks(like)
        head, more = self.one(28, 28, 28, 32), self.one(0, 0, 0, 4, 300)
        blocks = sum(it[1] for it in chunks)
        sizes = head, 12 + more, self.block, blocks, len(chunks), 0
        made = [struct.pack("<IHHHHIIII", 0xED26FF3A, 1, 0, *sizes), bytes(head - 28)]
        for kind, count, data in chunks:
            made += [struct.pack("<HHII", kind, 0, count, 12 + more + len(data)), bytes(more), data]
        return b"".join(made), blocks

    def marred(self, image):
        """The image, mostly as it is; else cut off, longer, or with a byte that another stands for."""
        how = "" if self.are_good else self.one("", "", "", "", "cut", "longer", "byte", "head")
        if how == "cut":
            return image[: min(len(image), self.one(self.chance.randrange(len(image) + 1), self.near(self.one(*EDGES))))]
        if how == "longer":
            return image + self.chance.randbytes(self.one(1, 16, 5000, max(0, 65_536 - len(image))))
        if how and image:
            at = self.chance.randrange(min(len(image), 60 if how == "head" else len(image)))
            return image[:at] + bytes([self.one(0, 1, 255, image[at] ^ 1, image[at] ^ 128)]) + image[at + 1 :]
        return image

    def limit(self, files, words):
        """A LIMIT for what stands in files, so that there are not too many pieces; `words` cut it into one."""
        one = re.search(rb"bytes (\d+)", self.run(words, files).out)
        size, least = int(one[1]) if one else len(files[words.split()[2]]), 64 + self.block
        behind = size - self.chance.randint(1, 4200)  # a last piece of headers alone, perhaps
        if self.are_good:
            return max(self.near(self.one(size // 2, size // 3, size - size // 8, behind, behind), 80), least)
        near = self.one(least, 65_536, size, size // 2, size // 3, behind, 65_536 + self.block, least + 12)
        near = self.near(near, self.one(12, 80))
        return max(near, least - self.one(0, 0, 0, 1), size // 40)

    def partition(self, size):
        return self.chance.randbytes(max(0, size + self.one(0, 0, 0, 5000, -1, -self.block) * (not self.are_good)))

    def lines_of_sparse(self):
        """The files and the lines for a sparse image."""
        image, blocks = self.sparse()
        size, files = blocks * self.block, {"x": self.marred(image)}
        files["y"] = self.marred(self.sparse(blocks)[0])
        files["part"] = self.partition(size)
        limit, number = self.limit(files, f"abootimg cut x {2**32 - 1} q"), self.one(1, 1, 2, 2 if self.are_good else 9)
        return files, [
            "abootimg list x", "cat x | abootimg list -", "abootimg expand x out", "cat x | abootimg expand - out",
            "abootimg expand x - > out", "abootimg expand - - < x | cat > out", "abootimg expand x y out",
            "abootimg expand x y x out", f"abootimg cut x {limit} p", f"abootimg cut x {limit} p --sync",
            "abootimg flash x part", "cat x | abootimg flash - part", f"abootimg flash x part {limit} spool",
            f"abootimg flash x part {limit} spool", f"abootimg flash x part {limit} spool --from {number}",
            "abootimg verify x part", "abootimg flash x part; cat x | abootimg verify - part",
            f"abootimg cut x {limit} p; abootimg expand p.* out"]

    def lines_of_raw(self):
        """The files and the lines for a raw image."""
        size = self.near(self.one(*(() if self.are_long else EDGES), 65_536, 3 * 65_536, 500_000), 9)
        files = {"r": self.data(size), "part": self.partition(-(-size // self.block) * self.block)}
        block, number = self.block, self.one(1, 1, 2, 3)
        limit = self.limit(files, f"abootimg cut r {2**32 - 1} q --raw {block}")
        return files, [
            f"abootimg sparse r out --block {block}", f"abootimg sparse r - --block {block} | cat > out",
            f"abootimg sparse r out --sync --block {block}", f"abootimg cut r {limit} p --raw {block}",
            f"abootimg cut r {limit} p --raw {block}; abootimg expand p.* out", f"abootimg flash r part --raw {block}",
            f"abootimg flash r part {limit} spool --raw {block}",
            f"head -c {self.one(limit, size)} r > spool; abootimg flash r part {limit} spool --raw {block} --from {number}",
            f"abootimg flash r part {limit} spool --raw {block} --from {number}", f"abootimg verify r part --raw {block}",
            f"abootimg flash r part --raw {block}; abootimg verify r part --raw {block}"]

    def lines_of_boot(self):
        """The files and the lines for a boot image or a vendor boot image, which OLD packs."""
        files = {it: self.data(self.near(self.one(0, 100, 4096, 65_536))) for it in ("k", "rd", "dtb")}
        version = self.one(0, 1, 2, 3, 4, 5)
        words = f"--version {version} --kernel k --ramdisk rd" + (" --dtb dtb" if version == 2 else "")
        if version == 5:
            words = "--vendor --version 4 --dtb dtb --cmdline a=b --fragment platform:base:rd --fragment none::k"
        files["b"] = self.marred(self.run(f"abootimg pack {words} b", files).left["b"][1])
        part = self.one("--ramdisk k", "--cmdline 'a b'", "", "--keep-trailing") if version < 5 else "--keep-trailing"
        return files, [
            f"abootimg pack {words} out", f"abootimg pack {words} - > out", f"abootimg pack {words} - | cat > out",
            "abootimg info b --check", "abootimg info b --hex", "mkdir d; abootimg unpack b d --words",
            f"abootimg repack b out {part}", f"abootimg repack b - {part} | cat > out"]

    def files_and_line(self, only=""):
        """Files, and one line that matches this pattern."""
        while True:
            files, lines = self.one(self.lines_of_sparse, self.lines_of_sparse, self.lines_of_raw, self.lines_of_boot)()
            lines = [it for it in lines if re.search(only, it)]
            if lines:
                return files, self.one(*lines)


def with_fifos(line, names, between=""):
    """The line, where these are FIFOs that are read one after the other; what is done `between` stands behind the first."""
    first, *others = names
    rest = "".join(f" cat {it} > got.{it};" for it in others)
    opened = "; ".join(f": <> {it}" for it in names)
    return (f"mkfifo {' '.join(names)}; ({between or f'cat {first} > got.{first}'};{rest}) & {line}; s=$?; "
            f"while kill -0 $! 2> /dev/null; do {opened}; sleep .02; done; wait; exit $s")


def full_line(maker, line):
    """The line, where /dev/full is OUT, the partition, the spool or standard output."""
    if " out" in line and " p.*" not in line:
        return re.sub(r"(> | )out\b", r"\1/dev/full", line)
    if " spool" in line:
        return line.replace(" spool", " /dev/full")
    return line.replace(" part", " /dev/full") if " part" in line and maker.one(True, False) else f"({line}) > /dev/full"


def changed_line(maker, line, files, traces):
    """The line, while which an IN gets another length."""
    name = line.split()[2]
    size = len(files[name])
    some = maker.chance.randrange(size + 1)
    less = max(0, min(size, maker.one(100, some, some, size - 1, size - some % 3000, maker.near(65_536))))
    act = maker.one(*[f"truncate -s {less} {name}"] * 3, f"head -c 5000 /dev/zero >> {name}")
    if " cut " in line:
        pieces = [f"p.{it}" for it in range(1, 45)]
        some = maker.one(1, 1000, 60_000)
        begun = f"exec 3< p.1; head -c {some} <&3 > got.p.1; sleep .1; {act}; cat <&3 >> got.p.1; exec 3<&-"
        return with_fifos(line, pieces, maker.one(begun, f"cat p.1 > got.p.1; sleep .1; {act}"))
    if not traces:
        return line
    calls, path = ("fsync", "part") if " spool" in line else ("write,pwrite64,writev,pwritev", "out")
    turn = maker.one(1, 1, 2)
    how = f"strace -f -qqq -o $LOG -P $PWD/{path} -e trace={calls} -e inject={calls}:delay_enter=1000000:when={turn}"
    waits = f"until [ $(grep -c '(' $LOG) -ge {turn} ] || ! kill -0 $!; do sleep .01; done 2> /dev/null"
    return f"{how} {line} & {waits}; {act}; wait $!"


WANTED = {"full": r"^[^|]*(out|spool|part|list|info)[^|]*$",
          "room": r"^[^|]*$", "fifos": r"^[^|;]*((expand|sparse|pack|repack) .*out|cut )[^|;]*$",
          "changes": r"^abootimg (cut [^;]*|flash . part \d+ .*|expand x y .*)$", "faults": r"^abootimg [^;|]*$"}


def task_of(mode, number, seed, run, traces):
    """Run `number` of a mode."""
    maker = Maker(f"{seed} {mode} {number}", run, mode)
    files, line = maker.files_and_line(WANTED.get(mode, ""))
    if mode == "room":
        line = f"trap '' XFSZ; ulimit -f {maker.one(0, 1, 4, 8, 64, maker.chance.randrange(300))}; {line}"
    elif mode == "full":
        line = full_line(maker, line)
    elif mode == "fifos":
        if " cut " in line:
            line = with_fifos(line, [f"p.{it}" for it in range(1, 45)])
        else:
            line = with_fifos(line, ["out"])
    elif mode == "changes":
        line = changed_line(maker, line, files, traces)
    return Task(mode, number, line, files)


def write_files(folder, files):
    os.makedirs(folder, exist_ok=True)
    for name, data in files.items():
        with open(os.path.join(folder, name), "wb") as file:
            file.write(data)


class Program:
    """A program, and how it answers a line."""

    def __init__(self, path, folder):
        os.makedirs(folder)
        os.symlink(os.path.abspath(path), os.path.join(folder, "abootimg"))
        words = folder + os.pathsep + os.environ.get("PATH", "")
        self.environment = {**os.environ, "PATH": words, "LC_ALL": "C.UTF-8"}

    def answer(self, line, files, keep=None):
        """How it answers the line in a folder that has just these files; `keep` is where that folder stays."""
        with tempfile.TemporaryDirectory(prefix="compare-") as base:
            room = os.path.join(base, "room")
            write_files(room, files)
            log = os.path.join(base, "log")
            child = subprocess.Popen(
                ["bash", "-c", line], cwd=room, env={**self.environment, "LOG": log}, stdin=subprocess.DEVNULL,
                stdout=subprocess.PIPE, stderr=subprocess.PIPE, start_new_session=True)
            try:
                out, err = child.communicate(timeout=SECONDS)
                status = child.returncode
            except subprocess.TimeoutExpired:
                os.killpg(child.pid, signal.SIGKILL)
                out, err = child.communicate()
                status = "no end"
            if keep:
                shutil.copytree(room, keep, ignore=lambda at, names: [it for it in names if re.match(r"p\.|out$", it)
                                and not os.path.isfile(os.path.join(at, it))], dirs_exist_ok=True)
            self.traced = open(log, errors="replace").read().split("\n") if os.path.exists(log) else []
            return Answer(status, out, err, {name: summed(room, name, it) for name, it in seen(room).items()})


def summed(room, name, it):
    """What stands at a path, with a sum of its bytes where it is a large file, in place of its time."""
    if it[0] != "a large file":
        return it
    sum_of = hashlib.blake2b(digest_size=8)
    with open(os.path.join(room, name), "rb") as file:
        for part in iter(lambda: file.read(1 << 20), b""):
            sum_of.update(part)
    return it[0], it[1], sum_of.hexdigest()


def differences(old, new):
    """What differs between two answers: what it is, and lines that tell it."""
    if old.status != new.status:
        yield "status", [f"the status is {new.status} and was {old.status}"]
    for name in ("out", "err"):
        was, now = getattr(old, name), getattr(new, name)
        if was != now:
            tell = lambda it: it[-300:].decode("utf-8", "backslashreplace").rstrip("\n").replace("\n", " / ")
            yield f"std{name}", [f"std{name} is {tell(now)}", f"       was {tell(was)}"]
    for path in sorted({*old.left, *new.left}):
        was, now = old.left.get(path), new.left.get(path)
        if was != now:
            yield f"file {path}", [it.replace("should be", "was") for it in difference(path, was, now)]


def injected(line, call, number, error):
    """The line, with one call that fails, or without an error finds the end, as all later ones."""
    how = f"error={error}:when={number}" if error else f"retval=0:when={number}+"
    return line.replace("abootimg", f"strace -f -qqq -o /dev/null -e trace={call} -e inject={call}:{how} abootimg", 1)


class Faults:
    """A line of which each call fails in turn."""

    def __init__(self, task, old, new, seed):
        self.task = task
        self.old = old
        self.new = new
        self.chance = random.Random(seed)
        self.plain = old.answer(task.line, task.files)
        self.known = {}  # OLD's answers, by the line

    def calls(self, program):
        """The calls that the program makes: lists of (name, number), by their family and the path of their file."""
        trace = f"strace -f -qqq -y -o $LOG -e trace={','.join(CALLS)} abootimg"
        program.answer(self.task.line.replace("abootimg", trace, 1), self.task.files)
        found, counts = {}, collections.Counter()
        for it in filter(None, map(CALL.match, program.traced)):
            counts[it[1]] += 1
            opened = re.match(r'[^"]*"([^"]*)"', it[4])
            path = opened[1] if it[1] == "openat" and opened else re.sub(r".*/room/|:.*", "", it[3] or "")
            found.setdefault((FAMILIES.get(it[1], it[1]), path), []).append((it[1], counts[it[1]]))
        return found

    def answer_of_old(self, line):
        if line not in self.known:
            it = self.old.answer(line, self.task.files)
            self.known[line] = it.status, it.out, it.err
        return self.known[line]

    def wrong_of(self, line, new, lines_of_old, family, path):
        """What is not so of an answer of NEW where a call of this family and file failed: what it is, and lines."""
        is_stream = path == "pipe"  # of what is printed, or of what tells a refusal
        if new.status == 0 and not is_stream:
            yield from ((f"status 0 and {what}", lines) for what, lines in differences(self.plain, new))
        elif new.status not in (0, 1) or not new.err.startswith(b"abootimg: ") and not is_stream:
            yield "no refusal", [f"the status is {new.status}: {new.err[:200]}"]
        for name, was in self.task.files.items():
            if name != "part" and new.left.get(name) != ("file", was):
                yield f"input {name}", [f"{name} was touched"]
        for name, now in new.left.items():
            is_image = name.startswith("p.") or name == "out" and "sparse" in line
            if is_image and now != self.plain.left.get(name) and now[1][:4] == MAGIC:
                yield f"magic {name}", [f"{name} is broken off and has a magic"]
        told = new.status, new.out, new.err
        if lines_of_old and not any(told == self.answer_of_old(it) for it in lines_of_old):
            status, out, err = self.answer_of_old(lines_of_old[0])
            yield f"answer: {family} of {path} gives status {new.status}", [
                f"no call of OLD that fails so gives status {new.status}, {new.out[-80:]}, {new.err[:120]}",
                f"one gives {status}, {out[-80:]}, {err[:120]}"]

    def tried(self):
        """The lines that were tried, and what is not so of each."""
        of_old = self.calls(self.old)
        for (family, path), calls in self.calls(self.new).items():
            some = calls if len(calls) <= 12 else calls[:4] + self.chance.sample(calls[4:-4], 4) + calls[-4:]
            for error in ERRORS.get(family, ("EIO", "EINTR")):
                lines_of_old = [injected(self.task.line, *it, error) for it in of_old.get((family, path), ())]
                for at, call in enumerate(some):
                    line = injected(self.task.line, *call, error)
                    near = sorted(lines_of_old, key=lambda it: abs(lines_of_old.index(it) - at))
                    yield line, list(self.wrong_of(line, self.new.answer(line, self.task.files), near, family, path))


def is_explained(mode, line, what):
    return any(re.search(of, f"{mode} {line}") and re.search(differs, what) for of, differs, _ in EXPLAINED)


def judged(words, mode, number, folder, traces):
    """Makes and runs one task: lines of its differences, by what was tried, and how many were explained."""
    room = os.path.join(folder, f"{mode}{number}")
    old, new = programs = Program(words.old, os.path.join(room, "old")), Program(words.new, os.path.join(room, "new"))
    task = task_of(mode, number, words.seed, old.answer, traces)
    keep = words.keep and os.path.join(words.keep, task.name.replace(":", "-"))
    if keep:
        write_files(os.path.join(keep, "before"), task.files)
    if mode == "faults":
        tried = Faults(task, old, new, f"{words.seed} {number}").tried()
    else:
        keeps = [keep and os.path.join(keep, it) for it in ("old", "new")]
        both = [it.answer(task.line, task.files, keep) for it, keep in zip(programs, keeps)]
        tried = [(task.line, list(differences(*both)))]
    counts = collections.Counter()
    told = []
    for line, wrong in tried:
        open_ones = [it for it in wrong if not is_explained(mode, line, it[0])]
        counts["failed" if open_ones else "passed"] += 1
        counts["explained"] += len(wrong) - len(open_ones)
        if open_ones:
            told += [f"DIFFERS  {task.name}: {line}"]
            told += [f"         {text}" for what, lines in open_ones for text in (what + ":", *(f"  {it}" for it in lines))]
    if told:
        again = f"{words.old} {words.new} --seed {words.seed} --run {task.name} --keep DIR"
        told.append(f"         again: tools/compare_programs.py {again}")
    return told, counts


def read_words():
    parser = argparse.ArgumentParser(description=__doc__, formatter_class=argparse.RawDescriptionHelpFormatter)
    parser.add_argument("old", metavar="OLD")
    parser.add_argument("new", metavar="NEW")
    parser.add_argument("--seed", type=int, default=1, metavar="N")
    parser.add_argument("--runs", type=int, default=200, metavar="N", help="of each mode but faults; 200 if not given")
    parser.add_argument("--faults", type=int, default=6, metavar="N", help="lines whose calls fail; 6 if not given")
    parser.add_argument("--jobs", type=int, default=2, metavar="N")
    parser.add_argument("--mode", choices=MODES, action="append", help="this mode alone; may be given more than once")
    parser.add_argument("--run", metavar="NAME", help="one run alone, as MODE:NUMBER")
    parser.add_argument("--keep", metavar="DIR", help="leave the folders that both programs ran in there")
    return parser.parse_args()


def main():
    words = read_words()
    for it in (words.old, words.new):
        if not os.access(it, os.X_OK):
            print(f"there is no program {it}\n0 passed, 1 failed")
            return 1
    traces = may_trace()
    modes = [it for it in words.mode or MODES if traces or it != "faults"]
    if not traces:
        print("left out: faults, and changes while a sync is delayed; there is no strace that may trace")
    runs = [(mode, it) for mode in modes for it in range(words.faults if mode == "faults" else words.runs)]
    if words.run:
        runs = [(words.run.split(":")[0], int(words.run.split(":")[1]))]
    total = collections.Counter()
    with tempfile.TemporaryDirectory() as folder, concurrent.futures.ThreadPoolExecutor(words.jobs) as lanes:
        for told, counts in lanes.map(lambda it: judged(words, *it, folder, traces), runs):
            total += counts
            print(*told, sep="\n", end="\n" if told else "", flush=True)
    if total["explained"]:
        print(f"{total['explained']} differences are explained in docs/DECISIONS.md")
    print(f"{total['passed']} passed, {total['failed']} failed")
    return 1 if total["failed"] or not total["passed"] else 0


if __name__ == "__main__":
    sys.exit(main())
