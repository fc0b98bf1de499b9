#!/usr/bin/env python3
"""Times classing each block of a raw image, against a C program and against reading alone, in one run and in turn.

  bench/classify/classify.py [--folder FOLDER] [--mib 1024] [--rounds 5] [--rt rt]

The program (main.rt.in) walks the image by `RawRuns::open` and `next_part`; the C program (classify.c, gcc -O3) reads 64 KiB
at a time and compares each block with itself one word on, by memcmp; reading alone is `dd bs=64k` into /dev/null. Blocks have
4 KiB. The four images are random bytes, zeros, a random block and a zero block in turn, and 1 MiB of random bytes and 1 MiB of
zeros in turn. All must count the same blocks. Printed are medians and their ratios: figures of two runs, or of two machines,
are not to be compared, ratios of one run are.

The program is proved and built in a temporary repository of its own, of copies of the crates that it depends on. It is no crate
of this repository, so its files have names that no check of this repository looks for.

One image is there at a time, in FOLDER, by default /dev/shm where there is room, so that no disk is measured.
"""
import argparse
import os
import random
import shutil
import statistics
import subprocess
import sys
import tempfile

HERE = os.path.dirname(os.path.abspath(__file__))
ROOT = os.path.dirname(os.path.dirname(HERE))
sys.dont_write_bytecode = True
sys.path.insert(0, os.path.dirname(HERE))
from timing import in_turn, timed

CRATES = ("abt_io", "sys_file", "sys_devices", "abt_sparse", "abt_runs")
BLOCK = 4096
MIB = 1 << 20


def assemble(root):
    """A repository of the crates that the program depends on, and of the program."""
    with open(os.path.join(ROOT, "crates.txt")) as text:
        lines = [line for line in text if line.split(":")[0] in CRATES]
    with open(os.path.join(root, "crates.txt"), "w") as text:
        text.writelines(lines + ["classify: " + " ".join(CRATES) + "\n"])
    with open(os.path.join(root, "HANDLES"), "w") as text:
        text.write("Handles allowed: none.\n")
    for crate in CRATES:
        # With `out`, where it is there: what was proved isn't proved again.
        shutil.copytree(os.path.join(ROOT, "crates", crate), os.path.join(root, "crates", crate))
    for name, place in (("main.rt.in", "src/main.rt"), ("Invariants.antt.in", "proofs/walk/Invariants.antt")):
        place = os.path.join(root, "crates/classify", place)
        os.makedirs(os.path.dirname(place))
        shutil.copy(os.path.join(HERE, name), place)


def build(words, work):
    """Builds both programs, and returns their paths."""
    root = os.path.join(work, "repository")
    os.mkdir(root)
    assemble(root)
    small = os.path.join(work, "small")
    with open(small, "wb") as image:
        image.write(bytes(BLOCK))
    folder = os.path.join(root, "crates/classify")
    subprocess.run([words.rt, "run", "--", small], cwd=folder, check=True)
    in_c = os.path.join(work, "classify_c")
    subprocess.run(["gcc", "-O3", "-o", in_c, os.path.join(HERE, "classify.c")], check=True)
    return os.path.join(folder, "out/classify"), in_c


def images():
    """Each image's name, and what makes the next MiB of it of a generator of random bytes."""
    zeros = bytes(MIB)

    def in_turn(source):
        blocks = MIB // BLOCK // 2
        return b"".join(source.randbytes(BLOCK) + zeros[:BLOCK] for _ in range(blocks))

    yield "random", [lambda source: source.randbytes(MIB)]
    yield "zeros", [lambda source: zeros]
    yield "4 KiB in turn", [in_turn]
    yield "1 MiB in turn", [lambda source: source.randbytes(MIB), lambda source: zeros]


def make(path, parts, mib):
    source = random.Random(1)
    with open(path, "wb") as image:
        for i in range(mib):
            image.write(parts[i % len(parts)](source))


def blocks_of(line):
    """The counts of raw and fill blocks, as a program has printed them."""
    fields = line.split()
    return fields[2:]


def compare(name, image, ours, in_c, rounds):
    runs = {
        "next_part": [ours, image],
        "C": [in_c, image],
        "dd": [shutil.which("dd"), "if=" + image, "of=/dev/null", "bs=64k"],
    }
    # One run of each that isn't counted.
    said = {key: subprocess.run(runs[key], check=True, capture_output=True, text=True).stdout for key in ("next_part", "C")}
    timed(runs["dd"])
    if blocks_of(said["next_part"]) != blocks_of(said["C"]):
        sys.exit(f"{name}: {said['next_part'].strip()}, but in C {said['C'].strip()}")
    seconds = in_turn(runs, rounds)
    median = {key: statistics.median(run[0] for run in took) for key, took in seconds.items()}
    print(f"{name:14} {said['next_part'].strip():38} {median['next_part']:9.3f} s {median['C']:7.3f} s {median['dd']:7.3f} s"
          f" {median['next_part'] / median['C']:7.2f} {median['next_part'] / median['dd']:7.2f}", flush=True)


def has_room(folder, size):
    """Whether a folder in memory takes so many bytes, and as many are left to programs."""
    try:
        room = os.statvfs(folder)
        with open("/proc/meminfo") as text:
            free = next(int(line.split()[1]) * 1024 for line in text if line.startswith("MemAvailable:"))
    except (OSError, StopIteration):
        return False
    return min(room.f_bavail * room.f_frsize, free) > 2 * size


def main():
    parser = argparse.ArgumentParser(description=__doc__, formatter_class=argparse.RawDescriptionHelpFormatter)
    parser.add_argument("--folder")
    parser.add_argument("--mib", type=int, default=1024)
    parser.add_argument("--rounds", type=int, default=5)
    parser.add_argument("--rt", default="rt")
    words = parser.parse_args()
    if not words.folder and has_room("/dev/shm", words.mib * MIB):
        words.folder = "/dev/shm"
    work = tempfile.mkdtemp()
    place = tempfile.mkdtemp(dir=words.folder)
    try:
        ours, in_c = build(words, work)
        print(f"{words.mib} MiB, medians of {words.rounds} rounds, in {words.folder or 'the folder of temporary files'}")
        print(f"{'image':14} {'what next_part found':38} {'next_part':>11} {'C':>9} {'dd':>9} {'to C':>7} {'to dd':>7}")
        for name, parts in images():
            image = os.path.join(place, "image")
            make(image, parts, words.mib)
            compare(name, image, ours, in_c, words.rounds)
            os.remove(image)
    finally:
        shutil.rmtree(work)
        shutil.rmtree(place)


if __name__ == "__main__":
    main()
