#!/usr/bin/env python3
"""Times `abootimg sparse` against img2simg, and `abootimg cut` against simg2simg, in one run and in turn.

  bench/cut.py [--program build/abootimg] [--folder FOLDER] [--mib 1024] [--rounds 5] [--only NAME]

The images, each of so many MiB in blocks of 4 KiB:

  mix      40 % raw, 30 % zero fill, 10 % other fill and 20 % don't care, in runs of 256 blocks (tools/make_sparse.py)
  random   random data, of which no block is fill
  zeros    zeros
  turns    a block of data and a block of zeros in turn: chunks of one block

`sparse` is compared with img2simg, which reads the same raw file, and `cut` with simg2simg, which reads the same sparse image.
Both make pieces of at most 64 MiB. `cut --raw` cuts the raw file, which takes img2simg and then simg2simg.

Each round runs each program once, each into files that are removed first, so that all of them pay for new pages. timing.py
says what is printed. FOLDER needs eight times the image's raw size; on /dev/shm no disk is measured.
"""
import glob
import os
import shutil
import subprocess
import sys

sys.dont_write_bytecode = True
from timing import BLOCK, FLOOR, MAKE, floor, in_turn, parser, peak, print_medians, print_ratio, require, same, work_folder

LIMIT = str(64 << 20)


def random_image(path, size):
    with open(path, "wb") as out:
        for _ in range(size >> 20):
            out.write(os.urandom(1 << 20))


def zeros_image(path, size):
    with open(path, "wb") as out:
        for _ in range(size >> 20):
            out.write(bytes(1 << 20))


def turns_image(path, size):
    data = bytes((i * 7 + i // 251) & 255 for i in range(BLOCK))
    with open(path, "wb") as out:
        for _ in range(size >> 20):
            out.write((data + bytes(BLOCK)) * ((1 << 20) // (2 * BLOCK)))


MAKERS = {"mix": None, "random": random_image, "zeros": zeros_image, "turns": turns_image}


def main():
    how = parser(__doc__)
    how.add_argument("--only", choices=MAKERS)
    words = how.parse_args()
    require("android-sdk-libsparse-utils", "img2simg", "simg2img", "simg2simg")
    for name, make in MAKERS.items():
        if words.only in (None, name):
            with work_folder(words.folder) as at:
                compare(words, name, make, at)


def make_images(words, make, raw, image):
    """The raw image, and the sparse image of it."""
    if make:
        make(raw, words.mib << 20)
        subprocess.run(["img2simg", raw, image, str(BLOCK)], check=True)
    else:
        subprocess.run([MAKE, image, "--mib", str(words.mib)], check=True)
        subprocess.run(["simg2img", image, raw], check=True)


def pieces_of(prefix):
    return sorted(glob.glob(glob.escape(prefix) + "*"), key=lambda path: int(path.rsplit(".", 1)[1]))


def remove(pattern):
    for path in glob.glob(glob.escape(pattern) + "*"):
        os.remove(path)


def check(raw, at):
    """What was written by one run of each: does it stand for the raw image?"""
    for name, files in (("sparse", [at("ours")]), ("cut", pieces_of(at("piece."))), ("cut --raw", pieces_of(at("other.")))):
        remove(at("back"))
        subprocess.run(["simg2img"] + files + [at("back")], check=True)
        print(f"  {name} joined by simg2img is the raw image:", "yes" if same(at("back"), raw) else "NO")
    remove(at("back"))


def compare(words, name, make, at):
    raw, image = at("raw"), at("image")
    make_images(words, make, raw, image)
    img2simg, simg2simg = shutil.which("img2simg"), shutil.which("simg2simg")
    moved = at("moved")
    both = f"{img2simg} {raw} {at('both')} {BLOCK} && {simg2simg} {at('both')} {at('both_piece')} {LIMIT}"
    # For each program: its words, what it writes, and what it is compared with.
    runs = {
        "sparse": ([words.program, "sparse", raw, at("ours")], at("ours"), "img2simg"),
        "img2simg": ([img2simg, raw, at("theirs"), str(BLOCK)], at("theirs"), None),
        "cut": ([words.program, "cut", image, LIMIT, at("piece")], at("piece."), "simg2simg"),
        "simg2simg": ([simg2simg, image, at("their_piece"), LIMIT], at("their_piece."), None),
        "cut --raw": (
            [words.program, "cut", raw, LIMIT, at("other"), "--raw", str(BLOCK)], at("other."), "img2simg, simg2simg"),
        "img2simg, simg2simg": ([shutil.which("sh"), "-c", both], at("both"), None),
        FLOOR + " to make it": (floor(read=[raw], copied=[(image, moved)]), moved, None),
        FLOOR + " to cut it": (floor(copied=[(image, moved)]), moved, None),
    }
    lines = {program: line for program, (line, _, _) in runs.items()}
    memory = {program: peak(line, at("peak")) for program, line in lines.items()}
    print(f"{name}: {words.mib} MiB, {words.rounds} rounds, in {at('')}")
    check(raw, at)
    print(f"  lengths: sparse {os.path.getsize(at('ours'))}, img2simg {os.path.getsize(at('theirs'))}")
    took = in_turn(lines, words.rounds, lambda program: remove(runs[program][1]))
    median = print_medians(took, memory)
    for program, (_, _, other) in runs.items():
        if other:
            print_ratio(median, program, other, f" of {name}")
            print_ratio(median, program, FLOOR + (" to cut it" if program == "cut" else " to make it"), f" of {name}")


if __name__ == "__main__":
    main()
