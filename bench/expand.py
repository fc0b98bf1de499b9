#!/usr/bin/env python3
"""Times `abootimg expand` and `abootimg list` against simg2img, simg_dump and `dd bs=64k`, in one run and in turn.

  bench/expand.py [--program build/abootimg] [--folder FOLDER] [--mib 1024] [--rounds 7] [--chunks 3000000]

The image is 40 % raw, 30 % zero fill, 10 % other fill and 20 % don't care, written by tools/make_sparse.py; beside it stands
one of --chunks chunks of one 4-byte block each. Each round runs each program once, each into a file that is removed first, so
that all of them pay for new pages. timing.py says what is printed. FOLDER needs four times the image's raw size; on /dev/shm
no disk is measured.
"""
import os
import shutil
import subprocess
import sys

sys.dont_write_bytecode = True
from timing import FLOOR, MAKE, floor, in_turn, parser, peak, print_medians, print_ratio, same, work_folder


def main():
    how = parser(__doc__, rounds=7)
    how.add_argument("--chunks", type=int, default=3000000)
    words = how.parse_args()
    with work_folder(words.folder) as at:
        compare(words, at)


def compare(words, at):
    subprocess.run([MAKE, at("image"), "--mib", str(words.mib)], check=True)
    subprocess.run([MAKE, at("many"), "--block", "4", "--chunks", str(words.chunks)], check=True)
    # For each program: its words, and what it writes.
    runs = {
        "expand": ([words.program, "expand", at("image"), at("ours")], at("ours")),
        "list": ([words.program, "list", at("image")], None),
        "expand of many chunks": ([words.program, "expand", at("many"), at("our_many")], at("our_many")),
        "list of many chunks": ([words.program, "list", at("many")], None),
        "dd of the raw image, bs=64k": (
            [shutil.which("dd"), "if=" + at("raw"), "of=" + at("copy"), "bs=64k"], at("copy")),
        FLOOR: (floor(copied=[(at("image"), at("moved"))]), at("moved")),
    }
    simg2img = shutil.which("simg2img")
    if simg2img:
        runs["simg2img"] = ([simg2img, at("image"), at("theirs")], at("theirs"))
        runs["simg2img of many chunks"] = ([simg2img, at("many"), at("their_many")], at("their_many"))
    simg_dump = shutil.which("simg_dump")
    if simg_dump:
        runs["simg_dump"] = ([simg_dump, at("image")], None)
    # The raw image for dd, and one run of each that isn't counted.
    subprocess.run([words.program, "expand", at("image"), at("raw")], check=True, stdout=subprocess.DEVNULL)
    lines = {name: line for name, (line, _) in runs.items()}
    memory = {name: peak(line, at("peak")) for name, line in lines.items()}
    if simg2img:
        alike = same(at("raw"), at("theirs")) and same(at("our_many"), at("their_many"))
        print("the same bytes as simg2img:", "yes" if alike else "NO")

    def remove(name):
        out = runs[name][1]
        if out and os.path.exists(out):
            os.remove(out)

    took = in_turn(lines, words.rounds, remove)
    print(f"{words.mib} MiB, and {words.chunks} chunks, {words.rounds} rounds, in {at('')}")
    median = print_medians(took, memory)
    for name, others in (
            ("expand", ("simg2img", FLOOR, "dd of the raw image, bs=64k")), ("list", ("simg2img", "simg_dump", FLOOR)),
            ("expand of many chunks", ("simg2img of many chunks",)), ("list of many chunks", ("simg2img of many chunks",))):
        for other in others:
            if other in median:
                print_ratio(median, name, other)


if __name__ == "__main__":
    main()
