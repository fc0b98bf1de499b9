#!/usr/bin/env python3
"""Times `abootimg verify` against `cmp` of the expanded image and the partition, in one run and in turn.

  bench/verify.py [--program build/abootimg] [--folder FOLDER] [--mib 1024] [--rounds 7]

The image is 40 % raw, 30 % zero fill, 10 % other fill and 20 % don't care, in blocks of 4 KiB (tools/make_sparse.py). The
partition holds it over zeros, which is what `cmp` needs. Beside each other stand

  verify          `verify IN PARTITION`
  verify raw      `verify RAW PARTITION --raw 4096`, of the expanded image
  cmp             `cmp RAW PARTITION`

Each round runs each once, over files that the system holds in memory. timing.py says what is printed.
"""
import shutil
import subprocess
import sys

sys.dont_write_bytecode = True
from timing import BLOCK, FLOOR, LAY, MAKE, floor, in_turn, parser, peak, print_medians, print_ratio, work_folder


def main():
    words = parser(__doc__, rounds=7).parse_args()
    with work_folder(words.folder) as at:
        compare(words, at)


def compare(words, at):
    subprocess.run([MAKE, at("image"), "--mib", str(words.mib)], check=True)
    for name in ("raw", "partition"):
        with open(at(name), "wb") as out:
            out.truncate(words.mib << 20)
        subprocess.run([LAY, at("image"), at(name)], check=True)
    lines = {
        "verify": [words.program, "verify", at("image"), at("partition")],
        "verify raw": [words.program, "verify", at("raw"), at("partition"), "--raw", str(BLOCK)],
        "cmp": [shutil.which("cmp"), at("raw"), at("partition")],
        FLOOR + " of both": floor(read=[at("image"), at("partition")]),
        FLOOR + " of both, raw": floor(read=[at("raw"), at("partition")]),
    }
    memory = {name: peak(line, at("peak")) for name, line in lines.items()}
    took = in_turn(lines, words.rounds)
    print(f"{words.mib} MiB, {words.rounds} rounds, in {at('')}")
    median = print_medians(took, memory)
    for name, moved in (("verify", " of both"), ("verify raw", " of both, raw")):
        print_ratio(median, name, "cmp")
        print_ratio(median, name, FLOOR + moved)


if __name__ == "__main__":
    main()
