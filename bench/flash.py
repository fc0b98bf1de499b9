#!/usr/bin/env python3
"""Times `abootimg flash` against `dd` of the expanded bytes, in one run and in turn.

  bench/flash.py [--program build/abootimg] [--folder FOLDER] [--mib 1024] [--rounds 5] [--limit MIB]

The image is 40 % raw, 30 % zero fill, 10 % other fill and 20 % don't care, in blocks of 4 KiB (tools/make_sparse.py). The
partition is a file of as many bytes, full of ones, whose pages are all there. Beside each other stand

  flash           `flash IN PARTITION`: straight to the partition, and a sync at the end
  flash in pieces `flash IN PARTITION LIMIT SPOOL`: pieces of at most --limit MiB (128), each synced
  flash raw       both with --raw 4096, of the expanded image
  dd              `dd bs=1M conv=fsync,notrunc` of the expanded image to the partition: what writing alone costs
  simg2img, dd    expanding to a file first, and then the dd, which is what these replace

timing.py says what is printed. What is on the partition after each is compared with the image over what was there: `dd`
and raw flashing write zeros for don't care, the others keep what was there. FOLDER needs five times the image's raw size; on
/dev/shm no disk is measured, and a sync costs nothing.
"""
import os
import shutil
import subprocess
import sys

sys.dont_write_bytecode = True
from timing import BLOCK, LAY, MAKE, in_turn, parser, peak, print_medians, print_ratio, same, timed, work_folder


def ones(path, mib):
    with open(path, "wb") as out:
        for _ in range(mib):
            out.write(b"\xff" * (1 << 20))
        out.flush()
        os.fsync(out.fileno())


def main():
    how = parser(__doc__)
    how.add_argument("--limit", type=int, default=128)
    words = how.parse_args()
    with work_folder(words.folder) as at:
        compare(words, at)


def expected(words, at):
    """What the partition must hold: the image over ones, and over zeros."""
    ones(at("over"), words.mib)
    subprocess.run([LAY, at("image"), at("over")], check=True)
    with open(at("zeros"), "wb") as out:
        out.truncate(words.mib << 20)
    subprocess.run([LAY, at("image"), at("zeros")], check=True)


def compare(words, at):
    subprocess.run([MAKE, at("image"), "--mib", str(words.mib)], check=True)
    expected(words, at)
    limit, program = str(words.limit << 20), words.program
    dd = [shutil.which("dd"), "if=" + at("zeros"), "of=" + at("partition"), "bs=1M", "conv=fsync,notrunc", "status=none"]
    # For each program: its words, and what the partition holds then.
    runs = {
        "flash": ([program, "flash", at("image"), at("partition")], at("over")),
        "flash in pieces": ([program, "flash", at("image"), at("partition"), limit, at("spool")], at("over")),
        "flash raw": ([program, "flash", at("zeros"), at("partition"), "--raw", str(BLOCK)], at("zeros")),
        "flash raw in pieces": (
            [program, "flash", at("zeros"), at("partition"), limit, at("spool"), "--raw", str(BLOCK)], at("zeros")),
        "dd": (dd, at("zeros")),
    }
    if shutil.which("simg2img"):
        both = f"rm -f {at('raw')} && simg2img {at('image')} {at('raw')} && {' '.join(dd).replace(at('zeros'), at('raw'))}"
        runs["simg2img, dd"] = ([shutil.which("sh"), "-c", both], at("zeros"))
    memory = {}
    for name, (line, wanted) in runs.items():
        ones(at("partition"), words.mib)
        memory[name] = peak(line, at("peak"))
        ones(at("partition"), words.mib)
        timed(line)
        if not same(at("partition"), wanted):
            print(f"  {name}: the partition does NOT hold what it should")
    # No round pays for what another one left to be written.
    took = in_turn({name: line for name, (line, _) in runs.items()}, words.rounds, lambda name: os.sync())
    print(f"{words.mib} MiB, pieces of {words.limit} MiB, {words.rounds} rounds, in {at('')}")
    median = print_medians(took, memory)
    for name in ("flash", "flash in pieces", "flash raw", "flash raw in pieces"):
        for other in median:
            if not other.startswith("flash"):
                print_ratio(median, name, other)


if __name__ == "__main__":
    main()
