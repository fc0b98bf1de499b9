#!/usr/bin/env python3
"""Times `abootimg pack`, `unpack` and `info` against AOSP's mkbootimg and unpack_bootimg, in one run and in turn.

  bench/boot.py [--program build/abootimg] [--folder FOLDER] [--mib 64] [--rounds 7]

The kernel and the ramdisk have --mib MiB each. Boot version 0 has an id, the SHA-1 of all parts, which packing hashes as it
writes them, and `info` computes the id again; version 3 has none. Each round runs each program once, and what a program writes
is removed before, so that all of them pay for new pages. timing.py says what is printed. FOLDER needs fifteen times --mib; on
/dev/shm no disk is measured.
"""
import os
import shutil
import struct
import subprocess
import sys

sys.dont_write_bytecode = True
from timing import FLOOR, floor, in_turn, parser, peak, print_medians, print_ratio, require, same, work_folder

VERSIONS = ("0", "3")


def main():
    words = parser(__doc__, mib=64, rounds=7).parse_args()
    require("mkbootimg", "mkbootimg", "unpack_bootimg")
    with work_folder(words.folder) as at:
        compare(words, at)


def write_part(path, mib, seed):
    """The same bytes at every run, no two blocks of 64 KiB alike."""
    block = bytes((i * seed + i // 251) & 255 for i in range(65536))
    with open(path, "wb") as part:
        for index in range(mib * 16):
            part.write(struct.pack("<I", index) + block[4:])


def prepared(out):
    """Removes what a program writes; a folder of parts is made anew."""
    if out and os.path.isdir(out):
        shutil.rmtree(out)
    elif out and os.path.exists(out):
        os.remove(out)
    if out and out.endswith("_parts"):
        os.mkdir(out)


def jobs_of(program, at):
    """For each job of ours and of theirs: its words, and what it writes."""
    mkbootimg, unpack_bootimg = shutil.which("mkbootimg"), shutil.which("unpack_bootimg")
    parts = ["--kernel", at("kernel"), "--ramdisk", at("ramdisk")]
    no_base = ["--base", "0", "--kernel_offset", "0", "--ramdisk_offset", "0", "--tags_offset", "0"]
    jobs = {}
    for version in VERSIONS:
        jobs[f"pack boot {version}"] = (
            [program, "pack", "--version", version, "--page", "2048", *parts, at("ours" + version)], at("ours" + version))
        jobs[f"mkbootimg {version}"] = (
            [mkbootimg, "--header_version", version, "--pagesize", "2048", *no_base, *parts, "--output", at("theirs" + version)],
            at("theirs" + version))
    jobs[FLOOR] = (floor(copied=zip((at("kernel"), at("ramdisk")), (at("moved"), at("moved_too")))), at("moved_too"))
    for version in VERSIONS:
        image = at("image" + version)
        jobs[f"unpack boot {version}"] = ([program, "unpack", image, at("our_parts")], at("our_parts"))
        jobs[f"info boot {version}"] = ([program, "info", image], None)
        jobs[f"unpack_bootimg {version}"] = ([unpack_bootimg, "--boot_img", image, "--out", at("their_parts")], at("their_parts"))
    return jobs


def compare(words, at):
    write_part(at("kernel"), words.mib, 7)
    write_part(at("ramdisk"), words.mib, 11)
    jobs = jobs_of(words.program, at)
    for version in VERSIONS:
        subprocess.run(jobs[f"mkbootimg {version}"][0], check=True, stdout=subprocess.DEVNULL)
        os.rename(at("theirs" + version), at("image" + version))
    memory = {}
    # One run of each that isn't counted: for its memory, and for what it writes.
    for name, (line, out) in jobs.items():
        prepared(out)
        memory[name] = peak(line, at("peak"))
        if name.startswith("unpack boot"):
            whole = all(same(at("our_parts/" + part), at(part)) for part in ("kernel", "ramdisk"))
            print(f"{name} gives the parts:", "yes" if whole else "NO")
    print("the same boot 0 image as mkbootimg:", "yes" if same(at("ours0"), at("theirs0")) else "NO")
    took = in_turn({name: line for name, (line, _) in jobs.items()}, words.rounds, lambda name: prepared(jobs[name][1]))
    print(f"kernel and ramdisk of {words.mib} MiB each, {words.rounds} rounds, in {at('')}")
    median = print_medians(took, memory)
    for version in VERSIONS:
        print_ratio(median, f"pack boot {version}", f"mkbootimg {version}")
        print_ratio(median, f"pack boot {version}", FLOOR)
        for name in ("unpack", "info"):
            print_ratio(median, f"{name} boot {version}", f"unpack_bootimg {version}")
        print_ratio(median, f"unpack boot {version}", FLOOR)


if __name__ == "__main__":
    main()
