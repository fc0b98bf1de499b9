#!/usr/bin/env python3
"""Plants wrong bodies in copies of crates, with `rt plant`, and prints those that their contracts let through.

  tools/plant.py [--rt rt] [--at FOLDER] [--minutes N] [--only WORD] CRATE ..

Each crate is planted in a folder of its own below FOLDER, so that several runs may stand side by side, and nothing of this
tree is changed. The crates below it are proved first, or taken from what earlier checks on this machine proved. In that folder the remarks above the variants of enums
are left out: `rt plant` takes them for a part of the variant's name, and a body that returns such a variant does not
compile.

Each line `proves` is a contract to strengthen, or a body that is right; docs/DECISIONS.md says why of each that is
left.
"""
import argparse
import os
import re
import shutil
import subprocess
import sys
import tempfile

sys.dont_write_bytecode = True
from repository import HERE, copy_of, crate_at, crate_lines, with_below

ENUM = re.compile(r"\s*(pub(\([a-z]+\))? )?enum \w+")


def without_remarks(text):
    """The text of a file without the remarks within its enums."""
    kept, within = [], False
    for line in text.splitlines(keepends=True):
        within = (within or ENUM.match(line)) and not line.startswith("}")
        if not (within and line.strip().startswith("///")):
            kept.append(line)
    return "".join(kept)


def room_for(name, lines, uses, at):
    """A folder with this crate and all that it depends on."""
    room = os.path.join(at, name)
    shutil.rmtree(room, ignore_errors=True)
    copy_of(room, with_below([name], uses), lines)
    for folder, _, files in os.walk(os.path.join(crate_at(room, name), "src")):
        for file in files:
            path = os.path.join(folder, file)
            with open(path, encoding="utf-8") as source:
                text = source.read()
            if text != without_remarks(text):
                with open(path, "w", encoding="utf-8") as source:
                    source.write(without_remarks(text))
    return room


def main():
    parser = argparse.ArgumentParser(description="plants wrong bodies in copies of crates")
    parser.add_argument("--rt", default="rt")
    parser.add_argument("--at", default=os.path.join(tempfile.gettempdir(), "abootimg-plants"))
    parser.add_argument("--minutes", type=int, default=120, help="for one crate, after its first check")
    parser.add_argument("--only", default="", help="only functions whose file, line and path have this word")
    parser.add_argument("crates", nargs="+", metavar="CRATE")
    words = parser.parse_args()
    lines, uses = crate_lines()
    for name in words.crates:
        room = room_for(name, lines, uses, os.path.abspath(words.at))
        command = [words.rt, "plant", "--jobs", "1", "--max", "10000", "--minutes", str(words.minutes)]
        print(f"== {name}", flush=True)
        command += ["--only", words.only] if words.only else []
        done = subprocess.run(command, cwd=crate_at(room, name), check=False)
        if done.returncode:
            return done.returncode
        shutil.rmtree(room)
    return 0


if __name__ == "__main__":
    sys.exit(main())
