#!/usr/bin/env python3
"""Proves a crate from nothing in a copy, with one job, and prints its seconds by function and by file, dearest first.

  tools/cost.py [--rt rt] NAME [--most N]

The crates below it are proved first, or taken from what earlier checks on this machine proved. Of the crate itself nothing
that they kept is taken: `rt check` would begin with it, so the kit's `rattle check` is called, over an empty folder. It names
each function as it ends: the time since the line before is its own, but for the first, which has the reading of all
definitions. Where fewer are named than the crate has, the last line says that this was not from nothing, and the status is 1.
The seconds are those of the clock, so let nothing else run; the last line has those of the processor too.
"""
import argparse
import collections
import os
import re
import resource
import subprocess
import sys
import tempfile
import time

sys.dont_write_bytecode = True
from repository import copy_of, crate_at, crate_lines, kit_of, with_below


def checked(rt, name, root):
    """Proves the crate in this folder.

    Answers the seconds of each function and of each file, how many functions it has, the processor's seconds, and the status.
    """
    lines, uses = crate_lines()
    names = with_below([name], uses)
    copy_of(root, names, lines)
    for it in names[:-1]:
        subprocess.run([rt, "lib"], cwd=crate_at(root, it), stdout=subprocess.DEVNULL, stderr=subprocess.DEVNULL, check=True)
    kit, rlib = kit_of(rt), lambda it: os.path.join(crate_at(root, it), "out", "rlib")
    is_program = os.path.isfile(os.path.join(crate_at(root, name), "src", "main.rt"))
    asked = ["--crate-name", name, "src/main.rt" if is_program else "src/lib.rt"]
    for it in ["std", *(it for it in lines[name].partition(":")[2].split() if it not in lines)]:
        asked += ["--extern", f"{it}={kit}/rlibs/{it}.rlib"]
    for it in uses[name]:
        asked += ["--extern", f"{it}={rlib(it)}/{it}.rlib"]
    for it in [f"{kit}/rlibs", *map(rlib, names[:-1])]:
        asked += ["-L", f"dependency={it}"]
    if "staticlib" in lines[name].partition(":")[0].split():
        asked += ["--crate-type", "staticlib"]
    asked += ["--antt-project", f"{kit}/rattle/logic/antt-project.json", "--logic-built", f"{kit}/logic_built"]
    asked += ["--incremental", os.path.join(root, "work"), "--jobs", "1", "--progress"]
    before = resource.getrusage(resource.RUSAGE_CHILDREN)
    ran = subprocess.Popen(
        [f"{kit}/bin/rattle", "check", *asked], cwd=crate_at(root, name), stdout=subprocess.PIPE, stderr=subprocess.STDOUT,
        text=True, errors="replace")
    spent, files, last, has = [], collections.Counter(), time.monotonic(), 0
    for line in ran.stdout:
        now = time.monotonic()
        found = re.match(r"checked (\S+?),? ", line)
        if found:
            spent.append((now - last, found[1]))
            files["::".join(found[1].split("::")[1:2])] += now - last
        elif "error" in line:
            print(line.rstrip())
        of = re.match(r"(?:checked \S+ \d+ of|so far: \d+ of|logic=proved functions=) ?(\d+)", line)
        has = int(of[1]) if of else has
        last = now
    status = ran.wait()
    after = resource.getrusage(resource.RUSAGE_CHILDREN)
    processor = after.ru_utime + after.ru_stime - before.ru_utime - before.ru_stime
    return spent, files, has, processor, status


def main():
    parser = argparse.ArgumentParser(description=__doc__, formatter_class=argparse.RawDescriptionHelpFormatter)
    parser.add_argument("--rt", default=os.environ.get("RT", "rt"))
    parser.add_argument("--most", type=int, default=40, help="how many functions are shown")
    parser.add_argument("name")
    words = parser.parse_args()
    with tempfile.TemporaryDirectory(prefix="abootimg-cost-") as root:
        spent, files, has, processor, status = checked(words.rt, words.name, root)
    for seconds, name in sorted(spent, reverse=True)[: words.most]:
        print(f"{seconds:7.1f}  {name}")
    print()
    for name, seconds in files.most_common():
        print(f"{seconds:7.0f}  {name}")
    seconds = f"{sum(it for it, _ in spent):.0f} seconds, {processor:.0f} of the processor"
    if len(spent) < has:
        print(f"{words.name}: NOT from nothing: {len(spent)} of {has} functions were proved, {seconds}")
        return status or 1
    print(f"{words.name}: {len(spent)} functions, {seconds}")
    return status


if __name__ == "__main__":
    sys.exit(main())
