#!/usr/bin/env python3
"""Proves and builds the program or the C library.

  tools/build.py [--rt rt] [--jobs N] [--target T] program|library OUT

All that it depends on is copied to a temporary folder, without its must-fail edits, and proved there by `rt ci`. What that
proves is kept on the machine by the checksums of all that was read: a second run, another clone and the gate take it from
there, and what the gate proved is taken here. Then the program or the library itself is proved and compiled over the proved
libraries, for x86-64 or for another target, and the program is linked (tools/link.sh).
"""
import argparse
import os
import re
import shutil
import subprocess
import sys
import tempfile
import time

sys.dont_write_bytecode = True
from repository import HERE, below, copy_of, crate_at, crate_lines, kit_of, lines_in

CRATES = {"program": "abootimg", "library": "abt_c"}
TOLD = re.compile(r"rt: (\w+) (proved|NOT PROVED|is kept)\b")
# What one process that proves may hold of memory, in KiB.
EACH = 3 << 20


def clock(seconds):
    return f"{int(seconds) // 60}:{int(seconds) % 60:02}"


class Progress:
    """Lines that say how far the proofs are, by their lines of code and of proofs."""

    def __init__(self, names):
        self.begun, self.done = time.monotonic(), 0
        self.lengths = {it: lines_in(HERE, it) for it in names}
        self.total = sum(self.lengths.values())
        self.line(f"proving {len(names)} crates, {self.total} lines of code and proofs")

    def line(self, text):
        print(f"[{100 * self.done // max(self.total, 1):3} %] {clock(time.monotonic() - self.begun):>5}  {text}", flush=True)

    def told(self, name, how):
        self.done += self.lengths.pop(name, 0)
        self.line(f"{name}: {'proved by an earlier run' if how == 'is kept' else how}")


def processes(jobs):
    """How many processes prove one crate: as many as are asked for, or as processors and memory allow."""
    with open("/proc/meminfo", encoding="ascii") as text:
        free = int(re.search(r"MemAvailable:\s+(\d+)", text.read())[1])
    return jobs or max(1, min(len(os.sched_getaffinity(0)), free // EACH, 4))


def prove(rt, root, names, jobs, last=()):
    """Has `rt ci` prove these crates in their folder, and shows how far it is. What it says is shown where it fails.

    The crates that come last are proved later, and counted.
    """
    progress, said = Progress([*names, *last]), []
    environment = {**os.environ, **({"RT_JOBS": str(jobs)} if jobs else {})}
    ran = subprocess.Popen(
        [rt, "ci"], cwd=root, env=environment, stdin=subprocess.DEVNULL, stdout=subprocess.PIPE, stderr=subprocess.STDOUT,
        text=True, errors="replace")
    for line in ran.stdout:
        said.append(line)
        found = TOLD.match(line)
        if found:
            progress.told(found[1], found[2])
    if ran.wait():
        print(*said, sep="", end="")
        sys.exit("not proved, as it says above")
    return progress


def compile_over(rt, root, name, lines, names, target, out, kept="", jobs=2):
    """Proves the program or static library over the libraries that were proved, and compiles it.

    With a folder `kept` it is proved once for all targets that are compiled with this folder.
    """
    kit, at = kit_of(rt), crate_at(root, name)
    rlib = {it: os.path.join(crate_at(root, it), "out", "rlib") for it in names if it != name}
    root_file = "src/main.rt" if os.path.isfile(os.path.join(at, "src/main.rt")) else "src/lib.rt"
    words = [os.path.join(kit, "bin/rattle"), "build", "--crate-name", name, root_file, "-L", f"dependency={kit}/rlibs"]
    for it in ["std", *lines[name].partition(":")[2].split()]:
        words += ["--extern", f"{it}={rlib[it]}/{it}.rlib" if it in rlib else f"{it}={kit}/rlibs/{it}.rlib"]
    for it in rlib.values():
        words += ["-L", f"dependency={it}"]
    words += ["--antt-project", f"{kit}/rattle/logic/antt-project.json", "--logic-built", f"{kit}/logic_built", "--jobs", str(jobs)]
    words += ["--links", f"{name}=", *(["--crate-type", "staticlib"] if root_file == "src/lib.rt" else [])]
    words += ["--target", target] if target else ["--backend", "llvm"]
    words += ["--incremental", kept] if kept else []
    os.makedirs(os.path.join(at, "out"), exist_ok=True)
    done = subprocess.run(
        [*words, "--toolchain", f"{kit}/toolchain", "-o", out], cwd=at, stdin=subprocess.DEVNULL, stdout=subprocess.PIPE,
        stderr=subprocess.STDOUT, text=True, errors="replace")
    if done.returncode or "logic=proved" not in done.stdout:
        sys.exit(done.stdout + f"{name}: not built, as it says above")


def build(words, root):
    """Proves in this folder, and leaves what was built as the words want it."""
    lines, uses = crate_lines()
    name = CRATES[words.kind]
    names = below(name, uses)
    copy_of(root, names, lines)
    progress = prove(words.rt, root, names, words.jobs, [name])
    copy_of(root, [*names, name], lines)
    out = os.path.abspath(words.out)
    os.makedirs(os.path.dirname(out), exist_ok=True)
    made = out if words.kind == "library" or words.target else os.path.join(crate_at(root, name), "out", f"{name}.o")
    compile_over(words.rt, root, name, lines, names, words.target, made, jobs=processes(words.jobs))
    progress.told(name, "proved and compiled")
    if made == out:
        return 0
    kit = kit_of(words.rt)
    subprocess.run(
        [f"{kit}/bin/rattle-link", "--target", "x86_64-unknown-linux-gnu", "--toolchain", f"{kit}/toolchain", "-o", made[:-2],
         made, f"{kit}/c/libos_c.a", f"{kit}/c/liblibc_c.a"], check=True)
    return subprocess.run([os.path.join(HERE, "tools/link.sh"), made, out, "--rt", words.rt], check=False).returncode


def main():
    parser = argparse.ArgumentParser(description=__doc__, formatter_class=argparse.RawDescriptionHelpFormatter)
    parser.add_argument("--rt", default=os.environ.get("RT", "rt"))
    parser.add_argument("--jobs", type=int, default=0, help="how many crates at once; without it, as processors and memory go")
    parser.add_argument("--target", default="", help="aarch64-unknown-linux-gnu, say; OUT is then the object file or the library")
    parser.add_argument("kind", choices=CRATES)
    parser.add_argument("out")
    words = parser.parse_args()
    if not shutil.which(words.rt):
        sys.exit(f"{words.rt} is not there: the Rattle toolchain's command must be on the path")
    with tempfile.TemporaryDirectory(prefix="abootimg-") as root:
        sys.exit(build(words, root))


if __name__ == "__main__":
    try:
        main()
    except KeyboardInterrupt:
        sys.exit(130)
