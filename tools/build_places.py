#!/usr/bin/env python3
"""Builds what runs elsewhere than on x86-64, from the same crates and the same proofs:

  tools/build_places.py WHAT OUT [WHAT OUT ..]

  wasm        the C library as a WebAssembly module
  library     the C library for ARM64
  program     the program for ARM64

All is proved in a temporary folder, as tools/build.py does it, and compiled for each target; the list of crates stays as
it is. The toolchain links for x86-64 and WebAssembly, so the program for ARM64 is linked by aarch64-linux-gnu-gcc
(Debian: gcc-aarch64-linux-gnu and libc6-dev-arm64-cross; $AARCH64_CC names another) with tools/arm64/support.c.
"""
import argparse
import os
import shutil
import subprocess
import sys
import tempfile

sys.dont_write_bytecode = True
from build import CRATES, compile_over, prove
from repository import HERE, copy_of, crate_lines, kit_of, with_below

ARM64, WASM = "aarch64-unknown-linux-gnu", "wasm64-unknown-unknown"
LINKER = os.environ.get("AARCH64_CC", "aarch64-linux-gnu-gcc")
SUPPORT = os.path.join(HERE, "tools", "arm64", "support.c")


class Places:
    """A folder with the proved crates, and what is compiled over them."""

    def __init__(self, rt, jobs, root, kinds):
        self.rt, self.root = rt, root
        self.lines, self.uses = crate_lines()
        names = with_below([CRATES[it] for it in kinds], self.uses)
        copy_of(root, names, self.lines)
        prove(rt, root, names, jobs)

    def compiled(self, kind, target):
        """What the program or the library is compiled to for a target: the path of an object file or an archive."""
        name = CRATES[kind]
        made = os.path.join(self.root, f"{name}.{target}{'.o' if kind == 'program' else '.a'}")
        kept = os.path.join(self.root, f"{name}.kept")  # what one target's check proved the next one's takes
        compile_over(self.rt, self.root, name, self.lines, with_below([name], self.uses), target, made, kept)
        return made

    def wasm(self, out):
        kit = kit_of(self.rt)
        link = [f"{kit}/bin/rattle-link", "--target", WASM, "--toolchain", f"{kit}/toolchain"]
        subprocess.run([*link, "-o", out, self.compiled("library", WASM)], check=True)

    def library(self, out):
        shutil.copy(self.compiled("library", ARM64), out)

    def program(self, out):
        if not shutil.which(LINKER):
            sys.exit(f"there is no {LINKER} (Debian: gcc-aarch64-linux-gnu, libc6-dev-arm64-cross)")
        flags = ["-O2", "-Wall", "-Wextra", "-Werror", "-static", "-Wl,--gc-sections", "-Wl,-z,noexecstack", "-s"]
        subprocess.run([LINKER, *flags, "-o", out, self.compiled("program", ARM64), SUPPORT], check=True)


KINDS = {"wasm": "library", "library": "library", "program": "program"}


def main():
    parser = argparse.ArgumentParser(description=__doc__, formatter_class=argparse.RawDescriptionHelpFormatter)
    parser.add_argument("--rt", default=os.environ.get("RT", "rt"))
    parser.add_argument("--jobs", type=int, default=0)
    parser.add_argument("pairs", nargs="+", metavar="WHAT OUT")
    words = parser.parse_args()
    wanted = list(zip(words.pairs[::2], map(os.path.abspath, words.pairs[1::2])))
    if len(words.pairs) % 2 or any(what not in KINDS for what, _ in wanted):
        parser.error("give pairs of WHAT and OUT")
    with tempfile.TemporaryDirectory(prefix="abootimg-") as root:
        try:
            places = Places(words.rt, words.jobs, root, sorted({KINDS[what] for what, _ in wanted}))
            for what, out in wanted:
                os.makedirs(os.path.dirname(out), exist_ok=True)
                getattr(places, what)(out)
        except subprocess.CalledProcessError as failed:
            sys.exit(failed.returncode)


if __name__ == "__main__":
    main()
