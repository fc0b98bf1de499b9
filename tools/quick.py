#!/usr/bin/env python3
"""A look at everything without a proof: what compiles, runs and passes its tests, in some minutes.

  tools/quick.py [--rt rt] [--first]      --first: the program's main job alone

The program runs its main job, and each crate of tests its tests, by `rt try`: compiled with checks for indexes, sums that
wrap and bad accesses, side by side, one a processor. Scripts that need nothing built hold documents and edits to the code.
NOTHING IS PROVED by this; `make` and `make test` prove. The last line is 'N passed, M failed'.
"""
import argparse
import os
import re
import subprocess
import sys
from concurrent.futures import ThreadPoolExecutor

sys.dont_write_bytecode = True
from repository import HERE, crate_at, crate_lines

SCRIPTS = (
    ("tools/check_claims.py",), ("tools/check_weight.py",), ("tools/check_prose.py",), ("tools/edits.py", "--check"),
    ("tools/make_completions.py", "--check"))
LAST = re.compile(r"(?:[\w ]+: )?(\d+) passed, (\d+) failed")
TESTED = re.compile(r"test result: \w+\. (\d+) passed; (\d+) failed")
WRONG = re.compile(r"error|FAILED|failed|panicked|NOT SO|fault")


def ran(words, folder):
    done = subprocess.run(
        words, cwd=folder, stdin=subprocess.DEVNULL, stdout=subprocess.PIPE, stderr=subprocess.STDOUT, text=True, errors="replace")
    return done.returncode, done.stdout


def told(name, passed, failed, said):
    """Prints what came of it, with the lines that say what is wrong, and returns the counts."""
    print(f"{name}: {passed} passed, {failed} failed", flush=True)
    if failed:
        print("\n".join([it for it in said.splitlines() if WRONG.search(it)][:30] or said.splitlines()[-30:]), flush=True)
    return passed, failed


def first_look(rt):
    """Runs the program's main job."""
    with open(os.path.join(crate_at(HERE, "abootimg"), "stdout"), encoding="utf-8") as text:
        wanted = text.read()
    status, said = ran([rt, "try", "abootimg"], crate_at(HERE, "abootimg"))
    is_right = status == 0 and wanted in said
    if is_right:
        print(f"{wanted}(this run of the program was NOT PROVED: it was compiled with checks alone)", flush=True)
    return told("abootimg, not proved", int(is_right), int(not is_right), said)


def tests_of(rt, name):
    """Runs the tests of a crate."""
    status, said = ran([rt, "try", name, "--test"], crate_at(HERE, name))
    found = TESTED.search(said)
    passed, failed = (int(found[1]), int(found[2])) if found else (0, 0)
    return told(f"{name}, not proved", passed, failed or int(status != 0), said)


def script(words):
    status, said = ran([os.path.join(HERE, words[0]), *words[1:]], HERE)
    found = LAST.fullmatch((said.strip().splitlines() or [""])[-1].strip())
    passed, failed = (int(found[1]), int(found[2])) if found else (0, 0)
    return told(" ".join(words), passed, failed or int(status != 0), said)


def main():
    parser = argparse.ArgumentParser(description=__doc__, formatter_class=argparse.RawDescriptionHelpFormatter)
    parser.add_argument("--rt", default=os.environ.get("RT", "rt"))
    parser.add_argument("--first", action="store_true")
    words = parser.parse_args()
    if words.first:
        return first_look(words.rt)[1]
    lines, _ = crate_lines()
    tests = [it for it in lines if it.startswith("test_")]
    with ThreadPoolExecutor(len(os.sched_getaffinity(0))) as pool:
        asked = [pool.submit(first_look, words.rt), *[pool.submit(tests_of, words.rt, it) for it in tests]]
        asked += [pool.submit(script, it) for it in SCRIPTS if os.path.exists(os.path.join(HERE, it[0]))]
        passed, failed = (sum(it) for it in zip(*[it.result() for it in asked]))
    print("NOTHING WAS PROVED by this: make proves the program, make test all of it")
    print(f"{passed} passed, {failed} failed", flush=True)
    return 1 if failed else 0


if __name__ == "__main__":
    sys.exit(main())
