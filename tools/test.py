#!/usr/bin/env python3
"""The gate: a look without proofs, `rt ci`, and then the scripts that hold the documents and the built program to what they say.

  tools/test.py [--rt rt] [--program FILE]      (--program: the scripts alone, on what was built before)

It begins with tools/quick.py, so that a mistake shows after some minutes. `rt ci` then proves every crate, tries the
must-fail edits, runs the tests, and compiles the program. What an earlier run on this machine passed of the same files is
taken from there. The program and the C library are linked as make links them (tools/build.py, which takes what was proved),
and each script runs on them and ends in a line 'N passed, M failed'. Behind each stands the time that it took, by the clock
and of the processors, and after `rt ci` a line for each crate. Where something failed, its lines stand once more at the
end. The last line of all is the sum of what passed and failed. The exit status is 0 where nothing failed.
"""
import argparse
import os
import re
import resource
import shutil
import subprocess
import sys
import time

sys.dont_write_bytecode = True
from costs import Costs
from repository import HERE

BUILT = os.path.join(HERE, "build", "abootimg.tried")
LIBRARY = os.path.join(HERE, "build", "libabootimg.a")
# `rt ci` leaves this behind where it proved the program anew.
COMPILED = os.path.join(HERE, "crates", "abootimg", "out", "abootimg.o")
WRONG = re.compile(r"FAILED|NOT SO|NOT PROVED|NOT REFUSED|BAD EDIT")
LAST = re.compile(r"(?:[\w ]+: )?(\d+) passed, (\d+) failed")

# Each script over the built program; the others are in tools/quick.py.
SCRIPTS = ("tools/check_examples.py", "tests/run.py", "tools/try_program.sh", "tools/try_words.sh", "tools/try_places.sh",
           "tools/try_system.sh", "tools/try_completions.sh")


def processor_time():
    """The seconds of processors that the commands run so far have taken."""
    used = resource.getrusage(resource.RUSAGE_CHILDREN)
    return used.ru_utime + used.ru_stime


def followed(words, name, wrong, **how):
    """Runs a command and shows what it says but for its last line, whose counts it returns. Lines of what failed are added."""
    print(f"== {name}", flush=True)
    begun, used = time.monotonic(), processor_time()
    try:
        ran = subprocess.Popen(
            words, cwd=HERE, stdin=subprocess.DEVNULL, stdout=subprocess.PIPE, stderr=subprocess.STDOUT, text=True,
            errors="replace", **how)
    except OSError as error:
        print(f"== {name}: {error.strerror}: {words[0]}")
        return 0, 1
    last = ""
    for line in ran.stdout:
        if last:
            print(last, end="", flush=True)
        if WRONG.search(line):
            wrong.append(f"{name}: {line.rstrip()[:300]}")
        last = line
    status = ran.wait()
    counts = LAST.fullmatch(last.strip())
    if not counts:
        print(last, end="")
    passed, failed = (int(counts[1]), int(counts[2])) if counts else (0, 1)
    if (status != 0) != (failed != 0):
        print(f"{name}: its last line and its status {status} do not agree")
        failed = max(failed, 1)
    minutes = (time.monotonic() - begun) / 60
    print(f"== {name}: {passed} passed, {failed} failed; {minutes:.1f} minutes, "
          f"{(processor_time() - used) / 60:.1f} of processor time", flush=True)
    return passed, failed


def lanes():
    """How many crates are proved side by side, each by one process: every further one of a crate reads all definitions again,
    some 40 seconds. As many as there are processors, and 4 GB of memory for each."""
    memory = os.sysconf("SC_PAGE_SIZE") * os.sysconf("SC_PHYS_PAGES")
    return max(1, min(len(os.sched_getaffinity(0)), memory // 4_000_000_000))


def proved_and_tried(rt, wrong):
    """`rt ci`, and what it took by crate."""
    costs = Costs()
    costs.start()
    counts = followed([rt, "ci"], "rt ci", wrong, env={"RT_JOBS": str(lanes()), **os.environ})
    costs.end()
    print(*costs.lines(), sep="\n", flush=True)
    return counts


def built(rt, kind, out):
    """Builds the program or the library as make does, of what was proved. A program that this run proved is only linked."""
    if os.path.exists(out):
        os.remove(out)
    words = [os.path.join(HERE, "tools/build.py"), "--rt", rt, kind, out]
    if kind == "program" and os.path.isfile(COMPILED):
        words = [os.path.join(HERE, "tools/link.sh"), COMPILED, out, "--rt", rt]
    done = subprocess.run(words, stderr=subprocess.STDOUT)
    return 0 if done.returncode == 0 and os.path.isfile(out) else 1


def library_tried(program, wrong):
    """Tries the C library beside the program, where there are compilers of C and C++."""
    script = "tools/try_c_library.sh"
    lacking = [it for it in (os.environ.get("CC", "cc"), os.environ.get("CXX", "c++")) if not shutil.which(it)]
    if lacking or not os.path.isfile(LIBRARY):
        print(f"== {script}: not run, since there is no {lacking[0] if lacking else os.path.relpath(LIBRARY, HERE)}")
        return 0, 0
    return followed([os.path.join(HERE, script), LIBRARY, program], script, wrong)


def scripts_over(program, wrong):
    environment = {**os.environ, "ABOOTIMG": program, "PYTHONDONTWRITEBYTECODE": "1"}
    for script in SCRIPTS:
        if os.path.exists(os.path.join(HERE, script)):
            yield followed([os.path.join(HERE, script)], script, wrong, env=environment)
    yield library_tried(program, wrong)


def main():
    parser = argparse.ArgumentParser(description=__doc__, formatter_class=argparse.RawDescriptionHelpFormatter)
    parser.add_argument("--rt", default=os.environ.get("RT", "rt"))
    parser.add_argument("--program")
    words = parser.parse_args()
    counts, wrong = [], []
    counts.append(followed([os.path.join(HERE, "tools/quick.py"), "--rt", words.rt], "a look without proofs", wrong))
    if not words.program and not counts[0][1]:
        counts.append(proved_and_tried(words.rt, wrong))
        if not counts[-1][1]:
            counts += [(0, built(words.rt, "program", BUILT)), (0, built(words.rt, "library", LIBRARY))]
    program = os.path.abspath(words.program or BUILT)
    if not os.access(program, os.X_OK) or any(failed for _, failed in counts):
        print("== the scripts over the program: not run, since what is above failed")
        counts.append((0, 1))
    else:
        counts += scripts_over(program, wrong)
    passed, failed = (sum(it) for it in zip(*counts))
    if not words.program and not failed:
        os.replace(BUILT, os.path.join(HERE, "build", "abootimg"))
    if failed:
        print("", *wrong, sep="\n")
    print(f"{passed} passed, {failed} failed", flush=True)
    return 1 if failed else 0


if __name__ == "__main__":
    sys.exit(main())
