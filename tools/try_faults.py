#!/usr/bin/env python3
"""Has each system call fail once, and each file end there, in each case of tests/cases/commands.txt, by `strace -e inject`.

  tools/try_faults.py [--only WORD] [--show]       the program is $ABOOTIMG, or build/abootimg

A run in which a call failed ends in one of two ways: with status 0, and then all is as the case says; or with status 1 and a
line that begins with `abootimg: `. Where an output was not written or synced, only the second will do. No input is ever
touched. The last line is 'N passed, M failed'. Where strace is not there, or may not trace, nothing is run.
"""
import argparse
import concurrent.futures
import fnmatch
import os
import re
import subprocess
import sys
import tempfile

sys.dont_write_bytecode = True
HERE = os.path.dirname(os.path.dirname(os.path.abspath(__file__)))
sys.path.insert(0, os.path.join(HERE, "tests"))
from run import Room, all_cases, seen

CALLS = "%desc,%file"  # as strace calls those on a descriptor or a path
LEFT_OUT = ("execve", "mmap")  # what begins the program, and what asks for memory
READS = ("read", "readv", "pread64", "preadv", "preadv2")
WRITES = ("write", "writev", "pwrite64", "pwritev", "pwritev2")
# How a call ends, too: without room, or without an error at the end of its file.
ERRORS = {it: ("ENOSPC", "EDQUOT") for it in WRITES + ("ftruncate", "close")}
ERRORS.update({it: (None,) for it in READS})
TOLD = WRITES + ("fsync", "fdatasync")  # where one of these fails, an output is not what it should be
CALL = re.compile(r"\d* *(\w+)\((\d+)?(?:<([^>]*)>)?(.*)")
LOADED = re.compile(r"\.so[.\d]*[>\"]|ld\.so\.cache|/proc/\d+/maps")  # what is read before the program begins
SECONDS = 60
TRACER = """#!/bin/sh
exec strace -f -qqq $STRACE_WORDS "$STRACE_PROGRAM" "$@"
"""


class Trial:
    """One case with one call that fails with an error, or without one finds that its file is shorter now."""

    def __init__(self, case, call, number, error, must_refuse):
        self.case = case
        self.call = call
        self.number = number
        self.error = error
        self.must_refuse = must_refuse

    def name(self):
        ends = f"fails with {self.error}" if self.error else "and all later ones find the end"
        return f"{self.case.name}: {self.call} {self.number} {ends}"

    def words(self):
        how = f"error={self.error}:when={self.number}" if self.error else f"retval=0:when={self.number}+"
        return f"-o /dev/null -e trace={self.call} -e inject={self.call}:{how}"


def ran(run, room, strace_words):
    """Runs the line of a case below strace, in a room where its files are, and returns how it ended."""
    for it in run.before:
        room.make(*it)
    room.before = seen(room.folder)
    environment = {**room.environment, "STRACE_WORDS": strace_words}
    return subprocess.run(
        ["bash", "-c", run.line], cwd=room.folder, env=environment, stdin=subprocess.DEVNULL, stdout=subprocess.PIPE,
        stderr=subprocess.PIPE, timeout=SECONDS)


def in_room(case, environment, use):
    """What `use` returns of a new room of the case."""
    with tempfile.TemporaryDirectory(prefix="abootimg-faults-") as folder:
        return use(Room(folder, case.recipes, environment))


def calls_of(case, environment):
    """Each call that the program makes, in its order: its name, its number among those of this name, and the path of its file."""

    def traced(room):
        run = case.runs[0]
        with tempfile.NamedTemporaryFile("r", errors="replace") as log:
            ran(run, room, f"-y -e trace={CALLS} -o {log.name}")
            lines = [it for it in map(CALL.match, log.read().split("\n")) if it]
        begin = max((i + 1 for i, it in enumerate(lines) if LOADED.search(it[0])), default=0)
        counts = {}
        for i, it in enumerate(lines):
            counts[it[1]] = counts.get(it[1], 0) + 1
            if i >= begin and it[1] not in LEFT_OUT:
                yield it[1], counts[it[1]], os.path.relpath(it[3], room.folder) if it[3] and it[3][0] == "/" else it[3]

    return in_room(case, environment, lambda room: list(traced(room)))


def is_written(run, path):
    """Whether a case says that this file is written."""
    return path in run.files or any(fnmatch.fnmatch(path, it) for it in run.free)


def trials_of(case, environment):
    """Each call of the program, failing."""
    run = case.runs[0]
    for call, number, path in calls_of(case, environment):
        is_output = is_written(run, path or "") or (path or "").startswith("pipe:")
        for error in ("EIO",) + ERRORS.get(call, ()):
            yield Trial(case, call, number, error, call in TOLD and is_output)


def wrong_of(trial, environment):
    """What is not so of a trial, in lines."""
    run = trial.case.runs[0]

    def judged(room):
        done = ran(run, room, trial.words())
        after = seen(room.folder)
        if done.returncode == 0:
            wrong = room.files_wrong(run, after)
            printed = "".join(it + "\n" for it in run.lines["out"]).encode()
            wrong += ["it is not printed what should be"] if done.stdout != printed else []
            return wrong + (["the status is 0"] if trial.must_refuse else [])
        touched = [it for it in room.before if not is_written(run, it) and after.get(it) != room.before[it]]
        wrong = [f"{it} was touched" for it in touched]
        is_told = done.returncode == 1 and done.stderr.startswith(b"abootimg: ")
        are_fewer_words = done.returncode == 2 and "@" in run.line and not trial.error
        if not is_told and not are_fewer_words:
            wrong.append(f"the status is {done.returncode}: {done.stderr[:200].decode('utf-8', 'backslashreplace')}")
        return wrong

    try:
        return in_room(trial.case, environment, judged)
    except subprocess.TimeoutExpired:
        return ["it does not end"]


def tried(only, show, environment):
    """Tries all trials with this word, side by side, and returns how many passed and how many failed."""
    counts = [0, 0]
    cases = [it for it in all_cases() if "/commands.txt" in it.place]
    with concurrent.futures.ThreadPoolExecutor(len(os.sched_getaffinity(0))) as lanes:
        trials = [it for case in cases for it in trials_of(case, environment) if only in it.name()]
        for trial, wrong in zip(trials, lanes.map(lambda it: wrong_of(it, environment), trials)):
            counts[bool(wrong)] += 1
            if wrong:
                print("\n        ".join([f"FAILED  {trial.name()}"] + wrong))
            elif show:
                print(f"ok      {trial.name()}")
    return counts


def may_trace():
    try:
        return subprocess.run(["strace", "-o", os.devnull, "true"], stderr=subprocess.DEVNULL).returncode == 0
    except OSError:
        return False


def main():
    parser = argparse.ArgumentParser(description=__doc__, formatter_class=argparse.RawDescriptionHelpFormatter)
    parser.add_argument("--only", default="", metavar="WORD", help="the trials with this word in their name")
    parser.add_argument("--show", action="store_true", help="print each trial, also where it passes")
    words = parser.parse_args()
    program = os.path.abspath(os.environ.get("ABOOTIMG", os.path.join(HERE, "build", "abootimg")))
    if not os.access(program, os.X_OK):
        print(f"there is no program {program}: make builds it\n0 passed, 1 failed")
        return 1
    with tempfile.TemporaryDirectory() as there:
        tracer = os.path.join(there, "abootimg")
        with open(tracer, "w") as file:
            file.write(TRACER)
        os.chmod(tracer, 0o755)
        path = there + os.pathsep + os.environ.get("PATH", "")
        environment = {**os.environ, "PATH": path, "LC_ALL": "C.UTF-8", "STRACE_PROGRAM": program}
        if not may_trace():
            print("not run: there is no strace that may trace\n0 passed, 0 failed")
            return 0
        passed, failed = tried(words.only, words.show, environment)
    print(f"{passed} passed, {failed} failed")
    return 1 if failed or not passed else 0


if __name__ == "__main__":
    sys.exit(main())
