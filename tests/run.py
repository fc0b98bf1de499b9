#!/usr/bin/env python3
"""Runs every case of tests/cases/ over the built program: words, files, and what must be printed and stand afterwards.

  tests/run.py [--only WORD] [--show] [--wanted]       the program is $ABOOTIMG, or build/abootimg

A case fails, too, where a file changes, appears or goes that it does not name. tests/README.md tells how cases are written.
--wanted runs those of tests/wanted/ in their place: what the program shall do and does not do yet.
The last line is 'N passed, M failed', and the status is 1 where one failed.
"""
import argparse
import concurrent.futures
import fnmatch
import functools
import os
import re
import stat
import subprocess
import sys
import tempfile

sys.dont_write_bytecode = True
from reading import cases_of, recipes_of
from recipes import bytes_of

HERE = os.path.dirname(os.path.abspath(__file__))
ROOT = os.path.dirname(HERE)
LARGE = 1 << 28  # a larger file is not read, but taken for the same where its length and time are
SECONDS = 120  # a run that takes longer fails


def seen(folder):
    """All that stands in a folder: what it is, by its path."""
    found = {}
    for at, folders, files in os.walk(folder):
        for name in folders + files:
            path = os.path.join(at, name)
            about = os.lstat(path)
            if stat.S_ISLNK(about.st_mode):
                it = ("a link to", os.readlink(path))
            elif stat.S_ISDIR(about.st_mode):
                it = ("a folder",)
            elif not stat.S_ISREG(about.st_mode):
                it = ("no file",)
            elif about.st_size > LARGE:
                it = ("a large file", about.st_size, about.st_mtime_ns)
            else:
                with open(path, "rb") as file:
                    it = ("file", file.read())
            found[os.path.relpath(path, folder)] = it
    return found


def shown(it):
    """What stands at a path, in few words."""
    if it is None:
        return "not there"
    if it[0] != "file":
        return " ".join(str(word) for word in it)
    text = "".join(chr(byte) if 32 <= byte < 127 and byte != 92 else f"\\x{byte:02x}" for byte in it[1][:80])
    return f'{len(it[1])} bytes "{text}"' + (" .." if len(it[1]) > 80 else "")


def difference(path, wanted, got):
    """The lines that tell how what stands at a path is not as it should be."""
    lines = [f"{path} is {shown(got)}", f"  and should be {shown(wanted)}"]
    if wanted and got and wanted[0] == got[0] == "file":
        both = zip(wanted[1], got[1])
        place = next((i for i, (a, b) in enumerate(both) if a != b), min(len(wanted[1]), len(got[1])))
        lines += [f"  from byte {place} on it is {shown(('file', got[1][place:]))}",
                  f"  and should be {shown(('file', wanted[1][place:]))}"]
    return lines


class Room:
    """The folder that a case runs in."""

    def __init__(self, folder, recipes, environment):
        self.folder = folder
        self.recipes = recipes
        self.environment = environment
        self.before = {}  # what stood in it before the run

    def path(self, name):
        return os.path.join(self.folder, name)

    def named(self, name):
        """The bytes of a file as it was before the run; else of a recipe, an example or a new file of that name."""
        if self.before.get(name, ("",))[0] == "file":
            return self.before[name][1]
        if name in self.recipes:
            return self.bytes_of(self.recipes[name])
        path = os.path.join(ROOT, name) if name.startswith("examples/") else self.path(name)
        with open(path, "rb") as file:
            return file.read()

    def bytes_of(self, recipe):
        return bytes_of(recipe, self.named)

    def make(self, kind, name, what):
        """Makes a file of a recipe, a folder, or a link to a target."""
        path = self.path(name)
        os.makedirs(os.path.dirname(path), exist_ok=True)
        if kind == "folder":
            os.makedirs(path)
        elif kind == "fifo":
            os.mkfifo(path)
        elif kind == "link":
            os.symlink(what, path)
        elif kind == "hard":
            os.link(self.path(what), path)
        elif what.startswith("hole "):
            with open(path, "wb") as file:
                file.truncate(int(what[5:]))
        else:
            self.before[name] = ("file", self.bytes_of(what))
            with open(path, "wb") as file:
                file.write(self.before[name][1])

    def carry_out(self, run):
        """Runs one line of a case, and answers what is not so, in lines."""
        for it in run.before:
            self.make(*it)
        self.before = seen(self.folder)
        ran = subprocess.run(
            ["bash", "-c", run.line], cwd=self.folder, env=self.environment, stdin=subprocess.DEVNULL,
            stdout=subprocess.PIPE, stderr=subprocess.PIPE, timeout=SECONDS)
        wrong = [] if ran.returncode == run.status else [f"the status is {ran.returncode} and should be {run.status}"]
        wrong += printed_wrong(run, "out", ran.stdout) + printed_wrong(run, "err", ran.stderr)
        wrong += self.files_wrong(run, seen(self.folder))
        return [f"$ {run.line}"] + wrong if wrong else []

    def files_wrong(self, run, after):
        """What is not so of the files afterwards, in lines."""
        wrong = []
        for path in sorted({*self.before, *after, *run.files}):
            got, wanted = after.get(path), self.before.get(path)
            if path in run.files:
                how, recipe = run.files[path]
                wanted = ("file", self.bytes_of(recipe))
                if how == "begins" and got and got[0] == "file":
                    got = ("file", got[1][: len(wanted[1])])
            elif any(fnmatch.fnmatch(path, it) for it in run.free):
                continue
            if got != wanted:
                wrong += difference(path, wanted, got)
        return wrong


def printed_wrong(run, stream, got):
    """What is not so of what was printed to a stream, in lines."""
    lines = got.decode("utf-8", "backslashreplace").split("\n")
    if run.among[stream]:
        lacking = [it for it in run.among[stream] if not any(re.fullmatch(it, line) for line in lines)]
        return [f"std{stream} has no line like {it}" for it in lacking] + [f"    {it}" for it in lines[:30] if lacking]
    if lines == run.lines[stream] + [""]:
        return []
    wanted = run.lines[stream] or ["(nothing)"]
    return [f"std{stream} is"] + [f"    {it}" for it in lines[:30]] + ["  and should be"] + [f"    {it}" for it in wanted]


def tried(case, environment):
    """What is not so of a case, in lines."""
    with tempfile.TemporaryDirectory(prefix="abootimg-case-") as folder:
        room = Room(folder, case.recipes, environment)
        try:
            for run in case.runs:
                wrong = room.carry_out(run)
                if wrong:
                    return wrong
        except (ValueError, OSError, subprocess.TimeoutExpired) as error:
            return [f"the case can't be run: {error}"]
    return []


def visible(line):
    """A line in which what a terminal would not show stands as Python writes it."""
    return "".join(it if it.isprintable() else it.encode("unicode_escape").decode() for it in line)


def text_of(*path):
    with open(os.path.join(HERE, *path), encoding="utf-8") as text:
        return text.read()


def all_cases(folder="cases"):
    recipes = recipes_of(text_of("images.txt"))
    there = os.path.join(HERE, folder)
    for file in sorted(os.listdir(there)) if os.path.isdir(there) else ():
        yield from cases_of(text_of(folder, file), f"tests/{folder}/{file}", recipes)


def run_cases(cases, only, show, environment):
    """Runs the cases with this word, side by side, and answers how many passed and how many failed."""

    @functools.lru_cache(maxsize=None)
    def is_here(line):
        quiet = {"stdin": subprocess.DEVNULL, "stdout": subprocess.DEVNULL, "stderr": subprocess.DEVNULL}
        return subprocess.run(["bash", "-c", line], env=environment, **quiet).returncode == 0

    counts = [0, 0]
    with concurrent.futures.ThreadPoolExecutor(len(os.sched_getaffinity(0))) as lanes:
        todo = []
        for case in cases:
            name = f"{case.place}: {case.name}"
            if only not in name:
                continue
            lacking = [it for it in case.needs if not is_here(it)]
            if lacking:
                print(f"LEFT OUT  {name}: it needs {lacking[0]}")
            else:
                todo.append((name, lanes.submit(tried, case, environment)))
        for name, done in todo:
            wrong = done.result()
            counts[bool(wrong)] += 1
            if wrong:
                print("\n        ".join(visible(it) for it in [f"FAILED  {name}"] + wrong))
            elif show:
                print(f"ok      {name}")
    return counts


def main():
    parser = argparse.ArgumentParser(description=__doc__, formatter_class=argparse.RawDescriptionHelpFormatter)
    parser.add_argument("--only", default="", metavar="WORD", help="the cases with this word in their file's name or their own")
    parser.add_argument("--show", action="store_true", help="print each case, also where it passes")
    parser.add_argument("--wanted", action="store_true", help="run the cases of tests/wanted/")
    words = parser.parse_args()
    cases = all_cases("wanted" if words.wanted else "cases")
    program = os.path.abspath(os.environ.get("ABOOTIMG", os.path.join(ROOT, "build", "abootimg")))
    if not os.access(program, os.X_OK):
        print(f"there is no program {program}: make builds it\n0 passed, 1 failed")
        return 1
    with tempfile.TemporaryDirectory() as there:
        os.symlink(program, os.path.join(there, "abootimg"))
        for tool in "at_call", "unreadable":
            os.symlink(os.path.join(HERE, tool), os.path.join(there, tool))
        path = there + os.pathsep + os.environ.get("PATH", "")
        passed, failed = run_cases(cases, words.only, words.show, {**os.environ, "PATH": path, "LC_ALL": "C.UTF-8"})
    print(f"{passed} passed, {failed} failed")
    return 1 if failed or not passed else 0


if __name__ == "__main__":
    sys.exit(main())
