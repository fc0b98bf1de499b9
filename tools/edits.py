#!/usr/bin/env python3
"""Holds the wrong bodies that the prover must refuse to the code, and tries all of them.

  tools/edits.py --check [--show]         reads them: each still applies, and gives a text that can be read (seconds)
  tools/edits.py [--jobs N] [CRATE ..]    tries them: the prover must refuse each (hours); without a CRATE those of all

Both take --rt RT, the command of the toolchain. crates/NAME/must-fail/ has the edits that the gate tries, at most 12 of a
crate: those that show most. crates/NAME/more-edits/ has all others, in the same form: a line 'file: src/lib.rt', and then
pairs of lines 'old: TEXT' and 'new: TEXT', where the old text stands once in the file as the pairs before have made it.

Each crate is tried by `rt ci NAME` in a temporary copy, where all its edits stand in must-fail/. So what passes is kept on this
machine, for the gate too. The last line is 'N passed, M failed'.
"""
import argparse
import collections
import glob
import os
import re
import resource
import shutil
import subprocess
import sys
import tempfile
import time

sys.dont_write_bytecode = True
from repository import HERE, copy_of, crate_at, crate_lines, with_below

FOLDERS = ("must-fail", "more-edits")
MOST = 12
# Crates with more: edits for new claims came in, and no older one left the gate for them.
MORE = {"abt_flash": 14, "cmd_flash": 13, "sys_host": 14}
TRIED = re.compile(r"must-fail (\w+)/([\w.-]+)\.edit: (.*)")
FAULTS = ("NOT REFUSED", "BAD EDIT", "NOT TRIED")
WEAK = ("only because a proof file", "only by a limit")


def edits_of(crate):
    """The paths of a crate's edits, those of the gate first."""
    folders = [os.path.join(crate_at(HERE, crate), it) for it in FOLDERS]
    return [path for folder in folders for path in sorted(glob.glob(os.path.join(folder, "*.edit")))]


def applied(path, crate):
    """The texts that an edit makes, by the files that it changes. A ValueError says why it does not apply."""
    with open(path, encoding="utf-8") as text:
        lines = text.read().split("\n")
    texts, file, old = {}, None, None
    for line in filter(None, lines):
        word, _, rest = line.partition(": ")
        if word == "file" and re.match(r"(?:src|specs|proofs)/", rest):
            file = rest
            with open(os.path.join(crate_at(HERE, crate), file), encoding="utf-8") as text:
                texts.setdefault(file, text.read())
        elif word == "old" and file and old is None:
            old = rest
            if texts[file].count(old) != 1:
                raise ValueError(f"{file} has '{old}' {texts[file].count(old)} times")
        elif word in ("new", "new:") and old is not None:
            texts[file] = texts[file].replace(old, rest)
            old = None
        else:
            raise ValueError(f"the line '{line}' is no part of an edit")
    if not texts or old is not None:
        raise ValueError("an old text without a new one, or none at all")
    return texts


def unreadable(made, rt):
    """Which of these texts (by the name of a file) the toolchain can't read, and why."""
    with tempfile.TemporaryDirectory() as room:
        for name, text in made.items():
            path = os.path.join(room, "src", name)
            os.makedirs(os.path.dirname(path), exist_ok=True)
            with open(path, "w", encoding="utf-8") as file:
                file.write(text)
        said = subprocess.run([rt, "fmt"], cwd=room, stdout=subprocess.PIPE, stderr=subprocess.STDOUT, text=True, check=False)
    found = re.findall(r"(?m)^(?:.*/)?src/([^:\s]+): (it does not parse.*|.*error.*)$", said.stdout)
    return dict(found) if found or not said.returncode else {"": said.stdout.strip()[:300]}


def check(names, rt, show):
    """Reads the edits of these crates. The counts of checks that passed and failed."""
    counts, made = collections.Counter(), {}

    def that(is_so, what):
        counts[bool(is_so)] += 1
        if show or not is_so:
            print(f"{'ok' if is_so else 'NOT SO'}: {what}")

    for crate in names:
        paths = edits_of(crate)
        words = [os.path.basename(it) for it in paths]
        chosen = sum(os.path.basename(os.path.dirname(it)) == FOLDERS[0] for it in paths)
        if paths:
            most = MORE.get(crate, MOST)
            that(chosen <= most, f"{crate}: {chosen} edits in the gate, at most {most}")
            that(len(set(words)) == len(words), f"{crate}: each edit has a name of its own")
        for path in paths:
            label = os.path.relpath(path, os.path.join(HERE, "crates"))
            try:
                texts = applied(path, crate)
            except (OSError, ValueError) as error:
                that(False, f"{label} applies: {error}")
                continue
            that(True, f"{label} applies")
            for file, text in texts.items():
                made[os.path.join(os.path.splitext(label)[0], file)] = text
    faults = unreadable(made, rt) if made else {}
    for name in made:
        that(name not in faults, f"{name} can be read{': ' + faults[name] if name in faults else ''}")
    for name in faults.keys() - made.keys():
        that(False, f"the edited texts can be read: {faults[name]}")
    return counts[True], counts[False]


def tried(crate, below, lines, words):
    """Tries the edits of one crate, which depends on those below: how many were refused, how many of them not by a proof,
    those that were not, and the seconds of processors."""
    paths, begun = edits_of(crate), resource.getrusage(resource.RUSAGE_CHILDREN)
    with tempfile.TemporaryDirectory(prefix="abootimg-edits-") as room:
        copy_of(room, [*below, crate], lines)
        os.mkdir(os.path.join(crate_at(room, crate), FOLDERS[0]))
        for path in paths:
            shutil.copy(path, os.path.join(crate_at(room, crate), FOLDERS[0]))
        environment = {"RT_JOBS": str(words.jobs), **os.environ}
        ran = subprocess.run([words.rt, "ci", crate], cwd=room, env=environment, stdout=subprocess.PIPE,
                             stderr=subprocess.STDOUT, text=True, errors="replace", check=False)
    ended, said = resource.getrusage(resource.RUSAGE_CHILDREN), {}
    for found in TRIED.finditer(ran.stdout):
        said[found[2]] = found[3]
    if not said:
        print(ran.stdout[-2000:])
    refused, wrong = 0, []
    for path in paths:
        name = os.path.splitext(os.path.basename(path))[0]
        what = said.get(name, "NOT TRIED")
        if what.startswith(FAULTS):
            wrong.append(f"{crate}/{name}: {what}")
        else:
            refused += 1
        print(f"{crate}/{name}: {what}", flush=True)
    weak = sum(any(it in what for it in WEAK) for what in said.values())
    return refused, weak, wrong, ended.ru_utime + ended.ru_stime - begun.ru_utime - begun.ru_stime


def main():
    parser = argparse.ArgumentParser(description=__doc__, formatter_class=argparse.RawDescriptionHelpFormatter)
    parser.add_argument("--check", action="store_true", help="read the edits, and try none")
    parser.add_argument("--show", action="store_true", help="print each check, also where it passes")
    parser.add_argument("--rt", default=os.environ.get("RT", "rt"))
    parser.add_argument("--jobs", type=int, default=len(os.sched_getaffinity(0)), help="how many to try side by side")
    parser.add_argument("crates", nargs="*", metavar="CRATE")
    words = parser.parse_args()
    lines, uses = crate_lines()
    order = with_below(uses, uses)
    names = [it for it in order if it in words.crates or not words.crates]
    if words.check:
        passed, failed = check(names, words.rt, words.show)
        print(f"{passed} passed, {failed} failed")
        return 1 if failed else 0
    told, wrong, passed = [], [], 0
    for crate in filter(edits_of, names):
        begun = time.monotonic()
        refused, weak, faults, seconds = tried(crate, with_below(uses[crate], uses), lines, words)
        passed, wrong = passed + refused, wrong + faults
        told.append(f"{crate:14} {refused:3} refused ({weak} of them not by the proof of a contract), {len(faults)} not; "
                    f"{seconds:5.0f} s of processors, {time.monotonic() - begun:5.0f} s by the clock")
        print(told[-1], flush=True)
    print("", *told, *wrong, f"{passed} passed, {len(wrong)} failed", sep="\n")
    return 1 if wrong else 0


if __name__ == "__main__":
    sys.exit(main())
