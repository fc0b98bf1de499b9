#!/usr/bin/env python3
"""Runs every example of README.md and docs/COMMANDS.md on the built program, and compares what it prints.

  tools/check_examples.py [--show]           the program is $ABOOTIMG, or build/abootimg

An example is a block that begins with ```console: each line '$ COMMAND' is run by bash, and what it writes to standard output
and standard error must be the lines up to the next command. A line '> ..' behind a command goes on with it. The examples of
one document run one after the other in one new folder, with a copy of examples/ in it and the program on the path. Every
other block that names the program must be one of these. The last line is 'N passed, M failed'.
"""
import argparse
import os
import re
import shutil
import subprocess
import sys
import tempfile

HERE = os.path.dirname(os.path.dirname(os.path.abspath(__file__)))
DOCUMENTS = ("README.md", "docs/COMMANDS.md")


def blocks(path):
    """Each block of code: its kind, the number of its first line and its lines."""
    kind, start, lines = None, 0, []
    with open(os.path.join(HERE, path), encoding="utf-8") as text:
        for number, line in enumerate(text.read().split("\n"), 1):
            if line.startswith("```"):
                if kind is None:
                    kind, start, lines = line[3:].strip(), number + 1, []
                else:
                    yield kind, start, lines
                    kind = None
            elif kind is not None:
                lines.append(line)


def examples(path):
    """Each example: the number of its line, the command and the lines that it must print."""
    for kind, start, lines in blocks(path):
        if kind != "console":
            continue
        command, wanted, at = None, [], start
        for number, line in enumerate(lines, start):
            if line.startswith("$ "):
                if command is not None:
                    yield at, command, wanted
                command, wanted, at = line[2:], [], number
            elif line.startswith("> ") and command is not None and not wanted:
                command += "\n" + line[2:]
            else:
                wanted.append(line)
        if command is not None:
            yield at, command, wanted


def run(command, folder, program_folder):
    environment = {**os.environ, "PATH": program_folder + os.pathsep + os.environ.get("PATH", ""), "LC_ALL": "C.UTF-8"}
    environment.pop("ABOOTIMG", None)
    ran = subprocess.run(
        ["bash", "-c", command], cwd=folder, env=environment, stdin=subprocess.DEVNULL, stdout=subprocess.PIPE,
        stderr=subprocess.STDOUT, timeout=120)
    return ran.stdout.decode("utf-8", "backslashreplace")


def check(path, program, show):
    passed = failed = 0
    with tempfile.TemporaryDirectory() as work:
        shutil.copytree(os.path.join(HERE, "examples"), os.path.join(work, "there", "examples"))
        os.mkdir(os.path.join(work, "bin"))
        shutil.copy(program, os.path.join(work, "bin", "abootimg"))
        for number, command, wanted in examples(path):
            said = run(command, os.path.join(work, "there"), os.path.join(work, "bin")).split("\n")
            if said and said[-1] == "":
                said.pop()
            if said == wanted:
                passed += 1
                if show:
                    print(f"ok: {path}:{number}: {command}")
            else:
                failed += 1
                print(f"NOT SO: {path}:{number}: {command}")
                print("\n".join(["  it printed:"] + ["    " + it for it in said]))
                print("\n".join(["  and not:"] + ["    " + it for it in wanted]))
    for kind, start, lines in blocks(path):
        if kind != "console" and any(re.match(r"\$? ?abootimg \S", it) for it in lines):
            failed += 1
            print(f"NOT SO: {path}:{start}: a block that runs the program begins with ```console")
    return passed, failed


def main():
    parser = argparse.ArgumentParser(description=__doc__, formatter_class=argparse.RawDescriptionHelpFormatter)
    parser.add_argument("--show", action="store_true", help="print each example, also where it passes")
    words = parser.parse_args()
    program = os.environ.get("ABOOTIMG", os.path.join(HERE, "build", "abootimg"))
    if not os.access(program, os.X_OK):
        print(f"there is no program {program}: make builds it")
        print("0 passed, 1 failed")
        return 1
    counts = [check(path, program, words.show) for path in DOCUMENTS]
    passed, failed = (sum(it) for it in zip(*counts))
    print(f"{passed} passed, {failed} failed")
    return 1 if failed or not passed else 0


if __name__ == "__main__":
    sys.exit(main())
