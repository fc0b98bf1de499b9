"""What the scripts of this folder share: the words of their command lines, a folder to work in, and timing.

Programs are timed in one run and in turn: each round runs each once. Printed are the median of each, the least, its processor
time and its peak memory (where GNU time is there), and then ratios of the medians. Figures of two runs, or of two machines,
are not to be compared: ratios of one run are.
"""
import argparse
import contextlib
import os
import shutil
import statistics
import subprocess
import sys
import tempfile
import time

HERE = os.path.dirname(os.path.dirname(os.path.abspath(__file__)))
MAKE = os.path.join(HERE, "tools/make_sparse.py")
LAY = os.path.join(HERE, "tools/lay_sparse.py")
BLOCK = 4096
# The name of the run that a command can't beat begins so.
FLOOR = "dd bs=64k"
# What was printed as a ratio: the command, what it stands beside, and the ratio of the medians.
RATIOS = []


def floor(read=(), copied=()):
    """The words that read these files by `dd bs=64k`, and that copy those others, each a path and where its copy goes: the bytes
    that a command reads and writes, moved and not looked at."""
    parts = [f"dd if={path} of=/dev/null bs=64k status=none" for path in read]
    parts += [f"rm -f {to} && dd if={path} of={to} bs=64k status=none" for path, to in copied]
    return [shutil.which("sh"), "-c", " && ".join(parts)]


def parser(description, mib=1024, rounds=5):
    """The words that every script takes."""
    words = argparse.ArgumentParser(description=description, formatter_class=argparse.RawDescriptionHelpFormatter)
    words.add_argument("--program", default=os.path.join(HERE, "build/abootimg"))
    words.add_argument("--folder")
    words.add_argument("--mib", type=int, default=mib)
    words.add_argument("--rounds", type=int, default=rounds)
    return words


def require(package, *tools):
    """Ends where one of these tools isn't there."""
    for tool in tools:
        if not shutil.which(tool):
            sys.exit(f"{tool} is not there (Debian: apt-get install {package})")


@contextlib.contextmanager
def work_folder(folder):
    """A new folder below this one, as a function from a name in it to its path. It is removed at the end."""
    work = tempfile.mkdtemp(dir=folder)
    try:
        yield lambda name: os.path.join(work, name)
    finally:
        shutil.rmtree(work)


def timed(words):
    """Seconds of one run, and of its processor time."""
    begin = time.perf_counter()
    child = os.posix_spawn(
        words[0], words, os.environ,
        file_actions=[(os.POSIX_SPAWN_OPEN, 1, os.devnull, os.O_WRONLY, 0),
                      (os.POSIX_SPAWN_OPEN, 2, os.devnull, os.O_WRONLY, 0)])
    _, status, usage = os.wait4(child, 0)
    seconds = time.perf_counter() - begin
    if status != 0:
        sys.exit(f"{words} ended with status {status}")
    return seconds, usage.ru_utime + usage.ru_stime


def peak(words, told):
    """Peak memory in KiB of one run that isn't timed, by GNU time: a child of python would begin with python's own."""
    gnu_time = shutil.which("time")
    if not gnu_time:
        return None
    subprocess.run([gnu_time, "-f", "%M", "-o", told] + words, check=True, stdout=subprocess.DEVNULL)
    with open(told) as text:
        return int(text.read())


def same(one, other):
    return subprocess.run(["cmp", "-s", one, other]).returncode == 0


def in_turn(lines, rounds, prepare=lambda name: None):
    """What each round of each program took. Before a run, what it is prepared by isn't timed."""
    took = {name: [] for name in lines}
    for _ in range(rounds):
        for name, line in lines.items():
            prepare(name)
            took[name].append(timed(line))
    return took


def print_medians(took, memory):
    """Prints the median of each program, and returns these: seconds, and seconds of processor time."""
    wide = max(len(name) for name in took)
    median = {}
    for name, rounds in took.items():
        median[name] = [statistics.median(run[part] for run in rounds) for part in (0, 1)]
        least = min(run[0] for run in rounds)
        print(f"  {name:{wide}} median {median[name][0]:7.3f} s, least {least:7.3f} s, processor {median[name][1]:7.3f} s,"
              f" peak memory {memory[name]} KiB")
    return median


def print_ratio(median, name, other, of=""):
    """Prints how long a program took beside another, and keeps it under its name with what the run was of."""
    RATIOS.append((name + of, other, median[name][0] / median[other][0]))
    print(f"  {name} / {other}: {median[name][0] / median[other][0]:.2f},"
          f" of processor time {median[name][1] / max(median[other][1], 0.001):.2f}", flush=True)
