#!/usr/bin/env python3
"""Times the page beside the program, in one run and in turn: web/time_page.py PAGE PROGRAM [--mib 1024] [--rounds 5]

The image is that of bench/expand.py: 40 % raw, 30 % zero fill, 10 % other fill, 20 % don't care. The page expands it to a
file of the browser's own folder, by the calls by which it writes to a file that a user picks. Printed are the medians,
their ratios, and the most memory that the browser's processes had in all, before and while they worked.
"""
import argparse
import os
import statistics
import subprocess
import sys
import tempfile
import threading
import time

sys.dont_write_bytecode = True
import chromium
from test_page import HERE, PICKER, Trial, served


def resident(group):
    """The memory of all processes of a group, in MiB."""
    total = 0
    for process in filter(str.isdigit, os.listdir("/proc")):
        try:
            if os.getpgid(int(process)) == group:
                with open(f"/proc/{process}/smaps_rollup", encoding="ascii") as told:
                    total += next(int(line.split()[1]) for line in told if line.startswith("Pss:"))
        except (OSError, StopIteration):
            pass
    return total // 1024


class Memory:
    """The most memory of a browser while something is done."""

    def __init__(self, browser):
        self.browser, self.most, self.ends = browser, 0, threading.Event()
        self.thread = threading.Thread(target=self._watch, daemon=True)

    def _watch(self):
        while not self.ends.wait(0.1):
            self.most = max(self.most, resident(os.getpgid(self.browser.child.pid)))

    def __enter__(self):
        self.thread.start()
        return self

    def __exit__(self, *_):
        self.ends.set()
        self.thread.join()


def seconds(job):
    begun = time.monotonic()
    job()
    return time.monotonic() - begun


def told_by_program(program, *words):
    return lambda: subprocess.run([program, *words], check=True, stdout=subprocess.DEVNULL, stderr=subprocess.DEVNULL)


def main():
    parser = argparse.ArgumentParser(description=__doc__, formatter_class=argparse.RawDescriptionHelpFormatter)
    parser.add_argument("page")
    parser.add_argument("program")
    parser.add_argument("--mib", type=int, default=1024)
    parser.add_argument("--rounds", type=int, default=5)
    words = parser.parse_args()
    if not chromium.found():
        sys.exit("there is no Chromium (Debian: chromium)")
    trial = Trial(words.page, words.program, None, "")
    try:
        with served(trial.page) as url, tempfile.TemporaryDirectory() as folder:
            measure(trial, url, folder, words)
    finally:
        trial.close()


def measure(trial, url, folder, words):
    image, out = os.path.join(folder, "image.simg"), os.path.join(folder, "image.raw")
    subprocess.run([os.path.join(HERE, "tools", "make_sparse.py"), image, "--mib", str(words.mib)], check=True)
    trial.open(url)
    trial.browser.value(PICKER)
    idle = resident(os.getpgid(trial.browser.child.pid))
    took = {name: [] for name in ("abootimg list", "the page lists", "abootimg expand", "the page expands")}
    with Memory(trial.browser) as memory:
        for _ in range(words.rounds):
            took["abootimg list"].append(seconds(told_by_program(words.program, "list", image)))
            took["the page lists"].append(seconds(lambda: trial.show(image)))
            took["abootimg expand"].append(seconds(told_by_program(words.program, "expand", image, out)))
            took["the page expands"].append(seconds(lambda: trial.press("#expand")))
    for name, times in took.items():
        print(f"{name:18} {statistics.median(times):7.3f} s, least {min(times):.3f}")
    for verb in ("list", "expand"):
        ratio = statistics.median(took[f"the page {verb}s"]) / statistics.median(took[f"abootimg {verb}"])
        print(f"the page {verb}s in {ratio:.2f} of the time")
    print(f"memory: {idle} MiB before, at most {memory.most} MiB ({words.mib} MiB expanded)")


if __name__ == "__main__":
    main()
