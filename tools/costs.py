"""What the checks of a run take of the processors, by crate: proofs, the proofs that edits begin with, edits and tests.

It looks at the processes of the toolchain once a second, so each may lose its last second.
"""
import collections
import os
import re
import threading

from repository import HERE

TICK = os.sysconf("SC_CLK_TCK")
KINDS = ("proofs", "seeds", "edits", "tests")
# How many of the dearest edits are named.
DEAREST = 12


def words_of(process):
    with open(f"/proc/{process}/cmdline", "rb") as text:
        return text.read().decode(errors="replace").split("\0")


def numbers_of(process):
    """The fields of its line in /proc behind its name: its parent is the second."""
    with open(f"/proc/{process}/stat", "rb") as text:
        return text.read().decode(errors="replace").rpartition(")")[2].split()


def seconds_of(process):
    return sum(int(it) for it in numbers_of(process)[11:15]) / TICK


def is_of_this_run(process):
    """Whether this process has begun it, or one that it began: other runs on the machine are not counted."""
    while int(process) > 1:
        if int(process) == os.getpid():
            return True
        process = numbers_of(process)[1]
    return False


def kind_of(process, words):
    """What a check is for, and of an edit its number among those of the crate (none where it is tried from nothing)."""
    if "rt-edit" not in os.readlink(f"/proc/{process}/cwd"):
        return ("tests" if "--test" in words else "proofs"), None
    over = words[words.index("--incremental") + 1] if "--incremental" in words else ""
    number = re.search(r"/rt-edits-[^/]*/(\d+)$", over)
    return ("seeds" if over.endswith("/seed") else "edits"), int(number[1]) if number else None


def edits_of(name):
    folder = os.path.join(HERE, "crates", name, "must-fail")
    return sorted(it for it in os.listdir(folder) if it.endswith(".edit"))


class Costs(threading.Thread):
    """Watches until `end`."""

    def __init__(self):
        super().__init__(daemon=True)
        self.ended, self.seen = threading.Event(), {}

    def run(self):
        while os.path.isdir("/proc/self") and not self.ended.wait(1):
            for process in [it for it in os.listdir("/proc") if it.isdigit()]:
                self.look(process)

    def look(self, process):
        try:
            words = words_of(process)
            if "--crate-name" in words and os.path.basename(words[0]) == "rattle" and is_of_this_run(process):
                name = words[words.index("--crate-name") + 1]
                self.seen[process, name] = *kind_of(process, words), seconds_of(process)
        except (OSError, ValueError, IndexError):
            pass  # it has ended, or is another user's

    def end(self):
        self.ended.set()
        self.join()

    def lines(self):
        """A line for each crate, dearest first, and the sum; then the dearest edits."""
        spent = collections.defaultdict(collections.Counter)
        edits = collections.Counter()
        for (_, name), (kind, number, seconds) in self.seen.items():
            spent[name][kind] += seconds
            spent["all"][kind] += seconds
            if kind == "edits":
                edits[name, number or 0] += seconds
        yield "processor seconds by crate: " + ", ".join(KINDS)
        for name, of in sorted(spent.items(), key=lambda it: -sum(it[1].values())):
            yield f"  {name:16} " + " ".join(f"{of[kind]:7.0f}" for kind in KINDS)
        if edits:
            yield "the dearest edits, in processor seconds"
        for (name, number), seconds in edits.most_common(DEAREST):
            yield f"  {seconds:7.0f}  {name}/{edits_of(name)[number]}"
