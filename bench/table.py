#!/usr/bin/env python3
"""Times all commands, script after script, and prints one table of ratios.

  bench/table.py [--program build/abootimg] [--folder FOLDER] [--rounds N]

Each row has a command, the tool that it stands beside, the share of that tool's time which it took, and the same of the floor:
`dd bs=64k` of the bytes that it reads and writes, which are moved and not looked at. Each share is of medians of one run, in
which the programs took turns. The scripts say what they time; on /dev/shm no disk is measured.
"""
import os
import sys

sys.dont_write_bytecode = True
sys.path.insert(0, os.path.dirname(os.path.abspath(__file__)))
import boot
import cut
import expand
import flash
import timing
import verify

SCRIPTS = (expand, cut, flash, verify, boot)


def rows():
    """For each command, in the order in which they were timed: what it stands beside, and its shares."""
    found = {}
    for name, other, share in timing.RATIOS:
        beside, floors = found.setdefault(name, ([], []))
        (floors if other.startswith(timing.FLOOR) else beside).append((other, share))
    return found.items()


def main():
    words = timing.parser(__doc__, rounds=0).parse_args()
    for script in SCRIPTS:
        given = ["--program", words.program]
        given += ["--folder", words.folder] if words.folder else []
        given += ["--rounds", str(words.rounds)] if words.rounds else []
        sys.argv = [script.__file__, *given]
        script.main()
    print()
    print("| command | beside | share of its time | of the floor |")
    print("|---|---|---|---|")
    for name, (beside, floors) in rows():
        others = "; ".join(f"`{it}`" for it, _ in beside)
        shares = "; ".join(f"{share:.2f}" for _, share in beside)
        print(f"| `{name}` | {others} | {shares} | {'; '.join(f'{share:.2f}' for _, share in floors)} |")


if __name__ == "__main__":
    main()
