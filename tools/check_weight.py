#!/usr/bin/env python3
"""Holds what makes the project hard to read to what it is today, so that it only falls.

  tools/check_weight.py [--show]      --show: also the functions and names themselves, heaviest first

Counted are the functions of each crate, those whose contracts have more than 15 and more than 20 clauses, the clauses that
repeat an earlier one to the letter, and the names that two files of specs/ define. A count above the figure here fails; one
below it fails too, until the figure is taken down to it. No line of specs/ and proofs/ is longer than 120 columns.
The lines of src/, specs/ and proofs/ are counted by family of crates, and their sum is printed: a family has at most as many
hundreds as LINES says, and a figure that is too high by more than one hundred is taken down. The last line is 'N passed, M
failed'.
"""
import argparse
import collections
import glob
import os
import re
import sys

sys.dont_write_bytecode = True
from repository import HERE, crate_lines

# The most functions of a crate, and those that have more; docs/DECISIONS.md says why these are not taken apart.
FUNCTIONS = 100
MORE_FUNCTIONS = {"abt_sections": 107, "mem_disk": 101, "cmd_unpack_aosp_texts": 104, "words_tools": 101}
# How many functions have contracts of more clauses than this.
LONG_CONTRACTS = {15: 3, 20: 1}
# How many clauses are, to the letter, one that stands before, in any function of any crate.
REPEATED_CLAUSES = 746
# The names that two files define, each with what it says in the one and in the other.
NAMES_DEFINED_TWICE = {
    "Begins": "of a spool's and of a file's bytes, of which they are a front; of a text, which has grown by one",
    "Counts": "of a source, a spool and a partition; of a run, by the cause of what failed",
    "HasNone": "of a folder, into which no path leads to a file; of counts: nothing has failed",
    "IsReadOf": "of a word of `pack` for a fragment; of a word of the command line",
    "Header": "of a sparse image (`sparse_header_t`); of a boot image of either kind",
    "LaysBlocks": "a law of definitions; what a delivery leaves on a partition",
    "Leaves": "what an output holds that was broken off; the phase that an answer leaves",
    "expansion": "of blocks; of words `@FILE`",
    "goes_on": "of a part of a chunk; of a positional word in a run",
    "is_plain": "of a letter that is printed as it is; of a word of the command line",
    "is_short_of": "of what a delivery lacks; of a prefix of a name",
    "laid": "cells over zeros; parts one after another, each padded",
    "left_of": "of a chunk; of a byte after a crash; of words that were met",
    "number_at": "the same in `abt_sparse` and `abt_headers`, which depend on nothing of ours together",
    "number_of": "of a fault; of an open file, or 0 where none is open",
    "says": "of a fault and its text; of the words of a command line",
    "text_of": "the same: `cmd_common_texts` hands on that of `cmd_common_fields`",
    "writes": "where a sparse image writes; of a device that was written, how often it failed",
    "with_part": "a window with bytes in it; a placer with blocks taken",
}
# The longest line of specs/ and proofs/.
COLUMNS = 120

# The crates of each family, and how many hundreds of lines of src/, specs/ and proofs/ they have at most.
FAMILIES = {
    "devices": "abt_io sys_readers sys_file sys_devices sys_outputs mem_devices",
    "definitions and reading": "abt_sparse abt_chunks abt_runs",
    "writing": "abt_pieces abt_sparsify abt_placed",
    "flashing and verifying": "abt_flash_faults abt_flash abt_verify",
    "boot images": "abt_headers abt_sections cmd_common_fields cmd_common_texts cmd_unpack_aosp_texts cmd_common_findings",
    "system":
        "sys_text sys_refusals sys_disk sys_report sys_finish sys_numbered_names sys_std sys_identity sys_host sys_host_disk",
    "words": "words_values words_sayings words_orders words_tools words_program abootimg",
    "commands over sparse images": "cmd_common_listing cmd_common_sparse cmd_flash cmd_expand cmd_cut cmd_sparse_dispatch",
    "commands over boot images":
        "cmd_common_boot cmd_unpack cmd_unpack_aosp cmd_info cmd_pack_inputs cmd_pack_outputs cmd_pack cmd_boot_dispatch",
    "laws": "law_sparse law_sections law_engine law_boot law_pack law_words law_program",
    "memory": "mem_files mem_system mem_disk mem_commands",
    "for programs in C": "abt_c",
    "tests and benchmark":
        "mem_test_data mem_test_commands mem_test_boot_commands test_devices test_sparse test_verify test_flash test_boot test_boot_disk test_buffers test_ahead "
        "test_spool test_disk test_system speed",
}
LINES = {
    "devices": 113,
    "definitions and reading": 177,
    "writing": 186,
    "flashing and verifying": 139,
    "boot images": 244,
    "system": 111,
    "words": 148,
    "commands over sparse images": 164,
    "commands over boot images": 154,
    "laws": 83,
    "memory": 47,
    "for programs in C": 25,
    "tests and benchmark": 112,
}

FUNCTION = re.compile(r"\s*(?:pub(?:\(\w+\))? )?(?:const )?(?:unsafe )?(?:extern \"C\" )?(?:final )?fn (\w+)")
CLAUSE = re.compile(r"\s*(?:requires|ensures)\b")
DEFINED = re.compile(r"(?:(?:unfoldable|abbrev|opaque) )*pub (?:(?:unfoldable|abbrev|data|record) )*(?!mod\b|use\b)([^\s:({]+)")


def lines_below(crate, part, ending):
    """Each file of a part of a crate, by its path, with its lines."""
    for path in sorted(glob.glob(os.path.join(HERE, "crates", crate, part, "**", f"*.{ending}"), recursive=True)):
        with open(path, encoding="utf-8") as text:
            yield os.path.relpath(path, HERE), text.read().splitlines()


def contracts(crate):
    """The functions of a crate, each with the number of its clauses."""
    for path, lines in lines_below(crate, "src", "rt"):
        name, clauses = None, 0
        for line in [*lines, "fn end"]:
            found = FUNCTION.match(line)
            if found:
                if name:
                    yield clauses, f"{path}: {name}"
                name, clauses = found[1], 0
            clauses += bool(CLAUSE.match(line))


def clauses_of(crates):
    """Each clause, on one line."""
    for crate in crates:
        for _, lines in lines_below(crate, "src", "rt"):
            clause, open_braces = None, 0
            for line in lines:
                if clause is None and not CLAUSE.match(line):
                    continue
                clause = line if clause is None else f"{clause} {line}"
                open_braces += line.count("{") - line.count("}")
                if open_braces <= 0:
                    yield " ".join(clause.split())
                    clause, open_braces = None, 0


def lines_of(family):
    """How many lines of src/, specs/ and proofs/ the crates of a family have."""
    parts = (("src", "rt"), ("specs", "antt"), ("proofs", "antt"))
    found = (lines_below(crate, *part) for crate in FAMILIES[family].split() for part in parts)
    return sum(len(lines) for files in found for _, lines in files)


def with_long_lines(crates):
    """The files of definitions and of proofs that have a longer line."""
    for crate in crates:
        for folder in ("specs", "proofs"):
            for path, lines in lines_below(crate, folder, "antt"):
                if any(len(line) > COLUMNS for line in lines):
                    yield path


def defined_twice(crates):
    """The names that more than one file of specs/ defines, with those files."""
    places = collections.defaultdict(list)
    for crate in crates:
        for path, lines in lines_below(crate, "specs", "antt"):
            for name in {it[1] for it in map(DEFINED.match, lines) if it}:
                places[name].append(f"{crate}.{os.path.basename(path)[:-5]}")
    return sorted((it for it in places.items() if len(it[1]) > 1), key=lambda it: (-len(it[1]), it[0]))


def main():
    parser = argparse.ArgumentParser(description=__doc__, formatter_class=argparse.RawDescriptionHelpFormatter)
    parser.add_argument("--show", action="store_true")
    show, counts = parser.parse_args().show, collections.Counter()

    def that(is_so, what):
        counts[is_so] += 1
        if show or not is_so:
            print(f"{'ok' if is_so else 'NOT SO'}: {what}")

    crates, functions = list(crate_lines()[0]), []
    for crate in crates:
        own = list(contracts(crate))
        most = MORE_FUNCTIONS.get(crate)
        that(len(own) <= FUNCTIONS if most is None else len(own) == most,
             f"{crate} has {len(own)} functions; {f'at most {FUNCTIONS}' if most is None else most}")
        functions += own
    for clauses, figure in LONG_CONTRACTS.items():
        long = sum(many > clauses for many, _ in functions)
        that(long == figure, f"{long} functions have more than {clauses} clauses; {figure}")
    clauses = collections.Counter(clauses_of(crates))
    total = sum(clauses.values())
    repeated = total - len(clauses)
    that(repeated == REPEATED_CLAUSES, f"{repeated} of {total} clauses repeat an earlier one; {REPEATED_CLAUSES}")
    in_families = " ".join(FAMILIES.values()).split()
    that(sorted(in_families) == sorted(crates), f"each crate is of one family; {set(in_families) ^ set(crates) or 'it is'}")
    lines = {family: lines_of(family) for family in FAMILIES}
    for family, many in lines.items():
        hundreds = LINES.get(family, 0)
        that(hundreds - 2 < many / 100 <= hundreds, f"{family}: {many} lines; at most {hundreds} hundreds")
    print(f"{sum(lines.values())} lines of src/, specs/ and proofs/")
    long = list(with_long_lines(crates))
    that(not long, f"no line of specs/ and proofs/ has more than {COLUMNS} columns{': ' + ', '.join(long) if long else ''}")
    twice = defined_twice(crates)
    for name in sorted({name for name, _ in twice} ^ set(NAMES_DEFINED_TWICE)):
        that(False, f"{name} is {'not ' * (name in NAMES_DEFINED_TWICE)}defined in two files of specs/")
    that(len(twice) == len(NAMES_DEFINED_TWICE), f"{len(twice)} names are defined in two files of specs/")
    if show:
        print(*(f"{many} times: {clause}" for clause, many in clauses.most_common() if many > 9), sep="\n")
        print(*(f"{many} {name}" for many, name in sorted(functions, reverse=True) if many > min(LONG_CONTRACTS)), sep="\n")
        print(*(f"{name}: {', '.join(files)}" for name, files in twice), sep="\n")
    print(f"{counts[True]} passed, {counts[False]} failed")
    return 1 if counts[False] else 0


if __name__ == "__main__":
    sys.exit(main())
