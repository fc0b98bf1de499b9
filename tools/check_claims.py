#!/usr/bin/env python3
"""Compares docs/CLAIMS.md, docs/claims.tsv and the names in the other documents with the repository.

  tools/check_claims.py [--show]

Of docs/claims.tsv, whose head explains its columns:
  - each definition that must be believed is defined in the file of specs/ that is named, and all of them together have fewer
    than 1556 lines, with the comments above them;
  - each claim's function is public (in a crate that only the program depends on it may be private), its contract has a
    clause of each name, the definitions are there, and so is each must-fail edit, in the function's crate or one below it
    (further edits in its more-edits/); where a function names no edit, words say why; a claim with further edits has one
    that the gate tries;
  - each public function of a crate that has a claim is named by one, or in the list of those that no claim names.
Of crates.txt: each crate's name begins with the prefix of its layer. No two crates define a public type of one name in src/,
but those that are listed here with a reason.
Of docs/CLAIMS.md: the claims are numbered in turn, each of them has rows in docs/claims.tsv, and no other number has; the page
has at most 400 lines.
Of the code: no call of the engine counts in a meter of its own, beside the one that it borrows; each loop of the engine ticks
once in each pass; each lemma of proofs/ is named by another one, by an answer or by a contract.
Of all documents: no line is longer than 120 columns, each file that a link or a path in backquotes names is there, and
docs/ARCHITECTURE.md describes each crate of crates.txt. What docs/CONTRACTS.md quotes is in the files that it links to, line by
line. What a page names by its crate is there too (`check_names` says which
names these are, and when one is there). The last line is 'N passed, M failed'.
"""
import argparse
import functools
import glob
import os
import re
import subprocess
import sys

HERE = os.path.dirname(os.path.dirname(os.path.abspath(__file__)))
MOST_LINES = 1556
MOST_PAGE_LINES = 400
PAGE, ROWS = "docs/CLAIMS.md", "docs/claims.tsv"
# How many columns a row has, by its first one. A number there is that of a claim, whose rows may leave columns empty.
COLUMNS = {"definition": 5, "claim": 7, "unclaimed": 4}
DOCUMENTS = ("README.md", "CONTRIBUTING.md", "CHANGELOG.md", "docs/*.md")
# What these do is called by the program alone, and most of it only in its own crate.
OF_THE_PROGRAM = (
    "sys_devices", "words_values", "words_sayings", "words_orders", "words_tools", "sys_refusals", "sys_disk", "mem_disk",
    "sys_report", "sys_finish", "sys_host", "sys_host_disk", "cmd_common_sparse", "cmd_expand", "cmd_cut", "cmd_flash",
    "cmd_sparse_dispatch", "cmd_common_boot", "cmd_unpack", "cmd_unpack_aosp", "cmd_info", "cmd_pack_inputs",
    "cmd_pack_outputs", "cmd_pack", "cmd_boot_dispatch", "mem_commands", "words_program", "abootimg",
)

# What the name of a crate begins with, and the two crates that are programs. docs/ARCHITECTURE.md says what each means.
PREFIXES = ("abt_", "sys_", "words_", "cmd_", "law_", "mem_", "test_")
PROGRAMS = ("abootimg", "speed")

# The public types of src/ that two crates define, and why: no crate sees both but where that is said.
TYPES_DEFINED_TWICE = {
    "Sink": "an output of `sys_finish`; in `speed`, a program by itself, an output that keeps a checksum alone",
}

# The program begins to count, as the benchmark does, and what it prints and shows is counted by nobody.
MAKE_METERS = ("abootimg", "sys_report", "sys_text", "speed")

# The engine: turns are counted where its code ticks, so each of its loops does.
ENGINE = (
    "abt_io", "sys_readers", "mem_devices", "abt_sparse", "abt_chunks", "abt_runs", "abt_pieces", "abt_sparsify",
    "abt_placed", "abt_flash_faults", "abt_flash", "abt_verify", "abt_headers", "abt_sections",
)

# The crates of commands whose loops over what is read and written tick too.
COMMANDS = ("cmd_flash", "cmd_expand", "cmd_cut", "cmd_pack_inputs")

# What asks the system for anything, and is trusted, and how many lines of code that is at most; what prints a report and
# holds the standard streams; and what is no part of the program.
SYSTEM = ("crates/sys_std/src/os_file.rt", "crates/sys_std/src/system.rt")
MOST_TRUSTED = 143
STREAMS = (
    "crates/sys_report/src/report.rt", "crates/sys_report/src/standard_output.rt", "crates/abootimg/src/main.rt",
    "crates/abootimg/src/tool.rt", "crates/abootimg/src/image_id.rt",
)
OUTSIDE = ("speed", "abt_c")

# How many loops of a file tick nowhere, and why.
WITHOUT_A_TICK = {
    "crates/mem_devices/src/pick.rt": 1,  # what a crash leaves, in a device of tests that has no meter
    "crates/sys_readers/src/tries.rt": 2,  # a call that a signal interrupted is tried again: no turn, and no call of a device
    "crates/abt_runs/src/words.rt": 2,  # the words of one block, for which `tick_words` ticks
    "crates/cmd_expand/src/open_images.rt": 1,  # numbers of pieces are compared: nothing is read
    "crates/cmd_cut/src/cut_loop.rt": 1,  # the names of pieces are looked at, before anything is read
    "crates/cmd_pack_inputs/src/fragment_gaps.rt": 2,  # ranges of entries that were read: nothing is read
    "crates/cmd_pack_inputs/src/own_ramdisks.rt": 1,  # files are opened: so are those of the two below
    "crates/cmd_pack_inputs/src/parts.rt": 1,
    "crates/cmd_pack_inputs/src/ramdisks.rt": 1,
}
# Files of which a loop ticks in the one arm that goes on.
TICK_IN_AN_ARM = ("crates/cmd_expand/src/overlay_loop.rt",)


class Checks:
    def __init__(self, show):
        self.passed, self.failed, self.show = 0, 0, show

    def that(self, is_so, what):
        if is_so:
            self.passed += 1
            if self.show:
                print(f"ok: {what}")
        else:
            self.failed += 1
            print(f"NOT SO: {what}")
        return is_so


@functools.lru_cache(maxsize=None)
def lines_of(path):
    with open(os.path.join(HERE, path), encoding="utf-8") as text:
        return text.read().split("\n")


def crates():
    """The crates of this repository, each with those that it depends on, nearest last."""
    uses = {}
    for line in lines_of("crates.txt"):
        line = line.split("#")[0].strip()
        if line:
            uses[line.split(":")[0].split()[0]] = line.partition(":")[2].split()
    found = {}

    def below(name):
        names = []
        for it in uses[name]:
            if it in uses:
                names += [more for more in [*below(it), it] if more not in names]
        return names

    for name in uses:
        found[name] = below(name)
    return found


def tables(path):
    """The rows of each table, as lists of cells, with the table's first row and the line number."""
    head = None
    for number, line in enumerate(lines_of(path), 1):
        if not line.startswith("|"):
            head = None
            continue
        cells = [it.strip() for it in line.strip().strip("|").split("|")]
        if head is None:
            head = cells
        elif not all(re.fullmatch(r":?-+:?", it) for it in cells):
            yield head, cells, number


def words_in(cell):
    return re.findall(r"`([^`]+)`", cell)


def rows_of_claims(checks):
    """The rows of docs/claims.tsv by their kind, each as its cells and its line number. What a row leaves out is empty."""
    rows = {kind: [] for kind in COLUMNS}
    for number, line in enumerate(lines_of(ROWS), 1):
        if line.startswith("#") or not line:
            continue
        cells = line.split("\t")
        kind = "claim" if cells[0].isdecimal() else cells[0]
        lacks = COLUMNS.get(kind, 0) - len(cells)
        is_whole = lacks == 0 and all(cells) or kind == "claim" and lacks >= 0 and all(cells[:2])
        is_row = is_whole and all(it == " ".join(it.split()) for it in cells)
        if checks.that(is_row, f"{ROWS}, line {number} is a row of a known kind, with its columns and single blanks"):
            rows[kind].append((cells + [""] * lacks, number))
    return rows


def definition(crate, file, name):
    """How many lines a definition has in a file of specs/, with the remark above it, or None."""
    path = f"crates/{crate}/specs/{file}.antt"
    if not os.path.isfile(os.path.join(HERE, path)):
        return None
    text = lines_of(path)
    start = re.compile(r"(?:(?:unfoldable|abbrev|pub|opaque|data|record) )*pub (?:abbrev |data |record )?" + re.escape(name) + r"(?=[ :]|$)")
    for at, line in enumerate(text):
        if start.match(line):
            last = at
            while last + 1 < len(text) and text[last + 1].strip():
                last += 1
            while at > 0 and text[at - 1].startswith("--"):
                at -= 1
            return last - at + 1
    return None


def contract(crate, function):
    """The names of the clauses of a function of claims, '-' for one without a name, or None where there is no such function."""
    owner, _, name = function.rpartition("::")
    head = re.compile(rf"(\s*)(?:pub(?:\(crate\))? (?:const )?(?:extern \"C\" )?|final )?fn {re.escape(name)}\b")
    for path in sorted(glob.glob(os.path.join(HERE, "crates", crate, "src", "**", "*.rt"), recursive=True)):
        inside = ""
        text = lines_of(os.path.relpath(path, HERE))
        for at, line in enumerate(text):
            if re.match(r"(?:pub )?(?:impl|trait)\b", line):
                inside = line
            elif line.startswith("}"):
                inside = ""
            found = head.match(line)
            if not found or (owner and not re.search(rf"\b{re.escape(owner)}\b", inside)) or (not owner and found[1]):
                continue
            if "pub " not in line and "trait" not in inside and crate not in OF_THE_PROGRAM:
                continue
            clauses = []
            for more in text[at:]:
                clause = re.match(r"\s*(?:ensures|requires)(?: (\w+))? \{", more)
                if clause:
                    clauses.append(clause[1] or "-")
                elif re.match(rf"{found[1]}\{{|.*\{{\}}$", more) or (clauses and re.match(r"\s*(?:///|(?:pub )?fn )", more)):
                    break
            return clauses
    return None


def has_edit(name, names, folder="must-fail"):
    """Whether one of these crates has an edit of that name in the folder."""
    return any(os.path.isfile(os.path.join(HERE, "crates", it, folder, name + ".edit")) for it in names)


def check_definitions(checks, rows):
    total = 0
    for (_, names, files, *_), number in rows:
        places = [it.partition("/")[::2] for it in files.split()]
        for name in names.split():
            crate, file = next((it for it in places if definition(*it, name)), places[0])
            lines = definition(crate, file, name)
            total += lines or 0
            checks.that(lines, f"{ROWS}, line {number}: {crate}/specs/{file}.antt defines {name}")
    checks.that(0 < total < MOST_LINES, f"the definitions to be believed have {total} lines, fewer than {MOST_LINES}")


def check_claims(checks, rows, under):
    planted, tried = {}, {}
    for (claim, function, of_contract, defined_by, gate, more, why_none), number in rows:
        planted[function] = planted.get(function, "") + gate + more + why_none
        crate, _, name = function.partition("::")
        clauses = contract(crate, name) if crate in under else None
        where = f"{ROWS}, line {number}: {function}"
        if not checks.that(clauses is not None, f"{where} is a function of claims with a contract"):
            continue
        for clause in of_contract.split():
            checks.that(clause in clauses, f"{where} has a clause {clause}")
        for word in defined_by.split():
            file, _, defined = word.rpartition(".")
            places = [it for it in [crate, *reversed(under[crate])] if definition(it, file, defined)]
            checks.that(places, f"{where}: {word} is defined in {crate} or below it")
        for edit in gate.split():
            checks.that(has_edit(edit, [crate, *under[crate]]), f"{where}: there is a must-fail edit {edit}")
        for edit in more.split():
            checks.that(has_edit(edit, [crate, *under[crate]], "more-edits"), f"{where}: there is a further edit {edit}")
        tried.setdefault(claim, []).append((bool(gate), bool(more)))
    for function, edits in planted.items():
        checks.that(edits, f"{ROWS}: {function} names a must-fail edit, or says why not")
    for claim, rows_of in tried.items():
        is_tried = any(gate for gate, _ in rows_of) or not any(more for _, more in rows_of)
        checks.that(is_tried, f"{ROWS}: claim {claim} has a must-fail edit that the gate tries, or names no other")


def check_page(checks, rows):
    """Of docs/CLAIMS.md: its claims are those that have rows, and are numbered in turn."""
    section = "\n".join(lines_of(PAGE)).partition("\n## 2.")[2].partition("\n## 3.")[0]
    numbers = re.findall(r"(?m)^(\d+)\. ", section)
    with_rows = {cells[0] for cells, _ in rows}
    for at, number in enumerate(numbers, 1):
        checks.that(number == str(at), f"{PAGE}: claim {number} has its turn")
        checks.that(number in with_rows, f"{ROWS}: claim {number} has rows")
    checks.that(with_rows <= set(numbers), f"{PAGE} has each claim that has rows: {len(with_rows)}")
    length = len("\n".join(lines_of(PAGE)).rstrip("\n").split("\n"))
    checks.that(length <= MOST_PAGE_LINES, f"{PAGE} has {length} lines, at most {MOST_PAGE_LINES}")


def public_functions(crate):
    """The public functions of a crate, those of a type or trait after its name."""
    head = re.compile(r"( *)(?:pub (?:const )?(?:extern \"C\" )?|final )fn (\w+)")
    for path in glob.glob(os.path.join(HERE, "crates", crate, "src", "**", "*.rt"), recursive=True):
        owner = ""
        for line in lines_of(os.path.relpath(path, HERE)):
            inside = re.match(r"(?:pub )?(?:impl|trait)\b(?:<.*?>+)?(?: .* for)? (\w+)", line)
            owner = inside[1] + "::" if inside else "" if line.startswith("}") else owner
            found = head.match(line)
            if found:
                yield (owner if found[1] else "") + found[2]


def check_public(checks, claims, others, under):
    """Each public function of a crate that has a claim is named, by a claim or by a row of those that no claim names."""
    named = {cells[1] for cells, _ in claims}
    for (_, crate, functions, _), number in others:
        checks.that(crate in under, f"{ROWS}, line {number}: there is a crate {crate}")
        of_crate = set(public_functions(crate))
        for name in functions.split():
            checks.that(name in of_crate or name == "*", f"{ROWS}, line {number}: {crate} has a public function {name}")
        named |= {f"{crate}::{it}" for it in (of_crate if functions == "*" else functions.split())}
    for crate in sorted({it.partition("::")[0] for it in named} & set(under)):
        for function in public_functions(crate):
            checks.that(f"{crate}::{function}" in named, f"{ROWS} names {crate}::{function}")


def check_documents(checks, under):
    for path in sorted(it for pattern in DOCUMENTS for it in glob.glob(os.path.join(HERE, pattern))):
        path = os.path.relpath(path, HERE)
        long = [number for number, line in enumerate(lines_of(path), 1) if len(line) > 120]
        checks.that(not long, f"{path} has no line of more than 120 columns{': ' + str(long[:5]) if long else ''}")
        text = "\n".join(lines_of(path))
        text = re.sub(r"(?ms)^```.*?^```$", "", text)
        links = {it.partition("#")[0] for it in re.findall(r"\]\(([^)\s]+)\)", text) if not re.match(r"[a-z]+:|#", it)}
        folder = os.path.dirname(os.path.join(HERE, path))
        for link in sorted(links):
            checks.that(os.path.exists(os.path.join(folder, link)), f"{path}: the link {link} leads to a file")
        paths = set(re.findall(r"`((?:crates|docs|tools|bench|examples)/[\w./-]+)`", text))
        paths |= {"crates/" + it for it in re.findall(r"`(\w+/src/[\w/]+\.rt)`", text)}
        # A file without its folder stands beside the one that is named before it on the line.
        for line in text.split("\n"):
            beside = ""
            for it in re.findall(r"`([\w/]+\.rt)`", line):
                if "/" in it:
                    beside = os.path.dirname(it)
                elif beside:
                    paths.add(f"crates/{beside}/{it}")
        for it in sorted(it for it in paths if "NAME" not in it):
            checks.that(os.path.exists(os.path.join(HERE, it)), f"{path}: {it} is there")
    page = subprocess.run(
        [os.path.join(HERE, "tools/make_man.py"), os.path.join(HERE, "docs/COMMANDS.md")], stdout=subprocess.PIPE, text=True)
    for command in re.findall(r"(?m)^## ([a-z]+)$", "\n".join(lines_of("docs/COMMANDS.md"))):
        checks.that(f".SH {command.upper()}\n" in page.stdout, f"the manual page has a section on {command}")
    described = "\n".join(lines_of("docs/ARCHITECTURE.md"))
    for crate in under:
        checks.that(f"`{crate}`" in described, f"docs/ARCHITECTURE.md describes the crate {crate}")


def check_quotes(checks):
    """Each line of a code block of docs/CONTRACTS.md is a line of a file of crates/ to which a link of the page leads."""
    path = "docs/CONTRACTS.md"
    text = "\n".join(lines_of(path))
    files = re.findall(r"\]\(\.\./(crates/[^)\s]+)\)", text)
    there = {line for file in files for line in lines_of(file)}
    quoted = [line for block in re.findall(r"(?ms)^```\n(.*?)^```$", text) for line in block.split("\n")]
    missing = [line for line in quoted if line not in there]
    where = f": not '{missing[0].strip()}'" if missing else ""
    checks.that(quoted and not missing, f"{path} quotes {len(quoted)} lines as they are in the files that it links to{where}")


@functools.lru_cache(maxsize=None)
def names_of(crate):
    """The names that the files of src/ define or hand on: those of a block both alone and after the name of its type."""
    item = re.compile(r"\s*(?:(?:pub(?:\(\w+\))?|const|unsafe|final|ghost|extern \"C\") )*"
                      r"(?:(?:fn|struct|enum|union|trait|type|mod|const|static) )?(\w+)(?=[\s:(<;,={]|$)")
    block = re.compile(r"(?:pub(?:\(\w+\))? )?(?:impl|trait|enum|struct)\b(?:<.*?>+)?(?: .* for)? (\w+)")
    keyword = re.compile(r"\b(?:fn|struct|enum|union|trait|type|mod|const|static|ghost)\b")
    names = set()
    for path in glob.glob(os.path.join(HERE, "crates", crate, "src", "**", "*.rt"), recursive=True):
        names.add(os.path.basename(path))
        names.add(os.path.basename(path)[:-3])
        owner = ""
        for line in (it.split("//")[0].rstrip() for it in lines_of(os.path.relpath(path, HERE))):
            found = item.match(line)
            inside = block.match(line)
            if found and (keyword.search(line[: found.end()]) or (owner and re.match(r" {4}(?:pub )?[\w]+(?:[:({,]| \{|$)", line))):
                names |= {found[1], f"{owner}::{found[1]}"} if owner and line.startswith(" ") else {found[1]}
            owner = inside[1] if inside else "" if line.startswith("}") else owner
        handed = re.findall(r"(?ms)^pub use ([^;]*);", "\n".join(lines_of(os.path.relpath(path, HERE))))
        names.update(word for it in handed for word in re.findall(r"\w+", it))
    return names


def has_other(crate, name):
    """Whether a crate has a file of definitions, a definition or an edit of this name."""
    specs = [os.path.basename(it)[:-5] for it in glob.glob(os.path.join(HERE, "crates", crate, "specs", "*.antt"))]
    is_edit = has_edit(name, [crate]) or has_edit(name, [crate], "more-edits")
    return is_edit or name in specs or any(definition(crate, it, name) for it in specs)


def names_in(text, under):
    """What a page names by its crate: the crate, the name after it, and the words as they are there."""
    for span in re.findall(r"`([^`]+)`", text):
        for crate, name in re.findall(r"(?<![\w:])(\w+)::(\w+(?:::\w+)*)", span):
            if crate in under:
                yield crate, name, f"{crate}::{name}"
    for name, word, crate in re.findall(r"`(\w+)`\s+(of|in)\s+`(\w+)`", text):
        if crate in under:
            yield crate, name, f"{name} {word} {crate}"
    for crate, section in re.findall(r"(?ms)^#+ `(\w+)`$(.*?)(?=^#|\Z)", text):
        for name in re.findall(r"`(\w+\.rt)`", section):
            if crate in under:
                yield crate, name, f"{crate}/src/{name}"


def paths_in(text):
    """The paths of crates that a page names, from the repository's top on."""
    for span in re.findall(r"`([^`]+)`", text):
        yield from re.findall(r"(?<![\w/])crates/[\w./*-]*[\w*]", span)
        yield from (f"crates/{it}" for it in re.findall(r"(?<![\w/])\w+/src/[\w/]+\.rt", span))


def check_names(checks, claims, under):
    """What a page names by its crate is there: of README.md, CONTRIBUTING.md and docs/, outside code blocks.

    So are the functions of the rows of claims.

    Such names are in backquotes: `crate::name` and `crate::Type::name`; `name` of (or in) `crate`; `file.rt` in a section that
    is headed by the crate; paths `crate/src/file.rt` and `crates/..`, where * is any letters. Paths with NAME are examples, and
    crates/*/out is made by the tools. A path is there where a file or folder is. A name is there where src/ of the crate has a
    file of this name, defines it (by fn, struct, enum, trait, type, mod, const, static or ghost, or as a variant or a field), or
    hands it on by `pub use`. Behind a type's name it must be defined in a block of that type: its enum, struct, impl or trait.
    `name` of `crate` may also be a file or a definition of specs/, or an edit.
    """
    pages = [os.path.relpath(it, HERE) for pattern in DOCUMENTS for it in glob.glob(os.path.join(HERE, pattern))]
    for path in sorted({*pages, ROWS} - {"CHANGELOG.md"}):
        text = re.sub(r"(?ms)^```.*?^```$", "", "\n".join(lines_of(path)))
        if path == ROWS:
            text = "\n".join(f"`{cells[1]}`" for cells, _ in claims)
        found = {it: bool(glob.glob(os.path.join(HERE, it))) for it in paths_in(text) if not re.search(r"NAME|/out$", it)}
        for crate, name, words in names_in(text, under):
            found[words] = name in names_of(crate) or (" " in words and has_other(crate, name))
        for words, is_there in sorted(found.items()):
            checks.that(is_there, f"{path}: {words} is there")


def check_rules(checks, rows):
    """Of the table of rules in docs/ARCHITECTURE.md: each definition stands in specs/ of the crate that is named."""
    for cells, number in rows:
        place, *names = words_in(cells[1])
        crate = place.partition("/")[0]
        files = [os.path.basename(it)[:-5] for it in glob.glob(os.path.join(HERE, "crates", crate, "specs", "*.antt"))]
        for name in names:
            found = any(definition(crate, file, name) for file in files)
            checks.that(found, f"docs/ARCHITECTURE.md, line {number}: {crate} defines {name}")


def check_crates(checks, under):
    """Each crate is named by its layer, and the name of a public type of src/ says which type it is."""
    public = re.compile(r"pub (?:struct|enum|union|trait|type) (\w+)")
    defined = {}
    for crate in under:
        checks.that(crate.startswith(PREFIXES) or crate in PROGRAMS, f"crates.txt: {crate} begins with the prefix of a layer")
        for path in glob.glob(os.path.join(HERE, "crates", crate, "src", "**", "*.rt"), recursive=True):
            for found in map(public.match, lines_of(os.path.relpath(path, HERE))):
                if found:
                    defined.setdefault(found[1], set()).add(crate)
    twice = {name for name, crates_with in defined.items() if len(crates_with) > 1}
    for name in sorted(twice - set(TYPES_DEFINED_TWICE)):
        checks.that(False, f"one crate defines a public type {name}: {', '.join(sorted(defined[name]))}")
    for name in TYPES_DEFINED_TWICE:
        checks.that(name in twice, f"two crates define a public type {name}, as tools/check_claims.py says")
    once = len(defined) - len(twice)
    checks.that(once, f"{once} public types have a name of their own")


def check_meters(checks, under):
    for crate in (it for it in under if it not in MAKE_METERS and not it.startswith("test_")):
        files = glob.glob(os.path.join(HERE, "crates", crate, "src", "**", "*.rt"), recursive=True)
        made = [os.path.relpath(it, HERE) for it in files if "Meter::new(" in "\n".join(lines_of(it))]
        checks.that(not made, f"{crate} makes no meter{': ' + ', '.join(made) if made else ''}")


def check_system(checks, under):
    """What asks the system for anything is in the files that are trusted, and they are short."""
    asks = re.compile(r"^use (?:std::(?:fs|os)\b|std::rt::|std::\{[^}]*\bfs\b|os\b|libc\b)")
    for crate in (it for it in under if it not in OUTSIDE and not it.startswith("test_")):
        for path in sorted(glob.glob(os.path.join(HERE, "crates", crate, "src", "**", "*.rt"), recursive=True)):
            path = os.path.relpath(path, HERE)
            if path not in SYSTEM and path not in STREAMS:
                used = [it for it in lines_of(path) if asks.match(it)]
                checks.that(not used, f"{path} asks the system for nothing{': ' + used[0] if used else ''}")
    lines = [it.strip() for path in SYSTEM for it in lines_of(path)]
    code = [it for it in lines if it and not re.match(r"//|use |ghost |#", it)]
    checks.that(len(code) <= MOST_TRUSTED, f"{len(code)} lines of code are trusted of the system, at most {MOST_TRUSTED}")


def loops_of(path):
    """Of each loop of a file the line number, and the statements of its body that stand at the body's own depth.

    The code is laid out by `rt fmt`: the line that ends a body stands as deep as the one that begins the loop.
    """
    text = [it.split("//")[0].rstrip() for it in lines_of(path)]
    for at, line in enumerate(text):
        begins_one = re.search(r"(?:^|[\s=>(])(?:loop \{|while\b|for\b(?!<).*\bin\b)", line)
        if not begins_one or re.match(r"\s*(?:ensures|requires|ghost)\b", line):
            continue
        depth = len(line) - len(line.lstrip())
        begins = next(it for it in range(at, len(text)) if text[it].endswith("{"))
        ends = next(it for it in range(begins + 1, len(text)) if re.match(rf" {{{depth}}}\}}", text[it]))
        body = [it for it in text[begins + 1 : ends] if it.strip()]
        yield at + 1, [it.strip() for it in body if len(it) - len(it.lstrip()) == depth + 4], body


def check_ticks(checks):
    """A loop's tick is its first statement; or its last, where no pass that goes on leaves it out."""
    for crate in ENGINE + COMMANDS:
        for path in sorted(glob.glob(os.path.join(HERE, "crates", crate, "src", "**", "*.rt"), recursive=True)):
            path = os.path.relpath(path, HERE)
            without, loops = [], list(loops_of(path))
            for number, own, body in loops:
                if path in TICK_IN_AN_ARM and [it.strip() for it in body].count("m.tick();") == 1:
                    continue
                goes_on = any(re.search(r"\bcontinue\b", it) for it in body)
                if own[:1] != ["m.tick();"] and (own[-1:] != ["m.tick();"] or goes_on):
                    without.append(number)
            allowed = WITHOUT_A_TICK.get(path, 0)
            told = f" but {allowed}" if allowed else ""
            lines = f": not in lines {without}" if without else ""
            if loops or allowed:
                checks.that(len(without) == allowed, f"{path}: each loop ticks{told}{lines}")


def check_lemmas(checks, under):
    """A lemma is named where its name stands outside its own clauses, which begin with it."""
    texts = {}
    for crate in under:
        for part in ("src", "specs", "proofs"):
            for path in glob.glob(os.path.join(HERE, "crates", crate, part, "**", "*.*"), recursive=True):
                texts[os.path.relpath(path, HERE)] = lines_of(path)
    named = set()
    for lines in texts.values():
        for line in lines:
            # (what an import names is used, or the prover says so)
            words = re.findall(r"[^\s(){}\[\],;.λ]+", line)
            own = words[1:2] if words[:1] == ["pub"] else words[:1]
            # (a line that ends with a comma is an item of a tuple, and begins no clause)
            named.update(words[len(own):] if re.match(r"\s{0,2}\S", line) and not line.endswith(",") else words)
    unnamed = []
    for path, lines in texts.items():
        if f"{os.sep}proofs{os.sep}" not in path or os.path.basename(path) in ("Answers.antt", "Invariants.antt", "Proof.antt"):
            continue
        for line in lines:
            lemma = re.match(r"\s{0,2}(?:abbrev )?(?:pub )?([A-Za-z][^\s:({]*) :", line)
            if lemma and lemma[1] not in named:
                unnamed.append(f"{path}: {lemma[1]}")
    checks.that(not unnamed, f"each lemma is named by another{': ' + ', '.join(unnamed) if unnamed else ''}")


def main():
    parser = argparse.ArgumentParser(description=__doc__, formatter_class=argparse.RawDescriptionHelpFormatter)
    parser.add_argument("--show", action="store_true", help="print each check, also where it passes")
    checks = Checks(parser.parse_args().show)
    under = crates()
    rows = rows_of_claims(checks)
    checks.that(rows["definition"] and rows["claim"], f"{ROWS} has rows of definitions and of claims")
    check_definitions(checks, rows["definition"])
    check_claims(checks, rows["claim"], under)
    check_page(checks, rows["claim"])
    check_public(checks, rows["claim"], rows["unclaimed"], under)
    check_rules(checks, [(cells, number) for head, cells, number in tables("docs/ARCHITECTURE.md") if head[0] == "rule"])
    check_crates(checks, under)
    check_meters(checks, under)
    check_system(checks, under)
    check_ticks(checks)
    check_lemmas(checks, under)
    check_documents(checks, under)
    check_quotes(checks)
    check_names(checks, rows["claim"], under)
    print(f"{checks.passed} passed, {checks.failed} failed")
    return 1 if checks.failed else 0


if __name__ == "__main__":
    sys.exit(main())
