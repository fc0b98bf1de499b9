#!/usr/bin/env python3
"""Makes the manual page of docs/COMMANDS.md, and prints it.

  tools/make_man.py docs/COMMANDS.md > abootimg.1

It knows the Markdown of that page: headings of one and two levels, paragraphs, lists, tables, blocks of code, and words in
backquotes. A table becomes a list: its first cell the term, the others what is said of it.
"""
import re
import sys
from pathlib import Path

TABLE = Path(__file__).resolve().parent.parent / "crates/words_orders/src/table.rt"


def version():
    """The program's, as the table of the command line has it."""
    return re.search(r'pub const VERSION: &str = "(.*)";', TABLE.read_text(encoding="utf-8"))[1]


def escaped(text):
    text = text.replace("\\", "\\e").replace("-", "\\-").replace("'", "\\(aq").replace("^", "\\(ha").replace("~", "\\(ti")
    return text


def inline(text):
    """Words in backquotes are bold, and links are their text."""
    text = re.sub(r"\[([^]]+)\]\([^)]+\)", r"\1", text)
    parts = re.split(r"`([^`]*)`", text)
    made = "".join(f"\\fB{escaped(it)}\\fR" if at % 2 else escaped(it) for at, it in enumerate(parts))
    return "\\&" + made if made.startswith((".", "\\(aq")) else made


def cells_of(line):
    return [it.strip() for it in line.strip().strip("|").split("|")]


def table(lines):
    head = cells_of(lines[0])
    for line in lines[2:]:
        cells = cells_of(line)
        yield ".TP"
        yield inline(cells[0])
        said = []
        for name, cell in zip(head[1:], cells[1:]):
            if cell:
                said.append(f"{inline(name)}: {inline(cell)}" if len(head) > 2 and name == "what to do" else inline(cell))
        yield "; ".join(said) + "."


def blocks(text):
    """Runs of lines that belong together, each with its kind."""
    lines, at = text.split("\n"), 0
    while at < len(lines):
        line = lines[at]
        if line.startswith("```"):
            end = lines.index("```", at + 1)
            yield "code", lines[at + 1 : end]
            at = end + 1
            continue
        if not line.strip():
            at += 1
            continue
        kind = "table" if line.startswith("|") else "head" if line.startswith("#") else "item" if line.startswith("- ") else "text"
        end = at + 1
        while end < len(lines) and lines[end].strip() and not lines[end].startswith(("```", "- ", "#")) and kind != "head":
            if (kind == "table") != lines[end].startswith("|"):
                break
            end += 1
        yield kind, lines[at:end]
        at = end


def main():
    with open(sys.argv[1], encoding="utf-8") as text:
        page = text.read()
    print(f'.TH ABOOTIMG 1 "" "abootimg {version()}" "User Commands"')
    print(".SH NAME\nabootimg \\- Android sparse and boot images: expand, cut, flash, pack, unpack")
    print(".SH SYNOPSIS")
    for line in re.findall(r"(?m)^`(abootimg [^`]+)`$", page):
        print(f".B {escaped(line)}\n.br")
    print(".SH DESCRIPTION")
    for kind, lines in blocks(page):
        if kind == "head":
            level, title = re.match(r"(#+) (.*)", lines[0]).groups()
            if len(level) > 1:
                print((".SH " if len(level) == 2 else ".SS ") + inline(title.upper()))
        elif kind == "code":
            print(".PP\n.EX")
            print("\n".join("\\&" + escaped(it) if it.startswith((".", "'")) else escaped(it) for it in lines))
            print(".EE")
        elif kind == "table":
            print("\n".join(table(lines)))
            print(".PP")
        elif kind == "item":
            term, _, said = " ".join([lines[0][2:], *(it.strip() for it in lines[1:])]).partition(": ")
            print(f".TP\n{inline(term)}\n{inline(said)}")
        else:
            print(".PP\n" + inline(" ".join(it.strip() for it in lines)))


if __name__ == "__main__":
    main()
