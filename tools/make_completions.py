#!/usr/bin/env python3
"""make_completions.py [--check | --print SHELL | --tools]: writes crates/words_orders/src/completion_texts.rt, what
`abootimg completions SHELL` prints, from the table of the command line, crates/words_orders/src/table.rt.

With --check nothing is written: it fails where that file is stale, or where docs/COMMANDS.md leaves out a command, or
a word or an option of one. Its last line is then 'N passed, M failed'. With --print the text for one shell is printed,
and with --tools the names of AOSP's tools whose words the program reads.
"""
import re
import sys
from collections import Counter
from pathlib import Path

ROOT = Path(__file__).resolve().parent.parent
TABLE = ROOT / "crates/words_orders/src/table.rt"
TEXTS = ROOT / "crates/words_orders/src/completion_texts.rt"
COMMANDS = ROOT / "docs/COMMANDS.md"
TOOLS = ROOT / "crates/words_tools/src/tools.rt"
TOOL_TABLES = (ROOT / "crates/words_tools/src/table.rt", ROOT / "crates/words_tools/src/unpack_bootimg.rt")
# The words that an option of a tool takes, in place of a file.
WORDS_OF = {"format": "info mkbootimg", "ramdisk_type": "none platform recovery dlkm"}


# ---- reading the table

class Row:
    """A word, an option or a flag of a command."""

    def __init__(self, fields):
        self.name, self.help, place = fields["name"], fields["help"], fields["place"]
        self.is_flag = "Flag" in place
        self.is_option = self.is_flag or "Option" in place
        self.letter = place[-3] if "ShortFlag" in place else self.name if "Letter" in place else None
        self.is_letter_alone = "Letter" in place
        self.is_taken = "NotTaken" not in fields["value"]

    def options(self):
        """As they are typed, the letter first."""
        if self.is_letter_alone:
            return [f"-{self.letter}"]
        letter = [f"-{self.letter}"] if self.letter else []
        return letter + [f"--{self.name}"] if self.is_option else []


class Command:
    """A command, with the rows of its words and options."""

    def __init__(self, name, about, rows):
        self.name, self.about, self.rows = name, about, rows


TEXT = r'"((?:[^"\\]|\\.)*)"'


def parts_of(text):
    """The text cut at the commas that stand in no quotes and no brackets."""
    found = re.findall(r'(?:"(?:[^"\\]|\\.)*"|\'.\'|[\[({](?:"(?:[^"\\]|\\.)*"|[^\])}])*[\])}]|[^,])+', text, re.S)
    return [part.strip() for part in found if part.strip()]


def fields_of(text, shared):
    """The fields of a struct's literal, those of its base included. `shared` has texts and rows by name."""
    fields = {}
    for part in parts_of(text):
        if part.startswith(".."):
            fields = {**shared[part[2:]], **fields}
            continue
        name, value = (half.strip() for half in part.split(":", 1))
        if value.startswith('"'):
            fields[name] = re.sub(r"\\(.)", r"\1", value[1:-1])
        else:
            fields[name] = shared.get(value, value)
    return fields


def rows_of(text, shared):
    """The rows of an array: each a literal on a line of its own, or the name of a constant."""
    items = re.findall(r"Row \{(.*)\},$|\b([A-Z]+)(?=,|$)", text, re.M)
    return [Row(shared[name] if name else fields_of(body, shared)) for body, name in items]


def rows_by_work(text, function):
    """The name of the rows that this function gives to each kind of work; `_` stands for all others."""
    body = re.search(rf"fn {function}\(.*?\n    }}\n", text, re.S)[0]
    arms = re.findall(r"^ *([\w:| ]+) => &(\w+),$", body, re.M)
    return {work: name for works, name in arms for work in works.split(" | ")}


def arrays_of(path, shared):
    """The arrays of rows of a file, by name. `shared` gets the texts and rows that it names."""
    text = re.sub(r"^\s*//.*\n", "", path.read_text(), flags=re.M)
    shared.update(re.findall(rf"const (\w+): &str =\s*{TEXT};", text))
    for name, body in re.findall(r"const (\w+): Row = Row \{(.*?)\};", text, re.S):
        shared[name] = fields_of(body, shared)
    arrays = re.findall(r"static (\w+): \[Row; \d+\] = \[(.*?)\];", text, re.S)
    return text, {name: rows_of(body, shared) for name, body in arrays}


def rows_of_tools():
    """The options of each tool that has some."""
    shared, rows = {}, {}
    for path in (TABLE, *TOOL_TABLES):
        rows.update(arrays_of(path, shared)[1])
    found = {"mkbootimg": rows["MKBOOTIMG"] + rows["FRAGMENTS"], "unpack_bootimg": rows["UNPACK_BOOTIMG"]}
    return {tool: [row for row in of if row.is_taken] for tool, of in found.items()}


def read_table():
    """The commands of the table, and the rows that stand before a command as well."""
    text, rows = arrays_of(TABLE, {})
    groups = [rows_by_work(text, function) for function in ("own_rows", "filling_rows", "shared_rows")]
    found = re.findall(rf'CommandRow \{{\s*name: "(\w+)",\s*work: (Work::\w+),\s*about: {TEXT},', text)
    commands = []
    for name, work, about in found:
        names = [group.get(work, group.get("_")) for group in groups]
        commands.append(Command(name, about, [row for it in names if it for row in rows[it]]))
    return commands, rows["TELLING"]


def tools():
    """The names behind `as`, each followed by a blank but the last: those of the tools whose words are read."""
    text = TOOLS.read_text()
    names = dict(re.findall(r'Tool::(\w+) => "(\w+)",', text))
    refused = re.findall(r"Tool::(\w+) => Some\(", text)
    return " ".join(names[it] for it in names if it not in refused)


# ---- the texts

def typed(rows):
    """The options of these rows, and those of help."""
    return " ".join([*(option for row in rows for option in row.options()), "-h", "--help"])


def joined(commands, line):
    """A line for each command, with its name and its options."""
    return "\n".join(line.format(command.name, typed(command.rows)) for command in commands)


def joined_tools(line):
    """The same for each of AOSP's tools that has options, and for the others."""
    options = [line.format(tool, typed(rows)) for tool, rows in rows_of_tools().items()]
    return "\n".join([*options, line.format("*", "-h --help")])


def values_of(line):
    """A line for each option of a tool that takes one of some words."""
    return "\n".join(line.format(*it) for it in WORDS_OF.items())


def names_of(commands):
    return " ".join(command.name for command in commands)


def bash(commands, before):
    return f"""\
_abootimg_files() {{
    local found
    while IFS= read -r found; do
        COMPREPLY+=("$found")
    done < <(compgen -f -- "$1")
}}
_abootimg_word_files() {{
    local found is_plain=yes
    while IFS= read -r found; do
        case $found in
            *[!A-Za-z0-9._/-]*) is_plain= ;;
        esac
        if [ -d "$found" ]; then
            found=$found/
            compopt -o nospace 2>/dev/null
        fi
        COMPREPLY+=("@$found")
    done < <(compgen -f -- "${{1#@}}")
    [ -z "$is_plain" ] || compopt +o filenames 2>/dev/null
}}
_abootimg_tool() {{
    local words
    case $2 in
        -*)
            case $1 in
{joined_tools("                {}) words='{}' ;;")}
            esac ;;
        *)
            case $3 in
{values_of("                --{}) words='{}' ;;")}
                *)
                    _abootimg_files "$2"
                    return ;;
            esac ;;
    esac
    compopt +o filenames 2>/dev/null
    COMPREPLY=($(compgen -W "$words" -- "$2"))
}}
_abootimg() {{
    local word=${{2-${{COMP_WORDS[COMP_CWORD]}}}} words= at=1
    COMPREPLY=()
    case " {tools()} " in
        *" ${{COMP_WORDS[0]##*/}} "*)
            _abootimg_tool "${{COMP_WORDS[0]##*/}}" "$word" "${{COMP_WORDS[COMP_CWORD-1]}}"
            return ;;
    esac
    if [ "${{COMP_WORDS[1]}}" = as ] && [ "$COMP_CWORD" -gt 2 ]; then
        _abootimg_tool "${{COMP_WORDS[2]}}" "$word" "${{COMP_WORDS[COMP_CWORD-1]}}"
        return
    fi
    while [ "$at" -lt "$COMP_CWORD" ] && [ "${{COMP_WORDS[at]#-}}" != "${{COMP_WORDS[at]}}" ]; do
        at=$((at + 1))
    done
    case $word in
        \\\\@*) word=${{word#?}} ;;
    esac
    if [ "${{word#@}}" != "$word" ]; then
        _abootimg_word_files "$word"
        return
    elif [ "$at" = "$COMP_CWORD" ]; then
        words=' {names_of(commands)} help as {typed(before)} -V --version'
    elif [ "${{COMP_WORDS[1]}}" = as ] && [ "$COMP_CWORD" = 2 ]; then
        words='{tools()}'
    elif [ "${{word#-}}" != "$word" ]; then
        case ${{COMP_WORDS[at]}} in
{joined(commands, "            {}) words=' {}' ;;")}
        esac
    elif [ "${{COMP_WORDS[at]}}" = completions ]; then
        words='bash zsh fish'
    elif [ "${{COMP_WORDS[at]}}" = help ]; then
        words='{names_of(commands)}'
    else
        _abootimg_files "$word"
        return
    fi
    compopt +o filenames 2>/dev/null
    COMPREPLY=($(compgen -W "$words" -- "$word"))
}}
complete -o filenames -F _abootimg abootimg {tools()}
"""


def zsh(commands, before):
    return f"""\
#compdef abootimg {tools()}
_abootimg_tool() {{
    if [[ $words[CURRENT] == --*=* ]]; then
        compset -P 1 '*='
        _files
    elif [[ $words[CURRENT] == -* ]]; then
        case $1 in
{joined_tools("            {}) compadd -- {} ;;")}
        esac
    else
        case $words[CURRENT-1] in
{values_of("            --{}) compadd -- {} ;;")}
            *) _files ;;
        esac
    fi
}}
_abootimg() {{
    local at=2
    if [[ " {tools()} " == *" ${{words[1]:t}} "* ]]; then
        _abootimg_tool ${{words[1]:t}}
        return
    fi
    if [[ $words[2] == as ]] && (( CURRENT > 3 )); then
        _abootimg_tool $words[3]
        return
    fi
    while (( at < CURRENT )) && [[ $words[at] == -* ]]; do
        (( at += 1 ))
    done
    if compset -P @; then
        _files
        return
    fi
    if (( at == CURRENT )); then
        compadd -- {names_of(commands)} help as {typed(before)} -V --version
        return
    fi
    if [[ $words[2] == as ]] && (( CURRENT == 3 )); then
        compadd -- {tools()}
        return
    fi
    if [[ $words[CURRENT] == --*=* ]]; then
        compset -P 1 '*='
        _files
    elif [[ $words[CURRENT] == -* ]]; then
        case $words[at] in
{joined(commands, "            {}) compadd -- {} ;;")}
        esac
    elif [[ $words[at] == completions ]]; then
        compadd -- bash zsh fish
    elif [[ $words[at] == help ]]; then
        compadd -- {names_of(commands)}
    else
        _files
    fi
}}
if [ "$funcstack[1]" = _abootimg ]; then
    _abootimg "$@"
else
    compdef _abootimg abootimg {tools()}
fi
"""


def quoted(text):
    """In single quotes, in which fish wants a backslash before each of them and before a backslash."""
    return "'" + re.sub(r"(['\\])", r"\\\1", text) + "'"


def fish_option(condition, row):
    """A line of an option or a flag."""
    letter = f" -s {row.letter}" if row.letter else ""
    value = "" if row.is_flag else " -r"
    return f"-n {condition} -l {row.name}{letter}{value} -d {quoted(row.help)}"


def fish_tool_option(row):
    """The same of an option of one of AOSP's tools."""
    name = "" if row.is_letter_alone else f" -l {row.name}"
    letter = f" -s {row.letter}" if row.letter else ""
    value = f" -x -a '{WORDS_OF[row.name]}'" if row.name in WORDS_OF else "" if row.is_flag else " -r"
    return f"{name[1:]}{letter if name else letter[1:]}{value} -d {quoted(row.help)}"


# In fish: whether the words are those of a tool behind `as`, and what fish offers for that tool.
OF_TOOL = "test (count (commandline -opc)) -gt 2; and test (commandline -opc)[2] = as"
OFFERS_OF_TOOL = "(complete -C (string join ' ' -- (string escape -- (commandline -opc)[3..-1]) (commandline -ct)))"
# In fish: whether the word at hand is behind an @, and the words for that.
AT_FILE = "string match -q -- '@*' (commandline -ct)"
AT_FILES = "(complete -C \"'' \"(string sub -s 2 -- (commandline -ct)) | string replace -r -- '^' @)"


def fish(commands, before):
    lines = [fish_option("__fish_use_subcommand", row) for row in before]
    for command in commands:
        lines.append(f"-n __fish_use_subcommand -f -a {command.name} -d {quoted(command.about)}")
        seen = f"'__fish_seen_subcommand_from {command.name}'"
        lines += [fish_option(seen, row) for row in command.rows if row.is_option]
    lines.append("-n __fish_use_subcommand -f -a help -d 'Prints the help of a command'")
    lines.append("-n __fish_use_subcommand -f -a as -d 'Reads the words as one of AOSP\\'s tools does'")
    lines.append(f"-n 'test (count (commandline -opc)) = 2; and __fish_seen_subcommand_from as' -f -a '{tools()}'")
    lines.append(f"-n {quoted(AT_FILE)} -a {quoted(AT_FILES)}")
    lines.append("-n '__fish_seen_subcommand_from completions' -f -a 'bash zsh fish'")
    lines.append(f"-n '__fish_seen_subcommand_from help' -f -a '{names_of(commands)}'")
    lines.append(f"-n {quoted(OF_TOOL)} -f -a {quoted(OFFERS_OF_TOOL)}")
    of_tools = [f"-c {tool} {fish_tool_option(row)}" for tool, rows in rows_of_tools().items() for row in rows]
    return "".join(f"complete {line}\n" for line in [*(f"-c abootimg {it}" for it in lines), *of_tools])


def constant(name, text):
    """A constant of Rust."""
    return f'#[rattlefmt::skip]\npub(crate) const {name}: &str = r#"{text}"#;\n'


def texts_of(commands, before):
    shells = (("BASH", bash), ("ZSH", zsh), ("FISH", fish))
    constants = "\n".join(constant(name, make(commands, before)) for name, make in shells)
    return f"//! Written by `tools/make_completions.py`: what `completions` prints.\n\n{constants}"


# ---- the check

def untold(commands):
    """What docs/COMMANDS.md leaves out: a command's section, or a word or an option of it. One that several commands
    have may stand anywhere on the page."""
    page = COMMANDS.read_text()
    uses = Counter((row.name, row.help) for command in commands for row in command.rows)
    for command in commands:
        section = re.search(rf"^## {command.name}\n(.*?)(?=^## |\Z)", page, re.M | re.S)
        if not section:
            yield f"{command.name}"
            continue
        for row in command.rows:
            word = f"--{row.name}" if row.is_option else row.name
            text = page if uses[row.name, row.help] > 1 else section[1]
            if not re.search(rf"(?<![\w-]){re.escape(word)}(?![\w-])", text):
                yield f"{command.name}: {word}"


def check(commands, before):
    faults = [f"docs/COMMANDS.md leaves out {what}" for what in untold(commands)]
    if not TEXTS.exists() or TEXTS.read_text() != texts_of(commands, before):
        faults.append(f"{TEXTS.relative_to(ROOT)} is stale: run tools/make_completions.py")
    for fault in faults:
        print(fault)
    print(f"{1 + sum(len(command.rows) for command in commands) - len(faults)} passed, {len(faults)} failed")
    return 1 if faults else 0


def main():
    commands, before = read_table()
    if "--check" in sys.argv[1:]:
        return check(commands, before)
    if sys.argv[1:2] == ["--print"]:
        shells = {"bash": bash, "zsh": zsh, "fish": fish}
        print(shells[sys.argv[2]](commands, before), end="")
        return 0
    if sys.argv[1:] == ["--tools"]:
        print(tools())
        return 0
    TEXTS.write_text(texts_of(commands, before))
    return 0


if __name__ == "__main__":
    sys.exit(main())
