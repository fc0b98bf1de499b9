"""Reads the files of cases, whose form tests/README.md tells."""
import re

from recipes import text_of

FILE = r'("(?:[^"\\]|\\.)*"|[^\s:]+)'
HOLDS = re.compile(FILE + r" (=|is|begins)(?: (.*))?")
LINKED = re.compile(r"(link|hard) (\S+) -> (\S+)")
PRINTED = re.compile(r"(out|err)(?: (has|like))?:(?: (.*))?")
CELLS = re.compile(r" \|(?: |$)")


class Run:
    """One run of the program: what is there before, the line for bash, and what must be so afterwards."""

    def __init__(self):
        self.before = []  # (kind, path, recipe or target) of files, folders and links
        self.line = None
        self.status = 0
        self.lines = {"out": [], "err": []}
        self.among = {"out": [], "err": []}  # patterns of lines that stand among others
        self.files = {}  # (is or begins, recipe), by the path
        self.free = []  # patterns of files that may hold anything


class Case:
    def __init__(self, place, name, recipes):
        self.place = place
        self.name = name
        self.recipes = recipes  # those of all cases of its file, by their names
        self.needs = []
        self.runs = [Run()]

    def take(self, line):
        """Reads one line of the case."""
        word, _, rest = line.partition(" ")
        linked, printed, holds = LINKED.fullmatch(line), PRINTED.fullmatch(line), HOLDS.fullmatch(line)
        is_made = word in ("$", "folder", "fifo") or linked or holds and holds[2] == "="
        if is_made and self.runs[-1].line is not None:
            self.runs.append(Run())
        run = self.runs[-1]
        if word == "$":
            run.line = rest
        elif word == "needs":
            self.needs.append(rest)
        elif word in ("folder", "fifo"):
            run.before.append((word, rest, None))
        elif word == "status":
            run.status = int(rest)
        elif word == "any":
            run.free += rest.split()
        elif linked:
            run.before.append(linked.groups())
        elif printed:
            stream, how, text = printed[1], printed[2], printed[3] or ""
            if how:
                run.among[stream].append(text if how == "like" else re.escape(text))
            else:
                run.lines[stream].append(text)
        elif holds and holds[2] == "=":
            run.before.append(("file", path_of(holds[1]), holds[3] or ""))
        elif holds:
            run.files[path_of(holds[1])] = (holds[2], holds[3] or "")
        else:
            raise ValueError(f"{self.place}: what does this line say? {line}")


def path_of(word):
    return text_of(word).decode("utf-8") if word[0] == '"' else word


def joined(text):
    """The lines that say something, with their numbers; a line that begins with a space goes on with the one before."""
    lines = []
    for number, line in enumerate(text.split("\n"), 1):
        if line.startswith(" ") and lines:
            lines[-1] = (lines[-1][0], lines[-1][1] + " " + line.strip())
        elif line and not line.startswith("#"):
            lines.append((number, line))
    return lines


def recipe_of(line):
    """The name and the recipe of a line `NAME = RECIPE`."""
    name, _, recipe = HOLDS.fullmatch(line).groups()
    return name, recipe


def recipes_of(text):
    """The recipes of a file that has nothing else, by their names."""
    return dict(recipe_of(line) for _, line in joined(text))


def table_of(lines, mark):
    """The rows of the table whose lines begin with this mark, each a dictionary; one without entries where there is none."""
    table = [[it.strip() for it in CELLS.split(line[len(mark) :])] for line in lines if line.split(" ")[0] == mark]
    return [dict(zip(table[0], row)) for row in table[1:]] or [{}]


def rows_of(lines):
    """The rows that a case is run for: each of its table, with each of its second one."""
    return [{**row, **other} for row in table_of(lines, "|") for other in table_of(lines, "||")]


def filled(line, row):
    for name, value in row.items():
        line = line.replace("{" + name + "}", value)
    return line


def cases_of(text, name, recipes):
    """The cases of a file, and of each that has a table one for each row."""
    recipes, groups = dict(recipes), []
    for number, line in joined(text):
        if line.startswith("== "):
            groups.append((f"{name}:{number}", line[3:], []))
        elif groups:
            groups[-1][2].append(line)
        else:
            recipes.update([recipe_of(line)])
    for place, title, lines in groups:
        for row in rows_of(lines):
            case = Case(place, " | ".join([filled(title, row), *row.values()]), recipes)
            for line in lines:
                if not line.startswith("|"):
                    case.take(filled(line, row))
            yield case
