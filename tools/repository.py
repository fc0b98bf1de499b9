"""What the scripts of the gate and of the build know of the repository: its crates, what they depend on, and copies of it."""
import os
import shutil
import subprocess

HERE = os.path.dirname(os.path.dirname(os.path.abspath(__file__)))
PARTS = ("src", "specs", "proofs")
FILES = ("stdin", "stdout", "args", "status")


def crate_lines():
    """Each crate's line of crates.txt, by its name, and the crates of this repository that it names."""
    lines = {}
    with open(os.path.join(HERE, "crates.txt"), encoding="utf-8") as text:
        for line in text:
            line = line.split("#")[0].strip()
            if line:
                lines[line.split(":")[0].split()[0]] = line
    uses = {name: [it for it in line.partition(":")[2].split() if it in lines] for name, line in lines.items()}
    return lines, uses


def below(name, uses):
    """The crates that a crate depends on, lowest first."""
    found = []
    for it in uses[name]:
        found += [more for more in [*below(it, uses), it] if more not in found]
    return found


def with_below(names, uses):
    """These crates and all that they depend on, lowest first."""
    found = []
    for name in names:
        found += [it for it in [*below(name, uses), name] if it not in found]
    return found


def crate_at(root, name):
    return os.path.join(root, "crates", name)


def copy_of(root, names, lines):
    """Makes a folder a repository of these crates alone: what is proved of them, without their must-fail edits.

    What earlier runs built stays in it.
    """
    os.makedirs(os.path.join(root, "crates"), exist_ok=True)
    for old in os.listdir(os.path.join(root, "crates")):
        if old not in names:
            shutil.rmtree(crate_at(root, old))
    for name in names:
        for part in PARTS:
            to = os.path.join(crate_at(root, name), part)
            shutil.rmtree(to, ignore_errors=True)
            if os.path.isdir(os.path.join(crate_at(HERE, name), part)):
                shutil.copytree(os.path.join(crate_at(HERE, name), part), to)
        for file in FILES:
            if os.path.isfile(os.path.join(crate_at(HERE, name), file)):
                shutil.copy(os.path.join(crate_at(HERE, name), file), crate_at(root, name))
    with open(os.path.join(root, "crates.txt"), "w", encoding="utf-8") as text:
        text.writelines(lines[it] + "\n" for it in names)
    shutil.copy(os.path.join(HERE, "HANDLES"), root)
    # rt takes the nearest folder with a .git for the top of a repository.
    os.makedirs(os.path.join(root, ".git"), exist_ok=True)


def kit_of(rt):
    """The toolchain's folder."""
    page = subprocess.run([rt, "doc"], stdout=subprocess.PIPE, text=True, check=True).stdout.strip()
    return os.path.dirname(page)


def lines_in(root, name):
    """How much there is to prove in a crate: lines of code and of proofs."""
    lines = 0
    for part in PARTS:
        for at, _, files in os.walk(os.path.join(crate_at(root, name), part)):
            for file in files:
                with open(os.path.join(at, file), "rb") as text:
                    lines += text.read().count(b"\n")
    return lines
