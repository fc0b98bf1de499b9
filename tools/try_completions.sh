#!/usr/bin/env bash
# Tries what `completions` prints in the shells themselves: an interactive bash and zsh on a terminal, where a line is
# typed and completed, and fish by its own `complete -C`. A shell that is not there is left out, and a line says so.
# Prints each thing that it tries, and ends with a line 'N passed, M failed'; the status is 1 where one failed. It needs
# bash, coreutils and Python 3.
#
#   tools/try_completions.sh            the program is $ABOOTIMG, or build/abootimg
. "$(dirname "$0")/trying.sh" || exit 1

# complete.py SHELL: types each line into this shell, with a tab where the line has one and at its end, and compares the
# words that a command gets. In the folder is also a folder with a command's name.
cat >complete.py <<'END_OF_COMPLETE'
import os
import pty
import re
import select
import subprocess
import sys
import time

# What is typed, and the words that come of it.
TYPED = [
    ("expand my\\ f", ["expand", "my file"]),
    ('expand "my f', ["expand", "my file"]),
    ("expand my\\ f\tmy\\ o", ["expand", "my file", "my other"]),
    ("expand a", ["expand", "a*b"]),
    ("list on", ["list", "on.img"]),
    ("pack @wo", ["pack", "@words"]),
    ("@wo", ["@words"]),
    ("pack @my\\ f", ["pack", "@my file"]),
    ("pack @some\\ f\tin", ["pack", "@some folder/inner"]),
    ("pack --kernel=on", ["pack", "--kernel=on.img"]),
    ("pack --kernel=some\\ f\tin", ["pack", "--kernel=some folder/inner"]),
    ("pack --kernel on", ["pack", "--kernel", "on.img"]),
    ("li", ["list"]),
    ("-v li", ["-v", "list"]),
    ("help li", ["help", "list"]),
    ("completions f", ["completions", "fish"]),
    ("pack --recov", ["pack", "--recovery-dtbo"]),
    ("as unp", ["as", "unpack_bootimg"]),
    ("as mkbootimg --recovery_d", ["as", "mkbootimg", "--recovery_dtbo"]),
    ("as mkbootimg --kernel on", ["as", "mkbootimg", "--kernel", "on.img"]),
    ("as simg2img on", ["as", "simg2img", "on.img"]),
]
# The same of AOSP's tools, whose words the command of that name gets.
TOOLS_TYPED = [
    ("mkbootimg --ker", ["--kernel"]),
    ("mkbootimg --kernel_o", ["--kernel_offset"]),
    ("mkbootimg --kernel on", ["--kernel", "on.img"]),
    ("mkbootimg --kernel=on", ["--kernel=on.img"]),
    ("mkbootimg --kernel my\\ f", ["--kernel", "my file"]),
    ("mkbootimg --ramdisk_type dl", ["--ramdisk_type", "dlkm"]),
    ("./mkbootimg --header_v", ["--header_version"]),
    ("unpack_bootimg --fo", ["--format"]),
    ("unpack_bootimg --format mk", ["--format", "mkbootimg"]),
    ("unpack_bootimg --boot_img on", ["--boot_img", "on.img"]),
    ("simg2img on", ["on.img"]),
    ("img2simg my\\ f\tmy\\ o", ["my file", "my other"]),
    ("simg2simg on", ["on.img"]),
]
BASH_TYPED = [("pack out platform::on", ["pack", "out", "platform::on.img"])]

# What is typed, and what fish offers.
OFFERED = [
    ("expand my", ["my file", "my other"]),
    ("expand my\\ f", ["my file"]),
    ("pack @wo", ["@words"]),
    ("@wo", ["@words"]),
    ("pack @my\\ f", ["@my file"]),
    ("pack @some\\ folder/in", ["@some folder/inner"]),
    ("pack --kernel=on", ["--kernel=on.img"]),
    ("pack --kernel on", ["on.img"]),
    ("li", ["list"]),
    ("help li", ["list"]),
    ("completions f", ["fish"]),
    ("pack --recov", ["--recovery-dtbo"]),
    ("as unp", ["unpack_bootimg"]),
    ("as mkbootimg --recovery_d", ["--recovery_dtbo"]),
    ("as mkbootimg --kernel on", ["on.img"]),
    ("as unpack_bootimg --format ", ["info", "mkbootimg"]),
    ("as simg2img on", ["on.img"]),
]
TOOLS_OFFERED = [
    ("mkbootimg --kern", ["--kernel", "--kernel_offset"]),
    ("mkbootimg --kernel on", ["on.img"]),
    ("mkbootimg --kernel=on", ["--kernel=on.img"]),
    ("mkbootimg --ramdisk_type dl", ["dlkm"]),
    ("unpack_bootimg --fo", ["--format"]),
    ("unpack_bootimg --format ", ["info", "mkbootimg"]),
    ("simg2img on", ["on.img"]),
]

CALLS = """PS1='ready> '
for it in abootimg mkbootimg unpack_bootimg simg2img img2simg simg2simg; do
    eval "$it() { printf 'told: '; printf '[%s]' \\"\\$@\\"; echo; }"
done
"""
BASH = CALLS + """. texts/_abootimg
"""
ZSH = CALLS + """fpath=($PWD/texts $fpath)
autoload -Uz compinit
compinit -u -D
"""


class Terminal:
    """A shell on a terminal of its own."""

    def __init__(self, words, more):
        self.shown = ""
        pid, self.to = pty.fork()
        if pid == 0:
            os.environ.update({"TERM": "dumb", "HISTFILE": "/dev/null", **more})
            os.execvp(words[0], words)

    def until(self, wanted):
        """Reads until what is shown since the last call has this; returns that, or None after half a minute."""
        end = time.monotonic() + 30
        while time.monotonic() < end:
            found = re.search(wanted, self.shown)
            if found:
                self.shown = self.shown[found.end():]
                return found
            if select.select([self.to], [], [], 0.1)[0]:
                try:
                    self.shown += os.read(self.to, 65536).decode(errors="replace")
                except OSError:
                    return None
        return None

    def words_of(self, line):
        """The words that a command gets of this line and a tab."""
        time.sleep(0.1)
        os.write(self.to, f"{line}\t\r".encode())
        told = self.until(r"told: ([^\r\n]*)[\r\n]")
        self.until("ready> ")
        return told[1] if told else "nothing"


def of_terminal(words, more, rows):
    terminal = Terminal(words, more)
    terminal.until("ready> ")
    for line, wanted in rows:
        yield line, "".join(f"[{it}]" for it in wanted), terminal.words_of(line)
    os.close(terminal.to)


def of_fish():
    for line, wanted in calls(OFFERED, TOOLS_OFFERED):
        code = "source texts/_abootimg; complete -C $argv[1]"
        told = subprocess.run(["fish", "--no-config", "-c", code, line], capture_output=True, text=True)
        yield line, str(wanted), str(sorted(it.split("\t")[0] for it in told.stdout.splitlines()))


def calls(own, tools):
    """The rows of this program's own words, and those of tools."""
    return [*((f"abootimg {line}", words) for line, words in own), *tools]


def rows_of(shell):
    if shell == "bash":
        with open("texts/rc", "w") as file:
            file.write(BASH)
        return of_terminal(["bash", "--rcfile", "texts/rc", "-i"], {}, calls(TYPED + BASH_TYPED, TOOLS_TYPED))
    if shell == "zsh":
        with open("texts/.zshrc", "w") as file:
            file.write(ZSH)
        return of_terminal(["zsh", "-i"], {"ZDOTDIR": os.getcwd() + "/texts"}, calls(TYPED, TOOLS_TYPED))
    return of_fish()


passed = failed = 0
for line, wanted, told in rows_of(sys.argv[1]):
    if told == wanted:
        passed += 1
        print(f"ok      {line}")
    else:
        failed += 1
        print(f"FAILED  {line}\n        wanted {wanted}\n        got    {told}")
print(f"{passed} passed, {failed} failed")
sys.exit(failed > 0)
END_OF_COMPLETE

mkdir list texts 'some folder'
touch 'my file' 'my other' 'a*b' words on.img 'some folder/inner'
mv complete.py texts
printf '#!/bin/sh\nprintf "told: "; printf "[%%s]" "$@"; echo\n' >mkbootimg
chmod 755 mkbootimg
for shell in bash zsh fish; do
    lacks "the completions of $shell" "$shell" python3 && continue
    "$program" completions "$shell" >texts/_abootimg
    try "completions $shell" test -s texts/_abootimg
    script "$shell" python3 texts/complete.py "$shell"
done
tried
