#!/usr/bin/env python3
"""Makes the page, one file that stands alone: web/build.py MODULE OUT

MODULE is the WebAssembly module. The files of web/ are put into OUT: the style sheet, the scripts in the order in which
they import one another, the module as base64, and the sentences of docs/COMMANDS.md on each refusal. A policy in the
page lets the browser run this script alone, and fetch nothing at all.
"""
import base64
import hashlib
import json
import os
import re
import sys

WEB = os.path.dirname(os.path.abspath(__file__))
COMMANDS = os.path.join(os.path.dirname(WEB), "docs", "COMMANDS.md")
IMPORT = re.compile(r'^import \{[^}]*\} from "\./([\w.]+)";\n', re.M)


def text_of(path):
    with open(path, encoding="utf-8") as file:
        return file.read()


def scripts(name, done):
    """The script of this name behind all that it imports, each once, as one module."""
    if name in done:
        return ""
    done.add(name)
    text = text_of(os.path.join(WEB, name))
    below = "".join(scripts(it, done) for it in IMPORT.findall(text))
    return below + re.sub(r"^export ", "", IMPORT.sub("", text), flags=re.M)


def refusals():
    """Each refusal of a numbered row of the tables of COMMANDS.md: its line, why, and what to do."""
    rows, before = {}, ""
    for line in text_of(COMMANDS).partition("## Refusals")[2].split("\n"):
        cells = [it.strip() for it in line.strip("|").split("|")]
        lines = re.findall(r"`(\d+) ([^`]*)`", cells[0])
        if not line.startswith("| `") or not lines:
            continue
        why, todo = cells[1], cells[2]
        if todo.startswith("the same"):
            todo = before + todo[len("the same"):]
        else:
            before = todo
        for number, words in lines:
            rows[number] = {"line": f"{number} {words}", "why": why, "todo": todo}
    return rows


def page(module):
    script = scripts("page.js", set())
    digest = base64.b64encode(hashlib.sha256(script.encode()).digest()).decode()
    policy = f"default-src 'none'; style-src 'unsafe-inline'; script-src 'sha256-{digest}' 'wasm-unsafe-eval'; base-uri 'none'"
    text = text_of(os.path.join(WEB, "index.html"))
    parts = {
        '<meta charset="utf-8">\n':
            f'<meta charset="utf-8">\n<meta http-equiv="Content-Security-Policy" content="{policy}">\n',
        '<link rel="stylesheet" href="page.css">': f'<style>\n{text_of(os.path.join(WEB, "page.css"))}</style>',
        '<script type="module" src="page.js"></script>':
            f'<script type="application/json" id="refusals">{json.dumps(refusals())}</script>\n'
            f'<script type="text/plain" id="module">{base64.b64encode(module).decode()}</script>\n'
            f'<script type="module">{script}</script>',
    }
    for old, new in parts.items():
        assert text.count(old) == 1, old
        text = text.replace(old, new)
    return text


def main():
    if len(sys.argv) != 3:
        sys.exit("usage: web/build.py MODULE OUT")
    with open(sys.argv[1], "rb") as file:
        module = file.read()
    os.makedirs(os.path.dirname(os.path.abspath(sys.argv[2])), exist_ok=True)
    with open(sys.argv[2], "w", encoding="utf-8") as file:
        file.write(page(module))


if __name__ == "__main__":
    main()
