#!/usr/bin/env python3
"""Tries the page in Chromium: web/test_page.py PAGE PROGRAM [--pictures DIR] [--only WORD]

Each image is given to the page as a user gives it. What the page then shows must be what PROGRAM, abootimg, prints, and
what it writes must be the same bytes. --pictures keeps a picture of each state. Without Chromium nothing is tried, and
that is said. The last line is 'N passed, M failed'.
"""
import argparse
import base64
import contextlib
import functools
import http.server
import os
import re
import subprocess
import sys
import tempfile
import threading
import time

sys.dont_write_bytecode = True
import chromium
import images
from images import HERE

SHOWN = """(() => {
  const texts = (selector) => [...document.querySelectorAll(selector)].map((it) => it.textContent);
  const isSeen = (id) => { const it = document.getElementById(id); return it.checkVisibility(); };
  return {
    status: document.getElementById('status').textContent,
    facts: Object.fromEntries([...document.querySelectorAll('#facts > div')].map((it) =>
      [it.children[0].textContent, it.children[1].textContent])),
    refusals: isSeen('refusal') ? texts('#refusal .line') : [],
    whys: isSeen('refusal') ? texts('#refusal .why') : [],
    chunks: isSeen('chunks') ? [...document.querySelectorAll('#chunks tbody tr')].map((row) =>
      [...row.cells].map((cell) => cell.textContent)) : [],
    rows: Number(document.getElementById('chunks').getAttribute('aria-rowcount')) - 1,
    tables: [...document.querySelectorAll('#parts table')].map((table) =>
      [...table.tBodies[0].rows].map((row) => [...row.cells].map((cell) => cell.textContent))),
    canExpand: isSeen('expand') && !document.getElementById('expand').disabled,
  };
})()"""

# Has the browser's own folder stand in for the dialog in which a user picks a file.
PICKER = """window.showSaveFilePicker = async ({ suggestedName }) =>
  (await navigator.storage.getDirectory()).getFileHandle(suggestedName, { create: true })"""

WRITTEN = """(async () => {
  const handle = await (await navigator.storage.getDirectory()).getFileHandle(NAME);
  const bytes = new Uint8Array(await (await handle.getFile()).arrayBuffer());
  let text = '';
  for (let i = 0; i < bytes.length; i += 8192) text += String.fromCharCode(...bytes.subarray(i, i + 8192));
  return btoa(text);
})()"""


class Trial:
    """The page in a browser, and what was found so far."""

    def __init__(self, page, program, pictures, only):
        self.page, self.program, self.pictures, self.only = os.path.abspath(page), os.path.abspath(program), pictures, only
        self.passed = self.failed = 0
        self.work = tempfile.TemporaryDirectory(prefix="abootimg-page-")
        self.browser = chromium.Browser(chromium.found())
        self.downloads = os.path.join(self.work.name, "downloads")
        os.mkdir(self.downloads)
        self.browser.call("Browser.setDownloadBehavior", {"behavior": "allow", "downloadPath": self.downloads}, None)

    def close(self):
        self.browser.close()
        self.work.cleanup()

    def check(self, name, is_so, *told):
        if is_so:
            self.passed += 1
        else:
            self.failed += 1
            print(f"NOT SO: {name}", *told, sep="\n    ", flush=True)

    def same(self, name, shown, wanted):
        self.check(name, shown == wanted, f"it shows {shown!r}"[:1000], f"and not  {wanted!r}"[:1000])

    def wanted(self, name):
        return not self.only or self.only in name

    def file(self, name, image):
        path = os.path.join(self.work.name, name)
        with open(path, "wb") as file:
            file.write(image)
        return path

    def open(self, url=None, width=1000, height=1100, is_dark=False):
        self.browser.size(width, height, is_dark)
        self.browser.open(url or f"file://{self.page}")

    def show(self, path):
        """Chooses a file, and returns what is shown of it."""
        # The same file once more is no change, and an old status is no new one.
        self.browser.value("document.getElementById('file').value = document.getElementById('status').textContent = ''")
        self.browser.choose_file("#file", path)
        self.browser.wait("!/^$|^Reading/.test(document.getElementById('status').textContent)")
        return self.browser.value(SHOWN)

    def picture(self, name):
        if self.pictures:
            os.makedirs(self.pictures, exist_ok=True)
            self.browser.picture(os.path.join(self.pictures, f"{name}.png"))

    def says(self, *words):
        """What the program prints to standard output and to standard error."""
        ran = subprocess.run([self.program, *words], stdout=subprocess.PIPE, stderr=subprocess.PIPE, check=False)
        return ran.stdout.decode().splitlines(), ran.stderr.decode().splitlines()

    def download(self, selector):
        """Presses a button whose work ends in a download, into an empty folder."""
        for old in os.listdir(self.downloads):
            os.remove(os.path.join(self.downloads, old))
        time.sleep(BETWEEN_DOWNLOADS)
        self.press(selector)

    def press(self, selector, then=""):
        """Presses a button, and waits until the work is done."""
        self.browser.value("document.getElementById('status').textContent = ''")
        self.browser.value(f"document.querySelector({selector!r}).click(); {then}")
        self.browser.wait("document.getElementById('status').textContent !== ''")


# Chromium lets a page begin ten downloads in a second, and drops what is more.
BETWEEN_DOWNLOADS = 0.15

FIELDS = {"OS version and patch level": "os", "Name": "name", "Command line": "cmdline",
          "More of the command line": "extra", "Id": "id"}


def number(text):
    return int(text.replace(",", ""))


def list_lines(shown):
    """What `abootimg list` would print of what the page shows."""
    facts = shown["facts"]
    if "Version" not in facts:
        return []
    in_bytes = lambda name: number(re.search(r"([\d,]+) bytes?", facts[name])[1])
    lines = [
        f"sparse {facts['Version']} header {in_bytes('Header')} chunk {in_bytes('Header of a chunk')} "
        f"block {in_bytes('Block size')} blocks {number(facts['Blocks'])} chunks {number(facts['Chunks'])} "
        f"checksum {facts['Checksum']}"]
    for index, kind, blocks, word, *_ in shown["chunks"]:
        words = {"raw": [blocks], "skip": [blocks], "fill": [blocks, word], "crc32": [word]}[kind]
        lines.append(" ".join([str(number(index)), kind, *(it if it == word else str(number(it)) for it in words)]))
    return lines


def info_lines(shown):
    """What `abootimg info` would print of what the page shows, but for what checking finds."""
    facts = shown["facts"]
    page = number(re.search(r"([\d,]+) bytes", facts["Page"])[1])
    lines = [f"kind {facts['Kind']} version {facts['Version']} page {page}"]
    sections, *fragments = shown["tables"]
    inside = {name: number(at) for name, at, *_ in sections}
    lines += [f"section {name} at {number(at)} size {number(size)}" for name, at, size, _ in sections]
    for name, kind, text, at, size, _ in (fragments or [[]])[0]:
        lines.append(f"{name} at {number(at) - inside['vendor_ramdisk']} size {number(size)} type {kind.split()[0]} name {text}")
    for name, text in facts.items():
        if name.startswith("Address of "):
            lines.append(f"address {name.split()[2]} {text.split()[0]}")
        elif name in FIELDS:
            lines.append(f"{FIELDS[name]} {text}")
    return lines


def try_sparse(trial, name, path):
    shown = trial.show(path)
    out, err = trial.says("list", path)
    trial.same(f"list of {name}", list_lines(shown), out)
    trial.same(f"refusal of {name}", shown["refusals"][:1], [it.removeprefix("abootimg: ") for it in err])
    trial.same(f"rows of {name}", max(0, shown["rows"]) if shown["chunks"] else 0, max(0, len(out) - 1))
    trial.same(f"expand is offered for {name}", shown["canExpand"], not err)
    trial.check(f"sentence of {name}", bool(shown["whys"]) == bool(err), shown["whys"])
    return shown


def try_expanded(trial, name, path):
    """The image just shown, expanded as a download."""
    raw = os.path.join(trial.work.name, "wanted.raw")
    trial.says("expand", path, raw)
    trial.browser.value("window.showSaveFilePicker = undefined")
    trial.download("#expand")
    trial.same(f"download of {name}", *same_bytes(trial, raw))


def same_bytes(trial, wanted):
    """The file that was downloaded, and what it should be."""
    with open(wanted, "rb") as file:
        want = file.read()
    end = time.monotonic() + 20
    while time.monotonic() < end:
        names = [it for it in os.listdir(trial.downloads) if not it.endswith(".crdownload")]
        if names:
            with open(os.path.join(trial.downloads, names[0]), "rb") as file:
                got = file.read()
            if got == want or time.monotonic() > end - 15:
                return (got == want, len(got)), (True, len(want))
        time.sleep(0.05)
    return "no file", "a file"


def sparse_images(trial):
    trial.open()
    for name in sorted(os.listdir(images.EXAMPLES)):
        if name.endswith(".simg") and trial.wanted(name):
            path = os.path.join(images.EXAMPLES, name)
            try_sparse(trial, name, path)
            trial.picture(name.partition(".")[0])
            try_expanded(trial, name, path)
    for name, image in images.sparse_wholes().items():
        if trial.wanted(name):
            path = trial.file(f"{name}.simg", image)
            if name == "alternating":
                trial.same(f"rows of {name}", trial.show(path)["rows"], 600)
            else:
                try_sparse(trial, name, path)
            trial.picture(name)
            try_expanded(trial, name, path)
    for name, image in images.sparse_faults().items():
        if trial.wanted(name):
            shown = try_sparse(trial, name, trial.file(f"{name}.simg", image))
            trial.picture(f"fault_{name}")
            if name == "magic":
                trial.same("an image of neither kind", shown["refusals"], ["1 Magic", "20 Magic"])
            if name == "chunk_length":
                trial.check("the place of a fault", "Where: at byte 56 of the file." in shown["whys"], shown["whys"])


def boot_images(trial):
    trial.open()
    packed = images.packed(trial.program, trial.work.name)
    for name, image in packed.items():
        if not trial.wanted(name):
            continue
        path = trial.file(f"{name}.img", image)
        shown = trial.show(path)
        out, _ = trial.says("info", path)
        trial.same(f"info of {name}", info_lines(shown), [it for it in out if not it.startswith("check ")])
        trial.picture(name)
        try_parts(trial, name, path)
    for name, image in images.boot_faults(packed).items():
        if trial.wanted(name):
            path = trial.file(f"{name}.img", image)
            shown = trial.show(path)
            _, err = trial.says("info", path)
            trial.same(f"refusal of {name}", shown["refusals"], [it.removeprefix("abootimg: ") for it in err])
            place = {"boot_cut": "8,192", "vendor_entry": "12,288"}.get(name, "0")
            trial.check(f"the place of {name}", f"Where: at byte {place} of the file." in shown["whys"], shown["whys"])
            trial.picture(f"fault_{name}")


def try_parts(trial, name, path):
    """Each part of the boot image just shown is saved, and is what `abootimg unpack` writes."""
    folder = os.path.join(trial.work.name, f"{name}.parts")
    os.mkdir(folder)
    trial.says("unpack", path, folder)
    trial.browser.value("window.showSaveFilePicker = undefined")
    for part in sorted(os.listdir(folder)):
        wanted = os.path.join(folder, part)
        if os.path.getsize(wanted) == 0:
            continue
        trial.download(f'[aria-label="Save {part}"]')
        trial.same(f"{part} of {name}", *same_bytes(trial, wanted))


@contextlib.contextmanager
def served(page):
    """The page on a server of this machine, since a page that is opened as a file has no folder of its own."""
    folder = functools.partial(Quiet, directory=os.path.dirname(page))
    server = http.server.ThreadingHTTPServer(("127.0.0.1", 0), folder)
    threading.Thread(target=server.serve_forever, daemon=True).start()
    try:
        yield f"http://127.0.0.1:{server.server_port}/{os.path.basename(page)}"
    finally:
        server.shutdown()


def picked_files(trial):
    """A file that the user picks: written in place, kept out where the work is stopped or fails."""
    with served(trial.page) as url:
        trial.open(url)
        trial.browser.value(PICKER)
        for name in ("libsparse", "short"):
            path = os.path.join(images.EXAMPLES, f"{name}.simg")
            trial.show(path)
            trial.press("#expand")
            trial.check(f"{name} is written", trial.browser.value(SHOWN)["status"].startswith("Written"))
            got = base64.b64decode(trial.browser.value(WRITTEN.replace("NAME", f"'{name}.raw.img'")))
            with open(os.path.join(images.EXAMPLES, f"{name}.raw"), "rb") as file:
                trial.check(f"{name} in a picked file", got == file.read())
        stopped(trial)
        broken_off(trial)
        none_picked(trial)


def stopped(trial):
    path = trial.file("stopped.simg", images.sparse_wholes()["long_raw"])
    trial.show(path)
    trial.browser.value("FileSystemWritableFileStream.prototype.write = () => new Promise((done) => { window.goOn = done; })")
    trial.browser.value("document.getElementById('expand').click()")
    trial.browser.wait("document.getElementById('stop').checkVisibility()")
    trial.picture("working")
    trial.press("#stop", then="goOn()")
    trial.same("a stop is told", trial.browser.value(SHOWN)["status"],
               "Stopped. Broken off: stopped.raw.img was not written.")
    trial.same("what was stopped is not kept", trial.browser.value(WRITTEN.replace("NAME", "'stopped.raw.img'")), "")
    trial.picture("stopped")


def broken_off(trial):
    trial.browser.value("""FileSystemWritableFileStream.prototype.write = () => Promise.reject(new Error('No room.'))""")
    trial.press("#expand")
    trial.same("a failed write is told", trial.browser.value(SHOWN)["status"],
               "Broken off: stopped.raw.img was not written. No room.")
    trial.picture("broken_off")


def none_picked(trial):
    trial.browser.value("window.showSaveFilePicker = () => Promise.reject(new DOMException('no', 'AbortError'))")
    trial.press("#expand")
    trial.same("no file is picked", trial.browser.value(SHOWN)["status"], "No file was chosen, and nothing was written.")


class Quiet(http.server.SimpleHTTPRequestHandler):
    def log_message(self, *_):
        pass


def many_chunks(trial, count=3_000_000):
    """A table of millions of chunks: quick, and with the keys of a keyboard."""
    path = trial.file("many.simg", images.sparse(0, [], count=count) + many(count))
    trial.open()
    begun = time.monotonic()
    shown = trial.show(path)
    print(f"many chunks: {count:,} listed in {time.monotonic() - begun:.1f} s", flush=True)
    trial.same("rows of many chunks", shown["rows"], count)
    trial.check("few rows stand in the page", len(shown["chunks"]) < 100, len(shown["chunks"]))
    trial.browser.value("document.getElementById('chunks').focus()")
    begun = time.monotonic()
    for key, row in (("End", count - 1), ("ArrowUp", count - 2), ("Home", 0), ("ArrowDown", 1)):
        trial.browser.key(key)
        chosen = trial.browser.value("document.querySelector('#chunks [aria-selected=true]')?.cells[0].textContent")
        trial.same(f"the key {key}", chosen, f"{row:,}")
    trial.check("keys are quick", time.monotonic() - begun < 2, time.monotonic() - begun)
    trial.browser.value("document.getElementById('chunks').scrollTop = 1e9")
    trial.browser.wait(f"[...document.querySelectorAll('#chunks tbody td')].some((it) => it.textContent === '{count - 1:,}')")
    trial.picture("many_chunks")


def many(count):
    import struct
    return struct.pack("<HHII", images.SKIP, 0, 0, 12) * count


def people(trial):
    """Names for screen readers, the keyboard, dark and light, a phone's width, and a browser that is too old."""
    path = os.path.join(images.EXAMPLES, "libsparse_crc.simg")
    trial.open(width=360, height=780, is_dark=True)
    trial.show(path)
    trial.check("a phone's width", trial.browser.value("document.documentElement.scrollWidth <= 360"))
    trial.picture("phone_dark")
    dark = trial.browser.value("getComputedStyle(document.body).backgroundColor")
    trial.open()
    trial.check("dark and light differ", dark != trial.browser.value("getComputedStyle(document.body).backgroundColor"))
    trial.show(path)
    for node in trial.browser.call("Accessibility.getFullAXTree")["nodes"]:
        role = node.get("role", {}).get("value")
        if role in ("button", "slider", "grid", "progressbar") and not node.get("ignored"):
            trial.check(f"the {role} has a name", bool(node.get("name", {}).get("value")), node)
    focused = []
    for _ in range(5):
        trial.browser.key("Tab")
        focused.append(trial.browser.value("document.activeElement.id"))
    trial.check("the keyboard reaches all", {"file", "picture", "expand", "chunks"} <= set(focused), focused)
    trial.browser.value("document.getElementById('picture').focus()")
    trial.browser.key("End")
    trial.same("the end of the picture", trial.browser.value("document.getElementById('pointed').textContent"),
               "block 7: chunk 4, raw, blocks 7 to 7, 1 KiB")
    trial.picture("keyboard")
    trial.browser.call("Page.addScriptToEvaluateOnNewDocument", {
        "source": "WebAssembly.Module = function () { throw new WebAssembly.CompileError('memory64') }"})
    trial.open()
    trial.check("a browser that is too old is told", trial.browser.value(
        "document.getElementById('old').checkVisibility() && document.getElementById('file').disabled"))
    trial.picture("old_browser")


def pointer(trial):
    """What lies under the pointer is told, and a click chooses it."""
    trial.open(width=960, height=1180)
    trial.show(trial.file("system.simg", images.system()))
    told = "document.getElementById('pointed').textContent"
    trial.browser.point("#picture", 0.001)
    trial.same("what lies at the front", trial.browser.value(told), "block 0: chunk 0, raw, blocks 0 to 0, 4 KiB")
    trial.browser.point("#picture", 0.5, is_click=True)
    trial.check("the pointer is in the middle", "block 245: chunk 33, raw, " in trial.browser.value(told), trial.browser.value(told))
    trial.same("a click chooses the chunk",
               trial.browser.value("document.querySelector('#chunks [aria-selected=true]').cells[0].textContent"), "33")
    trial.picture("page")


def nothing_else(trial):
    """No script failed, and nothing but the page itself was asked for."""
    thrown = [it["params"]["exceptionDetails"] for it in trial.browser.events if it.get("method") == "Runtime.exceptionThrown"]
    trial.check("no script fails", not thrown, *thrown)


def main():
    parser = argparse.ArgumentParser(description=__doc__, formatter_class=argparse.RawDescriptionHelpFormatter)
    parser.add_argument("page")
    parser.add_argument("program")
    parser.add_argument("--pictures")
    parser.add_argument("--only", default="")
    words = parser.parse_args()
    if not chromium.found():
        print("page: not run, since there is no Chromium (Debian: chromium)\n0 passed, 0 failed")
        return 0
    trial = Trial(words.page, words.program, words.pictures, words.only)
    try:
        for part in (sparse_images, boot_images, picked_files, many_chunks, pointer, people, nothing_else):
            if trial.wanted(part.__name__) or part in (sparse_images, boot_images):
                try:
                    part(trial)
                except chromium.Failed as error:
                    trial.check(part.__name__, False, error)
    finally:
        trial.close()
    print(f"{trial.passed} passed, {trial.failed} failed")
    return 1 if trial.failed else 0


if __name__ == "__main__":
    sys.exit(main())
