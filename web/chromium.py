"""Chromium without a window, driven over two pipes by its debugging protocol."""
import itertools
import json
import os
import select
import shutil
import signal
import subprocess
import tempfile
import time

NAMES = ("chromium", "chromium-browser", "google-chrome", "chrome")


def found():
    """Where Chromium is, or None."""
    named = os.environ.get("CHROMIUM")
    return named or next((path for path in map(shutil.which, NAMES) if path), None)


class Failed(Exception):
    """What the browser or the page answered in place of a result."""


class Browser:
    """A browser with one page. Each call is bounded by a number of seconds."""

    def __init__(self, program, seconds=60):
        self.seconds = seconds
        self.numbers = itertools.count(1)
        self.profile = tempfile.mkdtemp(prefix="abootimg-page-")
        to_read, self.to = os.pipe()
        self.back, from_write = os.pipe()
        words = [
            program, "--headless", "--no-sandbox", "--disable-gpu", "--no-first-run", "--remote-debugging-pipe",
            "--disable-dev-shm-usage", f"--user-data-dir={self.profile}", "about:blank",
        ]

        def pipes():
            # The browser reads at 3 and writes at 4.
            kept_read, kept_write = os.dup(to_read), os.dup(from_write)
            os.dup2(kept_read, 3)
            os.dup2(kept_write, 4)

        self.child = subprocess.Popen(
            words, stdin=subprocess.DEVNULL, stdout=subprocess.DEVNULL, stderr=subprocess.DEVNULL, preexec_fn=pipes,
            close_fds=False, start_new_session=True)
        os.close(to_read)
        os.close(from_write)
        self.held = b""
        self.events = []
        try:
            target = self.call("Target.createTarget", {"url": "about:blank"}, None)["targetId"]
            self.session = self.call("Target.attachToTarget", {"targetId": target, "flatten": True}, None)["sessionId"]
            for domain in ("Page", "Runtime", "DOM"):
                self.call(f"{domain}.enable")
        except BaseException:
            self.close()
            raise

    def call(self, method, parameters=None, session=""):
        """Sends a command, and returns its result."""
        number = next(self.numbers)
        message = {"id": number, "method": method, "params": parameters or {}}
        if session is not None:
            message["sessionId"] = session or self.session
        os.write(self.to, json.dumps(message).encode() + b"\0")
        while True:
            told = self._message()
            if told.get("id") == number:
                if "error" in told:
                    raise Failed(f"{method}: {told['error']['message']}")
                return told["result"]
            self.events.append(told)

    def _message(self):
        end = time.monotonic() + self.seconds
        while b"\0" not in self.held:
            ready, _, _ = select.select([self.back], [], [], max(0, end - time.monotonic()))
            more = os.read(self.back, 1 << 20) if ready else b""
            if not more:
                raise Failed("the browser does not answer")
            self.held += more
        message, _, self.held = self.held.partition(b"\0")
        return json.loads(message)

    def open(self, url):
        self.call("Page.navigate", {"url": url})
        self.wait("document.readyState === 'complete'")

    def value(self, script):
        """What a script of the page gives, as a value of Python."""
        told = self.call("Runtime.evaluate", {
            "expression": script, "awaitPromise": True, "returnByValue": True, "userGesture": True})
        if "exceptionDetails" in told:
            said = told["exceptionDetails"]
            raise Failed(said.get("exception", {}).get("description") or said["text"])
        return told["result"].get("value")

    def wait(self, condition):
        """Waits until a script gives true."""
        end = time.monotonic() + self.seconds
        while not self.value(condition):
            if time.monotonic() > end:
                raise Failed(f"it never came: {condition}")
            time.sleep(0.01)

    def choose_file(self, selector, path):
        """Has a file chosen, as a user does."""
        root = self.call("DOM.getDocument")["root"]["nodeId"]
        node = self.call("DOM.querySelector", {"nodeId": root, "selector": selector})["nodeId"]
        self.call("DOM.setFileInputFiles", {"files": [os.path.abspath(path)], "nodeId": node})

    def key(self, name):
        for kind in ("keyDown", "keyUp"):
            self.call("Input.dispatchKeyEvent", {"type": kind, "key": name, "code": name, "windowsVirtualKeyCode": KEYS[name]})

    def point(self, selector, share, is_click=False):
        """Moves the pointer to a share of an element's width, and presses there."""
        box = self.value(f"(({{ x, y, width, height }}) => [x, y, width, height])"
                         f"(document.querySelector({selector!r}).getBoundingClientRect())")
        place = {"x": box[0] + share * box[2], "y": box[1] + box[3] / 2, "button": "left", "clickCount": 1}
        for kind in ("mouseMoved", "mousePressed", "mouseReleased")[: 3 if is_click else 1]:
            self.call("Input.dispatchMouseEvent", {"type": kind, **place})

    def size(self, width, height, is_dark=False):
        self.call("Emulation.setDeviceMetricsOverride", {
            "width": width, "height": height, "deviceScaleFactor": 1, "mobile": width < 600})
        self.call("Emulation.setEmulatedMedia", {
            "features": [{"name": "prefers-color-scheme", "value": "dark" if is_dark else "light"}]})

    def picture(self, path):
        import base64
        told = self.call("Page.captureScreenshot", {"format": "png", "captureBeyondViewport": False})
        with open(path, "wb") as file:
            file.write(base64.b64decode(told["data"]))

    def close(self):
        try:
            os.killpg(self.child.pid, signal.SIGKILL)
        except ProcessLookupError:
            pass
        self.child.wait()
        os.close(self.to)
        os.close(self.back)
        shutil.rmtree(self.profile, ignore_errors=True)


KEYS = {"Tab": 9, "Enter": 13, "End": 35, "Home": 36, "ArrowLeft": 37, "ArrowUp": 38, "ArrowRight": 39, "ArrowDown": 40,
        "PageUp": 33, "PageDown": 34}
