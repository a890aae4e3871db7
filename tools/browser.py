"""Drives a headless Chromium by the debugging protocol over two pipes, for the tests of pages.

Python's standard library has what this needs: messages are JSON with a zero byte behind each.
"""

import base64
import fcntl
import json
import os
import select
import shutil
import subprocess
import sys
import tempfile
import time

NAMES = ("chromium", "chromium-browser", "google-chrome")
SECONDS = 60  # how long an answer may take
# Chromium reads from 3 and writes to 4.
STARTS = """import os, sys
os.dup2(int(sys.argv[1]), 3)
os.dup2(int(sys.argv[2]), 4)
os.execvp(sys.argv[3], sys.argv[3:])
"""


class Failed(Exception):
    """What the browser could not do."""


def command():
    """Where Chromium is, or None."""
    return next(filter(None, map(shutil.which, NAMES)), None)


def pipe():
    """Both ends of a pipe, at numbers that stand for nothing else."""
    ends = os.pipe()
    moved = [fcntl.fcntl(end, fcntl.F_DUPFD_CLOEXEC, 10) for end in ends]
    for end in ends:
        os.close(end)
    return moved


class Browser:
    """One browser, to be used by `with`. Its pages are tabs, one of which is looked at."""

    def __init__(self, program, width=1480, height=900, profile=None):
        self.program, self.size, self.profile = program, (width, height), profile
        self.number, self.held, self.session, self.seen = 0, b"", None, []

    def __enter__(self):
        self.folder = tempfile.TemporaryDirectory(prefix="page_test")
        theirs_in, self.to = pipe()
        self.back, theirs_out = pipe()
        words = [
            self.program,
            "--headless",
            "--remote-debugging-pipe",
            "--no-first-run",
            "--disable-gpu",
            "--hide-scrollbars",
            f"--user-data-dir={self.profile or self.folder.name}",
            "--window-size={},{}".format(*self.size),
            "about:blank",
        ]
        if os.geteuid() == 0:
            words.insert(1, "--no-sandbox")  # it refuses to run as root with it
        starts = [sys.executable, "-S", "-E", "-c", STARTS, str(theirs_in), str(theirs_out)]
        self.process = subprocess.Popen(
            [*starts, *words],
            pass_fds=(theirs_in, theirs_out),
            stdin=subprocess.DEVNULL,
            stdout=subprocess.DEVNULL,
            stderr=subprocess.DEVNULL,
        )
        os.close(theirs_in)
        os.close(theirs_out)
        targets = self.ask("Target.getTargets")["targetInfos"]
        self.look_at(next(one["targetId"] for one in targets if one["type"] == "page"))
        return self

    def __exit__(self, *_):
        try:
            self.session = None
            self.ask("Browser.close")
        except (Failed, OSError):
            self.process.terminate()
        os.close(self.to)
        os.close(self.back)
        try:
            self.process.wait(10)
        except subprocess.TimeoutExpired:
            self.process.kill()
            self.process.wait()
        self.folder.cleanup()

    def kill(self):
        """Ends it at once, as a crash does."""
        self.process.kill()
        self.process.wait()

    def look_at(self, target):
        """Looks at a page from now on."""
        self.session = None
        said = self.ask("Target.attachToTarget", targetId=target, flatten=True)
        self.session = said["sessionId"]
        for name in ("Page", "Runtime", "Network"):
            self.ask(f"{name}.enable")

    def new_tab(self):
        """Opens another page, and looks at it; what was looked at before."""
        before, self.session = self.session, None
        target = self.ask("Target.createTarget", url="about:blank")["targetId"]
        self.look_at(target)
        return before

    def resize(self, width, height):
        """Makes the page so large."""
        fields = {"width": width, "height": height, "deviceScaleFactor": 1, "mobile": False}
        self.ask("Emulation.setDeviceMetricsOverride", **fields)

    def ask(self, method, **fields):
        """One request, and its answer. What comes meanwhile is kept in `seen`."""
        self.number += 1
        said = {"id": self.number, "method": method, "params": fields}
        if self.session:
            said["sessionId"] = self.session
        rest = json.dumps(said).encode() + b"\0"
        while rest:
            rest = rest[os.write(self.to, rest) :]
        until = time.monotonic() + SECONDS
        while True:
            message = self.message(until)
            if message.get("id") != self.number:
                self.seen.append(message)
            elif "error" in message:
                raise Failed(f"{method}: {message['error'].get('message')}")
            else:
                return message.get("result", {})

    def message(self, until):
        while b"\0" not in self.held:
            left = until - time.monotonic()
            if left <= 0 or not select.select([self.back], [], [], left)[0]:
                raise Failed(f"no answer in {SECONDS} seconds")
            more = os.read(self.back, 2**20)
            if not more:
                raise Failed("the browser ended")
            self.held += more
        text, self.held = self.held.split(b"\0", 1)
        return json.loads(text)

    # ---- what a reader does

    def value(self, code):
        """What some JavaScript comes to in the page."""
        said = self.ask("Runtime.evaluate", expression=code, returnByValue=True, awaitPromise=True)
        if "exceptionDetails" in said:
            about = said["exceptionDetails"]
            raise Failed(about.get("exception", {}).get("description", about["text"]))
        return said["result"].get("value")

    def until(self, code, wanted=True):
        """Waits until some JavaScript comes to what is wanted; what it came to last."""
        end, shown = time.monotonic() + SECONDS, None
        while True:
            try:
                shown = self.value(code)
            except Failed as fault:
                if "navigated" not in str(fault) and "context" not in str(fault):
                    raise
            if shown == wanted or time.monotonic() > end:
                return shown
            time.sleep(0.02)

    def open(self, address):
        """Opens a page, and waits until it is loaded."""
        self.ask("Page.navigate", url="about:blank")
        self.ask("Page.navigate", url=address)
        until = time.monotonic() + SECONDS
        while self.value("document.readyState") != "complete" or "blank" in self.value(
            "location.href"
        ):
            if time.monotonic() > until:
                raise Failed(f"{address} was not loaded in {SECONDS} seconds")
            time.sleep(0.02)

    def press(self, key, shift=False, ctrl=False):
        """Presses a key."""
        code = {" ": "Space"}.get(key, key)
        fields = {"key": key, "code": code, "modifiers": 8 * shift + 2 * ctrl}
        if len(key) == 1:
            fields["text"] = key
        if key == "Tab":
            fields["windowsVirtualKeyCode"] = 9  # without which the focus stays
        self.ask("Input.dispatchKeyEvent", type="keyDown", **fields)
        self.ask("Input.dispatchKeyEvent", type="keyUp", key=key, code=code)

    def click(self, selector):
        """Clicks in the middle of an element."""
        place = self.value(
            "(() => { const one = document.querySelector(" + json.dumps(selector) + ");"
            "if (!one) return null; one.scrollIntoView({ block: 'nearest' });"
            "const at = one.getBoundingClientRect();"
            "return [at.x + at.width / 2, at.y + at.height / 2]; })()"
        )
        if place is None:
            raise Failed(f"there is no {selector}")
        for kind in ("mousePressed", "mouseReleased"):
            self.ask(
                "Input.dispatchMouseEvent",
                type=kind,
                x=place[0],
                y=place[1],
                button="left",
                clickCount=1,
            )

    def point(self, x, y):
        """Moves the pointer."""
        self.ask("Input.dispatchMouseEvent", type="mouseMoved", x=x, y=y)

    def picture(self, name):
        """Writes a picture of what is seen."""
        data = self.ask("Page.captureScreenshot", format="png")["data"]
        with open(name, "wb") as file:
            file.write(base64.b64decode(data))

    def requests(self):
        """The addresses that the page asked for since it was opened."""
        return [
            one["params"]["request"]["url"]
            for one in self.seen
            if one.get("method") == "Network.requestWillBeSent"
        ]

    def faults(self):
        """What went wrong in the page, requests that failed among it."""
        found = []
        for one in self.seen:
            if one.get("method") == "Network.loadingFailed" and not one["params"].get("canceled"):
                found.append(f"a request failed: {one['params']['errorText']}")
            if one.get("method") == "Runtime.exceptionThrown":
                about = one["params"]["exceptionDetails"]
                found.append(about.get("exception", {}).get("description", about["text"]))
            if one.get("method") == "Runtime.consoleAPICalled" and one["params"]["type"] == "error":
                found.append(str(one["params"]["args"]))
        return found
