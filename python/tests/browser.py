"""Headless Chromium over a pipe: its DevTools protocol, with only Python's standard library."""

import contextlib
import fcntl
import json
import os
import select
import shutil
import subprocess
import time

PROGRAM = shutil.which("chromium") or shutil.which("chromium-browser") or shutil.which("google-chrome")

# How long an answer may take, in seconds: the machine may be busy.
PATIENCE = 120.0

# The keys that a test presses, with their codes where the browser needs them.
CODES = {"ArrowDown": 40, "ArrowUp": 38, "Enter": 13, "Home": 36, "End": 35, "Tab": 9}


class Page:
    """A page in a browser of its own. Each call waits for its answer; AssertionError if the page's program fails."""

    def __init__(self, to_browser, from_browser):
        self._to, self._from = to_browser, from_browser
        self._left, self._number, self._session = b"", 0, None
        self.faults = []
        # what the page asks for
        self.asked = []
        target = self.call("Target.createTarget", url="about:blank")["targetId"]
        self._session = self.call("Target.attachToTarget", targetId=target, flatten=True)["sessionId"]
        for it in ("Page", "Runtime", "Log", "Network", "Performance"):
            self.call(f"{it}.enable")
        self.size(1280, 900)

    def call(self, method, **params):
        self._number += 1
        asked = {"id": self._number, "method": method, "params": params}
        if self._session:
            asked["sessionId"] = self._session
        os.write(self._to, json.dumps(asked).encode() + b"\0")
        return self._until(lambda it: it.get("id") == self._number)["result"]

    def _until(self, is_wanted):
        end = time.monotonic() + PATIENCE
        while True:
            message = self._next(end - time.monotonic())
            assert "error" not in message, message
            if message.get("method") in ("Runtime.exceptionThrown", "Log.entryAdded"):
                self.faults.append(message["params"])
            if message.get("method") == "Network.requestWillBeSent":
                self.asked.append(message["params"]["request"]["url"])
            if is_wanted(message):
                return message

    def _next(self, seconds):
        while b"\0" not in self._left:
            assert select.select([self._from], [], [], max(0, seconds))[0], "the browser does not answer"
            data = os.read(self._from, 1 << 20)
            assert data, "the browser has ended"
            self._left += data
        text, _, self._left = self._left.partition(b"\0")
        return json.loads(text)

    def open(self, path, place=""):
        """Opens a file, and returns how many seconds that took, until the page's program was at its end."""
        began = time.monotonic()
        self.navigate(f"file://{path}{place}")
        self._until(lambda it: it.get("method") == "Page.loadEventFired")
        self.value("new Promise((done) => { const see = () => document.body.ariaBusy === 'false' ? done() : setTimeout(see, 5); see(); })")
        return time.monotonic() - began

    def navigate(self, url):
        self.call("Page.navigate", url=url)

    def processor_seconds(self):
        """How long the page's tasks have run so far."""
        return next(it["value"] for it in self.call("Performance.getMetrics")["metrics"] if it["name"] == "TaskDuration")

    def size(self, width, height):
        self.call("Emulation.setDeviceMetricsOverride", width=width, height=height, deviceScaleFactor=1, mobile=False)

    def is_dark(self, yes):
        self.call("Emulation.setEmulatedMedia", features=[{"name": "prefers-color-scheme", "value": "dark" if yes else "light"}])

    def value(self, expression):
        """The value of an expression of the page's language."""
        answer = self.call("Runtime.evaluate", expression=expression, returnByValue=True, awaitPromise=True)
        assert "exceptionDetails" not in answer, answer["exceptionDetails"]
        return answer["result"].get("value")

    def text(self, selector):
        return self.value(f"document.querySelector({json.dumps(selector)}).textContent")

    def texts(self, selector):
        return self.value(f"[...document.querySelectorAll({json.dumps(selector)})].map((it) => it.textContent)")

    def click(self, selector):
        """Clicks at the middle of an element, as a person does."""
        box = self.value(
            f"(() => {{ const it = document.querySelector({json.dumps(selector)}); it.scrollIntoView({{block: 'nearest'}});"
            " const box = it.getBoundingClientRect(); return [box.x + box.width / 2, box.y + box.height / 2]; })()"
        )
        for kind in ("mousePressed", "mouseReleased"):
            self.call("Input.dispatchMouseEvent", type=kind, x=box[0], y=box[1], button="left", clickCount=1)

    def insert(self, text):
        """Types a text into the element that has the focus."""
        self.call("Input.insertText", text=text)

    def named(self):
        """The role and the name of each element that a screen reader reads."""
        self.call("Accessibility.enable")
        nodes = [it for it in self.call("Accessibility.getFullAXTree")["nodes"] if not it["ignored"]]
        return [(it["role"]["value"], it.get("name", {}).get("value", "")) for it in nodes]

    def press(self, *keys):
        for key in keys:
            code = {"windowsVirtualKeyCode": CODES[key]} if key in CODES else {"text": key}
            self.call("Input.dispatchKeyEvent", type="keyDown", key=key, **code)
            self.call("Input.dispatchKeyEvent", type="keyUp", key=key)


@contextlib.contextmanager
def opened(folder):
    """A page of a browser whose files are in this folder, and which ends with the block."""
    # above the numbers at which the browser wants them
    ours, theirs = [[fcntl.fcntl(it, fcntl.F_DUPFD_CLOEXEC, 10) for it in os.pipe()] for _ in "ab"]
    options = ["--headless", "--no-sandbox", "--disable-gpu", "--disable-dev-shm-usage", "--remote-debugging-pipe", f"--user-data-dir={folder}"]
    command = ["bash", "-c", f'exec "$@" 3<&{ours[0]} 4>&{theirs[1]}', "bash", PROGRAM, *options]
    quiet = subprocess.DEVNULL
    with subprocess.Popen(command, pass_fds=(ours[0], theirs[1]), stdin=quiet, stdout=quiet, stderr=quiet) as running:
        os.close(ours[0]), os.close(theirs[1])
        try:
            yield Page(ours[1], theirs[0])
        finally:
            running.kill()
            os.close(ours[1]), os.close(theirs[0])
