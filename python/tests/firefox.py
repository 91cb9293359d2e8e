"""Headless Firefox over its Marionette protocol, with only Python's standard library: what tests need of `browser.Page`."""

import contextlib
import json
import os
import shutil
import socket
import subprocess
import time

PROGRAM = shutil.which("firefox-esr") or shutil.which("firefox")

# How long an answer may take, in seconds: the machine may be busy.
PATIENCE = 120.0

# The keys that a test presses, as WebDriver names them.
KEYS = {"Tab": "\ue004"}

# No page of Mozilla's is asked for at the start, and the port is one that the system chooses.
PREFERENCES = """user_pref("marionette.port", 0);
user_pref("app.normandy.enabled", false);
user_pref("browser.shell.checkDefaultBrowser", false);
user_pref("browser.startup.page", 0);
user_pref("datareporting.policy.dataSubmissionEnabled", false);
user_pref("network.captive-portal-service.enabled", false);
user_pref("network.connectivity-service.enabled", false);
user_pref("toolkit.telemetry.reportingpolicy.firstRun", false);
"""


class Page:
    """A page in a browser of its own. Each call waits for its answer; AssertionError if the browser refuses it."""

    # the protocol does not report them
    faults = ()

    def __init__(self, to_browser):
        self._wire, self._number = to_browser, 0
        self._read()
        self.call("NewSession", capabilities={"alwaysMatch": {"webSocketUrl": False}})
        self.call("SetTimeouts", script=int(PATIENCE * 1000), pageLoad=int(PATIENCE * 1000))

    def call(self, method, **params):
        self._number += 1
        text = json.dumps([0, self._number, f"WebDriver:{method}", params]).encode()
        self._wire.sendall(b"%d:%s" % (len(text), text))
        _, _, fault, result = self._read()
        assert fault is None, fault
        return result

    def _read(self):
        length = b""
        while not length.endswith(b":"):
            length += self._some(1)
        return json.loads(self._some(int(length[:-1])))

    def _some(self, count):
        data = b""
        while len(data) < count:
            more = self._wire.recv(count - len(data))
            assert more, "the browser has ended"
            data += more
        return data

    def navigate(self, url):
        self.call("Navigate", url=url)

    def open(self, path, place=""):
        """Opens a file, and returns how many seconds that took, until the page's program was at its end."""
        began = time.monotonic()
        self.navigate(f"file://{path}{place}")
        self.value("new Promise((done) => { const see = () => document.body.ariaBusy === 'false' ? done() : setTimeout(see, 5); see(); })")
        return time.monotonic() - began

    def value(self, expression):
        """The value of an expression of the page's language."""
        return self.call("ExecuteScript", script=f"return ({expression});", args=[], sandbox=None, newSandbox=False)["value"]

    def text(self, selector):
        return self.value(f"document.querySelector({json.dumps(selector)}).textContent")

    def texts(self, selector):
        return self.value(f"[...document.querySelectorAll({json.dumps(selector)})].map((it) => it.textContent)")

    def _elements(self, selector):
        return [next(iter(it.values())) for it in self.call("FindElements", using="css selector", value=selector)]

    def click(self, selector):
        self.call("ElementClick", id=self._elements(selector)[0])

    def insert(self, text):
        """Types a text into the element that has the focus."""
        self.value(f"document.execCommand('insertText', false, {json.dumps(text)})")

    def press(self, *keys):
        for key in keys:
            steps = [{"type": kind, "value": KEYS[key]} for kind in ("keyDown", "keyUp")]
            self.call("PerformActions", actions=[{"type": "key", "id": "keyboard", "actions": steps}])

    def named(self):
        """The role and the name of each element that a screen reader may read."""
        found = self._elements("body *")
        return [(self.call("GetComputedRole", id=it)["value"], self.call("GetComputedLabel", id=it)["value"]) for it in found]

    @property
    def asked(self):
        """What the page asks for."""
        return self.value("performance.getEntriesByType('resource').map((it) => it.name)")


def port_of(folder, running):
    """The port that the browser wrote into its folder."""
    path, end = f"{folder}/MarionetteActivePort", time.monotonic() + PATIENCE
    while time.monotonic() < end and running.poll() is None:
        with contextlib.suppress(FileNotFoundError, ValueError), open(path, encoding="utf-8") as text:
            return int(text.read())
        time.sleep(0.05)
    raise AssertionError("Firefox did not start")


@contextlib.contextmanager
def opened(folder):
    """A page of a browser whose files are in this folder, and which ends with the block."""
    os.makedirs(folder)
    with open(f"{folder}/user.js", "w", encoding="utf-8") as text:
        text.write(PREFERENCES)
    command = [PROGRAM, "--headless", "--marionette", "--no-remote", "--profile", str(folder), "--width", "1280", "--height", "1000"]
    quiet = subprocess.DEVNULL
    environment = {**os.environ, "HOME": str(folder), "MOZ_CRASHREPORTER_DISABLE": "1"}
    with subprocess.Popen(command, stdin=quiet, stdout=quiet, stderr=quiet, env=environment) as running:
        try:
            with socket.create_connection(("127.0.0.1", port_of(folder, running)), timeout=PATIENCE) as wire:
                yield Page(wire)
        finally:
            running.kill()
