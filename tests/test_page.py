"""The page of tools/page in Chromium and in Firefox, compared with the program.

A table and a frame are typed, and 100 traces, and the reports of `check`, `diff` and `check --require`, are byte for byte those of
the program. The page asks for nothing over a network. How long it takes to be shown, and to trace a frame through 1,000 flows, is printed.
Each field has a name for a screen reader, all can be reached with Tab, and a link has what was typed. If OFSWITCH_PICTURE names a file,
Chromium draws the page there.
"""
import base64
import contextlib
import functools
import importlib.machinery
import importlib.util
import json
import os
import sys
import tempfile
import unittest

from tests.program import TOP, Case, ofswitch, read

sys.path[:0] = [f"{TOP}/python/tests", f"{TOP}/tools"]
import browser  # noqa: E402
import firefox  # noqa: E402

TABLES = ["office.txt", "office-mended.txt", "router.flows", "router2.flows", "groups.flows", "shadowed.flows", "covered.flows", "doubtful.flows", "failover.flows", "first-path.events", "three-tables.events", "ovs-router.txt"]
FRAMES = [
    "in_port=1,ip,nw_src=10.0.9.7,nw_dst=10.0.1.5",
    "in_port=2,arp",
    "dl_dst=02:00:00:00:00:a1,ip,nw_dst=10.1.1.9",
    "in_port=1,dl_dst=02:00:00:00:00:a1,ip,nw_dst=10.2.0.1,nw_ttl=1",
    "tcp,nw_src=10.0.0.1,nw_dst=10.0.0.80,tp_dst=80",
    "in_port=3,udp6,ipv6_dst=2001:db8::1,tp_dst=53",
    "dl_vlan=5,dl_vlan_pcp=3,ip,nw_dst=10.1.2.3",
    "0200000000020200000000010806000108000604000102000000000a0a00000000000000000a0a000001",
    "in_port=77,arp",
    "0102",
]
FIELDS = ("table", "frame", "port", "requirements", "other")


@functools.lru_cache(maxsize=None)
def made():
    """The text of the page, and why it cannot be made."""
    loader = importlib.machinery.SourceFileLoader("page", f"{TOP}/tools/page")
    tool = importlib.util.module_from_spec(importlib.util.spec_from_loader("page", loader))
    loader.exec_module(tool)
    try:
        return tool.page(), None
    except tool.Missing as why:
        return None, str(why)


def ran(*words):
    done = ofswitch(*words)
    return done.status, done.out


def settled(page):
    page.value("new Promise((done) => { const see = () => document.body.ariaBusy === 'false' ? done() : setTimeout(see, 5); see(); })")


def put(page, **texts):
    """What a person would have typed in the fields."""
    texts = {"port": "1", **dict.fromkeys(("frame", "requirements", "other"), ""), **texts}
    page.value(f"Object.entries({json.dumps(texts)}).forEach(([id, text]) => {{ document.getElementById(id).value = text; }})")
    page.value("document.getElementById('table').dispatchEvent(new Event('input'))")
    settled(page)


def type_into(page, field, text):
    page.click(f"#{field}")
    page.value(f"document.getElementById('{field}').select()")
    page.insert(text)


class Page:
    """The checks in a browser, `kind`."""

    slow = True

    @classmethod
    def setUpClass(cls):
        if not cls.kind.PROGRAM:
            raise unittest.SkipTest(f"there is no {cls.__name__}")
        text, why = made()
        if why:
            raise unittest.SkipTest(why)
        stack = contextlib.ExitStack()
        cls.addClassCleanup(stack.close)
        folder = stack.enter_context(tempfile.TemporaryDirectory(prefix="ofswitch-page-"))
        cls.path = f"{folder}/page.html"
        with open(cls.path, "w", encoding="utf-8") as file:
            file.write(text)
        cls.page = stack.enter_context(cls.kind.opened(f"{folder}/browser"))

    def setUp(self):
        self.page.open(self.path)

    def tearDown(self):
        self.same("what the page asks for", sorted({it.partition(":")[0] for it in self.page.asked} - {"file", "blob", "about", "data"}), [])
        self.same("faults of the page", list(self.page.faults), [])

    def test_typing(self):
        type_into(self.page, "table", read("examples/office.txt"))
        type_into(self.page, "frame", FRAMES[0])
        settled(self.page)
        self.same("what is typed", self.page.text("#trace"), ran("trace", f"{TOP}/examples/office.txt", FRAMES[0])[1])
        self.same("where it leaves", self.page.text("#outcome"), "The frame: out by port 2.")
        self.same("the findings", self.page.texts("#findings li"), ["line 6 never wins: shadowed by line 5"])
        self.same("the mark at its line", self.page.texts("#gutter b"), ["! 6\n"])
        self.page.click("#findings button")
        self.same("the line of a finding", self.page.value("(({value, selectionStart, selectionEnd}) => value.slice(selectionStart, selectionEnd))(document.activeElement)"), read("examples/office.txt").split("\n")[5])

    def test_traces(self):
        """Each frame on each table, until there are 100 that the program traces."""
        compared = 0
        for frame in FRAMES:
            for name in TABLES:
                path = f"{TOP}/examples/{name}"
                put(self.page, table=read(path), frame=frame)
                status, out = ran("trace", "--port", "1", path, frame) if "in_port" not in frame else ran("trace", path, frame)
                self.same(f"{frame} on {name}", self.page.text("#trace"), out if status == 0 else "")
                self.same(f"{frame} on {name}: what is said", self.page.text("#outcome") != "", True)
                compared += status == 0
        self.same("100 traces are compared", compared >= 100, True)

    def test_reports(self):
        for name, other in zip(TABLES, TABLES[1:] + TABLES[:1]):
            paths = [f"{TOP}/examples/{it}" for it in (name, other)]
            put(self.page, table=read(paths[0]), other=read(paths[1]), requirements=read("examples/office.req"))
            self.same(f"check of {name}", self.page.text("#report"), ran("check", paths[0])[1])
            self.same(f"diff of {name} and {other}", self.page.text("#differences"), ran("diff", *paths)[1])
            out = ran("check", paths[0], "--require", f"{TOP}/examples/office.req")[1]
            # the page says once that there are such ports
            wanted = [it for it in out.splitlines(True) if not it.endswith("is named, and the switch does not have it\n")]
            self.same(f"requirements of {name}", "".join(wanted) in self.page.text("#required"), True)
            self.same(f"verdicts of {name}", len(self.page.texts("#verdicts li")), 5)
        put(self.page, table=read("examples/normal.txt"))
        self.same("a word that is not read", self.page.texts("#findings li"), ["line 3 NORMAL: not supported by this switch, or not an ovs-ofctl keyword"])
        put(self.page, table="flow 0 5 0 0 0\n")
        self.same("flow text that is not read", self.page.texts("#findings li"), ["line 1 is not read"])

    def test_fields(self):
        """All fields can be reached with Tab, and have names."""
        self.page.value("document.activeElement.blur()")
        reached = []
        for _ in range(30):
            self.page.press("Tab")
            reached.append(self.page.value("document.activeElement.id"))
        self.same("fields that Tab reaches", [it for it in ("example", "link", *FIELDS) if it not in reached], [])
        nodes = self.page.named()
        named = {"textbox", "combobox", "spinbutton", "button", "image", "img", "list"}
        self.same("fields without names", [role for role, name in nodes if role in named and not name], [])
        self.same("fields that a reader sees", sum(role in ("textbox", "spinbutton") for role, _ in nodes), len(FIELDS))

    def test_link(self):
        put(self.page, table="priority=1 actions=output:2 # \u00fc\n", frame="arp", port="3", requirements="no frame leaves by 3\n", other="actions=drop\n")
        wanted = self.page.value("Object.fromEntries([...document.querySelectorAll('textarea, input')].map((it) => [it.id, it.value]))")
        self.page.click("#link")
        settled(self.page)
        place = self.page.value("location.hash")
        self.page.navigate("about:blank")
        self.page.open(self.path, place)
        self.same("what a link has", self.page.value("Object.fromEntries([...document.querySelectorAll('textarea, input')].map((it) => [it.id, it.value]))"), wanted)

    def test_times(self):
        shown = []
        for _ in range(3):
            self.page.navigate("about:blank")
            self.page.open(self.path)
            shown.append(float(self.page.value("document.body.dataset.shown")))
        flows = "".join(f"priority={i % 7 + 1},ip,nw_dst=10.{i >> 8}.{i & 255}.0/24 actions=output:{i % 4 + 1}\n" for i in range(1000))
        took = []
        for i in range(5):
            put(self.page, table=flows, frame=f"ip,nw_dst=10.1.{i}.1")
            took.append(float(self.page.value("document.body.dataset.milliseconds")))
            self.same("the trace of 1,000 flows", "output" in self.page.text("#trace"), True)
        print(f"{type(self).__name__}: shown after {min(shown):.0f} ms; a trace of 1,000 flows {min(took):.0f} ms; {os.path.getsize(self.path)} bytes")


class Chromium(Page, Case):
    kind = browser

    @unittest.skipUnless("OFSWITCH_PICTURE" in os.environ, "OFSWITCH_PICTURE names no file")
    def test_picture(self):
        self.page.size(1280, 1000)
        put(self.page, table=read("examples/office.txt"), frame=FRAMES[0], requirements=read("examples/office.req"), other=read("examples/office-mended.txt"))
        with open(os.environ["OFSWITCH_PICTURE"], "wb") as file:
            file.write(base64.b64decode(self.page.call("Page.captureScreenshot", format="png", captureBeyondViewport=True)["data"]))


class Firefox(Page, Case):
    kind = firefox
