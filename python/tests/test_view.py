"""`python -m ofswitch view`: what the page has, and what a person sees in a browser."""

import base64
import importlib.util
import os
import pathlib
import random
import re
import shutil
import subprocess
import sys
import zipfile
import zlib

import browser
import messages
import pytest
from ofswitch import Switch
from ofswitch.view import document, edits
from ofswitch.view import page as page_of

pytest_plugins = ["pytester"]

TOP = pathlib.Path(__file__).resolve().parents[2]
EXAMPLES = TOP / "examples"
PROGRAM = os.environ.get("OFSWITCH", "ofswitch")
COMMAND = [sys.executable, "-m", "ofswitch", "view"]
FRAME = "02000000000202000000000188b5"
HARM = "</script><script>document.title = 'harm'</script><img src=x onerror=document.title='harm'>"


def viewed(log, out, *words):
    done = subprocess.run([*COMMAND, str(log), "-o", str(out), *words], capture_output=True, text=True, timeout=300)
    assert (done.returncode, done.stdout, done.stderr) == (0, "", "")
    return str(out)


def document_of(log, **options):
    return document(pathlib.Path(log).read_bytes(), "log", PROGRAM, (), options.get("frame"))


def fates_of(shown):
    """The steps with which something else leaves than before."""
    return [it for it in shown["frame"]["ways"] if it["differs"]]


def tables_after(shown, place):
    """The entries after a row, from the changes up to it."""
    state = []
    for row, changed in shown["changes"]:
        for at, gone, come in changed if row <= place else ():
            state[at : at + gone] = come
    return [shown["entries"][it] for it in state]


@pytest.mark.parametrize("name", ["failover", "statistics", "three-tables", "timeout"])
def test_tables_are_those_that_dis_prints(tmp_path, name):
    text = (EXAMPLES / f"{name}.events").read_text()
    shown = document_of(EXAMPLES / f"{name}.events")
    assert [row.partition("\n")[0] for row in shown["rows"]] == [it for it in text.splitlines() if it]
    for place, line in enumerate(shown["lines"]):
        events = "".join(it + "\n" for it in text.splitlines()[:line])
        printed = subprocess.run([PROGRAM, "dis", "-"], input=events, capture_output=True, text=True, check=True, timeout=60).stdout
        heads = [it.split(" ") for it in printed.splitlines() if it.startswith(("flow ", "group "))]
        assert [it[:2] for it in tables_after(shown, place)] == [["groups", it[1]] if it[0] == "group" else it[1:3] for it in heads]


def test_edits():
    for before, now in [([], [1, 2]), ([1, 2, 3], []), ([1, 2, 3, 4], [1, 4, 5]), ([3, 1], [1, 3]), ([1], [1]), ([1, 1], [1]), ([1], [1, 1])]:
        state = list(before)
        for at, gone, come in edits(before, now):
            state[at : at + gone] = come
        assert state == now
    # an entry in the middle is one edit
    assert edits([1, 2, 3], [1, 3]) == [[1, 1, []]]


def test_the_rows_that_change_where_a_frame_goes():
    """The rows of examples/failover.events as its comments explain them."""
    shown = document_of(EXAMPLES / "failover.events", frame=(1, FRAME))
    found = [(shown["lines"][it["row"]], it["leaves"]) for it in fates_of(shown)]
    one, other = [[f"out by port {port}: {FRAME}"] for port in (2, 3)]
    assert found == [(1, ["not received"]), (2, ["nothing leaves"]), (10, one), (13, other), (16, one)]


def test_comments_are_no_questions(tmp_path):
    """A log in which somebody asks (docs/EVENTS.md): the page is that of the same log without it."""
    text = (EXAMPLES / "failover.events").read_text()
    (tmp_path / "asked").write_text(text.replace("connect\n", "#? flows\nconnect\n#? flows\n", 1))
    shown, wanted = document_of(tmp_path / "asked", frame=(1, FRAME)), document_of(EXAMPLES / "failover.events", frame=(1, FRAME))
    assert shown["entries"] == wanted["entries"] and [it["leaves"] for it in fates_of(shown)] == [it["leaves"] for it in fates_of(wanted)]


def test_a_name_is_no_markup():
    shown = document_of(EXAMPLES / "failover.events")
    shown["name"] = HARM
    assert HARM not in page_of(shown)


def test_buffer_ids_are_no_change(tmp_path):
    log = tmp_path / "log"
    with Switch(log=log) as switch:
        switch.port_add(1)
        switch.connect()
        # 16 bytes of each packet: the switch holds the rest under the next buffer id
        switch.feed(messages.HELLO + messages.flow(messages.output(messages.CONTROLLER, 16)))
        for xid in range(3):
            switch.frame(1, bytes(60))
            switch.feed(messages.flow(messages.output(2), in_port=7, xid=xid))
    fates = fates_of(document_of(log, frame=(1, bytes(60).hex())))
    assert [it["leaves"] for it in fates] == [["nothing leaves"], ["to the controller"]]


def test_an_entry_that_times_out(tmp_path):
    log = tmp_path / "log"
    with Switch(log=log) as switch:
        for port in (1, 2):
            switch.port_add(port)
        switch.connect()
        switch.feed(messages.HELLO + messages.flow(messages.output(2), in_port=1, hard=10))
        switch.at(9_999_999_999)
        switch.at(10_000_000_000)
    shown = document_of(log, frame=(1, FRAME))
    assert [row for row, _ in shown["changes"]] == [3, 5] and [it["row"] for it in fates_of(shown)] == [0, 3, 5]


def test_nothing_of_the_log_is_markup(tmp_path):
    log = tmp_path / "log.events"
    log.write_text(f"# {HARM}\nport add 1 0200000000a1 p1 up\n")
    text = pathlib.Path(viewed(log, tmp_path / "page.html")).read_text()
    assert "harm" not in text and text.count("<script") == text.count("</script") == 2
    packed = re.search(r'id="data">([^<]*)<', text)[1]
    assert HARM in zlib.decompress(base64.b64decode(packed)).decode()
    # it may load nothing and run nothing else
    assert "default-src 'none'" in text and "unsafe" not in text


@pytest.mark.parametrize(
    "words, status, said",
    [
        ([], 0, ""),
        (["--frame", FRAME], 1, "bad port"),
        (["--frame", "ip,nw_dst=10.0.0.1,nw_dst=10.0.0.2", "--port", "1"], 1, "bad frame"),
        (["--port", "1"], 1, "a port needs its frame"),
        (["--port", "one", "--frame", FRAME], 1, "a port is a number"),
        (["--program", "/nowhere/ofswitch"], 3, "there is no program"),
        (["-o", "/nowhere/page.html"], 3, "No such file"),
    ],
)
def test_statuses(tmp_path, words, status, said):
    done = subprocess.run([*COMMAND, str(EXAMPLES / "failover.events"), "-o", str(tmp_path / "it.html"), *words], capture_output=True, text=True, timeout=60)
    assert done.returncode == status and said in done.stderr and "Traceback" not in done.stderr


def test_the_datapath_id_of_the_first_line(tmp_path):
    log = tmp_path / "log.events"
    log.write_text(f"# replay with --dpid 42\nconnect\nc {messages.HELLO.hex()}\nc {messages.features_request(5).hex()}\n")
    text = pathlib.Path(viewed(log, tmp_path / "page.html")).read_text()
    packed = re.search(r'id="data">([^<]*)<', text)[1]
    # in words, as `replay --explain` prints a FEATURES_REPLY
    assert "datapath 0x000000000000002a" in zlib.decompress(base64.b64decode(packed)).decode()


def test_a_bad_row_and_a_missing_file(tmp_path):
    for log, words, status, said in [("port add 1\n", [], 2, "line 1: bad row"), (None, ["missing.events"], 3, "missing.events")]:
        done = subprocess.run([*COMMAND, *(words or ["-"]), "-o", str(tmp_path / "it")], input=log, capture_output=True, text=True, timeout=60)
        assert done.returncode == status and said in done.stderr and not (tmp_path / "it").exists()


def test_a_failed_test_leaves_a_page(pytester, pytestconfig):
    plugin = [] if pytestconfig.pluginmanager.has_plugin("ofswitch") else ["-p", "ofswitch.pytest_plugin"]
    pytester.makepyfile("def test_that_fails(switch): switch.port_add(1); assert False")
    result = pytester.runpytest("-p", "no:cacheprovider", "--ofswitch-view", *plugin)
    [path] = [it for it in result.outlines if it.endswith("switch-1.html")]
    assert "<title>switch 1" in pathlib.Path(path).read_text()


def test_the_wheel_has_the_files_of_the_page(tmp_path):
    at = TOP / "python" / "backend" / "build_wheel.py"
    spec = importlib.util.spec_from_file_location("build_wheel", at)
    backend = importlib.util.module_from_spec(spec)
    spec.loader.exec_module(backend)
    with zipfile.ZipFile(tmp_path / backend.build_wheel(tmp_path)) as wheel:
        assert {f"ofswitch/view.{it}" for it in ("py", "html", "css", "js")} <= {*wheel.namelist()}


# ---- in a browser


@pytest.fixture(scope="module")
def page(tmp_path_factory):
    if browser.PROGRAM is None:
        pytest.skip("there is no Chromium")
    with browser.opened(tmp_path_factory.mktemp("browser")) as page:
        yield page
        assert page.faults == []
        # nothing comes from a network
        assert page.asked and all(it.startswith(("file:", "data:")) for it in page.asked)


@pytest.fixture
def failover(page, tmp_path):
    path = viewed(EXAMPLES / "failover.events", tmp_path / "page.html", "--port", "1", "--frame", FRAME)
    page.size(1280, 900)
    page.open(path)
    return page


def line_of(page):
    """The line of the row that is selected."""
    return int(page.text("#row-head").split(" ")[1].rstrip(","))


def wait(page, milliseconds=500):
    page.value(f"new Promise((done) => setTimeout(done, {milliseconds}))")


def test_the_last_row_is_selected(failover):
    assert failover.text("h1") == "failover.events"
    assert failover.text("#row-head") == "Line 17, 0.000 s: frames"
    way = failover.texts("ol.way > li")
    assert way[0] == "in by port 1, 14 bytes" and way[1].startswith("table 0: entry 0") and way[2] == "sent out of port 2, 14 bytes"
    assert "in_port=1" in way[1] and "group 1" in way[1]


def test_a_click_and_keys(failover):
    failover.click("#line-13")
    assert failover.text("#row-head") == "Line 13, 0.000 s: ports"
    assert failover.texts("#list [aria-selected=true] .number") == ["13"]
    for keys, line in [("k", 12), ("jj", 14), ("[", 10), ("[", 8), ("]", 10), ("}", 13), ("}", 16), ("}", 16), ("{", 13)]:
        failover.press(*keys)
        assert line_of(failover) == line, keys
    failover.value("document.getElementById('list').focus()")
    for key, line in [("ArrowUp", 12), ("ArrowDown", 13), ("Home", 1), ("End", 17)]:
        failover.press(key)
        assert line_of(failover) == line, key


def test_the_tables_and_what_a_row_changes(failover):
    failover.click("#line-8")
    assert failover.texts("#tables-body caption") == ["groups"]
    assert failover.texts("tr.added td")[:2] == ["1", "ff"]
    failover.press("]")
    assert failover.texts("#tables-body caption") == ["groups", "table 0"]
    assert failover.texts("tr.added td") == ["0", "10", "in_port=1", "apply: group 1", "", "added"]
    failover.click("#line-11")
    assert failover.texts("tr.hit td:first-child") == ["0"] and failover.texts("tr.added") == []


def test_entries_that_go_and_change(page, tmp_path):
    log = tmp_path / "log"
    with Switch(log=log) as switch:
        switch.connect()
        switch.feed(messages.HELLO + messages.flow(messages.output(2), in_port=1, hard=5) + messages.flow(messages.output(2), in_port=2))
        switch.feed(messages.flow(messages.output(3), in_port=2))
        switch.at(5_000_000_000)
    page.open(viewed(log, tmp_path / "page.html"), "#line-3")
    assert page.texts("tr.changed td") == ["1", "10", "in_port=2", "apply: output port 3", "", "changed"]
    assert page.texts("tr.before td:nth-child(4)") == ["apply: output port 2"]
    page.press("j")
    assert page.text("#row-head") == "Line 4, 5.000 s: time"
    assert page.texts("tr.removed td:nth-child(3)") == ["in_port=1"]


def test_the_fate_of_the_frame(failover):
    assert [it.split(",")[0] for it in failover.texts(".fates li")] == ["line 1", "line 2", "line 10", "line 13", "line 16"]
    failover.click(".fates li:nth-child(4) a")
    assert failover.text("#row-head") == "Line 13, 0.000 s: ports"
    assert failover.texts(".fates [aria-current]") == [f"line 13, 0.000 s: out by port 3: {FRAME}"]
    assert "bucket 1" in failover.text("#frame-body pre")
    if shutil.which("dot"):
        assert failover.text("figcaption").startswith("The tables after line 13,")


def test_other_steps_to_the_same_port(page, tmp_path):
    log = tmp_path / "log"
    with Switch(log=log) as switch:
        for port in (1, 2):
            switch.port_add(port)
        switch.connect()
        switch.feed(messages.HELLO + messages.flow(messages.output(2), in_port=1))
        switch.feed(messages.flow(messages.output(2), priority=20))
    page.open(viewed(log, tmp_path / "page.html", "--port", "1", "--frame", FRAME), "#line-5")
    # it is the younger entry now, but what leaves is the same
    assert page.texts(".fates li a") == ["line 1", "line 4"]
    assert page.text("#frame-body pre").startswith("lookup 0 entry 1")
    page.press("k")
    assert page.text("#frame-body pre").startswith("lookup 0 entry 0")


def test_search_and_kinds(failover):
    failover.press("/")
    failover.call("Input.insertText", text="port_status")
    wait(failover)
    # a comment says it, too
    assert failover.texts(".item .number") == ["12", "13", "16"]
    assert failover.text("#status").endswith("3 of 17 rows are shown")
    # keys of the page are letters there
    assert line_of(failover) == 17
    failover.value("document.getElementById('search').value = ''")
    failover.click("#kind-comments")
    assert failover.text("#status").endswith("12 of 17 rows are shown")
    failover.click("#line-8")
    failover.press("j")
    assert line_of(failover) == 10


def test_links_to_rows(failover):
    # at once after the page chose a row, whose address it has still to write
    failover.press("k")
    failover.value("location.hash = '#line-9'")
    wait(failover)
    assert failover.text("#row-head") == "Line 9, 0.000 s: comments"
    failover.press("j")
    wait(failover)
    assert failover.value("location.hash") == "#line-10"


def test_the_line_of_time(failover):
    label = failover.value("document.getElementById('marks').getAttribute('aria-label')")
    # four rows of the controller, three ports and two links, three frames, no FLOW_REMOVED; five fates
    assert label == "controller: 4 rows, ports: 5 rows, frames: 3 rows, FLOW_REMOVED: 0 rows, the frame's fate: 5 rows"
    failover.click("#marks")
    # the middle of 17 rows
    assert line_of(failover) == 9


def test_what_a_screen_reader_needs(failover):
    assert failover.texts("h1, h2") == ["failover.events", "Time", "Rows", "Line 17, 0.000 s: frames", "The frame", "Tables after line 17"]
    unlabelled = "[...document.querySelectorAll('input, select')].filter((it) => !it.labels.length).length"
    assert failover.value(unlabelled) == 0
    assert failover.value("[...document.querySelectorAll('table')].every((it) => it.caption && it.querySelector('th[scope=col]'))")
    assert failover.value("document.getElementById(document.getElementById('list').getAttribute('aria-activedescendant')).getAttribute('aria-posinset')") == "17"


def test_dark_and_light(failover):
    grounds = []
    for dark in (True, False):
        failover.is_dark(dark)
        grounds.append(failover.value("getComputedStyle(document.body).backgroundColor"))
    assert grounds == ["rgb(23, 25, 28)", "rgb(255, 255, 255)"]


def test_text_of_the_log_does_no_harm(page, tmp_path):
    log = tmp_path / "log.events"
    log.write_text(f"# {HARM}\nport add 1 0200000000a1 p1 up\n")
    page.open(viewed(log, tmp_path / "page.html"), "#line-1")
    assert page.text("#row-body pre") == f"# {HARM}"
    assert page.value("document.title") == "log.events - ofswitch" and page.value("document.querySelectorAll('img').length") == 0


def test_a_long_log(page, tmp_path):
    """100,000 rows: times, frames with other bytes in each, and entries that come and go. The words are as the program prints them."""
    rows, changes, chosen = [], [], random.Random(1)
    for at in range(100_000):
        row = f"f 1 {chosen.randbytes(60).hex()}\nin by port 1, 60 bytes\ntable 0: entry {at % 7}\nsent out of port 2, 60 bytes"
        rows.append(f"t {at * 1_000_000}" if at % 5 == 0 else row)
        if at % 5 == 1:
            changes.append([at, [[len(changes) % 300, len(changes) >= 300, [len(changes)]]]])
    entries = [["0", "10", f"in_port={it}", "apply: output port 2", ""] for it in range(len(changes))]
    path = tmp_path / "page.html"
    path.write_text(page_of({"name": "long", "lines": [*range(1, 100_001)], "rows": rows, "entries": entries, "changes": changes}))
    before = page.processor_seconds()
    seconds = page.open(path, "#line-50000")
    work = page.processor_seconds() - before
    print(f"{path.stat().st_size} bytes, opened in {seconds:.2f} s, {work:.2f} s of processor time of the page")
    # about a second, but the machine may be busy, and slower than others
    assert work < 5 and seconds < 60
    assert page.text("#status").endswith("100000 of 100000 rows are shown")
    # only what is visible is drawn, and the row of the link is
    assert page.value("document.querySelectorAll('.item').length") < 100
    assert page.texts("#list [aria-selected=true] .number") == ["50000"]
    # 10,000 changes up to there: the last 300 entries are there, of which 200 are shown, and a button
    assert page.text("#tables-body button") == "show 100 more"
    page.click("#tables-body button")
    assert len(page.texts("#tables-body tbody tr")) == 300


def test_an_empty_log(page, tmp_path):
    log = tmp_path / "empty.events"
    log.write_text("")
    page.open(viewed(log, tmp_path / "page.html"))
    assert page.text("#status") == "0 of 0 rows are shown"
