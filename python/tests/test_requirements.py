"""Requirements of a switch: of a table, and of what a controller installs."""

import pathlib
import re

import messages
import pytest
from ofswitch import Sent, Switch, require
from ofswitch.applications import load

EXAMPLES = pathlib.Path(__file__).resolve().parents[2] / "examples"
OFFICE, MENDED, REQUIREMENTS = EXAMPLES / "office.txt", EXAMPLES / "office-mended.txt", EXAMPLES / "office.req"
GUESTS = "no frame ip,nw_src=10.0.9.0/24 leaves by 2,3"
A, B, C = (bytes.fromhex(f"02000000000{it}") for it in "abc")


def sent(source, to):
    return to + source + bytes.fromhex("88b5") + bytes(46)


class Controlled:
    """A switch with ports 1 to 3, and a controller that answers at once."""

    def __init__(self, switch, controller):
        self.switch, self.controller = switch, controller
        for port in (1, 2, 3):
            switch.port_add(port)
        [hello] = switch.connect()
        controller.connected(1, self.feed)
        controller.message(1, bytes(hello))

    def feed(self, data):
        self.hear(self.switch.feed(data))

    def frame(self, port, frame):
        self.hear(self.switch.frame(port, frame))

    def hear(self, effects):
        for it in effects:
            if not isinstance(it, Sent):
                self.controller.message(1, bytes(it))


# ---- tables
def test_tables_in_files_and_texts():
    found = require(OFFICE, REQUIREMENTS)
    assert [(it["line"], it["verdict"]) for it in found] == [(2, "fails"), (3, "holds"), (4, "holds"), (5, "holds"), (6, "holds")]
    assert found[0]["requirement"] == "no frame ip,nw_src=10.0.9.0/24 leaves by 2,3,4" and found[0]["in_port"] == 1
    assert [it["port"] for it in found[0]["items"]] == [2]
    assert all(it["matches"] for it in found) and "frame" not in found[1] and "frame" in found[4]
    assert require(OFFICE.read_text(), REQUIREMENTS.read_text()) == found
    assert {it["verdict"] for it in require(MENDED, REQUIREMENTS)} == {"holds"}


def test_the_frame_that_is_shown_leaves_there(switch):
    for port in (1, 2, 3):
        switch.port_add(port)
    switch.import_(OFFICE)
    [found] = require(OFFICE, "no frame ip,nw_src=10.0.9.0/24 leaves by 2,3")
    assert [it.port for it in switch.frame(found["in_port"], bytes.fromhex(found["frame"]))] == [2]


def test_undecided_requirements_and_those_that_are_about_no_frame():
    [found] = require(MENDED, GUESTS, steps=0)
    assert found["verdict"] == "undecided" and "frame" not in found
    found = require(MENDED, "no frame metadata=1 leaves by 2\nsome frame metadata=1 leaves by 2")
    assert [(it["verdict"], it["matches"]) for it in found] == [("holds", False), ("fails", False)]
    assert require(MENDED, "# nothing\n\n") == []


def test_faults():
    with pytest.raises(ValueError, match="^requirements: line 2: frames: a requirement begins with "):
        require(MENDED, f"{GUESTS}\nno frames ip leaves by 2")
    with pytest.raises(ValueError, match=f"^{re.escape(str(OFFICE))}: line 2: table=0,priority=20,arp,actions=flood: a requirement begins"):
        require(MENDED, OFFICE)
    with pytest.raises(ValueError, match="^line 1: "):
        require("flow x\n", GUESTS)
    with pytest.raises(ValueError, match="^port 9 is named, and the switch does not have it$"):
        require(MENDED, "no frame leaves by 9", ports="1-4")
    # a switch of flow text has the ports that requirements name, and ARP is flooded
    assert [it["verdict"] for it in require(MENDED, "no frame ip leaves by 9\nno frame leaves by 9")] == ["holds", "fails"]


# ---- switches
def test_a_switch_meets_requirements_or_the_test_fails(switch):
    for port in (1, 2, 3):
        switch.port_add(port)
    switch.import_(OFFICE)
    log = switch.log
    with pytest.raises(AssertionError) as raised:
        switch.require(f"each frame arp leaves only by 1,2,3\n{GUESTS}")
    lines = str(raised.value).splitlines()
    assert lines[0] == f"fails: {GUESTS}"
    assert lines[1].startswith("  frame: --port 1 ")
    assert "ipv4 10.0.9.0 > 10.0.1.0" in lines[2]
    assert lines[3:] == [f"    {it}" for it in ("in by port 1, 34 bytes", "table 0: entry 1", "table 1: entry 0", "table 2: entry 0", "sent out of port 2, 34 bytes")]
    # a question changes nothing
    assert switch.log == log
    switch.import_("table=1,priority=150,ip,nw_src=10.0.9.0/24,actions=drop")
    assert [it["verdict"] for it in switch.require(f"each frame arp leaves only by 1,2,3\n{GUESTS}")] == ["holds", "holds"]


def test_what_no_frame_shows(switch):
    switch.port_add(1), switch.port_add(2)
    with pytest.raises(AssertionError, match="^fails: some frame leaves by 2\n  no frame does this$"):
        switch.require("some frame leaves by 2")
    with pytest.raises(AssertionError, match="^undecided: no frame leaves by 2\n  it is not known of all frames that come in by port 1 and match; `ofswitch paths --match` says why$"):
        switch.require("no frame leaves by 2", steps=0)
    with pytest.raises(AssertionError, match="^fails: some frame metadata=1 leaves by drop\n  the switch receives no frame that matches$"):
        switch.require("some frame metadata=1 leaves by drop")
    with pytest.raises(ValueError, match="^port 7 is named, and the switch does not have it\nport 9 is named, and the switch does not have it$"):
        switch.require("no frame in_port=7 leaves by 9")
    with pytest.warns(UserWarning, match="^no frame metadata=1 leaves by 2: the switch receives no frame that matches$"):
        switch.require("no frame metadata=1 leaves by 2")


def test_a_switch_without_a_log(new_switch):
    with pytest.raises(RuntimeError, match="keeps no log"):
        new_switch(log=False).require("no frame leaves by 1")


# ---- what a controller installs
@pytest.mark.parametrize(("name", "moves"), [("Learning", True), ("Forgetful", False)])
def test_tables_of_a_learning_switch(switch, name, moves):
    controlled = Controlled(switch, load(EXAMPLES / "plain_learning.py", name)())
    # before it knows anybody
    switch.require("each frame leaves only by controller\nno frame leaves by drop")
    controlled.frame(1, sent(A, B))
    controlled.frame(2, sent(B, A))
    controlled.frame(1, sent(A, B))
    from_a, from_b = ("dl_src=02:00:00:00:00:0a,dl_dst=02:00:00:00:00:0b", "dl_src=02:00:00:00:00:0b,dl_dst=02:00:00:00:00:0a")
    switch.require(f"""
# what they know leaves there, and nowhere else
each frame in_port=1,{from_a} leaves by 2
each frame in_port=1,{from_a} leaves only by 2
each frame in_port=2,{from_b} leaves by 1
each frame dl_src=02:00:00:00:00:0c leaves by controller
# and nothing is lost
no frame leaves by drop
""")
    # a moves to port 3: nothing for it may leave by port 1 any more
    controlled.frame(3, sent(A, C))
    moved = f"no frame {from_b} leaves by 1"
    if moves:
        switch.require(moved)
    else:
        with pytest.raises(AssertionError, match=f"^fails: {moved}\n"):
            switch.require(moved)


def test_a_controller_of_a_test_that_feeds_bytes():
    with Switch() as switch:
        for port in (1, 2, 3):
            switch.port_add(port)
        switch.connect()
        switch.feed(messages.HELLO + messages.flow(messages.output(2), in_port=1))
        switch.require("each frame in_port=1 leaves by 2\nno frame in_port=3 leaves by 1,2,3,controller")
        # a link that is down changes where frames go
        switch.port_link(2, up=False)
        with pytest.raises(AssertionError, match="nothing leaves"):
            switch.require("each frame in_port=1 leaves by 2")
