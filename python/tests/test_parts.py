"""Parts of tables of Open vSwitch: `skip`, `renumber` and `port_names` of each question. The program answers, also if the C library is installed."""

import subprocess
import sys

import ofswitch
import pytest

# Without its third line, nothing leads to the second table; with new numbers they are tables 0 and 1.
TABLE = """table=60,priority=10,in_port=1,dl_dst=02:00:00:00:00:02,actions=output:2
table=94,priority=10,in_port=1,actions=output:3
table=60,priority=5,ct_state=+trk,actions=resubmit(,94)
"""
FLOWS = """flow 0 10 0x0000000000000000 0 0 0
match in_port 0x00000001
match eth_dst 0x020000000002
apply
output 2 0
flow 1 10 0x0000000000000000 0 0 0
match in_port 0x00000001
apply
output 3 0
"""
FRAME = bytes.fromhex("02000000000202000000000188b5")
PART = {"skip": True, "renumber": True}


def test_check():
    found = ofswitch.check(TABLE, **PART)
    assert [(it["table"], it["line"], it["verdict"]) for it in found["flows"]] == [(0, 1, "wins"), (1, 2, "wins")]
    # the line that is left out may have led to table 1
    assert found["remarks"] == []
    assert ofswitch.check(FLOWS)["remarks"] != []
    with pytest.raises(ValueError, match="bad --skip"):
        ofswitch.check(FLOWS, skip=True)


def test_diff():
    assert ofswitch.diff(TABLE, FLOWS, **PART)["same"] is True
    with pytest.raises(ValueError, match="line 3"):
        ofswitch.diff(TABLE, FLOWS, renumber=True)


def test_paths():
    found = ofswitch.paths(TABLE, to=2, **PART)
    assert [it["in_port"] for it in found["paths"]] == [1] and found["undecided"] == []


def test_trace():
    assert ofswitch.trace(TABLE, 1, FRAME, **PART)["effects"] == ofswitch.trace(FLOWS, 1, FRAME)["effects"]


def test_require():
    [found] = ofswitch.require(TABLE, "each frame in_port=1,dl_dst=02:00:00:00:00:02 leaves by 2", **PART)
    assert found["verdict"] == "holds"
    # a port that is named and missing is still a fault
    with pytest.raises(ValueError, match="port 2 is named"):
        ofswitch.require(TABLE, "no frame ip leaves by 1", ports="1,3", **PART)


def test_names_of_ports(tmp_path):
    ports = tmp_path / "ports.txt"
    ports.write_text(" 1(s1-eth1): addr:02:00:00:00:00:a1\n 2(s1-eth2): addr:02:00:00:00:00:a2\n")
    table = "in_port=s1-eth1,actions=output:s1-eth2"
    assert ofswitch.trace(table, 1, FRAME, port_names=ports)["effects"] == ofswitch.trace("in_port=1,actions=2", 1, FRAME)["effects"]
    assert ofswitch.import_(table, port_names=ports)["text"] == ofswitch.import_("in_port=1,actions=output:2")["text"]


def test_load(new_switch):
    first, second, third = new_switch(), new_switch(), new_switch()
    assert first.load(FLOWS) == second.load(TABLE, **PART) == []
    assert first.flows() == second.flows() == FLOWS
    # the groups and flows that another switch has
    assert third.load(second.log) == [] and third.flows() == FLOWS
    with pytest.raises(ValueError, match="line 3"):
        third.load(TABLE, renumber=True)
    with pytest.raises(ValueError, match="bad --skip"):
        third.load(FLOWS, skip=True)


def test_draw(tmp_path):
    for name, text in (("a.txt", TABLE), ("a.flows", FLOWS)):
        (tmp_path / name).write_text(text)

    def graph(*words):
        done = subprocess.run([sys.executable, "-m", "ofswitch", "draw", *words], capture_output=True, text=True, timeout=120)
        return done.returncode, done.stdout

    table, flows = str(tmp_path / "a.txt"), str(tmp_path / "a.flows")
    assert graph("--ovs", table, "--skip", "--renumber") == graph("--flows", flows)
    assert graph("--flows", flows, "--skip") == (1, "")
