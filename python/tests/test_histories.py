"""Since when a frame goes where it goes, when flow entries came and went, and who did it."""

import random

import messages
import pytest
from ofswitch import Switch, history
from ofswitch.fates import changes
from ofswitch.units import units_of

FRAME = bytes.fromhex("02000000000202000000000188b5") + bytes(46)
PORTS = [f"port add {it} 02000000000{it} p{it} up" for it in (1, 2, 3)]
START = ["connect", f"c {messages.HELLO.hex()}"]
OUT, DROP = messages.flow(messages.output(2), in_port=1, xid=7), messages.flow(in_port=1, priority=20, xid=8)


@pytest.fixture
def switch():
    with Switch() as made:
        made.play_all([*PORTS, *START])
        yield made


def test_says_since_when_and_who_did_it(switch):
    assert [it["row"] for it in switch.history(1, FRAME)] == [PORTS[0]]
    switch.feed(messages.echo(5) + OUT)
    switch.port_link(3, up=False)
    switch.feed(DROP)
    found = switch.history(1, FRAME)
    assert [(it["line"], it.get("message")) for it in found] == [(1, None), (6, 2), (8, 1)]
    assert found[1]["by"][0].startswith("from the controller: FLOW_MOD xid 7 ADD table 0")
    assert [it["reason"] for it in found] == ["a port changed", *["an entry was added, so another one wins"] * 2]
    assert found[1]["after"][-1] == f"out by port 2: {FRAME.hex()}"
    assert (found[2]["before"], found[2]["after"][-1]) == (found[1]["after"], "nothing leaves")
    # that of another port
    assert [it["row"] for it in switch.history(3, FRAME)] == [PORTS[2], "port link 3 down"]


def test_the_reasons_of_changes(switch):
    to_group = messages.flow(messages.group(1), in_port=1)
    switch.feed(OUT + messages.flow(messages.output(3), in_port=1) + messages.flow(in_port=1, command=1) + messages.flow(in_port=1, command=3))
    switch.feed(messages.failover_group(1, 3) + messages.flow(messages.group(1), in_port=1, hard=1) + messages.failover_group(1, 2, command=1))
    switch.at(1_000_000_000)
    switch.feed(to_group + messages.failover_group(1, command=2))
    added = "an entry was added, so another one wins"
    assert [it["reason"] for it in switch.history(1, FRAME)] == [
        "a port changed",
        added,
        "the entry was replaced",
        "the entry was modified",
        "the entry was deleted",
        added,
        "the buckets of a group changed",
        "the entry expired",
        added,
        "the entry was deleted with its group",
    ]
    assert all("reason" not in it for it in switch.history_of("table=0"))


def test_words_and_rows_of_a_log(switch, tmp_path):
    switch.feed(OUT)
    switch.frame(1, FRAME)
    path = tmp_path / "log.events"
    path.write_text(switch.log)
    assert history(path, row=7) == history(path, 1, FRAME) == switch.history(1, FRAME)
    words = "in_port=1,dl_src=02:00:00:00:00:01,dl_dst=02:00:00:00:00:02,dl_type=0x88b5"
    assert [it["line"] for it in history(switch.log, frame=words)] == [1, 6]


def test_the_life_of_flow_entries(switch):
    switch.feed(OUT + messages.flow(messages.output(3), in_port=2, priority=20, hard=2))
    added = "table 0, priority 20, in_port 2, cookie 0x0, idle 0, hard 2, flags 0, added at 0, apply actions, output 3"
    assert [(it["line"], it["message"], it["before"], it["after"]) for it in switch.history_of("in_port=2")] == [(6, 2, [], [added])]
    # counters do not matter
    switch.frame(1, FRAME)
    switch.feed(messages.flow(in_port=1, xid=9))
    switch.at(2_000_000_000)
    found = switch.history_of("table=0")
    assert [(it["line"], len(it["before"]), len(it["after"])) for it in found] == [(6, 0, 1), (6, 0, 1), (8, 1, 1), (9, 1, 0)]
    assert found[2]["by"][0].startswith("from the controller: FLOW_MOD xid 9 ADD table 0")
    assert (found[3]["row"], found[3]["before"]) == ("t 2000000000", [added])
    assert switch.history_of("priority=20,cookie=0/1") == history(switch.log, flow="in_port=2") == [found[1], found[3]]
    assert switch.history_of("table=1") == switch.history_of("cookie=1") == switch.history_of("in_port=2,dl_dst=02:00:00:00:00:01") == []


def test_arguments_with_a_fault(switch):
    with pytest.raises(ValueError, match="of a port and a frame, of a row, or of flow entries"):
        history(switch.log)
    with pytest.raises(ValueError, match="of a port and a frame, of a row, or of flow entries"):
        history(switch.log, 1, FRAME, row=1)
    with pytest.raises(ValueError, match="the line is no row of a frame"):
        history(switch.log, row=1)
    for words in ("table=16", "priority=65536", "cookie=x", "cookie=1/", "what=1"):
        with pytest.raises(ValueError, match=f"bad flow: {words}: "):
            switch.history_of(words)
    with pytest.raises(ValueError, match="bad flow: nw_dst: needs ip"):
        switch.history_of("nw_dst=10.0.0.1")
    with pytest.raises(ValueError, match="cannot be used with"):
        history(switch.log, 1, flow="ip")
    with pytest.raises(ValueError, match="line 1: bad row"):
        history("c 0\n", 1, FRAME)


def test_has_each_change_of_what_leaves():
    """A search that asks the switch after each message finds the same places."""
    rng = random.Random(7)
    some = [f"port link {port} {state}" for port in (1, 2) for state in ("up", "down")]
    some += [f"c {messages.flow(messages.output(rng.choice((2, 3))), in_port=1, priority=it, xid=it).hex()}" for it in range(9)]
    some += [f"c {OUT.hex()}{DROP.hex()}", f"f 1 {FRAME.hex()}"]
    for _ in range(5):
        log = [*PORTS, *START, *rng.choices(some, k=60)]
        units = units_of(log)
        searched = [(units[it.place].line, it.before.leaves, it.after.leaves) for it in changes(units, 1, FRAME)]
        told = history("".join(f"{it}\n" for it in log), 1, FRAME)
        leaving = [(it["line"], _leaves(it["before"]), _leaves(it["after"])) for it in told]
        assert [it for it in leaving if it[1] != it[2]] == searched


def _leaves(lines):
    if lines[-1].startswith("not received"):
        return ["not received"]
    return [it for it in lines if it.startswith("out by port ") or it == "nothing leaves"]
