"""The fewest rows of a log that still show a fault, and the changes of what becomes of a frame."""

import random
import re
import subprocess
import sys

import messages
import pytest
from ofswitch import NotShown, Switch, shrink
from ofswitch.fates import changes, fate, last_change
from ofswitch.units import units_of

pytest_plugins = ["pytester"]

FRAME = bytes.fromhex("02000000000202000000000188b5") + bytes(46)
COMMAND = [sys.executable, "-m", "ofswitch", "shrink"]
PORTS = [f"port add {it} 02000000000{it} p{it} up" for it in (1, 2, 3)]
START = ["connect", f"c {messages.HELLO.hex()}"]
OUT, DROP = messages.flow(messages.output(2), in_port=1, xid=7), messages.flow(in_port=1, priority=20, xid=8)
WRONG = messages.flow(messages.group(7), xid=9)


def noise(count):
    """Rows that change nothing for the frame: an echo, a frame on another port, a time, and a link that is not on its way."""
    some = [f"c {messages.echo(5).hex()}", f"f 3 {FRAME.hex()}", "t 5", "port link 3 down", "port link 3 up", f"c {messages.barrier(6).hex()}"]
    return [some[it % len(some)] for it in range(count)]


# the frame leaves by port 2 from line 26 on, and does not from line 37 on. That it is not received at the end is no such change
LOG = [*PORTS, *START, *noise(20), f"c {OUT.hex()}", *noise(10), f"c {DROP.hex()}", *noise(13), "port link 1 down", "port link 1 up"]
LEFT = [PORTS[0], PORTS[1], *START, f"c {OUT.hex()}", f"c {DROP.hex()}"]


def command(tmp_path, rows, *words):
    path = tmp_path / "log.events"
    path.write_text("".join(f"{it}\n" for it in rows))
    return subprocess.run([*COMMAND, str(path), *words], capture_output=True, text=True, timeout=120)


def rows_of(text):
    return [it for it in text.splitlines() if not it.startswith("#")]


def test_a_change_of_what_becomes_of_a_frame(tmp_path):
    done = command(tmp_path, LOG, "--change", FRAME.hex(), "--port", "1")
    assert done.returncode == 0 and rows_of(done.stdout) == LEFT
    assert re.findall("^# line (.*)$", done.stdout, re.M) == ["1", "2", "4", "5", "26", "37"]
    assert "before the last row: out by port 2; after it: nothing leaves" in done.stderr
    # the change before it: something leaves from then on
    before = command(tmp_path, LOG, "--change", f"in_port=1,dl_type=0x88b5,dl_src={FRAME[6:12].hex(':')},dl_dst={FRAME[:6].hex(':')}", "--nth", "1")
    assert rows_of(before.stdout) == LEFT[:-1]


def test_what_a_row_prints(tmp_path):
    rows = [*LOG, f"c {WRONG.hex()}", *noise(5)]
    done = command(tmp_path, rows, "--row", str(len(LOG) + 1))
    assert done.returncode == 0 and rows_of(done.stdout) == [*START, f"c {WRONG.hex()}"]


def test_the_way_of_a_frame_that_a_row_has(tmp_path):
    """Nothing leaves since a port is down, and not for another reason."""
    rows = [*LOG[:36], "port link 2 down", *noise(5), f"f 1 {FRAME.hex()}"]
    done = command(tmp_path, rows, "--row", str(len(rows)))
    assert rows_of(done.stdout) == [*LEFT[:-1], "port link 2 down", f"f 1 {FRAME.hex()}"]


def test_a_pattern_that_is_printed(tmp_path):
    rows = [*LOG, f"c {WRONG.hex()}", *noise(5)]
    for pattern in ("BAD_OUT_GROUP", "^a 0401.{12}00020009"):
        done = command(tmp_path, rows, "--prints", pattern)
        assert done.returncode == 0 and rows_of(done.stdout) == [*START, f"c {WRONG.hex()}"]


def test_a_question_of_python():
    small = shrink([*LOG, f"c {WRONG.hex()}"], lambda run: any(getattr(it, "error", None) == "OFPBAC_BAD_OUT_GROUP" for it in run.effects))
    assert small.rows == [*START, f"c {WRONG.hex()}"] and small.lines == [4, 5, len(LOG) + 1]
    assert small.check() and small.replays > 3
    # a row too many: the rows show it, but are not the fewest
    small.rows.insert(0, "t 1")
    small._units.insert(0, units_of(["t 1"])[0])
    assert not small.check()


def test_a_question_about_the_switch_afterwards():
    small = shrink("\n".join(LOG) + "\n", lambda run: "output 2" in run.switch.flows())
    assert small.rows == [*START, f"c {OUT.hex()}"]


def test_messages_that_are_cut_anywhere(tmp_path):
    stream = messages.HELLO + messages.echo(1) + OUT + messages.barrier(2) + DROP + messages.echo(3)
    for size in (7, 50, len(stream)):
        rows = [*PORTS, "connect", *(f"c {stream[at : at + size].hex()}" for at in range(0, len(stream), size))]
        done = command(tmp_path, rows, "--change", FRAME.hex(), "--port", "1")
        assert rows_of(done.stdout) == LEFT


def test_rows_that_are_kept():
    rows = [*LOG[:7], "# keep", *LOG[7:]]
    small = shrink(rows, lambda run: "output 2" in run.switch.flows())
    assert small.rows == [*START, LOG[7], f"c {OUT.hex()}"] and small.check()
    assert "# line 9\n# keep\n" in small.text
    again = shrink(small.text, lambda run: "output 2" in run.switch.flows())
    assert again.rows == small.rows


def test_bytes_before_a_row_that_is_kept():
    """They stay, too, since the message of that row begins with them; so do those at the end, which have their own line."""
    found = units_of(["connect", "c 0400", "# keep", "c 000800000001", "c 04", "t 5"])
    wanted = [("connect", 1, False), ("c 0400", 2, True), ("c 000800000001", 4, True), ("t 5", 6, False), ("c 04", 5, False)]
    assert [(it.row, it.line, it.is_kept) for it in found] == wanted


def test_a_change_in_a_row_that_is_kept(tmp_path):
    """A row with two messages, which is not cut: the frame leaves after it, and the barrier behind it changes nothing."""
    rows = [*PORTS, *START, "# keep", f"c {OUT.hex()}{messages.echo(4).hex()}", f"c {messages.barrier(5).hex()}", "t 9"]
    done = command(tmp_path, rows, "--change", FRAME.hex(), "--port", "1")
    assert rows_of(done.stdout) == [PORTS[0], PORTS[1], *START, rows[6]]


def test_fields():
    """A timeout, a flag, a second action, and the bytes of a frame behind its headers."""
    flow = messages.flow(messages.output(2), messages.output(3), in_port=1, hard=9, flags=1)
    rows = [*PORTS, *START, f"c {flow.hex()}", f"f 1 {FRAME.hex()}", "t 1"]
    small = shrink(rows, lambda run: any(str(it).startswith("s 2 ") for it in run.effects), fields=True)
    *_, added, frame = small.rows
    # the last row stays as it is; the flow has no match and one action
    assert added == f"c {messages.flow(messages.output(2)).hex()}" and frame == f"f 1 {FRAME.hex()}"
    small = shrink([*rows, f"f 2 {FRAME.hex()}"], lambda run: str(run.rows[-1]).startswith("f 2") and any(str(it).startswith("s 2 ") for it in run.effects), fields=True)
    assert small.rows[-2:] == [f"f 1 {FRAME[:14].hex()}", f"f 2 {FRAME.hex()}"] and small.check()


def test_fields_of_a_row_that_is_kept():
    flow = f"c {messages.flow(messages.output(2), messages.output(3), hard=9).hex()}"
    small = shrink([*PORTS, *START, "# keep", flow, f"f 1 {FRAME.hex()}"], lambda run: any(str(it).startswith("s 2 ") for it in run.effects), fields=True)
    assert small.rows[-2:] == [flow, f"f 1 {FRAME.hex()}"]


def test_actions_that_are_written():
    """The first OUTPUT of a WRITE_ACTIONS goes, which has the place of an APPLY_ACTIONS here: its type is 3 (OpenFlow 1.3.5, 7.2.4)."""
    one, both = (messages.flow(*map(messages.output, ports)) for ports in ([3], [2, 3]))
    one, both = (f"c {(it[:56] + bytes([0, 3]) + it[58:]).hex()}" for it in (one, both))
    small = shrink([*PORTS, *START, both, f"f 1 {FRAME.hex()}"], lambda run: any(str(it).startswith("s 3 ") for it in run.effects), fields=True)
    assert small.rows[-2] == one


def test_buffer_ids_are_others_in_fewer_rows(tmp_path):
    """The first frame is held, too, under another id; the switch sends the same of the second one without it."""
    flow, long = messages.flow(messages.output(messages.CONTROLLER, 20)), f"f 1 {FRAME.hex()}{'5a' * 100}"
    rows = [*PORTS, *START, f"c {flow.hex()}", long, long]
    assert rows_of(command(tmp_path, rows, "--row", str(len(rows))).stdout) == [PORTS[0], *rows[3:-1]]


def test_what_is_not_shown():
    with pytest.raises(NotShown):
        shrink(LOG, lambda run: "output 9" in run.switch.flows())
    with pytest.raises(ValueError, match="line 2: bad row"):
        shrink(["t 1", "t one"], lambda run: True)


@pytest.mark.parametrize(
    "rows, words, status",
    [
        (LOG, [], 1),
        (LOG, ["--change", "0102", "--row", "3"], 1),
        (LOG, ["--change", FRAME.hex()], 1),
        (LOG, ["--change", "nw_src=10.0.0.1", "--port", "1"], 1),
        (LOG, ["--row", "0"], 1),
        (LOG, ["--prints", "("], 1),
        (["t 1", "t one"], ["--row", "1"], 2),
        (LOG, ["--row", "1", "--program", "/nowhere/ofswitch"], 3),
        (LOG, ["--change", FRAME.hex(), "--port", "1", "--nth", "9"], 4),
        (LOG, ["--row", "99"], 4),
        (LOG, ["--prints", "BAD_MATCH"], 4),
    ],
)
def test_statuses(tmp_path, rows, words, status):
    done = command(tmp_path, rows, *words)
    assert done.returncode == status and done.stdout == "", done.stderr
    assert "Traceback" not in done.stderr


def test_the_datapath_id_of_the_first_line(tmp_path):
    """Only the FEATURES_REPLY of that switch has it."""
    rows = ["# replay with --dpid 42", *START, f"c {messages.features_request(5).hex()}"]
    done = command(tmp_path, rows, "--prints", "^a 0406.{12}000000000000002a")
    assert rows_of(done.stdout) == rows[1:]
    assert command(tmp_path, rows, "--prints", "^a 0406.{12}000000000000002a", "--dpid", "1").returncode == 4


def test_a_file_that_is_missing():
    assert subprocess.run([*COMMAND, "missing.events", "--row", "1"], capture_output=True, timeout=60).returncode == 3


@pytest.mark.parametrize("words", [["--change", FRAME.hex(), "--port", "1"], ["--prints", "PACKET_IN|ECHO"], ["--row", "6"]])
def test_a_test_that_is_written(tmp_path, pytester, pytestconfig, words):
    path = tmp_path / "test_small.py"
    assert command(tmp_path, LOG, *words, "--test", str(path)).returncode == 0
    pytester.makepyfile(test_small=path.read_text())
    plugin = [] if pytestconfig.pluginmanager.has_plugin("ofswitch") else ["-p", "ofswitch.pytest_plugin"]
    pytester.runpytest("-p", "no:cacheprovider", *plugin).assert_outcomes(passed=1)
    # a switch that does something else fails it
    pytester.makepyfile(test_small=path.read_text().replace("connect", "lost", 1))
    pytester.runpytest("-p", "no:cacheprovider", *plugin).assert_outcomes(failed=1)


@pytest.mark.parametrize("at_once", [7, 2000])
def test_all_changes_are_found(monkeypatch, at_once):
    """The fates after each row, asked one by one, on a random log."""
    monkeypatch.setattr("ofswitch.fates._QUESTIONS", at_once)
    choice = random.Random(1).choice
    flows = [messages.flow(*actions, in_port=port, priority=it) for actions in ([], [messages.output(2)]) for port in (1, None) for it in (5, 6)]
    delete = messages.header(14, 9, bytes(17) + b"\x03" + bytes(6) + b"\xff" * 12 + bytes(4) + bytes.fromhex("0001000400000000"))
    some = [*noise(6), "port link 2 down", "port link 2 up", "lost", *START, f"c {delete.hex()}", *(f"c {it.hex()}" for it in flows)]
    units = units_of([*PORTS, *START, *(choice(some) for _ in range(150))])
    told = {it.place: (it.before, it.after) for it in changes(units, 1, FRAME)}
    with Switch() as switch:
        before, expected = fate(switch, 1, FRAME), {}
        for place, unit in enumerate(units):
            switch.play(unit.row)
            after = fate(switch, 1, FRAME)
            if after != before:
                expected[place] = (before, after)
            before = after
    assert told == expected and len(told) > 10


def test_a_change_by_a_timeout():
    """A second after the hard timeout; what did it is said with its line in the file, which has a comment."""
    lines = [*PORTS, "# a flow of ten seconds", *START, f"c {messages.flow(messages.output(2), hard=10).hex()}", "t 9000000000", "t 11000000000", f"f 1 {FRAME.hex()}"]
    units = units_of(lines)
    assert [units[it.place].row for it in changes(units, 1, FRAME)] == [PORTS[0], lines[6], "t 11000000000"]
    assert last_change(lines) == ["the frame of line 10, since line 9: nothing leaves (before: out by port 2)", "    t 11000000000"]


def test_a_ttl_that_expires(switch):
    """DEC_NW_TTL of a packet of TTL 1: the controller gets it (OpenFlow 1.3.5, 7.4.1)."""
    switch.play_all(PORTS)
    switch.import_("ip,actions=dec_ttl,output:2")
    # from 10.0.0.1 to 10.0.0.2; its bytes are those of RFC 791, with the checksum
    assert fate(switch, 1, FRAME[:12] + bytes.fromhex("080045000014000000000100a5e80a0000010a000002")).leaves == ["to the controller: invalid TTL"]


def test_the_place_of_an_entry_is_not_its_way(tmp_path):
    """Without the older entry, which the frame does not hit, the entry of the frame is the first one."""
    older = messages.flow(messages.output(2), in_port=3)
    rows = [*PORTS, *START, f"c {older.hex()}", f"c {OUT.hex()}", f"f 1 {FRAME.hex()}"]
    assert rows_of(command(tmp_path, rows, "--row", str(len(rows))).stdout) == [*LEFT[:-1], f"f 1 {FRAME.hex()}"]
