"""What `capture compare` compares beside answers, and how its outcome is used."""

import json
import struct
import subprocess

import messages
import pytest
from ofswitch import comparison
from recordings import CAPTURES, COMMAND, FRAME, HELLOS, changed, features_reply, packet_in, ran, recorded, records, segments, written

FEATURES = [(0, messages.features_request(7)), (1, features_reply(7, 1))]
# its length is less than that of a header: OFPBRC_BAD_LEN, and the end of the connection (docs/CHANNEL.md)
BAD = bytes.fromhex("0405000700000008")
REFUSED = messages.header(1, 8, struct.pack("!HH", 1, 6) + BAD)


def test_nothing_to_compare():
    done = ran("compare", CAPTURES / "osken.pcap", "--tcp-port", 1, status=2)
    assert done.stdout == "0 alike, 0 with differences\n" and "no OpenFlow 1.3 connection" in done.stderr
    assert json.loads(ran("compare", CAPTURES / "osken.pcap", "--tcp-port", 1, "--json", status=2).stdout)["connections"] == 0


# ---- ends of connections


def ends_of(tmp_path, talk, ends, status, before=1):
    """The lines about the end of the connection. The HELLO and the first exchange are alike."""
    lines = ran("compare", recorded(tmp_path, *segments([*HELLOS, *FEATURES, *talk], ends=ends)), status=status).stdout.splitlines()
    return [*lines[-4:-1], lines[-1]] if status else lines


def test_both_switches_end_it(tmp_path):
    # HELLO, FEATURES, the refused message, and the end
    assert ends_of(tmp_path, [(0, BAD), (1, REFUSED)], (1, 0), 0) == ["4 alike, 0 with differences"]


def test_the_controller_ends_it_before_anybody_can_know(tmp_path):
    assert ends_of(tmp_path, [(0, BAD), (1, REFUSED)], (0, 1), 0) == ["3 alike, 0 with differences"]


def test_only_the_specified_switch_ends_it(tmp_path):
    head = "connection 1, its end"
    bad = [(0, BAD), (1, REFUSED)]
    assert ends_of(tmp_path, bad, (), 4) == [head, "    recorded: stays open", "    specified: the switch ends it", "3 alike, 1 with differences"]
    # the recorded switch answers an echo after that, and the specified one does not
    more = [*bad, (0, messages.echo(9)), (1, messages.echo_reply(9))]
    found = ends_of(tmp_path, more, (0, 1), 4)
    assert found == [head, "    recorded: the controller ends it", "    specified: the switch ends it", "3 alike, 2 with differences"]


def test_only_the_recorded_switch_ends_it(tmp_path):
    found = ends_of(tmp_path, [], (1, 0), 4)
    assert found == ["connection 1, its end", "    recorded: the switch ends it", "    specified: stays open", "2 alike, 1 with differences"]


@pytest.mark.parametrize("asked", [messages.echo(9), BAD])
def test_an_end_behind_missing_bytes_is_not_known(tmp_path, asked):
    """The recorded switch ends the connection, and the specified one after BAD only."""
    packets = [*segments([*HELLOS, *FEATURES, (0, asked), (1, messages.echo_reply(9)), (0, messages.echo(10))], ends=(1, 0))]
    # without the answer, which the next packet acknowledges
    del packets[7]
    done = ran("compare", recorded(tmp_path, *packets), status=4)
    assert "are missing before packet" in done.stderr and "its end" not in done.stdout


def test_a_reset_is_an_end(tmp_path):
    packets = [*segments([*HELLOS, *FEATURES], ends=(1,))]
    # RST and ACK in the place of FIN and ACK (RFC 9293, 3.1)
    packets[-1] = packets[-1][:47] + b"\x14" + packets[-1][48:]
    lines = ran("compare", recorded(tmp_path, *packets), status=4).stdout.splitlines()
    assert lines[:3] == ["connection 1, its end", "    recorded: the switch ends it", "    specified: stays open"]


# ---- connections that do not begin, or go on, as they should


def test_a_first_message_that_is_no_hello(tmp_path):
    """The specified switch refuses it with HELLO_FAILED, and ends the connection; the recorded one answers."""
    path = recorded(tmp_path, *segments([HELLOS[1], *FEATURES, (0, messages.echo(8)), (1, messages.echo_reply(8))]))
    assert ran("compare", path, status=4).stdout.splitlines() == [
        "connection 1, xid 7 FEATURES_REQUEST (packet 4)",
        "    recorded: FEATURES_REPLY xid 7, datapath_id 1, n_buffers 256, n_tables 16, auxiliary_id 0, capabilities 15, reserved 0",
        # the ERROR has no data, and so no name of a message
        "    specified: a message refused: OFPHFC_INCOMPATIBLE",
        "connection 1, xid 8 ECHO_REQUEST (packet 6)",
        "    recorded: ECHO_REPLY xid 8",
        "    specified: nothing",
        "connection 1, its end",
        "    recorded: the controller ends it",
        "    specified: the switch ends it",
        "1 alike, 3 with differences",
    ]


def test_a_capture_that_has_not_the_first_message(tmp_path):
    """Without the SYN of the controller, what is its first message here is not known to be its first one."""
    packets = [*segments([*HELLOS, *FEATURES])]
    del packets[0], packets[1]
    done = ran("compare", recorded(tmp_path, *packets), status=2)
    assert "the capture does not have the HELLO of both sides; left out" in done.stderr


def test_a_message_of_another_version(tmp_path):
    """An ECHO_REQUEST of version 1 is OFPBRC_BAD_VERSION in a connection of version 4; the recorded switch answers it."""
    old = bytes.fromhex("0102000800000009")
    path = recorded(tmp_path, *segments([*HELLOS, *FEATURES, (0, old), (1, bytes.fromhex("0103000800000009"))]))
    assert ran("compare", path, status=4).stdout.splitlines() == [
        "connection 1, xid 9 ECHO_REQUEST (packet 7)",
        "    recorded: ECHO_REPLY xid 9",
        "    specified: ECHO_REQUEST refused: OFPBRC_BAD_VERSION",
        "2 alike, 1 with differences",
    ]


# ---- differences that are known


def wrong(xid, buffers=5):
    """A FEATURES_REPLY with 5 buffers, where the specified switch has 256."""
    return [(0, messages.features_request(xid)), (1, features_reply(xid, 1)[:16] + struct.pack("!I", buffers) + features_reply(xid, 1)[20:])]


def test_differences_as_json_and_accepted(tmp_path):
    path = recorded(tmp_path, *segments([*HELLOS, *wrong(7)]))
    printed = ran("compare", path, "--json", status=4).stdout
    difference = {"connection": 1, "xid": 7, "messages": ["FEATURES_REQUEST"], "packet": 5, "lines": ["n_buffers: recorded 5, specified 256"]}
    document = {"version": 1, "command": "capture compare", "connections": 1, "alike": 1, "accepted": 0, "differences": [difference]}
    assert json.loads(printed) == document and printed.count("\n") == 1
    known = tmp_path / "known.json"
    known.write_text(printed)
    # another run: other xids, one packet more, and the same difference
    again = recorded(tmp_path, *segments([*HELLOS, (0, messages.echo(1)), (1, messages.echo_reply(1)), *wrong(99)]))
    assert ran("compare", again, "--accept", known).stdout == "2 alike, 0 with differences, 1 accepted\n"
    assert json.loads(ran("compare", again, "--accept", known, "--json").stdout)["accepted"] == 1
    # another difference of the same message is not known
    other = recorded(tmp_path, *segments([*HELLOS, *wrong(7, buffers=6)]))
    lines = ran("compare", other, "--accept", known, status=4).stdout.splitlines()
    assert lines[1:] == ["    n_buffers: recorded 6, specified 256", "1 alike, 1 with differences, 0 accepted"]


def test_only_what_is_not_known_is_left(tmp_path):
    """One line of a difference is accepted, and the other one is not; xids in lines are not compared."""
    # no flow sends the frame to the controller, so the specified switch sends nothing
    path = recorded(tmp_path, *segments([*HELLOS, *FEATURES, (1, packet_in(3, FRAME))]))
    document = json.loads(ran("compare", path, "--json", status=4).stdout)
    [difference] = document["differences"]
    one, other = difference["lines"]
    assert one.startswith("recorded: PACKET_IN xid 0, ") and other == "specified: nothing"
    difference["lines"] = [one.replace("xid 0", "xid 77")]
    (tmp_path / "known.json").write_text(json.dumps(document))
    lines = ran("compare", path, "--accept", tmp_path / "known.json", status=4).stdout.splitlines()
    assert lines[1:] == ["    specified: nothing", "2 alike, 1 with differences, 0 accepted"]


@pytest.mark.parametrize("text", ["", "[]", "{}", '{"differences": [{}]}', '{"differences": [{"lines": 5}]}', '{"differences": [{"lines": [], "messages": [[]]}]}', "\udcff"])
def test_files_that_are_no_differences(tmp_path, text):
    path = tmp_path / "known.json"
    path.write_bytes(text.encode(errors="surrogateescape"))
    done = ran("compare", CAPTURES / "self.pcap", "--accept", path, status=3)
    assert "not what `capture compare --json` prints" in done.stderr and "Traceback" not in done.stderr


def test_all_known_differences_of_open_vswitch(tmp_path):
    """Those of a capture are those of the same capture; also if a place has more lines than the text shows."""
    for name in ("osken", "ofctl"):
        known = tmp_path / "known.json"
        known.write_text(ran("compare", CAPTURES / f"{name}.pcap", "--json", status=4).stdout)
        count = len(json.loads(known.read_text())["differences"])
        last = ran("compare", CAPTURES / f"{name}.pcap", "--accept", known).stdout
        assert last.endswith(f" alike, 0 with differences, {count} accepted\n") and last.count("\n") == 1


def test_an_answer_to_nothing_is_accepted_as_such(tmp_path):
    """An ECHO_REPLY of which there is no request: its messages are none, and it is not the end of a connection."""
    path = recorded(tmp_path, *segments([*HELLOS, *FEATURES, (1, messages.echo_reply(77))]))
    document = ran("compare", path, "--json", status=4).stdout
    assert json.loads(document)["differences"] == [{"connection": 1, "xid": 77, "messages": [], "packet": 7, "lines": ["recorded: ECHO_REPLY xid 77", "specified: nothing"]}]
    (tmp_path / "known.json").write_text(document)
    assert ran("compare", path, "--accept", tmp_path / "known.json").stdout == "2 alike, 0 with differences, 1 accepted\n"


def test_known_differences_of_a_port(tmp_path):
    """Port 2 is given the capture of port 3: one frame left there, where the specified switch sends two by port 2."""
    words = ["compare", CAPTURES / "osken.pcap", *(it for number in range(1, 5) for it in ("--in", f"{number}={CAPTURES}/osken-p{number}-rx.pcap"))]
    swapped = [*words, "--out", f"2={CAPTURES}/osken-p3-tx.pcap"]
    document = ran(*swapped, "--json", status=4).stdout
    [port] = [it for it in json.loads(document)["differences"] if it.get("port") == 2]
    assert port["lines"][0] == "recorded: 1 frames left, specified: 2" and "connection" not in port
    known = tmp_path / "known.json"
    known.write_text(document)
    assert ran(*swapped, "--accept", known).stdout.endswith(" 0 with differences, 4 accepted\n")
    # it is accepted for that port, and for no other one
    other = [*words, "--out", f"3={CAPTURES}/osken-p2-tx.pcap"]
    assert "port 3" in ran(*other, "--accept", known, status=4).stdout.splitlines()


# ---- what a difference is


def test_entries_in_another_order_are_alike():
    """Their matches say which is which, since both have one table and priority."""
    one, other = ({"table_id": 0, "priority": 10, "match": {"in_port": port}, "packet_count": port} for port in (1, 2))
    assert list(comparison._differences([one, other], [other, one], "body")) == []


def test_many_lines():
    shown = str(comparison.Difference({"port": 1}, [f"line {it}" for it in range(100)])).splitlines()
    assert shown[:2] == ["port 1", "    line 0"] and shown[-1] == f"    .. and {100 - len(shown[1:-1])} more"


def test_a_capture_of_a_port_in_two_files(tmp_path):
    """The two frames that left by port 2 of osken.pcap, each in a file."""
    inputs = [it for number in range(1, 5) for it in ("--in", f"{number}={CAPTURES}/osken-p{number}-rx.pcap")]
    head, frames = records(CAPTURES / "osken-p2-tx.pcap")
    parts = [tmp_path / f"{place}.pcap" for place, _ in enumerate(frames)]
    for part, frame in zip(parts, frames):
        part.write_bytes(head + frame)
    lines = ran("compare", CAPTURES / "osken.pcap", *inputs, *(it for part in parts for it in ("--out", f"2={part}")), status=4).stdout.splitlines()
    assert len(parts) == 2 and "port 2" not in lines


# ---- captures that are odd


def test_a_port_with_a_mask(tmp_path):
    """A PACKET_IN whose in_port has a mask, which the standard does not allow: its frame is not taken."""
    whole = packet_in(3, FRAME)
    # the length of the match, and the field: its mask bit, 8 bytes, a value and a mask
    match = struct.pack("!HHIII", 1, 16, 0x80000108, 3, 0xFFFFFFFF)
    masked = messages.header(10, 0, whole[8:24] + match + bytes(2) + FRAME)
    done = ran("events", recorded(tmp_path, *segments([*HELLOS, *FEATURES, (1, masked)])))
    assert "1 PACKET_INs do not have a whole frame" in done.stderr and "f 3" not in done.stdout


def test_a_part_of_a_frame_of_a_port_is_left_out(tmp_path):
    head, found = records(CAPTURES / "osken-p1-rx.pcap")
    done = ran("frames", written(tmp_path, head, [changed(found[0], found[0][16:36], 60), found[1]]), "--port", 1)
    assert done.stdout == f"f 1 {found[1][16:].hex()}\n"
    assert "the capture has not kept all of packet 1; left out" in done.stderr


def test_a_frame_that_is_too_long_for_a_row(tmp_path):
    head, found = records(CAPTURES / "osken-p1-rx.pcap")
    # a row has at most 1,048,576 bytes (docs/EVENTS.md)
    longest = (1_048_576 - len("f 4294967295 ")) // 2
    made = [changed(found[0], bytes(it)) for it in (longest, longest + 1)]
    done = ran("frames", written(tmp_path, head, made), "--port", 1)
    assert [len(it) for it in done.stdout.splitlines()] == [len("f 1 ") + 2 * longest]
    assert "too long for a row: packet 2; left out" in done.stderr


@pytest.mark.parametrize("port", ["0", "4294967041", "-1", "one"])
def test_a_port_is_one_of_a_switch(port):
    done = ran("frames", CAPTURES / "osken-p1-rx.pcap", f"--port={port}", status=1)
    assert "a port is a number from 1 to 4294967040" in done.stderr


def test_nobody_reads_on():
    command = " ".join([*COMMAND, "events", str(CAPTURES / "ofctl.pcap")])
    done = subprocess.run(f"{command} | head -n 1", shell=True, capture_output=True, text=True, timeout=60)
    assert done.stdout.count("\n") == 1 and done.stderr == ""
