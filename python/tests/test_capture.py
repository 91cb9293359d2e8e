"""Captures: read, compared, written; each with what other programs make of them, where these are there."""

import base64
import os
import random
import re
import shutil
import struct
import subprocess

import messages
import pytest
from ofswitch import pcap, tcp
from ofswitch.run_pcap import write_pcap
from recordings import (
    CAPTURES, FRAME, HELLOS, changed, features_reply, flags, has_data, of_link, packet_in, port_description, port_status, ports_reply,
    ports_request, ran, recorded, records, rows_of, segments, written,
)

pytest_plugins = ["pytester"]


def port_captures(name, way, option):
    return [word for number in range(1, 5) for word in (option, f"{number}={CAPTURES}/{name}-p{number}-{way}.pcap")]


# ---- event files


def test_events_of_a_connection(tmp_path):
    rows = ran("events", CAPTURES / "osken.pcap").stdout.splitlines()
    ports = [f"port add {n} aa55aa55000{n + 4} p{n} up" for n in (4, 1, 2, 3)]
    assert rows[:5] == [*ports, "connect"]
    # the switch begins; the controller's HELLO is 0.589 ms later in tcpdump's own text
    assert rows[5:9] == ["t 589000", "c 04000008f591cb8b", "t 608000", "c 04050008f591cb8c"]
    words = [row.split()[0] for row in rows if not row.startswith("t ")]
    assert (words.count("c"), words.count("f"), rows.count("port link 3 down"), rows.count("port link 3 up")) == (11, 4, 1, 1)
    path = tmp_path / "osken.events"
    path.write_text("".join(f"{row}\n" for row in rows))
    program = os.environ.get("OFSWITCH", "ofswitch")
    printed = subprocess.run([program, "replay", path], capture_output=True, text=True, check=True).stdout
    # what the learning switch sends on: to all, back, and then to the ports that it learned
    assert [line.split()[1] for line in printed.splitlines() if line.startswith("s ")] == ["2", "3", "4", "1", "2", "1"]


def test_frames_of_the_ports_in_place_of_packet_ins():
    inputs = port_captures("osken", "rx", "--in")
    rows = ran("events", CAPTURES / "osken.pcap", *inputs).stdout.splitlines()
    # one frame more: that which a flow sends on, and no controller sees
    assert [row.split()[1] for row in rows if row.startswith("f ")] == ["1", "2", "1", "2", "4"]


def test_a_datapath_id_is_said(tmp_path):
    head, found = records(CAPTURES / "osken.pcap")
    # in the FEATURES_REPLY; TCP checksums are not looked at
    [at] = [place for place, it in enumerate(found) if b"\x04\x06\x00\x20" in it]
    place = found[at].index(b"\x04\x06\x00\x20") + 8
    found[at] = found[at][:place] + bytes.fromhex("000000000000002a") + found[at][place + 8 :]
    path = written(tmp_path, head, found)
    assert ran("events", path).stdout.startswith("# a switch of datapath_id 0x2a: replay it with --dpid 0x2a\nport add ")
    assert "datapath_id" not in ran("compare", path, status=4).stdout
    assert "of datapath_id 0x2a; left out" in ran("events", path, "--dpid", "7").stderr


# ---- comparisons


def test_the_specified_switch_does_not_differ_from_itself():
    done = ran("compare", CAPTURES / "self.pcap")
    assert done.stdout == "57 alike, 0 with differences\n"


def test_open_vswitch_with_a_learning_switch():
    ports = port_captures("osken", "rx", "--in") + port_captures("osken", "tx", "--out")
    lines = ran("compare", CAPTURES / "osken.pcap", *ports, status=4).stdout.splitlines()
    # all four ports send the same frames
    assert lines[-1] == "14 alike, 3 with differences"
    heads = [line for line in lines if not line.startswith(" ")]
    assert [re.sub(r".*xid \d+ |.*, | \(.*", "", it) for it in heads[:-1]] == ["FEATURES_REQUEST", "MULTIPART_REQUEST PORT_DESC", "PORT_STATUS"]


def test_a_frame_that_left_otherwise(tmp_path):
    ports = port_captures("osken", "rx", "--in")
    swapped = ["--out", f"2={CAPTURES}/osken-p3-tx.pcap"]
    lines = ran("compare", CAPTURES / "osken.pcap", *ports, *swapped, status=4).stdout.splitlines()
    at = lines.index("port 2")
    assert lines[at + 1] == "    recorded: 1 frames left, specified: 2"
    assert lines[at + 2].startswith("    frame 2: recorded none, specified 0200000000020200000000010800")


def test_open_vswitch_with_its_client():
    ports = port_captures("ofctl", "rx", "--in") + port_captures("ofctl", "tx", "--out")
    lines = ran("compare", CAPTURES / "ofctl.pcap", *ports, status=4).stdout.splitlines()
    assert lines[-1] == "47 alike, 14 with differences"
    at = next(place for place, line in enumerate(lines) if line.startswith("connection 9,"))
    assert lines[at + 1 : at + 3] == ["    recorded: nothing", "    specified: FLOW_MOD refused: OFPBMC_BAD_MASK"]
    # the counters agree, since the frames are there
    assert not any("packet_count" in line for line in lines if line.startswith("    body"))


# ---- what captures do to packets


def near_the_end(found):
    """The packets with other sequence numbers: both sides of a connection begin a hundred bytes before 2 to the 32."""
    ends = [struct.unpack_from("!HH", it, 50) for it in found]
    begun = {end: struct.unpack_from("!I", it, 54)[0] for end, it in zip(ends, found) if flags(it) & 2}
    moved = lambda number, end: (number - begun[end] - 100) & 0xFFFFFFFF
    numbers = [(moved(sequence, end), moved(acknowledged, end[::-1])) for end, it in zip(ends, found) for sequence, acknowledged in [struct.unpack_from("!II", it, 54)]]
    return [it[:54] + struct.pack("!II", *both) + it[62:] for it, both in zip(found, numbers)]


@pytest.mark.parametrize("seed", range(5))
def test_segments_that_come_twice_or_late(tmp_path, seed):
    luck = random.Random(seed)
    head, found = records(CAPTURES / "ofctl.pcap")
    made = [it for one in near_the_end(found) for it in [one] * luck.choice([1, 1, 2])]
    for at in range(len(made) - 1):
        # a connection begins before it goes on, and ends after that
        if luck.random() < 0.4 and not (flags(made[at]) | flags(made[at + 1])) & 7:
            made[at], made[at + 1] = made[at + 1], made[at]
    done = ran("events", written(tmp_path, head, made))
    assert done.stderr == ""
    wanted = ran("events", CAPTURES / "ofctl.pcap").stdout.splitlines()
    # at other times, since a late segment holds up those behind it
    for words in (("connect", "lost", "c"), ("connect", "lost", "f")):
        assert [it for it in done.stdout.splitlines() if it.split()[0] in words] == [it for it in wanted if it.split()[0] in words]


@pytest.mark.parametrize("place", [9, 12, 13, -1])
def test_a_segment_that_is_missing_is_said_with_its_place(tmp_path, place):
    head, found = records(CAPTURES / "osken.pcap")
    with_data = [place for place, it in enumerate(found) if has_data(it)]
    gone = with_data[place]
    done = ran("events", written(tmp_path, head, found[:gone] + found[gone + 1 :]))
    said = re.fullmatch(r"127\.0\.0\.1:\d+ to 127\.0\.0\.1:6654: (\d+) bytes of \S+ are missing before packet (\d+); \d+ segments from there on are left out\n", done.stderr)
    ip = found[gone][16 + 14 :]
    assert int(said[1]) == struct.unpack_from("!H", ip, 2)[0] - 20 - (ip[32] >> 4) * 4
    # the next packet, in which the other side acknowledges it
    assert int(said[2]) == gone + 1
    rows = done.stdout.splitlines()
    whole = ran("events", CAPTURES / "osken.pcap").stdout.splitlines()
    assert rows == whole[: len(rows)] and 5 < len(rows) < len(whole)


def test_packets_that_were_cut_are_said(tmp_path):
    head, found = records(CAPTURES / "osken.pcap")
    made = [changed(it, it[16 : 16 + 96], len(it) - 16) for it in found]
    done = ran("events", written(tmp_path, head, made))
    assert "the capture has only a part of packet " in done.stderr
    assert "bytes of" in done.stderr and "are missing before packet" in done.stderr


def test_a_file_that_ends_too_early(tmp_path):
    data = (CAPTURES / "osken.pcap").read_bytes()
    path = tmp_path / "short.pcap"
    path.write_bytes(data[:-7])
    done = ran("events", path)
    assert re.search(r"short\.pcap: ends inside packet \d+\n", done.stderr)
    assert done.stdout.startswith("port add 4 ")


def test_a_capture_that_begins_late(tmp_path):
    head, found = records(CAPTURES / "osken.pcap")
    done = ran("events", written(tmp_path, head, found[10:]))
    assert "the capture does not have the HELLO of both sides; left out" in done.stderr
    assert "no OpenFlow 1.3 connection" in done.stderr and done.stdout == ""


def tagged(record):
    data = record[16:]
    return changed(record, data[:12] + bytes.fromhex("88a8000a81000005") + data[12:])


def cooked(record):
    data = record[16:]
    return changed(record, bytes.fromhex("0000030400060000000000000000") + data[12:])


def cooked_2(record):
    data = record[16:]
    return changed(record, data[12:14] + bytes.fromhex("000000000001030400060000000000000000") + data[14:])


def raw(record):
    return changed(record, record[16 + 14 :])


def with_options(record):
    """With four bytes of IP options, NOP each (RFC 791, 3.1)."""
    data = record[16:]
    size = struct.unpack_from("!H", data, 16)[0] + 4
    return changed(record, data[:14] + b"\x46" + data[15:16] + struct.pack("!H", size) + data[18:34] + b"\1\1\1\1" + data[34:])


# the upper bits of a link type say how many bytes of a frame are its checksum
@pytest.mark.parametrize("link, form", [(1, tagged), (113, cooked), (276, cooked_2), (101, raw), (1, with_options), (0x44000001, tagged)])
def test_packets_of_other_links(tmp_path, link, form):
    head, found = records(CAPTURES / "osken.pcap")
    done = ran("events", written(tmp_path, of_link(head, link), map(form, found)))
    assert done.stderr == "" and done.stdout == ran("events", CAPTURES / "osken.pcap").stdout


def test_sequence_numbers_that_wrap(tmp_path):
    head, found = records(CAPTURES / "osken.pcap")
    assert ran("events", written(tmp_path, head, near_the_end(found))).stdout == ran("events", CAPTURES / "osken.pcap").stdout


def test_bytes_behind_a_packet_are_not_data(tmp_path):
    """Ethernet pads a frame to 60 bytes: what is behind the IP packet is of no segment."""
    head, found = records(CAPTURES / "osken.pcap")
    done = ran("events", written(tmp_path, head, (changed(it, it[16:] + bytes(6)) for it in found)))
    assert done.stderr == "" and done.stdout == ran("events", CAPTURES / "osken.pcap").stdout


def test_later_fragments_are_no_segments(tmp_path):
    """A copy of the HELLO of the controller, with a fragment offset of 2,048 bytes (RFC 791, 3.1), and another xid."""
    head, found = records(CAPTURES / "osken.pcap")
    place = [place for place, it in enumerate(found) if has_data(it)][1]
    later = found[place][:36] + struct.pack("!H", 256) + found[place][38:-1] + b"x"
    done = ran("events", written(tmp_path, head, [*found[:place], later, *found[place:]]))
    assert done.stdout == ran("events", CAPTURES / "osken.pcap").stdout


def test_files_of_the_other_byte_order_and_of_nanoseconds(tmp_path):
    head, found = records(CAPTURES / "osken.pcap")
    turned = struct.pack(">IHHiIII", 0xA1B23C4D, *struct.unpack("<HHiIII", head[4:]))
    made = []
    for it in found:
        seconds, micros, kept, size = struct.unpack_from("<4I", it)
        made.append(struct.pack(">4I", seconds, micros * 1000, kept, size) + it[16:])
    assert ran("events", written(tmp_path, turned, made)).stdout == ran("events", CAPTURES / "osken.pcap").stdout


def test_pcapng_of_another_program(tmp_path):
    if shutil.which("editcap") is None:
        pytest.skip("there is no editcap")
    for name in ("osken", "ofctl"):
        path = tmp_path / f"{name}.pcapng"
        subprocess.run(["editcap", "-F", "pcapng", CAPTURES / f"{name}.pcap", path], check=True)
        assert path.read_bytes()[:4] == b"\x0a\x0d\x0d\x0a"
        assert ran("events", path).stdout == ran("events", CAPTURES / f"{name}.pcap").stdout


def test_streams_are_those_of_tshark():
    if shutil.which("tshark") is None:
        pytest.skip("there is no tshark")
    for name in ("osken", "ofctl"):
        for number, stream in enumerate(tcp.connections(pcap.packets(CAPTURES / f"{name}.pcap"))):
            words = ["tshark", "-r", CAPTURES / f"{name}.pcap", "-q", "-z", f"follow,tcp,yaml,{number}"]
            text = subprocess.run(words, capture_output=True, text=True, timeout=60).stdout
            theirs = {0: b"", 1: b""}
            for peer, data in re.findall(r"peer: (\d)\n    timestamp: [\d.]+\n    data: !!binary \|\n((?:      .*\n)+)", text):
                theirs[int(peer)] += base64.b64decode("".join(data.split()))
            assert {side: b"".join(it.data for it in stream.pieces if it.side == side) for side in (0, 1)} == theirs


# ---- connections that were made up


@pytest.mark.parametrize("six", [False, True])
def test_a_connection_without_a_list_of_ports(tmp_path, six):
    flow = messages.flow(messages.output(0xFFFFFFFD), in_port=3)
    talk = [*HELLOS, (0, flow[:50]), (0, flow[50:] + messages.features_request(7)[:3]), (0, messages.features_request(7)[3:])]
    talk += [(1, features_reply(7, 0x2A)), (1, packet_in(3, FRAME)), (1, messages.echo(5)), (0, messages.echo_reply(5))]
    path = recorded(tmp_path, *segments(talk, six=six))
    rows = [it for it in ran("events", path).stdout.splitlines() if not it.startswith("t ")]
    said = [messages.HELLO, flow, messages.features_request(7)]
    assert rows == [
        "# a switch of datapath_id 0x2a: replay it with --dpid 0x2a",
        "port add 3 020000000003 p3 up",
        "connect",
        *(f"c {it.hex()}" for it in said),
        f"f 3 {FRAME.hex()}",
        f"c {messages.echo_reply(5).hex()}",
        "lost",
    ]
    assert ran("compare", path).stdout == "4 alike, 0 with differences\n"


@pytest.mark.parametrize("order", [(0, 1, 0, 3, 2), (0, 1, 2, 3, 0)])
def test_a_syn_that_is_sent_again(tmp_path, order):
    """Before there are bytes, of which the second part comes first; and after some."""
    hello = HELLOS[1][1]
    talk = [(1, hello[:8]), (1, hello[8:]), HELLOS[0], (0, messages.features_request(7)), (1, features_reply(7, 1))]
    packets = [*segments(talk)]
    made = [*(packets[it] for it in order), *packets[4:]]
    wanted = ["connect", f"c {messages.HELLO.hex()}", f"c {messages.features_request(7).hex()}", "lost"]
    assert rows_of(recorded(tmp_path, *packets)) == wanted
    assert rows_of(recorded(tmp_path, *made)) == wanted


def test_two_changes_of_a_port_before_its_description(tmp_path):
    """Port 3 is removed, and comes again with another address: at the beginning it has the first one."""
    old, new = "0200000000a3", "0200000000b3"
    talk = [*HELLOS, (1, port_status(1, 3, old)), (1, port_status(0, 3, new)), (0, ports_request(5)), (1, ports_reply(5, port_description(3, new)))]
    rows = rows_of(recorded(tmp_path, *segments(talk)))
    assert [it for it in rows if it.startswith("port")] == [f"port add 3 {old} eth3 up", "port remove 3", f"port add 3 {new} eth3 up"]


def test_a_port_that_was_removed(tmp_path):
    """It was there, so the frames of its capture need no note. Its name has a character that no row has."""
    described = port_description(3, "0200000000a3").replace(b"eth3", b"et 3")
    talk = [*HELLOS, (0, ports_request(5)), (1, ports_reply(5, described)), (1, port_status(1, 3, "0200000000a3"))]
    done = ran("events", recorded(tmp_path, *segments(talk)), "--in", f"3={CAPTURES}/osken-p3-rx.pcap")
    assert done.stdout.startswith("port add 3 0200000000a3 et3 up\n") and "port remove 3\n" in done.stdout and done.stderr == ""


def test_a_description_in_several_parts(tmp_path):
    # OFPMPF_REPLY_MORE is 1
    parts = [(1, ports_reply(5, port_description(1, "0200000000a1"), more=1)), (1, ports_reply(5, port_description(2, "0200000000a2", state=1)))]
    rows = rows_of(recorded(tmp_path, *segments([*HELLOS, (0, ports_request(5)), *parts])))
    assert rows[:2] == ["port add 1 0200000000a1 eth1 up", "port add 2 0200000000a2 eth2 down"]


def test_a_part_of_a_frame_is_no_frame(tmp_path):
    """The switch sends 64 bytes of a frame of 1,000: what it received is not known."""
    cut = packet_in(3, FRAME)
    cut = cut[:12] + struct.pack("!H", 1000) + cut[14:]
    done = ran("events", recorded(tmp_path, *segments([*HELLOS, (0, messages.echo(1)), (1, cut), (1, packet_in(4, FRAME))])))
    assert [it for it in done.stdout.splitlines() if it.startswith("f ")] == [f"f 4 {FRAME.hex()}"]
    assert "1 PACKET_INs do not have a whole frame of a port" in done.stderr


@pytest.mark.parametrize("length", range(8))
def test_a_message_that_says_it_is_shorter_than_its_header(tmp_path, length):
    """The specified switch ends the connection; the bytes are fed to it as they are."""
    bad = struct.pack("!BBHI", 4, 5, length, 7)
    rows = rows_of(recorded(tmp_path, *segments([*HELLOS, (0, messages.features_request(6)), (1, features_reply(6, 1)), (0, bad)])))
    assert rows[-2:] == [f"c {bad.hex()}", "lost"]


def test_a_connection_beside_another_is_left_out(tmp_path):
    one, other = ([*HELLOS, (0, messages.features_request(it)), (1, features_reply(it, 1))] for it in (1, 2))
    first, second = ([*segments(talk, ports=(port, 6653))] for talk, port in ((one, 40_001), (other, 40_002)))
    done = ran("events", recorded(tmp_path, *first[:-2], *second, *first[-2:]))
    assert "10.0.0.1:40002 to 10.0.0.2:6653: another connection lasts while this one begins; left out" in done.stderr
    assert done.stdout.count("connect") == 1
    # one after the other they are two connections
    assert ran("events", recorded(tmp_path, *first, *second)).stdout.count("connect") == 2


def test_two_switches_at_one_controller(tmp_path):
    """The switches connect to the controller."""
    hellos = [(1 - side, data) for side, data in HELLOS]
    one, other = ([*hellos, (1, messages.features_request(1)), (0, features_reply(1, number))] for number in (1, 2))
    packets = [*segments(one, ports=(40_001, 6653)), *segments(other, ports=(40_002, 6653))]
    path = recorded(tmp_path, *packets)
    done = ran("events", path)
    assert "10.0.0.1:40002 to 10.0.0.2:6653: of datapath_id 0x2; left out" in done.stderr
    assert done.stdout.count("connect") == 1
    assert ran("events", path, "--dpid", 2).stdout.startswith("# a switch of datapath_id 0x2")
    assert ran("events", path, "--tcp-port", "40002").stdout.startswith("# a switch of datapath_id 0x2")


def test_what_is_no_session_is_said(tmp_path):
    old = bytes.fromhex("0100000800000001")
    versions = [(0, old), (1, old), (0, bytes.fromhex("0105000800000002"))]
    silent = [*HELLOS, (0, messages.echo(1)), (1, messages.echo_reply(1))]
    path = recorded(tmp_path, *segments(versions, ports=(1, 2)), *segments([(0, b"GET /")], ports=(3, 4)), *segments(silent, ports=(5, 6)))
    said = ran("events", path).stderr
    assert "10.0.0.1:1 to 10.0.0.2:2: messages of version 1, and not of OpenFlow 1.3 (version 4); left out" in said
    assert "10.0.0.1:3 to 10.0.0.2:4: the capture does not have the HELLO of both sides; left out" in said
    assert "10.0.0.1:5 to 10.0.0.2:6: nothing shows which side is the switch; left out" in said


def test_the_order_of_answers_makes_no_difference(tmp_path):
    """A frame that comes in before an echo is answered, whose PACKET_IN the recorded switch sends after the reply."""
    flow = messages.flow(messages.output(0xFFFFFFFD))
    talk = [*HELLOS, (0, flow), (0, messages.echo(9) + messages.echo(8)), (1, messages.echo_reply(8) + messages.echo_reply(9)), (1, packet_in(1, FRAME))]
    assert ran("compare", recorded(tmp_path, *segments(talk))).stdout == "5 alike, 0 with differences\n"


def test_a_wrong_field_is_named(tmp_path):
    talk = [*HELLOS, (0, messages.features_request(7)), (1, features_reply(7, 1)[:16] + bytes([0, 0, 0, 5]) + features_reply(7, 1)[20:])]
    lines = ran("compare", recorded(tmp_path, *segments(talk)), status=4).stdout.splitlines()
    assert lines == [
        "connection 1, xid 7 FEATURES_REQUEST (packet 5)",
        "    n_buffers: recorded 5, specified 256",
        "1 alike, 1 with differences",
    ]


# ---- frames, and captures that are written


def test_frames_as_rows():
    rows = ran("frames", CAPTURES / "osken-p1-rx.pcap", "--port", 7).stdout.splitlines()
    assert [row.split()[:2] for row in rows] == [["f", "7"], ["t", "823459000"], ["f", "7"]]
    assert rows[0].split()[2].startswith("ffffffffffff0200000000010806")


def test_a_run_as_a_capture(switch, tmp_path):
    switch.port_add(1, name="s1-eth1")
    switch.port_add(2)
    switch.connect()
    stream = messages.HELLO + messages.flow(messages.output(2), in_port=1) + messages.echo(7)
    switch.feed(stream[:30])
    switch.at(1_500_000_007)
    switch.feed(stream[30:])
    switch.frame(1, FRAME)
    path = tmp_path / "run.pcapng"
    switch.pcap(path)
    tag = bytes.fromhex("000c00086f70656e666c6f7700000000")
    found = [(it.nanoseconds, it.link, it.data.removeprefix(tag)) for it in pcap.packets(path)]
    hello, answer = bytes.fromhex("04000010000000000001000800000010"), messages.echo_reply(7)
    late = 1_500_000_007
    sent = [(0, 252, hello), (0, 252, messages.HELLO), (late, 252, stream[8:-8]), (late, 252, messages.echo(7)), (late, 252, answer)]
    assert found == [*sent, (late, 1, FRAME), (late, 1, FRAME)]
    # an option of its interface
    assert b"\x02\0\x07\0s1-eth1\0" in path.read_bytes() and b"\x02\0\x06\0port 2" in path.read_bytes()


def test_times_and_bytes_of_a_run_that_is_not_smooth(tmp_path):
    """A time that is earlier than the one before, and a connection that is lost inside a message."""
    rows = ["t 5", "connect", "c 04000008000000", "lost", "t 3", "connect", f"c {messages.HELLO.hex()}", "t 7", f"c {messages.echo(1).hex()}"]
    write_pcap(tmp_path / "run.pcapng", [(it, []) for it in rows])
    found = [(it.nanoseconds, it.data[16:]) for it in pcap.packets(tmp_path / "run.pcapng")]
    assert found == [(5, messages.HELLO), (7, messages.echo(1))]


def test_tshark_reads_what_is_written(tmp_path):
    if shutil.which("tshark") is None:
        pytest.skip("there is no tshark")
    events, path = tmp_path / "self.events", tmp_path / "self.pcapng"
    events.write_text(ran("events", CAPTURES / "self.pcap").stdout)
    ran("pcap", events, path)

    def seen(path, *words):
        done = subprocess.run(["tshark", "-r", path, "-d", "tcp.port==6653,openflow", *words], capture_output=True, text=True, timeout=60)
        assert done.returncode == 0
        return done.stdout

    def told(path):
        """The messages, and what tshark notes of them."""
        fields = ["-T", "fields", *(word for it in ("type", "xid", "length") for word in ("-e", f"openflow_v4.{it}")), "-e", "_ws.expert.message"]
        return re.sub(r"Connection [^\n\t]*|This frame [^\n\t]*", "", seen(path, "-Y", "openflow_v4", *fields)).splitlines()

    def messages_of(lines):
        # a packet may have several messages
        return sorted(pair for it in lines for pair in zip(*(column.split(",") for column in it.split("\t")[:2])))

    assert messages_of(told(path)) == messages_of(told(CAPTURES / "self.pcap"))
    # an ERROR has the first 64 bytes of a message, and there is a mask that the standard does not have: of a recorded file it says the same
    for note in ("Malformed", "Undecoded"):
        assert [sum(note in it for it in told(one)) for one in (path, CAPTURES / "self.pcap")].count(3 if note == "Malformed" else 1) == 2
    interfaces = set(seen(path, "-T", "fields", "-e", "frame.interface_name").split("\n"))
    assert {"openflow"} <= interfaces


def test_a_failure_leaves_a_capture(pytester, pytestconfig):
    plugin = [] if pytestconfig.pluginmanager.has_plugin("ofswitch") else ["-p", "ofswitch.pytest_plugin"]
    pytester.makepyfile("def test_that_fails(switch): switch.connect(); assert False")
    result = pytester.runpytest("-p", "no:cacheprovider", "--ofswitch-pcap", *plugin)
    result.stdout.fnmatch_lines(["*rows of switch 1,*", "*switch-1.pcapng", "ofswitch replay *switch-1.events"])
    [line] = [it for it in result.outlines if it.endswith(".pcapng")]
    assert len(list(pcap.packets(line))) == 1


# ---- what is refused


@pytest.mark.parametrize(
    "words, status",
    [
        ([], 1),
        (["events"], 1),
        (["events", "missing.pcap"], 3),
        (["events", __file__], 3),
        (["events", CAPTURES / "osken.pcap", "--tcp-port", "x"], 1),
        (["events", CAPTURES / "osken.pcap", "--in", "osken-p1-rx.pcap"], 1),
        (["events", CAPTURES / "osken.pcap", "--in", "1=missing.pcap"], 3),
        (["events", CAPTURES / "osken.pcap", "--tcp-port", "1"], 0),
        (["frames", CAPTURES / "osken-p1-rx.pcap"], 1),
        (["frames", CAPTURES / "osken-p1-rx.pcap", "--port", "-1"], 1),
        (["compare", CAPTURES / "osken.pcap", "--program", "/nowhere/ofswitch"], 3),
        (["pcap", __file__, "/nowhere/out.pcapng"], 2),
        (["--help"], 0),
        (["compare", "--help"], 0),
    ],
)
def test_statuses(words, status):
    assert "Traceback" not in ran(*words, status=status).stderr
