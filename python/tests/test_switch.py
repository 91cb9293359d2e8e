"""The switch as a value in a test."""

import os
import pathlib
import subprocess

import messages
import pytest
from ofswitch import Answer, Closed, MessageType, ProgramError, Refused, Sent, Switch, check, diff, paths

EXAMPLES = pathlib.Path(__file__).resolve().parents[2] / "examples"
PROGRAM = os.environ.get("OFSWITCH", "ofswitch")
FRAME = bytes.fromhex("020000000002020000000001") + bytes.fromhex("88b5") + bytes(46)
SECOND = 1_000_000_000


def started(switch, ports=2):
    for number in range(1, ports + 1):
        assert switch.port_add(number) == []
    [hello] = switch.connect()
    assert hello.type is MessageType.HELLO
    assert switch.feed(messages.HELLO) == []
    return switch


def replayed(switch, tmp_path):
    """What `ofswitch replay` prints for the log, as a user runs it."""
    path = tmp_path / "log.events"
    path.write_text(switch.log)
    done = subprocess.run([PROGRAM, "replay", *switch.replay_options, path], capture_output=True, text=True, timeout=60)
    assert done.returncode == 0, done.stderr
    return done.stdout.splitlines()


def test_effects_are_values(switch):
    started(switch)
    assert switch.frame(1, FRAME) == []
    assert switch.feed(messages.flow(messages.output(2), in_port=1)) == []
    assert switch.frame(1, FRAME) == [Sent(2, FRAME)]
    [answer] = switch.feed(messages.echo(77, b"hello"))
    assert answer == Answer(messages.echo_reply(77, b"hello"))
    assert (answer.type, answer.xid, bytes(answer)) == (MessageType.ECHO_REPLY, 77, answer.data)
    [error, closed] = switch.feed(bytes.fromhex("0405000700000008"))
    assert error.type == 1 and closed == Closed()


def test_refusals_have_reasons(switch):
    assert switch.feed(b"") == [Refused(3)]
    started(switch)
    [refused] = switch.port_add(1)
    assert refused == Refused(5) and refused.reason == "there is a port of that number already"
    assert switch.connect() == [Refused(4)]
    assert switch.port_remove(7) == switch.port_link(7, up=True) == [Refused(6)]
    for number in range(3, 65):
        switch.port_add(number)
    assert switch.port_add(65) == [Refused(7)]


@pytest.mark.parametrize("number", [0, 0xFFFFFF01, 0xFFFFFFFF])
def test_numbers_that_no_port_has(switch, number):
    """They print the line by which the module finds where the text of a row ends."""
    assert switch.port_remove(number) == switch.port_add(number) == switch.port_link(number, up=False) == [Refused(8)]
    assert switch.port_add(1) == []
    assert switch.port_remove(1) == []


def test_links_and_status(switch):
    started(switch)
    [down] = switch.port_link(2, up=False)
    [gone] = switch.port_remove(2)
    assert down.type is gone.type is MessageType.PORT_STATUS
    assert (down.data[8], gone.data[8]) == (2, 1)


def test_hardware_address_and_name(switch):
    started(switch, ports=0)
    [status] = switch.port_add(9, hw="0a:00:27:00:00:0F", name="uplink", up=False)
    assert bytes.fromhex("0a002700000f") in status.data and b"uplink" in status.data
    assert switch.port_add(10, hw=bytes.fromhex("0a0027000010")) != []
    assert switch.log.splitlines()[2:] == ["port add 9 0a002700000F uplink down", "port add 10 0a0027000010 p10 up"]


def test_bytes_of_the_controller_may_be_cut_anywhere(switch):
    started(switch)
    stream = messages.flow(messages.output(2), in_port=1) + messages.barrier(5)
    effects = [effect for at in range(len(stream)) for effect in switch.feed(stream[at : at + 1])]
    assert effects == [Answer(messages.barrier_reply(5))]
    assert switch.frame(1, FRAME) == [Sent(2, FRAME)]


def test_time_is_the_tests(switch):
    started(switch)
    switch.feed(messages.flow(messages.output(2), in_port=1, hard=10, flags=1))
    assert switch.at(10 * SECOND - 1) == []
    assert switch.frame(1, FRAME) == [Sent(2, FRAME)]
    [removed] = switch.at(10 * SECOND)
    assert removed.type is MessageType.FLOW_REMOVED
    assert switch.frame(1, FRAME) == []


def test_failover_group(switch):
    started(switch, ports=3)
    switch.feed(messages.failover_group(1, 2, 3) + messages.flow(messages.group(1), in_port=1))
    assert switch.frame(1, FRAME) == [Sent(2, FRAME)]
    switch.port_link(2, up=False)
    assert switch.frame(1, FRAME) == [Sent(3, FRAME)]
    switch.port_link(3, up=False)
    assert switch.frame(1, FRAME) == []
    switch.port_link(2, up=True)
    assert switch.frame(1, FRAME) == [Sent(2, FRAME)]


def test_router(switch):
    """The tables of README's example: a hop decreases the TTL, and the checksum follows."""
    for number in (1, 2, 3):
        switch.port_add(number)
    assert switch.load((EXAMPLES / "router.flows").read_text()) == []
    packet = bytes.fromhex("0200000000a10200000000010800450000140000000040fd64e30a0000010a010109")
    wanted = bytes.fromhex("0200000000020200000000a2080045000014000000003ffd65e30a0000010a010109")
    assert switch.frame(1, packet) == [Sent(2, wanted)]


def test_messages_and_packets_are_taken_as_they_are(switch):
    started(switch)

    class OfOsKen:
        """A message of os-ken: `buf` is there once it is serialized."""

        buf = None

        def serialize(self):
            self.buf = bytearray(messages.echo(1))

    class PacketOfOsKen:
        def serialize(self):
            self.data = bytearray(FRAME)

    class OfPyof:
        def pack(self):
            return messages.echo(1)

    class OfScapy:
        def __bytes__(self):
            return FRAME

    wanted = [Answer(messages.echo_reply(1))]
    for message in (messages.echo(1), bytearray(messages.echo(1)), memoryview(messages.echo(1)), OfOsKen(), OfPyof()):
        assert switch.feed(message) == wanted
    switch.feed(messages.flow(messages.output(2)))
    for frame in (FRAME, memoryview(FRAME), OfScapy(), PacketOfOsKen()):
        assert switch.frame(1, frame) == [Sent(2, FRAME)]


@pytest.mark.parametrize(
    "call",
    [
        lambda s: s.port_add(-1),
        lambda s: s.port_add(1 << 32),
        lambda s: s.port_add(1, name="sixteen0letters0"),
        lambda s: s.port_add(1, name=""),
        lambda s: s.port_add(1, name="Eth 0"),
        lambda s: s.port_add(1, name="p1\n"),
        lambda s: s.port_add(1, hw="02:00:00:00:00"),
        lambda s: s.port_add(1, hw=b"12345"),
        lambda s: s.port_remove(-1),
        lambda s: s.port_link(1 << 32, up=True),
        lambda s: s.frame(-1, FRAME),
        lambda s: s.frame(1 << 32, FRAME),
        lambda s: s.frame(1, bytes(1 << 20)),
        lambda s: s.feed(bytes(1 << 20)),
        lambda s: s.at(-1),
        lambda s: s.at(1 << 64),
        lambda s: s.trace(-1, FRAME),
        lambda s: s.steps(-1, FRAME),
        lambda s: s.play_all(["connect", "connected"]),
        lambda s: s.load("flow 0"),
        lambda s: s.import_("in_port=1"),
        lambda s: s.play("connected"),
        lambda s: s.play("connect\nconnect"),
        lambda s: s.play("connect\n"),
        lambda s: s.play("connect "),
        lambda s: s.play("connect\r"),
        lambda s: s.play("c 0"),
        lambda s: s.play("c"),
        lambda s: s.play("f 01 -"),
        lambda s: s.play(f"f {1 << 32} -"),
        lambda s: s.play(f"t {1 << 64}"),
        lambda s: s.play("port add 1 02:00:00:00:00:01 p1 up"),
        lambda s: s.play("port add 1 020000000001 sixteen0letters0 up"),
        lambda s: s.play("port link 1"),
        lambda s: s.play("port remove ١"),
        lambda s: s.play("# \udcff"),
        lambda s: s.play("#" * ((1 << 20) + 1)),
    ],
)
def test_what_makes_no_row_is_a_value_error(switch, call):
    with pytest.raises(ValueError):
        call(switch)
    assert switch.log == ""
    assert switch.connect() != []


@pytest.mark.parametrize("value", [8, None, [4, 0]])
def test_what_has_no_bytes_is_a_type_error(switch, value):
    with pytest.raises(TypeError):
        switch.feed(value)
    with pytest.raises(TypeError):
        switch.frame(1, value)
    with pytest.raises(TypeError):
        switch.frame("1", FRAME)
    assert switch.log == ""


def test_digits_are_no_words_of_a_message(switch):
    with pytest.raises(ValueError, match="bad message: 0400"):
        switch.feed("0400")
    assert switch.log == ""


def test_rows_as_text(switch):
    assert switch.play("# a comment: ü") == switch.play("") == []
    assert switch.play("port add 4294967040 0200000000A1 p1 down") == []
    assert switch.play("t 18446744073709551615") == switch.play("f 0 -") == switch.play("lost") == []
    assert switch.play("c -") == [Refused(3)]
    assert switch.play("port remove 0") == [Refused(8)]
    assert switch.log.count("\n") == 8


def test_a_large_row_and_large_answers(switch):
    """A megabyte of row, and as much for it: neither pipe may fill up."""
    started(switch)
    assert len(switch.feed(messages.echo(1, bytes(1000)) * 500)) == 500
    assert len(switch.feed(messages.echo(2) * 20_000)) == 20_000


def test_flows_and_traces_change_nothing(switch):
    started(switch)
    switch.feed(messages.flow(messages.output(2), in_port=1) + messages.flow(messages.output(messages.CONTROLLER), priority=0))
    log = switch.log
    flow = ["flow 0 10 0x0000000000000000 0 0 0", "match in_port 0x00000001", "apply", "output 2 65535"]
    assert switch.flows().splitlines()[:4] == flow
    steps = ["in by port 1, 60 bytes", "table 0: entry 0", "sent out of port 2, 60 bytes"]
    assert switch.trace(1, FRAME).splitlines() == steps
    assert "PACKET_IN" in switch.trace(2, FRAME)
    switch.port_link(1, up=False)
    assert "sent" not in switch.trace(1, FRAME)
    assert switch.log.removeprefix(log) == "port link 1 down\n"
    assert "FLOW_MOD" in switch.explain()
    assert switch.explain() == switch.explain()
    switch.port_link(1, up=True)
    assert f"{len(switch.log.splitlines())}: port link 1 up" in switch.explain().splitlines()
    assert switch.explain() == switch.explain()


def test_the_log_replays_all(switch, tmp_path):
    seen = []
    switch.watch(lambda row, effects: seen.extend(map(str, effects)))
    started(switch)
    switch.play("# between")
    switch.port_remove(0)
    switch.feed(messages.flow(messages.output(2)) + messages.echo(3))
    switch.frame(1, FRAME)
    switch.feed(bytes.fromhex("0405000700000008"))
    switch.lost()
    assert [line.split()[0] for line in seen] == ["a", "refused", "a", "s", "a", "closed"]
    assert replayed(switch, tmp_path) == seen


def test_a_connection_that_the_switch_ended(switch):
    """A flow text is loaded over another one then, and ports are asked for, also while a part of a message waits."""
    started(switch)
    switch.feed(messages.echo(1)[:5])
    assert [it["port_no"] for it in switch.ports()] == [1, 2]
    # the rest of it, and a message whose length is that of no message
    assert switch.feed(messages.echo(1)[5:] + bytes.fromhex("0405000700000008"))[-1] == Closed()
    text = "flow 0 10 0x0000000000000000 0 0 0\nmatch in_port 0x00000001\napply\noutput 2 0\n"
    assert switch.load(text) == [] and switch.flows() == text


def test_the_log_as_a_file(new_switch, tmp_path):
    path = tmp_path / "kept.events"
    switch = new_switch(log=path)
    switch.port_add(1)
    assert path.read_text() == switch.log == "port add 1 020000000001 p1 up\n"


def test_without_a_log(new_switch, monkeypatch):
    monkeypatch.setattr(Switch, "MOST_READS", 50)
    switch = new_switch(log=False)
    started(switch)
    switch.feed(messages.flow(messages.output(2)))
    assert switch.frame(1, FRAME) == [Sent(2, FRAME)]
    assert not switch.keeps_log
    assert "output 2 " in switch.flows() and "s 2 " in switch.steps(1, FRAME) and "sent out of port 2" in switch.trace(1, FRAME)
    for ask in (switch.explain, switch.check, lambda: switch.log, lambda: switch.pcap("/nowhere")):
        with pytest.raises(RuntimeError, match="no log"):
            ask()
    with pytest.raises(ProgramError, match="without a log"):
        for _ in range(50):
            switch.frame(1, FRAME)


def test_many_rows_in_one_write(switch, tmp_path):
    seen = []
    switch.watch(lambda row, effects: seen.append((row, effects)))
    frame = f"f 1 {FRAME.hex()}"
    many = ["port add 1 020000000001 p1 up", "port remove 0", "# between", "port add 2 020000000002 p2 up", "port remove 0", "connect"]
    many += [f"c {(messages.HELLO + messages.flow(messages.output(2))).hex()}", *[frame] * 1000, "port link 2 down", frame]
    effects = switch.play_all(many)
    assert seen == list(zip(many, effects))
    assert effects[1] == effects[4] == [Refused(8)] and effects[2] == [] and effects[5][0].type is MessageType.HELLO
    assert effects[7:-2] == [[Sent(2, FRAME)]] * 1000 and effects[-1] == []
    assert switch.log == "".join(f"{row}\n" for row in many)
    assert replayed(switch, tmp_path) == [str(it) for its in effects for it in its]
    assert switch.play_all([]) == []


@pytest.mark.parametrize("size", [999, 1 << 20])
def test_many_rows_and_a_new_run(new_switch, monkeypatch, size):
    """Whatever part of the log the new run gets at a time."""
    monkeypatch.setattr(Switch, "MOST_READS", 60)
    monkeypatch.setattr("ofswitch.switch._BLOCK_SIZE", size)
    switch = new_switch()
    pids = set()
    for _ in range(60):
        assert switch.play_all(["port remove 0", "t 0", "port add 0 020000000001 p1 up"]) == [[Refused(8)], [], [Refused(8)]]
        pids.add(switch.pid)
    assert len(pids) > 1


@pytest.mark.parametrize(
    "name, row", [("s1-eth1", "s1eth1"), ("eth0.5", "eth05"), ("Ethernet1", "ethernet1"), ("--", "p9"), ("ge-1/0/1", "ge101")]
)
def test_names_that_hosts_have(switch, name, row):
    assert switch.port_add(9, name=name) == []
    assert switch.log == f"port add 9 020000000009 {row} up\n"
    assert switch.port_names == {9: name}
    assert switch.port_add(9, name="other") == [Refused(5)] and switch.port_names == {9: name}
    switch.port_remove(9)
    assert switch.port_names == {}


def test_answers_in_words(switch):
    started(switch)
    [refused] = switch.feed(messages.flow(messages.group(7)))
    assert refused.error == "OFPBAC_BAD_OUT_GROUP"
    assert repr(refused) == "Answer(FLOW_MOD refused: OFPBAC_BAD_OUT_GROUP)"
    assert (refused.fields["type"], refused.fields["code"]) == (2, 9)
    [echo] = switch.feed(messages.echo(7, b"abc"))
    assert echo.error is None and repr(echo) == "Answer(ECHO_REPLY xid 7, data 616263)"
    switch.feed(messages.flow(messages.output(messages.CONTROLLER), in_port=1))
    [packet_in] = switch.frame(1, FRAME)
    told = packet_in.fields
    assert (told["reason"], told["match"], told["data"]) == ("ACTION", {"in_port": 1}, FRAME.hex())
    [status] = switch.port_link(2, up=False)
    assert status.fields["reason"] == "MODIFY" and status.fields["desc"]["state"] == 1
    # a request for all flows
    [flows] = switch.feed(messages.header(18, 5, bytes.fromhex("0001000000000000ff000000ffffffffffffffff00000000") + bytes(16) + bytes.fromhex("0001000400000000")))
    [flow] = flows.fields["body"]
    assert (flow["priority"], flow["match"], flow["instructions"]) == (10, {"in_port": 1}, {"apply": ["output CONTROLLER 65535"]})


def test_flow_text_and_tables_of_open_vswitch(switch):
    for number in (1, 2, 3):
        switch.port_add(number)
    assert switch.import_("priority=10,in_port=1,actions=output:2\nin_port=9,priority=5,actions=drop") == []
    assert switch.log.splitlines()[-1] == "lost"
    assert switch.frame(1, FRAME) == [Sent(2, FRAME)]
    [hello] = switch.connect()
    switch.feed(messages.HELLO)
    # over the connection that is there
    assert switch.load("flow 0 20 0x0000000000000000 0 0 0\nmatch in_port 0x00000001\napply\noutput 3 0\n") == []
    assert switch.frame(1, FRAME) == [Sent(3, FRAME)]
    # the flow of the import has the same match and a lower priority
    never, wins, also = switch.check()["flows"]
    assert never["verdict"] == "never wins" and [it["entry"] for it in never["shadowed_by"]] == [2]
    assert wins["verdict"] == also["verdict"] == "wins" and wins["in_port"] == 9
    lines = switch.steps(1, FRAME).splitlines()
    assert lines == ["lookup 0 entry 2", "apply", "output 3 0", "set", "end", f"s 3 {FRAME.hex()}"]
    assert "    sees in_port 0x00000001" in switch.steps(1, FRAME, explain=True).splitlines()


def test_files_are_paths(new_switch, tmp_path):
    flows, table = tmp_path / "a.flows", tmp_path / "a.txt"
    flows.write_text("flow 0 20 0x0000000000000000 0 0 0\nmatch in_port 0x00000001\napply\noutput 3 0\n")
    table.write_text("priority=20,in_port=1,actions=output:3\n")
    first, second = new_switch(), new_switch()
    assert first.load(flows) == second.import_(table) == []
    assert first.flows() == second.flows() == flows.read_text()
    assert check(flows)["summary"] == check(flows.read_text())["summary"] == {"flows": 1, "win": 1, "never_win": 0, "undecided": 0}
    with pytest.raises(ValueError, match="line 1: "):
        check("flow x\n")


def test_lines_of_a_table_that_are_left_out(switch):
    table = "table=60,in_port=1,actions=resubmit(,94)\ntable=94,actions=output:2\ntable=94,priority=1,actions=learn(table=1)"
    for options in ({}, {"renumber": True}):
        with pytest.raises(ValueError, match="line"):
            switch.import_(table, **options)
    # tables above 15 are left out, too
    assert switch.import_(table, skip=True) == [] and switch.flows() == ""
    assert switch.import_(table, skip=True, renumber=True) == []
    assert [line.split()[:2] for line in switch.flows().splitlines() if line.startswith("flow")] == [["flow", "0"], ["flow", "1"]]


def test_a_switch_without_flows_is_checked(switch):
    assert switch.check() == {
        "version": 1, "command": "check", "found": False, "summary": {"flows": 0, "win": 0, "never_win": 0, "undecided": 0}, "flows": [], "remarks": []
    }


def test_two_switches_are_compared(switch):
    with Switch() as other:
        assert switch.diff(other)["same"] is True
        for it in (switch, other):
            it.port_add(1), it.port_add(2)
            it.import_("in_port=1,actions=output:2")
        assert switch.diff(other)["same"] is True
        # 60 bytes of another type are treated as before
        other.import_("priority=40000,in_port=1,dl_type=0x88b5,actions=drop")
        found = switch.diff(other)
        assert found["same"] is False and not found["ports_differ"]
        [difference] = found["differences"]
        frame = bytes.fromhex(difference["frame"])
        assert (difference["at"], difference["in_port"], difference["second"]) == (2, 1, [])
        assert difference["first"] == [{"port": 2, "frame": difference["frame"]}] and difference["sets"] == 1
        assert switch.frame(1, frame) == [Sent(2, frame)] and other.frame(1, frame) == []
        other.port_add(3)
        assert switch.diff(other)["ports_differ"] is True


def test_two_files_are_compared():
    assert diff(EXAMPLES / "router.flows", (EXAMPLES / "router.flows").read_text())["same"] is True
    [difference] = diff(EXAMPLES / "router.flows", EXAMPLES / "router2.flows")["differences"]
    assert (difference["at"], difference["also"]) == (3, [{"at": "controller", "sets": 1}])
    assert (difference["first_changed"], difference["second_changed"]) == ([False, True], [False, False])
    assert len(diff(EXAMPLES / "router.flows", EXAMPLES / "router2.flows", frames=True)["differences"]) == 1
    with pytest.raises(ValueError, match="line 1: "):
        diff(EXAMPLES / "router.flows", "flow x\n")


def test_frames_are_divided_by_their_steps(switch):
    switch.port_add(1), switch.port_add(2)
    switch.import_("priority=2,in_port=1,arp,actions=output:2\npriority=2,in_port=1,ip,actions=output:2\npriority=1,actions=drop")
    [path] = switch.paths(to=2)["paths"]
    assert path["steps"][1:] == ["apply", "output 2 0", "set", "end"]
    # both flows say the same
    assert sorted(it[0]["entry"] for it in path["hits"]) == [0, 1]
    frame = bytes.fromhex(path["frame"])
    assert (path["in_port"], path["items"]) == (1, [{"port": 2, "frame": path["frame"]}])
    assert switch.frame(1, frame) == [Sent(2, frame)]
    # a path for each of them, with a frame that hits its flow
    each = switch.paths(each=True, to=2)["paths"]
    assert sorted(hit["entry"] for path in each for [hit] in path["hits"]) == [0, 1]
    assert sorted(path["frame"][24:28] for path in each) == ["0800", "0806"]
    [dropped] = switch.paths(port=2)["paths"]
    assert dropped["items"] == [] and dropped["hits"] == [[{"table": 0, "entry": 2}]]
    assert switch.paths(port=1, match="arp")["paths"][0]["hits"][0] == [{"table": 0, "entry": 0}]
    with pytest.raises(ValueError, match="bad --to"):
        switch.paths(to="nowhere")
    with pytest.raises(ValueError, match="bad match: nw_dst: needs ip"):
        switch.paths(match="nw_dst=10.0.0.0/8")


def test_frames_of_a_file_are_divided():
    found = paths(EXAMPLES / "router.flows", to="drop")
    # the seven paths of each of four ports: in each, frames without a route are dropped, and those that would leave by that port
    assert (found["classes"], sorted(it["in_port"] for it in found["paths"]), found["undecided"]) == (28, [1, 2, 2, 3, 3, 4], [])
    assert paths((EXAMPLES / "router.flows").read_text(), steps=0)["undecided"] == ["steps"]
    with pytest.raises(ValueError, match="line 1: "):
        paths("flow x\n")


def test_faults_of_texts_are_told(switch):
    with pytest.raises(ValueError, match=r"line 2: syntax\n.*:2:3: "):
        switch.load("flow 0 1 0x0000000000000000 0 0 0\nmatch in_port 1")
    with pytest.raises(ValueError, match="OFPFMFC_OVERLAP"):
        switch.load("flow 0 1 0x0000000000000000 0 0 0\n" * 2)
    with pytest.raises(ValueError, match="line 1: "):
        switch.import_("in_port=1,actions=learn(table=1)")
    assert switch.log == ""


def test_what_the_switch_refuses_of_a_text_is_answered(switch):
    started(switch)
    switch.load("group 1 all\n")
    [error] = switch.load("group 1 all\n")
    assert error.error == "OFPGMFC_GROUP_EXISTS"


def test_several_switches(new_switch):
    """A frame that crosses two switches."""
    first, second = new_switch(), new_switch()
    for switch in (first, second):
        started(switch)
        switch.feed(messages.flow(messages.output(2), in_port=1))
    [sent] = first.frame(1, FRAME)
    assert second.frame(1, sent.frame) == [Sent(2, FRAME)]


def test_ten_thousand_round_trips(switch, tmp_path):
    started(switch)
    for xid in range(10_000):
        assert switch.feed(messages.echo(xid)) == [Answer(messages.echo_reply(xid))]
    assert len(replayed(switch, tmp_path)) == 10_001


def test_frames_in_words(switch, monkeypatch):
    started(switch)
    # Ethernet, IPv4 (RFC 791) and UDP (RFC 768) by hand: lengths, TTL 64 and both checksums
    ip = "4500001c00000000401166cf0a0000010a000002"
    frame = bytes.fromhex("0000000000000000000000000800" + ip + "000000350008eba6")
    words = "udp,nw_src=10.0.0.1,nw_dst=10.0.0.2,tp_dst=53"
    assert switch.frame_of(words) == frame
    assert switch.feed(messages.flow(messages.output(2), in_port=1)) == []
    assert switch.frame(1, words) == [Sent(2, frame)]
    assert switch.steps(1, words) == switch.steps(1, frame)
    assert switch.trace(1, words) == switch.trace(1, frame)
    assert switch.frame_of(frame.hex()) == frame
    assert "f 1 " + frame.hex() in switch.log
    # the run answers: no other is started
    monkeypatch.setattr("ofswitch.program.subprocess", None)
    assert switch.frame_of(words) == frame
    assert switch.frame(1, "udp, nw_src=10.0.0.1 nw_dst=10.0.0.2,tp_dst=53") == [Sent(2, frame)]
    monkeypatch.undo()
    with pytest.raises(ValueError, match="nw_src: needs ip"):
        switch.frame(1, "nw_src=10.0.0.1")
    with pytest.raises(ValueError, match="in_port"):
        switch.frame_of("in_port=1,tcp")


def without_xid(message):
    return message[:4] + message[8:]


def test_messages_in_words(switch, monkeypatch):
    started(switch)
    words = "flow priority=10,in_port=1,actions=output:2"
    assert without_xid(switch.message_of(words)) == without_xid(messages.flow(messages.output(2, 0), in_port=1))
    assert switch.feed(words) == []
    assert switch.frame(1, FRAME) == [Sent(2, FRAME)]
    sending = f"packet-out in_port=controller,packet={FRAME.hex()},actions=output:1"
    assert without_xid(switch.message_of(sending)) == without_xid(messages.packet_out(FRAME, messages.output(1, 0)))
    assert switch.feed(sending) == [Sent(1, FRAME)]
    # words that were used before start no program
    monkeypatch.setattr("ofswitch.program.subprocess.run", None)
    assert switch.feed(words) == []
    monkeypatch.undo()
    assert switch.feed("flow delete in_port=1") == []
    assert switch.frame(1, FRAME) == []
    with pytest.raises(ValueError, match="nw_src: needs ip"):
        switch.feed("flow nw_src=10.0.0.1,actions=output:2")
