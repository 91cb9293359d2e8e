"""Several switches in one test: links, loops, and a controller for all of them."""

import shutil
import socket
import subprocess
import textwrap

import messages
import pytest
from ofswitch import Arrived, Looped, MessageType, Network, Sent

pytest_plugins = ["pytester"]

A, B = bytes.fromhex("020000000a01"), bytes.fromhex("020000000b01")
PING, PONG = B + A + b"\x88\xb5ping", A + B + b"\x88\xb5pong"
FLOOD = 0xFFFFFFFB

# the learning switch of os-ken's tutorial
LEARNING = textwrap.dedent("""
    from os_ken.base import app_manager
    from os_ken.controller import ofp_event
    from os_ken.controller.handler import CONFIG_DISPATCHER, MAIN_DISPATCHER, set_ev_cls
    from os_ken.lib.packet import ethernet, packet
    from os_ken.ofproto import ofproto_v1_3


    class Learning(app_manager.OSKenApp):
        OFP_VERSIONS = [ofproto_v1_3.OFP_VERSION]

        def __init__(self, *args, **words):
            super().__init__(*args, **words)
            self.ports = {}

        def add(self, path, priority, match, actions):
            of, parser = path.ofproto, path.ofproto_parser
            todo = [parser.OFPInstructionActions(of.OFPIT_APPLY_ACTIONS, actions)]
            path.send_msg(parser.OFPFlowMod(path, priority=priority, match=match, instructions=todo))

        @set_ev_cls(ofp_event.EventOFPSwitchFeatures, CONFIG_DISPATCHER)
        def features(self, event):
            path = event.msg.datapath
            of, parser = path.ofproto, path.ofproto_parser
            self.add(path, 0, parser.OFPMatch(), [parser.OFPActionOutput(of.OFPP_CONTROLLER, of.OFPCML_NO_BUFFER)])

        @set_ev_cls(ofp_event.EventOFPPacketIn, MAIN_DISPATCHER)
        def packet_in(self, event):
            msg = event.msg
            path, port = msg.datapath, msg.match["in_port"]
            of, parser = path.ofproto, path.ofproto_parser
            eth = packet.Packet(msg.data).get_protocol(ethernet.ethernet)
            learned = self.ports.setdefault(path.id, {})
            learned[eth.src] = port
            out = learned.get(eth.dst, of.OFPP_FLOOD)
            actions = [parser.OFPActionOutput(out)]
            if out != of.OFPP_FLOOD:
                self.add(path, 1, parser.OFPMatch(in_port=port, eth_dst=eth.dst, eth_src=eth.src), actions)
            path.send_msg(parser.OFPPacketOut(path, msg.buffer_id, port, actions, msg.data))
""")


def line(network, *names):
    """Switches in a row: host ports 1, links from port 3 to port 2 of the next one."""
    for name in names:
        network.add(name, ports=3)
    for one, other in zip(names, names[1:]):
        network.link(one, 3, other, 2)
    return network


def with_flows(network, *flows):
    """Each switch gets these FLOW_MODs, from a controller that the test plays."""
    for switch in network.switches.values():
        switch.connect()
        assert switch.feed(messages.HELLO + b"".join(flows)) == []


@pytest.fixture
def learning(tmp_path):
    """The address of an os-ken application that learns."""
    pytest.importorskip("os_ken")
    manager = shutil.which("osken-manager")
    if manager is None:
        pytest.skip("there is no osken-manager")
    (tmp_path / "learning.py").write_text(LEARNING)
    with socket.socket() as free:
        free.bind(("127.0.0.1", 0))
        address = free.getsockname()
    words = [manager, "--ofp-listen-host", address[0], "--ofp-tcp-listen-port", str(address[1]), "learning.py"]
    quiet = subprocess.DEVNULL
    with subprocess.Popen(words, cwd=tmp_path, stdin=quiet, stdout=quiet, stderr=quiet) as running:
        yield address
        running.kill()


def test_three_switches_in_a_line(network):
    line(network, "s1", "s2", "s3")
    with_flows(network, messages.flow(messages.output(3), in_port=1), messages.flow(messages.output(3), in_port=2))
    # the third one sends on to its host
    network["s3"].feed(messages.flow(messages.output(1), in_port=2, priority=20))
    assert network.send("s1", 1, PING) == [Arrived("s3", 1, PING)]
    assert network.send("s2", 1, PING) == [Arrived("s3", 1, PING)]
    assert network.send("s3", 1, PING) == [Arrived("s3", 3, PING)]
    assert network.settle() == []


def test_copies_reach_each_host(network):
    line(network, "s1", "s2", "s3")
    with_flows(network, messages.flow(messages.output(FLOOD)))
    hosts = {("s1", 2), ("s2", 1), ("s3", 1), ("s3", 3)}
    arrived = network.send("s1", 1, PING)
    assert {(it.switch, it.port) for it in arrived} == hosts and len(arrived) == 4
    assert {it.frame for it in arrived} == {PING}


def test_a_link_that_is_cut(network):
    line(network, "s1", "s2")
    with_flows(network, messages.flow(messages.output(3), in_port=1), messages.flow(messages.output(1), in_port=2))
    told = []
    for name in ("s1", "s2"):
        network[name].watch(lambda row, effects, name=name: told.extend((name, row, it.type) for it in effects if not isinstance(it, Sent)))
    network.cut("s2", 2)
    assert told == [("s2", "port link 2 down", MessageType.PORT_STATUS), ("s1", "port link 3 down", MessageType.PORT_STATUS)]
    assert network.send("s1", 1, PING) == []
    network.mend("s1", 3)
    assert network.send("s1", 1, PING) == [Arrived("s2", 1, PING)]


def test_frames_of_rows_that_the_test_plays_itself(network):
    line(network, "s1", "s2")
    with_flows(network, messages.flow(messages.output(1), in_port=2))
    assert network["s1"].feed(messages.packet_out(PING, messages.output(3))) == [Sent(3, PING)]
    assert network.carry() == [Arrived("s2", 1, PING)]
    assert network.carry() == []


def test_time_for_all(network):
    line(network, "s1", "s2")
    with_flows(network, messages.flow(messages.output(3), hard=10))
    network.at(10_000_000_000)
    assert [it.flows() for it in network.switches.values()] == ["", ""]


def test_a_ring_is_named(network):
    line(network, "s1", "s2", "s3")
    network.link("s3", 3, "s1", 2)
    with_flows(network, messages.flow(messages.output(3), in_port=1), messages.flow(messages.output(3), in_port=2))
    network.hops = 100
    with pytest.raises(Looped) as caught:
        network.send("s2", 1, PING)
    ring = [("s1", 3, "s2", 2), ("s2", 3, "s3", 2), ("s3", 3, "s1", 2)]
    at = ring.index(caught.value.loop[0])
    assert caught.value.loop == ring[at:] + ring[:at]
    assert "crossed 100 links" in str(caught.value) and "s1 port 3 to s2 port 2" in str(caught.value)
    # nothing of it is left
    network.cut("s3", 3)
    assert network.send("s2", 1, PING) == []


def test_a_storm_is_named(network):
    """Four switches that flood, each with a link to each other one: copies double at each link."""
    for name in ("s1", "s2", "s3", "s4"):
        network.add(name, ports=4)
    for one, port, other, its in [(1, 2, 2, 2), (1, 3, 3, 2), (1, 4, 4, 2), (2, 3, 3, 3), (2, 4, 4, 3), (3, 4, 4, 4)]:
        network.link(f"s{one}", port, f"s{other}", its)
    with_flows(network, messages.flow(messages.output(FLOOD)))
    with pytest.raises(Looped) as caught:
        network.send("s1", 1, PING)
    loop = caught.value.loop
    assert len(loop) >= 3
    assert all(one.to_switch == other.switch for one, other in zip(loop, loop[1:] + loop[:1]))


def test_a_way_without_a_loop_is_not_named_as_one(network):
    line(network, "s1", "s2", "s3")
    network.hops = 1
    with_flows(network, messages.flow(messages.output(3)))
    with pytest.raises(Looped, match="no frame crossed a link twice") as caught:
        network.send("s1", 1, PING)
    assert caught.value.loop == []


@pytest.mark.parametrize(
    "call",
    [
        lambda it: it.link("s1", 3, "s2", 9),
        lambda it: it.link("s1", 1, "s9", 1),
        lambda it: it.link("s1", 1, "s1", 1),
        lambda it: it.link("s1", 3, "s2", 1),
        lambda it: it.cut("s1", 1),
        lambda it: it.add("s1"),
    ],
)
def test_what_cannot_be_wired(network, call):
    with pytest.raises(ValueError):
        call(line(network, "s1", "s2"))


def test_ports_that_come_later_can_be_linked():
    with Network({"s1": 1, "s2": 0}) as network:
        network["s2"].port_add(7)
        network.link("s1", 1, "s2", 7)
        network["s2"].port_remove(7)
        with pytest.raises(ValueError):
            network.link("s2", 7, "s1", 1)


def test_one_application_over_three_switches(network, learning):
    line(network, "s1", "s2", "s3")
    with network.bridges(learning, timeout=30):
        network.until(lambda switch: "flow 0 0 " in switch.flows(), timeout=30)
        network.send("s1", 1, PING)
        hosts = {("s1", 2), ("s2", 1), ("s3", 1), ("s3", 3)}
        assert {(it.switch, it.port) for it in network.settle(1.0)} == hosts
        network.send("s3", 1, PONG)
        assert network.settle(1.0) == [Arrived("s1", 1, PONG)]
        network.send("s1", 1, PING)
        assert network.settle(1.0) == [Arrived("s3", 1, PING)]
        # the flows have both ways now: no controller is waited for
        assert network.send("s3", 1, PONG) == [Arrived("s1", 1, PONG)]
        assert network.send("s1", 1, PING) == [Arrived("s3", 1, PING)]
        network.cut("s2", 3)
        assert network.send("s1", 1, PING) == []


def test_a_ring_by_way_of_an_application(network, learning):
    line(network, "s1", "s2", "s3")
    network.link("s3", 3, "s1", 2)
    network.hops = 40
    with network.bridges(learning, timeout=30):
        network.until(lambda switch: "flow 0 0 " in switch.flows(), timeout=30)
        network.send("s1", 1, b"\xff" * 6 + A + b"\x88\xb5who")
        with pytest.raises(Looped, match="goes round") as caught:
            network.settle(1.0, timeout=60)
    assert len(caught.value.loop) == 3


def test_a_controller_of_its_own_for_each_switch(network):
    """Two controllers that the test plays, over TCP."""
    line(network, "s1", "s2")
    with network.bridges() as bridges:
        flow = messages.flow(messages.output(3), in_port=1) + messages.flow(messages.output(1), in_port=2)
        streams = [socket.create_connection(it.address) for it in bridges.values()]
        for stream in streams:
            stream.sendall(messages.HELLO + flow)
        network.until(lambda switch: switch.flows().count("flow ") == 2)
        assert all(it.is_ready for it in bridges.values())
        assert network.send("s1", 1, PING) == [Arrived("s2", 1, PING)]
        streams[0].sendall(messages.packet_out(PONG, messages.output(3)))
        bridges["s1"].sent()
        assert network.settle(1.0) == [Arrived("s2", 1, PONG)]
        for stream in streams:
            stream.close()


def test_settle_carries_what_came_meanwhile(network, monkeypatch):
    """A frame that leaves while `settle` looks whether it is quiet, as because of a controller's message."""
    line(network, "s1", "s2")
    with_flows(network, messages.flow(messages.output(3), in_port=1), messages.flow(messages.output(1), in_port=2))
    carry, frames = network._carry, [PING]

    def carry_and_then(hops):
        left = carry(hops)
        if frames:
            network["s1"].frame(1, frames.pop())
        return left

    monkeypatch.setattr(network, "_carry", carry_and_then)
    assert network.settle() == [Arrived("s2", 1, PING)]


def test_hops_are_counted_until_it_is_quiet(network, monkeypatch):
    """Each time that `settle` looks, another frame is on its way, as in a loop of which a controller is a part."""
    line(network, "s1", "s2")
    with_flows(network, messages.flow(messages.output(3), in_port=1))
    network.hops = 5
    carry, frames = network._carry, [PING] * 20

    def carry_and_then(hops):
        left = carry(hops)
        if frames:
            network["s1"].frame(1, frames.pop())
        return left

    monkeypatch.setattr(network, "_carry", carry_and_then)
    with pytest.raises(Looped):
        network.settle()
    assert len(frames) > 10


def test_a_ring_that_changes_frames_is_named(network):
    """Each switch adds a tag, so the same bytes never come twice: the frame that is carried has the way."""
    line(network, "s1", "s2", "s3")
    network.link("s3", 3, "s1", 2)
    # PUSH_VLAN (OpenFlow 1.3.5, 7.2.5): type 17, 8 bytes
    push = bytes.fromhex("0011000881000000")
    with_flows(network, messages.flow(push, messages.output(3)))
    network.hops = 50
    with pytest.raises(Looped) as caught:
        network.send("s1", 1, PING)
    assert {*caught.value.loop} == {("s1", 3, "s2", 2), ("s2", 3, "s3", 2), ("s3", 3, "s1", 2)}


def test_a_trace_follows_copies_in_their_order(network):
    """FLOOD sends by port 2 and then by port 3, and each copy is followed to its end before the next one."""
    for name in ("s1", "s2", "s3", "s4"):
        network.add(name, ports=3)
        network[name].import_("actions=FLOOD")
    network.link("s1", 2, "s2", 1)
    network.link("s2", 2, "s3", 1)
    network.link("s1", 3, "s4", 1)
    assert [it.switch for it in network.trace("s1", 1, PING).hops] == ["s1", "s2", "s3", "s4"]


def test_each_port_has_an_address_of_its_own(network):
    """Also of switches and ports whose numbers differ in high bits: 24 bits of a datapath_id and 16 of a port are in it."""
    for bit in range(24):
        network.add(f"s{bit}", ports=[1], dpid=1 << bit)
    network.add("many", ports=[1 << bit for bit in range(16)], dpid=3)
    rows = [row.split() for switch in network.switches.values() for row in switch.log.splitlines()]
    addresses = [row[3] for row in rows if row[:2] == ["port", "add"]]
    assert len(addresses) == 40 == len({*addresses})


def test_a_failure_names_the_switches(pytester, pytestconfig):
    plugin = [] if pytestconfig.pluginmanager.has_plugin("ofswitch") else ["-p", "ofswitch.pytest_plugin"]
    pytester.makepyfile("def test_that_fails(network): network.add('left', 1), network.add('right/2', 1); assert False")
    result = pytester.runpytest("-p", "no:cacheprovider", *plugin)
    result.stdout.fnmatch_lines(["*rows of switch left,*", "*switch-left.events", "*rows of switch right/2,*", "*--dpid 2*switch-right_2.events"])
