"""Controllers under test: message classes of os-ken, frames of scapy, and no network."""

import pytest

from ofswitch import Answer, Sent

of = pytest.importorskip("os_ken.ofproto.ofproto_v1_3")
from os_ken.lib.packet import ethernet, ipv4, packet  # noqa: E402
from os_ken.ofproto import ofproto_parser  # noqa: E402
from os_ken.ofproto import ofproto_v1_3_parser as parser  # noqa: E402

scapy = pytest.importorskip("scapy.all")

A, B = "02:00:00:00:00:0a", "02:00:00:00:00:0b"
ROUTER = "02:00:00:00:00:fe"
SECOND = 1_000_000_000


class Datapath:
    """What the message classes of os-ken need from a datapath."""

    ofproto, ofproto_parser, id = of, parser, 1

    def __init__(self, switch):
        self.switch = switch
        self.xid = 0
        # of the messages that were sent
        self.effects = []

    def send_msg(self, message):
        self.xid += 1
        message.set_xid(self.xid)
        self.effects += self.switch.feed(message)

    def taken(self):
        effects, self.effects = self.effects, []
        return effects

    def parsed(self, answer):
        version, kind, size, xid = ofproto_parser.header(bytes(answer))
        return ofproto_parser.msg(self, version, kind, size, xid, bytes(answer))


def started(switch, ports):
    for number in range(1, ports + 1):
        assert switch.port_add(number) == []
    datapath = Datapath(switch)
    [hello] = switch.connect()
    assert datapath.parsed(hello).version == of.OFP_VERSION
    datapath.send_msg(parser.OFPHello(datapath))
    assert datapath.taken() == []
    return datapath


def apply(*actions):
    return parser.OFPInstructionActions(of.OFPIT_APPLY_ACTIONS, list(actions))


class Learning:
    """The controller under test: os-ken's simple_switch_13."""

    def __init__(self, datapath):
        self.datapath = datapath
        self.ports = {}
        to_controller = parser.OFPActionOutput(of.OFPP_CONTROLLER, of.OFPCML_NO_BUFFER)
        self.add(0, parser.OFPMatch(), to_controller)

    def add(self, priority, match, *actions):
        self.datapath.send_msg(parser.OFPFlowMod(self.datapath, priority=priority, match=match, instructions=[apply(*actions)]))

    def packet_in(self, message):
        eth = packet.Packet(message.data).get_protocol(ethernet.ethernet)
        in_port = message.match["in_port"]
        self.ports[eth.src] = in_port
        out = self.ports.get(eth.dst, of.OFPP_FLOOD)
        action = parser.OFPActionOutput(out)
        if out != of.OFPP_FLOOD:
            self.add(1, parser.OFPMatch(in_port=in_port, eth_dst=eth.dst, eth_src=eth.src), action)
        self.datapath.send_msg(
            parser.OFPPacketOut(
                self.datapath, buffer_id=of.OFP_NO_BUFFER, in_port=in_port, actions=[action], data=message.data
            )
        )

    def receive(self, port, frame):
        """A frame comes in, and the controller handles what follows. The ports by which frames leave."""
        effects = self.datapath.switch.frame(port, frame)
        for effect in effects:
            if isinstance(effect, Answer):
                self.packet_in(self.datapath.parsed(effect))
        effects = [*effects, *self.datapath.taken()]
        return sorted(effect.port for effect in effects if isinstance(effect, Sent))


def test_a_learning_switch(switch):
    controller = Learning(started(switch, ports=3))
    broadcast = scapy.Ether(src=A, dst="ff:ff:ff:ff:ff:ff") / scapy.ARP()
    answer = scapy.Ether(src=B, dst=A) / scapy.IP() / scapy.ICMP()
    assert controller.receive(1, broadcast) == [2, 3]
    assert controller.receive(2, answer) == [1]
    # the controller is not asked again
    assert switch.frame(2, answer) == [Sent(1, bytes(answer))]
    assert "to the controller" not in switch.trace(2, answer)
    assert switch.flows().count("flow ") == 2


class LearningById(Learning):
    """It asks for 64 bytes of a frame, and sends the frame on by its buffer id."""

    def __init__(self, datapath):
        self.datapath = datapath
        self.ports = {}
        self.add(0, parser.OFPMatch(), parser.OFPActionOutput(of.OFPP_CONTROLLER, 64))

    def packet_in(self, message):
        eth = packet.Packet(message.data).get_protocol(ethernet.ethernet)
        in_port = message.match["in_port"]
        self.ports[eth.src] = in_port
        out = self.ports.get(eth.dst)
        if out is None:
            actions = [parser.OFPActionOutput(of.OFPP_FLOOD)]
            self.datapath.send_msg(parser.OFPPacketOut(self.datapath, message.buffer_id, in_port, actions))
        else:
            match = parser.OFPMatch(in_port=in_port, eth_dst=eth.dst, eth_src=eth.src)
            learned = [apply(parser.OFPActionOutput(out))]
            self.datapath.send_msg(
                parser.OFPFlowMod(self.datapath, priority=1, buffer_id=message.buffer_id, match=match, instructions=learned)
            )


def test_a_learning_switch_by_buffer_ids(switch):
    controller = LearningById(started(switch, ports=3))
    broadcast = scapy.Ether(src=A, dst="ff:ff:ff:ff:ff:ff") / scapy.Raw(bytes(200))
    answer = scapy.Ether(src=B, dst=A) / scapy.Raw(bytes(300))
    assert controller.receive(1, broadcast) == [2, 3]
    # the flow is added, and the frame that it was made for leaves by it
    assert controller.receive(2, answer) == [1]
    assert switch.frame(2, answer) == [Sent(1, bytes(answer))]


def test_a_held_frame_serves_once(switch):
    datapath = started(switch, ports=2)
    to_controller = parser.OFPActionOutput(of.OFPP_CONTROLLER, 20)
    datapath.send_msg(parser.OFPFlowMod(datapath, instructions=[apply(to_controller)]))
    frame = bytes(scapy.Ether(src=A, dst=B) / scapy.Raw(bytes(range(100))))
    [answer] = switch.frame(1, frame)
    packet_in = datapath.parsed(answer)
    assert (packet_in.buffer_id, packet_in.total_len, packet_in.data) == (1, len(frame), frame[:20])
    for _ in range(2):
        datapath.send_msg(parser.OFPPacketOut(datapath, 1, of.OFPP_CONTROLLER, [parser.OFPActionOutput(2)]))
    sent, refused = datapath.taken()
    assert sent == Sent(2, frame)
    error = datapath.parsed(refused)
    assert (error.type, error.code) == (of.OFPET_BAD_REQUEST, of.OFPBRC_BUFFER_UNKNOWN)


def test_a_frame_of_os_ken(switch):
    datapath = started(switch, ports=2)
    datapath.send_msg(parser.OFPFlowMod(datapath, instructions=[apply(parser.OFPActionOutput(2))]))
    frame = packet.Packet()
    frame.add_protocol(ethernet.ethernet(dst=B, src=A, ethertype=0x0800))
    frame.add_protocol(ipv4.ipv4(dst="10.0.0.2", src="10.0.0.1", proto=1))
    [sent] = switch.frame(1, frame)
    assert packet.Packet(sent.frame).get_protocol(ipv4.ipv4).dst == "10.0.0.2"


class Router:
    """The controller under test: a router between 10.0.1.0/24 at port 1 and 10.0.2.0/24 at port 2."""

    def __init__(self, datapath):
        self.datapath = datapath
        self.expired = []
        self.add(0, 0, parser.OFPMatch(eth_dst=ROUTER, eth_type=0x0800), parser.OFPInstructionGotoTable(1))
        for port, host in ((1, A), (2, B)):
            match = parser.OFPMatch(eth_type=0x0800, ipv4_dst=(f"10.0.{port}.0", "255.255.255.0"))
            hop = [
                parser.OFPActionDecNwTtl(),
                parser.OFPActionSetField(eth_src=ROUTER),
                parser.OFPActionSetField(eth_dst=host),
                parser.OFPActionOutput(port),
            ]
            self.add(1, 24, match, apply(*hop))

    def add(self, table, priority, match, *instructions):
        message = parser.OFPFlowMod(
            self.datapath, table_id=table, priority=priority, match=match, instructions=list(instructions)
        )
        self.datapath.send_msg(message)


def test_a_router(switch):
    Router(started(switch, ports=2))
    for port, host, address, seen in ((1, A, "10.0.2.9", 2), (2, B, "10.0.1.9", 1)):
        frame = scapy.Ether(src=host, dst=ROUTER) / scapy.IP(dst=address, ttl=64) / scapy.UDP(dport=53) / b"query"
        [sent] = switch.frame(port, frame)
        assert sent.port == seen
        routed = scapy.Ether(sent.frame)
        assert (routed.src, routed.dst, routed.ttl) == (ROUTER, {2: B, 1: A}[seen], 63)
        # scapy's checksums, computed anew
        again = scapy.Ether(sent.frame)
        del again[scapy.IP].chksum, again[scapy.UDP].chksum
        assert bytes(again) == sent.frame
    assert switch.frame(1, scapy.Ether(src=A, dst=ROUTER) / scapy.IP(dst="10.9.9.9")) == []
    assert switch.frame(1, scapy.Ether(src=A, dst=B) / scapy.IP(dst="10.0.2.9")) == []


def test_an_expired_ttl(switch):
    """The router's controller gets the packet, with the reason, and nothing leaves."""
    router = Router(started(switch, ports=2))
    frame = scapy.Ether(src=A, dst=ROUTER) / scapy.IP(dst="10.0.2.9", ttl=1) / scapy.ICMP()
    [answer] = switch.frame(1, frame)
    message = router.datapath.parsed(answer)
    assert message.reason == of.OFPR_INVALID_TTL
    assert scapy.Ether(message.data)[scapy.IP].dst == "10.0.2.9"


def test_a_failover_group(switch):
    datapath = started(switch, ports=3)
    buckets = [parser.OFPBucket(watch_port=port, actions=[parser.OFPActionOutput(port)]) for port in (2, 3)]
    datapath.send_msg(parser.OFPGroupMod(datapath, of.OFPGC_ADD, of.OFPGT_FF, 1, buckets))
    datapath.send_msg(parser.OFPFlowMod(datapath, instructions=[apply(parser.OFPActionGroup(1))]))
    frame = bytes(scapy.Ether(src=A, dst=B) / scapy.IP())
    assert switch.frame(1, frame) == [Sent(2, frame)]
    [status] = switch.port_link(2, up=False)
    assert datapath.parsed(status).desc.state == of.OFPPS_LINK_DOWN
    assert switch.frame(1, frame) == [Sent(3, frame)]


def test_a_flow_expires_to_the_nanosecond(switch):
    datapath = started(switch, ports=2)
    datapath.send_msg(
        parser.OFPFlowMod(
            datapath, hard_timeout=10, flags=of.OFPFF_SEND_FLOW_REM, instructions=[apply(parser.OFPActionOutput(2))]
        )
    )
    assert switch.at(10 * SECOND - 1) == []
    [gone] = switch.at(10 * SECOND)
    assert datapath.parsed(gone).reason == of.OFPRR_HARD_TIMEOUT


def test_errors_by_name(switch):
    datapath = started(switch, ports=1)
    datapath.send_msg(parser.OFPFlowMod(datapath, table_id=16, instructions=[]))
    datapath.send_msg(parser.OFPFlowMod(datapath, instructions=[apply(parser.OFPActionGroup(7))]))
    errors = [datapath.parsed(answer) for answer in datapath.taken()]
    assert [(error.type, error.code) for error in errors] == [
        (of.OFPET_FLOW_MOD_FAILED, of.OFPFMFC_BAD_TABLE_ID),
        (of.OFPET_BAD_ACTION, of.OFPBAC_BAD_OUT_GROUP),
    ]


def test_ports_by_name(switch):
    datapath = started(switch, ports=0)
    switch.port_add(7, hw="02:00:00:00:00:77", name="uplink")
    datapath.taken()
    datapath.send_msg(parser.OFPPortDescStatsRequest(datapath))
    [answer] = datapath.taken()
    [port] = datapath.parsed(answer).body
    assert (port.port_no, port.hw_addr, port.name) == (7, "02:00:00:00:00:77", b"uplink")
