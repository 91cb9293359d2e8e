"""Names of reasons, roles and ports; frames and messages in words."""
import json
import re

from tests.program import Case, fed, rows

ONE_FLOW = "flow 0 0 0x0000000000000000 0 0 0\n"


# what is before a name, the names of OpenFlow 1.3.5 (7.4.1, 7.4.2, 7.4.3, 7.3.9) in the order of their numbers, from 0, and a message with the number
NAMES = [
    ("reason", "NO_MATCH ACTION INVALID_TTL", "040a002800000000ffffffff000e%02x02000000000000000500010004000000000000" + "00" * 6),
    ("reason", "IDLE_TIMEOUT HARD_TIMEOUT DELETE GROUP_DELETE", "040b003800000001" + "00" * 8 + "000a%02x" + "00" * 29 + "0001000400000000"),
    ("reason", "ADD DELETE MODIFY", "040c005000000000%02x" + "00" * 71),
    ("ROLE_REQUEST xid 1", "NOCHANGE EQUAL MASTER SLAVE", "0418001800000001000000%02x" + "00" * 12),
]
# the reserved ports to which a flow may send (7.2.1)
PORTS = {"in_port": 0xFFFFFFF8, "flood": 0xFFFFFFFB, "all": 0xFFFFFFFC, "controller": 0xFFFFFFFD}

# words, and the frame that they say: the port, and its bytes, which a program of its own made from RFC 791, 768, 792, 826, 4443, 8200 and 9293
FRAMES = """\
in_port=3 | 3 0000000000000000000000000000
dl_dst=02:00:00:00:00:02,dl_src=02:00:00:00:00:01,dl_type=0x88b5 | 7 02000000000202000000000188b5
dl_vlan=5,dl_vlan_pcp=3,dl_type=0x88b5 | 7 0000000000000000000000008100600588b5
arp,arp_op=2,arp_sha=02:00:00:00:00:01,arp_spa=10.0.0.1,arp_tha=02:00:00:00:00:02,arp_tpa=10.0.0.2 | 7 000000000000000000000000080600010800060400020200000000010a0000010200000000020a000002
ip nw_src=10.0.0.1 nw_dst=10.0.0.2 nw_tos=184 nw_ecn=1 | 7 000000000000000000000000080045b90014000000004000662f0a0000010a000002
sctp,nw_dst=255.255.255.255 | 7 0000000000000000000000000800450000140000000040847a6700000000ffffffff
tcp,nw_src=10.0.0.1,nw_dst=192.168.1.254,tp_src=40000,tp_dst=80 | 7 000000000000000000000000080045000028000000004006ae290a000001c0a801fe9c40005000000000000000005000000046ad0000
udp,in_port=2,nw_src=10.0.0.1,tp_dst=53 | 2 00000000000000000000000008004500001c00000000401170d10a00000100000000000000350008f5a8
icmp,nw_dst=10.0.0.2,icmp_type=8 | 7 00000000000000000000000008004500001c00000000400170e0000000000a0000020800f7ff00000000
dl_vlan=0xabc,ipv6,ipv6_src=2001:db8::1,ipv6_dst=ff02::1,ipv6_label=0x12345,nw_tos=40 | 7 00000000000000000000000081000abc86dd628123450000004020010db8000000000000000000000001ff020000000000000000000000000001
tcp6,ipv6_src=2001:db8::1,ipv6_dst=fe80::ffff:ffff:ffff:ffff,tcp_dst=443 | 7 00000000000000000000000086dd600000000014064020010db8000000000000000000000001fe80000000000000ffffffffffffffff000001bb00000000000000005000000081ef0000
udp6,ipv6_dst=2001:db8::2,udp_src=546,udp_dst=547 | 7 00000000000000000000000086dd60000000000811400000000000000000000000000000000020010db8000000000000000000000002022202230008cdde
icmp6,ipv6_src=fe80::1,ipv6_dst=ff02::1,icmpv6_type=135 | 7 00000000000000000000000086dd6000000000083a40fe800000000000000000000000000001ff02000000000000000000000000000187007b3700000000
udp,nw_src=10.0.0.1,nw_ttl=1 | 7 00000000000000000000000008004500001c000000000111afd10a00000100000000000000000008f5dd
nw_ttl=255,udp6,ipv6_dst=2001:db8::2,udp_src=546,udp_dst=547 | 7 00000000000000000000000086dd60000000000811ff0000000000000000000000000000000020010db8000000000000000000000002022202230008cdde
udp,nw_src=10.0.0.1,tp_src=62941 | 7 00000000000000000000000008004500001c00000000401170d10a00000100000000f5dd00000008ffff
"""

# words that say no frame, and why
NO_FRAMES = [
    ("tcp,nw_proto", "nw_proto: invalid value"),
    ("tcp,tp_dst=65536", "tp_dst=65536: invalid value"),
    ("tp_dst=80", "tp_dst=80: needs tcp or udp before it"),
    ("tcp,colour=3", "colour=3: not supported by this switch, or not an ovs-ofctl keyword"),
    ("nw_src=10.0.0.1", "nw_src: needs ip"),
    ("tcp,udp_src=5", "udp_src: needs udp or udp6"),
    ("vlan_vid=5", "dl_vlan: no frame has this value beside the other words"),
    ("ip,nw_dst=10.0.0.1,nw_dst=10.0.0.2", "nw_dst: no frame has this value beside the other words"),
    ("metadata=1", "metadata: no frame has this value beside the other words"),
    ("arp,nw_ttl=5", "nw_ttl=5: needs ip or ipv6"),
    ("ip,nw_ttl=256", "nw_ttl=256: invalid value"),
]
# words of matches, and the word that is refused
NO_MATCHES = [
    ("nw_dst=10.0.0.0/8", "nw_dst"),
    ("ip,nw_ttl=5", "nw_ttl=5"),
    ("dl_type=0x0800/0xff00", "dl_type"),
    ("tcp,tp_dst=80,icmp_type=3", "icmp_type"),
    ("ip,actions=drop", "actions=drop"),
]

# words, and the message that ovs-ofctl 3.1 sends for them; those of one line are by hand from OpenFlow 1.3.5 (7.1, 7.3.2 and 7.3.9)
MESSAGES = """\
hello | 0400000800000002
echo | 0402000800000002
features | 0405000800000002
get-config | 0407000800000002
barrier | 0414000800000002
role nochange | 041800180000000200000000000000000000000000000000
role master 5 | 041800180000000200000002000000000000000000000005
set-config miss_send_len=128 | 0409000c0000000200000080
flow priority=10,ip,actions=output:2 | 040e00580000000200000000000000000000000000000000000000000000000affffffffffffffffffffffff000000000001000a80000a020800000000000000000400180000000000000010000000020000000000000000
flow table=1,cookie=0x7,idle_timeout=5,hard_timeout=9,send_flow_rem,tcp,tp_dst=80,actions=dec_ttl,output:1 | 040e006800000002000000000000000700000000000000000100000500098000ffffffffffffffffffffffff000100000001001580000a020800800014010680001c0200500000000004002000000000001800080000000000000010000000010000000000000000
flow ip,nw_src=10.0.0.0/8,actions=output:1 | 040e006000000002000000000000000000000000000000000000000000008000ffffffffffffffffffffffff000000000001001680000a020800800017080a000000ff0000000000000400180000000000000010000000010000000000000000
flow in_port=1,dl_vlan=5,actions=pop_vlan,set_field:02:00:00:00:00:01->eth_dst,group:7 | 040e007000000002000000000000000000000000000000000000000000008000ffffffffffffffffffffffff0000000000010012800000040000000180000c02100500000000000000040028000000000012000800000000001900108000060602000000000100000016000800000007
flow actions=push_vlan:0x8100,set_field:4101->vlan_vid,write_actions(output:3),write_metadata:0x5/0xff,goto_table:2 | 040e009000000002000000000000000000000000000000000000000000008000ffffffffffffffffffffffff000000000001000400000000000400200000000000110008810000000019001080000c0210050000000000000003001800000000000000100000000300000000000000000002001800000000000000000000000500000000000000ff0001000802000000
flow ipv6,ipv6_dst=2001:db8::/32,actions=drop | 040e006000000002000000000000000000000000000000000000000000008000ffffffffffffffffffffffff000000000001002e80000a0286dd8000372020010db8000000000000000000000000ffffffff0000000000000000000000000000
flow modify ip,actions=output:CONTROLLER | 040e005800000002000000000000000000000000000000000001000000008000ffffffffffffffffffffffff000000000001000a80000a020800000000000000000400180000000000000010fffffffdffff000000000000
flow modify_strict priority=10,ip,actions=output:3 | 040e00580000000200000000000000000000000000000000000200000000000affffffffffffffffffffffff000000000001000a80000a020800000000000000000400180000000000000010000000030000000000000000
flow delete ip | 040e00400000000200000000000000000000000000000000ff03000000008000ffffffffffffffffffffffff000000000001000a80000a020800000000000000
flow delete table=3,arp | 040e004000000002000000000000000000000000000000000303000000008000ffffffffffffffffffffffff000000000001000a80000a020806000000000000
flow delete_strict table=0,priority=10,ip | 040e00400000000200000000000000000000000000000000000400000000000affffffffffffffffffffffff000000000001000a80000a020800000000000000
group group_id=1,type=all,bucket=output:1,bucket=output:2 | 040f005000000002000000000000000100200000ffffffffffffffff000000000000001000000001000000000000000000200000ffffffffffffffff0000000000000010000000020000000000000000
group group_id=4,type=ff,bucket=watch_port:1,actions=output:1,bucket=watch_port:2,output:2 | 040f00500000000200000300000000040020000000000001ffffffff00000000000000100000000100000000000000000020000000000002ffffffff0000000000000010000000020000000000000000
group group_id=9,type=indirect,bucket=group:1 | 040f002800000002000002000000000900180000ffffffffffffffff000000000016000800000001
group modify group_id=1,type=all,bucket=output:3 | 040f003000000002000100000000000100200000ffffffffffffffff0000000000000010000000030000000000000000
group delete group_id=1 | 040f0010000000020002000000000001
group delete all | 040f00100000000200020000fffffffc
packet-out in_port=controller,packet=02000000000202000000000188b5,actions=output:2,output:3 | 040d004600000002fffffffffffffffd0020000000000000000000100000000200000000000000000000001000000003000000000000000002000000000202000000000188b5
packet-out packet=02000000000202000000000188b5,in_port=2,actions=IN_PORT | 040d003600000002ffffffff00000002001000000000000000000010fffffff8000000000000000002000000000202000000000188b5
"""

# words that say no message, or one that the switch refuses whatever its state is
NO_MESSAGES = """\
bogus
hello x
role king
role slave x
set-config miss_send_len=70000
flow
flow ip,foo,actions=output:2
flow group_id=1,type=all
flow actions=output:0
flow table=3,actions=goto_table:2
flow actions=set_field:10.0.0.1->ip_dst
group ip,actions=drop
group group_id=4294967295,type=all
group group_id=1,type=all,bucket=output:0
group delete 5
packet-out in_port=1,actions=output:2
packet-out in_port=1,packet=0200,actions=output:2
packet-out in_port=1,packet=02x0,actions=output:2
packet-out ip,packet=02000000000202000000000188b5,actions=output:2
"""


# a condition on each field that a frame may have, with what it needs before it
CONDITIONS = """\
dl_dst=02:00:00:00:00:02
dl_src=02:00:00:00:00:03
dl_vlan=5
dl_vlan=0,dl_vlan_pcp=3
ip,ip_dscp=46
ip,nw_ecn=1
ip,nw_src=10.0.0.1
ip,nw_dst=10.0.0.2
tcp,tcp_src=1024
tcp,tcp_dst=80
udp,udp_src=68
udp,udp_dst=53
icmp,icmp_type=8
icmp,icmp_code=1
arp,arp_op=2
arp,arp_spa=10.0.0.3
arp,arp_tpa=10.0.0.4
arp,arp_sha=02:00:00:00:00:05
arp,arp_tha=02:00:00:00:00:06
ipv6,ipv6_src=2001:db8::1
ipv6,ipv6_dst=2001:db8::2
ipv6,ipv6_label=0x12345
icmp6,icmpv6_type=135
icmp6,icmpv6_code=4
"""


class Words(Case):
    def test_names(self):
        for before, listed, message in NAMES:
            for number, name in enumerate(listed.split(" ")):
                said = fed("", "say", message % number).out
                self.same(f"{before} {name} in {said!r}", f" {before} {name} " in f" {said}", True)
        for name, number in PORTS.items():
            said = fed(f"{ONE_FLOW}apply\noutput {number} 0\n", "trace", "--port", "1", "-", "dl_type=0x88b5").out
            self.same(f"output {name} in {said!r}", re.findall(r"^output (\w+)", said, re.M), [name])

    def test_frames(self):
        for words, frame in rows(FRAMES):
            port = [] if "in_port=" in words else ["--port", "7"]
            done = fed(ONE_FLOW, "trace", "--json", "--flows", "-", *port, words)
            found = json.loads(done.out) if done.out else {}
            self.same(f"the frame {words}", f"{found.get('in_port')} {found.get('frame')}", frame)
            done = fed("", "say", "--hex", "frame", *words.split())
            self.same(f"say --hex frame {words}", (done.status, done.out), (0, f"{frame.split()[1]}\n"))
        for words, why in NO_FRAMES:
            done = fed(ONE_FLOW, "trace", "--flows", "-", "--port", "7", words)
            # help may be behind the reason
            said = done.err[: len(why) + 11]
            self.same(f"the frame {words}", (done.status, said), (1, f"bad frame: {why}"))
        for words, word in NO_MATCHES:
            done = fed(ONE_FLOW, "paths", "--match", words, "-")
            self.same(f"the match {words}", (done.status, done.err.split(": ")[:2]), (2, ["bad match", word]))

    def test_messages(self):
        for said, message in rows(MESSAGES):
            done = fed("", "say", "--hex", *said.split(" "))
            # the transaction id is that of the program
            found = done.out.strip()
            self.same(f"the message {said}", found[:8] + found[16:], message[:8] + message[16:])
        for said in NO_MESSAGES.splitlines():
            done = fed("", "say", "--hex", *said.split(" "))
            self.same(f"the message {said}", (done.status in (1, 2), done.out), (True, ""))

    def test_printed_frames(self):
        """A frame that hits a flow has, in words, the conditions of that flow."""
        table = "".join(f"{line},actions=drop\n" for line in CONDITIONS.splitlines())
        flows = json.loads(fed(table, "check", "--json", "--ovs", "-").out).get("flows", [])
        self.same("flows with a condition", len(flows), len(CONDITIONS.splitlines()))
        for flow, line in zip(flows, CONDITIONS.splitlines()):
            words = flow.get("words", "").split(",")
            self.same(f"the words of a frame with {line}: {words}", {*line.split(",")} <= {*words}, True)
