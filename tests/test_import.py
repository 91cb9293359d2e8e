"""Lines that ovs-ofctl reads as the same flow, or refuses, with the help for them; names of ports, and the lines from which entries come."""
import json
import tempfile

from tests.program import Case, fed, read, rows
from tests.test_texts import CASE


# lines, and what `ovs-ofctl -O OpenFlow13 parse-flows` of version 3.1 makes of them: both are the same flow
SAME = """\
action=output:2 | actions=output:2
ip6,actions=1 | ipv6 actions=output:1
ipv4,nw_dst=10.0.0.1,actions=1 | ip,nw_dst=10.0.0.1 actions=output:1
actions=Flood | actions=FLOOD
actions=OUTPUT:1,Goto_Table:3 | actions=output:1,goto_table:3
actions=output(2) | actions=output:2
actions=controller(max_len=128,id=0) | actions=CONTROLLER:128
actions=controller(reason=action) | actions=CONTROLLER:65535
actions=Controller:64 | actions=CONTROLLER:64
actions= | actions=drop
dl_vlan=5,actions=strip_vlan,mod_vlan_vid:7,output:2 | dl_vlan=5 actions=pop_vlan,push_vlan:0x8100,set_field:4103->vlan_vid,output:2
actions=mod_vlan_vid:7,write_actions(mod_vlan_vid:8,output:2) | actions=push_vlan:0x8100,set_field:4103->vlan_vid,write_actions(set_field:4104->vlan_vid,output:2)
actions=write_actions(mod_vlan_vid:7,mod_vlan_pcp:2) | actions=write_actions(push_vlan:0x8100,set_field:4103->vlan_vid,set_field:2->vlan_pcp)
dl_vlan_pcp=3,dl_vlan=5,actions=mod_vlan_vid:7,2 | dl_vlan=5,dl_vlan_pcp=3 actions=set_field:4103->vlan_vid,output:2
dl_vlan=0xffff,dl_vlan_pcp=3,actions=2 | dl_vlan=0,dl_vlan_pcp=3 actions=output:2
vlan_tci=0x7000/0xf000,actions=2 | dl_vlan_pcp=3 actions=output:2
actions=push_vlan:0x8100,push_vlan:0x8100,strip_vlan,mod_vlan_vid:7 | actions=push_vlan:0x8100,push_vlan:0x8100,pop_vlan,set_field:4103->vlan_vid
actions=push_vlan:0x8100,set_field:4103->vlan_vid,pop_vlan,mod_vlan_vid:3,1 | actions=push_vlan:0x8100,set_field:4103->vlan_vid,pop_vlan,push_vlan:0x8100,set_field:4099->vlan_vid,output:1
actions=mod_vlan_vid:7,mod_vlan_pcp:3,2 | actions=push_vlan:0x8100,set_field:4103->vlan_vid,set_field:3->vlan_pcp,output:2
actions=clear_actions,write_actions(output:2),write_metadata:1/3,goto_table:2 | actions=clear_actions,write_actions(output:2),write_metadata:0x1/0x3,goto_table:2
tp_dst=80,tcp,actions=drop | tcp,tp_dst=80 actions=drop
tcp,tp_dst=80,udp,actions=drop | udp,tp_dst=80 actions=drop
tp_dst=80,tcp_dst=81,tcp,actions=drop | tcp,tp_dst=81 actions=drop
nw_src=10.0.0.1,arp,actions=drop | arp,arp_spa=10.0.0.1 actions=drop
nw_proto=6,icmp,actions=drop | icmp actions=drop
tp_src=3,tp_dst=1,icmp,actions=drop | icmp,icmp_type=3,icmp_code=1 actions=drop
icmp_type=8,icmp6,actions=drop | icmp6,icmp_type=8 actions=drop
ip,dl_type=0x86dd,actions=drop | ipv6 actions=drop
nw_dst=10.0.0.1,priority=5,ip,nw_src=1.1.1.1,actions=output:3 | priority=5,ip,nw_src=1.1.1.1,nw_dst=10.0.0.1 actions=output:3
"""

# lines that it refuses, and the word that is refused here
REFUSED = """\
actions=drop,1 | 1
actions=1,drop | drop
actions=drop,goto_table:2 | goto_table:2
actions=goto_table:3,output:2 | output:2
actions=write_actions(output:2),clear_actions | clear_actions
actions=goto_table:3,goto_table:4 | goto_table:4
actions=write_actions(output:1),write_actions(output:2) | write_actions(output:2)
actions=clear_actions,clear_actions | clear_actions
actions=write_metadata:1,output:1 | output:1
actions=write_actions(drop,1) | write_actions(drop,1)
actions=write_actions(goto_table:2) | write_actions(goto_table:2)
delete in_port=1 | delete
normal | normal
"""

# in the case of texts.txt whose lines are at fault: of each line the first word that is refused, and why, and the action that is left out
FAULTS = [
    (2, "ct(table=1)", "not supported by this switch, or not an ovs-ofctl keyword"),
    (3, "nw_src=10.0.0.300", "invalid value"),
    (4, "output:eth0", "ports must be numbers: dump with --no-names, or give their names with --port-names"),
    (5, "tp_src=80", "needs tcp, udp, icmp or icmp6"),
    (6, "actions", "missing"),
    (8, "group_id", "a group with this number already exists"),
    (9, "nw_dst", "needs ip"),
    (11, "table=60", "this switch has tables 0 to 15; --renumber gives them numbers"),
]
NORMAL = (12, "NORMAL", "not supported by this switch, or not an ovs-ofctl keyword")


def imported(text, *options):
    return json.loads(fed(text, "import", "--json", *options, "-").out)


def first_words(document):
    return [(it["line"], it["words"][0]["word"], it["words"][0]["why"]) for it in document["faults"]]


# a flow takes the place of an older one, and is the youngest then
REPLACED = """\
priority=1,actions=1
 cookie=0x0, duration=5.2s, table=2, n_packets=0, n_bytes=0, priority=1 actions=1

priority=2,actions=1
priority=1,actions=2
"""


# a word that is refused, and the help with it: the nearest keyword, the values of its keyword, or a word that is missing; none for a word of ovs-ofctl
# that this switch does not support, and for one that is near no keyword
HELP = """\
priorty=5,actions=drop | priorty=5 | did you mean priority?
prioirty=5,actions=drop | prioirty=5 | did you mean priority?
ouput:2,actions=drop | ouput:2 | did you mean output?
actions=outptu:2 | outptu:2 | did you mean output?
dl_vlna_pcp=5,actions=drop | dl_vlna_pcp=5 | did you mean dl_vlan_pcp?
idel_timout=5,actions=drop | idel_timout=5 | did you mean idle_timeout?
icmpp,actions=drop | icmpp | did you mean icmp?
actions=set_field:1->vlan_vdi | set_field:1->vlan_vdi | did you mean vlan_vid?
group_id=1,type=all,bucket=wieght:5,output:1 | wieght:5 | did you mean weight?
tun_src=10.0.0.1,actions=drop | tun_src=10.0.0.1 |
actions=ct(commit) | ct(commit) |
actions=NORMAL | NORMAL |
foobar=5,actions=drop | foobar=5 |
dl_vlan=1,dl_vlan_pcp=8,actions=drop | dl_vlan_pcp=8 | 0 to 7
priority=65536,actions=drop | priority=65536 | 0 to 65535
ip,nw_tos=3,actions=drop | nw_tos=3 | a multiple of 4, 0 to 252
ip,nw_src=10.0.0.0/33,actions=drop | nw_src=10.0.0.0/33 | such as 10.0.0.0, with or without /0 to /32 or a mask
in_port=65280,actions=drop | in_port=65280 | 1 to 65279, or the name of a reserved port
dl_vlan=1,actions=set_field:8->vlan_pcp | set_field:8->vlan_pcp | 0 to 7
group_id=1,type=all,bucket=weight:65536 | weight:65536 | 0 to 65535
tp_dst=80,actions=drop | tp_dst=80 | write tcp,tp_dst=..
nw_dst=10.0.0.1,actions=drop | nw_dst | write ip,nw_dst=..
"""


# what `ovs-ofctl dump-ports-desc` prints, with a name that has a space and a comma
PORT_LIST = """\
OFPST_PORT_DESC reply (OF1.3) (xid=0x2):
 1(s1-eth1): addr:aa:bb:cc:dd:ee:01
     config:     0
     speed: 0 Mbps now, 0 Mbps max
 2(eth2): addr:aa:bb:cc:dd:ee:02
 3(a b,c): addr:aa:bb:cc:dd:ee:03
 4(7): addr:aa:bb:cc:dd:ee:04
 LOCAL(s1): addr:aa:bb:cc:dd:ee:05
"""

# lines with names of ports, and lines that say the same in numbers
NAMED = """\
in_port="s1-eth1",actions=output:"eth2" | in_port=1,actions=output:2
in_port=s1-eth1,actions=output:eth2,output:s1-eth1 | in_port=1,actions=output:2,output:1
in_port=eth2 actions=write_actions(output:"s1-eth1"),goto_table:2 | in_port=2 actions=write_actions(output:1),goto_table:2
actions=output:"a b,c",output:7,output:"7" | actions=output:3,output:7,output:4
group_id=1,type=ff,bucket=watch_port:"s1-eth1",actions=output:"s1-eth1" | group_id=1,type=ff,bucket=watch_port:1,actions=output:1
actions=IN_PORT,output:controller | actions=IN_PORT,output:controller
"""


class Import(Case):
    def test_ovs_lines(self):
        for line, other in rows(SAME):
            one, two = imported(line), imported(other)
            self.same(f"import of {line}", (one["imported"], one.get("text")), (True, two.get("text")))
        for line, word in rows(REFUSED):
            self.same(f"import of {line}", [it[1] for it in first_words(imported(line))], [word])

    def test_faults(self):
        [text] = [it[2] for it in CASE.findall(read("tests/texts.txt")) if it[0] == "import --skip -"]
        self.same("faults", first_words(imported(text)), [*FAULTS, NORMAL])
        part = imported(text, "--skip")
        self.same("faults that are left out", first_words(part), FAULTS)
        lost = [it["line"] for it in part["flows"] if it["without"]]
        self.same("what else is left out", ([it["line"] for it in part["refused"]], lost, part["left_out"]), ([10], [12], 10))

    def test_helps(self):
        """JSON and standard error have the same help; standard error has 20 lines that are refused, their number beyond these, and how often each word is."""
        for row in HELP.splitlines():
            line, word, wanted = (it.strip() for it in row.split(" |"))
            fault = imported(line)["faults"][0]["words"][0]
            self.same(f"the help with {word}", (fault["word"], fault.get("help", "")), (word, wanted))
            said = fed(line, "import", "-").err.splitlines()[0]
            self.same(f"the line about {word}", said, ": ".join(it for it in ("line 1", word, fault["why"], wanted) if it))
        said = fed("vlan=1,actions=drop\n" * 23, "import", "-").err.splitlines()
        # the first five are shown, with a mark
        shown = ["  vlan=1,actions=drop", "  ^^^^^^"]
        wanted = []
        for it in range(1, 21):
            wanted += [f"line {it}: vlan=1: not supported by this switch, or not an ovs-ofctl keyword", *(shown if it <= 5 else [])]
        self.same("many lines that are refused", said, [*wanted, "and 3 more", "vlan: 23 lines"])
        said = fed("\x1b[31m=1,actions=drop\n", "import", "-").err.splitlines()
        shown = ["  ?[31m=1,actions=drop", "  ^^^^^^^"]
        self.same("a control character", said, ["line 1: ?[31m=1: not supported by this switch, or not an ovs-ofctl keyword", *shown])

    def test_port_names(self):
        with tempfile.NamedTemporaryFile("w") as file:
            file.write(PORT_LIST)
            file.flush()
            for line, other in rows(NAMED):
                one, two = imported(line, "--port-names", file.name), imported(other)
                self.same(f"import of {line}", (one["imported"], one.get("text")), (True, two.get("text")))
            for line, word in (("\nactions=output:eth1", "output:eth1"), ('\nin_port="s1",actions=drop', "in_port=LOCAL")):
                self.same(f"import of {line}", [it[:2] for it in first_words(imported(line, "--port-names", file.name))], [(2, word)])
            for command in ("check", "paths"):
                named, numbered = (fed(it, command, "--port-names", file.name, "-") for it in ("in_port=eth2,actions=output:s1-eth1", "in_port=2,actions=output:1"))
                self.same(f"{command} of names of ports", (named.status, named.out), (numbered.status, numbered.out))
        done = fed("actions=drop", "import", "--port-names", "/no/file", "-")
        self.same("names of ports in no file", (done.status, done.err), (1, "bad --port-names: cannot read /no/file\n"))

    def test_origins(self):
        """The lines and the counters of a dump from which the entries of a switch come."""
        flows = json.loads(fed(REPLACED, "check", "--json", "--ovs", "-").out)["flows"]
        found = [(it["table"], it["entry"], it["line"], it.get("counters")) for it in flows]
        counters = {"duration": "5.2s", "n_packets": "0", "n_bytes": "0"}
        self.same("lines of entries", found, [(0, 0, 4, None), (0, 1, 5, None), (2, 0, 2, counters)])
