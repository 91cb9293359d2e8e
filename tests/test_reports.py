"""Rows of tables: values in words (`check`), changes of an action (`diff`), and requirements that are refused, or as results of tests."""
import tempfile
import unittest
import xml.etree.ElementTree as ElementTree

from tests.program import EXAMPLES, ofswitch, rows

# matches of flow text, and their words
VALUES = """\
in_port 0x00000007 | in_port 7
in_port 0xfffffffd | in_port controller
metadata 0x0000000000000007 0x000000000000000f | metadata 0x7/0xf
eth_dst 0x0200000000a1 | eth_dst 02:00:00:00:00:a1
eth_src 0x010000000000 0x010000000000 | eth_src 01:00:00:00:00:00/01:00:00:00:00:00
eth_type 0x88b5 | eth_type 0x88b5
vlan_vid 0x0000 | vlan_vid none
vlan_vid 0x1000 0x1000 | vlan_vid present
vlan_vid 0x1064 | vlan_vid 100
vlan_vid 0x0064 0x0fff | vlan_vid 0x0064/0x0fff
eth_type 0x0800 & ipv4_src 0x0a000000 0xff000000 | eth_type 0x0800, ipv4_src 10.0.0.0/8
eth_type 0x0800 & ipv4_dst 0x0a000001 0xff0000ff | eth_type 0x0800, ipv4_dst 10.0.0.1/255.0.0.255
eth_type 0x0800 & ip_dscp 0x2e | eth_type 0x0800, ip_dscp 46
eth_type 0x0806 & arp_spa 0xc0a80101 | eth_type 0x0806, arp_spa 192.168.1.1
eth_type 0x0806 & arp_tha 0xffffffffffff | eth_type 0x0806, arp_tha ff:ff:ff:ff:ff:ff
eth_type 0x86dd & ipv6_src 0xfe800000000000000000000000000000 0xffc00000000000000000000000000000 | eth_type 0x86dd, ipv6_src fe80::/10
eth_type 0x86dd & ipv6_dst 0x20010db8000000000000000000000001 | eth_type 0x86dd, ipv6_dst 2001:db8::1
eth_type 0x86dd & ipv6_dst 0x20010db80000000100000000000000a2 | eth_type 0x86dd, ipv6_dst 2001:db8:0:1::a2
eth_type 0x86dd & ipv6_dst 0x20010000000000010000000000010001 | eth_type 0x86dd, ipv6_dst 2001::1:0:0:1:1
eth_type 0x86dd & ipv6_dst 0x20010db8000000010002000300040005 | eth_type 0x86dd, ipv6_dst 2001:db8:0:1:2:3:4:5
eth_type 0x86dd & ipv6_flabel 0x00012345 | eth_type 0x86dd, ipv6_flabel 0x12345
"""

# lines of ovs-ofctl before and after a change of an action that changes a field, a TTL or a tag
CHANGES = """\
ip,actions=mod_nw_dst:10.0.0.1,output:2 | ip,actions=mod_nw_dst:10.0.0.2,output:2
tcp,actions=mod_tp_dst:80,output:2 | tcp,actions=output:2
ip,actions=mod_nw_ttl:3,output:2 | ip,actions=mod_nw_ttl:4,output:2
ipv6,actions=set_field:2001::1->ipv6_dst,output:2 | ipv6,actions=set_field:2001::2->ipv6_dst,output:2
arp,actions=set_field:10.0.0.1->arp_spa,output:2 | arp,actions=set_field:10.0.0.2->arp_spa,output:2
actions=strip_vlan,output:2 | actions=output:2
"""

# lines that are no requirement, and why
REFUSED = """\
frame ip leaves by 2 | frame: expected BEGINNING
every frame ip leaves by 2 | every: expected BEGINNING
no frames ip leaves by 2 | frames: expected BEGINNING
no frame ip goes to 2 | goes: expected DEMAND
no frame ip leaves 2 | 2: expected DEMAND
no frame ip leaves only 2 | 2: expected DEMAND
no frame ip nw_proto=6 leaves by 2 | nw_proto=6: expected DEMAND
no frame ip passes 1 | 1: expected DEMAND
no frame ip leaves by flood | flood: expected PLACE
no frame ip leaves by 2,0 | 0: expected PLACE
no frame ip leaves by 4294967041 | 4294967041: expected PLACE
no frame ip leaves by 2, 3 | 3: expected `except ttl` or the end of the line
no frame ip passes table 16 | 16: expected a table, 0 to 15
no frame ip passes table two | two: expected a table, 0 to 15
no frame ip leaves by 2 except arp | arp: expected `except ttl` or the end of the line
no frame ip leaves by 2 except ttl 0 | 0: expected `except ttl` or the end of the line
no frame ip leaves by 2 # guests | #: expected `except ttl` or the end of the line
no frame nw_src=10.0.9.0/24 leaves by 2 | nw_src: needs ip
no frame ip,colour=3 leaves by 2 | colour=3: not supported by this switch, or not an ovs-ofctl keyword
no frame ip,nw_src=10.0.9.300 leaves by 2 | nw_src=10.0.9.300: invalid value
"""
EXPECTED = {
    "BEGINNING": "a requirement begins with `no frame`, `each frame` or `some frame`",
    "DEMAND": "expected `leaves by PLACES`, `leaves only by PLACES`, `leaving by PLACES has FIELDS` or `passes table N`",
    "PLACE": "a place is the number of a port, `controller` or `drop`; with commas and without spaces between them",
}

KINDS = """\
no frame in_port=1,arp leaves by 2
some frame in_port=1,ip leaves by 4
no frame arp leaves by controller
"""
OPEN = "it is not known of all frames that come in by port 1 and match; `ofswitch paths --match` says why"


class Values(unittest.TestCase):
    def test_words(self):
        """Each flow has a table to itself, or with another one that does not shadow it."""
        table = ""
        for place, (matches, _) in enumerate(rows(VALUES)):
            table += f"flow {place % 11} 1 0x0000000000000000 0 0 0\n" + "".join(f"match {it}\n" for it in matches.split(" & "))
        lines = ofswitch("check", "--all", "--flows", "-", input=table).out.splitlines()
        for matches, words in rows(VALUES):
            with self.subTest(matches):
                self.assertEqual(sum(f", priority 1, {words}) " in it and it.startswith("table ") for it in lines), 1, lines)


class Changes(unittest.TestCase):
    def test_found(self):
        """A frame is found that the action changes."""
        for before, after in rows(CHANGES):
            with self.subTest(before, after=after), tempfile.NamedTemporaryFile("w") as file:
                file.write(f"{after}\n")
                file.flush()
                lines = ofswitch("diff", "-", file.name, input=f"{before}\n").out.splitlines()
                self.assertTrue(any(it.startswith("    first: out by port 2: ") for it in lines), lines)
                self.assertNotIn("undecided", lines[-1])


class Requirements(unittest.TestCase):
    def checked(self, requirements, *words):
        with tempfile.NamedTemporaryFile("w") as file:
            file.write(requirements)
            file.flush()
            return file.name, ofswitch("check", EXAMPLES / "office-mended.txt", "--require", file.name, *words)

    def test_refused(self):
        for line, reason in rows(REFUSED):
            with self.subTest(line):
                word, _, why = reason.partition(": expected ")
                said = f"{word}: {EXPECTED[why]}" if why in EXPECTED else reason
                name, done = self.checked(f"no frame ip leaves by 2\n{line}\n")
                self.assertEqual((done.status, done.out, done.err.splitlines()[:1]), (2, "", [f"{name}: line 2: {said}"]))

    def results(self, *words):
        """The results of tests: their counts, and of each its class, its name, and how it failed."""
        with tempfile.NamedTemporaryFile() as file:
            self.checked(KINDS, "--junit", file.name, *words)
            suite = ElementTree.parse(file.name).getroot()
        counts = [suite.tag, *(suite.get(it) for it in ("name", "tests", "failures", "errors"))]
        return counts, [(it.get("classname"), it.get("name"), *((fault.tag, (fault.text or "").strip()) for fault in it)) for it in suite]

    def test_results_of_tests(self):
        counts, cases = self.results()
        self.assertEqual(counts, ["testsuite", "ofswitch requirements", "3", "2", "0"])
        names = [("requirements", f"line {number}: {line}") for number, line in enumerate(KINDS.splitlines(), 1)]
        frame = "frame: --port 1 0000000000000000000000000806\n    out by ports 2 to 4: 0000000000000000000000000806"
        self.assertEqual(cases, [(*names[0], ("failure", frame)), (*names[1], ("failure", "no frame does this")), names[2]])

    def test_undecided_results_of_tests(self):
        counts, cases = self.results("--steps", "0")
        self.assertEqual(counts[2:], ["3", "0", "3"])
        self.assertIn(("error", OPEN), [it[2] for it in cases])
