"""Compares `check` on random flow tables with all packets of a small world, and its lines about random configurations with a list
that is made here.

Matches look at few bits, and the world has a packet for each of their values, and packets that none of their fields sees. For
each flow these tests compare fields, without the program, to find the packets of the world that it wins. A flow that never wins
must win none; a packet that `check` prints must win in `trace`; and a flow that wins a packet of the world must not be reported
as `never`. `(tie)` must be there exactly if a flow that is named has the same priority. A second world has VLAN tags under masks.
For access lists (prefixes that are halves of others, protocols, ports) the packets are those at the ends of the prefixes.

No flow may be left open: each can be decided.
"""
import json
import unittest

from tests import findings
from tests.program import ofswitch, random_cases
from tests.random_matches import ADDRESS, ARP, ETHER, IPV4, TCP, UDP, masked, some_match, some_tagged_match
from tests.second_model import match_lines, matches

TABLES = 200


def packets():
    """Ports and field maps of the world."""
    for port in (1, 2, 3):
        for mac in range(4):
            base = {"in_port": port, "eth_dst": mac, "eth_src": 0, "vlan_vid": 0}
            yield {**base, "eth_type": ETHER}
            # a type without its header: the frame ends before it
            yield {**base, "eth_type": IPV4}
            for op in (1, 2, 3):
                yield {**base, "eth_type": ARP, "arp_op": op}
            for last in range(4):
                ip = {**base, "eth_type": IPV4, "ipv4_dst": ADDRESS + last, "ip_dscp": 0, "ip_ecn": 0}
                yield {**ip, "ip_proto": 99}
                for proto, name in ((TCP, "tcp"), (UDP, "udp")):
                    # without a whole header the ports are not there
                    yield {**ip, "ip_proto": proto}
                    for number in (80, 81, 82):
                        yield {**ip, "ip_proto": proto, f"{name}_dst": number}


def tagged_packets():
    """Ports and field maps of the world of tags: no tag, or VLAN 0 to 3 with the priorities 0 to 2."""
    tags = [{"vlan_vid": 0}] + [{"vlan_vid": 0x1000 | vid, "vlan_pcp": pcp} for vid in range(4) for pcp in range(3)]
    for port in (1, 2, 3):
        for tag in tags:
            for kind in (ETHER, IPV4):
                yield {"in_port": port, "eth_dst": 0, "eth_src": 0, "eth_type": kind, **tag}


WORLD = list(packets())
TAGGED_WORLD = list(tagged_packets())


def some_prefix(pick):
    """A prefix of 8 to 16 bits in 10.0.0.0/8, or all addresses, or a half of them."""
    size = pick.choice((0, 1, 8, 9, 9, 10, 11, 12, 16))
    mask = (0xFFFFFFFF << 32 - size) & 0xFFFFFFFF
    return (pick.choice((ADDRESS | pick.getrandbits(24), 0x80000000)) if size < 8 else ADDRESS | pick.getrandbits(24)) & mask, mask


def some_rule(pick):
    """A line of an access list."""
    fields = {"eth_type": (IPV4, None)}
    for name in ("ipv4_src", "ipv4_dst"):
        value, mask = some_prefix(pick)
        if mask and pick.random() < 0.8:
            fields[name] = (value, masked(mask, 32))
    kind = pick.choice(("ip", "ip", "tcp", "tcp", "udp"))
    if kind != "ip":
        fields["ip_proto"] = (TCP if kind == "tcp" else UDP, None)
        if pick.random() < 0.6:
            fields[f"{kind}_dst"] = (pick.choice((53, 80, 443)), None)
    return fields


def packets_of(pick, flows, count=200):
    """Packets at the ends of the prefixes of an access list."""
    ends = {name: [ADDRESS] for name in ("ipv4_src", "ipv4_dst")}
    for _, fields in flows:
        for name in ends:
            if name in fields:
                value, mask = fields[name]
                ends[name] += [value, value | ~(0xFFFFFFFF if mask is None else mask) & 0xFFFFFFFF]
    for _ in range(count):
        packet = {"in_port": 1, "eth_dst": 0, "eth_src": 0, "eth_type": IPV4, "vlan_vid": 0, "ip_dscp": 0, "ip_ecn": 0}
        packet |= {name: pick.choice(it) for name, it in ends.items()}
        proto = pick.choice((TCP, UDP, 99))
        packet["ip_proto"] = proto
        if proto != 99 and pick.random() < 0.9:
            packet["tcp_dst" if proto == TCP else "udp_dst"] = pick.choice((53, 80, 443, 1))
        yield packet


def some_table(pick, some_match=some_match, most=9):
    """Flows with priorities and matches, oldest first, no two with the same."""
    flows = []
    for _ in range(pick.randint(2, most)):
        flow = (pick.randint(1, 4), some_match(pick))
        if flow not in flows:
            flows.append(flow)
    return flows


def text_of(flows):
    lines = []
    for priority, fields in flows:
        lines.append(f"flow 0 {priority} 0x0000000000000000 0 0 0")
        lines += match_lines(fields)
    return "".join(f"{it}\n" for it in lines)


def winner(flows, packet):
    """The place of the oldest flow of the highest priority that matches."""
    found = [(-priority, place) for place, (priority, fields) in enumerate(flows) if matches(fields, packet)]
    return min(found)[1] if found else None


# ---- on the whole: a configuration is groups {number: (kind, buckets)} and flows [(table, port, applied, cleared, written, goto)];
# a bucket is (actions, watched group), and an action is its line of flow text
SENDS = ("output", "to_group", "dec_nw_ttl")


def some_actions(pick, groups):
    known = ["output 1 0", "output 2 0", "output 4294967293 64", "set eth_dst 0x020000000001", "set eth_src 0x020000000002"]
    known += [f"to_group {it}" for it in groups]
    return [pick.choice(known) for _ in range(pick.randint(0, 3))]


def some_configuration(pick):
    groups = {}
    for number in range(1, pick.randint(1, 4)):
        kind = pick.choice(("all", "all", "ff"))
        lower = [it for it in groups if not groups[it][2]]
        buckets = []
        for _ in range(pick.randint(0, 2)):
            watched = pick.choice(lower) if kind == "ff" and lower and pick.random() < 0.5 else None
            sent = [f"to_group {it}" for it in lower if pick.random() < 0.3]
            buckets.append((["output 2 0"] * pick.randint(0, 1) + sent, watched))
        named = any(sent[1:] or watched or "to_group" in str(sent) for sent, watched in buckets)
        groups[number] = (kind, buckets, named)
    flows = []
    for table in range(5):
        for _ in range(pick.choice((0, 0, 1, 2))):
            port = pick.choice((None, 1, 2))
            if any(it[:2] == (table, port) for it in flows):
                continue
            goto = pick.choice((None, None, *range(table + 1, 6)))
            flows.append((table, port, some_actions(pick, groups), pick.random() < 0.3, some_actions(pick, groups), goto))
    return groups, flows


def lines_of(groups, flows):
    for number, (kind, buckets, _) in groups.items():
        yield f"group {number} {kind}"
        for actions, watched in buckets:
            yield f"bucket 0 {1 if kind == 'ff' else 4294967295} {4294967295 if watched is None else watched}"
            yield from actions
    for table, port, applied, cleared, written, goto in flows:
        yield f"flow {table} 0 0x0000000000000000 0 0 0"
        if port is not None:
            yield f"match in_port 0x{port:08x}"
        yield from ["apply", *applied] if applied else []
        yield from ["clear"] * cleared
        yield from ["write", *written] if written else []
        yield from [] if goto is None else [f"goto {goto}"]


def sends(actions):
    return any(it.split()[0] in SENDS for it in actions)


def remarks(groups, flows):
    """What is to be remarked, in order."""
    tables = {it: [flow for flow in flows if flow[0] == it] for it in range(16)}
    reached, more = set(), {0}
    while more:
        reached |= more
        more = {flow[5] for it in more for flow in tables[it] if flow[5] is not None} - reached
    for table, entries in tables.items():
        if entries and table not in reached:
            yield f"table {table} unreachable"
        if entries and not any(flow[1] is None for flow in entries):
            yield f"table {table} no table-miss entry"
        for place, (_, port, applied, cleared, written, goto) in enumerate(entries):
            if goto is not None and not tables[goto]:
                yield f"flow {table} {place} goto {goto}: no entries"
            if port is not None and f"output {port} 0" in applied + written:
                yield f"flow {table} {place} output {port}: ingress"
            before = any(sends(flow[4]) for flow in flows if flow[0] < table)
            unseen = 0
            while unseen < len(applied) and not sends(applied[-1 - unseen :]):
                unseen += 1
            if unseen and goto is None and not sends(written) and (cleared or not before):
                yield f"flow {table} {place} last actions unseen: {unseen}"
    named = {it for flow in flows for it in flow[2] + flow[4]}
    named |= {it for _, buckets, _ in groups.values() for actions, _ in buckets for it in actions}
    watched = {it for kind, buckets, _ in groups.values() if kind == "ff" for _, it in buckets}
    for number, (_, buckets, _) in groups.items():
        if f"to_group {number}" not in named and number not in watched:
            yield f"group {number} unused"
        if not buckets:
            yield f"group {number} no buckets"


def is_before(flows, place, other):
    """Whether an entry goes before the one at a place."""
    return (-flows[other][0], other) < (-flows[place][0], place)


class Verdicts(unittest.TestCase):
    slow = True
    maxDiff = None

    def check(self, text):
        """The status of `check` on a flow text, and its findings, a line each."""
        done = ofswitch("check", "--json", "--flows", "-", input=text)
        self.assertTrue(done.out, done.err)
        return done.status, findings.lines(json.loads(done.out))

    def never(self, flows, place, by, won):
        """That a flow never wins, and the flows that are named cover it."""
        tie = by[-1:] == ["(tie)"]
        named = [int(it) for it in by[: len(by) - tie][1::2]]
        # no packet has only this
        empty = "vlan_vid" in flows[place][1] and not named
        self.assertNotIn(place, won)
        self.assertTrue((named or empty) and all(is_before(flows, place, it) for it in named), by)
        self.assertEqual(tie, any(flows[it][0] == flows[place][0] for it in named), by)

    def compare(self, flows, world, traced=True):
        text = text_of(flows)
        status, found = self.check(text)
        lines, whole = found[: len(flows)], found[len(flows) :]
        missing = not any(priority == 0 and not fields for priority, fields in flows)
        self.assertEqual(whole, ["table 0 no table-miss entry"] * missing)
        won = {winner(flows, it) for it in world}
        for place, line in enumerate(lines):
            _, table, entry, verdict, *words = line.split()
            self.assertEqual((table, entry), ("0", str(place)))
            # `undecided` is no verdict here
            self.assertIn(verdict, ("wins", "never:"), line)
            if verdict == "never:":
                self.never(flows, place, words, won)
            elif traced and int(words[3], 16) == 0:
                done = ofswitch("trace", "--flows", "-", "--port", words[1], words[4], input=text)
                self.assertEqual(done.out.split("\n")[0], f"lookup 0 entry {place}", line)
        self.assertEqual((status, len(lines)), (4 if any(" never: " in it for it in lines) else 0, len(flows)))

    def test_tables(self):
        for case, pick in random_cases(TABLES):
            with self.subTest(case):
                self.compare(some_table(pick), WORLD)

    def test_tags(self):
        for number, (case, pick) in enumerate(random_cases(TABLES, "tags ")):
            with self.subTest(case):
                self.compare(some_table(pick, some_tagged_match), TAGGED_WORLD, traced=number % 4 == 0)

    def test_access_lists(self):
        for case, pick in random_cases(TABLES, "list "):
            with self.subTest(case):
                table = some_table(pick, some_rule, 24)
                self.compare(table, list(packets_of(pick, table)), traced=False)

    def test_configurations(self):
        for case, pick in random_cases(TABLES, "whole "):
            with self.subTest(case):
                groups, flows = some_configuration(pick)
                status, found = self.check("".join(f"{it}\n" for it in lines_of(groups, flows)))
                wanted = list(remarks(groups, flows))
                self.assertEqual(found[len(flows) :], wanted)
                # a first table without a table-miss entry is no finding
                is_found = [it for it in wanted if it != "table 0 no table-miss entry"] or any(" never: " in it for it in found[: len(flows)])
                self.assertEqual(status, 4 if is_found else 0)
