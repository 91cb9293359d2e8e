"""Random switches, and pairs of them: one to three tables, up to two groups, and a change."""
import subprocess
from typing import NamedTuple

from tests.random_matches import ADDRESS, ARP, IPV4, TCP, UDP, some_match, some_tagged_match
from tests.second_model import ALL, BYTES, CONTROLLER, FLOOD, IN_PORT, NONE, Flow, Group, Switch, flow_text

# the ports of our event files, and of the switch of a flow text, which also has those that buckets watch
PORTS = dict.fromkeys(range(1, 5), True)


class Writing:
    """Random matches, actions and flows; `plain` ones have no PUSH_VLAN, POP_VLAN and SET_FIELD."""

    def __init__(self, pick, groups, tables, plain):
        self.pick, self.groups, self.tables, self.plain = pick, groups, tables, plain

    def match(self, table):
        pick = self.pick
        fields = some_match(pick)
        if pick.random() < 0.35:
            fields |= {name: it for name, it in some_tagged_match(pick).items() if name.startswith("vlan")}
        if fields.get("eth_type") == (IPV4, None) and pick.random() < 0.15:
            fields["ip_dscp"] = (pick.choice((0, 46)), None)
        if table and pick.random() < 0.3:
            fields["metadata"] = pick.choice(((1, 1), (0, 1), (2, 3), (3, 3)))
        return fields

    def settable(self, match):
        """Fields that the flow of a match may set, with values. The flows of a bucket have no match, and may set any."""
        found = {"eth_dst": (1, 2), "eth_src": (1, 2), "vlan_vid": (0x1001, 0x1002)}
        values = {it: match[it][0] for it in match} if match is not None else None
        if values is None or values.get("vlan_vid"):
            found["vlan_pcp"] = (0, 1, 5)
        if values is None or values.get("eth_type") == IPV4:
            found |= {"ipv4_dst": (ADDRESS + 1, ADDRESS + 2), "ipv4_src": (ADDRESS + 1, ADDRESS + 9), "ip_dscp": (0, 46), "ip_ecn": (1,)}
        if values is None or values.get("eth_type") == ARP:
            found["arp_op"] = (1, 2)
        for protocol, name in ((TCP, "tcp"), (UDP, "udp")):
            if values is None or values.get("ip_proto") == protocol:
                found |= {f"{name}_dst": (80, 81), f"{name}_src": (5, 6)}
        return found

    def action(self, match):
        pick, draw = self.pick, self.pick.random()
        if draw < 0.5 or draw < 0.8 and self.plain:
            port = pick.choice((1, 2, 2, 3, 3, 4, IN_PORT, FLOOD, ALL, CONTROLLER))
            return "output", port, pick.choice((64, 128, 0xFFFF)) if port == CONTROLLER else 0
        if draw < 0.6:
            name, values = pick.choice(list(self.settable(match).items()))
            return "set", name, pick.choice(values)
        if draw < 0.8:
            return pick.choice((("push_vlan", 0x8100), ("push_vlan", 0x88A8), ("pop_vlan",)))
        if draw < 0.88 and self.groups:
            return "to_group", pick.choice(list(self.groups))
        return pick.choice((("dec_nw_ttl",), ("dec_nw_ttl",), ("set_nw_ttl", pick.choice((1, 64)))))

    def actions(self, match):
        return [self.action(match) for _ in range(self.pick.choice((0, 1, 1, 2, 3)))]

    def instructions(self, table, match):
        pick = self.pick
        if pick.random() < 0.7:
            yield "apply", self.actions(match)
        if pick.random() < 0.1:
            yield ("clear",)
        if pick.random() < 0.35:
            yield "write", self.actions(match)
        if pick.random() < 0.25:
            mask = pick.choice((1, 2, 3))
            yield "metadata", pick.randrange(4) & mask, mask
        if table + 1 < self.tables and pick.random() < 0.7:
            yield "goto", pick.randrange(table + 1, self.tables)

    def flow(self, table):
        match = self.match(table)
        return Flow(table, self.pick.randint(1, 4), match, list(self.instructions(table, match)), self.pick.choice((0, 0, 7)))

    def miss(self, table):
        """A table-miss flow entry."""
        return Flow(table, 0, {}, list(self.instructions(table, {})), 9)


def some_groups(pick, plain):
    """Up to two groups; the second may send to the first, and a bucket of a FAST-FAILOVER group may watch it."""
    groups = {}
    for number in range(1, pick.choice((1, 1, 2, 3))):
        writing = Writing(pick, groups, 1, plain)
        kind = pick.choice(("all", "all", "indirect", "ff", "ff"))
        buckets = []
        for _ in range(1 if kind == "indirect" else pick.randint(0 if kind == "all" else 1, 3)):
            watches = kind == "ff" and bool(groups) and pick.random() < 0.3
            port = pick.choice((2, 3, 4, 70)) if kind == "ff" and not watches else NONE
            buckets.append((port, 1 if watches else NONE, writing.actions(None)))
        groups[number] = Group(kind, buckets)
    return groups


def identity(flow):
    """No two flows have the same."""
    return flow.table, flow.priority, tuple(sorted(flow.match.items()))


def distinct(flows):
    """The flows without those that have the table, priority and match of an earlier one, by table."""
    found = {}
    for flow in sorted(flows, key=lambda it: it.table):
        found.setdefault(identity(flow), flow)
    return list(found.values())


def some_switch(pick, ports, plain):
    groups = some_groups(pick, plain)
    writing = Writing(pick, groups, pick.choice((1, 2, 2, 3)), plain)
    flows = []
    for table in range(writing.tables):
        flows += [writing.flow(table) for _ in range(pick.choice((1, 3, 4, 5)))]
        flows += [writing.miss(table)] * (pick.random() < 0.5)
    return writing, Switch(groups, distinct(flows), ports)


# ---- changes of a switch: each returns the flows, or None if there is nothing to change; those in ALIKE affect no frame
def with_one(flows, place, *others):
    """The flows with others in one place."""
    changed = [*flows[:place], *others, *flows[place + 1 :]]
    return changed if len(distinct(changed)) == len(changed) else None


def some_place(pick, flows):
    return pick.randrange(len(flows))


def other_instructions(writing, flows):
    place = some_place(writing.pick, flows)
    flow = flows[place]
    return with_one(flows, place, flow._replace(instructions=list(writing.instructions(flow.table, flow.match))))


def other_match(writing, flows):
    place = some_place(writing.pick, flows)
    return with_one(flows, place, writing.flow(flows[place].table)._replace(priority=flows[place].priority))


def other_priority(writing, flows):
    place = some_place(writing.pick, flows)
    return with_one(flows, place, flows[place]._replace(priority=writing.pick.randint(1, 5)))


def removed(writing, flows):
    return with_one(flows, some_place(writing.pick, flows))


def added(writing, flows):
    return with_one(flows, len(flows), writing.flow(writing.pick.randrange(writing.tables)))


def are_disjoint(first, second):
    """Whether no packet is matched by both, by a field in which they ask for different bits."""
    ones = {name: (1 << 8 * BYTES[name]) - 1 for name in BYTES}
    for name in first.keys() & second.keys():
        (value, mask), (other, other_mask) = first[name], second[name]
        if (value ^ other) & (ones[name] if mask is None else mask) & (ones[name] if other_mask is None else other_mask):
            return True
    return False


def swapped(writing, flows):
    """Two flows that follow each other, of which no packet may hit either: they are disjoint, or have different priorities."""
    may = [
        at
        for at in range(len(flows) - 1)
        for one, two in [flows[at : at + 2]]
        if one.table == two.table and (one.priority != two.priority or are_disjoint(one.match, two.match))
    ]
    if not may:
        return None
    at = writing.pick.choice(may)
    return [*flows[:at], flows[at + 1], flows[at], *flows[at + 2 :]]


def in_halves(writing, flows):
    """A match under a mask as two that look at one bit more. A field that each packet has may also be one that the match lacks."""
    pick, place = writing.pick, some_place(writing.pick, flows)
    flow = flows[place]
    name = pick.choice(("eth_dst", "ipv4_dst", "metadata"))
    value, mask = flow.match.get(name, (0, 0))
    if mask is None or name == "ipv4_dst" and name not in flow.match or flow.priority == 0:
        return None
    bits = 8 * BYTES[name]
    free = [bit for bit in range(bits) if not mask >> bit & 1]
    bit = 1 << pick.choice((free[-1], free[0], pick.choice(free)))
    longer = None if mask | bit == (1 << bits) - 1 else mask | bit
    halves = [flow._replace(match=flow.match | {name: (it, longer)}) for it in (value, value | bit)]
    return with_one(flows, place, *halves)


def shadowed(writing, flows):
    """A flow behind one that matches all of its packets."""
    flow = flows[some_place(writing.pick, flows)]
    if flow.priority < 2:
        return None
    match = flow.match | ({"eth_src": (5, None)} if writing.pick.random() < 0.5 else {})
    return with_one(flows, len(flows), Flow(flow.table, flow.priority - 1, match, list(writing.instructions(flow.table, match)), 3))


def with_group(writing, switch):
    """A switch in which the OUTPUTs of an APPLY_ACTIONS are the buckets of a group."""
    for place, flow in enumerate(switch.flows):
        for at, it in enumerate(flow.instructions):
            if it[0] == "apply" and it[1] and all(action[0] == "output" and action[1] != CONTROLLER for action in it[1]):
                number = max(switch.groups, default=0) + 1
                group = Group("all", [(NONE, NONE, [action]) for action in it[1]])
                instructions = [*flow.instructions[:at], ("apply", [("to_group", number)]), *flow.instructions[at + 1 :]]
                flows = with_one(switch.flows, place, flow._replace(instructions=instructions))
                return Switch(switch.groups | {number: group}, flows, switch.ports)
    return None


CHANGES = [other_instructions, other_match, other_priority, removed, added]
ALIKE = [swapped, in_halves, shadowed]


# ---- pairs
class Pair(NamedTuple):
    change: str
    first: Switch
    second: Switch
    # whether the change affects no frame; whether neither has an action after which frames may be undecided
    alike: bool
    plain: bool
    # as event files, with their ports; whether packets to the controller are compared
    events: bool
    controller: bool


def changed_switch(writing, switch):
    """A change, the switch after it, and whether it affects no frame."""
    pick = writing.pick
    while True:
        draw = pick.random()
        if draw < 0.1:
            return "another switch", some_switch(pick, switch.ports, writing.plain)[1], False
        if draw < 0.2:
            changed = with_group(writing, switch)
            if changed:
                return "with_group", changed, True
        change = pick.choice(CHANGES if draw < 0.5 else ALIKE)
        flows = change(writing, switch.flows) if switch.flows else None
        if flows is not None:
            return change.__name__, switch._replace(flows=distinct(flows)), change in ALIKE


def with_watched_ports(*switches):
    """The switches of flow texts that are compared: both have the ports that either names."""
    watched = {port for it in switches for group in it.groups.values() for port, _, _ in group.buckets if port != NONE}
    return [it._replace(ports=it.ports | dict.fromkeys(watched, True)) for it in switches]


def some_pair(pick):
    plain, events = pick.random() < 0.5, pick.random() < 0.3
    ports = PORTS | {pick.choice((3, 4)): pick.random() < 0.5} if events else PORTS
    writing, first = some_switch(pick, ports, plain)
    change, second, alike = changed_switch(writing, first)
    if events and pick.random() < 0.1:
        link = pick.choice(list(ports))
        change, second = "link", second._replace(ports=ports | {link: not ports[link]})
    if not events:
        first, second = with_watched_ports(first, second)
    return Pair(change, first, second, alike, plain, events, pick.random() < 0.7)


def write_file(program, folder, name, switch, events):
    """The file of a switch: flow text, or the rows that make its ports and tables."""
    path = f"{folder}/{name}.flows"
    with open(path, "w", encoding="utf-8") as file:
        file.write(flow_text(switch))
    if not events:
        return path
    rows = [f"port add {it} 0200000000{it:02x} p{it} {'up' if switch.ports[it] else 'down'}\n" for it in switch.ports]
    made = subprocess.run([program, "asm", path], capture_output=True, text=True, timeout=300)
    with open(f"{folder}/{name}.events", "w", encoding="utf-8") as file:
        file.write("".join(rows) + made.stdout)
    return f"{folder}/{name}.events"
