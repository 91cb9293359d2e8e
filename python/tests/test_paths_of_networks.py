"""`Network.trace` and `Network.paths`, compared with the frames that `network.send` carries."""

import random
from collections import Counter, deque

import messages
import pytest
from ofswitch import Arrived, Crossing, Looped, MessageType, NotFlat

FRAME = bytes.fromhex("02000000000202000000000188b5")


def flow(match, *actions, priority=100):
    lines = [f"flow 0 {priority} 0x0000000000000000 0 0 0", *(f"match {it}" for it in match)]
    return "".join(f"{it}\n" for it in [*lines, *(["apply"] if actions else []), *actions])


def wired(network, edges, hosts):
    """Switches, links and hosts; a port for each end of a link, in order, and then for each host. Returns the ports of the hosts."""
    ports, links = Counter(), []
    for one, other in edges:
        ports[one] += 1
        ports[other] += 1
        links.append((one, ports[one], other, ports[other]))
    places = {}
    for host, switch in hosts.items():
        ports[switch] += 1
        places[host] = (switch, ports[switch])
    for switch, count in ports.items():
        network.add(switch, count)
    for it in links:
        network.link(*it)
    return links, places


def next_ports(links, goal):
    """For each other switch the port to the next switch on a shortest path to a switch."""
    near = {}
    for one, port, other, its in links:
        near.setdefault(one, []).append((other, its))
        near.setdefault(other, []).append((one, port))
    found, todo = {goal: None}, deque([goal])
    while todo:
        for switch, port in near.get(todo.popleft(), []):
            if switch not in found:
                found[switch] = port
                todo.append(switch)
    return found


def routed(network, edges, hosts, hole=None, loop=None):
    """Routers: a net 10.N.0.0/16 for each host. `hole` is a switch without a route to the last host; `loop` a next port for it by switch."""
    links, places = wired(network, edges, hosts)
    for number, (host, (switch, port)) in enumerate(places.items()):
        is_last = number == len(places) - 1
        for name, onward in next_ports(links, switch).items():
            if is_last and name == hole:
                continue
            out = loop[name] if is_last and loop else onward or port
            network[name].load(flow(["eth_type 0x0800", f"ipv4_dst 0x0a{number:02x}0000 0xffff0000"], "dec_nw_ttl", f"output {out} 0"))
    return places


def ring(size):
    names = [f"s{it}" for it in range(size)]
    return list(zip(names, names[1:] + names[:1])), {f"h{it}": name for it, name in enumerate(names)}


def ip(network, destination, ttl, source="10.9.9.9"):
    """A packet of IPv4, made of words: its checksum is right."""
    octets = bytearray(next(iter(network.switches.values())).frame_of(f"ip,nw_src={source},nw_dst={destination}"))
    # RFC 1624: the TTL is the high byte of its word, and the checksum is the complement of the sum of all words
    total = (~int.from_bytes(octets[24:26], "big") & 0xFFFF) + 0xFFFF - (octets[22] << 8) + (ttl << 8)
    octets[22] = ttl
    while total >> 16:
        total = (total & 0xFFFF) + (total >> 16)
    octets[24:26] = (~total & 0xFFFF).to_bytes(2, "big")
    return bytes(octets)


def places_of(arrived):
    return sorted((it.switch, it.port) for it in arrived)


def check_random_frames(network, place, found, hops, seed):
    """Frames that `send` carries arrive where `trace` says, and each takes one of the paths."""
    assert found.undecided == ()
    chosen = random.Random(seed)
    known = {(it.places, tuple(places_of(it.arrived)), it.is_under_way) for it in found.paths}
    for _ in range(60):
        frame = ip(network, f"10.{chosen.randrange(6)}.0.{chosen.randrange(3)}", chosen.choice([0, 1, 2, 3, 5, 64]))
        sent, trace = network.send(*place, frame), network.trace(*place, frame)
        assert Counter(sent) == Counter(trace.arrived), frame.hex()
        places = tuple((it.switch, it.port) for it in trace.hops)
        is_under_way = len(places) > hops
        assert (places[:hops], () if is_under_way else tuple(places_of(sent)), is_under_way) in known, (frame.hex(), places)


TOPOLOGIES = {
    "line": ([("s0", "s1"), ("s1", "s2"), ("s2", "s3")], {"h0": "s0", "h1": "s1", "h2": "s2", "h3": "s3"}),
    "ring": ring(5),
    "leaf and spine": ([(spine, leaf) for spine in ("p0", "p1") for leaf in ("l0", "l1", "l2")], {"h0": "l0", "h1": "l1", "h2": "l2", "h3": "l2"}),
}


@pytest.mark.parametrize("name", TOPOLOGIES)
def test_random_frames(network, name):
    places = routed(network, *TOPOLOGIES[name])
    for seed, (host, place) in enumerate(places.items()):
        found = network.paths(*place)
        # each host reaches each other host, and nothing circulates
        assert {*found.hosts} == {*places.values()} - {place}
        assert found.loops == []
        # the frame of each path arrives where the path says, if it is sent
        for path in found.paths:
            assert Counter(network.send(*place, path.frame)) == Counter(path.arrived)
        check_random_frames(network, place, found, 16, seed)


def test_hops_of_a_ring(network):
    places = routed(network, *ring(5))
    found = network.paths(*places["h0"], match="ip")
    hops = {host: {len(it.places) for it in found.hosts[place]} for host, place in places.items() if host != "h0"}
    # a neighbour is 2 switches away, the others 3
    assert hops == {"h1": {2}, "h2": {3}, "h3": {3}, "h4": {2}}
    assert {it.places for it in found.hosts[places["h1"]]} == {(places["h0"], ("s1", 1))}
    # the own net of h0: an OUTPUT to the ingress port sends nothing; and what has no route
    assert {it.places for it in found.ended} == {(places["h0"],)}


def test_a_hole_is_found(network):
    places = routed(network, *ring(5), hole="s1")
    lost = network.paths(*places["h1"], match="ip,nw_dst=10.4.0.0/16")
    assert [it.places for it in lost.ended] == [(places["h1"],)] and lost.ended == list(lost.paths)
    # the packets of h2 for h4 do not come to s1
    assert {*network.paths(*places["h2"]).hosts} == {places["h0"], places["h1"], places["h3"], places["h4"]}
    check_random_frames(network, places["h1"], network.paths(*places["h1"]), 16, 1)


def test_a_loop_is_found(network):
    # port 1 of s0 leads to s1, and the port 2 of the others to the next one
    places = routed(network, *ring(5), loop={"s0": 1, "s1": 2, "s2": 2, "s3": 2, "s4": 2})
    found = network.paths(*places["h2"], hops=8)
    assert {it.frame[30:32] for it in found.loops} == {bytes([10, 4])}
    # it ends with its TTL, so it is no loop for ever
    assert all(it.trace.loop == () and len(it.places) == 8 for it in found.loops)
    assert "is still under way" in str(found)
    check_random_frames(network, places["h2"], found, 8, 1)


def test_a_loop_for_ever(network):
    edges, _ = ring(3)
    _, places = wired(network, edges, {"h0": "s0"})
    for name, port in {"s0": 1, "s1": 2, "s2": 2}.items():
        network[name].load(flow([], f"output {port} 0"))
    trace = network.trace(*places["h0"], FRAME)
    assert [(it.switch, it.port) for it in trace.hops] == [("s0", 3), ("s1", 1), ("s2", 1), ("s0", 2)]
    # port 1 of s1 is the first place to which it comes again
    assert trace.loop == (Crossing("s1", 2, "s2", 1), Crossing("s2", 2, "s0", 2), Crossing("s0", 1, "s1", 1))
    assert trace.arrived == () and "goes round for ever: s1 port 2 to s2 port 1" in str(trace)
    found = network.paths(*places["h0"])
    assert [it.trace.loop for it in found.loops] == [trace.loop] * len(found.paths)
    with pytest.raises(Looped):
        network.send(*places["h0"], FRAME)


def test_a_frame_that_grows_in_a_loop(network):
    edges, _ = ring(3)
    _, places = wired(network, edges, {"h0": "s0"})
    for name, port in {"s0": 1, "s1": 2, "s2": 2}.items():
        network[name].load(flow([], "push_vlan 0x8100", f"output {port} 0"))
    network.hops = 20
    trace = network.trace(*places["h0"], FRAME)
    # four bytes more at each hop, so it is never the same packet
    assert [len(it.frame) for it in trace.hops] == [14 + 4 * at for at in range(20)]
    assert trace.is_under_way and trace.loop == () and str(trace).endswith("is still under way after 20 hops")
    found = network.paths(*places["h0"])
    assert len(found.loops) == len(found.paths) > 0 and all(it.trace.is_under_way for it in found.paths)


def test_routers_that_point_at_each_other_are_a_hole(network):
    _, places = wired(network, [("s0", "s1")], {"h0": "s0", "h1": "s1"})
    for name in ("s0", "s1"):
        network[name].load(flow([], "output 1 0"))
    # OpenFlow 1.3.5, 4.5: only IN_PORT sends a packet back
    found = network.paths(*places["h0"])
    assert found.loops == [] and {it.places for it in found.ended} == {(places["h0"], ("s1", 1))}
    assert network.send(*places["h0"], FRAME) == []


def test_ports_that_no_entry_names(network):
    """The flat switch has all ports of hosts, whether an entry names them or not."""
    network.add("s0", 9)
    assert [it.places for it in network.paths("s0", 8).ended] == [(("s0", 8),)]
    network["s0"].load(flow(["in_port 0x00000002"], "output 9 0"))
    assert {*network.paths("s0", 2).hosts} == {("s0", 9)}
    assert network.paths("s0", 8).hosts == {}


def test_a_packet_that_comes_back_to_its_host(network):
    _, places = wired(network, [("s0", "s1")], {"h0": "s0", "h1": "s1"})
    network["s0"].load(flow(["in_port 0x00000001"], "output 2 0") + flow(["in_port 0x00000002"], "output 1 0"))
    network["s1"].load(flow([], "set eth_dst 0x0200000000aa", "output 4294967288 0"))
    back = [Arrived("s0", 2, bytes.fromhex("0200000000aa") + FRAME[6:])]
    assert network.send(*places["h0"], FRAME) == back
    [path] = network.paths(*places["h0"], match="dl_type=0x88b5").paths
    assert places_of(path.arrived) == [places["h0"]] and path.places == (("s0", 2), ("s1", 1), ("s0", 1))


def test_the_older_of_equal_entries_wins(network):
    _, places = wired(network, [("s0", "s1"), ("s1", "s2")], {"h0": "s0", "h1": "s1", "h2": "s2"})
    network["s0"].load(flow([], "output 1 0"))
    # both match at port 1 with the same priority; the second has an entry for that port only
    network["s1"].load(flow([], "output 3 0") + flow(["in_port 0x00000001"], "output 2 0"))
    assert network.send(*places["h0"], FRAME) == [Arrived("s1", 3, FRAME)]
    assert {*network.paths(*places["h0"]).hosts} == {("s1", 3)}
    # h1 is at port 3 of s1: entries for that port and for all ports
    network["s1"].load(flow(["in_port 0x00000003"], "output 2 0", priority=200) + flow([], "output 1 0", priority=200))
    network["s2"].load(flow([], "output 2 0"))
    assert network.send(*places["h1"], FRAME) == [Arrived("s2", 2, FRAME)]
    assert {*network.paths(*places["h1"]).hosts} == {("s2", 2)}


def test_a_tunnel(network):
    _, places = wired(network, [("s0", "s1"), ("s1", "s2")], {"h0": "s0", "h1": "s1", "h2": "s2"})
    network["s0"].load(flow(["in_port 0x00000002"], "push_vlan 0x8100", "set vlan_vid 0x1064", "output 1 0"))
    network["s1"].load(flow(["in_port 0x00000001", "vlan_vid 0x1064"], "output 2 0"))
    network["s2"].load(flow(["vlan_vid 0x1064"], "pop_vlan", "output 2 0"))
    found = network.paths(*places["h0"])
    # all frames of h0, and they arrive as they were
    assert {*found.hosts} == {places["h2"]} and found.ended == found.loops == []
    assert all([it.frame for it in path.arrived] == [path.frame] for path in found.paths)
    assert [{*network.paths(*places[it]).hosts} for it in ("h1", "h2")] == [set(), set()]


def test_a_link_that_is_down(network):
    _, places = wired(network, [("s0", "s1")], {"h0": "s0", "h1": "s1"})
    network["s0"].load(flow([], "output 1 0"))
    network["s1"].load(flow([], "output 2 0"))
    assert {*network.paths(*places["h0"]).hosts} == {places["h1"]}
    network["s1"].port_link(1, False)
    # only the end at s1 is down now, and then both are
    for _ in range(2):
        found = network.paths(*places["h0"])
        assert found.hosts == {} and {it.places for it in found.ended} == {(places["h0"],)}
        network.cut("s0", 1)
    network["s0"].port_link(places["h0"][1], False)
    with pytest.raises(NotFlat, match="s0, port 2: it does not receive"):
        network.paths(*places["h0"])


def test_the_hops_of_a_frame(network):
    _, places = wired(network, [("s0", "s1")], {"h0": "s0", "h1": "s1"})
    network["s0"].load(flow([], "output 1 0"))
    network["s1"].load(flow([], "set eth_dst 0x0200000000aa", "output 2 0", "output 4294967293 0"))
    trace = network.trace(*places["h0"], FRAME)
    moved = bytes.fromhex("0200000000aa") + FRAME[6:]
    # the lines of docs/TRACE.md
    assert trace.hops[0].steps == ("lookup 0 entry 0", "apply", "output 1 0", "set", "end")
    assert trace.hops[1].steps == ("lookup 0 entry 0", "apply", "set eth_dst 0x0200000000aa", "output 2 0", "output 4294967293 0", "set", "end")
    assert [(it.switch, it.port, it.frame) for it in trace.hops] == [("s0", 2, FRAME), ("s1", 1, FRAME)]
    assert trace.arrived == (Arrived("s1", 2, moved),) and trace.loop == ()
    # no controller is connected, so none gets a message; then one is
    assert [it.frame for hop in trace.hops for it in hop.leaves] == [FRAME, moved]
    network["s1"].connect()
    network["s1"].feed(messages.HELLO)
    assert MessageType.PACKET_IN in [getattr(it, "type", None) for it in network.trace(*places["h0"], FRAME).hops[1].leaves]
    assert str(trace).splitlines()[0] == f"s0 port 2: {FRAME.hex()}"
    assert str(trace).splitlines()[-1] == f"arrives at s1 port 2: {moved.hex()}"


def test_a_frame_that_is_not_received(network):
    network.add("s0", 1)
    trace = network.trace("s0", 1, bytes(13))
    assert trace.hops[0].steps == () and str(trace).splitlines()[1:] == ["    not received", "reaches no host"]


def test_copies_of_a_frame(network):
    _, places = wired(network, [("s0", "s1"), ("s0", "s2"), ("s1", "s3"), ("s2", "s3")], {"h0": "s0", "h3": "s3"})
    for name in network.switches:
        network[name].load(flow([], "output 4294967291 0"))
    # four switches that flood are a ring: copies circulate
    assert network.trace(*places["h0"], FRAME).loop
    with pytest.raises(NotFlat, match="FLOOD"):
        network.paths(*places["h0"])


REFUSED = {
    "it goes to another table": "flow 0 1 0x0000000000000000 0 0 0\ngoto 1\n",
    "it writes actions": "flow 0 1 0x0000000000000000 0 0 0\nwrite\noutput 1 0\n",
    "it writes METADATA": "flow 0 1 0x0000000000000000 0 0 0\nmetadata 0x0000000000000001 0x0000000000000001\n",
    "it matches METADATA": flow(["metadata 0x0000000000000001"], "output 1 0"),
    "it sends to a group": "group 1 all\nbucket 0 4294967295 4294967295\noutput 1 0\n" + flow([], "to_group 1"),
    "it sends to FLOOD or ALL": flow([], "output 4294967292 0"),
    "it sends over two links": flow([], "output 1 0", "output 2 0"),
    "it changes packets after it sent them over a link": flow([], "output 1 0", "set eth_dst 0x020000000001", "output 3 0"),
}


@pytest.mark.parametrize("why", REFUSED)
def test_what_is_not_flat(network, why):
    _, places = wired(network, [("s0", "s1"), ("s0", "s1")], {"h0": "s0"})
    network["s0"].load(REFUSED[why])
    with pytest.raises(NotFlat) as caught:
        network.paths(*places["h0"])
    assert caught.value.switch == "s0" and caught.value.what.startswith("table 0 entry 0") and why in caught.value.why


def test_a_port_that_a_controller_configured(network):
    _, places = wired(network, [], {"h0": "s0"})
    network["s0"].connect()
    # PORT_MOD: NO_FWD of port 1 (OpenFlow 1.3.5, 7.3.4.3)
    body = (1).to_bytes(4, "big") + bytes(4) + bytes.fromhex("020000010001") + bytes(2) + (32).to_bytes(4, "big") * 2 + bytes(8)
    network["s0"].feed(messages.HELLO + messages.header(16, 5, body))
    assert [(it["port_no"], it["config"], it["name"]) for it in network["s0"].ports()] == [(1, 32, "p1")]
    with pytest.raises(NotFlat, match="s0, port 1: a PORT_MOD"):
        network.paths(*places["h0"])


@pytest.mark.parametrize("options", [{"hops": 0}, {"hops": 17}, {"match": "in_port=1"}, {"match": "nw_dst=10.0.0.1"}])
def test_bad_arguments(network, options):
    network.add("s0", 1)
    with pytest.raises(ValueError):
        network.paths("s0", 1, **options)
