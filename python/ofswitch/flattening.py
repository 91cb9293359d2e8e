"""A network as one switch: its table h has the entries of hop h, and METADATA says to which port of which switch a packet came."""

from __future__ import annotations

from collections import Counter
from collections.abc import Mapping
from dataclasses import dataclass
from typing import Any

from . import flow_text
from .dividing import paths
from .drawing import field_text
from .flow_text import Flow
from .hops import Arrived, Links, NetworkTrace, Place, follow
from .switch import Switch

# The tables of a switch, and the ports that the switch of a flow text has (docs/PATHS.md).
MOST_HOPS = 16
_MOST_PORTS = 64

# What is still under way after the last table leaves the flat switch by this port, and frames for hosts by those below it.
_UNDER_WAY = 64

# The most hops of the trace of a frame: a TTL may have 255.
_MOST_TRACED = 300

# Reserved ports (OpenFlow 1.3.5, 7.2.1).
_IN_PORT, _FLOOD, _ALL, _CONTROLLER = 0xFFFFFFF8, 0xFFFFFFFB, 0xFFFFFFFC, 0xFFFFFFFD

_ALL_BITS = (1 << 64) - 1
_SWITCH_BITS = _ALL_BITS ^ 0xFFFFFFFF


class NotFlat(ValueError):
    """A network that cannot be one switch: because of which switch, of which of its entries or groups or ports, and why."""

    def __init__(self, switch: str, what: str, why: str) -> None:
        self.switch, self.what, self.why = switch, what, why
        super().__init__(f"{switch}, {what}: {why}")


@dataclass(frozen=True)
class NetworkPath:
    """Frames that take the same steps from switch to switch, and one of them, whose trace was compared with this path.

    `places` are the ports to which it comes, hop by hop. `arrived` is what reaches hosts, `controllers` how many packets go to
    controllers, and `is_under_way` whether it still crosses links after the last hop that was looked at.
    """

    frame: bytes
    places: tuple[Place, ...]
    arrived: tuple[Arrived, ...]
    controllers: int
    is_under_way: bool
    trace: NetworkTrace

    def __str__(self) -> str:
        ends = [f"reaches {it.switch} port {it.port}" for it in self.arrived] + ["goes to the controller"] * self.controllers
        if self.is_under_way:
            round_trip = ", ".join(map(str, self.trace.loop))
            ends.append(f"goes round {round_trip}" if round_trip else "is still under way")
        switch, port = self.places[-1]
        said = ", ".join(ends) or f"ends at {switch} port {port}"
        return f"{said}, {len(self.places)} hops: {self.frame.hex()}"


@dataclass(frozen=True)
class NetworkPaths:
    """The paths of all frames that a host sends, and why frames are undecided: docs/PATHS.md has the words."""

    paths: tuple[NetworkPath, ...]
    undecided: tuple[str, ...]

    @property
    def hosts(self) -> dict[Place, list[NetworkPath]]:
        """The ports at which hosts are reached, each with the paths to it."""
        places = {(it.switch, it.port) for path in self.paths for it in path.arrived}
        return {place: [path for path in self.paths if any((it.switch, it.port) == place for it in path.arrived)] for place in sorted(places)}

    @property
    def loops(self) -> list[NetworkPath]:
        """The paths of frames that still cross links after the last hop that was looked at."""
        return [it for it in self.paths if it.is_under_way]

    @property
    def ended(self) -> list[NetworkPath]:
        """The paths of which nothing reaches a host or a controller; `places` says where they end."""
        return [it for it in self.paths if not (it.arrived or it.controllers or it.is_under_way)]

    def __str__(self) -> str:
        return "\n".join([*map(str, self.paths), *(f"undecided: {it}" for it in self.undecided), f"{len(self.paths)} paths"])


def network_paths(switches: Mapping[str, Switch], links: Links, start: Place, match: str | None, hops: int, steps: int | None) -> NetworkPaths:
    """The paths of the frames that come to a port. NotFlat if the network cannot be one switch, ValueError for a bad match."""
    if not 1 <= hops <= MOST_HOPS:
        raise ValueError(f"a flat switch has 1 to {MOST_HOPS} hops, not {hops}")
    if match is not None and "in_port" in match:
        raise ValueError("in_port: the port is an argument of its own")
    flat = _Flat(switches, links, start, hops)
    found = paths(flat.text(), port=flat.hosts[start], match=match, steps=steps, ports=flat.ports(), program=switches[start[0]].program)
    shown = [flat.path(it, follow(switches, links, _MOST_TRACED, start, bytes.fromhex(it["frame"]))) for it in found["paths"]]
    return NetworkPaths(tuple(shown), tuple(found["undecided"]))


class _Flat:
    """The flat switch of the frames that come to one port."""

    def __init__(self, switches: Mapping[str, Switch], links: Links, start: Place, hops: int) -> None:
        self._links, self._start, self._hops = links, start, hops
        self._up = {(name, port) for name, switch in switches.items() for port in _ports_up(name, switch)}
        if start not in self._up:
            raise NotFlat(start[0], f"port {start[1]}", "it does not receive")
        # the ports of the flat switch
        self.hosts = {place: number for number, place in enumerate(sorted({*self._up} - {*links} | {start}), 1)}
        if len(self.hosts) >= _MOST_PORTS:
            raise NotFlat(start[0], f"port {start[1]}", f"the network has {len(self.hosts)} ports without a link, and a flat switch {_MOST_PORTS - 1}")
        self._names = list(switches)
        self._flows = {name: _flows(switch) for name, switch in switches.items()}

    def ports(self) -> str:
        """The ports of the flat switch, also those that no entry names."""
        return f"1-{len(self.hosts)},{_UNDER_WAY}"

    def text(self) -> str:
        """The flow text of the flat switch."""
        lines: list[str] = []
        here = {self._start}
        for hop in range(self._hops):
            entries = self._table(hop, here)
            lines += [line for entry, _ in entries for line in entry]
            here = {onward for _, onward in entries if onward}
        return "".join(f"{it}\n" for it in lines)

    def _table(self, hop: int, here: set[Place]) -> list[tuple[list[str], Place | None]]:
        """The entries of a hop. If two have one priority and match, such as one for a port and one for all ports, the older one wins."""
        entries: dict[tuple[str, ...], tuple[list[str], Place | None]] = {}
        for lines, onward in (it for name in self._names for flow in self._flows[name] for it in self._entries(hop, name, flow, here)):
            entries.setdefault(tuple(it for it in lines if it.startswith(("flow ", "match "))), (lines, onward))
        return list(entries.values())

    def _entries(self, hop: int, name: str, flow: Flow, here: set[Place]) -> list[tuple[list[str], Place | None]]:
        """An entry of a switch in the table of a hop, once for each port at which it does something else: first those, then all others."""
        ports = {port for switch, port in here if switch == name}
        outputs = {int(it[1]) for it in flow.apply if it[0] == "output"}
        wanted = {int(it[1], 16) for it in flow.match if it[0] == "in_port"}
        alone = ports & (wanted or outputs)
        if hop == 0 or _IN_PORT in outputs:
            alone = ports & (wanted or ports)
        entries = [self._entry(hop, name, flow, port) for port in sorted(alone)]
        return entries if wanted or ports == alone else [*entries, self._entry(hop, name, flow, None)]

    def _entry(self, hop: int, name: str, flow: Flow, port: int | None) -> tuple[list[str], Place | None]:
        """The lines of an entry for the packets that come to a port, or to any port, and the port to which they go on."""
        if why := _refusal(flow):
            raise NotFlat(name, _name_of(flow), why)
        actions, onward = self._actions(name, flow, port)
        is_last = hop + 1 == self._hops
        if onward and is_last:
            actions.append(f"output {_UNDER_WAY} 0")
        lines = [f"flow {hop} {flow.priority} 0x{0:016x} 0 0 0", self._where(hop, name, port)]
        lines += [f"match {' '.join(it)}" for it in flow.match if it[0] != "in_port"]
        lines += ["apply", *actions] if actions else []
        if onward and not is_last:
            lines += [f"metadata 0x{self._number(*onward):016x} 0x{_ALL_BITS:016x}", f"goto {hop + 1}"]
        return lines, onward

    def _where(self, hop: int, name: str, port: int | None) -> str:
        """The condition that a packet came to this port of this switch, or to any of its ports."""
        if hop == 0:
            return f"match in_port 0x{self.hosts[self._start]:08x}"
        mask = f" 0x{_SWITCH_BITS:016x}" if port is None else ""
        return f"match metadata 0x{self._number(name, port or 0):016x}{mask}"

    def _number(self, name: str, port: int) -> int:
        """METADATA of the packets that came to a port of a switch."""
        return self._names.index(name) + 1 << 32 | port

    def _actions(self, name: str, flow: Flow, port: int | None) -> tuple[list[str], Place | None]:
        """The actions of an entry at the flat switch, and where its link ends, if it sends over a link."""
        actions: list[str] = []
        onward: Place | None = None
        for words in flow.apply:
            target = int(words[1]) if words[0] == "output" else _CONTROLLER
            place = (name, port if port and target == _IN_PORT else target)
            if words[0] != "output" and onward:
                raise NotFlat(name, _name_of(flow), "it changes packets after it sent them over a link")
            if target == _CONTROLLER:
                # an action that is no OUTPUT, too
                actions.append(" ".join(words))
            elif target == port or place not in self._up:
                continue
            elif place not in self._links:
                # the flat switch, too, sends nothing by an OUTPUT to the port at which the frame came
                actions.append(f"output {_IN_PORT if place == self._start else self.hosts[place]} 0")
            elif onward:
                raise NotFlat(name, _name_of(flow), "it sends over two links")
            else:
                link = self._links[place]
                onward = (link.to_switch, link.to_port)
        return actions, onward if onward in self._up else None

    def path(self, found: dict[str, Any], trace: NetworkTrace) -> NetworkPath:
        """A path of the flat switch in the words of the network. RuntimeError if the trace of its frame in the network is another."""
        marks = [int(it.split(" ")[1], 16) for it in found["steps"] if it.startswith("metadata ")]
        places = [self._start, *((self._names[(it >> 32) - 1], it & 0xFFFFFFFF) for it in marks)]
        hosts = {number: place for place, number in self.hosts.items()}
        arrived = [Arrived(*hosts[it["port"]], bytes.fromhex(it["frame"])) for it in found["items"] if it["port"] in hosts]
        ports = [it["port"] for it in found["items"]]
        is_under_way = _UNDER_WAY in ports
        seen = {(it.switch, it.port) for it in trace.hops if it.steps}
        if not seen >= {*places} or not (is_under_way or seen == {*places} and Counter(arrived) == Counter(trace.arrived)):
            raise RuntimeError(f"the flat switch and the network treat this frame differently: {found['frame']}")
        return NetworkPath(bytes.fromhex(found["frame"]), tuple(places), tuple(arrived), ports.count("controller"), is_under_way, trace)


def _flows(switch: Switch) -> list[Flow]:
    """The entries of table 0, oldest first."""
    return flow_text.read(switch.flows()).flows_of(0)


def _ports_up(name: str, switch: Switch) -> list[int]:
    """The ports that receive and send."""
    ports = switch.ports()
    for it in ports:
        if it["config"]:
            raise NotFlat(name, f"port {it['port_no']}", "a PORT_MOD has configured it")
    # the bit LINK_DOWN of a port's state (OpenFlow 1.3.5, 7.2.1)
    return [it["port_no"] for it in ports if not it["state"] & 1]


def _name_of(flow: Flow) -> str:
    match = ", ".join(field_text(it) for it in flow.match) or "any packet"
    return f"table {flow.table} entry {flow.place} (priority {flow.priority}, {match})"


def _refusal(flow: Flow) -> str | None:
    """Why an entry cannot be in a flat switch, whatever comes to it."""
    targets = {int(it[1]) for it in flow.apply if it[0] == "output"}
    reasons = {
        "it goes to another table": flow.goto is not None,
        "it writes actions, which run at the end of the path": bool(flow.write),
        "it writes METADATA": flow.metadata is not None,
        "it matches METADATA": any(it[0] == "metadata" for it in flow.match),
        "it sends to a group": any(it[0] == "to_group" for it in flow.apply),
        "it sends to FLOOD or ALL": bool(targets & {_FLOOD, _ALL}),
    }
    return next((why for why, holds in reasons.items() if holds), None)
