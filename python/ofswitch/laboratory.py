"""A network, its hosts and its controller, in which nothing happens by itself: each action of a schedule moves one thing."""

from __future__ import annotations

from collections import Counter, deque
from collections.abc import Callable, Iterable, Iterator, Mapping, Sequence
from dataclasses import dataclass
from typing import NamedTuple, Union

from . import rows
from .applications import Application
from .effects import Answer, Closed, Effect, Sent
from .switch import Switch

# A word, and what it is about: ("send", "a", "b").
Action = tuple[Union[str, int], ...]
# A port of a switch.
Place = tuple[str, int]

# The most deliveries of one rest, for each switch.
_MOST_DELIVERIES = 400

# How many seconds pass with one action `time`.
_SECONDS = 5

_BROADCAST = b"\xff" * 6
# a type that is free for experiments (IEEE Std 802)
_TYPE = b"\x88\xb5"


class Fault(AssertionError):
    """Something that must not happen. Its `kind` is what remains the same in a shorter schedule."""

    def __init__(self, kind: str, text: str) -> None:
        super().__init__(f"{kind}: {text}")
        self.kind = kind


class Event(NamedTuple):
    """A host has sent a frame, or received one: `word` is "sent" or "received"."""

    word: str
    host: str
    frame: bytes


class Played(NamedTuple):
    """A row that a switch has played, and its effects."""

    switch: str
    row: str
    effects: tuple[Effect, ...]


@dataclass(frozen=True)
class Topology:
    """Switches with their numbers of ports, links between ports, hosts at ports, and free ports to which hosts may move."""

    switches: Mapping[str, int]
    hosts: Mapping[str, Place]
    links: Sequence[tuple[str, int, str, int]] = ()
    moves: Sequence[Place] = ()

    def __post_init__(self) -> None:
        """ValueError for a port that does not exist, or that has two of these."""
        ends = [end for one, port, other, its in self.links for end in ((one, port), (other, its))]
        places = Counter([*ends, *self.hosts.values(), *self.moves])
        for (switch, port), count in places.items():
            if not 1 <= port <= self.switches.get(switch, 0):
                raise ValueError(f"there is no port {port} of {switch}")
            if count > 1:
                raise ValueError(f"port {port} of {switch} has {count} ends of links, hosts or free places")


Condition = Callable[["Laboratory"], object]


class Laboratory:
    """The queues are those of frames at the end of each link, and of messages from and to each switch. Each keeps its order."""

    def __init__(
        self, topology: Topology, application: Application, new_switch: Callable[..., Switch] = Switch, always: Iterable[Condition] = ()
    ) -> None:
        self.switches: dict[str, Switch] = {}
        self.hosts = dict(topology.hosts)
        self.addresses = {it: bytes([2, 0, 0, 0, 0, at]) for at, it in enumerate(self.hosts, 1)}
        self.free = list(topology.moves)
        # what happened: frames of hosts, ERRORs of switches, how often a frame came to the end of a link, and rows with actions between
        self.events: list[Event] = []
        self.errors: list[Answer] = []
        self.crossed: Counter[tuple[str, int, bytes]] = Counter()
        self.story: list[Action | Played] = []
        self._application = application
        self._always = list(always)
        self._links = [(one, port) for one, port, _, _ in topology.links]
        self._ends = {(one, port): (other, its) for one, port, other, its in topology.links}
        self._ends |= {end: start for start, end in self._ends.items()}
        self._is_cut: set[Place] = set()
        self._wires: dict[Place, deque[bytes]] = {it: deque() for it in self._ends}
        self._up: dict[str, deque[bytes]] = {}
        self._down: dict[str, deque[bytes]] = {}
        self._dpids: dict[str, int] = {}
        self._connected: set[str] = set()
        self._seconds = 0
        self._number = 0
        try:
            # all of them begin before the first one has to answer
            for name in topology.switches:
                self._add(name, new_switch)
            for name, ports in topology.switches.items():
                self._add_ports(name, ports)
        except BaseException:
            # such as a program that is missing: a controller in a process of its own must not be left behind
            self.close()
            raise

    def _add(self, name: str, new_switch: Callable[..., Switch]) -> None:
        dpid = self._dpids[name] = len(self.switches) + 1
        switch = self.switches[name] = new_switch(dpid=dpid)
        self._up[name], self._down[name] = deque(), deque()
        switch.watch(lambda row, effects: self._see(name, row, effects))

    def _add_ports(self, name: str, ports: int) -> None:
        # addresses that no other port of the network has
        addresses = {port: f"02{self._dpids[name]:06x}{port:04x}" for port in range(1, ports + 1)}
        self.switches[name].play_all(rows.port_add(port, it, None, True) for port, it in addresses.items())

    def start(self) -> None:
        """Connects all switches, and delivers everything."""
        for it in self.switches:
            self._connect(it)
        self.rest()

    def close(self) -> None:
        """Ends the switches, and the controller if it has `close`. Logs stay."""
        for it in (*self.switches.values(), self._application):
            getattr(it, "close", lambda: None)()

    # ---- for conditions

    def send(self, source: str, to: str) -> bytes:
        """A host sends a frame that no host has sent before, to another one or to all (`*`). Returns the frame."""
        self._number += 1
        address = _BROADCAST if to == "*" else self.addresses[to]
        frame = address + self.addresses[source] + _TYPE + self._number.to_bytes(4, "big")
        switch, port = self.hosts[source]
        self.events.append(Event("sent", source, frame))
        self.switches[switch].frame(port, frame)
        return frame

    def rest(self) -> None:
        """Delivers all messages and frames, until none is on its way."""
        most = _MOST_DELIVERIES * len(self.switches)
        for _ in range(most):
            action = next(self._deliveries(), None)
            if action is None:
                return
            self.do(action)
        raise Fault("not quiet", f"after {most} deliveries messages or frames are still on their way")

    def arrivals(self, source: str, to: str) -> int:
        """A host sends a frame to another, and all is delivered: how often that frame arrives."""
        frame = self.send(source, to)
        self.check()
        self.rest()
        return self.events.count(Event("received", to, frame))

    # ---- actions

    def do(self, action: Action) -> None:
        """Does an action. One that is not possible now does nothing."""
        word, *values = action
        self.story.append(action)
        getattr(self, str(word) if word in ("send", "rest") else f"_{word}")(*values)
        self.check()

    def check(self, conditions: Iterable[Condition] | None = None) -> None:
        """Raises Fault if one of these conditions does not hold, or one of those that always have to."""
        for it in self._always if conditions is None else conditions:
            try:
                it(self)
            except Fault:
                raise
            except AssertionError as fault:
                raise Fault(getattr(it, "__name__", "condition"), str(fault) or "does not hold") from fault

    def possible(self) -> list[Action]:
        """The actions that may come next. Deliveries are there twice, so that a random schedule has more of them."""
        hosts = list(self.hosts)
        found = [*self._deliveries(), *self._deliveries(), ("rest",), ("time",)]
        found += [("send", one, other) for one in hosts for other in [*hosts, "*"] if one != other]
        found += [("move", host, *place) for host in hosts for place in self.free]
        found += [("mend" if it in self._is_cut else "cut", *it) for it in self._links]
        return found + [("lost" if it in self._connected else "connect", it) for it in self.switches]

    def _deliveries(self) -> Iterator[Action]:
        yield from (("deliver", it) for it, queue in self._down.items() if queue)
        yield from (("controller", it) for it, queue in self._up.items() if queue)
        yield from (("wire", *it) for it, queue in self._wires.items() if queue)

    def _wire(self, switch: str, port: int) -> None:
        """The next frame of a link is received at this end of it."""
        if self._wires[switch, port]:
            frame = self._wires[switch, port].popleft()
            self.crossed[switch, port, frame] += 1
            if (switch, port) not in self._is_cut:
                self.switches[switch].frame(port, frame)

    def _controller(self, switch: str) -> None:
        """The controller handles the next message of a switch."""
        if self._up[switch]:
            data = self._up[switch].popleft()
            self._tell(lambda: self._application.message(self._dpids[switch], data))

    def _deliver(self, switch: str) -> None:
        """The switch handles the next message of the controller."""
        if self._down[switch]:
            self.switches[switch].feed(self._down[switch].popleft())

    def _connect(self, switch: str) -> None:
        if switch not in self._connected:
            self._connected.add(switch)
            self.switches[switch].connect()
            self._tell(lambda: self._application.connected(self._dpids[switch], lambda data: self._send_down(switch, data)))

    def _send_down(self, switch: str, data: bytes) -> None:
        if switch in self._connected:
            self._down[switch].append(data)

    def _lost(self, switch: str) -> None:
        if switch in self._connected:
            self.switches[switch].lost()
            self._disconnect(switch)

    def _disconnect(self, switch: str) -> None:
        self._connected.discard(switch)
        self._up[switch].clear()
        self._down[switch].clear()
        self._tell(lambda: self._application.lost(self._dpids[switch]))

    def _cut(self, switch: str, port: int) -> None:
        self._set_link(switch, port, up=False)

    def _mend(self, switch: str, port: int) -> None:
        self._set_link(switch, port, up=True)

    def _set_link(self, switch: str, port: int, up: bool) -> None:
        if up == ((switch, port) in self._is_cut):
            for name, number in ((switch, port), self._ends[switch, port]):
                (self._is_cut.discard if up else self._is_cut.add)((name, number))
                self.switches[name].port_link(number, up)

    def _move(self, host: str, switch: str, port: int) -> None:
        """A host moves to a free port."""
        if (switch, port) in self.free:
            self.free[self.free.index((switch, port))] = self.hosts[host]
            self.hosts[host] = (switch, port)

    def _time(self) -> None:
        self._seconds += _SECONDS
        for it in self.switches.values():
            it.at(self._seconds * 1_000_000_000)

    def settle(self) -> None:
        """Mends all links, makes all connections, and delivers everything."""
        ends: list[Action] = [*(("mend", *it) for it in self._links), *(("connect", it) for it in self.switches), ("rest",)]
        for action in ends:
            self.do(action)

    # ---- inside

    def _tell(self, call: Callable[[], None]) -> None:
        """Calls the application. An exception of it is a fault that was found."""
        try:
            call()
        except Exception as fault:
            raise Fault(f"the application raised {type(fault).__name__}", str(fault)) from fault

    def _see(self, name: str, row: str, effects: list[Effect]) -> None:
        """Puts what a switch sends into the queues."""
        self.story.append(Played(name, row, tuple(effects)))
        hosts = {place: host for host, place in self.hosts.items()}
        for it in effects:
            if isinstance(it, Answer):
                self._up[name].append(it.data)
                self.errors += [it] if it.error is not None else []
            elif isinstance(it, Sent) and (name, it.port) in self._ends:
                self._wires[self._ends[name, it.port]].append(it.frame)
            elif isinstance(it, Sent) and (host := hosts.get((name, it.port))) is not None:
                if it.frame[:6] in (self.addresses[host], _BROADCAST):
                    self.events.append(Event("received", host, it.frame))
            elif isinstance(it, Closed):
                self._disconnect(name)


# ---- conditions


def no_error(lab: Laboratory) -> None:
    """No switch answers with an ERROR."""
    if lab.errors:
        raise Fault("ERROR", repr(lab.errors[0]))


def no_loop(lab: Laboratory) -> None:
    """No frame crosses a link more than three times."""
    for (switch, port, _), count in lab.crossed.items():
        if count > 3:
            raise Fault("loop", f"a frame comes to port {port} of {switch} for the fourth time")


def all_reach(lab: Laboratory) -> None:
    """After each host has sent a frame to all, each frame from one host to another arrives, once."""
    for it in lab.hosts:
        lab.send(it, "*")
        lab.check()
        lab.rest()
    for one, other in ((one, other) for one in lab.hosts for other in lab.hosts if one != other):
        counts = [lab.arrivals(one, other) for _ in range(3)]
        if not any(counts):
            raise Fault("black hole", f"three frames from {one} to {other} do not arrive, although {other} has sent one")
        if max(counts) > 1:
            raise Fault("copies", f"a frame from {one} to {other} arrives {max(counts)} times")
