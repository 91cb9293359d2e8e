"""Several switches, the links between their ports, and the frames that cross them."""

from __future__ import annotations

import contextlib
import threading
import time
from collections import deque
from collections.abc import Callable, Iterable, Iterator, Mapping
from types import TracebackType
from typing import Any, NamedTuple

from .bridge import Bridge
from .connection import Address
from .effects import Effect, Refused, Sent
from .flattening import MOST_HOPS, NetworkPaths, network_paths
from .hops import Arrived, Crossing, NetworkTrace, follow
from .rows import Octets, as_bytes
from .switch import Switch


class Looped(Exception):
    """Frames crossed more links than the network allows. `loop` has the links of the loop that a frame followed, if there is one."""

    def __init__(self, hops: int, loop: list[Crossing]) -> None:
        self.loop = loop
        way = f"a frame goes round {', '.join(map(str, loop))}" if loop else "no frame crossed a link twice"
        super().__init__(f"frames crossed {hops} links and are still under way: {way}")


class _Way(NamedTuple):
    """The links that a frame has crossed, the last one first."""

    crossing: Crossing
    before: _Way | None


class Network:
    """Switches by name, with links between their ports.

        with Network({"s1": 2, "s2": 2}) as network:         # ports 1 and 2 each
            network.link("s1", 2, "s2", 1)
            network.send("s1", 1, frame)                     # [Arrived("s2", 2, frame)]

    A frame that leaves by a linked port is received at the other end of the link. A frame that leaves by another port
    reaches a host. Only `send`, `carry` and `settle` carry frames, in the thread that calls them.
    """

    def __init__(
        self, switches: Mapping[str, int] | None = None, *, hops: int = 1000, new_switch: Callable[..., Switch] | None = None
    ) -> None:
        """Makes switches with this many ports each. One call of `send`, `carry` or `settle` carries frames over at most `hops` links.

        `new_switch` makes a switch from a name and the options of `Switch`; the default is `Switch`.
        """
        self.switches: dict[str, Switch] = {}
        self._bridges: dict[str, Bridge] = {}
        self._new_switch = new_switch or _new_switch
        # the most links that the frames of one call cross
        self.hops = hops
        self._ports: dict[str, set[int]] = {}
        self._links: dict[tuple[str, int], Crossing] = {}
        # guards the three fields below, which the threads of bridges also change
        self._lock = threading.Lock()
        self._under_way: deque[tuple[_Way, bytes]] = deque()
        self._arrived: list[Arrived] = []
        # the paths by which a frame came to a switch, oldest first, for the frames that a controller forwards
        self._came: dict[tuple[str, bytes], list[_Way]] = {}
        # set when a frame leaves a switch
        self._moved = threading.Event()
        # the path of the frame that this thread carries
        self._here = threading.local()
        for name, ports in (switches or {}).items():
            self.add(name, ports)

    def add(self, name: str, ports: int | Iterable[int] = 0, **options: Any) -> Switch:
        """Makes a switch with ports 1 to `ports`, or with the ports of these numbers.

        The options are those of `Switch`. Without `dpid` the first switch has the datapath_id 1, the second 2.
        """
        if name in self.switches:
            raise ValueError(f"there is a switch {name} already")
        dpid: int = options.setdefault("dpid", len(self.switches) + 1)
        switch = self._new_switch(name, **options)
        self.switches[name] = switch
        self._ports[name] = set()
        switch.watch(lambda row, effects: self._see(name, row, effects))
        for number in range(1, ports + 1) if isinstance(ports, int) else ports:
            # an address that no other port of the network has
            switch.port_add(number, hw=f"02{dpid & 0xFFFFFF:06x}{number & 0xFFFF:04x}")
        return switch

    def __getitem__(self, name: str) -> Switch:
        return self.switches[name]

    # ---- links

    def link(self, one: str, port: int, other: str, its: int) -> None:
        """A link joins two ports."""
        ends = ((one, port), (other, its))
        for name, number in ends:
            if number not in self._ports.get(name, ()):
                raise ValueError(f"there is no port {number} of {name}")
            if (name, number) in self._links:
                raise ValueError(f"port {number} of {name} has a link already")
        if ends[0] == ends[1]:
            raise ValueError("a link has two ends")
        self._links[one, port] = Crossing(one, port, other, its)
        self._links[other, its] = Crossing(other, its, one, port)

    def cut(self, one: str, port: int) -> None:
        """The link of this port goes down; the switches at both ends send a PORT_STATUS."""
        self._set_link(one, port, up=False)

    def mend(self, one: str, port: int) -> None:
        """The link of this port is up again."""
        self._set_link(one, port, up=True)

    def _set_link(self, one: str, port: int, up: bool) -> None:
        link = self._links.get((one, port))
        if link is None:
            raise ValueError(f"port {port} of {one} has no link")
        self.switches[one].port_link(port, up)
        self.switches[link.to_switch].port_link(link.to_port, up)

    # ---- frames and time

    def send(self, switch: str, port: int, frame: Octets) -> list[Arrived]:
        """A frame of a host is received at a port. Carries it and its copies, and returns the frames that reached hosts.

        Does not wait for controllers, as `settle` does. Raises Looped if frames cross more than `hops` links.
        """
        with self._lock:
            self._came.clear()
        self.switches[switch].frame(port, frame)
        return self.carry()

    def carry(self) -> list[Arrived]:
        """Carries frames until none is on its way, and returns the frames that reached hosts since the last call."""
        self._carry(self.hops)
        return self._taken()

    def settle(self, seconds: float = 0.1, timeout: float = 10.0) -> list[Arrived]:
        """Carries frames until none is on its way and no switch has played a row for this many seconds.

        Returns the frames that reached hosts since the last call. TimeoutError if frames and messages continue for `timeout` seconds.
        """
        end = time.monotonic() + timeout
        hops = self.hops
        while True:
            self._moved.clear()
            hops = self._carry(hops)
            left = max((seconds - it.idle() for it in self._bridges.values()), default=0.0)
            if left <= 0 and not self._under_way:
                with self._lock:
                    self._came.clear()
                return self._taken()
            if time.monotonic() > end:
                raise TimeoutError(f"not quiet within {timeout:g} s")
            self._moved.wait(max(0.0, left))

    def at(self, nanoseconds: int) -> None:
        """For all switches the time is this many nanoseconds after the start."""
        for switch in self.switches.values():
            switch.at(nanoseconds)

    # ---- queries, which send nothing

    def trace(self, switch: str, port: int, frame: Octets | str) -> NetworkTrace:
        """The hops that a frame of a host would take now, at most `hops`, each with its steps, until it rests or comes to a place again.

        `frame` may be in words, as for `Switch.frame`.
        """
        octets = self.switches[switch].frame_of(frame) if isinstance(frame, str) else as_bytes(frame)
        return follow(self.switches, self._links, self.hops, (switch, port), octets)

    def paths(self, switch: str, port: int, *, match: str | None = None, hops: int = MOST_HOPS, steps: int | None = None) -> NetworkPaths:
        """The paths of all frames that a host sends to a port, over at most so many switches (docs/LAB.md).

        With `match`, only of frames that match: `"ip,nw_dst=10.0.0.0/8"`. `steps` is that of `ofswitch paths`. Raises NotFlat if a
        switch has what one switch cannot do for all, such as a second table, and ValueError if an argument has a fault.
        """
        return network_paths(self.switches, self._links, (switch, port), match, hops, steps)

    # ---- controllers

    @contextlib.contextmanager
    def bridges(
        self, address: Address | Mapping[str, Address] | None = None, *, timeout: float = 10.0
    ) -> Iterator[dict[str, Bridge]]:
        """Until the end of the `with` each switch has a bridge, and so its own connection. Returns the bridges by name.

        All bridges connect to the controller at one address, or each to the address under its name. When the `with` begins,
        each switch has accepted the HELLO of its controller. Without an address each bridge listens at a free port.
        """
        with contextlib.ExitStack() as stack:
            for name, switch in self.switches.items():
                if address is None:
                    bridge = Bridge(switch)
                else:
                    bridge = Bridge.dial(switch, address[name] if isinstance(address, Mapping) else address)
                self._bridges[name] = stack.enter_context(bridge)
            stack.callback(self._bridges.clear)
            end = time.monotonic() + timeout
            for bridge in self._bridges.values() if address is not None else ():
                bridge.ready(max(0.0, end - time.monotonic()))
            yield self._bridges

    def until(self, condition: Callable[[Switch], bool], timeout: float = 10.0) -> None:
        """Waits until a condition holds for each switch, such as `lambda switch: "flow 0 0 " in switch.flows()`."""
        end = time.monotonic() + timeout
        for name, switch in self.switches.items():
            if name in self._bridges:
                self._bridges[name].until(lambda: condition(switch), max(0.0, end - time.monotonic()))
            elif not condition(switch):
                raise TimeoutError(f"the condition does not hold for {name}, which has no bridge")

    # ---- its end

    def close(self) -> None:
        """Ends all switches. Their logs stay."""
        for switch in self.switches.values():
            switch.close()

    def __enter__(self) -> Network:
        return self

    def __exit__(
        self, kind: type[BaseException] | None, fault: BaseException | None, trace: TracebackType | None
    ) -> None:
        self.close()

    # ---- inside

    def _carry(self, hops: int) -> int:
        """Carries frames until none is on its way, over at most this many links; returns how many links remain."""
        while True:
            with self._lock:
                if not self._under_way:
                    return hops
                if hops == 0:
                    raise self._looped()
                way, frame = self._under_way.popleft()
                self._came.setdefault((way.crossing.to_switch, frame), []).append(way)
            hops -= 1
            self._here.way = way
            try:
                self.switches[way.crossing.to_switch].frame(way.crossing.to_port, frame)
            finally:
                self._here.way = None

    def _see(self, name: str, row: str, effects: list[Effect]) -> None:
        """Keeps the frames that a row sends. A frame is not received at once: its switch may be playing a row in another thread."""
        if row.startswith("port "):
            self._see_port(name, row, effects)
        sent = [it for it in effects if isinstance(it, Sent)]
        if not sent:
            return
        with self._lock:
            for it in sent:
                link = self._links.get((name, it.port))
                if link is None:
                    self._arrived.append(Arrived(name, it.port, it.frame))
                else:
                    self._under_way.append((_Way(link, self._way_to(name, it)), it.frame))
        self._moved.set()

    def _way_to(self, name: str, sent: Sent) -> _Way | None:
        """The path of a frame that leaves: that of the carried frame, or else of the same bytes that came to another port."""
        here: _Way | None = getattr(self._here, "way", None)
        came = reversed(self._came.get((name, sent.frame), []))
        return here or next((it for it in came if it.crossing.to_port != sent.port), None)

    def _see_port(self, name: str, row: str, effects: list[Effect]) -> None:
        _, word, number, *_ = row.split(" ")
        if any(isinstance(it, Refused) for it in effects):
            return
        if word == "add":
            self._ports[name].add(int(number))
        elif word == "remove":
            self._ports[name].discard(int(number))

    def _taken(self) -> list[Arrived]:
        with self._lock:
            arrived, self._arrived = self._arrived, []
            return arrived

    def _looped(self) -> Looped:
        """Raises Looped with a loop of a frame that is on its way, and forgets all frames."""
        loops = (_loop(way) for way, _ in self._under_way)
        fault = Looped(self.hops, next(filter(None, loops), []))
        self._under_way.clear()
        self._arrived.clear()
        return fault


def _new_switch(name: str, **options: Any) -> Switch:
    return Switch(**options)


def _loop(way: _Way | None) -> list[Crossing]:
    """The links between two crossings of the same link by the frame, or none."""
    crossed: dict[Crossing, None] = {}
    while way is not None:
        if way.crossing in crossed:
            last = list(crossed)
            return last[last.index(way.crossing) :][::-1]
        crossed[way.crossing] = None
        way = way.before
    return []
