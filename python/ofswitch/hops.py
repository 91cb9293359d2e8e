"""The hops of a frame from switch to switch, each with its steps. Nothing is sent: each switch says what it would do."""

from __future__ import annotations

from collections.abc import Mapping
from dataclasses import dataclass
from typing import NamedTuple

from .effects import Effect, Sent, effect_of
from .switch import Switch


@dataclass(frozen=True)
class Arrived:
    """A frame that left by a port without a link, and so reached a host."""

    switch: str
    port: int
    frame: bytes


class Crossing(NamedTuple):
    """A link in one direction: from the port by which a frame leaves to the port at which it is received."""

    switch: str
    port: int
    to_switch: str
    to_port: int

    def __str__(self) -> str:
        return f"{self.switch} port {self.port} to {self.to_switch} port {self.to_port}"


# A port of a switch by its name, and the links by the port at which they begin.
Place = tuple[str, int]
Links = Mapping[Place, Crossing]


@dataclass(frozen=True)
class Hop:
    """A frame that comes to a port of a switch, its steps there (docs/TRACE.md), and the effects that it has next.

    If the switch does not receive it, it has no step. A message to the controller is an effect only while a controller is connected.
    """

    switch: str
    port: int
    frame: bytes
    steps: tuple[str, ...]
    leaves: tuple[Effect, ...]

    def __str__(self) -> str:
        sent = [f"out by port {it.port}: {it.frame.hex()}" if isinstance(it, Sent) else repr(it) for it in self.leaves]
        ends = sent or ["nothing leaves" if self.steps else "not received"]
        return "\n".join([f"{self.switch} port {self.port}: {self.frame.hex()}", *(f"    {it}" for it in [*self.steps, *ends])])


@dataclass(frozen=True)
class NetworkTrace:
    """The hops of a frame and its copies, which frames reach hosts, and the links of a loop in which one circulates, or none.

    `is_under_way` says whether there are more hops than those that were followed.
    """

    hops: tuple[Hop, ...]
    arrived: tuple[Arrived, ...]
    loop: tuple[Crossing, ...]
    is_under_way: bool = False

    def __str__(self) -> str:
        ends = [f"arrives at {it.switch} port {it.port}: {it.frame.hex()}" for it in self.arrived]
        ends += [f"goes round for ever: {', '.join(map(str, self.loop))}"] * bool(self.loop)
        ends += [f"is still under way after {len(self.hops)} hops"] * self.is_under_way
        return "\n".join([*map(str, self.hops), *(ends or ["reaches no host"])])


def follow(switches: Mapping[str, Switch], links: Links, most: int, start: Place, frame: bytes) -> NetworkTrace:
    """The hops of a frame that comes to a port, depth first, at most so many. A packet that comes to a place again is not followed again."""
    hops: dict[tuple[Place, bytes], Hop] = {}
    loop: list[Crossing] = []
    is_under_way = False
    # packets at the port to which they come, each with those before it on its path
    todo: list[tuple[tuple[Place, bytes], tuple[tuple[Place, bytes], ...]]] = [((start, frame), ())]
    while todo:
        here, before = todo.pop()
        if here in before and not loop:
            loop = [_crossing_to(it, links) for it, _ in (*before[before.index(here) + 1 :], here)]
        if here in hops or len(hops) == most:
            is_under_way = is_under_way or here not in hops
            continue
        hops[here] = _hop(switches, *here)
        todo += [(it, (*before, here)) for it in reversed(_onward(hops[here], links))]
    sent = [(hop.switch, it) for hop in hops.values() for it in hop.leaves if isinstance(it, Sent)]
    arrived = [Arrived(switch, it.port, it.frame) for switch, it in sent if (switch, it.port) not in links]
    return NetworkTrace(tuple(hops.values()), tuple(arrived), tuple(loop), is_under_way)


def _hop(switches: Mapping[str, Switch], place: Place, frame: bytes) -> Hop:
    switch, port = place
    lines = switches[switch].steps(port, frame).splitlines()
    leaves = [it for it in lines if it.startswith(("s ", "a "))]
    return Hop(switch, port, frame, tuple(lines[: len(lines) - len(leaves)]), tuple(effect_of(it.encode()) for it in leaves))


def _onward(hop: Hop, links: Links) -> list[tuple[Place, bytes]]:
    """What comes to the other ends of links because of a hop."""
    sent = [(links.get((hop.switch, it.port)), it.frame) for it in hop.leaves if isinstance(it, Sent)]
    return [((link.to_switch, link.to_port), frame) for link, frame in sent if link is not None]


def _crossing_to(place: Place, links: Links) -> Crossing:
    """The link that ends at this port."""
    back = links[place]
    return Crossing(back.to_switch, back.to_port, back.switch, back.port)
