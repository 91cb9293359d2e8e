"""Flow text (docs/FLOWTEXT.md) as values: groups with their buckets, and flows with their matches and instructions."""

from __future__ import annotations

from collections.abc import Iterator
from dataclasses import dataclass, field

# OFPP_ANY and OFPG_ANY: a bucket watches nothing (OpenFlow 1.3.5, 7.3.4.2).
_ANY = "4294967295"

Words = tuple[str, ...]


@dataclass
class Bucket:
    """A bucket of a group; `watches` is empty, or names what it watches, such as `port 2`."""

    watches: str
    actions: list[Words] = field(default_factory=list)


@dataclass
class Group:
    number: int
    kind: str
    buckets: list[Bucket] = field(default_factory=list)


@dataclass
class Flow:
    """A flow entry; `place` is its position by age in its table, from 0, as traces name it."""

    table: int
    place: int
    priority: int
    idle: int
    hard: int
    match: list[Words] = field(default_factory=list)
    apply: list[Words] = field(default_factory=list)
    write: list[Words] = field(default_factory=list)
    clears: bool = False
    metadata: Words | None = None
    goto: int | None = None


@dataclass
class Configuration:
    groups: list[Group] = field(default_factory=list)
    flows: list[Flow] = field(default_factory=list)

    def tables(self) -> list[int]:
        """The tables that have a flow or to which a flow leads, and table 0, at which each packet begins."""
        ways = [it.goto for it in self.flows if it.goto is not None]
        return sorted({0, *(it.table for it in self.flows), *ways})

    def flows_of(self, table: int) -> list[Flow]:
        """The flows of a table, oldest first."""
        return [it for it in self.flows if it.table == table]


def lines_of(text: str) -> Iterator[Words]:
    for line in text.split("\n"):
        if line and not line.startswith("#"):
            yield tuple(line.split(" "))


def read(text: str) -> Configuration:
    """The configuration of a text that `ofswitch dis` printed: its lines are in order, and none is refused."""
    whole = Configuration()
    actions: list[Words] = []
    for word, *rest in lines_of(text):
        match word:
            case "group":
                whole.groups.append(Group(int(rest[0]), rest[1]))
            case "bucket":
                actions = _add_bucket(whole.groups[-1], rest)
            case "flow":
                table, priority, _cookie, idle, hard, _flags = rest
                place = len(whole.flows_of(int(table)))
                whole.flows.append(Flow(int(table), place, int(priority), int(idle), int(hard)))
            case "match":
                whole.flows[-1].match.append(tuple(rest))
            case "apply":
                actions = whole.flows[-1].apply
            case "write":
                actions = whole.flows[-1].write
            case "clear":
                whole.flows[-1].clears = True
            case "metadata":
                whole.flows[-1].metadata = tuple(rest)
            case "goto":
                whole.flows[-1].goto = int(rest[0])
            case _:
                actions.append((word, *rest))
    return whole


def _add_bucket(group: Group, words: list[str]) -> list[Words]:
    _weight, port, number = words
    watched = [f"port {port}"] * (port != _ANY) + [f"group {number}"] * (number != _ANY)
    group.buckets.append(Bucket(" and ".join(watched) if group.kind == "ff" else ""))
    return group.buckets[-1].actions
