"""The text of a trace with notes (docs/TRACE.md) as values: the flows that a frame hits, and the arrows that it follows."""

from __future__ import annotations

from collections.abc import Iterator
from dataclasses import dataclass, field

from .flow_text import Configuration, Flow, Words


@dataclass
class Step:
    """A line of a trace, its number from 1, and the notes below it."""

    number: int
    words: Words
    notes: list[Words] = field(default_factory=list)


@dataclass
class Packet:
    """A packet on its path: the flows that it has hit, and the bucket of which it is a copy."""

    copy: int
    hits: list[Flow] = field(default_factory=list)
    bucket: tuple[int, int] | None = None
    runs_set: bool = False


@dataclass(frozen=True)
class FromFlow:
    """An arrow from a flow, by one of its instructions: `goto`, `apply` or `write`."""

    table: int
    place: int
    by: str


@dataclass(frozen=True)
class FromBucket:
    group: int
    bucket: int


Way = tuple[FromFlow | FromBucket, Words]


@dataclass
class Walk:
    """The contents of a trace: the flows that were hit, tables without a hit, the values that each table saw, and the steps of each arrow."""

    hits: set[tuple[int, int]] = field(default_factory=set)
    misses: set[int] = field(default_factory=set)
    sees: dict[int, list[str]] = field(default_factory=dict)
    ways: dict[Way, list[str]] = field(default_factory=dict)

    def take(self, way: Way, step: Step, packet: Packet) -> None:
        copy = f" (copy {packet.copy})" if packet.copy else ""
        self.ways.setdefault(way, []).append(f"{step.number}{copy}")


def steps_of(text: str) -> Iterator[Step]:
    """The steps of a trace, without the effects at the end."""
    step = None
    number = 0
    for line in text.split("\n"):
        if line.startswith("    ") and step is not None:
            step.notes.append(tuple(line.split()))
            continue
        if step is not None:
            yield step
        step = None
        if line and not line.startswith(("s ", "a ")):
            number += 1
            step = Step(number, tuple(line.split(" ")))
    if step is not None:
        yield step


def read(text: str, configuration: Configuration) -> Walk:
    walk = Walk()
    packets = [Packet(0)]
    copies = 0
    for step in steps_of(text):
        if not packets:
            break
        packet = packets[-1]
        match step.words:
            case ("lookup", table, *found):
                _look_up(walk, packet, step, configuration, int(table), found)
            case ("goto", _):
                walk.take((_flow_way(packet, "goto"), step.words), step, packet)
            case ("set",):
                packet.runs_set = True
            case ("output", port, _):
                walk.take((_source(packet, ("output", port)), ("output", port)), step, packet)
            case ("to_group", group):
                walk.take((_source(packet, step.words), step.words), step, packet)
                buckets = [int(note[1]) for note in step.notes if note[0] == "bucket"]
                packets += [Packet(copies + 1 + i, [], (int(group), bucket)) for i, bucket in reversed(list(enumerate(buckets)))]
                copies += len(buckets)
            case ("end",):
                packets.pop()
    return walk


def _look_up(walk: Walk, packet: Packet, step: Step, configuration: Configuration, table: int, found: list[str]) -> None:
    walk.sees[table] = [" ".join(note[1:]) for note in step.notes if note[0] == "sees"]
    if found == ["miss"]:
        walk.misses.add(table)
        return
    flow = configuration.flows_of(table)[int(found[1])]
    walk.hits.add((flow.table, flow.place))
    packet.hits.append(flow)


def _flow_way(packet: Packet, by: str) -> FromFlow | FromBucket:
    flow = packet.hits[-1]
    return FromFlow(flow.table, flow.place, by)


def _source(packet: Packet, words: Words) -> FromFlow | FromBucket:
    """The owner of an OUTPUT or a GROUP: a bucket, the flow that was hit last, or, for the action set, the last flow that wrote it."""
    if packet.bucket is not None:
        return FromBucket(*packet.bucket)
    if not packet.runs_set:
        return _flow_way(packet, "apply")
    for flow in reversed(packet.hits):
        if any(it[: len(words)] == words for it in flow.write):
            return FromFlow(flow.table, flow.place, "write")
    return _flow_way(packet, "write")
