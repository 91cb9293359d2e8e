"""OpenFlow 1.3 connections of a capture: the messages of each side, and which side is the switch."""

from __future__ import annotations

from collections import Counter
from collections.abc import Iterator
from dataclasses import dataclass, field
from typing import Literal, NamedTuple

from . import tcp
from .message_types import MessageType
from .pcap import CaptureError, Packet, packets
from .program import StrPath

_VERSION = 4

# The versions that a HELLO may have: 1.0 to 1.5.
_VERSIONS = range(1, 7)

_OF_SWITCH = {
    MessageType.FEATURES_REPLY,
    MessageType.GET_CONFIG_REPLY,
    MessageType.PACKET_IN,
    MessageType.FLOW_REMOVED,
    MessageType.PORT_STATUS,
    MessageType.MULTIPART_REPLY,
    MessageType.BARRIER_REPLY,
    MessageType.QUEUE_GET_CONFIG_REPLY,
    MessageType.ROLE_REPLY,
    MessageType.GET_ASYNC_REPLY,
}
_OF_BOTH = {
    MessageType.HELLO,
    MessageType.ERROR,
    MessageType.ECHO_REQUEST,
    MessageType.ECHO_REPLY,
    MessageType.EXPERIMENTER,
}


class Message(NamedTuple):
    """A message, the time and the packet of the capture at which it was complete, and whether the switch sent it."""

    nanoseconds: int
    number: int
    is_of_switch: bool
    data: bytes


@dataclass
class Session:
    """A connection of a controller with a switch."""

    name: str
    began: int
    messages: list[Message]
    # when it ended, if the capture shows it
    ended: int | None
    # the side that ended it first; "unknown" if bytes are missing
    ended_by: Literal["switch", "controller", "nobody", "unknown"] = "unknown"
    datapath: int | None = None


@dataclass
class _Side:
    """The bytes that one side of a connection has sent."""

    end: tcp.End
    # whether the capture has its first bytes
    is_begun: bool
    messages: list[tuple[tcp.Piece, bytes]] = field(default_factory=list)
    rest: bytes = b""

    @property
    def begins_with_hello(self) -> bool:
        first = self.messages[0][1] if self.messages else bytes(2)
        return first[0] in _VERSIONS and first[1] == MessageType.HELLO

    def add(self, piece: tcp.Piece) -> None:
        self.rest += piece.data
        while len(self.rest) >= 8:
            size = max(8, int.from_bytes(self.rest[2:4], "big"))
            if len(self.rest) < size:
                return
            self.messages.append((piece, self.rest[:size]))
            self.rest = self.rest[size:]


@dataclass
class Notes:
    """The parts of a capture that could not be used, in words, with their places."""

    lines: list[str] = field(default_factory=list)

    def add(self, text: str) -> None:
        self.lines.append(text)


def kept_packets(path: StrPath, notes: Notes) -> Iterator[Packet]:
    """The packets of a capture; if it is truncated, those before that place."""
    found = packets(path)
    try:
        yield from found
    except CaptureError as fault:
        notes.add(str(fault))


def read(path: StrPath, port: int | None, datapath: int | None, notes: Notes) -> list[Session]:
    """The sessions of one switch, one after the other: of the switch that `datapath` names, or of the first switch."""
    made = []
    for connection in tcp.connections(kept_packets(path, notes), port):
        sides = _sides(connection, notes)
        if sides is not None:
            made.append((connection, sides))
    scores = _scores([sides for _, sides in made])
    sessions = []
    for connection, sides in made:
        if scores[sides[0].end] == scores[sides[1].end]:
            notes.add(f"{connection.name}: nothing shows which side is the switch; left out")
        else:
            switch = int(scores[sides[1].end] > scores[sides[0].end])
            sessions.append(_session(connection, sides, switch, notes))
    return _one_at_a_time(_of_one_switch(sessions, datapath, notes), notes)


def _sides(connection: tcp.Connection, notes: Notes) -> tuple[_Side, _Side] | None:
    """The messages of both sides, if one side begins with HELLO, the beginnings of both are there, and they speak OpenFlow 1.3."""
    gap = connection.end_at_gap()
    sides = (_Side(connection.sides[0], connection.has_begin_of(0)), _Side(connection.sides[1], connection.has_begin_of(1)))
    for piece in connection.pieces:
        sides[piece.side].add(piece)
    # a first message that is no HELLO is a fault that a switch has to answer, if it is the first one
    hellos = [side.begins_with_hello for side in sides]
    if not any(hellos) or not all(hello or side.is_begun for hello, side in zip(hellos, sides)):
        if connection.pieces:
            notes.add(f"{connection.name}: the capture does not have the HELLO of both sides; left out")
        return None
    versions = {data[0] for side in sides for _, data in side.messages if data[1] != MessageType.HELLO}
    if versions and _VERSION not in versions:
        notes.add(f"{connection.name}: messages of version {min(versions)}, and not of OpenFlow 1.3 (version 4); left out")
        return None
    if connection.cut:
        notes.add(f"{connection.name}: the capture has only a part of packet {connection.cut[0]}{_more(connection.cut)}")
    if gap is not None:
        notes.add(gap)
    for side in sides:
        if side.rest:
            notes.add(f"{connection.name}: the bytes of {side.end} end inside a message, of which there are {len(side.rest)} bytes")
    return sides


def _more(numbers: list[int]) -> str:
    return f" and of {len(numbers) - 1} more" if len(numbers) > 1 else ""


def _scores(pairs: list[tuple[_Side, _Side]]) -> Counter[tcp.End]:
    """For each end, how many more messages it sends that only a switch sends, in all its connections. HELLO and ECHO do not count."""
    scores: Counter[tcp.End] = Counter()
    for sides in pairs:
        for side in sides:
            for _, data in side.messages:
                if data[1] in _OF_SWITCH:
                    scores[side.end] += 1
                elif data[1] not in _OF_BOTH:
                    scores[side.end] -= 1
    return scores


def _session(connection: tcp.Connection, sides: tuple[_Side, _Side], switch: int, notes: Notes) -> Session:
    # by packet; what one packet completes is of one side
    messages = [
        Message(piece.nanoseconds, piece.number, place == switch, data)
        for place, side in enumerate(sides)
        for piece, data in side.messages
    ]
    messages.sort(key=lambda it: it.number)
    session = Session(connection.name, connection.pieces[0].nanoseconds, messages, connection.ended)
    if not connection.is_cut_off:
        session.ended_by = "nobody" if connection.ended_by is None else "switch" if connection.ended_by == switch else "controller"
    features = [it.data for it in messages if it.is_of_switch and it.data[1] == MessageType.FEATURES_REPLY and len(it.data) >= 16]
    if features:
        session.datapath = int.from_bytes(features[0][8:16], "big")
    return session


def _of_one_switch(sessions: list[Session], datapath: int | None, notes: Notes) -> list[Session]:
    """The sessions of one datapath_id; one without a FEATURES_REPLY belongs to it, if it is the only one."""
    ids = list(dict.fromkeys(it.datapath for it in sessions if it.datapath is not None))
    chosen = datapath if datapath is not None else ids[0] if ids else None
    kept = []
    for session in sessions:
        if session.datapath == chosen or (session.datapath is None and (len(ids) <= 1 or datapath is None and not ids)):
            kept.append(session)
        else:
            whose = "a switch that does not say its datapath_id" if session.datapath is None else f"datapath_id {session.datapath:#x}"
            notes.add(f"{session.name}: of {whose}; left out")
    return kept


def _one_at_a_time(sessions: list[Session], notes: Notes) -> list[Session]:
    """The sessions in their order, without those that begin before another one has ended."""
    kept: list[Session] = []
    end = 0
    for session in sorted(sessions, key=lambda it: it.began):
        if session.began < end:
            notes.add(f"{session.name}: another connection lasts while this one begins; left out")
            continue
        kept.append(session)
        end = session.ended or session.messages[-1].nanoseconds
    return kept
