"""TCP connections of a capture: the bytes of both sides, in order."""

from __future__ import annotations

import heapq
import ipaddress
import struct
from collections.abc import Iterable
from typing import NamedTuple

from .pcap import ETHERNET, Packet

# Link types whose packets begin with an IP header (101 and its older numbers; IPv4 and IPv6 alone).
_RAW = (12, 14, 101, 228, 229)
# BSD loopback, and Linux cooked captures of both versions: where the type of the packet is, and how long the header is.
_LOOPBACK = 0
_COOKED = {113: (14, 16), 276: (0, 20)}
_TAGS = (0x8100, 0x88A8, 0x9100)
_IPV4, _IPV6 = 0x0800, 0x86DD
_TCP = 6

FIN, SYN, RST, ACK = 1, 2, 4, 16

_HALF = 1 << 31
_MASK = 0xFFFFFFFF


class End(NamedTuple):
    """An end of a connection."""

    address: str
    port: int

    def __str__(self) -> str:
        return f"[{self.address}]:{self.port}" if ":" in self.address else f"{self.address}:{self.port}"


class Segment(NamedTuple):
    source: End
    target: End
    flags: int
    sequence: int
    acknowledged: int
    data: bytes


class Piece(NamedTuple):
    """Bytes of a side (0 is the side that connected, as far as the capture shows it), with the time and the packet at which they were complete."""

    nanoseconds: int
    number: int
    side: int
    data: bytes


class _Early(NamedTuple):
    """A segment that waits for bytes before it: the place of its first byte, the packet, and its bytes."""

    place: int
    number: int
    data: bytes


class _Stream:
    """The bytes of one side. Places count its bytes from 0."""

    def __init__(self) -> None:
        # the place and the sequence number of the next byte; no number before the first segment
        self.place = 0
        self.sequence: int | None = None
        # the number of its first byte, if the capture has its SYN
        self.first: int | None = None
        # a heap
        self.early: list[_Early] = []
        # the packets in which the other side acknowledges bytes, and up to which place
        self.acknowledged: list[tuple[int, int]] = []
        self.is_ended = False

    def begin(self, sequence: int) -> None:
        if self.place == 0:
            self.sequence = self.first = sequence & _MASK

    def place_of(self, sequence: int) -> int:
        """The place of a sequence number, which is assumed to be near the next byte."""
        if self.sequence is None:
            self.sequence = sequence
        ahead = (sequence - self.sequence) & _MASK
        return self.place + (ahead if ahead < _HALF else ahead - _MASK - 1)

    def add(self, number: int, sequence: int, data: bytes) -> list[bytes]:
        """Adds a segment, and returns the bytes that are now complete, in order."""
        heapq.heappush(self.early, _Early(self.place_of(sequence), number, data))
        taken = []
        while self.early and self.early[0].place <= self.place:
            first = heapq.heappop(self.early)
            if new := first.data[self.place - first.place :]:
                assert self.sequence is not None
                self.place += len(new)
                self.sequence = (self.sequence + len(new)) & _MASK
                taken.append(new)
        return taken

    def gap(self) -> tuple[int, int] | None:
        """The packet before which the capture lacks bytes, and how many; None if it lacks none."""
        found = [(it.number, it.place - self.place) for it in self.early]
        # the end of a side counts as a byte
        found += [(number, place - self.place) for number, place in self.acknowledged if place > self.place + self.is_ended]
        return min(found, default=None)


class Connection:
    """A TCP connection. Duplicate bytes count once, and early bytes wait for those before them."""

    def __init__(self, sides: tuple[End, End]) -> None:
        self.sides = sides
        self.pieces: list[Piece] = []
        # when it ended, and the side that ended it first
        self.ended: int | None = None
        self.ended_by: int | None = None
        # the packets of which the capture kept a part
        self.cut: list[int] = []
        # whether bytes are missing, and what came after them was dropped
        self.is_cut_off = False
        self._streams = (_Stream(), _Stream())

    @property
    def name(self) -> str:
        return f"{self.sides[0]} to {self.sides[1]}"

    def add(self, packet: Packet, segment: Segment) -> None:
        side = self.sides.index(segment.source)
        stream, other = self._streams[side], self._streams[1 - side]
        if packet.is_cut:
            self.cut.append(packet.number)
        if segment.flags & ACK and other.sequence is not None:
            other.acknowledged.append((packet.number, other.place_of(segment.acknowledged)))
        if segment.flags & SYN:
            stream.begin(segment.sequence + 1)
        elif segment.data:
            taken = stream.add(packet.number, segment.sequence, segment.data)
            self.pieces += [Piece(packet.nanoseconds, packet.number, side, it) for it in taken]
        if segment.flags & (FIN | RST):
            if self.ended_by is None:
                self.ended, self.ended_by = packet.nanoseconds, side
            stream.is_ended = True

    def has_begin_of(self, side: int) -> bool:
        """Whether the capture has the SYN of a side, and so its first bytes are the first of all."""
        return self._streams[side].first is not None

    def is_begun_by(self, segment: Segment) -> bool:
        """Whether this SYN may belong to it: it is the one with which it began, sent again, or no bytes were seen yet."""
        first = self._streams[self.sides.index(segment.source)].first
        return not self.pieces or first == (segment.sequence + 1) & _MASK

    def end_at_gap(self) -> str | None:
        """Drops everything after missing bytes, on both sides, and returns the place at which they are missing; None if none are."""
        gaps = [(*gap, side) for side, stream in enumerate(self._streams) if (gap := stream.gap()) is not None]
        if not gaps:
            return None
        number, count, side = min(gaps)
        kept = [it for it in self.pieces if it.number < number]
        left = len(self.pieces) - len(kept) + sum(len(it.early) for it in self._streams)
        self.pieces = kept
        self.ended = self.ended_by = None
        self.is_cut_off = True
        return f"{self.name}: {count} bytes of {self.sides[side]} are missing before packet {number}; {left} segments from there on are left out"


def connections(captured: Iterable[Packet], port: int | None = None) -> list[Connection]:
    """The TCP connections of a capture with this port at either end, in the order in which they begin."""
    found: dict[frozenset[End], Connection] = {}
    all_of_them: list[Connection] = []
    latest = 0
    for packet in captured:
        # in the order of the file, whatever the clocks of several interfaces say
        latest = max(latest, packet.nanoseconds)
        packet = packet._replace(nanoseconds=latest)
        segment = segment_of(packet)
        if segment is None or (port is not None and port not in (segment.source.port, segment.target.port)):
            continue
        key = frozenset((segment.source, segment.target))
        is_first = segment.flags & (SYN | ACK) == SYN
        if key not in found or (is_first and not found[key].is_begun_by(segment)):
            sides = (segment.source, segment.target)
            # without the SYN the side with the greater port is taken for the one that connected
            if not segment.flags & SYN and sides[0].port < sides[1].port or segment.flags & (SYN | ACK) == SYN | ACK:
                sides = (segment.target, segment.source)
            found[key] = Connection(sides)
            all_of_them.append(found[key])
        found[key].add(packet, segment)
    return all_of_them


def segment_of(packet: Packet) -> Segment | None:
    """The TCP segment of a packet, if it has one."""
    ip = _ip(packet)
    if len(ip) >= 20 and ip[0] >> 4 == 4 and ip[9] == _TCP and not struct.unpack_from("!H", ip, 6)[0] & 0x1FFF:
        # a length of 0: the network card cuts it into segments
        total = int.from_bytes(ip[2:4], "big") or len(ip)
        source, target, tcp = ip[12:16], ip[16:20], ip[(ip[0] & 15) * 4 : total]
    elif len(ip) >= 40 and ip[0] >> 4 == 6 and ip[6] == _TCP:
        source, target, tcp = ip[8:24], ip[24:40], ip[40 : 40 + (int.from_bytes(ip[4:6], "big") or len(ip))]
    else:
        return None
    if len(tcp) < 20:
        return None
    source_port, target_port, sequence, acknowledged = struct.unpack_from("!HHII", tcp)
    ends = End(str(ipaddress.ip_address(source)), source_port), End(str(ipaddress.ip_address(target)), target_port)
    return Segment(*ends, tcp[13], sequence, acknowledged, tcp[(tcp[12] >> 4) * 4 :])


def _ip(packet: Packet) -> bytes:
    """The IP packet in a packet, or None."""
    data, link = packet.data, packet.link
    if link in _RAW:
        return data
    if link == _LOOPBACK:
        return data[4:]
    if link == ETHERNET:
        at, end = 12, 14
    elif link in _COOKED:
        at, end = _COOKED[link]
    else:
        return b""
    kind = int.from_bytes(data[at : at + 2], "big")
    while kind in _TAGS and len(data) >= end + 4:
        kind = int.from_bytes(data[end + 2 : end + 4], "big")
        end += 4
    return data[end:] if kind in (_IPV4, _IPV6) else b""
