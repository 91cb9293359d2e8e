"""A recorded switch as rows of an event file: the messages of its controllers, and what it reported about its ports and frames."""

from __future__ import annotations

import struct
from collections.abc import Iterator
from dataclasses import dataclass, field

from . import rows
from .fields import Bytes, oxm_field
from .message_types import MessageType
from .pcap import ETHERNET
from .program import StrPath
from .sessions import Message, Notes, Session, kept_packets

_PORT_DESC = b"\0\x0d"
_PORT_SIZE = 64
_ADD, _DELETE = 0, 1
# ofp_port_state (OpenFlow 1.3.5, 7.2.1)
_LINK_DOWN = 1

# The most bytes of a frame of a row, with room for its word and its port.
_MOST_FRAME_BYTES = (rows.MOST_BYTES - len("f 4294967295 ")) // 2

# A port, and a capture of its frames.
PortFile = tuple[int, StrPath]


@dataclass
class Moment:
    """At a time, a row that is played, or a message of the recorded switch."""

    nanoseconds: int
    row: str = ""
    # the message: that of the row if there is a row, or else of the switch
    message: Message | None = None


@dataclass
class _Port:
    number: int
    hw: bytes
    name: str
    up: bool

    @classmethod
    def of(cls, data: bytes) -> _Port:
        """Reads an ofp_port (OpenFlow 1.3.5, 7.2.1)."""
        number, hw, name, _, state = struct.unpack_from("!I4x6s2x16sII", data)
        letters = name.split(b"\0")[0].decode("ascii", "ignore")
        return cls(number, hw, "".join(it for it in letters if "!" <= it <= "~")[:15], not state & _LINK_DOWN)

    @classmethod
    def unknown(cls, number: int) -> _Port:
        """A port of which only the number is known."""
        return cls(number, bytes.fromhex(f"02{number:010x}"), "", True)

    def added(self) -> str:
        return rows.port_add(self.number, self.hw, self.name or None, self.up)

    @property
    def is_physical(self) -> bool:
        return 1 <= self.number <= rows.MOST_PORT


@dataclass
class _Told:
    """The ports of the recorded switch, as far as it has reported them."""

    ups: dict[int, bool] = field(default_factory=dict)
    # those that it had at some time
    seen: set[int] = field(default_factory=set)

    def add(self, port: _Port) -> Iterator[str]:
        if port.is_physical and port.number not in self.ups:
            self.ups[port.number] = port.up
            self.seen.add(port.number)
            yield port.added()

    def rows_of_status(self, data: bytes) -> Iterator[str]:
        """The rows for a PORT_STATUS."""
        reason, port = data[8], _Port.of(data[16:])
        if reason == _ADD:
            yield from self.add(port)
        elif port.number not in self.ups:
            return
        elif reason == _DELETE:
            del self.ups[port.number]
            yield rows.port_remove(port.number)
        elif self.ups[port.number] != port.up:
            self.ups[port.number] = port.up
            yield rows.port_link(port.number, port.up)


def moments(sessions: list[Session], inputs: list[PortFile], notes: Notes) -> list[Moment]:
    """All that happened, in order. Frames come from the captures of ports, or, if there are none, from whole PACKET_INs."""
    told = _Told()
    at = sessions[0].began if sessions else 0
    numbers = [number for number, _ in inputs] if sessions else []
    found = [Moment(at, row) for port in _first_ports(sessions, numbers) for row in told.add(port)]
    cut = 0
    for session in sessions:
        found.append(Moment(session.began, rows.connect()))
        for it in session.messages:
            if not it.is_of_switch:
                found.append(Moment(it.nanoseconds, rows.feed(it.data), it))
                continue
            kind = it.data[1]
            if kind == MessageType.PORT_STATUS and len(it.data) >= 80:
                found += [Moment(it.nanoseconds, row) for row in told.rows_of_status(it.data)]
            elif kind == MessageType.PACKET_IN and not inputs:
                frame = _frame_of(it.data)
                cut += frame is None
                found += [Moment(it.nanoseconds, row) for row in _frame_rows(told, frame)]
            found.append(Moment(it.nanoseconds, "", it))
        if session.ended is not None:
            found.append(Moment(session.ended, rows.lost()))
    if cut:
        notes.add(f"{cut} PACKET_INs do not have a whole frame of a port: give the frames by --in N=FILE")
    for number, path in inputs:
        if sessions and number not in told.seen:
            notes.add(f"port {number}: the switch tells of no such port, so no frame is received there")
        found += [Moment(nanoseconds, rows.frame(number, data)) for nanoseconds, data in frames(path, notes)]
    found.sort(key=lambda it: it.nanoseconds)
    return found


def _first_ports(sessions: list[Session], numbers: list[int]) -> list[_Port]:
    """The ports that the switch has at the beginning.

    They are those of its first PORT_DESC, without the changes that a PORT_STATUS reported before. If there is no PORT_DESC, they
    are those that PORT_STATUS and PACKET_IN name, and those of these numbers.
    """
    ports: dict[int, _Port] = {}
    statuses: list[bytes] = []
    came = list(numbers)
    is_described = False
    for it in (it for session in sessions for it in session.messages if it.is_of_switch):
        if it.data[1] == MessageType.PORT_STATUS and len(it.data) >= 80:
            statuses.append(it.data)
        elif it.data[1] == MessageType.PACKET_IN:
            came += [frame[0] for frame in [_frame_of(it.data)] if frame is not None]
        elif it.data[1] == MessageType.MULTIPART_REPLY and it.data[8:10] == _PORT_DESC and len(it.data) >= 16:
            for at in range(16, len(it.data) - _PORT_SIZE + 1, _PORT_SIZE):
                port = _Port.of(it.data[at:])
                ports[port.number] = port
            # OFPMPF_REPLY_MORE: the next reply has more
            if not it.data[11] & 1:
                is_described = True
                break
    for data in reversed(statuses):
        port = _Port.of(data[16:])
        if data[8] == _ADD:
            ports.pop(port.number, None)
        elif data[8] == _DELETE:
            ports[port.number] = port
        elif not is_described:
            # a change of its link, as far as can be known
            port.up = not port.up
            ports[port.number] = port
    added = {int.from_bytes(data[16:20], "big") for data in statuses if data[8] == _ADD}
    for number in came if not is_described else []:
        if number not in added:
            ports.setdefault(number, _Port.unknown(number))
    return list(ports.values())


def _frame_of(data: bytes) -> tuple[int, bytes] | None:
    """The port and the frame of a PACKET_IN, if it has the whole frame and a port by which frames come in."""
    try:
        total, size = struct.unpack_from("!H", data, 12)[0], struct.unpack_from("!H", data, 26)[0]
        oxms = Bytes(data[28 : 24 + size])
        frame = data[24 + (size + 7) // 8 * 8 + 2 :]
        while oxms:
            name, value = oxm_field(oxms)
            # a field with a mask is a string
            if name == "in_port" and isinstance(value, int) and 1 <= value <= rows.MOST_PORT and len(frame) == total:
                return value, frame
    except (ValueError, struct.error):
        pass
    return None


def _frame_rows(told: _Told, frame: tuple[int, bytes] | None) -> Iterator[str]:
    if frame is not None:
        number, data = frame
        yield from told.add(_Port.unknown(number))
        yield rows.frame(number, data)


def frames(path: StrPath, notes: Notes) -> Iterator[tuple[int, bytes]]:
    """The times and the frames of a capture. Truncated frames are left out, and those that are too long for a row."""
    cut, others, long = [], [], []
    for packet in kept_packets(path, notes):
        if packet.is_cut:
            cut.append(packet.number)
        elif packet.link != ETHERNET:
            others.append(packet.number)
        elif len(packet.data) > _MOST_FRAME_BYTES:
            long.append(packet.number)
        else:
            yield packet.nanoseconds, packet.data
    for numbers, why in ((cut, "the capture has not kept all of"), (others, "no Ethernet frame:"), (long, "too long for a row:")):
        if numbers:
            notes.add(f"{path}: {why} packet {numbers[0]}{f' and {len(numbers) - 1} more' if numbers[1:] else ''}; left out")


def timed(found: list[Moment]) -> Iterator[Moment]:
    """The moments with `t` rows between them: the first moment is the start."""
    begun = now = found[0].nanoseconds if found else 0
    for it in found:
        if it.row and it.nanoseconds > now:
            now = it.nanoseconds
            yield Moment(now, rows.at(now - begun))
        yield it
