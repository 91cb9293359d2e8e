"""Capture files: reads pcap and pcapng files, and writes pcapng files."""

from __future__ import annotations

import struct
from collections.abc import Iterator
from typing import IO, NamedTuple

from .program import StrPath

# Link types (https://www.tcpdump.org/linktypes.html).
ETHERNET = 1
WIRESHARK_UPPER_PDU = 252

_BILLION = 1_000_000_000


class Packet(NamedTuple):
    """A packet of a capture: its number in the file from 1, its time, its link type, the captured bytes, and its original length."""

    number: int
    nanoseconds: int
    link: int
    data: bytes
    size: int

    @property
    def is_cut(self) -> bool:
        """Whether the packet was truncated."""
        return len(self.data) < self.size


class CaptureError(Exception):
    """A file is not a capture, or is damaged at some place."""


def packets(path: StrPath) -> Iterator[Packet]:
    """The packets of a pcap or pcapng file. CaptureError if it is neither, or at its end if it ends inside a packet."""
    with open(path, "rb") as file:
        data = file.read()
    for order in "<>":
        magic = struct.unpack_from(f"{order}I", data)[0] if len(data) >= 24 else 0
        if magic in (0xA1B2C3D4, 0xA1B23C4D):
            return _pcap(path, data, order, 1000 if magic == 0xA1B2C3D4 else 1)
    if magic == 0x0A0D0D0A:
        return _pcapng(path, data)
    raise CaptureError(f"{path}: not a pcap or pcapng file")


def _pcap(path: StrPath, data: bytes, order: str, unit: int) -> Iterator[Packet]:
    link = struct.unpack_from(f"{order}I", data, 20)[0] & 0xFFFF
    at, number = 24, 0
    while at < len(data):
        number += 1
        if at + 16 > len(data):
            raise CaptureError(f"{path}: ends inside packet {number}")
        seconds, part, kept, size = struct.unpack_from(f"{order}4I", data, at)
        at += 16 + kept
        if at > len(data):
            raise CaptureError(f"{path}: ends inside packet {number}")
        yield Packet(number, seconds * _BILLION + part * unit, link, data[at - kept : at], size)


class _Interface(NamedTuple):
    """An interface of a pcapng file: its link type, ticks per second, seconds to be added, and the most bytes of a packet."""

    link: int
    ticks: int
    offset: int
    most: int

    def nanoseconds(self, ticks: int) -> int:
        """Nanoseconds since 1970. ValueError if the time is before 1970, or some centuries later."""
        found = ticks * _BILLION // self.ticks + self.offset * _BILLION
        if not 0 <= found < 1 << 63:
            raise ValueError("an impossible time")
        return found


def _pcapng(path: StrPath, data: bytes) -> Iterator[Packet]:
    at, order, number = 0, "<", 0
    interfaces: list[_Interface] = []
    while at < len(data):
        if data[at : at + 4] == b"\x0a\x0d\x0d\x0a":
            order, interfaces = ("<" if data[at + 8 : at + 12] == b"\x4d\x3c\x2b\x1a" else ">"), []
        kind, size = struct.unpack_from(f"{order}II", data, at) if at + 12 <= len(data) else (0, 0)
        if size < 12 or at + size > len(data):
            raise CaptureError(f"{path}: ends inside a block, after packet {number}")
        body = data[at + 8 : at + size - 4]
        at += size
        try:
            if kind == 1:
                interfaces.append(_interface(body, order))
            elif kind in (3, 6):
                found = _packet(body, order, kind, number + 1, interfaces)
        except (struct.error, LookupError, ArithmeticError, ValueError):
            raise CaptureError(f"{path}: a block after packet {number} is malformed") from None
        if kind in (3, 6):
            number += 1
            yield found


def _interface(body: bytes, order: str) -> _Interface:
    link, _, most = struct.unpack_from(f"{order}HHI", body)
    ticks, offset, at = 1_000_000, 0, 8
    while at + 4 <= len(body):
        code, size = struct.unpack_from(f"{order}HH", body, at)
        value = body[at + 4 : at + 4 + size]
        if code == 9:
            # if_tsresol: a power of 10, or of 2 if the first bit is set
            ticks = 1 << (value[0] & 127) if value[0] & 128 else 10 ** value[0]
        elif code == 14:
            (offset,) = struct.unpack(f"{order}q", value)
        at += 4 + (size + 3) // 4 * 4
    return _Interface(link, ticks, offset, most)


def _packet(body: bytes, order: str, kind: int, number: int, interfaces: list[_Interface]) -> Packet:
    """The packet of an enhanced packet block, or of a simple one, which has no time."""
    if kind == 6:
        place, high, low, kept, size = struct.unpack_from(f"{order}5I", body)
        interface = interfaces[place]
        return Packet(number, interface.nanoseconds((high << 32) + low), interface.link, body[20 : 20 + kept], size)
    (size,) = struct.unpack_from(f"{order}I", body)
    interface = interfaces[0]
    kept = min(size, interface.most or size)
    return Packet(number, 0, interface.link, body[4 : 4 + kept], size)


class Writer:
    """A pcapng file, with interfaces that have names, and times in nanoseconds."""

    def __init__(self, file: IO[bytes]) -> None:
        self._file = file
        self._count = 0
        self._write_block(0x0A0D0D0A, struct.pack("<IHHq", 0x1A2B3C4D, 1, 0, -1))

    def interface(self, name: str, link: int = ETHERNET) -> int:
        """Adds an interface, and returns its number."""
        options = _option(2, name.encode()) + _option(9, b"\x09") + _option(0, b"")
        self._write_block(1, struct.pack("<HHI", link, 0, 0) + options)
        self._count += 1
        return self._count - 1

    def packet(self, interface: int, nanoseconds: int, data: bytes, *, is_outbound: bool) -> None:
        options = _option(2, struct.pack("<I", 2 if is_outbound else 1)) + _option(0, b"")
        head = struct.pack("<5I", interface, nanoseconds >> 32, nanoseconds & 0xFFFFFFFF, len(data), len(data))
        self._write_block(6, head + data + bytes(-len(data) % 4) + options)

    def _write_block(self, kind: int, body: bytes) -> None:
        size = struct.pack("<I", len(body) + 12)
        self._file.write(struct.pack("<I", kind) + size + body + size)


def _option(code: int, value: bytes) -> bytes:
    return struct.pack("<HH", code, len(value)) + value + bytes(-len(value) % 4)
