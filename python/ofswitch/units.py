"""An event file as units: a row, or of a row of a controller's bytes one message."""

from __future__ import annotations

from collections.abc import Iterable
from typing import NamedTuple

from . import rows
from .message_types import MessageType

# The comment that keeps the row after it whole, and in its place.
KEEP = "# keep"

_KINDS = {"f": "frame", "t": "time"}


class Unit(NamedTuple):
    """`line` is that of the log, from 1, at which it is complete. `kind` is the row's first word, or the name of its message."""

    line: int
    row: str
    kind: str
    is_kept: bool = False


def units_of(lines: Iterable[str]) -> list[Unit]:
    """The units of an event file. A row `c` has one message then: wherever the bytes are cut, the switch does the same."""
    units: list[Unit] = []
    # the bytes that are no whole message yet, and the line of the last ones
    rest, last, is_kept = b"", 0, False
    for number, row in enumerate(lines, 1):
        if row == "" or row.startswith("#"):
            is_kept = row == KEEP
            continue
        word = row.split(" ")[0]
        if word == "c" and not is_kept:
            whole, rest = messages_of(rest + bytes.fromhex(row[2:].strip("-")))
            last = number
            units += [Unit(number, rows.feed(it), _kind(it)) for it in whole]
            continue
        if rest and word in ("c", "connect", "lost"):
            units.append(Unit(last, rows.feed(rest), "bytes", is_kept))
            rest = b""
        units.append(Unit(number, row, "bytes" if word == "c" else _KINDS.get(word, word), is_kept))
        is_kept = False
    if rest:
        units.append(Unit(last, rows.feed(rest), "bytes"))
    return units


def messages_of(data: bytes) -> tuple[list[bytes], bytes]:
    """The whole messages at the beginning, and the bytes after them."""
    whole, at = [], 0
    while len(data) - at >= 8 and len(data) - at >= (size := max(8, int.from_bytes(data[at + 2 : at + 4], "big"))):
        whole.append(data[at : at + size])
        at += size
    return whole, data[at:]


def _kind(message: bytes) -> str:
    try:
        return MessageType(message[1]).name
    except ValueError:
        return "bytes"
