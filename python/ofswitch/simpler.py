"""Simpler forms of a row: a FLOW_MOD with fewer fields, a frame with fewer bytes."""

from __future__ import annotations

from collections.abc import Callable, Iterator

from . import rows
from .message_types import MessageType

# The fields of a FLOW_MOD that may be 0 (OpenFlow 1.3.5, 7.3.4.2): cookie and its mask, idle timeout, hard timeout, flags.
_ZEROES = ((8, 24), (26, 28), (28, 30), (44, 46))

# The places of its match, and of the first field of the match.
_MATCH, _FIELDS = 48, 52

# The instructions that have actions: WRITE_ACTIONS and APPLY_ACTIONS; their actions begin after 8 bytes.
_WITH_ACTIONS = (3, 4)

# The ends of headers: Ethernet, a tag, IPv4, and after it UDP and TCP.
_HEADER_ENDS = (14, 18, 34, 42, 54)


def simpler(row: str) -> Iterator[str]:
    """Forms of a row that say less, for a row `c` with one FLOW_MOD, or a row `f`."""
    word, *words = row.split(" ")
    if word == "f":
        frame = bytes.fromhex(words[1].strip("-"))
        yield from (rows.frame(int(words[0]), frame[:size]) for size in _HEADER_ENDS if size < len(frame))
    elif word == "c":
        message = bytes.fromhex(words[0].strip("-"))
        if len(message) >= _FIELDS and message[1] == MessageType.FLOW_MOD and _number(message, 2) == len(message):
            yield from (rows.feed(it) for it in _simpler_flow_mods(message))


def _simpler_flow_mods(message: bytes) -> Iterator[bytes]:
    yield from (message[:start] + bytes(end - start) + message[end:] for start, end in _ZEROES if any(message[start:end]))
    size = _number(message, _MATCH + 2)
    instructions = _MATCH + (size + 7) // 8 * 8
    for at, end in _parts(message, _FIELDS, _MATCH + size, lambda at: 4 + message[at + 3]):
        fields = message[_FIELDS:at] + message[end : _MATCH + size]
        match = message[_MATCH : _MATCH + 2] + (4 + len(fields)).to_bytes(2, "big") + fields
        yield _whole(message[:_MATCH] + match + bytes(-len(match) % 8) + message[instructions:])
    for at, end in _parts(message, instructions, len(message), lambda at: _number(message, at + 2)):
        yield _whole(message[:at] + message[end:])
        if _number(message, at) in _WITH_ACTIONS:
            yield from _without_an_action(message, at, end)


def _without_an_action(message: bytes, instruction: int, its_end: int) -> Iterator[bytes]:
    for at, end in _parts(message, instruction + 8, its_end, lambda at: _number(message, at + 2)):
        size = (its_end - instruction - (end - at)).to_bytes(2, "big")
        yield _whole(message[: instruction + 2] + size + message[instruction + 4 : at] + message[end:])


def _parts(message: bytes, at: int, end: int, size_at: Callable[[int], int]) -> Iterator[tuple[int, int]]:
    """The places of the items of a list, each with its end. Ends at an item that is not whole."""
    while at + 4 <= end and at + (size := size_at(at)) <= end and size >= 4:
        yield at, at + size
        at += size


def _number(message: bytes, at: int) -> int:
    return int.from_bytes(message[at : at + 2], "big")


def _whole(message: bytes) -> bytes:
    """The message with its length in the header."""
    return message[:2] + len(message).to_bytes(2, "big") + message[4:]
