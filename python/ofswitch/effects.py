"""Effects: what the switch does because of a row."""

from __future__ import annotations

import binascii
from dataclasses import dataclass, field
from typing import Any, Union

from .errors import error_name
from .fields import fields_of, summary
from .frame_text import in_words
from .message_types import MessageType


@dataclass(frozen=True, repr=False)
class Answer:
    """A message to the controller, with its header of 8 bytes (OpenFlow 1.3.5, 7.1).

    Its `repr` is in words: `Answer(FLOW_MOD refused: OFPBMC_BAD_PREREQ)`.
    """

    data: bytes

    @property
    def type(self) -> MessageType:
        return MessageType(self.data[1])

    @property
    def xid(self) -> int:
        """The transaction id."""
        return int.from_bytes(self.data[4:8], "big")

    @property
    def error(self) -> str | None:
        """The name of an ERROR, such as OFPBMC_BAD_PREREQ (OpenFlow 1.3.5, 7.4.4); None for another message."""
        if self.type is not MessageType.ERROR:
            return None
        return error_name(int.from_bytes(self.data[8:10], "big"), int.from_bytes(self.data[10:12], "big"))

    @property
    def fields(self) -> dict[str, Any]:
        """The fields after the header, by their names in the standard: `answer.fields["reason"] == "NO_MATCH"`.

        Addresses are strings in the usual notation, enumerations are names without prefix, actions are lines of flow text
        (docs/FLOWTEXT.md), and data is hexadecimal.
        """
        return fields_of(self.data)

    def __bytes__(self) -> bytes:
        return self.data

    def __repr__(self) -> str:
        return f"Answer({summary(self.data)})"

    def __str__(self) -> str:
        return f"a {self.data.hex()}"


@dataclass(frozen=True, repr=False)
class Sent:
    """A frame that leaves by a port. Its `repr` has the frame in words, and then its bytes."""

    port: int
    frame: bytes

    def __repr__(self) -> str:
        return f"Sent({self.port}, {in_words(self.frame)}: {self.frame.hex()})"

    def __str__(self) -> str:
        return f"s {self.port} {self.frame.hex()}"


@dataclass(frozen=True)
class Closed:
    """The switch ends the connection."""

    def __str__(self) -> str:
        return "closed"


@dataclass(frozen=True)
class Refused:
    """The event of the row is not possible now, and changed nothing. Two refusals are equal if their numbers are equal."""

    number: int
    reason: str = field(default="", compare=False)

    def __str__(self) -> str:
        return f"refused {self.number}"


# An effect as a string is the line that `ofswitch replay` prints for it (docs/EVENTS.md).
Effect = Union[Answer, Sent, Closed, Refused]

_REASONS = {
    3: "there is no connection",
    4: "there is a connection already",
    5: "there is a port of that number already",
    6: "there is no port of that number",
    7: "there are 64 ports",
    8: "a port has a number from 1 to 4294967040",
}


def effect_of(line: bytes) -> Effect:
    """The effect of a line that `ofswitch replay` prints."""
    if line.startswith(b"s "):
        # a frame of no bytes cannot leave: it has 14 at least
        port, _, frame = line[2:].partition(b" ")
        return Sent(int(port), binascii.unhexlify(frame))
    if line.startswith(b"a "):
        return Answer(binascii.unhexlify(line[2:]))
    if line == b"closed":
        return Closed()
    if line.startswith(b"refused "):
        number = int(line[8:])
        return Refused(number, _REASONS.get(number, ""))
    raise ValueError(f"not an effect: {line!r}")
