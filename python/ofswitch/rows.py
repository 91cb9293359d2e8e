"""Rows of event files (docs/EVENTS.md), from values and from text."""

from __future__ import annotations

import binascii
import operator
import re
from typing import Any, Protocol, SupportsIndex, Union

# The most bytes of a row, without its line end.
MOST_BYTES = 1_048_576

# The most bytes of a port's name (OpenFlow 1.3.5, 7.2.1: 16 with the zero that ends it).
MOST_NAME_BYTES = 15

# The greatest number that a port can have (OpenFlow 1.3.5, 7.2.1, OFPP_MAX).
MOST_PORT = 0xFFFFFF00

HwAddress = Union[str, bytes]


class HasBytes(Protocol):
    """An object that `bytes` accepts, such as a packet of scapy."""

    def __bytes__(self) -> bytes: ...


class HasSerialize(Protocol):
    """A message of os-ken, whose bytes are `buf` then, or a packet of os-ken, whose bytes are `data` then."""

    def serialize(self) -> object: ...


class HasPack(Protocol):
    """A message of pyof."""

    def pack(self) -> bytes: ...


# A message or a frame.
Octets = Union[bytes, bytearray, memoryview, HasBytes, HasSerialize, HasPack]

_NAME = re.compile(r"[a-z0-9]{1,15}")
_HW = re.compile(r"[0-9A-Fa-f]{12}")
_NUMBER = r"(?:0|[1-9][0-9]{0,19})"
# of a row with bytes, as if it had none: `_is_hex` looks at these, in a tenth of the time
_ROW = re.compile(
    rf"connect|lost|c -|f (?P<port>{_NUMBER}) -|t (?P<nanos>{_NUMBER})"
    rf"|port (?:add (?P<added>{_NUMBER}) {_HW.pattern} {_NAME.pattern} (?:up|down)"
    rf"|remove (?P<removed>{_NUMBER})|link (?P<linked>{_NUMBER}) (?:up|down))"
)
_SAID_DPID = re.compile(r"#.* --dpid (0x[0-9a-f]{1,16}|[1-9][0-9]{0,18})")
_BITS = {"port": 32, "nanos": 64, "added": 32, "removed": 32, "linked": 32}


def as_bytes(octets: Octets) -> bytes:
    """The bytes of a message or a frame.

    Accepts an object with the buffer protocol, an object that `bytes` accepts (such as a packet of scapy), a message of os-ken
    (`serialize`, then `buf`), a packet of os-ken (`serialize`, then `data`), or a message of pyof (`pack`).
    """
    # any other value is a TypeError
    value: Any = octets
    try:
        return memoryview(value).tobytes()
    except TypeError:
        pass
    if hasattr(value, "__bytes__"):
        return bytes(value)
    if hasattr(value, "serialize"):
        value.serialize()
        return bytes(value.buf if hasattr(value, "buf") else value.data)
    if hasattr(value, "pack"):
        return bytes(value.pack())
    raise TypeError(f"expected bytes, a message or a packet, not {type(value).__name__}")


def dpid(value: int) -> int:
    """A datapath_id."""
    return _number(value, 64)


def said_dpid(row: str) -> int:
    """The datapath_id that the first line of an event file names, such as `# replay with --dpid 2`; 1 if it names none."""
    said = _SAID_DPID.fullmatch(row)
    return dpid(int(said[1], 0)) if said else 1


def connect() -> str:
    return "connect"


def lost() -> str:
    return "lost"


def feed(data: Octets) -> str:
    return _fits(f"c {_hex(data)}")


def frame(port: int, data: Octets) -> str:
    return _fits(f"f {_number(port, 32)} {_hex(data)}")


def at(nanoseconds: int) -> str:
    return f"t {_number(nanoseconds, 64)}"


def port_add(number: int, hw: HwAddress | None, name: str | None, up: bool) -> str:
    number = _number(number, 32)
    hw = f"02{number:010x}" if hw is None else _hw(hw)
    name = f"p{number}" if name is None else port_name(name, number)
    return f"port add {number} {hw} {name} {_link(up)}"


def port_remove(number: int) -> str:
    return f"port remove {_number(number, 32)}"


def port_link(number: int, up: bool) -> str:
    return f"port link {_number(number, 32)} {_link(up)}"


def check(row: str) -> None:
    """Raises ValueError if this is not a valid row: `ofswitch replay` would end at this line, or answer a question."""
    if "\n" in row:
        raise ValueError("one row at a time: a row has no line end")
    _fits(row)
    if row.startswith("#? "):
        raise ValueError("a question is not a row: use the queries, such as switch.flows()")
    if row == "" or row.startswith("#"):
        return
    head, _, word = row.rpartition(" ")
    parts = _ROW.fullmatch(f"{head} -" if row[:2] in ("c ", "f ") and _is_hex(word) else row)
    if parts is None:
        raise ValueError(f"bad row: {_short(row)}")
    for name, bits in _BITS.items():
        if parts[name] is not None:
            _number(int(parts[name]), bits)


def _is_hex(word: str) -> bool:
    """Whether these are two hexadecimal digits for each byte of one byte or more."""
    try:
        return binascii.unhexlify(word) != b""
    except ValueError:
        return False


def is_of_controller(row: str) -> bool:
    """Whether this row is about the connection with the controller."""
    return row in ("connect", "lost") or row.startswith("c ")


def _number(value: SupportsIndex, bits: int) -> int:
    number = operator.index(value)
    if not 0 <= number < 1 << bits:
        raise ValueError(f"{number} is not from 0 to {(1 << bits) - 1}")
    return number


def _hex(data: Octets) -> str:
    return as_bytes(data).hex() or "-"


def _hw(hw: HwAddress) -> str:
    text = hw.replace(":", "") if isinstance(hw, str) else as_bytes(hw).hex()
    if not _HW.fullmatch(text):
        raise ValueError(f"a hardware address has 6 bytes, not {hw!r}")
    return text


def port_name(name: str, number: int) -> str:
    """The name in a row for a name of a host's interface, such as `s1-eth1`: its letters and digits, in lower case.

    It is the same in each run. If nothing is left of the name, or more than 15 bytes, the result is p and the port's number.
    """
    if not name or len(name.encode()) > MOST_NAME_BYTES:
        raise ValueError(f"a port's name has 1 to {MOST_NAME_BYTES} bytes, not {name!r}")
    if any(it.isspace() or not it.isprintable() for it in name):
        raise ValueError(f"a port's name has no space and no control character: {name!r}")
    kept = re.sub("[^a-z0-9]", "", name.lower())
    return kept or f"p{number}"


def _link(up: bool) -> str:
    return "up" if up else "down"


def _fits(row: str) -> str:
    if len(row.encode()) > MOST_BYTES:
        raise ValueError(f"a row has at most {MOST_BYTES} bytes")
    return row


def _short(row: str) -> str:
    return repr(row if len(row) <= 80 else f"{row[:80]}..")
