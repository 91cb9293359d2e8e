"""Compares the answers of a recorded switch with those of the specified switch to the same messages and frames."""

from __future__ import annotations

from collections import Counter
from collections.abc import Iterator
from dataclasses import dataclass, field
from itertools import zip_longest
from typing import Any, NamedTuple

from . import rows
from .effects import Answer, Closed, Effect, Sent
from .fields import fields_of, short, summary, words
from .message_types import MessageType, message_name
from .recording import Moment
from .sessions import Message, Session

# Fields that may differ between two switches: when something happened, and the number under which a packet is held.
_NOT_COMPARED = {"duration_sec", "duration_nsec", "buffer_id"}

_MOST_LINES = 12
_MOST_COLUMNS = 100

# Messages that a switch sends without a request.
_UNASKED = {MessageType.HELLO, MessageType.PACKET_IN, MessageType.PORT_STATUS, MessageType.FLOW_REMOVED}

# The field by which an entry of a list is found in another list.
_KEYS = (("table_id", "priority", "match"), ("port_no", "queue_id"), ("port_no",), ("group_id",), ("meter_id",), ("table_id",))


@dataclass(frozen=True)
class Key:
    """Messages of a connection that belong together: a request with its answers, or the asynchronous messages of one type."""

    connection: int
    xid: int | None
    kind: int | None


class Difference(NamedTuple):
    """A place at which the recorded switch differs, as docs/JSON.md describes it, and how, a line for each difference."""

    place: dict[str, Any]
    lines: list[str]

    def __str__(self) -> str:
        place, more = self.place, len(self.lines) - _MOST_LINES
        messages = " + ".join(place.get("messages", []))
        packet = f" (packet {place['packet']})" if "packet" in place else ""
        what = f"xid {place['xid']}{' ' * bool(messages)}{messages}" if "xid" in place else messages or "its end"
        head = f"port {place['port']}" if "port" in place else f"connection {place['connection']}, {what}{packet}"
        listed = self.lines[:_MOST_LINES] + [f".. and {more} more"] * (more > 0)
        return "\n    ".join([head, *listed])

    @property
    def about(self) -> tuple[Any, ...]:
        """What remains the same in a capture of another run: the messages, the port, or the end of a connection (neither)."""
        return self.place.get("port"), tuple(self.place["messages"]) if "messages" in self.place else None


@dataclass
class Exchange:
    """The requests of a key, and the answers of both switches."""

    requests: list[Message] = field(default_factory=list)
    recorded: list[bytes] = field(default_factory=list)
    specified: list[bytes] = field(default_factory=list)
    # the first packet of the capture that has one of them
    number: int | None = None

    def place(self, key: Key) -> dict[str, Any]:
        place: dict[str, Any] = {"connection": key.connection}
        if key.xid is not None:
            place["xid"] = key.xid
        place["messages"] = [MessageType(key.kind or 0).name] if key.xid is None else [message_name(it.data) for it in self.requests]
        return place if self.number is None else {**place, "packet": self.number}

    def differences(self) -> list[str]:
        """The differences of the recorded switch, one per line. The order of answers does not matter."""
        recorded, specified = _without_equal(self.recorded, self.specified)
        kinds = [[(message_name(it), _error(it)) for it in side] for side in (recorded, specified)]
        if kinds[0] == kinds[1]:
            return [line for one, other in zip(recorded, specified) for line in _message_differences(one, other)]
        lines = [f"recorded: {summary(it, _MOST_COLUMNS)}" for it in recorded] or ["recorded: nothing"]
        return lines + ([f"specified: {summary(it, _MOST_COLUMNS)}" for it in specified] or ["specified: nothing"])


@dataclass
class Comparison:
    exchanges: dict[Key, Exchange] = field(default_factory=dict)
    # the frames that the specified switch sent, by port
    sent: dict[int, list[bytes]] = field(default_factory=dict)
    # the connections that the specified switch ended, each with the number of messages of the controller up to there
    closed: dict[int, int] = field(default_factory=dict)
    # how many messages of the controller there are, by connection
    heard: Counter[int] = field(default_factory=Counter)

    def exchange(self, connection: int, data: bytes, number: int | None) -> Exchange:
        kind = data[1]
        key = Key(connection, None, kind) if kind in _UNASKED else Key(connection, int.from_bytes(data[4:8], "big"), None)
        found = self.exchanges.setdefault(key, Exchange())
        if found.number is None:
            found.number = number
        return found


def compare(moments: list[Moment], effects: Iterator[list[Effect]]) -> Comparison:
    """Collects the answers of both switches. `effects` are those of the specified switch for each row of the moments."""
    whole = Comparison()
    connection = 0
    for it in moments:
        number = it.message.number if it.message is not None else None
        if not it.row:
            assert it.message is not None
            if it.message.data[1] != MessageType.ECHO_REQUEST:
                # a switch may ask for an echo whenever it likes
                whole.exchange(connection, it.message.data, number).recorded.append(it.message.data)
            continue
        connection += it.row == rows.connect()
        whole.heard[connection] += it.message is not None
        if it.message is not None and it.message.data[1] not in (MessageType.HELLO, MessageType.ECHO_REPLY):
            # an ECHO_REQUEST of the controller is found by its xid, like all other requests
            key = Key(connection, int.from_bytes(it.message.data[4:8], "big"), None)
            asked = whole.exchanges.setdefault(key, Exchange(number=number))
            asked.requests.append(it.message)
        for effect in next(effects):
            if isinstance(effect, Answer):
                whole.exchange(connection, effect.data, number).specified.append(effect.data)
            elif isinstance(effect, Sent):
                whole.sent.setdefault(effect.port, []).append(effect.frame)
            elif isinstance(effect, Closed):
                whole.closed[connection] = whole.heard[connection]
    return whole


def report(whole: Comparison, sessions: list[Session], outputs: dict[int, list[bytes]]) -> tuple[list[Difference], int]:
    """The differences, and the number of exchanges, ends of connections and ports that are alike."""
    kept = {key: it for key, it in whole.exchanges.items() if it.requests or it.recorded or it.specified}
    found = [Difference(it.place(key), it.differences()) for key, it in kept.items()]
    found += [Difference({"connection": number}, lines) for number, it in enumerate(sessions, 1) if (lines := _ends(whole, number, it)) is not None]
    found += [Difference({"port": port}, [*_frame_differences(frames, whole.sent.get(port, []))]) for port, frames in sorted(outputs.items())]
    other = [it for it in found if it.lines]
    return other, len(found) - len(other)


def _ends(whole: Comparison, number: int, session: Session) -> list[str] | None:
    """The difference of two ends of a connection, if there is one. None if neither switch ended it, or it is not known whether one did."""
    is_closed = number in whole.closed
    if session.ended_by == "unknown" or not is_closed and session.ended_by != "switch":
        return None
    if session.ended_by == "controller" and whole.closed[number] == whole.heard[number]:
        # after its last message, so the recorded switch may have wanted to
        return None
    if is_closed and session.ended_by == "switch":
        return []
    recorded = "stays open" if session.ended_by == "nobody" else f"the {session.ended_by} ends it"
    return [f"recorded: {recorded}", f"specified: {'the switch ends it' if is_closed else 'stays open'}"]


def _frame_differences(recorded: list[bytes], specified: list[bytes]) -> Iterator[str]:
    if len(recorded) != len(specified):
        yield f"recorded: {len(recorded)} frames left, specified: {len(specified)}"
    for place, (one, other) in enumerate(zip_longest(recorded, specified), 1):
        if one != other:
            texts = ["none" if it is None else it.hex() for it in (one, other)]
            yield f"frame {place}: recorded {short(texts[0], _MOST_COLUMNS)}, specified {short(texts[1], _MOST_COLUMNS)}"


def _error(message: bytes) -> bytes:
    """The type and the code of an ERROR."""
    return message[8:12] if message[1] == MessageType.ERROR else b""


def _without_equal(recorded: list[bytes], specified: list[bytes]) -> tuple[list[bytes], list[bytes]]:
    """Both lists without the messages that are in both."""
    ones, others = [[_compared(it) for it in side] for side in (recorded, specified)]
    both = Counter(ones) & Counter(others)
    return _without(recorded, ones, both.copy()), _without(specified, others, both)


def _without(messages: list[bytes], texts: list[str], left: Counter[str]) -> list[bytes]:
    kept = []
    for message, text in zip(messages, texts):
        if left[text]:
            left[text] -= 1
        else:
            kept.append(message)
    return kept


def _compared(message: bytes) -> str:
    """The parts of a message that are compared."""
    try:
        return f"{message[0]} {message_name(message)} {_stripped(fields_of(message))}"
    except ValueError:
        return message.hex()


def _stripped(value: Any) -> Any:
    if isinstance(value, dict):
        return {name: _stripped(it) for name, it in value.items() if name not in _NOT_COMPARED}
    return [_stripped(it) for it in value] if isinstance(value, list) else value


def _message_differences(recorded: bytes, specified: bytes) -> Iterator[str]:
    if recorded[0] != specified[0]:
        yield f"version: recorded {recorded[0]}, specified {specified[0]}"
    try:
        yield from _differences(fields_of(recorded), fields_of(specified), "")
    except ValueError as fault:
        texts = [short(it.hex(), _MOST_COLUMNS) for it in (recorded, specified)]
        yield f"{message_name(recorded)}: {fault}: recorded {texts[0]}, specified {texts[1]}"


def _differences(recorded: Any, specified: Any, path: str) -> Iterator[str]:
    if isinstance(recorded, dict) and isinstance(specified, dict):
        for key in [*recorded, *(it for it in specified if it not in recorded)]:
            if key not in _NOT_COMPARED:
                yield from _differences(recorded.get(key), specified.get(key), f"{path}.{key}" if path else key)
    elif isinstance(recorded, list) and isinstance(specified, list):
        ones, others = _by_key(recorded), _by_key(specified)
        for key in ones:
            if key in others:
                yield from _differences(ones[key], others[key], f"{path}[{key}]")
        for who, here, there in (("recorded", ones, others), ("specified", others, ones)):
            if alone := [key for key in here if key not in there]:
                yield f"{path}: only the {who} switch has {short('; '.join(alone), _MOST_COLUMNS)}{_count(alone)}"
    elif path == "data" and specified and str(recorded).startswith(str(specified)):
        yield f"data: recorded {len(recorded) // 2} bytes, specified the first {len(specified) // 2} of them"
    elif recorded != specified:
        yield f"{path}: recorded {short(words(recorded), _MOST_COLUMNS)}, specified {short(words(specified), _MOST_COLUMNS)}"


def _count(keys: list[str]) -> str:
    return f" ({len(keys)})" if len(keys) > 1 else ""


def _by_key(entries: list[Any]) -> dict[str, Any]:
    """The entries of a list by their identifying fields, or by their places, from 0."""
    names = next((it for it in _KEYS if entries and isinstance(entries[0], dict) and all(name in entries[0] for name in it)), ())
    keys = [", ".join(f"{name} {_key_value(it[name])}" for name in names) for it in entries] if names else []
    if len(set(keys)) != len(entries):
        keys = [str(place) for place in range(len(entries))]
    return dict(zip(keys, entries))


def _key_value(value: Any) -> str:
    return "any" if value == {} else words(value)
