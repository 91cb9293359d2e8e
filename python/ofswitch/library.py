"""The C library of ofswitch (docs/EMBED.md), by ctypes: it answers questions about texts without a process of its own."""

from __future__ import annotations

import ctypes
import functools
import json
import os
import pathlib
from typing import Any

NAME = "libofswitch.so"

# How much room a text has at first, in bytes.
_ROOM = 1 << 16

# What the commands do unless another number is given.
STEPS = 100_000

# Not in words.
_JSON = ctypes.c_bool(False)

_ANYWHERE, _TO_CONTROLLER, _TO_NOTHING = 0, 0xFFFFFFFD, 0xFFFFFFFF

# Exit statuses: an argument or a file has a fault; memory ran out.
_BAD_ARGUMENT = 1
_BAD_FILE = 2
_NO_MEMORY = 3


class _Answer(ctypes.Structure):
    """struct ofswitch_answer"""

    _fields_ = [("length", ctypes.c_size_t), ("line", ctypes.c_uint64), ("status", ctypes.c_uint8)]


class Fault(ValueError):
    """A text has a fault: in this line, or if it is 0, in an argument. The library does not say it in words, which the program does."""

    def __init__(self, line: int) -> None:
        super().__init__(f"line {line}: not read" if line else "an argument has a fault")
        self.line = line


class Library:
    """The calls of a library. Any thread may make them, several at once too."""

    def __init__(self, path: str) -> None:
        self.path = path
        self._calls = ctypes.CDLL(path)

    def trace(self, switch: bytes, port: int, frame: bytes) -> dict[str, Any]:
        return self._document("trace", *_given(switch), ctypes.c_uint32(port), *_given(frame), _JSON)

    def check(self, switch: bytes, steps: int | None) -> dict[str, Any]:
        return self._document("check", *_given(switch), _steps(steps), _JSON)

    def diff(self, first: bytes, second: bytes, frames: bool, steps: int | None) -> dict[str, Any]:
        return self._document("diff", *_given(first), *_given(second), ctypes.c_bool(frames), _steps(steps), _JSON)

    def paths(
        self, switch: bytes, port: int | None, match: str, to: int | str | None, each: bool, steps: int | None
    ) -> dict[str, Any]:
        place = {None: _ANYWHERE, "controller": _TO_CONTROLLER, "drop": _TO_NOTHING}.get(to, to)  # type: ignore[call-overload]
        words = [*_given(match.encode()), ctypes.c_uint32(int(place)), ctypes.c_bool(each), _steps(steps), _JSON]
        return self._document("paths", *_given(switch), ctypes.c_uint32(port or 0), *words)

    def import_(self, table: bytes, skip: bool, renumber: bool) -> dict[str, Any]:
        """The document of `ofswitch import --json`, also if lines are refused."""
        status, _, text = self._call("import", *_given(table), ctypes.c_bool(skip), ctypes.c_bool(renumber))
        _check(status, 0, allowed=_BAD_FILE)
        return _read(text)

    def frame_in_words(self, words: str, port: int = 1) -> tuple[int, bytes]:
        """The frame that words say, and the port that they say, or else this one. Fault if they say none."""
        comes_in_by = ctypes.c_uint32(port)
        status, line, frame = self._call("frame_in_words", ctypes.byref(comes_in_by), *_given(words.encode()))
        _check(status, line)
        return comes_in_by.value, frame

    def _document(self, name: str, *words: Any) -> dict[str, Any]:
        status, line, text = self._call(name, *words)
        _check(status, line)
        return _read(text)

    def _call(self, name: str, *words: Any) -> tuple[int, int, bytes]:
        """The status, the line at fault and the text of a call."""
        call = getattr(self._calls, f"ofswitch_{name}")
        room = _ROOM
        while True:
            text, answer = ctypes.create_string_buffer(room), _Answer()
            call(*words, text, ctypes.c_size_t(room), ctypes.byref(answer))
            if answer.length <= room:
                return answer.status, answer.line, ctypes.string_at(text, answer.length)
            room = answer.length


def load() -> Library | None:
    """The library that OFSWITCH_LIBRARY names, if it is set (none if it is empty). Otherwise, unless OFSWITCH names a program, the one
    beside this module, or the one of the system; None if there is none.
    """
    named = os.environ.get("OFSWITCH_LIBRARY")
    if named is not None:
        return _opened(named) if named else None
    return None if os.environ.get("OFSWITCH") else _found()


@functools.cache
def _opened(path: str) -> Library:
    return Library(path)


@functools.cache
def _found() -> Library | None:
    beside = pathlib.Path(__file__).with_name(NAME)
    try:
        return Library(str(beside) if beside.exists() else NAME)
    except OSError:
        return None


def content_of(text: str | os.PathLike[str]) -> bytes:
    """A text, or what is in a file."""
    return text.encode() if isinstance(text, str) else pathlib.Path(text).read_bytes()


def _given(data: bytes) -> list[Any]:
    return [ctypes.c_char_p(data), ctypes.c_size_t(len(data))]


def _steps(steps: int | None) -> ctypes.c_size_t:
    return ctypes.c_size_t(STEPS if steps is None else steps)


def _read(text: bytes) -> dict[str, Any]:
    document: dict[str, Any] = json.loads(text)
    return document


def _check(status: int, line: int, allowed: int | None = None) -> None:
    if status == _NO_MEMORY:
        raise MemoryError("the library ran out of memory")
    if status in (_BAD_ARGUMENT, _BAD_FILE) and status != allowed:
        raise Fault(line)
