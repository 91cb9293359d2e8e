"""Questions about replayed rows, for `shrink`: whether they still show what somebody saw."""

from __future__ import annotations

import re
from dataclasses import dataclass

from .effects import Answer, Effect
from .fates import Fate, fate
from .message_types import MessageType
from .program import StrPath
from .switch import Switch
from .units import KEEP, Unit, units_of

_NO_BUFFER = b"\xff\xff\xff\xff"


class Replay:
    """Rows that a new switch plays."""

    def __init__(self, switch: Switch, rows: list[str]) -> None:
        self.rows = rows
        self._switch = switch
        self._by_row: list[list[Effect]] = []

    @property
    def by_row(self) -> list[list[Effect]]:
        """The effects of each row."""
        self._play(len(self.rows))
        return self._by_row

    @property
    def effects(self) -> list[Effect]:
        """The effects of all rows."""
        return [it for its in self.by_row for it in its]

    @property
    def switch(self) -> Switch:
        """The switch after the rows."""
        self._play(len(self.rows))
        return self._switch

    def before_last(self) -> Switch:
        """The switch before the last row, if nothing else of this replay was used before."""
        self._play(len(self.rows) - 1)
        return self._switch

    def _play(self, count: int) -> None:
        self._by_row += self._switch.play_all(self.rows[len(self._by_row) : count])


@dataclass(frozen=True)
class Changed:
    """Whether the last row, which is this one, changes the fate of a frame, from the one to the other."""

    last: str
    port: int
    frame: bytes
    before: Fate
    after: Fate

    def __call__(self, run: Replay) -> bool:
        if run.rows[-1:] != [self.last] or fate(run.before_last(), self.port, self.frame) != self.before:
            return False
        return fate(run.switch, self.port, self.frame) == self.after

    def __str__(self) -> str:
        return f"before the last row: {self.before}; after it: {self.after}"


@dataclass(frozen=True)
class Printed:
    """Whether the last row, which is this one, prints the same, without xids and buffer ids. A frame also takes the same way."""

    last: str
    lines: tuple[str, ...]
    way: tuple[str, ...]

    @classmethod
    def of(cls, run: Replay) -> Printed:
        """The question that a run answers with yes."""
        last = run.rows[-1]
        way = _way(run.before_last(), last)
        return cls(last, comparable(run.by_row[-1]), way)

    def __call__(self, run: Replay) -> bool:
        return run.rows[-1:] == [self.last] and Printed.of(run) == self

    def __str__(self) -> str:
        return "the last row prints the same"


@dataclass(frozen=True)
class Matched:
    """Whether a pattern is in a line that is printed, or in its effect in words, such as `Answer(FLOW_MOD refused: OFPBMC_BAD_PREREQ)`."""

    pattern: re.Pattern[str]

    def __call__(self, run: Replay) -> bool:
        return any(self.pattern.search(str(it)) or self.pattern.search(repr(it)) for it in run.effects)

    def __str__(self) -> str:
        return f"a row prints {self.pattern.pattern}"


def printed_by(lines: list[str], dpid: int, program: StrPath | None) -> tuple[Printed, list[Unit]]:
    """The question whether the last row prints the same, and the units of all rows, of which the last one is whole and kept."""
    units = units_of([*lines[:-1], KEEP, lines[-1]])
    units[-1] = units[-1]._replace(line=len(lines))
    with Switch(program, dpid=dpid, log=False) as switch:
        return Printed.of(Replay(switch, [it.row for it in units])), units


def comparable(effects: list[Effect]) -> tuple[str, ...]:
    """Effects as lines, in which each xid is 0, and the id of each held frame too."""
    return tuple(str(Answer(_without_ids(it.data)) if isinstance(it, Answer) else it) for it in effects)


def _without_ids(message: bytes) -> bytes:
    message = message[:4] + bytes(4) + message[8:]
    is_held = message[1] == MessageType.PACKET_IN and message[8:12] != _NO_BUFFER
    return message[:8] + bytes(4) + message[12:] if is_held else message


def _way(switch: Switch, row: str) -> tuple[str, ...]:
    """The way of the frame of a row `f`, with notes, before it is played; empty for another row."""
    word, *words = row.split(" ")
    if word != "f":
        return ()
    port, frame = words
    return fate(switch, int(port), bytes.fromhex(frame.strip("-")), explain=True).way
