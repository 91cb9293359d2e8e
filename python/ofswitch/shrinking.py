"""The fewest rows of an event file that still show something."""

from __future__ import annotations

import os
import time
from collections import Counter
from collections.abc import Callable, Iterable
from dataclasses import dataclass, field
from typing import TypeVar

from . import rows as event_rows
from .program import StrPath
from .questions import Replay
from .simpler import simpler
from .switch import Switch
from .units import KEEP, Unit, units_of

Item = TypeVar("Item")
Question = Callable[[Replay], bool]


class NotShown(Exception):
    """The rows, all of them, do not show what the question asks for."""


@dataclass
class Shrunk:
    """The rows that are left, and for each its line in the log, from 1."""

    rows: list[str]
    lines: list[int]
    # how many replays there were, and how many seconds they took
    replays: int
    seconds: float
    _units: list[Unit] = field(repr=False)
    _shows: Callable[[list[str]], bool] = field(repr=False)

    def check(self) -> bool:
        """Replays the rows, and the rows without each of them: whether the rows show it, and do not without any one that was not kept."""
        if not self._shows(self.rows):
            return False
        without = (at for at, it in enumerate(self._units) if not it.is_kept)
        return not any(self._shows(self.rows[:at] + self.rows[at + 1 :]) for at in without)

    @property
    def text(self) -> str:
        """An event file of the rows, with the lines of the log as comments."""
        return "".join(f"# line {it.line}\n" + (f"{KEEP}\n" if it.is_kept else "") + f"{it.row}\n" for it in self._units)


def shrink(
    rows: str | os.PathLike[str] | Iterable[str],
    question: Question,
    *,
    fields: bool = False,
    dpid: int = 1,
    program: StrPath | None = None,
) -> Shrunk:
    """The fewest rows of an event file of which a question is still true, such as `lambda run: "to_group" in run.switch.flows()`.

    The rows are a text, a file (a `pathlib.Path`), or a list. The result is minimal: without any one of its rows the answer is no.
    Rows after the comment `# keep` stay. With `fields` FLOW_MODs also lose fields, and frames what follows their headers, except in
    the last row. Raises NotShown if the answer for all rows (with a row `c` for each message) is no, and ValueError for a row that is not valid.
    """
    return shrink_units(units_of(read_lines(rows)), asking(question, dpid, program), fields=fields)


def read_lines(rows: str | os.PathLike[str] | Iterable[str]) -> list[str]:
    """The lines of an event file. ValueError, with its number, for the first that is not valid."""
    if isinstance(rows, os.PathLike):
        with open(rows, encoding="utf-8", errors="surrogateescape", newline="\n") as file:
            rows = file.read()
    lines = rows.removesuffix("\n").split("\n") if isinstance(rows, str) else list(rows)
    for number, row in enumerate(lines, 1):
        try:
            if not row.startswith("#"):
                event_rows.check(row)
        except ValueError as fault:
            raise ValueError(f"line {number}: {fault}") from None
    return lines


def asking(question: Question, dpid: int = 1, program: StrPath | None = None) -> Callable[[list[str]], bool]:
    """Asks a question about rows that a new switch plays. No rows show nothing."""

    def shows(rows: list[str]) -> bool:
        if not rows:
            return False
        with Switch(program, dpid=dpid) as switch:
            return bool(question(Replay(switch, rows)))

    return shows


def shrink_units(units: list[Unit], shows: Callable[[list[str]], bool], *, fields: bool = False) -> Shrunk:
    """The fewest units of which a question is still true."""
    began = time.monotonic()
    known: dict[int, bool] = {}

    def asked(some: list[Unit]) -> bool:
        key = hash(tuple(it.row for it in some))
        if key not in known:
            known[key] = shows([it.row for it in some])
        return known[key]

    if not asked(units):
        raise NotShown("the rows do not show it")
    left = fewest(units, asked, kind=lambda it: it.kind, may_go=lambda it: not it.is_kept)
    if fields:
        left = fewest(_simplest(left, asked), asked, may_go=lambda it: not it.is_kept)
    return Shrunk([it.row for it in left], [it.line for it in left], len(known), time.monotonic() - began, left, shows)


def fewest(
    items: list[Item],
    shows: Callable[[list[Item]], bool],
    *,
    kind: Callable[[Item], str] = lambda it: "",
    may_go: Callable[[Item], bool] = lambda it: True,
) -> list[Item]:
    """A part of a list that still shows something, and does not if any one item more is left out.

    First leaves out all items of a kind, then chunks of falling size from the end, and at last one item at a time until none can go.
    """
    for name, _ in Counter(map(kind, items)).most_common():
        less = [it for it in items if kind(it) != name or not may_go(it)]
        if len(less) < len(items) and shows(less):
            items = less
    size, has_changed = max(1, len(items) // 2), True
    while size > 1 or has_changed:
        before = len(items)
        items = _without_chunks(items, size, shows, may_go)
        has_changed = size > 1 or len(items) < before
        size = max(1, size // 2)
    return items


def _without_chunks(
    items: list[Item], size: int, shows: Callable[[list[Item]], bool], may_go: Callable[[Item], bool]
) -> list[Item]:
    """Leaves out each chunk of this size that is not needed, from the end."""
    end = len(items)
    while end > 0:
        start = max(0, end - size)
        less = items[:start] + [it for it in items[start:end] if not may_go(it)] + items[end:]
        if len(less) < len(items) and shows(less):
            items = less
        end = start
    return items


def _simplest(units: list[Unit], shows: Callable[[list[Unit]], bool]) -> list[Unit]:
    """Makes rows simpler, except for the last one, until no row can be made simpler."""
    place = 0
    while place < len(units) - 1:
        tries = ([*units[:place], units[place]._replace(row=row), *units[place + 1 :]] for row in simpler(units[place].row))
        found = next((it for it in tries if not units[place].is_kept and shows(it)), None)
        units, place = (units, place + 1) if found is None else (found, place)
    return units
