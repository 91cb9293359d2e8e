"""The fate of a frame: what would leave if it were received next, and at which rows of an event file this changes."""

from __future__ import annotations

from collections import deque
from collections.abc import Iterator, Sequence
from dataclasses import dataclass, field
from typing import TYPE_CHECKING, NamedTuple

from . import rows
from .fields import brief
from .program import MARK_ROW, MOST_READS, Run, StrPath, find
from .rows import Octets
from .units import Unit, units_of

if TYPE_CHECKING:
    from .switch import Switch

# How long the program may take for the rows between two questions, in seconds.
_TIMEOUT = 600.0

# How many questions one write has at most.
_QUESTIONS = 2_000

# The kinds of units after which a frame may have another fate; `bytes` are a row with any number of messages.
_CHANGING = {"FLOW_MOD", "GROUP_MOD", "PORT_MOD", "port", "time", "bytes"}

_TO_CONTROLLER = f"output {0xFFFFFFFD} "
_EXPIRED = "dec_nw_ttl expired"


@dataclass(frozen=True)
class Fate:
    """Two fates are equal if the frame is received in both or in neither, and the same leaves.

    `items` are lines: `s PORT HEX` for a frame that leaves, and the step of the trace for a packet to the controller, whether a
    controller is connected or not. `way` has the steps, with the notes of `trace --explain` if `explain` is true, without the positions of entries: a
    position changes if an older entry is removed.
    """

    is_received: bool
    items: tuple[str, ...]
    way: tuple[str, ...] = field(compare=False)

    def __str__(self) -> str:
        return ", ".join(it.partition(":")[0] if it.startswith("out ") else it for it in self.leaves)

    @property
    def leaves(self) -> list[str]:
        """What leaves, in words, with the bytes of frames; or why nothing does."""
        return [*map(_in_words, self.items)] or ["nothing leaves" if self.is_received else "not received"]


class Change(NamedTuple):
    """The fate before a unit of an event file, and another one after it."""

    place: int
    before: Fate
    after: Fate


def fate(switch: Switch, port: int, frame: Octets, *, explain: bool = False) -> Fate:
    """The fate of a frame on a switch as it is now; with `explain` its way has the notes of `trace --explain`."""
    return fate_of(switch.steps(port, frame, explain=explain).splitlines())


def changes(units: Sequence[Unit], port: int, frame: Octets, *, program: StrPath | None = None, dpid: int = 1) -> Iterator[Change]:
    """All changes of the fate of a frame, in order: between them, and before the first, it stays the same."""
    # the first question ends the text of the effects
    question = f"{MARK_ROW.decode()}#? trace {rows.frame(port, frame).removeprefix('f ')}\n"
    run = Run([find(program), "replay", "--dpid", str(dpid), "--ask", "--reads", str(MOST_READS), "-"], _TIMEOUT)
    asked = [place for place, it in enumerate(units) if it.kind in _CHANGING]
    before, done = fate_of([]), 0
    try:
        for some in (asked[at : at + _QUESTIONS] for at in range(0, len(asked), _QUESTIONS)):
            parts = zip([done, *(it + 1 for it in some)], some)
            text = "".join("".join(f"{it.row}\n" for it in units[start : end + 1]) + question for start, end in parts)
            done = some[-1] + 1
            for place, answer in zip(some, run.play_each(text.encode(), 2 * len(some))[1::2]):
                after = fate_of([it.decode() for it in answer])
                if after != before:
                    yield Change(place, before, after)
                before = after
    finally:
        run.close()


def last_change(lines: Sequence[str], *, program: StrPath | None = None, dpid: int = 1) -> list[str]:
    """What becomes of the last frame of an event file, since which line, and what did it, in words; nothing without a frame."""
    count = next((count for count in range(len(lines), 0, -1) if lines[count - 1].startswith("f ")), 0)
    if not count:
        return []
    _, port, digits = lines[count - 1].split(" ")
    units = units_of(lines[: count - 1])
    found = deque(changes(units, int(port), bytes.fromhex(digits.strip("-")), program=program, dpid=dpid), maxlen=1)
    if not found:
        return [f"the frame of line {count}: not received"]
    [(place, before, after)] = found
    row = units[place].row
    did = brief(bytes.fromhex(row[2:])) if row.startswith("c ") else row
    return [f"the frame of line {count}, since line {units[place].line}: {after} (before: {before})", f"    {did}"]


def fate_of(lines: list[str]) -> Fate:
    """The fate that a trace in lines tells (docs/TRACE.md)."""
    items = [it for it in lines if it.startswith(("s ", _TO_CONTROLLER)) or it == _EXPIRED]
    # the values that a lookup sees are named by the matches of other entries, too; a message has a buffer id
    way = [it.split(" entry ")[0] if it.startswith("lookup ") else it for it in lines if not it.startswith(("a ", "    sees "))]
    return Fate(bool(lines), tuple(items), tuple(way))


def _in_words(item: str) -> str:
    if item.startswith("s "):
        _, port, frame = item.split(" ")
        return f"out by port {port}: {frame}"
    return "to the controller: invalid TTL" if item == _EXPIRED else "to the controller"
