"""`python -m ofswitch shrink`: the fewest rows of an event file that still show what somebody saw."""

from __future__ import annotations

import argparse
import sys
from pathlib import Path

from . import rows
from .fates import changes
from .program import ProgramError, find, received
from .questions import Changed, Matched, printed_by
from .shrinking import NotShown, Question, Shrunk, asking, read_lines, shrink_units
from .switch import Switch
from .units import Unit, units_of

# The exit statuses, which are those of `ofswitch`.
_BAD_ARGUMENTS = 1
_BAD_ROW = 2
_NOT_SHOWN = 4

TEST = '''"""{title}"""

ROWS = [
{rows}]

# what the last rows print
PRINTED = [
{printed}]


def test_shrunk(new_switch):
    effects = new_switch(dpid={dpid}).play_all(ROWS)
    assert [[str(it) for it in its] for its in effects[-len(PRINTED) :]] == PRINTED
'''


def run(asked: argparse.Namespace) -> int:
    try:
        return _run(asked)
    except NotShown as fault:
        print(fault, file=sys.stderr)
        return _NOT_SHOWN
    except ValueError as fault:
        print(fault, file=sys.stderr)
        return _BAD_ROW
    except ProgramError as fault:
        if fault.status != _BAD_ARGUMENTS:
            raise
        print(fault.said, file=sys.stderr)
        return _BAD_ARGUMENTS


def _run(asked: argparse.Namespace) -> int:
    lines = read_lines(Path(asked.file))
    if asked.dpid is None:
        asked.dpid = rows.said_dpid(lines[0])
    question, units = _question(asked, lines)
    small = shrink_units(units, asking(question, asked.dpid, asked.program), fields=asked.fields)
    sys.stdout.write(small.text)
    print(f"{len(units)} rows, {len(small.rows)} left after {small.replays} replays in {small.seconds:.1f} s: {question}", file=sys.stderr)
    if asked.test is not None:
        Path(asked.test).write_text(_test(asked, question, small), encoding="utf-8")
    return 0


def _question(asked: argparse.Namespace, lines: list[str]) -> tuple[Question, list[Unit]]:
    """The question of the command, and the units up to the last one that can matter for it."""
    if asked.change is not None:
        return _changed(asked, lines)
    if asked.row is not None:
        return _printed(asked, lines)
    return Matched(asked.prints), units_of(lines)


def _changed(asked: argparse.Namespace, lines: list[str]) -> tuple[Question, list[Unit]]:
    port, frame = received(find(asked.program), asked.change, asked.port)
    units = units_of(lines)
    # a frame that is dropped and one that is not received are two fates, but nothing leaves in both
    found = [it for it in changes(units, port, frame, program=asked.program, dpid=asked.dpid) if it.before.items != it.after.items]
    if len(found) < asked.nth if asked.nth else not found:
        raise NotShown(f"what leaves for the frame changes {len(found)} times")
    place, before, after = found[asked.nth - 1 if asked.nth else -1]
    return Changed(units[place].row, port, frame, before, after), [*units[:place], units[place]._replace(is_kept=True)]


def _printed(asked: argparse.Namespace, lines: list[str]) -> tuple[Question, list[Unit]]:
    if asked.row > len(lines) or lines[asked.row - 1].startswith("#") or not lines[asked.row - 1]:
        raise NotShown(f"there is no row in line {asked.row}")
    return printed_by(lines[: asked.row], asked.dpid, asked.program)


def _test(asked: argparse.Namespace, question: Question, small: Shrunk) -> str:
    """A test that plays the rows, and expects what the last row does; for a change, with the frame before the last row and after it."""
    played = [(row, f"  # line {line}") for row, line in zip(small.rows, small.lines)]
    count = 1
    if isinstance(question, Changed):
        frame = rows.frame(question.port, question.frame), ""
        played, count = [*played[:-1], frame, played[-1], frame], 3
    with Switch(asked.program, dpid=asked.dpid, log=False) as switch:
        effects = switch.play_all(row for row, _ in played)[-count:]
    title = f"What is left of {asked.file}. {str(question).capitalize()}.".replace("\\", "/").replace('"', "'")
    listed = "".join(f'    "{row}",{comment}\n' for row, comment in played)
    printed = "".join(f"    {[str(it) for it in its]},\n" for its in effects)
    return TEST.format(title=title, dpid=asked.dpid, rows=listed, printed=printed)
