"""Fixtures for pytest: switches that end with their test, and, if the test fails, files that replay it."""

from __future__ import annotations

import re
import shlex
from collections.abc import Callable, Generator, Iterator
from pathlib import Path
from typing import Any

import pytest

from . import exploring
from .fates import last_change
from .network import Network
from .program import ProgramError
from .questions import printed_by
from .shrinking import NotShown, Shrunk, asking, shrink_units
from .switch import Switch

# How many lines of an explanation a failure shows, and how much of each.
_MOST_LINES = 100
_MOST_COLUMNS = 200

# the switches of a test, with their names
_switches = pytest.StashKey["list[tuple[str, Switch]]"]()
_folder = pytest.StashKey[Path]()
# what `explore` found
_found = pytest.StashKey[exploring.Found]()


def pytest_addoption(parser: pytest.Parser) -> None:
    group = parser.getgroup("ofswitch")
    group.addoption(
        "--ofswitch-pcap", action="store_true", help="write a capture (pcapng) beside the event file of each switch of a test that fails"
    )
    group.addoption(
        "--ofswitch-shrink", action="store_true", help="if a test fails, show only the rows without which the last row of a switch does something else"
    )
    group.addoption("--ofswitch-seconds", type=float, metavar="N", help="how long each call of `explore` runs schedules (by default what the call says, or 5)")
    group.addoption("--ofswitch-seed", type=int, metavar="N", help="the seed of the schedules of `explore` (by default what the call says, or 0)")
    group.addoption(
        "--ofswitch-view", action="store_true", help="write a page (docs/VIEW.md) beside the event file of each switch of a test that fails"
    )


@pytest.fixture
def new_switch(request: pytest.FixtureRequest, tmp_path: Path) -> Iterator[Callable[..., Switch]]:
    """Makes a switch with the arguments of `Switch`, which ends with the test. For tests with several switches."""
    made: list[tuple[str, Switch]] = []
    request.node.stash[_switches] = made
    request.node.stash[_folder] = tmp_path

    def make(*values: Any, **options: Any) -> Switch:
        switch = Switch(*values, **options)
        made.append((str(len(made) + 1), switch))
        return switch

    yield make
    for _, switch in made:
        switch.close()


@pytest.fixture
def switch(new_switch: Callable[..., Switch]) -> Switch:
    """A new switch, which ends with the test."""
    return new_switch()


@pytest.fixture
def network(request: pytest.FixtureRequest, new_switch: Callable[..., Switch]) -> Network:
    """A network without switches, whose switches end with the test."""
    made = request.node.stash[_switches]

    def make(name: str, **options: Any) -> Switch:
        switch = new_switch(**options)
        made[-1] = (name, switch)
        return switch

    return Network(new_switch=make)


@pytest.fixture
def explore(request: pytest.FixtureRequest, tmp_path: Path) -> Callable[..., int]:
    """`ofswitch.exploring.explore`, which leaves what it finds as a test, event files and a story (docs/EXPLORE.md)."""

    def run(**words: Any) -> int:
        # a failure shows the line of the test
        __tracebackhide__ = True
        options = {name: request.config.getoption(f"--ofswitch-{name}", default=None) for name in ("seconds", "seed")}
        try:
            return exploring.explore(**{**words, **{name: it for name, it in options.items() if it is not None}})
        except exploring.Found as found:
            request.node.stash[_found], request.node.stash[_folder] = found, tmp_path
            request.node.stash[_switches] = list(found.lab.switches.items())
            (tmp_path / "story.txt").write_text(found.story, encoding="utf-8")
            (tmp_path / "test_found.py").write_text(exploring.written_test(found, words), encoding="utf-8")
            raise

    return run


@pytest.hookimpl(hookwrapper=True)
def pytest_runtest_makereport(item: pytest.Item) -> Generator[None, Any, None]:
    """If a test fails, keeps the rows of its switches, and reports what each row did."""
    outcome = yield
    report: pytest.TestReport = outcome.get_result()
    if report.when != "call" or not report.failed:
        return
    if (found := item.stash.get(_found, None)) is not None:
        head = f"{item.stash[_folder] / 'test_found.py'}\n{item.stash[_folder] / 'story.txt'}\n"
        report.sections.append(("ofswitch: the actions, and the rows of all switches", "\n".join([head, *_last(found.story.splitlines())])))
    for name, switch in item.stash.get(_switches, []):
        if not switch.keeps_log:
            continue
        path = item.stash[_folder] / f"switch-{re.sub(r'[^0-9A-Za-z_.-]', '_', name)}.events"
        path.write_text(switch.log, encoding="utf-8")
        small = _shrunk(switch) if item.config.getoption("--ofswitch-shrink", default=False) else None
        account = _account(switch, path) if small is None else _small_account(switch, path, small)
        if item.config.getoption("--ofswitch-pcap", default=False):
            account = f"{_written(switch.pcap, path.with_suffix('.pcapng'))}\n{account}"
        if item.config.getoption("--ofswitch-view", default=False):
            account = f"{_written(switch.view, path.with_suffix('.html'))}\n{account}"
        report.sections.append((f"ofswitch: the rows of switch {name}, and what each did", account))


def _written(write: Callable[[Path], None], path: Path) -> str:
    """Writes a file about all that happened, and returns its path, or the reason why it does not exist."""
    try:
        write(path)
    except ProgramError as fault:
        return str(fault)
    return str(path)


def _shrunk(switch: Switch) -> Shrunk | None:
    """The rows without which the last row does something else. None if it does nothing that could be compared."""
    lines = switch.log.split("\n")
    while lines and (lines[-1] == "" or lines[-1].startswith("#")):
        lines.pop()
    if not lines:
        return None
    try:
        question, units = printed_by(lines, switch.dpid, switch.program)
        if not question.lines and not question.way:
            return None
        return shrink_units(units, asking(question, switch.dpid, switch.program))
    except (ProgramError, NotShown):
        return None


def _small_account(switch: Switch, path: Path, small: Shrunk) -> str:
    """Writes the rows that are left beside the whole log, and returns what they do."""
    file = path.with_suffix(".small.events")
    file.write_text(small.text, encoding="utf-8")
    with Switch(switch.program, dpid=switch.dpid) as again:
        again.play_all(small.rows)
        return f"all rows: {path}\n{_account(again, file)}"


def _account(switch: Switch, path: Path) -> str:
    command = shlex.join(["ofswitch", "replay", *switch.replay_options, "--explain", str(path)])
    try:
        since = last_change(switch.log.split("\n"), program=switch.program, dpid=switch.dpid)
        lines = switch.explain().splitlines()
    except ProgramError as fault:
        since, lines = [], [str(fault)]
    return "\n".join([command, "", *map(_short, since), *[""] * bool(since), *_last(lines)])


def _last(lines: list[str]) -> list[str]:
    """The last lines of a text, each of which is not too long."""
    if len(lines) > _MOST_LINES:
        lines = [f".. {len(lines) - _MOST_LINES} lines, and then", *lines[-_MOST_LINES:]]
    return [_short(it) for it in lines]


def _short(line: str) -> str:
    return line if len(line) <= _MOST_COLUMNS else f"{line[:_MOST_COLUMNS]}.."
