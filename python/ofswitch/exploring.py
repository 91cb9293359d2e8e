"""Random schedules of a network and its controller, from a seed, until one shows a fault; and the fewest actions that show it."""

from __future__ import annotations

import random
import sys
import time
from collections.abc import Callable, Collection, Iterable, Iterator, Mapping, Sequence
from dataclasses import dataclass
from typing import Any

from .applications import application_of
from .effects import Answer, Effect, Sent
from .fields import brief
from .laboratory import Action, Condition, Fault, Laboratory, Place, Played, Topology, all_reach, no_error, no_loop
from .message_types import message_name
from .questions import comparable
from .shrinking import fewest
from .switch import Switch

# How many columns of a row a story shows.
_COLUMNS = 40

TEST = '''"""{fault}"""

{lines}

SCHEDULE = [
{schedule}]


def test_found(explore):
    explore(
        schedule=SCHEDULE,
{words}    )
'''


@dataclass
class Outcome:
    """How a schedule ended: with a fault or without, and in which laboratory, whose switches have ended."""

    fault: Fault | None
    lab: Laboratory

    @property
    def kind(self) -> str | None:
        return None if self.fault is None else self.fault.kind


class Found(AssertionError):
    """A schedule that ends with a fault. `schedule` has its actions, and `lab` the switches with their logs."""

    def __init__(self, text: str, schedule: list[Action], outcome: Outcome) -> None:
        listed = "".join(f"\n    {' '.join(map(str, it))}" for it in schedule)
        super().__init__(f"{outcome.fault}\n{text}{listed}")
        self.fault = outcome.fault
        self.schedule = schedule
        self.lab = outcome.lab

    @property
    def story(self) -> str:
        """The actions, and below each the rows that the switches played because of it, in order."""
        return "".join(f"{_told(it)}\n" for it in self.lab.story)


@dataclass(frozen=True)
class Experiment:
    """What is explored: all that a schedule does not say."""

    application: Callable[[], Any]
    topology: Topology
    always: Sequence[Condition]
    at_rest: Sequence[Condition]
    new_switch: Callable[..., Switch]

    def run(self, schedule: Iterable[Action] | Callable[[Laboratory], Iterable[Action]]) -> Outcome:
        """Runs a schedule, or one that is made as it runs, on a new network with a new application."""
        lab = Laboratory(self.topology, application_of(self.application), self.new_switch, self.always)
        try:
            lab.start()
            for action in schedule(lab) if callable(schedule) else schedule:
                lab.do(action)
            lab.settle()
            lab.check(self.at_rest)
            return Outcome(None, lab)
        except Fault as fault:
            return Outcome(fault, lab)
        finally:
            lab.close()

    def walk(self, chance: random.Random, steps: int, without: Collection[str]) -> tuple[list[Action], Outcome]:
        """A random schedule of this many actions, and how it ended."""
        actions: list[Action] = []

        def choose(lab: Laboratory) -> Iterator[Action]:
            while len(actions) < steps and (possible := [it for it in lab.possible() if it[0] not in without]):
                actions.append(chance.choice(possible))
                yield actions[-1]

        outcome = self.run(choose)
        return actions, outcome


def explore(
    *,
    application: Callable[[], Any],
    switches: Mapping[str, int],
    hosts: Mapping[str, Place],
    links: Sequence[tuple[str, int, str, int]] = (),
    moves: Sequence[Place] = (),
    always: Sequence[Condition] = (no_error, no_loop),
    at_rest: Sequence[Condition] = (all_reach,),
    without: Collection[str] = (),
    steps: int = 30,
    seed: int = 0,
    seconds: float = 5.0,
    most: int = sys.maxsize,
    schedule: Sequence[Action] | None = None,
    new_switch: Callable[..., Switch] = Switch,
) -> int:
    """Runs random schedules for so many seconds, at most `most` of them, and returns how many there were. With `schedule` runs only that.

    `application` makes the controller: a class of os-ken, or anything that makes an `Application`. Raises Found if a schedule ends
    with a fault, after it was made as short as possible (docs/EXPLORE.md).
    """
    # of pytest: a failure shows the line of the test
    __tracebackhide__ = True
    experiment = Experiment(application, Topology(switches, hosts, links, moves), always, at_rest, new_switch)
    if schedule is not None:
        outcome = experiment.run(schedule)
        if outcome.fault:
            raise Found(f"{len(schedule)} actions:", list(schedule), outcome)
        return 1
    end, number = time.monotonic() + seconds, 0
    while number < most and (number == 0 or time.monotonic() < end):
        actions, outcome = experiment.walk(random.Random(f"{seed} {number}"), steps, without)
        number += 1
        if outcome.fault:
            raise _shrunk(experiment, actions, outcome, f"seed {seed}, schedule {number}")
    return number


def _shrunk(experiment: Experiment, actions: list[Action], outcome: Outcome, where: str) -> Found:
    """The fewest actions of a schedule that end with a fault of the same kind. If it ends in another way when it runs again, it is said."""
    again = experiment.run(actions)
    if again.kind != outcome.kind or [*map(_without_xids, again.lab.story)] != [*map(_without_xids, outcome.lab.story)]:
        return Found(f"{where}; not deterministic: the same schedule did something else when it ran again, {again.fault or 'without a fault'}:", actions, outcome)
    runs, last = 0, again

    def shows(some: list[Action]) -> bool:
        nonlocal runs, last
        runs += 1
        found = experiment.run(some)
        last = found if found.kind == outcome.kind else last
        return found.kind == outcome.kind

    left = fewest(actions, shows, kind=lambda it: str(it[0]))
    # the last run that showed it was that of the actions that are left
    return Found(f"{where}: {len(actions)} actions, {len(left)} left after {runs} runs:", left, last)


def _without_xids(it: Action | Played) -> object:
    """An action, or a row with its effects, without the xids: a controller may begin with any, as that of os-ken does."""
    if not isinstance(it, Played):
        return it
    row = f"{it.row[:10]}{'0' * 8}{it.row[18:]}" if it.row.startswith("c ") else it.row
    return it.switch, row, comparable([*it.effects])


def _told(it: Action | Played) -> str:
    """An action, or a row of a switch, with its message in words, and what the switch sends."""
    if not isinstance(it, Played):
        return " ".join(map(str, it))
    row = it.row if len(it.row) <= _COLUMNS else f"{it.row[:_COLUMNS]}.."
    message = f"  {brief(bytes.fromhex(it.row[2:]))}" if it.row.startswith("c ") else ""
    sent = ", ".join(map(_effect_in_words, it.effects))
    return f"    {it.switch}  {row}{message}" + (f"  -> {sent}" if sent else "")


def _effect_in_words(effect: Effect) -> str:
    if isinstance(effect, Sent):
        return f"out by port {effect.port}"
    return message_name(effect.data) if isinstance(effect, Answer) and effect.error is None else repr(effect)


def written_test(found: Found, arguments: Mapping[str, Any]) -> str:
    """A test that runs the schedule again, with the arguments of `explore`."""
    lines = ["from ofswitch.applications import load"]
    told = "".join(f"        {name}={_argument(value, lines)},\n" for name, value in arguments.items() if name != "schedule")
    schedule = "".join(f"    {it!r},\n" for it in found.schedule)
    fault = str(found.fault).split("\n")[0].replace("\\", "/").replace('"', "'")
    return TEST.format(fault=fault, lines="\n".join(dict.fromkeys(lines)), schedule=schedule, words=told)


def _argument(value: Any, lines: list[str]) -> str:
    if callable(value):
        return _named(value, lines)
    if isinstance(value, Sequence) and any(map(callable, value)):
        return f"[{', '.join(_named(it, lines) for it in value)}]"
    return repr(value)


def _named(thing: Any, lines: list[str]) -> str:
    """The name of a class or a function in a test, with the line that makes it."""
    name: str = getattr(thing, "__name__", "")
    module = sys.modules.get(getattr(thing, "__module__", ""))
    if module is None or getattr(module, name, None) is not thing:
        name = name if name.isidentifier() else "application"
        lines.append(f"# {name} is local to the test that found this: copy it to here")
    elif module.__name__.startswith("ofswitch."):
        lines.append(f"from {module.__name__} import {name}")
    else:
        lines.append(f"{name} = load({module.__file__!r}, {name!r})")
    return name
