"""Compares `check --require` on random switches with a second model of the switch (tests/second_model.py).

Each switch has some requirements, half of which the frames of a small world nearly decide. The model runs the frames of the world
(tests/small_world.py) by each port of the switch. These are failures:
- a requirement holds, or no frame that matches is received, while a frame of the world decides otherwise
- `some` fails, while a frame of the world does it
- the frame that is shown is not received, does not match, is left out, or does not decide it by the model; or other items leave
- a requirement of a switch that has no PUSH_VLAN, POP_VLAN and SET_FIELD is undecided
- another exit status, or other numbers in the file of --junit
"""
import collections
import json
import tempfile
import unittest
import xml.etree.ElementTree as ElementTree
from typing import NamedTuple

from tests.program import PROGRAM, keep, ofswitch, random_cases
from tests.random_requirements import decides, is_about, named_ports, some_requirement
from tests.random_switches import PORTS, some_switch, with_watched_ports, write_file
from tests.second_model import Run, Switch, reported
from tests.small_world import FRAMES

SWITCHES = 15
REQUIREMENTS = 5


class Case(NamedTuple):
    """A switch, the frames of the world with their runs on it, and requirements."""
    switch: Switch
    runs: list
    requirements: list
    # whether it is that of an event file, and whether it has no action after which frames may be undecided
    events: bool
    plain: bool


def runs_on(switch):
    """The frames of the world, by each port of a switch, with their runs."""
    return [(port, frame, Run(switch, port, frame)) for port in switch.ports for frame in FRAMES]


def some_case(pick):
    plain, events = pick.random() < 0.6, pick.random() < 0.4
    ports = PORTS | {pick.choice((3, 4)): pick.random() < 0.5} if events else PORTS
    writing, switch = some_switch(pick, ports, plain)
    if not events:
        [switch] = with_watched_ports(switch)
    runs = runs_on(switch)
    requirements = [some_requirement(pick, writing.tables, runs) for _ in range(REQUIREMENTS)]
    named = {port for it in requirements for port in named_ports(it)}
    if not events and named - {*switch.ports}:
        # the switch of a flow text has the ports that requirements name
        switch = switch._replace(ports=switch.ports | dict.fromkeys(sorted(named), True))
        runs = runs_on(switch)
    return Case(switch, runs, requirements, events, plain)


def told(requirement, port, frame):
    return f"{requirement}: in_port {port}, frame {frame.hex()}"


def wrong_verdict(case, requirement, found):
    """What is wrong with what is found about a requirement."""
    is_some = requirement.quantifier == "some"
    if "frame" in found:
        port, frame = found["in_port"], bytes.fromhex(found["frame"])
        run = Run(case.switch, port, frame)
        if found["verdict"] != ("holds" if is_some else "fails"):
            yield f"{told(requirement, port, frame)}: {found['verdict']} with a frame"
        if not decides(requirement, port, frame, run):
            yield f"{told(requirement, port, frame)}: it does not decide by the model"
        if found["items"] != list(map(reported, run.items)):
            yield f"{told(requirement, port, frame)}: {found['items']} leaves, and by the model {list(map(reported, run.items))}"
        return
    if found["verdict"] == "undecided":
        if case.plain:
            yield f"{requirement}: undecided"
        return
    if found["verdict"] != ("fails" if is_some else "holds"):
        yield f"{requirement}: {found['verdict']} without a frame"
    for port, frame, run in case.runs:
        if decides(requirement, port, frame, run):
            yield f"{told(requirement, port, frame)}: it decides by the model, and the requirement {found['verdict']}"
            return
        if not found["matches"] and is_about(requirement._replace(except_ttl=False), port, frame, run):
            yield f"{told(requirement, port, frame)}: it matches by the model"
            return


def wrong_status(status, report, missing):
    verdicts = {it["verdict"] for it in report["requirements"]}
    wanted = 4 if report["found"] or "fails" in verdicts else 5 if missing or "undecided" in verdicts else 0
    if status != wanted:
        yield f"status {status}, wanted {wanted}"


def wrong_junit(path, requirements, report):
    """What is wrong with the file of test results."""
    suite = ElementTree.parse(path).getroot()
    verdicts = collections.Counter(it["verdict"] for it in report["requirements"])
    counts = [suite.get(it) for it in ("tests", "failures", "errors")]
    elements = [len(suite.findall(it)) for it in ("testcase", "testcase/failure", "testcase/error")]
    wanted = [len(requirements), verdicts["fails"], verdicts["undecided"]]
    if counts != list(map(str, wanted)) or elements != wanted:
        yield f"--junit: {counts}, {elements}, wanted {wanted}"
    names = [it.get("name") for it in suite]
    if names != [f"line {line}: {it}" for line, it in enumerate(requirements, 1)]:
        yield f"--junit: {names}"


def kind_of(requirement, found):
    """What a verdict is counted as."""
    about = "packets: " if requirement.demand == "leaving by" else ""
    rests_on = "by a frame" if "frame" in found else "for all frames" if found["matches"] else "of no frame that matches"
    return f"{about}{requirement.quantifier} {found['verdict']}{'' if found['verdict'] == 'undecided' else ' ' + rests_on}"


class RandomRequirements(unittest.TestCase):
    slow = True
    maxDiff = None

    def compare(self, case, folder):
        """The requirements with what is found about them."""
        requirements = case.requirements
        file, required, results = write_file(PROGRAM, folder, "switch", case.switch, case.events), f"{folder}/requirements.req", f"{folder}/results.xml"
        with open(required, "w", encoding="utf-8") as lines:
            lines.write("".join(f"{it}\n" for it in requirements))
        done = ofswitch("check", "--json", file, "--require", required, "--junit", results)
        self.assertIn(done.status, (0, 4, 5), done.err)
        report = json.loads(done.out)
        self.assertEqual([it["requirement"] for it in report["requirements"]], [*map(str, requirements)])
        wrong = [it for pair in zip(requirements, report["requirements"]) for it in wrong_verdict(case, *pair)]
        missing = {port for it in requirements for port in named_ports(it)} - {*case.switch.ports}
        self.assertEqual([*wrong, *wrong_status(done.status, report, missing), *wrong_junit(results, requirements, report)], [])
        return zip(requirements, report["requirements"])

    def test_random_switches(self):
        counted = collections.Counter()
        for name, pick in random_cases(SWITCHES):
            with self.subTest(name), tempfile.TemporaryDirectory() as folder:
                try:
                    counted.update(kind_of(*it) for it in self.compare(some_case(pick), folder))
                except AssertionError:
                    keep(folder, name)
                    raise
        print("random requirements: " + ", ".join(f"{count} {it}" for it, count in sorted(counted.items())))
