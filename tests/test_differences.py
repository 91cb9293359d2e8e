"""Compares `diff` on random pairs of switches with a second model of the switch (tests/second_model.py).

The second switch of a pair is another one, or the first one with a change: a flow is added, removed or changed, or its priority, or the
state of a link. Some changes affect no frame: two disjoint flows are swapped, a match is divided in two halves, a flow is added that
never wins, OUTPUTs become buckets of an ALL group. The switches have one to three tables and up to two groups.

The model runs frames on both. These are failures:
- `same`, while the model treats a frame of a small world otherwise (tests/small_world.py)
- a difference whose frame the model treats alike, whose items are not those of the model, or that has no set of frames
- an entry that is marked as changed although the other switch has it, or the other way round; a region that `paths --match` does not read,
  and another number of regions of undecided frames than of their sets
- a difference of a change that affects no frame
- undecided frames of switches that have no PUSH_VLAN, POP_VLAN and SET_FIELD, except for the reasons OPEN (docs/DIFF.md)
- another exit status, or another answer on whether the ports differ
"""
import collections
import json
import tempfile
import unittest

from tests.program import PROGRAM, keep, ofswitch, random_cases
from tests.random_switches import some_pair, write_file
from tests.second_model import by_place, leaving, reported
from tests.small_world import WORLD

PAIRS = 500
# why frames may be undecided although nothing pushes, pops or sets a field: to be emptied as `diff` decides more
OPEN = {"other actions"}


def wrong_difference(pair, difference):
    """What is wrong with a difference."""
    port, frame = difference["in_port"], bytes.fromhex(difference["frame"])
    told = f"in_port {port}, frame {frame.hex()}"
    if not pair.first.ports.get(port):
        yield f"{told}: no such port receives"
    both = [leaving(it, port, frame) for it in (pair.first, pair.second)]
    for items, name in zip(both, ("first", "second")):
        if list(map(reported, items)) != difference[name]:
            yield f"{told}: {name} has {difference[name]}, the model {list(map(reported, items))}"
    places = [by_place(it, pair.controller) for it in both]
    at = difference["at"]
    if places[0].get(at) == places[1].get(at):
        yield f"{told}: the model treats it alike at {at}"
    for it in (difference, *difference["also"]):
        if it["sets"] < 1:
            yield f"{told}: {it['sets']} sets of frames"
    for own, other, name in ((pair.first, pair.second, "first"), (pair.second, pair.first, "second")):
        wanted = [is_changed(own, other, entry) for entry in difference[f"{name}_entries"]]
        if wanted != difference[f"{name}_changed"]:
            yield f"{told}: {name}_changed is {difference[f'{name}_changed']}"


def is_changed(own, other, entry):
    """Whether a switch has an entry, named by its table and its place there by age, that the other one has not."""
    return [it for it in own.flows if it.table == entry["table"]][entry["entry"]] not in other.flows


def unread_regions(report, file):
    """The regions of the first difference and of the first undecided frames, if `paths --match` does not read them."""
    undecided = [it for it in report["undecided_regions"] if it and not it.startswith("all frames")]
    for words in [*(it.get("region", "") for it in report["differences"][:1]), *(it.split(" ")[0] for it in undecided[:1])]:
        done = ofswitch("paths", "--match", words, file)
        if done.status not in (0, 5) or not done.out:
            yield f"region {words}: status {done.status}: {done.err.strip()}"


def treated_otherwise(pair):
    """A frame of the world that the model treats otherwise."""
    for port, frame in WORLD:
        first, second = (leaving(it, port, frame) for it in (pair.first, pair.second))
        if first != second and by_place(first, pair.controller) != by_place(second, pair.controller):
            return port, frame
    return None


def wrong_report(pair, report):
    differ = pair.first.ports != pair.second.ports
    if report["ports_differ"] != differ:
        yield f"ports_differ is {report['ports_differ']}"
    if differ:
        return
    for difference in report["differences"]:
        yield from wrong_difference(pair, difference)
    if report["differences"] and pair.alike:
        yield "a difference of a change that affects no frame"
    if len(report["undecided_regions"]) != len(report["undecided"]):
        yield f"undecided: {report['undecided']}, undecided_regions: {report['undecided_regions']}"
    if pair.plain and set(report["undecided"]) - OPEN:
        yield f"undecided: {report['undecided']}"
    if report["same"] or pair.alike:
        frame = treated_otherwise(pair)
        if frame:
            yield f"{'same' if report['same'] else 'the change'}: the model treats in_port {frame[0]}, frame {frame[1].hex()} otherwise"


class Differences(unittest.TestCase):
    slow = True
    maxDiff = None

    def compare(self, pair, folder):
        """The undecided sets of frames of a pair, by reason."""
        files = [write_file(PROGRAM, folder, name, it, pair.events) for name, it in (("first", pair.first), ("second", pair.second))]
        done = ofswitch("diff", "--json", *["--frames"] * (not pair.controller), *files)
        self.assertIn(done.status, (0, 4, 5), done.err)
        report = json.loads(done.out)
        self.assertEqual([*wrong_report(pair, report), *unread_regions(report, files[0])], [])
        self.assertIs({0: True, 4: False, 5: None}[done.status], report["same"])
        return report["undecided"]

    def test_random_pairs(self):
        reasons, pairs = collections.Counter(), 0
        for case, pick in random_cases(PAIRS):
            pair = some_pair(pick)
            with self.subTest(case, change=pair.change, controller=pair.controller), tempfile.TemporaryDirectory() as folder:
                try:
                    undecided = self.compare(pair, folder)
                except AssertionError:
                    keep(folder, case)
                    raise
                reasons.update(undecided)
                pairs += bool(undecided)
        print(f"diff: {pairs} random pairs have undecided frames; sets of frames: {dict(reasons)}")
