"""`python -m ofswitch capture`: captures as event files, compared with the specified switch, and event files as captures."""

from __future__ import annotations

import argparse
import json
import sys

from . import comparison, recording, rows, sessions
from .accepting import Accepted
from .comparison import Difference
from .recording import Moment, PortFile
from .run_pcap import write_pcap
from .sessions import Notes, Session
from .switch import Switch

# The exit status of a comparison that found differences, as that of `ofswitch check` that found something.
FOUND = 4
BAD_ROW = 2
# there is nothing to compare
NOTHING = 2


def run(asked: argparse.Namespace) -> int:
    notes = Notes()
    try:
        return _COMMANDS[asked.what](asked, notes)
    finally:
        for line in notes.lines:
            print(line, file=sys.stderr)


def _recorded(asked: argparse.Namespace, notes: Notes) -> tuple[list[Session], list[Moment], int]:
    """The connections of the switch that a capture shows, all that happened, and its datapath_id."""
    found = sessions.read(asked.file, asked.tcp_port, asked.dpid, notes)
    if not found:
        notes.add(f"{asked.file}: no OpenFlow 1.3 connection")
    datapath = next((it.datapath for it in found if it.datapath is not None), asked.dpid or 1)
    return found, list(recording.timed(recording.moments(found, asked.inputs, notes))), datapath


def _events(asked: argparse.Namespace, notes: Notes) -> int:
    _, moments, datapath = _recorded(asked, notes)
    if datapath != 1:
        print(f"# a switch of datapath_id {datapath:#x}: replay it with --dpid {datapath:#x}")
    for it in moments:
        if it.row:
            print(it.row)
    return 0


def _compare(asked: argparse.Namespace, notes: Notes) -> int:
    accepted = Accepted(asked.accept)
    found, moments, datapath = _recorded(asked, notes)
    with Switch(asked.program, dpid=datapath, log=False) as switch:
        effects = switch.play_all(it.row for it in moments if it.row)
    whole = comparison.compare(moments, iter(effects))
    outputs: dict[int, list[bytes]] = {}
    for number, path in asked.outputs:
        outputs.setdefault(number, []).extend(data for _, data in recording.frames(path, notes))
    differences, alike = comparison.report(whole, found, outputs)
    left = [it for it in map(accepted.without, differences) if it.lines]
    if asked.json:
        print(_document(len(found), alike, len(differences) - len(left), left))
    else:
        for it in left:
            print(it)
        known = f", {len(differences) - len(left)} accepted" if asked.accept is not None else ""
        print(f"{alike} alike, {len(left)} with differences{known}")
    return FOUND if left else 0 if found else NOTHING


def _document(connections: int, alike: int, accepted: int, differences: list[Difference]) -> str:
    """The outcome of a comparison as docs/JSON.md describes it."""
    listed = [{**it.place, "lines": it.lines} for it in differences]
    numbers = {"connections": connections, "alike": alike, "accepted": accepted}
    return json.dumps({"version": 1, "command": "capture compare", **numbers, "differences": listed}, separators=(",", ":"))


def _frames(asked: argparse.Namespace, notes: Notes) -> int:
    inputs: list[PortFile] = [(asked.port, asked.file)]
    for it in recording.timed(recording.moments([], inputs, notes)):
        print(it.row)
    return 0


def _pcap(asked: argparse.Namespace, notes: Notes) -> int:
    with open(asked.file, encoding="utf-8", errors="surrogateescape", newline="\n") as lines:
        events = [line.removesuffix("\n") for line in lines]
    dpid = asked.dpid if asked.dpid is not None else rows.said_dpid(events[0] if events else "")
    with Switch(asked.program, dpid=dpid, log=False) as switch:
        try:
            effects = switch.play_all(events)
        except ValueError as fault:
            notes.add(f"{asked.file}: {fault}")
            return BAD_ROW
    write_pcap(asked.out, zip(events, effects))
    return 0


_COMMANDS = {"events": _events, "compare": _compare, "frames": _frames, "pcap": _pcap}
