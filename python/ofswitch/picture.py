"""`python -m ofswitch draw`: a graph of flow tables, with the flows that never win, and the path of a frame or of a class of frames."""

from __future__ import annotations

import argparse
import json
import shutil
import subprocess
import sys

from . import flow_text, trace_text
from .drawing import draw
from .program import ProgramError, find, run_to_end, table_options

# How long the program, or `dot`, may take, in seconds.
_TIMEOUT = 120.0

# The exit status of `ofswitch check` that found something, and that of `ofswitch paths` if frames are undecided.
_FOUND = 4
_UNDECIDED = 5

# The exit status for a path that does not exist.
_BAD_ARGUMENTS = 1


def run(asked: argparse.Namespace) -> int:
    program = find(asked.program)
    text = canonical(program, asked)
    configuration = flow_text.read(text)
    walk = trace_text.Walk()
    also: set[tuple[int, int]] = set()
    port, frame = asked.port, asked.frame
    if asked.path is not None:
        port, frame, also = path_of(program, asked, text)
    if frame is not None:
        # after an event file the frame meets the switch's own ports; a flow text gets ports 1 to 64
        kind = ["--flows", "-"] if asked.events is None else ["--events", asked.events]
        words = [program, "trace", "--lines", *kind, "--port", str(port), frame, "--explain"]
        walk = trace_text.read(run_to_end(words, text.encode(), _TIMEOUT), configuration)
    graph = draw(configuration, never_winning(program, text), walk, also)
    if asked.svg is None:
        sys.stdout.write(graph)
    else:
        render(graph, asked.svg)
    return 0


def canonical(program: str, asked: argparse.Namespace) -> str:
    """The canonical flow text of the tables to be drawn."""
    if asked.events is not None:
        return run_to_end([program, "dis", asked.events], b"", _TIMEOUT)
    options = [*table_options(asked.skip, asked.renumber, asked.port_names), *(["--ovs"] if asked.flows is None else [])]
    events = run_to_end([program, "asm", *options, asked.ovs if asked.flows is None else asked.flows], b"", _TIMEOUT)
    return run_to_end([program, "dis", "-"], events.encode(), _TIMEOUT)


def path_of(program: str, asked: argparse.Namespace, text: str) -> tuple[int, str, set[tuple[int, int]]]:
    """The port and the frame of a path of `ofswitch paths`, by its number from 1, and the entries that all its sets of frames hit."""
    words = [program, "paths", "--json"] + ([] if asked.port is None else ["--port", str(asked.port)])
    file = "-" if asked.events is None else asked.events
    found = json.loads(run_to_end([*words, file], text.encode(), _TIMEOUT, good=(0, _UNDECIDED)))["paths"]
    if not 1 <= asked.path <= len(found):
        fault = f"there is no path {asked.path}: `ofswitch paths` finds {len(found)}"
        raise ProgramError(fault, _BAD_ARGUMENTS, fault)
    path = found[asked.path - 1]
    return path["in_port"], path["frame"], {(hit["table"], hit["entry"]) for hits in path["hits"] for hit in hits}


def never_winning(program: str, text: str) -> set[tuple[int, int]]:
    """Table and place of each flow that never wins, from `ofswitch check`."""
    found = json.loads(run_to_end([program, "check", "--json", "--flows", "-"], text.encode(), _TIMEOUT, good=(0, _FOUND, _UNDECIDED)))
    return {(it["table"], it["entry"]) for it in found["flows"] if it["verdict"].startswith("never wins")}


def render(graph: str, path: str) -> None:
    svg = svg_of(graph)
    with open(path, "wb") as picture:
        picture.write(svg)


def svg_of(graph: str) -> bytes:
    """The picture of a graph. ProgramError if `dot` is missing or fails."""
    dot = shutil.which("dot")
    if dot is None:
        raise ProgramError("there is no program dot: install Graphviz, or leave --svg out and keep the graph")
    done = subprocess.run([dot, "-Tsvg"], input=graph.encode(), capture_output=True, timeout=_TIMEOUT)
    if done.returncode:
        raise ProgramError(f"dot ended with status {done.returncode}: {done.stderr.decode(errors='replace').strip()}")
    return done.stdout
