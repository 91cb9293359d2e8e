"""Which steps the frames that a switch receives take, as `ofswitch paths` finds them (docs/PATHS.md)."""

from __future__ import annotations

import os
from typing import Any

from . import library
from .program import StrPath, answered, document_of, file_of, find, table_options

# Exit statuses: an argument or a file has a fault; frames are undecided.
_BAD_ARGUMENT = 1
_BAD_FILE = 2
_UNDECIDED = 5

# The highest number of a port (OpenFlow 1.3.5, 7.2.1: OFPP_MAX).
MOST_PORT = 0xFFFFFF00


def paths(
    switch: str | os.PathLike[str],
    *,
    port: int | None = None,
    match: str | None = None,
    each: bool = False,
    to: int | str | None = None,
    steps: int | None = None,
    ports: str | None = None,
    skip: bool = False,
    renumber: bool = False,
    port_names: StrPath | None = None,
    program: StrPath | None = None,
    timeout: float = 600.0,
) -> dict[str, Any]:
    """The steps that the frames take that a switch receives, as docs/JSON.md describes them: `paths`, `classes` and `undecided`.

    The switch is a text, or the path of a file (a `pathlib.Path`): flow text, an event file, or what `ovs-ofctl` prints. With
    `port` only frames that come in by that port are divided, and with `match` those that match: `"ip,nw_dst=10.0.0.0/8"`. With
    `each` each set of frames is a path of its own, with a frame of it. With `to` only paths are returned that lead there: the
    number of a port, `"controller"` or `"drop"`. `ports` are those of a switch of flow text or `ovs-ofctl` (`"1-8,100"`; by default
    1 to 4 and those that it names), and `steps` is that of `--steps`. ValueError if an argument or the text has a fault.

    With `skip` lines of what `ovs-ofctl` prints are left out that this switch does not support, with `renumber` its tables get the
    numbers 0, 1, 2 and so on, and `port_names` is a file with the names of its ports (docs/IMPORT.md).
    """
    of_table = table_options(skip, renumber, port_names)

    def by_program() -> dict[str, Any]:
        given = {"--port": port, "--match": match, "--to": to, "--steps": steps, "--ports": ports}
        options = of_table + [word for name, value in given.items() if value is not None for word in (name, str(value))]
        if each:
            options.append("--each")
        with file_of(switch) as file:
            return document_of([find(program), "paths", "--json", *options, file], timeout, (0, _UNDECIDED), (_BAD_ARGUMENT, _BAD_FILE))

    # the library has no such arguments, and takes ports that may be numbers of ports
    if of_table or ports is not None or not is_place(to) or not (port is None or 0 < port < 1 << 32):
        return by_program()
    return answered(program, lambda it: it.paths(library.content_of(switch), port, match or "", to, each, steps), by_program)


def is_place(to: int | str | None) -> bool:
    """Whether paths may be asked to lead there."""
    return 0 < to <= MOST_PORT if isinstance(to, int) else to in (None, "controller", "drop")
