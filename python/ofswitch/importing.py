"""A table of Open vSwitch as flow text, as `ofswitch import` converts it (docs/IMPORT.md)."""

from __future__ import annotations

import os
from typing import Any

from . import library
from .program import StrPath, answered, document_of, file_of, find, table_options

# Exit statuses: lines are refused; lines or actions are left out.
_BAD_FILE = 2
_LEFT_OUT = 4

# The first words of event files and of flow texts.
_EVENT_WORDS = {"port", "connect", "lost", "c", "f", "t"}
_FLOW_WORDS = {"flow", "group"}


def import_(
    table: str | os.PathLike[str],
    *,
    skip: bool = False,
    renumber: bool = False,
    port_names: StrPath | None = None,
    program: StrPath | None = None,
    timeout: float = 600.0,
) -> dict[str, Any]:
    """The flow text and the flows of a table, or the lines that are refused, as docs/JSON.md describes them.

    The table is a text, or the path of a file (a `pathlib.Path`), as `ovs-ofctl` prints or reads it. With `skip` lines and actions
    are left out that this switch does not support, and with `renumber` the tables get the numbers 0, 1, 2 and so on. `port_names` is a
    file with the names of ports.
    """
    of_table = table_options(skip, renumber, port_names)

    def by_program() -> dict[str, Any]:
        with file_of(table) as file:
            return document_of([find(program), "import", "--json", *of_table, file], timeout, (0, _BAD_FILE, _LEFT_OUT), ())

    # the library has no names of ports
    if port_names is not None:
        return by_program()
    return answered(program, lambda it: it.import_(library.content_of(table), skip, renumber), by_program)


def kind_option(text: str | os.PathLike[str]) -> list[str]:
    """The option with which `ofswitch asm` reads a text, or a file, that is not flow text: by the first word of its first line that counts."""
    for line in library.content_of(text).decode(errors="replace").split("\n"):
        word = line.rstrip("\r").split(" ")[0]
        if word and not word.startswith("#"):
            if word in _EVENT_WORDS:
                return ["--events"]
            # a flow text may have a mistake there
            return ["--ovs"] if word not in _FLOW_WORDS and "actions=" in line else []
    return []
