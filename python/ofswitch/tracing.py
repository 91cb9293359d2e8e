"""What becomes of a frame at the switch of a text, as `ofswitch trace` finds it (docs/TRACE.md)."""

from __future__ import annotations

import os
from typing import Any

from . import library, rows
from .program import StrPath, answered, document_of, file_of, find, table_options
from .rows import Octets

# Exit statuses: an argument or a file has a fault; a port is named that the switch does not have.
_BAD_ARGUMENT = 1
_BAD_FILE = 2
_MISSING_PORTS = 5


def trace(
    switch: str | os.PathLike[str],
    port: int,
    frame: Octets | str,
    *,
    skip: bool = False,
    renumber: bool = False,
    port_names: StrPath | None = None,
    program: StrPath | None = None,
    timeout: float = 600.0,
) -> dict[str, Any]:
    """The steps of a frame that comes in by a port, and what leaves, as docs/JSON.md describes them: `steps`, `effects` and the rest.

    The switch is a text, or the path of a file (a `pathlib.Path`): flow text, an event file, or what `ovs-ofctl` prints. The frame is
    bytes, or words: "tcp,nw_src=10.0.0.1,tp_dst=80". ValueError if the text, the port or the frame has a fault.

    With `skip` lines of what `ovs-ofctl` prints are left out that this switch does not support, with `renumber` its tables get the
    numbers 0, 1, 2 and so on, and `port_names` is a file with the names of its ports (docs/IMPORT.md).
    """
    of_table = table_options(skip, renumber, port_names)

    def by_program() -> dict[str, Any]:
        given = frame if isinstance(frame, str) else rows.as_bytes(frame).hex() or "-"
        with file_of(switch) as file:
            words = [find(program), "trace", "--json", *of_table, "--port", str(port), file, given]
            return document_of(words, timeout, (0, _MISSING_PORTS), (_BAD_ARGUMENT, _BAD_FILE))

    def by_library(it: library.Library) -> dict[str, Any]:
        comes_in_by, octets = it.frame_in_words(frame, port) if isinstance(frame, str) else (port, rows.as_bytes(frame))
        # the program says that the words name another port
        if comes_in_by != port:
            raise library.Fault(0)
        return it.trace(library.content_of(switch), comes_in_by, octets)

    # the library reads tables whole
    return by_program() if of_table else answered(program, by_library, by_program)
