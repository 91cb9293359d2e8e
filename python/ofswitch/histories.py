"""At which places of an event file the fate of a frame or flow entries change, and by what, as `ofswitch history` finds them (docs/HISTORY.md)."""

from __future__ import annotations

import json
import os
from typing import Any

from . import rows
from .program import ProgramError, StrPath, file_of, find, run_to_end
from .rows import Octets

# Exit statuses: an argument or a file has a fault.
_BAD = (1, 2)


def history(
    log: str | os.PathLike[str],
    port: int | None = None,
    frame: Octets | str | None = None,
    *,
    row: int | None = None,
    flow: str | None = None,
    dpid: int = 1,
    program: StrPath | None = None,
    timeout: float = 600.0,
) -> list[dict[str, Any]]:
    """The changes of the fate of a frame, as docs/JSON.md describes them: `line`, `row` or `message` and `by`, `reason`, `before` and `after`.

    The log is an event file as a text, or its path (a `pathlib.Path`). The frame is bytes or words, as `trace` takes them; with `row`
    it is that of a row `f PORT HEX` in this line, and the history ends there. With `flow` they are the changes of the flow entries
    that have these words, such as "table=0,ip,nw_dst=10.0.0.0/8": `before` has the entries that went, and `after` those that came.
    ValueError if an argument or the text has a fault.
    """
    if [row, frame, flow].count(None) != 2:
        raise ValueError("a history is of a port and a frame, of a row, or of flow entries")
    options = [] if port is None else ["--port", str(port)]
    if frame is not None:
        words = [frame if isinstance(frame, str) else rows.as_bytes(frame).hex()]
    else:
        words = ["--row", str(row)] if flow is None else ["--flow", flow]
    with file_of(log) as file:
        command = [find(program), "history", "--json", "--dpid", str(dpid), *options, file, *words]
        try:
            told = run_to_end(command, b"", timeout)
        except ProgramError as fault:
            if fault.status not in _BAD:
                raise
            raise ValueError(fault.said) from None
    return [json.loads(line) for line in told.splitlines()]
