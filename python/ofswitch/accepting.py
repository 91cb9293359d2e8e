"""Differences that are known: those of an earlier run of `capture compare --json`."""

from __future__ import annotations

import json
import re
from collections import defaultdict
from typing import Any

from .comparison import Difference
from .program import StrPath

# What is another in each run.
_NUMBERS = re.compile(r"\bxid \d+")


class AcceptError(Exception):
    """A file is not what `capture compare --json` prints."""


class Accepted:
    """Lines of differences by what they are about; connections, xids and packets may be others."""

    def __init__(self, path: StrPath | None) -> None:
        """Reads a file, or accepts nothing."""
        self._lines: defaultdict[tuple[Any, ...], set[str]] = defaultdict(set)
        for it in [] if path is None else _differences(path):
            self._lines[it.about] |= {*map(_comparable, it.lines)}

    def without(self, it: Difference) -> Difference:
        """The difference without the lines that are accepted."""
        lines = self._lines.get(it.about, set())
        return it._replace(lines=[line for line in it.lines if _comparable(line) not in lines])


def _comparable(line: str) -> str:
    return _NUMBERS.sub("xid", line)


def _differences(path: StrPath) -> list[Difference]:
    with open(path, encoding="utf-8") as file:
        try:
            document = json.load(file)
            found = [Difference(it, [*map(str, it["lines"])]) for it in document["differences"]]
            for it in found:
                hash(it.about)
            return found
        except (ValueError, LookupError, TypeError, AttributeError):
            raise AcceptError(f"{path}: not what `capture compare --json` prints") from None
