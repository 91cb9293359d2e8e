"""The program `ofswitch`: finds it, runs it to its end, or runs it row by row."""

from __future__ import annotations

import contextlib
import json
import os
import re
import select
import shutil
import subprocess
import sysconfig
import tempfile
import weakref
from collections.abc import Callable, Iterator
from typing import Any, Union

from .library import Fault, Library, load

StrPath = Union[str, "os.PathLike[str]"]

# A question that asks nothing (docs/EVENTS.md): the line that ends its answer marks the end of the text of the rows before it.
MARK_ROW = b"#? mark\n"
ANSWER_END = b"?"

# The most reads of a run (docs/EVENTS.md).
MOST_READS = 4_294_967_295

# How many bytes a read asks for, here and in the program.
_READ_SIZE = 65_536

# A read from a pipe returns at least a page, except for the last read of a write.
_PAGE_SIZE = 4_096

# How long a program may take to end once its input has ended, in seconds.
_END_WAIT = 5.0


class ProgramError(Exception):
    """The program `ofswitch` is missing, has ended, or does not answer. The text includes its standard error.

    If it ended, `status` is its exit status, or below 0 the signal, and `said` is its standard error.
    """

    def __init__(self, text: str, status: int | None = None, said: str = "") -> None:
        super().__init__(text)
        self.status = status
        self.said = said


def find(program: StrPath | None) -> str:
    """The path of the program: the one that is given, the one that OFSWITCH names, or the one on the PATH.

    A wheel installs the program into the folder of this Python's commands, which is not on the PATH in a virtual environment that
    is not activated.
    """
    asked = os.fspath(program or os.environ.get("OFSWITCH") or "ofswitch")
    found = shutil.which(asked) or shutil.which(asked, path=sysconfig.get_path("scripts"))
    if found is None:
        raise ProgramError(f"there is no program {asked}: give its path, set OFSWITCH to it, or put ofswitch on the PATH")
    return found


def run_to_end(command: list[str], text: bytes, timeout: float, good: tuple[int, ...] = (0,)) -> str:
    """The output of a command that reads this text from standard input, and ends with one of these statuses."""
    return ended_well(command, text, timeout, good)[0]


def ended_well(command: list[str], text: bytes, timeout: float, good: tuple[int, ...]) -> tuple[str, str]:
    """What a command that ends with one of these statuses writes to standard output and to standard error."""
    try:
        done = subprocess.run(command, input=text, capture_output=True, timeout=timeout)
    except OSError as error:
        raise ProgramError(f"{command[0]} does not run: {error}") from error
    except subprocess.TimeoutExpired as error:
        raise ProgramError(f"{' '.join(command)} did not end within {timeout:g} s") from error
    if done.returncode not in good:
        raise _ended(command, done.returncode, done.stderr)
    return done.stdout.decode(), done.stderr.decode(errors="replace")


def document_of(command: list[str], timeout: float, good: tuple[int, ...], bad: tuple[int, ...]) -> dict[str, Any]:
    """The JSON document that a command prints, if it ends with one of the good statuses. ValueError if it ends with one of the bad ones."""
    try:
        found = run_to_end(command, b"", timeout, good)
    except ProgramError as fault:
        if fault.status not in bad:
            raise
        raise ValueError(fault.said) from None
    document: dict[str, Any] = json.loads(found)
    return document


def table_options(skip: bool, renumber: bool, port_names: StrPath | None) -> list[str]:
    """The options for what `ovs-ofctl` prints (docs/IMPORT.md)."""
    names = [] if port_names is None else ["--port-names", os.fspath(port_names)]
    return [*(["--skip"] if skip else []), *(["--renumber"] if renumber else []), *names]


def answered(
    program: StrPath | None, by_library: Callable[[Library], dict[str, Any]], by_program: Callable[[], dict[str, Any]]
) -> dict[str, Any]:
    """An answer of the C library, if it is installed and no program is given, or else of the program.

    The program says in words what is wrong with a text, so it is asked again about one with a fault, if there is a program.
    """
    found = load() if program is None else None
    if found is None:
        return by_program()
    try:
        return by_library(found)
    except Fault:
        try:
            find(None)
        except ProgramError:
            pass
        else:
            return by_program()
        raise


@contextlib.contextmanager
def file_of(text: str | os.PathLike[str]) -> Iterator[str]:
    """The path of a file; a text is written into one."""
    if not isinstance(text, str):
        yield os.path.abspath(text)
        return
    with tempfile.NamedTemporaryFile(suffix=".txt") as file:
        file.write(text.encode())
        file.flush()
        yield file.name


def reads_of(size: int) -> int:
    """The most reads that the program makes for a write of this many bytes."""
    return 1 + size // _PAGE_SIZE


class Run:
    """A run of `ofswitch replay --ask -` over two pipes. Only one thread may use it at a time."""

    def __init__(self, command: list[str], timeout: float) -> None:
        self._command = command
        self._timeout = timeout
        # how many reads the program has made at most
        self.reads = 0
        pipe = subprocess.PIPE
        try:
            self._process = subprocess.Popen(command, stdin=pipe, stdout=pipe, stderr=pipe, bufsize=0)
        except OSError as error:
            raise ProgramError(f"{command[0]} does not run: {error}") from error
        self._owner = os.getpid()
        self._finalizer = weakref.finalize(self, _end, self._process, self._owner)
        assert self._process.stdin and self._process.stdout
        self._stdin = self._process.stdin.fileno()
        self._stdout = self._process.stdout.fileno()
        # a full pipe must not prevent reading what the program has to write before it reads on
        os.set_blocking(self._stdin, False)
        self._answering = select.poll()
        self._answering.register(self._stdout, select.POLLIN)
        self._ready = select.poll()
        self._ready.register(self._stdout, select.POLLIN)
        self._ready.register(self._stdin, select.POLLOUT)

    @property
    def pid(self) -> int:
        return self._process.pid

    def check(self) -> None:
        """ProgramError if the run has ended."""
        if not self._finalizer.alive:
            raise ProgramError(f"{' '.join(self._command)} was ended")

    def play(self, rows: bytes) -> list[bytes]:
        """Plays rows, and returns the lines that they print, without line ends. After an exception the run has ended."""
        return self.play_each(rows + MARK_ROW, 1)[0]

    def play_each(self, rows: bytes, parts: int) -> list[list[bytes]]:
        """Plays so many parts, each with a question at its end, and returns the lines that each part prints."""
        self.check()
        try:
            return self._exchange(memoryview(rows), parts)
        except BaseException:
            # what is still to come would be taken for the text of the next row
            self._process.kill()
            self.close()
            raise

    def _exchange(self, left: memoryview, count: int) -> list[list[bytes]]:
        parts: list[list[bytes]] = []
        lines: list[bytes] = []
        line = b""
        while True:
            if left:
                left = left[self._write(left) :]
            *whole, line = (line + self._read(self._ready if left else self._answering)).split(b"\n")
            for it in whole:
                if it == ANSWER_END:
                    parts.append(lines)
                    lines = []
                else:
                    lines.append(it)
            if len(parts) == count:
                return parts

    def _write(self, data: memoryview) -> int:
        """Writes as much as the pipe takes, and returns how much that is."""
        try:
            size = os.write(self._stdin, data)
        except BlockingIOError:
            return 0
        except BrokenPipeError:
            raise self._fault() from None
        self.reads += reads_of(size)
        return size

    def _read(self, waiting: select.poll) -> bytes:
        """Waits, and returns what the program has written; empty if it only has room for more."""
        ready = waiting.poll(self._timeout * 1000)
        if not ready:
            raise ProgramError(f"{' '.join(self._command)} did not answer within {self._timeout:g} s")
        if all(it != self._stdout for it, _ in ready):
            return b""
        text = os.read(self._stdout, _READ_SIZE)
        if not text:
            raise self._fault()
        return text

    def _fault(self) -> ProgramError:
        """The reason why the program has ended, which it does by itself only because of a fault."""
        said = _end(self._process, self._owner)
        return _ended(self._command, self._process.returncode, said)

    def close(self) -> None:
        """Ends the program."""
        self._finalizer()


def _ended(command: list[str], status: int, said: bytes) -> ProgramError:
    how = f"with status {status}" if status >= 0 else f"by signal {-status}"
    text = said.decode(errors="replace").strip()
    return ProgramError(f"{' '.join(command)} ended {how}: {text or 'it wrote nothing to standard error'}", status, text)


def _end(process: subprocess.Popen[bytes], owner: int) -> bytes:
    """Ends a program that reads to the end of its input, and returns what it wrote to standard error.

    In a fork of the process that started it, it continues.
    """
    assert process.stdin and process.stdout and process.stderr
    if process.stderr.closed:
        return b""
    process.stdin.close()
    process.stdout.close()
    if os.getpid() != owner:
        process.stderr.close()
        return b""
    try:
        process.wait(_END_WAIT)
    except subprocess.TimeoutExpired:
        process.kill()
        process.wait()
    with process.stderr as stream:
        return stream.read()


def received(program: str, words: str, port: int | None = None, timeout: float = 60.0) -> tuple[int, bytes]:
    """The port and the bytes of a frame, which may be in words (docs/TRACE.md), as `ofswitch trace` reads them. ProgramError if they have a fault."""
    said = re.search(r"(?:^|[,\s])in_port=(\d+)", words)
    chosen = [] if port is None else ["--port", str(port)]
    # the switch has to have the port
    number = str(port) if port is not None else said[1] if said else "1"
    trace = run_to_end([program, "trace", "--flows", "-", "--ports", number, "--json", *chosen, words], b"", timeout)
    found = json.loads(trace)
    return found["in_port"], bytes.fromhex(found["frame"])
