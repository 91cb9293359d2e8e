"""`ofswitch live` with interfaces of the kernel as its ports."""

from __future__ import annotations

import contextlib
import functools
import os
import signal
import subprocess
import tempfile
import threading
from collections.abc import Mapping, Sequence
from types import TracebackType
from typing import IO, Any

from . import interfaces, rows
from .interfaces import Interface, Joined, Taken, Underlay
from .program import ProgramError, StrPath, find

# The receive buffer of the switch, in bytes: a burst of segments that is longer is lost. The usual default holds about 80 frames.
_BUFFER = 4 << 20

# How long the program may take to begin, and to end, in seconds.
_BEGIN_WAIT, _END_WAIT = 20.0, 5.0

# prctl: a signal when the parent ends
_DIE_WITH_PARENT = 1


class LiveSwitch:
    """A run of `ofswitch live` whose ports are interfaces, until `close`.

    The kernel carries the frames between the interfaces and the switch. It needs root, and the kernel's vxlan and tc filters.
    """

    def __init__(
        self,
        ports: Mapping[int, Interface],
        words: Sequence[str] = (),
        *,
        program: StrPath | None = None,
        events: StrPath | None = None,
        output: IO[Any] | None = None,
    ) -> None:
        """Starts the program with these options, such as `--connect`. It plays the rows of `events` after those that add its ports.

        `output` is a file for what the program prints. InterfaceError if an interface cannot be a port; if the program does not
        begin, `poll` gives its exit status.
        """
        self._program = find(program)
        interfaces.require_system()
        if len({str(it) for it in ports.values()}) < len(ports):
            raise interfaces.InterfaceError("an interface can be one port only")
        self.ports = dict(ports)
        self.takes_rows = takes_rows(self._program)
        self._writing = threading.Lock()
        self._undo = contextlib.ExitStack()
        try:
            self._begin(list(words), events, output)
        except BaseException:
            self.close()
            raise

    def _begin(self, words: list[str], events: StrPath | None, output: IO[Any] | None) -> None:
        under = Underlay()
        self._undo.callback(under.close)
        self.joined = Joined(self.ports, under)
        self._undo.callback(self.joined.close)
        first = self._undo.enter_context(tempfile.NamedTemporaryFile("w", suffix=".events"))
        first.writelines(f"{it}\n" for it in self._first_rows())
        if events is not None:
            with open(events, encoding="utf-8", errors="surrogateescape") as more:
                first.write(more.read())
        first.flush()
        peers = [word for it in self.ports for word in ("--peer", f"{it}={under.kernel}:{under.port}")]
        command = [self._program, "live", "--vxlan", f"{under.switch}:{under.port}", *peers, "--events", first.name, *words]
        if self.takes_rows:
            command += ["--rows", "-"]
        pipe = subprocess.PIPE if self.takes_rows else subprocess.DEVNULL
        self.process: subprocess.Popen[bytes] = subprocess.Popen(
            command, stdin=pipe, stdout=output, stderr=output, preexec_fn=_end_with_parent, start_new_session=True
        )
        self._undo.callback(self._end)
        if interfaces.wait_until_bound(under.port, self.process, _BEGIN_WAIT):
            if not interfaces.widen(self.process.pid, under.port, _BUFFER):
                self.joined.notes.append("the receive buffer of the switch cannot be made larger: bursts of frames may be lost")
            self._watch()

    def _first_rows(self) -> list[str]:
        """The rows that add the ports, with the addresses, names and links of their interfaces."""
        added = []
        for number, it in self.ports.items():
            seen = self.joined.seen.get(number)
            # an address of Ethernet; other interfaces have none
            address = seen.address if seen and seen.address.count(":") == 5 else None
            added.append(rows.port_add(number, address, it.name, up=seen is None or seen.is_up or not self.takes_rows))
        return added

    @property
    def notes(self) -> list[str]:
        """What whoever starts it has to know."""
        lost = [] if self.takes_rows else ["this ofswitch takes no rows while it runs: all links are up for it, whatever they do"]
        return [*self.joined.notes, *lost]

    def play(self, row: str) -> None:
        """Plays a row of an event file, such as `port link 1 down`, if the program takes rows (`takes_rows`)."""
        rows.check(row)
        if not self.takes_rows:
            raise ProgramError("this ofswitch takes no rows while it runs")
        with self._writing, contextlib.suppress(BrokenPipeError):
            assert self.process.stdin
            self.process.stdin.write(row.encode() + b"\n")
            self.process.stdin.flush()

    def _watch(self) -> None:
        """From now on, the link of an interface that goes up or down is that of its port."""
        names = {it.name: number for number, it in self.ports.items() if isinstance(it, Taken)}
        if not (names and self.takes_rows):
            return
        stopped, stop = os.pipe()

        def watch() -> None:
            state = {number: self.joined.seen[number].is_up for number in names.values()}
            for number, is_up in interfaces.link_states(names, stopped):
                if is_up != state[number]:
                    state[number] = is_up
                    self.play(rows.port_link(number, is_up))

        thread = threading.Thread(target=watch, daemon=True)
        thread.start()

        def end() -> None:
            os.close(stop)
            thread.join()
            os.close(stopped)

        self._undo.callback(end)

    def poll(self) -> int | None:
        """The exit status of the program, if it has ended."""
        return self.process.poll()

    def wait(self) -> int:
        """Waits until the program ends, and returns its exit status."""
        return self.process.wait()

    def _end(self) -> None:
        self.process.terminate()
        try:
            self.process.wait(_END_WAIT)
        except subprocess.TimeoutExpired:
            self.process.kill()
            self.process.wait()
        if self.process.stdin:
            with contextlib.suppress(OSError):
                self.process.stdin.close()

    def close(self) -> None:
        """Ends the program, and removes what was made."""
        self._undo.close()

    def __enter__(self) -> LiveSwitch:
        return self

    def __exit__(
        self, kind: type[BaseException] | None, fault: BaseException | None, trace: TracebackType | None
    ) -> None:
        self.close()


@functools.cache
def takes_rows(program: str) -> bool:
    """Whether this program has `live --rows`."""
    try:
        done = subprocess.run([program, "live", "--help"], stdin=subprocess.DEVNULL, capture_output=True, text=True, timeout=60)
    except (OSError, subprocess.SubprocessError) as fault:
        raise ProgramError(f"{program} does not run: {fault}") from fault
    if done.returncode or "--peer" not in done.stdout:
        raise ProgramError(f"{program} has no subcommand live")
    return "--rows" in done.stdout


def _end_with_parent() -> None:
    import ctypes

    ctypes.CDLL(None).prctl(_DIE_WITH_PARENT, signal.SIGTERM)
