"""Mininet switches that are runs of `ofswitch live` (docs/LAB.md).

    sudo mn --custom $(python -m ofswitch mininet) --switch ofswitch --controller remote

In a script: `Mininet(topo, switch=OFSwitch, controller=RemoteController, waitConnected=True)`. Mininet 2.3 is needed.
"""

from __future__ import annotations

import os
import subprocess
import sys
import tempfile
import threading
from typing import IO, Any, NoReturn

from mininet.log import error, warn
from mininet.node import Switch

from .interfaces import Interface, InterfaceError, Taken, require_system
from .live import LiveSwitch, takes_rows
from .program import ProgramError, find

# What `dpctl` answers, each by a command of the program about the log.
_ANSWERS = {
    "dump-flows": ["dis"],
    "check": ["check"],
    "explain": ["replay", "--explain"],
    "trace": ["trace"],
}

# What dpctl of Open vSwitch needs for this version; here there is no other one.
_VERSION = ("-O", "OpenFlow13")


def _give_up(fault: Exception) -> NoReturn:
    """Ends Mininet before anything runs. After another exception `mn` would remove all that has the name of something of Mininet's."""
    error(f"ofswitch: {fault}\n")
    sys.exit(1)


class OFSwitch(Switch):  # type: ignore[misc]
    """A switch whose port N is the N-th interface that Mininet gives it, such as s1-eth1.

    `log` is a folder, in which each switch keeps its event file, such as s1.events. `program` is the path of ofswitch; by default
    the program that OFSWITCH names, or the one on the PATH. `dpid` is hexadecimal, as for all switches of Mininet. Without a
    controller the switch waits for one at 127.0.0.1 and the port `listenPort`.
    """

    def __init__(self, name: str, log: str | None = None, program: str | None = None, **params: Any) -> None:
        try:
            self.program = os.path.abspath(find(program))
            self._takes_rows = takes_rows(self.program)
        except ProgramError as fault:
            _give_up(fault)
        super().__init__(name, **params)
        self.log = None if log is None else os.path.join(os.path.abspath(log), f"{name}.events")
        self.live: LiveSwitch | None = None
        self._printed: IO[bytes] | None = None

    @classmethod
    def setup(cls) -> None:
        """Ends Mininet if the interfaces of a switch cannot be joined to the program here."""
        try:
            require_system()
        except InterfaceError as fault:
            _give_up(fault)

    def start(self, controllers: list[Any] | None) -> None:
        if self.inNamespace:
            raise InterfaceError(f"{self.name}: ofswitch runs in Mininet's own namespace, not with inNamespace")
        ports: dict[int, Interface] = {number: Taken(str(it)) for number, it in self.intfs.items() if str(it) != "lo"}
        words = [*self._datapath()]
        if controllers:
            if len(controllers) > 1:
                warn(f"{self.name}: ofswitch has one controller, {controllers[0].name}\n")
            words += ["--connect", f"{controllers[0].IP()}:{controllers[0].port}"]
        else:
            words += ["--listen", f"127.0.0.1:{self.listenPort or 0}"]
        if self.log is not None:
            os.makedirs(os.path.dirname(self.log), exist_ok=True)
            words += ["--log", self.log]
        self._printed = tempfile.TemporaryFile()
        self.live = LiveSwitch(ports, words, program=self.program, output=self._printed)
        if self.live.poll() is not None:
            raise ProgramError(f"{self.name}: ofswitch ended: {self.printed()}")
        if not self._takes_rows:
            warn(f"{self.name}: this ofswitch takes no rows while it runs, so a link that goes down stays up for it\n")
        threading.Thread(target=self._warn_at_end, args=[self.live], daemon=True).start()

    def stop(self, deleteIntfs: bool = True) -> None:
        if self.live is not None:
            # nobody is warned then
            live, self.live = self.live, None
            live.close()
        super().stop(deleteIntfs)

    def ended(self) -> str | None:
        """Why the program has ended by itself: its exit status, and what it printed last. None while it runs, and after `stop`."""
        status = None if self.live is None else self.live.poll()
        if status is None:
            return None
        said = self.printed().split("\n")
        last = next(filter(None, reversed(said)), "it printed nothing")
        return f"{self.name}: ofswitch ended with status {status}: {last}"

    def _warn_at_end(self, live: LiveSwitch) -> None:
        live.wait()
        if self.live is live:
            warn(f"{self.ended()}\n")

    def _datapath(self) -> list[str]:
        """The option of the datapath_id, whose digits are hexadecimal in Mininet."""
        return ["--dpid", str(int(self.dpid, 16))]

    def printed(self) -> str:
        """What the program has printed: its connections, and faults."""
        if self._printed is None:
            return ""
        return os.pread(self._printed.fileno(), 1 << 20, 0).decode(errors="replace")

    def connected(self) -> bool:
        """Whether the program runs, and a controller is connected."""
        if self.ended() is not None:
            return False
        lines = [it for it in self.printed().splitlines() if it.startswith(("connection with ", "connection ended"))]
        return bool(lines) and lines[-1].startswith("connection with ")

    def dpctl(self, *words: str) -> str:
        """Answers from the log: `dump-flows`, the groups and flow tables now; `check`, flows that never win; `explain`, all events in words.

        `trace FRAME` has the steps that a frame would take now, such as `in_port=1,icmp,nw_dst=10.0.0.2` (docs/TRACE.md). If the
        program has ended, the first line says so.
        """
        name, *frame = [it for it in words if it not in _VERSION] or [""]
        command = _ANSWERS.get(name)
        if command is None or len(frame) != (name == "trace"):
            return f"ofswitch answers {', '.join(_ANSWERS)} FRAME\n"
        if self.log is None:
            return "this switch has no log to answer from: give it log=FOLDER\n"
        options = self._datapath() if command[0] == "replay" else []
        done = subprocess.run([self.program, *command, *options, self.log, *frame], capture_output=True, text=True)
        ended = self.ended()
        return ("" if ended is None else f"{ended}\n") + done.stdout + done.stderr

    def flows(self) -> str:
        """The groups and flow tables now, as flow text (docs/FLOWTEXT.md)."""
        return self.dpctl("dump-flows")
