"""Controllers as objects, which `explore` drives: what they have to do, and how to get one."""

from __future__ import annotations

import contextlib
import importlib.util
import select
import socket
import subprocess
import sys
import time
from collections.abc import Callable, Sequence
from pathlib import Path
from types import ModuleType
from typing import Any, Protocol

from .connection import Address, Dialer, Waker
from .program import StrPath
from .units import messages_of

Send = Callable[[bytes], None]

_READ_SIZE = 65_536

# How long a controller may take to end, in seconds.
_END_WAIT = 5.0


class Application(Protocol):
    """A controller. Each call returns when the controller has done all that it does because of it. It may also have `close()`."""

    def connected(self, dpid: int, send: Send) -> None:
        """A switch is connected; `send` sends it a message. The first message is a HELLO."""

    def message(self, dpid: int, data: bytes) -> None:
        """A whole message of that switch has arrived."""

    def lost(self, dpid: int) -> None:
        """The connection with that switch is lost."""


def application_of(make: Callable[[], Any]) -> Application:
    """Makes an application; that of os-ken gets what os-ken does around it."""
    made: Any = make()
    if hasattr(made, "connected"):
        return made  # type: ignore[no-any-return]
    # only somebody who has an application of os-ken has os-ken
    from .os_ken_application import OsKenApplication

    return OsKenApplication(made)


def load(path: StrPath, name: str | None = None) -> Any:
    """The module of a file, made anew at each call, or what has this name in it."""
    file = Path(path).absolute()
    # not the name that an import gives it
    spec = importlib.util.spec_from_file_location(f"loaded_{file.stem}", file)
    if spec is None or spec.loader is None:
        raise ImportError(f"not a file of Python: {file}")
    module: ModuleType = importlib.util.module_from_spec(spec)
    sys.modules[module.__name__] = module
    spec.loader.exec_module(module)
    return module if name is None else getattr(module, name)


class RemoteApplication:
    """A controller in a process of its own, of any language, which listens for switches.

    Nobody but time can say that it has done all that it does: a call returns when the controller has sent nothing for `quiet` seconds.
    """

    def __init__(self, command: Sequence[str] | None = None, address: Address | None = None, *, quiet: float = 0.1, timeout: float = 20.0) -> None:
        """Starts the command, in which `{port}` is a free port of 127.0.0.1, or uses a controller that listens at the address."""
        self.address = address or _free_address()
        self._quiet = quiet
        self._timeout = timeout
        self._streams: dict[int, socket.socket] = {}
        self._sends: dict[int, Send] = {}
        self._rests: dict[int, bytes] = {}
        words = [it.format(port=self.address[1]) for it in command or ()]
        self._process = subprocess.Popen(words, stdout=subprocess.DEVNULL, stderr=subprocess.DEVNULL) if words else None

    def connected(self, dpid: int, send: Send) -> None:
        self._streams[dpid], self._sends[dpid], self._rests[dpid] = self._dialed(), send, b""
        self._hear()

    def message(self, dpid: int, data: bytes) -> None:
        self._streams[dpid].sendall(data)
        self._hear()

    def lost(self, dpid: int) -> None:
        self._streams.pop(dpid).close()
        self._hear()

    def close(self) -> None:
        for stream in self._streams.values():
            stream.close()
        if self._process is not None:
            self._process.terminate()
            try:
                self._process.wait(_END_WAIT)
            except subprocess.TimeoutExpired:
                self._process.kill()
                self._process.wait()

    def _dialed(self) -> socket.socket:
        """A new connection with the controller, which may still be about to listen."""
        dialer, end = Dialer(self.address), time.monotonic() + self._timeout
        with contextlib.closing(Waker()) as waker:
            while (stream := dialer.meet(waker)) is None:
                if self._process is not None and self._process.poll() is not None:
                    raise ConnectionError(f"the controller ended with status {self._process.returncode}")
                if time.monotonic() > end:
                    raise TimeoutError(f"no controller listens at {self.address[0]}:{self.address[1]}")
        return stream

    def _hear(self) -> None:
        """Passes on what the controller sends, until it has sent nothing for a while."""
        by_stream = {stream: dpid for dpid, stream in self._streams.items()}
        while ready := select.select(list(by_stream), [], [], self._quiet)[0]:
            for stream in ready:
                self._take(by_stream[stream], stream.recv(_READ_SIZE))

    def _take(self, dpid: int, data: bytes) -> None:
        if not data:
            raise ConnectionError("the controller ended the connection")
        whole, self._rests[dpid] = messages_of(self._rests[dpid] + data)
        for it in whole:
            self._sends[dpid](it)


def _free_address() -> Address:
    with socket.socket() as free:
        free.bind(("127.0.0.1", 0))
        address: Address = free.getsockname()
        return address
