"""A TCP connection with a controller, and the two ways to make one."""

from __future__ import annotations

import contextlib
import select
import socket
import time

Address = tuple[str, int]

_READ_SIZE = 65_536

# While this many bytes wait for the controller, its messages are not read, since they might be answered.
_MOST_WAITING = 1 << 20

# How long an attempt to connect takes at most, and the pause after one, which doubles up to the longest, in seconds.
_DIAL_TIMEOUT = 2.0
_FIRST_PAUSE = 0.1
_LONGEST_PAUSE = 5.0


class Waker:
    """Lets one thread end the waiting of another."""

    def __init__(self) -> None:
        self._sender, self._receiver = socket.socketpair()
        self._sender.setblocking(False)
        self._receiver.setblocking(False)

    def wake(self) -> None:
        # if there is no room, it is awake already; if it is closed, nobody waits
        with contextlib.suppress(OSError):
            self._sender.send(b"x")

    def wait(self, stream: socket.socket | None, events: int, seconds: float | None) -> None:
        """Waits for events of a socket, at most this long, unless another thread wakes it."""
        waiting = select.poll()
        waiting.register(self._receiver, select.POLLIN)
        if stream is not None:
            waiting.register(stream, events)
        waiting.poll(None if seconds is None else max(0.0, seconds) * 1000)
        with contextlib.suppress(BlockingIOError):
            while self._receiver.recv(4096):
                pass

    def close(self) -> None:
        self._sender.close()
        self._receiver.close()


class Connection:
    """A connection with a controller. Bytes that the controller does not take at once are kept for it."""

    def __init__(self, stream: socket.socket, patience: float) -> None:
        """OSError if the connection has already ended."""
        stream.setblocking(False)
        stream.setsockopt(socket.IPPROTO_TCP, socket.TCP_NODELAY, 1)
        host, port = stream.getpeername()[:2]
        self.peer = f"{host}:{port}"
        self._stream = stream
        self._patience = patience
        self._waiting = bytearray()
        # since when the controller has taken none of the waiting bytes
        self._since = 0.0
        # whether the switch has ended it; nothing more of it is read then
        self.is_over = False
        # why it has ended, if it has
        self.end: str | None = None

    def write(self, data: bytes) -> None:
        """Sends what the controller takes, and keeps the rest. If the connection has ended, the bytes are dropped."""
        if self.end is not None:
            return
        if not self._waiting:
            self._since = time.monotonic()
        self._waiting += data
        self.flush()

    def finish(self) -> None:
        """The switch ends the connection as soon as all waiting bytes are sent."""
        self.is_over = True
        self.flush()

    def flush(self) -> None:
        """Sends as many of the waiting bytes as the controller takes."""
        while self._waiting and self.end is None:
            try:
                size = self._stream.send(self._waiting)
            except BlockingIOError:
                break
            except OSError:
                self.end = "a write failed"
                break
            del self._waiting[:size]
            self._since = time.monotonic()
        if self.end is None and self.is_over and not self._waiting:
            self.end = "closed by the switch"
        if self.end is None and self._waiting and time.monotonic() >= self._since + self._patience:
            self.end = "it reads no answers"

    @property
    def needs_attention(self) -> bool:
        """Whether bytes wait to be sent, or the connection has ended."""
        return bool(self._waiting) or self.end is not None

    def read(self) -> bytes:
        """The bytes that the controller has sent; empty if there are none now."""
        if not self._is_heard():
            return b""
        try:
            data = self._stream.recv(_READ_SIZE)
        except BlockingIOError:
            return b""
        except OSError:
            self.end = "a read failed"
            return b""
        if not data:
            self.end = "by the controller"
        return data

    def wait(self, waker: Waker) -> None:
        """Waits until there may be bytes to read or to send, or the connection may be ended."""
        if self.end is not None:
            return
        events = (select.POLLIN if self._is_heard() else 0) | (select.POLLOUT if self._waiting else 0)
        seconds = self._since + self._patience - time.monotonic() if self._waiting else None
        waker.wait(self._stream, events, seconds)

    def close(self) -> None:
        self._stream.close()

    def _is_heard(self) -> bool:
        return self.end is None and not self.is_over and len(self._waiting) < _MOST_WAITING


class Listener:
    """Waits for controllers that connect."""

    def __init__(self, address: Address) -> None:
        family = socket.AF_INET6 if ":" in address[0] else socket.AF_INET
        self._socket = socket.create_server(address, family=family)
        self._socket.setblocking(False)
        self.address: Address = self._socket.getsockname()[:2]

    def meet(self, waker: Waker) -> socket.socket | None:
        """Waits for a controller. Returns None if another thread wakes it."""
        waker.wait(self._socket, select.POLLIN, None)
        try:
            return self._socket.accept()[0]
        except (BlockingIOError, ConnectionAbortedError):
            return None

    def close(self) -> None:
        self._socket.close()


class Dialer:
    """Connects to a controller that listens."""

    def __init__(self, address: Address) -> None:
        self.address = address
        self._pause = _FIRST_PAUSE

    def meet(self, waker: Waker) -> socket.socket | None:
        """The controller; or None, after a pause, if it does not answer."""
        try:
            stream = socket.create_connection(self.address, timeout=_DIAL_TIMEOUT)
        except OSError:
            waker.wait(None, 0, self._pause)
            self._pause = min(2 * self._pause, _LONGEST_PAUSE)
            return None
        self._pause = _FIRST_PAUSE
        return stream

    def close(self) -> None:
        pass
