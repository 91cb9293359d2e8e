"""Connects a switch to controllers over TCP."""

from __future__ import annotations

import contextlib
import logging
import threading
import time
from collections import deque
from collections.abc import Callable
from types import TracebackType

from . import rows
from .connection import Address, Connection, Dialer, Listener, Waker
from .effects import Answer, Closed, Effect, Sent
from .program import ProgramError
from .switch import Switch

_log = logging.getLogger("ofswitch")


class Bridge:
    """Connects a switch to controllers over TCP, one at a time, while a test plays other rows.

        with Switch() as switch, Bridge(switch) as bridge:
            ..                               # a controller connects to bridge.address
            switch.frame(1, frame)           # the controller gets the PACKET_IN
            bridge.sent()                    # the frame that leaves by its PACKET_OUT

    The bytes of the controller are fed to the switch, and each answer goes to the controller, whoever played the row. All
    rows are in `switch.log`, in the order in which the switch saw them, so the log replays the whole run. If a controller
    disconnects, another one may connect. A controller that reads none of its answers for `patience` seconds is disconnected.
    """

    def __init__(self, switch: Switch, address: Address = ("127.0.0.1", 0), *, patience: float = 10.0) -> None:
        """Listens for controllers at an IP address and a port; port 0 means any free port."""
        self._begin(switch, Listener(address), patience)

    @classmethod
    def dial(cls, switch: Switch, address: Address, *, patience: float = 10.0) -> Bridge:
        """Connects to a controller that listens at this address, and again whenever the connection is lost."""
        bridge = cls.__new__(cls)
        bridge._begin(switch, Dialer(address), patience)
        return bridge

    def _begin(self, switch: Switch, door: Listener | Dialer, patience: float) -> None:
        try:
            self._played = switch.attach(self)
        except RuntimeError:
            door.close()
            raise
        self._switch = switch
        self._door = door
        self._patience = patience
        self._waker = Waker()
        self._connection: Connection | None = None
        # frames that left because of the controller, and were not asked for yet
        self._sent: deque[Sent] = deque()
        # when the last row was played, whoever played it
        self._last = time.monotonic()
        # the first bytes of the controller, until the HELLO is whole
        self._hello = b""
        self._is_ready = False
        self._is_closing = False
        self._fault: BaseException | None = None
        self._thread = threading.Thread(target=self._run, name="ofswitch bridge", daemon=True)
        self._thread.start()

    # ---- for the test

    @property
    def address(self) -> Address:
        """The address at which it listens, or to which it connects."""
        return self._door.address

    @property
    def is_connected(self) -> bool:
        """Whether a controller is connected."""
        return self._connection is not None

    @property
    def is_ready(self) -> bool:
        """Whether a controller is connected and the switch has accepted its HELLO."""
        return self._is_ready

    def ready(self, timeout: float = 5.0) -> None:
        """Waits until a controller is connected and the switch has accepted its HELLO. TimeoutError if it has not in time."""
        self.until(lambda: self._is_ready, timeout)

    def idle(self) -> float:
        """The seconds since the last row was played, by the controller or by the test."""
        with self._played:
            self._check()
            return time.monotonic() - self._last

    def sent(self, timeout: float = 5.0) -> Sent:
        """The next frame that leaves because of a message of the controller. TimeoutError if there is none in time."""
        with self._played:
            self.until(lambda: bool(self._sent), timeout)
            return self._sent.popleft()

    def until(self, condition: Callable[[], bool], timeout: float = 5.0) -> None:
        """Waits until a condition holds, and checks it after each row. TimeoutError if it does not hold in time."""
        with self._played:
            if not self._played.wait_for(lambda: self._fault or condition(), timeout):
                raise TimeoutError(f"not within {timeout:g} s")
            self._check()

    def quiet(self, seconds: float = 0.1, timeout: float = 10.0) -> None:
        """Waits until no row has been played for this many seconds, neither by the controller nor by the test.

        A controller that takes longer to answer needs a longer time here. TimeoutError if it does not stop sending.
        """
        end = time.monotonic() + timeout
        with self._played:
            self._check()
            while (left := self._last + seconds - time.monotonic()) > 0:
                if time.monotonic() + left > end:
                    raise TimeoutError(f"not quiet within {timeout:g} s")
                self._played.wait(left)
                self._check()

    def disconnect(self) -> None:
        """Ends the connection, like a network failure."""
        with self._played:
            if self._connection is not None:
                self._connection.end = "by the test"
        self._waker.wake()

    def close(self) -> None:
        """Ends the connection, and stops listening or connecting."""
        self._is_closing = True
        self._waker.wake()
        self._thread.join()

    def __enter__(self) -> Bridge:
        return self

    def __exit__(
        self, kind: type[BaseException] | None, fault: BaseException | None, trace: TracebackType | None
    ) -> None:
        self.close()
        if fault is None:
            self._check()

    # ---- for the switch

    def take(self, effects: list[Effect]) -> None:
        """Sends the answers of a row to the controller."""
        self._last = time.monotonic()
        connection = self._connection
        if connection is None:
            return
        answers = b"".join(it.data for it in effects if isinstance(it, Answer))
        if answers:
            connection.write(answers)
        if any(isinstance(it, Closed) for it in effects):
            connection.finish()
        if connection.needs_attention:
            self._waker.wake()

    def _check(self) -> None:
        """Raises the exception that ended the bridge, if there was one."""
        if self._fault is not None:
            raise self._fault

    # ---- in the thread

    def _run(self) -> None:
        try:
            while not self._is_closing:
                if self._connection is None:
                    self._meet()
                else:
                    self._connection.wait(self._waker)
                    with self._played:
                        self._attend(self._connection)
        except BaseException as fault:
            self._fault = fault
        finally:
            self._leave()

    def _meet(self) -> None:
        stream = self._door.meet(self._waker)
        if stream is None:
            return
        try:
            connection = Connection(stream, self._patience)
        except OSError:
            stream.close()
            return
        with self._played:
            _log.info("connection with %s", connection.peer)
            self._connection = connection
            self._hello, self._is_ready = b"", False
            self._switch.play_for_controller(rows.connect())

    def _attend(self, connection: Connection) -> None:
        connection.flush()
        data = connection.read()
        if data:
            effects = self._switch.play_for_controller(rows.feed(data))
            self._sent += [it for it in effects if isinstance(it, Sent)]
            self._greet(data, effects)
        if connection.end is not None:
            self._end(connection)
        self._played.notify_all()

    def _greet(self, data: bytes, effects: list[Effect]) -> None:
        """Notes that the switch has accepted the HELLO, if the first message is complete and the switch has not ended the connection."""
        if not self._is_ready:
            self._hello += data
            whole = len(self._hello) >= 8 and len(self._hello) >= int.from_bytes(self._hello[2:4], "big")
            self._is_ready = whole and not any(isinstance(it, Closed) for it in effects)

    def _end(self, connection: Connection) -> None:
        _log.info("connection ended: %s", connection.end)
        connection.close()
        self._connection = None
        self._is_ready = False
        if not connection.is_over:
            self._switch.play_for_controller(rows.lost())

    def _leave(self) -> None:
        """Removes all that the bridge holds."""
        with self._played:
            self._door.close()
            if self._connection is not None:
                self._connection.end = self._connection.end or "by the bridge"
                with contextlib.suppress(ProgramError):
                    self._end(self._connection)
            self._waker.close()
            self._switch.detach()
            self._played.notify_all()
