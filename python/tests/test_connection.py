"""A connection with a controller that takes its time, and the pauses between calls."""

import socket
import time

import pytest
from ofswitch.connection import Connection, Dialer

MEGABYTE = 1 << 20


@pytest.fixture
def ends():
    """A connection of a switch, of little patience, and the controller's end of it, which has small buffers."""
    with socket.create_server(("127.0.0.1", 0)) as listener:
        controller = socket.socket()
        controller.setsockopt(socket.SOL_SOCKET, socket.SO_RCVBUF, 65_536)
        controller.connect(listener.getsockname())
        stream, _ = listener.accept()
    stream.setsockopt(socket.SOL_SOCKET, socket.SO_SNDBUF, 65_536)
    controller.settimeout(30)
    connection = Connection(stream, patience=2.0)
    yield connection, controller
    connection.close()
    controller.close()


def taken(connection, controller, size):
    """How many bytes arrive while the connection sends what waits, at most so many."""
    controller.settimeout(0.01)
    count, end = 0, time.monotonic() + 30
    while count < size and time.monotonic() < end:
        connection.flush()
        try:
            count += len(controller.recv(size - count))
        except TimeoutError:
            continue
    return count


def test_who_takes_a_part_from_time_to_time_stays(ends):
    """It never waits as long as the switch is patient, although all together takes longer."""
    connection, controller = ends
    connection.write(bytes(16 * MEGABYTE))
    for _ in range(6):
        time.sleep(0.5)
        assert taken(connection, controller, MEGABYTE) == MEGABYTE
        assert connection.end is None


def test_who_takes_nothing_is_given_up(ends):
    connection, _ = ends
    connection.write(bytes(16 * MEGABYTE))
    end = time.monotonic() + 30
    while connection.end is None and time.monotonic() < end:
        time.sleep(0.1)
        connection.flush()
    assert connection.end == "it reads no answers"


def test_who_takes_nothing_is_not_heard(ends):
    """While a megabyte waits, what the controller sends waits with it."""
    connection, controller = ends
    size = 2 * MEGABYTE + 65_536
    connection.write(bytes(size))
    controller.sendall(b"more")
    time.sleep(0.1)
    assert connection.read() == b""
    assert taken(connection, controller, size) == size
    assert connection.read() == b"more"


def test_what_waits_is_sent_before_the_end(ends):
    connection, controller = ends
    size = 4 * MEGABYTE
    connection.write(bytes(size))
    connection.finish()
    assert connection.end is None
    assert taken(connection, controller, size) == size
    connection.flush()
    assert connection.end == "closed by the switch"


class Pauses(list):
    """In place of a Waker: notes how long somebody wants to wait."""

    def wait(self, stream, events, seconds):
        self.append(seconds)


def test_pauses_double_and_begin_again_after_an_answer():
    with socket.socket() as listener:
        listener.bind(("127.0.0.1", 0))
        dialer, pauses = Dialer(listener.getsockname()), Pauses()
        for _ in range(8):
            assert dialer.meet(pauses) is None
        # a tenth of a second, and twice as long each time, up to five seconds
        assert pauses == [0.1, 0.2, 0.4, 0.8, 1.6, 3.2, 5.0, 5.0]
        listener.listen()
        dialer.meet(pauses).close()
        address = listener.getsockname()
    dialer.address = address
    assert dialer.meet(pauses) is None and pauses[8:] == [0.1]
