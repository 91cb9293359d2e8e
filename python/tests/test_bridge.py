"""Controllers over TCP, while the test plays other rows."""

import contextlib
import itertools
import os
import signal
import socket
import subprocess
import sys
import threading
import time

import messages
import pytest
from ofswitch import Bridge, MessageType, ProgramError, Sent, Switch

FRAME = bytes.fromhex("020000000002020000000001") + bytes.fromhex("88b5") + bytes(46)
SWITCH_HELLO = bytes.fromhex("04000010000000000001000800000010")


class Controller:
    """A controller's end of a connection."""

    def __init__(self, stream):
        stream.settimeout(60)
        self.stream = stream
        self.bytes = b""

    @classmethod
    def of(cls, bridge, receive_buffer=None):
        stream = socket.socket(socket.AF_INET6 if ":" in bridge.address[0] else socket.AF_INET)
        if receive_buffer:
            stream.setsockopt(socket.SOL_SOCKET, socket.SO_RCVBUF, receive_buffer)
        stream.connect(bridge.address)
        controller = cls(stream)
        controller.send(messages.HELLO)
        assert controller.message() == SWITCH_HELLO
        controller.sync()
        return controller

    def send(self, *parts):
        self.stream.sendall(b"".join(parts))

    def message(self):
        while len(self.bytes) < 8 or len(self.bytes) < int.from_bytes(self.bytes[2:4], "big"):
            more = self.stream.recv(65536)
            if not more:
                raise EOFError
            self.bytes += more
        size = int.from_bytes(self.bytes[2:4], "big")
        message, self.bytes = self.bytes[:size], self.bytes[size:]
        return message

    def sync(self, xid=99):
        """Waits until the switch has handled all that was sent."""
        self.send(messages.barrier(xid))
        assert self.message() == messages.barrier_reply(xid)

    def ends(self):
        """Whether nothing more comes, and the connection ends."""
        with contextlib.suppress(ConnectionResetError):
            return self.bytes + self.stream.recv(65536) == b""
        return True

    def __enter__(self):
        return self

    def __exit__(self, *what):
        self.stream.close()


@pytest.fixture
def bridge(switch):
    with Bridge(switch) as bridge:
        switch.port_add(1)
        switch.port_add(2)
        yield bridge


def replayed(switch, tmp_path):
    path = tmp_path / "log.events"
    path.write_text(switch.log)
    done = subprocess.run([os.environ.get("OFSWITCH", "ofswitch"), "replay", path], capture_output=True, text=True, timeout=60)
    assert done.returncode == 0, done.stderr
    return done.stdout.splitlines()


def test_rows_of_the_test_between_those_of_a_controller(switch, bridge, tmp_path):
    seen = []
    switch.watch(lambda row, effects: seen.extend(map(str, effects)))
    with Controller.of(bridge) as controller:
        assert switch.frame(1, FRAME) == []
        controller.send(messages.flow(messages.output(messages.CONTROLLER), priority=0))
        controller.sync()
        [answer] = switch.frame(1, FRAME)
        assert controller.message() == answer.data
        assert messages.packet_in_frame(answer.data) == FRAME
        controller.send(messages.packet_out(FRAME, messages.output(2)))
        assert bridge.sent() == Sent(2, FRAME)
        [status] = switch.port_link(2, up=False)
        assert controller.message() == status.data
        assert status.type is MessageType.PORT_STATUS
    bridge.until(lambda: not bridge.is_connected)
    # what the controller sends may come in one piece or in several
    words = [row.split()[0] for row in switch.log.splitlines()[2:]]
    assert [word for word, _ in itertools.groupby(words)] == ["connect", "c", "f", "c", "f", "c", "port", "lost"]
    assert replayed(switch, tmp_path) == seen


def test_what_does_not_leave_is_a_timeout(bridge):
    with Controller.of(bridge) as controller:
        controller.sync()
        with pytest.raises(TimeoutError):
            bridge.sent(timeout=0.05)
        with pytest.raises(TimeoutError):
            bridge.until(lambda: False, timeout=0.05)


def test_quiet(bridge):
    with Controller.of(bridge) as controller:
        stop = threading.Event()

        def talk():
            while not stop.wait(0.01):
                controller.send(messages.echo(1))

        talking = threading.Thread(target=talk)
        talking.start()
        with pytest.raises(TimeoutError):
            bridge.quiet(0.3, timeout=0.6)
        stop.set()
        talking.join()
        bridge.quiet(0.05)


def test_quiet_waits_for_the_answer_to_what_the_test_plays(switch, bridge):
    """The controller was quiet before the frame, and takes a while to answer it."""
    with Controller.of(bridge) as controller:
        controller.send(messages.flow(messages.output(messages.CONTROLLER)))
        controller.sync()

        def answer():
            assert controller.message()[1] == MessageType.PACKET_IN
            time.sleep(0.05)
            controller.send(messages.packet_out(FRAME, messages.output(2)))

        answering = threading.Thread(target=answer)
        answering.start()
        time.sleep(0.3)
        switch.frame(1, FRAME)
        bridge.quiet(1.0)
        assert bridge.sent(timeout=0) == Sent(2, FRAME)
        assert bridge.idle() >= 1.0
        answering.join()


def test_ready_is_after_the_hello(bridge):
    with socket.create_connection(bridge.address) as stream:
        bridge.until(lambda: bridge.is_connected)
        with pytest.raises(TimeoutError):
            bridge.ready(timeout=0.05)
        stream.sendall(messages.HELLO[:7])
        with pytest.raises(TimeoutError):
            bridge.ready(timeout=0.05)
        stream.sendall(messages.HELLO[7:])
        bridge.ready()
    bridge.until(lambda: not bridge.is_connected)
    assert not bridge.is_ready


def test_the_next_controller_is_ready_after_its_own_hello(bridge):
    with Controller.of(bridge):
        bridge.ready()
    bridge.until(lambda: not bridge.is_connected)
    with socket.create_connection(bridge.address) as stream:
        stream.sendall(messages.HELLO[:4])
        bridge.until(lambda: "c 04000008" in bridge._switch.log.splitlines()[-1])
        assert not bridge.is_ready


def test_frames_of_one_message_are_in_order(bridge):
    with Controller.of(bridge) as controller:
        controller.send(messages.packet_out(FRAME, messages.output(2), messages.output(1)))
        assert [bridge.sent(), bridge.sent()] == [Sent(2, FRAME), Sent(1, FRAME)]


def test_a_first_message_that_is_no_hello_makes_nothing_ready(bridge):
    with socket.create_connection(bridge.address) as stream:
        stream.sendall(messages.echo(1))
        with pytest.raises(TimeoutError):
            bridge.ready(timeout=0.2)


def test_the_connection_is_the_controllers(switch, bridge):
    with Controller.of(bridge):
        for call in (switch.connect, switch.lost, lambda: switch.feed(b""), lambda: switch.play("c -")):
            with pytest.raises(RuntimeError, match="a bridge has the connection"):
                call()
    with pytest.raises(RuntimeError, match="already"):
        Bridge(switch)


def test_controllers_come_and_go(switch, bridge):
    for number in range(20):
        with Controller.of(bridge) as controller:
            controller.send(messages.flow(messages.output(2), priority=number))
            controller.sync()
    bridge.until(lambda: not bridge.is_connected)
    rows = [row for row in switch.log.splitlines() if row in ("connect", "lost")]
    assert rows == ["connect", "lost"] * 20
    assert switch.flows().count("flow") == 20


def test_a_second_controller_waits(bridge):
    with Controller.of(bridge) as first, socket.create_connection(bridge.address) as stream:
        first.sync()
        stream.settimeout(0.2)
        with pytest.raises(TimeoutError):
            stream.recv(1)
        first.stream.close()
        second = Controller(stream)
        second.send(messages.HELLO)
        assert second.message() == SWITCH_HELLO
        second.sync()


def test_controllers_that_reset_at_each_byte(switch, bridge):
    stream = messages.HELLO + messages.flow(messages.output(2)) + messages.barrier(1)
    for at in range(0, len(stream), 3):
        with socket.create_connection(bridge.address) as peer:
            peer.setsockopt(socket.SOL_SOCKET, socket.SO_LINGER, b"\1\0\0\0\0\0\0\0")
            peer.sendall(stream[:at])
    with Controller.of(bridge) as controller:
        controller.sync()


def test_the_test_ends_the_connection(switch, bridge):
    with Controller.of(bridge) as controller:
        controller.sync()
        bridge.disconnect()
        assert controller.ends()
    with Controller.of(bridge) as controller:
        controller.sync()


def test_the_switch_ends_the_connection(switch, bridge):
    """After a bad header, with the ERROR before it; nothing behind it is fed."""
    with Controller.of(bridge) as controller:
        controller.send(bytes.fromhex("0405000700000008"))
        assert controller.message()[1] == MessageType.ERROR
        assert controller.ends()
        with contextlib.suppress(OSError):
            controller.send(messages.echo(1))
    bridge.until(lambda: not bridge.is_connected)
    assert switch.log.splitlines()[-1].startswith("c ")
    with Controller.of(bridge) as controller:
        controller.sync()


def test_a_first_message_that_is_no_hello(bridge):
    with socket.create_connection(bridge.address) as stream:
        controller = Controller(stream)
        controller.send(messages.echo(1))
        assert controller.message() == SWITCH_HELLO
        assert controller.message()[1] == MessageType.ERROR
        assert controller.ends()


def test_answers_that_are_read_late(bridge):
    """Two megabytes, of which nothing is read until all is sent or nothing more can be."""
    count = 2_000
    request = messages.echo(1, bytes(1000))
    with Controller.of(bridge) as controller:
        writing = threading.Thread(target=controller.send, args=[request * count])
        writing.start()
        writing.join(1)
        for _ in range(count):
            assert controller.message()[1] == MessageType.ECHO_REPLY
        writing.join()


def test_a_controller_that_reads_nothing(switch):
    """It loses its connection, the test is not kept, and the next controller is served."""
    with Bridge(switch, patience=0.5) as bridge:
        with Controller.of(bridge, receive_buffer=4096) as controller:
            with contextlib.suppress(OSError):
                while True:
                    controller.send(messages.echo(1, bytes(1000)) * 1000)
        with Controller.of(bridge) as controller:
            controller.sync()
        assert switch.log.splitlines()[-2:] != []
        assert "lost" in switch.log.splitlines()


def test_packet_ins_that_nobody_reads(switch):
    with Bridge(switch, patience=0.5) as bridge:
        switch.port_add(1)
        with Controller.of(bridge, receive_buffer=4096) as controller:
            controller.send(messages.flow(messages.output(messages.CONTROLLER), priority=0))
            controller.sync()
            end = time.monotonic() + 60
            while bridge.is_connected and time.monotonic() < end:
                switch.frame(1, FRAME[:14] + bytes(9000))
        assert not bridge.is_connected
        assert "lost" in switch.log.splitlines()


def test_a_killed_controller(switch, bridge):
    code = "import socket, sys, time; s = socket.create_connection(('127.0.0.1', int(sys.argv[1])));"
    code += "s.sendall(bytes.fromhex('0400000800000001')); time.sleep(60)"
    running = subprocess.Popen([sys.executable, "-c", code, str(bridge.address[1])])
    bridge.until(lambda: switch.log.endswith("c 0400000800000001\n"), timeout=20)
    running.send_signal(signal.SIGKILL)
    running.wait()
    bridge.until(lambda: switch.log.endswith("lost\n"))
    with Controller.of(bridge) as controller:
        controller.sync()


def test_dialing(switch):
    """The controller is not there yet, then it is, goes, and comes again."""
    with socket.socket() as listener:
        listener.bind(("127.0.0.1", 0))
        with Bridge.dial(switch, listener.getsockname()) as bridge:
            time.sleep(0.3)
            assert not bridge.is_connected
            listener.listen()
            listener.settimeout(10)
            for _ in range(3):
                with Controller(listener.accept()[0]) as controller:
                    controller.send(messages.HELLO)
                    assert controller.message() == SWITCH_HELLO
                    controller.sync()
                    assert bridge.is_connected


def test_closing_loses_the_controller(switch):
    before = threading.active_count()
    with Bridge(switch) as bridge, Controller.of(bridge) as controller:
        controller.sync()
        bridge.close()
        assert controller.ends()
    bridge.close()
    assert switch.log.endswith("lost\n")
    assert threading.active_count() == before
    with pytest.raises(ConnectionRefusedError):
        socket.create_connection(bridge.address)
    assert switch.connect() != []


def test_an_address_that_is_taken(switch):
    with socket.create_server(("127.0.0.1", 0)) as other, pytest.raises(OSError):
        Bridge(switch, other.getsockname())
    assert switch.connect() != []


def test_ipv6(switch):
    try:
        socket.create_server(("::1", 0), family=socket.AF_INET6).close()
    except OSError:
        pytest.skip("no IPv6 on this machine")
    with Bridge(switch, ("::1", 0)) as bridge, Controller.of(bridge) as controller:
        controller.sync()


def test_a_killed_program(new_switch):
    """The test learns of it where it waits, and at the end of the bridge."""
    switch = new_switch()
    with pytest.raises(ProgramError, match="signal 9"):
        with Bridge(switch) as bridge, Controller.of(bridge) as controller:
            os.kill(switch.pid, signal.SIGKILL)
            controller.send(messages.echo(1))
            with pytest.raises(ProgramError, match="signal 9"):
                bridge.sent()
            assert controller.ends()


def test_fifty_bridges(new_switch):
    with contextlib.ExitStack() as stack:
        bridges = [stack.enter_context(Bridge(new_switch())) for _ in range(50)]
        controllers = [stack.enter_context(Controller.of(bridge)) for bridge in bridges]
        for controller in controllers:
            controller.sync()


def test_a_new_run_takes_over_under_a_bridge(new_switch, monkeypatch):
    monkeypatch.setattr(Switch, "MOST_READS", 40)
    switch = new_switch()
    first = switch.pid
    with Bridge(switch) as bridge, Controller.of(bridge) as controller:
        for xid in range(200):
            controller.sync(xid)
            switch.at(xid)
    assert switch.pid != first
