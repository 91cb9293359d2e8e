"""`python -m ofswitch bridge`, as a shell runs it."""

import os
import re
import signal
import socket
import subprocess
import sys

import messages
import pytest

FRAME = bytes.fromhex("020000000002020000000001") + bytes.fromhex("88b5") + bytes(46)
COMMAND = [sys.executable, "-m", "ofswitch", "bridge"]


@pytest.fixture
def bridge(tmp_path):
    """A bridge that listens, with two ports."""
    events = tmp_path / "ports.events"
    events.write_text("port add 1 0200000000a1 p1 up\nport add 2 0200000000a2 p2 up\n")
    words = ["--listen", "127.0.0.1:0", "--events", str(events), "--log", str(tmp_path / "log.events")]
    pipe = subprocess.PIPE
    with subprocess.Popen([*COMMAND, *words], stdin=pipe, stdout=pipe, stderr=pipe, text=True, bufsize=1) as running:
        running.address = re.fullmatch(r"listening at (.*):(\d+)\n", running.stderr.readline()).groups()
        yield running
        running.kill()


def test_rows_as_they_are_typed(bridge, tmp_path):
    with socket.create_connection(bridge.address) as stream:
        assert bridge.stderr.readline().startswith("connection with 127.0.0.1:")
        assert bridge.stdout.readline() == "a 04000010000000000001000800000010\n"
        stream.sendall(messages.HELLO + messages.flow(messages.output(2), in_port=1) + messages.barrier(7))
        assert bridge.stdout.readline() == f"a {messages.barrier_reply(7).hex()}\n"
        bridge.stdin.write(f"f 1 {FRAME.hex()}\n")
        assert bridge.stdout.readline() == f"s 2 {FRAME.hex()}\n"
        for row in ("frame 1", "connect", "c -", "port add 1 0200000000a1 p1 up"):
            bridge.stdin.write(f"{row}\n")
        assert bridge.stdout.readline() == "refused 5\n"
        stream.sendall(messages.packet_out(FRAME, messages.output(1)))
        assert bridge.stdout.readline() == f"s 1 {FRAME.hex()}\n"
    assert bridge.stderr.readline() == "standard input, line 2: bad row: 'frame 1'\n"
    assert bridge.stderr.readline() == "standard input, line 3: the connection is the controller's\n"
    assert bridge.stderr.readline() == "standard input, line 4: the connection is the controller's\n"
    assert bridge.stderr.readline().startswith("connection ended: ")
    bridge.stdin.close()
    assert bridge.wait(timeout=20) == 2
    program = os.environ.get("OFSWITCH", "ofswitch")
    done = subprocess.run([program, "replay", tmp_path / "log.events"], capture_output=True, text=True, timeout=60)
    assert done.returncode == 0
    assert [line.split()[0] for line in done.stdout.splitlines()] == ["a", "a", "s", "refused", "s"]


def test_connecting_to_a_controller(tmp_path):
    with socket.create_server(("127.0.0.1", 0)) as listener:
        listener.settimeout(30)
        address = "{}:{}".format(*listener.getsockname())
        with subprocess.Popen([*COMMAND, "--connect", address], stdin=subprocess.PIPE, stderr=subprocess.PIPE) as running:
            with listener.accept()[0] as stream:
                assert stream.recv(100).hex() == "04000010000000000001000800000010"
            running.stdin.close()
            assert running.wait(timeout=20) == 0


@pytest.mark.parametrize(
    "words, status",
    [
        ([], 1),
        (["--listen", "localhost:6653"], 1),
        (["--listen", "127.0.0.1"], 1),
        (["--listen", "127.0.0.1:70000"], 1),
        (["--listen", "127.0.0.1:0", "--connect", "127.0.0.1:6653"], 1),
        (["--listen", "127.0.0.1:0", "--dpid", "one"], 1),
        (["--listen", "127.0.0.1:0", "--dpid", "-1"], 1),
        (["--listen", "127.0.0.1:0", "--events", "missing.events"], 3),
        (["--listen", "127.0.0.1:0", "--log", "missing/log"], 3),
        (["--listen", "192.0.2.1:6653"], 3),
        (["--listen", "127.0.0.1:0", "--program", "/nowhere/ofswitch"], 3),
        (["--listen", "127.0.0.1:0"], 0),
        (["--listen", "[::1]:0"], 0),
        (["--help"], 0),
    ],
)
def test_statuses(words, status):
    done = subprocess.run([*COMMAND, *words], stdin=subprocess.DEVNULL, capture_output=True, text=True, timeout=60)
    assert done.returncode == status, done.stderr
    assert "Traceback" not in done.stderr


def test_lines_that_are_no_rows():
    done = subprocess.run([*COMMAND, "--listen", "127.0.0.1:0"], input=b"t 1\n\xff\n# \xff\nt 2", capture_output=True, timeout=60)
    assert done.returncode == 2
    assert b"line 2: " in done.stderr and b"line 3: " in done.stderr and b"line 4" not in done.stderr


def test_an_interrupt_ends_it():
    pipe = subprocess.PIPE
    with subprocess.Popen([*COMMAND, "--listen", "127.0.0.1:0"], stdin=pipe, stdout=pipe, stderr=pipe, bufsize=0) as running:
        running.stdin.write(b"port remove 0\n")
        assert running.stdout.readline() == b"refused 8\n"
        running.send_signal(signal.SIGINT)
        assert running.wait(timeout=20) == 130
        assert b"Traceback" not in running.stderr.read()
