#!/usr/bin/env python3
"""bench/module.py: times the Python module `ofswitch` (python/) over its pipe, and its bridge over loopback.

It prints a line for each figure: rows per second, and the time of a frame that a controller in its own process forwards (frame in,
PACKET_IN, PACKET_OUT, frame out), compared with an echo of as many bytes over the same kind of socket. OFSWITCH names another
program.
"""
import os
import pathlib
import socket
import statistics
import struct
import subprocess
import sys
import time

TOP = pathlib.Path(__file__).resolve().parent.parent
sys.path.insert(0, str(TOP / "python"))
os.environ.setdefault("OFSWITCH", str(TOP / "crates/ofswitch/out/ofswitch"))

from ofswitch import Bridge, Sent, Switch  # noqa: E402

ROWS = 50_000
ROUNDS = 3_000

HELLO = bytes.fromhex("0400000800000001")
ECHO = bytes.fromhex("0402000800000007")
# ADDs of a flow for all frames: OUTPUT to port 2, OUTPUT to the controller
TO_PORT = bytes.fromhex(
    "040e005000000002000000000000000000000000000000000000000000000001ffffffffffffffffffffffff00000000"
    "000100040000000000040018000000000000001000000002ffff000000000000"
)
TO_CONTROLLER = TO_PORT.replace(bytes.fromhex("00000002ffff"), bytes.fromhex("fffffffdffff"))
FRAME = bytes.fromhex("02000000000202000000000188b5") + bytes(46)
LONG = FRAME[:14] + bytes(1486)

# of an OUTPUT to port 2 without a buffer, before the frame
PACKET_OUT = bytes.fromhex("fffffffffffffffd001000000000000000000010000000020000000000000000")


def started(flow):
    switch = Switch()
    for number in (1, 2):
        switch.port_add(number)
    if flow is not None:
        switch.connect()
        switch.feed(HELLO + flow)
    return switch


def told(name, count, seconds):
    print(f"{name}: {count / seconds:,.0f} a second, {seconds / count * 1e6:.1f} us each")


def rows(name, call, count=ROWS):
    begun = time.perf_counter()
    for _ in range(count):
        call()
    told(name, count, time.perf_counter() - begun)


def over_the_pipe():
    with started(TO_PORT) as switch:
        assert switch.frame(1, FRAME) == [Sent(2, FRAME)]
        rows("rows over the pipe: an ECHO_REQUEST and its reply", lambda: switch.feed(ECHO))
        rows("rows over the pipe: a frame of 60 bytes that leaves", lambda: switch.frame(1, FRAME))
        rows("rows over the pipe: a frame of 1,500 bytes that leaves", lambda: switch.frame(1, LONG))
        rows("rows over the pipe: a time, which prints nothing", lambda: switch.at(0))
        begun = time.perf_counter()
        switch._renew()
        told(f"a new run of the program from its log: rows, of {switch.log.count(chr(10)):,}", 4 * ROWS, time.perf_counter() - begun)
        many = [f"f 1 {FRAME.hex()}"] * 64
        begun = time.perf_counter()
        for _ in range(ROWS // 64):
            switch.play_all(many)
        told("frames of 60 bytes that leave, 64 rows in one write", ROWS // 64 * 64, time.perf_counter() - begun)

    def start_and_end():
        started(TO_PORT).close()

    rows("switches that start, play four rows and end", start_and_end, 100)


def median(name, call):
    """The median, and a tenth of the rounds above the last figure."""
    times = []
    for _ in range(ROUNDS):
        begun = time.perf_counter()
        call()
        times.append(time.perf_counter() - begun)
    deciles = statistics.quantiles(times, n=10)
    print(f"{name}: median {statistics.median(times) * 1e3:.3f} ms, nine of ten below {deciles[-1] * 1e3:.3f} ms")


def over_the_bridge():
    with started(None) as switch, Bridge(switch) as bridge, peer("controller", bridge.address):
        bridge.until(lambda: "output 4294967293" in switch.flows(), timeout=30)

        def there_and_back():
            switch.frame(1, FRAME)
            assert bridge.sent() == Sent(2, FRAME)

        median("a frame, its PACKET_IN, the PACKET_OUT, the frame that leaves", there_and_back)


def beside_an_echo():
    """As many bytes as such a PACKET_IN and PACKET_OUT have."""
    with socket.create_server(("127.0.0.1", 0)) as listener, peer("echo", listener.getsockname()):
        stream = listener.accept()[0]
        stream.setsockopt(socket.IPPROTO_TCP, socket.TCP_NODELAY, 1)
        with stream:

            def there_and_back():
                stream.sendall(bytes(102))
                exactly(stream, 100)

            median("an echo of as many bytes", there_and_back)


class peer:
    """A process of this file that connects to an address."""

    def __init__(self, role, address):
        words = [sys.executable, __file__, role, *map(str, address)]
        self.running = subprocess.Popen(words)

    def __enter__(self):
        return self

    def __exit__(self, *what):
        self.running.kill()
        self.running.wait()


def exactly(stream, size):
    data = bytearray()
    while len(data) < size:
        piece = stream.recv(size - len(data))
        if not piece:
            sys.exit(0)
        data += piece
    return bytes(data)


def controller(stream):
    """Has all frames sent to it, and each sent on."""
    stream.sendall(HELLO + TO_CONTROLLER)
    while True:
        head = exactly(stream, 8)
        body = exactly(stream, struct.unpack_from(">H", head, 2)[0] - 8)
        if head[1] == 10:
            # a match of IN_PORT has 16 bytes with its padding, and two bytes follow it
            frame = body[34:]
            stream.sendall(struct.pack(">BBHI", 4, 13, 40 + len(frame), 1) + PACKET_OUT + frame)


def echo(stream):
    while True:
        exactly(stream, 102)
        stream.sendall(bytes(100))


def main():
    if len(sys.argv) > 1:
        role, host, port = sys.argv[1:]
        with socket.create_connection((host, int(port))) as stream:
            stream.setsockopt(socket.IPPROTO_TCP, socket.TCP_NODELAY, 1)
            {"controller": controller, "echo": echo}[role](stream)
    over_the_pipe()
    over_the_bridge()
    beside_an_echo()


if __name__ == "__main__":
    main()
