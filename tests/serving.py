"""What the tests of `serve` and `live` share: a switch that runs, and controllers that connect to it."""
import contextlib
import os
import pathlib
import socket
import subprocess
import tempfile
import time

from tests.program import PROGRAM, free_port

HELLO = bytes.fromhex("0400000800000001")
BARRIER = bytes.fromhex("0414000800000003")
# an ADD of priority 10 for IN_PORT 1, with APPLY_ACTIONS of OUTPUT to 2
FLOW = bytes.fromhex(
    "040e00580000000200000000000000000000000000000000000000000000000affffffffffffffffffffffff000000000001000c80000004"
    "0000000100000000000400180000000000000010000000020000000000000000"
)
GREETING = bytes.fromhex("04000010000000000001000800000010")
REPLY = bytes.fromhex("0415000800000003")
# how many seconds the switch may be silent before a check fails
PATIENCE = 30


def reach(port):
    """A connection to a switch that is just being started."""
    end = time.monotonic() + PATIENCE
    while True:
        try:
            return socket.create_connection(("127.0.0.1", port), timeout=PATIENCE)
        except OSError:
            if time.monotonic() > end:
                raise
            time.sleep(0.02)


@contextlib.contextmanager
def until_cut():
    """Runs its body until the switch closes the connection. It is a failure if the switch does nothing for too long."""
    try:
        yield
    except TimeoutError:
        raise
    except OSError:
        pass


def write_all(peer, pieces):
    """Writes these pieces and ends, or stops where the switch has cut the connection meanwhile."""
    with until_cut():
        for piece in pieces:
            peer.sendall(piece)
        peer.shutdown(socket.SHUT_WR)


def all_of(peer):
    """What comes until the end of the stream, or until it is reset."""
    parts = []
    with until_cut():
        while part := peer.recv(1 << 20):
            parts.append(part)
    return b"".join(parts)


def asked(port, *pieces):
    """The answers to these pieces, after which nothing more is written."""
    with reach(port) as peer:
        write_all(peer, pieces)
        return all_of(peer)


def resident(running):
    """The most memory that it had, in kilobytes."""
    for line in pathlib.Path(f"/proc/{running.pid}/status").read_text().splitlines():
        if line.startswith("VmHWM:"):
            return int(line.split()[1])
    return 0


def processor_time(number):
    words = pathlib.Path(f"/proc/{number}/stat").read_text().rpartition(")")[2].split()
    return (int(words[11]) + int(words[12])) / os.sysconf("SC_CLK_TCK")


def bind(door, port):
    """A process that is just being started may hold a socket of this one for a moment."""
    for _ in range(100):
        with contextlib.suppress(OSError):
            return door.bind(("127.0.0.1", port))
        time.sleep(0.05)
    return door.bind(("127.0.0.1", port))


@contextlib.contextmanager
def closed_door(port):
    """A port that nobody listens at, and nobody else can have meanwhile."""
    with socket.socket() as door:
        door.setsockopt(socket.SOL_SOCKET, socket.SO_REUSEADDR, 1)
        bind(door, port)
        yield door


def met(door):
    """The connection of a switch that calls."""
    door.settimeout(PATIENCE)
    door.listen()
    peer = door.accept()[0]
    peer.settimeout(PATIENCE)
    return peer


class Started:
    """A switch that runs, and listens at a port; or calls a controller at the port that is given."""

    def __init__(self, command, *words, called=None, before=None, stderr=None):
        self.port = called or free_port()
        self.tunnel = free_port()
        network = ["--vxlan", f"127.0.0.1:{self.tunnel}", "--ports", "2"] if command == "live" else []
        way = ["--connect" if called else "--listen", f"127.0.0.1:{self.port}"]
        self.file = tempfile.TemporaryFile()
        self.running = subprocess.Popen(
            [PROGRAM, command, *network, *way, *map(str, words)],
            stdin=subprocess.PIPE,
            stdout=subprocess.PIPE,
            stderr=stderr or self.file,
            preexec_fn=before,
        )

    def __enter__(self):
        return self

    def __exit__(self, *_):
        self.running.kill()
        self.running.communicate()
        self.file.close()

    def said(self):
        return os.pread(self.file.fileno(), 1 << 20, 0).decode().splitlines()

    def says(self, wanted, seconds=5):
        """Whether it soon says a line that begins so."""
        end = time.monotonic() + seconds
        while not any(line.startswith(wanted) for line in self.said()) and time.monotonic() < end:
            time.sleep(0.01)
        return any(line.startswith(wanted) for line in self.said())

    def reach(self):
        return reach(self.port)

    def serves(self):
        """Whether a controller that connects now is served."""
        with self.reach() as peer:
            return answers(peer, HELLO + BARRIER, len(GREETING + REPLY)) == GREETING + REPLY


def answers(peer, asked, length):
    """The first bytes that come after these were sent, so many at most."""
    came = b""
    with until_cut():
        peer.sendall(asked)
        while len(came) < length and (part := peer.recv(length - len(came))):
            came += part
    return came


def until_closed(peer):
    """How many seconds it takes until the switch closes a connection."""
    begun = time.monotonic()
    all_of(peer)
    return time.monotonic() - begun
