"""`serve` and `live` over loopback, with controllers that behave badly. Most of these tests wait: a controller that says nothing is called
again after 60 s."""
import os
import pathlib
import random
import re
import resource
import socket
import struct
import subprocess
import tempfile
import threading
import time

from tests.program import PROGRAM, Case, free_port, ofswitch
from tests.serving import (
    BARRIER, FLOW, GREETING, HELLO, PATIENCE, REPLY, Started, all_of, answers, asked, closed_door, met, processor_time, reach, resident, until_closed, until_cut,
    write_all,
)

ROWS = """# ports, some of which are refused
port add 1 020000000001 p1 up
port add 1 020000000001 p1 up

port remove 7
t 1000
port link 0 up
t 18446744073709551615
t 2000
port remove 9
"""
SAID = [
    "row 3 refused: there is a port of that number already",
    "row 5 refused: there is no port of that number",
    "row 7 refused: a port's number is 1 to 0xffffff00",
]


class Controllers(Case):
    slow = True

    def test_greeting(self):
        with Started("serve", "--turns", 50, "--quiet") as it:
            self.assertEqual(asked(it.port, HELLO + FLOW + BARRIER), GREETING + REPLY)

    def test_unread(self):
        """Ten megabytes of ECHO_REQUESTs, whose replies are read only when all is sent or nothing more can be."""
        data = bytes(range(56))
        request = lambda xid: struct.pack(">BBHI", 4, 2, 64, xid) + data
        count = 10 * 1024 * 1024 // 64
        requests = b"".join(map(request, range(count)))
        with Started("serve", "--quiet") as it, it.reach() as peer:
            peer.sendall(HELLO)
            writer = threading.Thread(target=write_all, args=(peer, [requests]))
            writer.start()
            writer.join(2)
            came = all_of(peer)
            writer.join()
            wanted = GREETING + b"".join(struct.pack(">BBHI", 4, 3, 64, xid) + data for xid in range(count))
            self.holds("ten megabytes of echoes that are not read", came == wanted, f"{len(came)} of {len(wanted)} bytes")
            self.holds("the memory that this takes", resident(it.running) < 32 * 1024, f"{resident(it.running)} kB")

    def test_never_read(self):
        """A controller that writes and never reads loses its connection, and the next one is served; and the line on standard error."""
        with Started("serve") as it:
            with it.reach() as peer:
                # the switch does not read what it cannot answer, so this ends only when the connection does: ten seconds after the last byte
                # that the kernel took for this side, which may come late, since it gives a socket more room little by little
                peer.settimeout(10 * PATIENCE)
                write_all(peer, [HELLO, *[bytes.fromhex("04020008000000ff") * 8192] * 4096])
                self.same("the controller after one that never reads", asked(it.port, HELLO + BARRIER), GREETING + REPLY)
            self.same("why the connection ended", it.said()[1:2], ["connection ended: it reads no answers"])

    def test_turned_away(self):
        """A controller that supports only another version gets an ERROR, and its stream ends at once, although nobody else connects."""
        with Started("serve") as it:
            with it.reach() as peer:
                peer.sendall(bytes.fromhex("0100000800000001"))
                came = all_of(peer)
                self.same("a controller of version 1", (came[:18], came[24:28]), (GREETING + b"\x04\x01", bytes(4)))
            self.same("the controller after it", asked(it.port, HELLO + BARRIER), GREETING + REPLY)
            self.same("why that connection ended", it.said()[1:2], ["connection ended: closed by the switch"])

    def test_garbage(self):
        """A megabyte of random bytes, at once and behind a HELLO; then the next controller is served."""
        noise = random.Random(1).randbytes(1 << 20)
        with Started("serve", "--quiet") as it:
            self.same("garbage: HELLO and an ERROR", asked(it.port, noise)[:18], GREETING + b"\x04\x01")
            self.same("garbage behind a HELLO", asked(it.port, HELLO, noise)[:16], GREETING)
            self.same("the controller after garbage", asked(it.port, HELLO + FLOW + BARRIER), GREETING + REPLY)
            self.same("it is still there", it.running.poll(), None)

    def test_cut(self):
        """Connections that end in each byte of three messages, by an end of the stream and by a reset."""
        stream = HELLO + FLOW + BARRIER
        with Started("serve", "--quiet") as it:
            for at in range(len(stream)):
                self.assertEqual(asked(it.port, stream[:at]), GREETING, f"a connection that ends after {at} bytes")
            for at in range(len(stream)):
                with it.reach() as peer:
                    peer.setsockopt(socket.SOL_SOCKET, socket.SO_LINGER, struct.pack("ii", 1, 0))
                    peer.sendall(stream[:at])
            self.same("the controller after these", asked(it.port, stream), GREETING + REPLY)
            self.same("byte by byte", asked(it.port, *(stream[at : at + 1] for at in range(len(stream)))), GREETING + REPLY)
            self.same("it is still there after all", it.running.poll(), None)

    def test_nobody(self):
        """Calls of a controller that is not there: the pauses after eight of them are 0.1 s, twice as long each time, and 5 s at most."""
        port = free_port()
        with closed_door(port):
            begun = time.monotonic()
            done = ofswitch("serve", "--connect", f"127.0.0.1:{port}", "--turns", 8)
            passed = time.monotonic() - begun
        self.holds("eight calls of nobody", 15 < passed < 22, f"{passed:.1f} s for pauses of 16.3 s")
        self.same("eight calls of nobody: status", done, (0, "", "all 8 turns are used (--turns)\n"))

    def test_back_again(self):
        """A controller that comes, goes and comes again: after a call that was answered the pauses begin again."""
        port = free_port()
        with closed_door(port) as door, Started("serve", "--quiet", called=port):
            # by then the next pauses would be 3.2 s and 5 s
            time.sleep(3.5)
            with met(door) as peer:
                door.close()
                self.same("a controller that is called", peer.recv(1 << 16), GREETING)
            with closed_door(port) as again:
                time.sleep(0.5)
                begun = time.monotonic()
                with met(again) as peer:
                    passed = time.monotonic() - begun
                    self.holds("the same controller again", peer.recv(1 << 16) == GREETING and passed < 3, f"{passed:.1f} s")

    def test_unopened(self):
        """A file that does not open: standard error has the reason in the system's words."""
        with tempfile.TemporaryDirectory() as folder:
            inside = pathlib.Path(folder, "file")
            inside.write_text("")
            below = str(inside / "rows.events")
            for words in ["serve", "--events", below, "--listen", "127.0.0.1:0", "--turns", "0"], ["replay", below]:
                done = ofswitch(*words)
                good = done.status == 3 and re.match(f"read fault\ncannot open {re.escape(below)}: .*irectory", done.err)
                self.holds(f"{words[0]} of a file below a file", good, done)

    def test_idle_turns(self):
        """A silent controller takes a turn a second of `serve`; bytes and rows that are due are not late; the end of the turns is said."""
        with tempfile.NamedTemporaryFile("w", suffix=".events") as events:
            events.write("port add 1 020000000001 p1 up\nt 3500000000\nf 1 0200000000020200000000018888\n")
            events.flush()
            with Started("serve", "--events", events.name, "--turns", 17) as it, it.reach() as peer:
                # frames without a flow are dropped, so one goes back by IN_PORT
                flow = bytes.fromhex(
                    "040e00500000000200000000000000000000000000000000000000000000000affffffffffffffffffffffff000000000001000400000000"
                    "000400180000000000000010fffffff8ffff000000000000"
                )
                begun = time.monotonic()
                came = answers(peer, HELLO + flow + BARRIER, len(GREETING + REPLY))
                late = []
                for _ in range(2):
                    time.sleep(0.7)
                    asked = time.monotonic()
                    came += answers(peer, BARRIER, len(REPLY))
                    late.append(time.monotonic() - asked)
                self.holds("bytes end a wait at once", came == GREETING + 3 * REPLY and max(late) < 0.5, f"{late}, {came.hex()}")
                line = it.running.stdout.readline()
                passed = time.monotonic() - begun
                self.holds("a row that is due ends a wait", line == b"s 1 0200000000020200000000018888\n" and 3 < passed < 4.2, f"{passed:.1f} s, {line}")
                it.running.wait(60)
                passed = time.monotonic() - begun
                self.holds("turns of a silent controller", 9 < passed < 15 and it.running.returncode == 0, f"{passed:.1f} s")
                self.holds("the end of the turns", it.said()[-1:] == ["all 17 turns are used (--turns)"], it.said())


class Both:
    """Checks of `serve` and of `live`."""

    slow = True

    def test_silent(self):
        """Who says nothing, or no whole HELLO, is closed after 10 s. Others are closed at once meanwhile, which is said once and counted."""
        with Started(self.command) as it:
            with it.reach() as peer:
                time.sleep(0.5)
                served = [it.serves() for _ in range(3)]
                passed = until_closed(peer)
            self.holds("a client that says nothing", 8 < passed < 13, f"{passed:.1f} s")
            good = it.says("closed at once meanwhile: 3") and not any(served)
            lines = ["connection with", "closed at once, because", "connection ended: no HELLO came within 10 s", "closed at once meanwhile: 3"]
            good = good and len(it.said()) == 4 and all(line.startswith(wanted) for line, wanted in zip(it.said(), lines))
            self.holds("others are closed at once", good, f"{served}, {it.said()}")
            with it.reach() as peer:
                begun = time.monotonic()
                with until_cut():
                    for byte in HELLO * 4:
                        peer.sendall(bytes([byte]))
                        time.sleep(1.7)
                passed = time.monotonic() - begun
            self.holds("a byte of a HELLO now and then", 9 < passed < 15, f"{passed:.1f} s")
            self.holds("the controller after these", it.serves())

    def test_gives_way(self):
        """A connection that says half a message, and then nothing for 15 s, gives way to the next one, and not earlier."""
        with Started(self.command) as it, it.reach() as peer:
            peer.sendall(HELLO + FLOW[:40])
            time.sleep(13)
            self.holds("a silent connection stays for 13 s", not it.serves(), it.said())
            time.sleep(2.5)
            self.holds("a silent connection gives way", it.serves(), it.said())
            good = it.says("connection ended: nothing was heard of it, and another one came") and until_closed(peer) < 2
            self.holds("it is closed", good, it.said())

    def test_idles(self):
        """With --idle a connection is closed after so many seconds in which nothing was heard of it."""
        with Started(self.command, "--idle", 2) as it, it.reach() as peer:
            answers(peer, HELLO, len(GREETING))
            time.sleep(1.5)
            answers(peer, BARRIER, len(REPLY))
            passed = until_closed(peer)
            good = 1.5 < passed < 4 and it.says("connection ended: nothing was heard of it for as long as --idle says")
            self.holds("--idle", good, f"{passed:.1f} s, {it.said()}")

    def test_called_beside(self):
        """A controller of which nothing is heard for 60 s is called again, and the new connection takes the place of the old one."""
        with socket.create_server(("127.0.0.1", 0)) as door:
            door.settimeout(90)
            with Started(self.command, called=door.getsockname()[1]) as it, door.accept()[0] as first:
                first.sendall(HELLO)
                begun = time.monotonic()
                with door.accept()[0] as again:
                    passed = time.monotonic() - begun
                    again.settimeout(PATIENCE)
                    came = answers(again, HELLO + BARRIER, len(GREETING + REPLY))
                    good = 59 < passed < 66 and came == GREETING + REPLY
                    self.holds("a silent controller is called again", good, f"{passed:.1f} s, {came.hex()}, {it.said()}")
                    first.settimeout(PATIENCE)
                    self.holds("its old connection is closed", until_closed(first) < 2)

    def test_no_descriptor(self):
        """An accept that fails is said once, and is tried again."""
        with Started(self.command) as it:
            self.holds("before descriptors are out", it.serves(), it.said())
            it.says("connection ended")
            number = it.running.pid
            resource.prlimit(number, resource.RLIMIT_NOFILE, (len(os.listdir(f"/proc/{number}/fd")), 4096))
            with it.reach() as peer:
                said = it.says("cannot accept: Too many open files")
                time.sleep(2)
                before = processor_time(number)
                time.sleep(1)
                spent = processor_time(number) - before
                times = sum(line.startswith("cannot accept") for line in it.said())
                self.holds("an accept that fails is said once", said and times == 1 and spent < 0.3, f"{spent:.2f} s, {it.said()}")
                resource.prlimit(number, resource.RLIMIT_NOFILE, (4096, 4096))
                came = answers(peer, HELLO + BARRIER, len(GREETING + REPLY))
                self.holds("it is tried again", came == GREETING + REPLY, it.said())

    def test_unheard(self):
        """Standard error that nobody reads stops nothing, and says later how many lines were left out."""
        reads, writes = os.pipe()
        with Started(self.command, stderr=writes) as it, it.reach() as first:
            os.close(writes)
            answers(first, HELLO, len(GREETING))
            # of each connection two lines are written
            first.close()
            good = all(it.serves() for _ in range(1500))
            self.holds("standard error that nobody reads", good)
            said = os.read(reads, 1 << 20)
            it.serves()
            said += os.read(reads, 1 << 20)
            os.close(reads)
            self.holds("lines that were left out", b"lines left out, because nobody read standard error: " in said, said[-300:])

    def test_slow_reader(self):
        """A controller that reads slowly gets all of a large answer, although that takes longer than one write may wait."""
        request = struct.pack(">BBHI", 4, 2, 8192, 9) + bytes(8184)
        wanted = len(GREETING) + 150 * len(request)
        with Started(self.command) as it, socket.socket() as peer:
            it.reach().close()
            # so the kernel takes little of it
            peer.setsockopt(socket.SOL_SOCKET, socket.SO_RCVBUF, 8192)
            peer.settimeout(PATIENCE)
            peer.connect(("127.0.0.1", it.port))
            writer = threading.Thread(target=write_all, args=(peer, [HELLO, request * 150]))
            writer.start()
            came, begun = 0, time.monotonic()
            with until_cut():
                while part := peer.recv(1 << 14):
                    came += len(part)
                    # 13 s in all
                    time.sleep(max(0, begun + 13 * came / wanted - time.monotonic()))
            writer.join()
            self.holds("a controller that reads slowly", came == wanted, f"{came} of {wanted} bytes, {it.said()}")

    def test_expires(self):
        """A flow with a hard timeout of a second is removed then, although nothing else happens; a read of `serve` may wait for 2 s."""
        # with the flag SEND_FLOW_REM
        flow = FLOW[:28] + b"\0\1" + FLOW[30:44] + b"\0\1" + FLOW[46:]
        with Started(self.command) as it, it.reach() as peer:
            answers(peer, HELLO + flow + BARRIER, len(GREETING + REPLY))
            begun = time.monotonic()
            came = answers(peer, b"", 64)
            passed = time.monotonic() - begun
            good = came[:4] == bytes.fromhex("040b0040") and came[18] == 1 and 0.5 < passed < (4 if self.command == "serve" else 2)
            self.holds("a flow with a hard timeout", good, f"{passed:.1f} s, {came.hex()}")

    def test_refused(self):
        """Rows that the switch refuses are said when they are due, one line each; and not with --quiet. A moment that is earlier than
        one before it changes nothing: what follows it is due when the latest is reached."""
        with tempfile.TemporaryDirectory() as folder:
            events = pathlib.Path(folder, "refused.events")
            events.write_text(ROWS)
            for flags, wanted in ([], SAID), (["--quiet"], []):
                port = free_port()
                words = ["--turns", "5"] if self.command == "serve" else ["--turns", "15", "--vxlan", f"127.0.0.1:{free_port()}"]
                running = subprocess.Popen(
                    [PROGRAM, self.command, "--listen", f"127.0.0.1:{port}", *words, "--events", str(events), *flags],
                    stdout=subprocess.PIPE,
                    stderr=subprocess.PIPE,
                    text=True,
                )
                with reach(port) as peer:
                    peer.sendall(HELLO)
                    out, said = running.communicate(timeout=60)
                rows = [line for line in said.splitlines() if line.startswith("row")]
                name = " ".join(["refused rows", *flags])
                self.holds(name, rows == wanted and (flags or len(said.splitlines()) > len(rows)), said)
                self.holds(f"{name}: standard output and status", out == "" and running.returncode == 0, f"{out!r}, {running.returncode}")


class Serve(Both, Case):
    command = "serve"


class Live(Both, Case):
    command = "live"
