"""The log, the tables, the ports and the rows of `serve` and `live`, and what waits for a controller that reads slowly."""
import concurrent.futures
import contextlib
import os
import pathlib
import resource
import signal
import socket
import struct
import subprocess
import tempfile
import time

from tests.program import PROGRAM, Case, free_port, ofswitch
from tests.serving import BARRIER, FLOW, GREETING, HELLO, PATIENCE, REPLY, Started, answers, asked, reach, until_cut

# what gives a switch the flow of FLOW, and as flow text
ONE_FLOW = "flow 0 10 0x0000000000000000 0 0 0\nmatch in_port 0x00000001\napply\noutput 2 0\n"
TABLES = {
    "flow text": ONE_FLOW,
    "what ovs-ofctl prints": " cookie=0x0, duration=3.5s, table=0, n_packets=7, n_bytes=98, priority=10,in_port=1 actions=output:2\n",
    "a part of what ovs-ofctl prints": "table=60,priority=10,in_port=1 actions=output:2\ntable=61,ct_state=+trk actions=drop\n",
    "an event file": f"t 5000000000\nconnect\nc {HELLO.hex()}\nc {FLOW.hex()}\n",
}
# the options of one of them; standard error then has the line that is left out, with its text and a mark
OPTIONS = {"a part of what ovs-ofctl prints": ["--skip", "--renumber"]}
# the flows of all tables, as statistics
ALL_FLOWS = bytes.fromhex("04120038000000040001000000000000ff000000ffffffffffffffff00000000000000000000000000000000000000000001000400000000")
# FEATURES_REQUEST, and the request for PORT_DESC
FEATURES = bytes.fromhex("0405000800000004")
PORTS = bytes.fromhex("0412001000000005000d000000000000")
# an ADD of priority 0 for all packets, with APPLY_ACTIONS of OUTPUT to the controller, which gets them whole
TO_CONTROLLER = bytes.fromhex(
    "040e005000000002000000000000000000000000000000000000000000000000ffffffffffffffffffffffff0000000000010004000000000004001800000000"
    "00000010fffffffdffff000000000000"
)
REFUSED = {
    "--peer 1=127.0.0.1:4000 --peer 1=127.0.0.1:4001": "bad peer: port 1 has two peers",
    "--peer 3=127.0.0.1:4000": "bad peer: the switch has no port 3; --ports and --events add ports",
    "--peer 1=[::1]:4000": "bad peer: [::1]:4000 cannot be reached from 127.0.0.1:{tunnel}, which is an address of the other family",
    "--peer 1=127.0.0.1:{tunnel}": "bad peer: 127.0.0.1:{tunnel} is where the switch itself receives datagrams",
    "--vxlan 0.0.0.0:{tunnel} --peer 1=127.0.0.1:{tunnel}": "bad peer: 127.0.0.1:{tunnel} is where the switch itself receives datagrams",
    "--events {file} --log {file}": "bad log: --events and --log are one file",
    "--tables {file} --log {file}": "bad log: --tables and --log are one file",
    "--tables - --events -": "bad tables: --tables and --events cannot both read standard input",
    "--tables - --rows -": "bad rows: --tables and --rows cannot both read standard input",
    "--events - --rows -": "bad rows: --events and --rows cannot both read standard input",
    "--idle 0": "bad idle: it is a number of seconds, at least 1",
}


def flows_of(text):
    """The lines of a flow text, without the max_len of its outputs."""
    return [line.rsplit(" ", 1)[0] if line.startswith("output") else line for line in text.splitlines()]


def port_struct(number, dpid):
    """The beginning of the struct of a port that `--ports` adds: its number, its hardware address and its name."""
    return struct.pack(">IxxxxB3sHxx16s", number, 2, dpid.to_bytes(8, "big")[5:], number, f"p{number}".encode())


def long_flow(table, priority):
    """An ADD of this priority for all frames, with APPLY_ACTIONS of 64 OUTPUTs to 2."""
    body = struct.pack(">16xB5xHIIIHxx", table, priority, 0xFFFFFFFF, 0, 0, 0) + bytes.fromhex("0001000400000000")
    body += struct.pack(">HHxxxx", 4, 1032) + 64 * struct.pack(">HHIHxxxxxx", 0, 16, 2, 0)
    return struct.pack(">BBHI", 4, 14, 8 + len(body), 0) + body


class Files(Case):
    slow = True

    def test_logged(self):
        """The log of `serve` replays to what the controller and standard output got."""
        with tempfile.TemporaryDirectory() as folder:
            events, log = pathlib.Path(folder, "in.events"), pathlib.Path(folder, "log")
            events.write_text("port add 1 020000000001 p1 up\nport add 2 020000000002 p2 up\nport add 2 020000000002 p2 up\n" + "t 1500000000\nf 1 0200000000020200000000018888\n")
            with Started("serve", "--events", events, "--log", log, "--dpid", 7) as it:
                got = asked(it.port, HELLO, FLOW, BARRIER)
                with it.reach() as peer:
                    got += answers(peer, HELLO + FLOW[:30], len(GREETING))
                    line = it.running.stdout.readline().decode()
                    got += answers(peer, FLOW[30:] + BARRIER, len(REPLY))
                it.says("connection ended")
                time.sleep(0.2)
            done = ofswitch("replay", "--dpid", "7", log)
            lines = done.out.splitlines()
            replayed = "".join(it[2:] for it in lines if it.startswith("a "))
            good = log.read_text().startswith("# replay with --dpid 7\n") and done.status == 0 and not done.err
            self.holds("the log gives the answers", good and replayed == got.hex(), f"{done.err}\n{replayed}\n{got.hex()}")
            self.holds("the log gives the frames", [it for it in lines if it.startswith("s ")] == [line.strip()] != [""], f"{line}, {lines}")
            done = ofswitch("replay", log)
            self.holds("replay: a log of another switch", "--dpid 7, and this is --dpid 1" in done.err and done.status == 0, done.err)

    def test_killed(self):
        """After SIGKILL while many rows are written, the log has whole rows, and behind them perhaps a part of one: the system may cut the last write."""
        with tempfile.TemporaryDirectory() as folder, socket.socket(socket.AF_INET, socket.SOCK_DGRAM) as sender:
            for trial in range(5):
                log = pathlib.Path(folder, f"log{trial}")
                with Started("live", "--log", log) as it:
                    it.serves()
                    end = time.monotonic() + 0.3
                    while time.monotonic() < end:
                        sender.sendto(bytes.fromhex("0800000000000100") + bytes(200), ("127.0.0.1", it.tunnel))
                rows, _, part = log.read_bytes().rpartition(b"\n")
                log.write_bytes(rows + b"\n")
                done = ofswitch("replay", log)
                good = rows.count(b"\nf 1 ") > 5 and done.status == 0 and (part.startswith(b"t ") or (b"f 1 " + b"00" * 200).startswith(part))
                self.holds("the log after SIGKILL", good, f"{rows[-50:]!r}, {part!r}, {done.err}")

    def test_piped(self):
        """A log on a pipe whose reader stops: the switch waits, and loses no part of a row; without a reader it ends."""
        with tempfile.TemporaryDirectory() as folder:
            pipe = pathlib.Path(folder, "pipe")
            os.mkfifo(pipe)
            reader = os.open(pipe, os.O_RDONLY | os.O_NONBLOCK)
            with Started("live", "--log", pipe) as it, socket.socket(socket.AF_INET, socket.SOCK_DGRAM) as sender:
                came = b""
                for _ in range(300):
                    sender.sendto(bytes.fromhex("0800000000000100") + bytes(1000), ("127.0.0.1", it.tunnel))
                    time.sleep(0.001)
                time.sleep(1)
                end = time.monotonic() + 2
                while time.monotonic() < end:
                    with contextlib.suppress(BlockingIOError):
                        came += os.read(reader, 1 << 16)
                    time.sleep(0.001)
                frames = [line for line in came.split(b"\n") if line.startswith(b"f ")]
                good = came.startswith(b"# replay with --dpid 1\nt ") and len(frames) > 100 and all(line == b"f 1 " + b"00" * 1000 for line in frames[:-1])
                self.holds("a log on a pipe that is read late", good, f"{len(frames)} frames, {came[:60]!r}")
                os.close(reader)
                self.holds("a log on a pipe that nobody reads", it.running.wait(PATIENCE) == 3 and it.says("cannot write the log: "), it.said())
        for place in "/dev/full", "/nonexistent/log":
            for command in "serve", "live":
                with Started(command, "--log", place) as it:
                    good = it.running.wait(PATIENCE) == 3 and it.says("cannot write the log: ")
                    self.holds(f"{command} --log {place}", good, it.said())

    def test_many_rows(self):
        """Rows on standard input beyond those of one turn happen all, and in order."""
        with Started("live", "--rows", "-") as it:
            it.running.stdin.write(b"port remove 7\n" * 300)
            it.running.stdin.flush()
            it.says("standard input: row 300 refused")
            lines = [f"standard input: row {number} refused: there is no port of that number" for number in range(1, 301)]
            self.holds("300 rows at once", it.said() == lines, it.said()[-3:])
        with Started("live", "--turns", 40) as it:
            self.holds("--turns", it.running.wait(PATIENCE) == 0 and it.said() == [], it.said())
        with Started("live", "--rows", "-") as it:
            # each row takes a turn, and without --turns there is no end of them
            it.running.stdin.write(b"\n" * 1_100_000 + b"port remove 7\n")
            it.running.stdin.flush()
            self.holds("more than a million turns", it.says("standard input: row 1100001 refused", PATIENCE), it.said()[-3:])
        with tempfile.NamedTemporaryFile() as file:
            file.write(b"port remove 7\n")
            file.flush()
            words = ["--vxlan", f"127.0.0.1:{free_port()}", "--listen", "127.0.0.1:0", "--rows", "-", "--turns", "20"]
            with open(file.name, "rb") as rows:
                done = subprocess.run([PROGRAM, "live", *words], stdin=rows, stderr=subprocess.PIPE, text=True, timeout=PATIENCE)
            wanted = "standard input: row 1 refused: there is no port of that number\n"
            self.same("rows of a file as standard input", (done.returncode, done.stderr), (0, wanted))

    def test_counted(self):
        """What was dropped is counted by its reason, which standard error has at the end."""
        wanted = [
            "dropped: 3 datagrams without a network",
            "dropped: 2 datagrams of networks that are no ports",
            "dropped: 4 datagrams from another address than the port's peer",
            "dropped: 1 frames for ports whose peer is not known",
            "dropped: 1 datagrams that the system did not take",
        ]
        with tempfile.TemporaryDirectory() as folder, contextlib.ExitStack() as stack:
            tables, events = pathlib.Path(folder, "tables"), pathlib.Path(folder, "events")
            # to a port without a peer, to one whose peer cannot be reached from 127.0.0.1, and back
            tables.write_text(ONE_FLOW + "output 3 0\noutput 4294967288 0\n")
            events.write_text("port add 3 020000000003 p3 up\n")
            peer, other = (stack.enter_context(socket.socket(socket.AF_INET, socket.SOCK_DGRAM)) for _ in range(2))
            peer.bind(("127.0.0.1", 0))
            other.bind(("127.0.0.2", 0))
            peer.settimeout(PATIENCE)
            peers = ["--peer", f"1=127.0.0.1:{peer.getsockname()[1]}", "--peer", "3=10.0.0.1"]
            with Started("live", "--tables", tables, "--events", events, *peers, "--rows", "-", "--turns", 3000, "--quiet") as it:
                it.reach().close()
                for sender, head, count in (other, "0000000000000100", 3), (other, "0800000000000900", 2), (other, "0800000000000100", 4), (peer, "0800000000000100", 1):
                    for _ in range(count):
                        sender.sendto(bytes.fromhex(head) + bytes(60), ("127.0.0.1", it.tunnel))
                peer.recv(100)
                # rows that use up the turns
                it.running.stdin.write(b"\n" * 3000)
                it.running.stdin.flush()
                good = it.running.wait(PATIENCE) == 0 and it.said() == wanted
                self.holds("what was dropped", good, f"{it.running.returncode}, {it.said()}")

    def test_ports_first(self):
        """The rows of the event file come after the ports of --ports: a link of one of them is down."""
        with tempfile.NamedTemporaryFile("w", suffix=".events") as events:
            events.write("port link 2 down\n")
            events.flush()
            with Started("live", "--events", events.name) as it, it.reach() as peer:
                # OFPMP_PORT_DESC; of each port 64 bytes, in which its state is behind 36 others: OFPPS_LIVE, OFPPS_LINK_DOWN
                came = answers(peer, HELLO + bytes.fromhex("0412001000000005000d000000000000"), len(GREETING) + 16 + 128)[len(GREETING) :]
                states = [came[16 + at + 36 : 16 + at + 40] for at in (0, 64)]
                self.holds("a row about a port of --ports", states == [bytes([0, 0, 0, 4]), bytes([0, 0, 0, 1])] and len(it.said()) == 1, f"{came.hex()}, {it.said()}")

    def test_forwards_at_once(self):
        """`live --tables` forwards frames before any controller connects."""
        frame = bytes.fromhex("02000000000202000000000188b5")
        with tempfile.NamedTemporaryFile("w") as tables, socket.socket(socket.AF_INET, socket.SOCK_DGRAM) as host:
            tables.write(ONE_FLOW)
            tables.flush()
            host.bind(("127.0.0.1", 0))
            host.settimeout(0.05)
            with Started("live", "--tables", tables.name, "--peer", f"2=127.0.0.1:{host.getsockname()[1]}", "--rows", "-") as it:
                came, end = b"", time.monotonic() + PATIENCE
                while not came and time.monotonic() < end:
                    host.sendto(bytes.fromhex("0800000000000100") + frame, ("127.0.0.1", it.tunnel))
                    with contextlib.suppress(OSError):
                        came = host.recv(1 << 16)
                self.holds("a frame before the first controller", came == bytes.fromhex("0800000000000200") + frame, came.hex())
                # the longest frame of Ethernet without a tag, in two parts; datagrams of the first frame may come before it
                longest = frame + bytes(1500)
                for part in b"f 1 " + longest.hex().encode(), b"\n":
                    it.running.stdin.write(part)
                    it.running.stdin.flush()
                    time.sleep(0.2)
                host.settimeout(PATIENCE)
                with contextlib.suppress(OSError):
                    while len(came) < 1000:
                        came = host.recv(1 << 16)
                self.holds("a row of a long frame", came[8:] == longest, f"{len(came)} bytes, {it.said()}")

    def test_bad_tables(self):
        """A bad file of tables ends a command as it ends `check`."""
        with tempfile.TemporaryDirectory() as folder:
            texts = {"syntax": "flow 0\n", "refused": ONE_FLOW.replace("flow 0", "flow 99"), "row": "connect\nd\n", "word": "nonsense,actions=output:1\n"}
            for name, text in texts.items():
                pathlib.Path(folder, name).write_text(text)
            for name in *texts, "missing":
                path = str(pathlib.Path(folder, name))
                wanted = ofswitch("check", path)
                for command, *words in ["serve"], ["live", "--vxlan", f"127.0.0.1:{free_port()}"]:
                    done = ofswitch(command, *words, "--tables", path, "--listen", "127.0.0.1:0", "--turns", "0")
                    good = done.status == wanted.status > 1 and done.err == wanted.err and done.out == ""
                    self.holds(f"{command} --tables: {name}", good, f"{done.status}, {done.err}, {wanted.err}")

    def test_large_answer(self):
        """A controller that reads later gets all of an answer that is larger than what the kernel takes, without asking for more."""
        flows = [long_flow(table, priority) for table in (0, 1) for priority in range(4096)]
        with Started("live") as it, socket.socket() as peer:
            it.reach().close()
            it.says("connection ended")
            # so the kernel takes little of it
            peer.setsockopt(socket.SOL_SOCKET, socket.SO_RCVBUF, 8192)
            peer.settimeout(PATIENCE)
            peer.connect(("127.0.0.1", it.port))
            answers(peer, HELLO + b"".join(flows) + BARRIER, len(GREETING + REPLY))
            peer.sendall(ALL_FLOWS)
            time.sleep(2)
            came = 0
            with until_cut(), peer.makefile("rb") as messages:
                while came < len(flows) and (head := messages.read(8)):
                    # a multipart reply has 16 bytes before its flows, and as many bytes for a flow as its ADD
                    came += (len(messages.read(int.from_bytes(head[2:4], "big") - 8)) - 8) // len(flows[0])
            self.holds("an answer that is larger than what the kernel takes", came == len(flows), f"{came} of {len(flows)} flows, {it.said()}")

    def test_flooded(self):
        """A controller that takes some of its PACKET_INs now and then, and too few of them, is closed when more than 256 MiB wait for it."""
        datagram = bytes.fromhex("0800000000000100") + bytes(9216)
        with Started("live") as it, socket.socket() as peer, socket.socket(socket.AF_INET, socket.SOCK_DGRAM) as sender:
            ended = lambda: sum(line.startswith("connection ended") for line in it.said())
            it.reach().close()
            it.says("connection ended")
            # so the kernel takes little of it
            peer.setsockopt(socket.SOL_SOCKET, socket.SO_RCVBUF, 8192)
            peer.settimeout(PATIENCE)
            peer.connect(("127.0.0.1", it.port))
            met = answers(peer, HELLO + TO_CONTROLLER + BARRIER, len(GREETING + REPLY)) == GREETING + REPLY
            most, end = 0, time.monotonic() + 2 * PATIENCE
            with until_cut():
                while ended() < 2 and time.monotonic() < end:
                    for _ in range(200):
                        sender.sendto(datagram, ("127.0.0.1", it.tunnel))
                    peer.recv(1 << 13)
                    most = int(pathlib.Path(f"/proc/{it.running.pid}/status").read_text().split("VmHWM:")[1].split()[0])
            time.sleep(0.2)
            self.holds("a controller that reads too slowly", met and ended() == 2 and 200_000 < most < 1_200_000, f"{met}, {it.said()}, {most} kB")
            self.holds("the controller after it", it.serves(), it.said())

    def test_refused_words(self):
        """Options that cannot be meant are refused at the start."""
        with tempfile.NamedTemporaryFile() as file:
            for words, line in REFUSED.items():
                known = {"tunnel": free_port(), "file": file.name}
                place = [] if "--vxlan" in words else ["--vxlan", f"127.0.0.1:{known['tunnel']}"]
                done = ofswitch("live", "--ports", 2, *place, *words.format(**known).split(), "--turns", 1)
                self.same(f"live {words}", (done.status, done.err), (1, line.format(**known) + "\n"))


class Both:
    """Checks of `serve` and of `live`."""

    slow = True

    def test_full_disk(self):
        """A log that cannot be written further ends the switch with status 3; what is left of it is whole rows, and those of the run."""

        def limited(size):
            def limit():
                signal.signal(signal.SIGXFSZ, signal.SIG_IGN)
                resource.setrlimit(resource.RLIMIT_FSIZE, (size, size))

            return limit

        def trial(size):
            with tempfile.TemporaryDirectory() as folder:
                events, log = pathlib.Path(folder, "in.events"), pathlib.Path(folder, "log")
                events.write_text("port add 9 0200000000aa nine up\nf 9 " + "ab" * 40 + "\n")
                with Started(self.command, "--events", events, "--log", log, before=limited(size)) as it:
                    if self.command == "serve":
                        # it may end before it is reached
                        with contextlib.suppress(ConnectionError), it.reach() as peer:
                            peer.sendall(HELLO)
                            it.running.wait(PATIENCE)
                    status = it.running.wait(PATIENCE)
                    said = it.said()
                left = log.read_bytes()
                done = ofswitch("replay", log)
                good = status == 3 and 0 < len(left) <= size and left.endswith(b"\n") and done.status == 0
                return None if good else f"at byte {size}: status {status}, {left!r}, {done.err}, {said}"

        # the first line has 23 bytes, and the rows of one turn about 150
        with concurrent.futures.ThreadPoolExecutor(8) as pool:
            faults = [fault for fault in pool.map(trial, range(23, 190, 6)) if fault]
        self.holds("a full disk", not faults, faults[:3])

    def test_begins(self):
        """A switch with `--tables` has its flows when the first controller connects, and so has its log."""
        for name, text in TABLES.items():
            with tempfile.TemporaryDirectory() as folder:
                tables, log = pathlib.Path(folder, "tables"), pathlib.Path(folder, "log")
                tables.write_text(text)
                options = OPTIONS.get(name, [])
                with Started(self.command, "--tables", tables, *options, "--log", log, "--dpid", 9) as it, it.reach() as peer:
                    got = answers(peer, HELLO + ALL_FLOWS, len(GREETING) + 104)
                    said = it.said()
                done = ofswitch("dis", log)
                lines = log.read_text().splitlines()
            good = got.startswith(GREETING) and got[:-40].endswith(bytes(8)) and FLOW[48:80] in got and len(said) == (4 if options else 1)
            self.holds(f"{name} as --tables", good, f"{got.hex()}, {said}")
            good = lines[:3] == ["# replay with --dpid 9", "connect", "c 0400000800000000"] and lines[4] == "lost" and flows_of(done.out) == flows_of(ONE_FLOW)
            self.holds(f"the log with {name}", good, f"{lines[:5]}, {done.out}, {done.err}")

    def test_identity(self):
        """FEATURES_REPLY has the datapath id of `--dpid`, and PORT_DESC of `live` the names and addresses of the ports."""
        dpid = 0x0123456789ABCDEF
        with Started(self.command, "--dpid", hex(dpid)) as it, it.reach() as peer:
            got = answers(peer, HELLO + FEATURES, len(GREETING) + 32)[len(GREETING) :]
            self.holds("the datapath id", got[:16] == bytes.fromhex("0406002000000004") + dpid.to_bytes(8, "big"), got.hex())
            count = 2 if self.command == "live" else 0
            got = answers(peer, PORTS, 16 + 64 * count)[16:]
            wanted = [port_struct(number, dpid) for number in range(1, count + 1)]
            self.holds("the ports", [got[64 * at :][:32] for at in range(count)] == wanted, got.hex())


class Serve(Both, Case):
    command = "serve"


class Live(Both, Case):
    command = "live"
