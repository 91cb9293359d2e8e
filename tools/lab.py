"""The namespaces, hosts and controllers of tools/try-live, tools/try-endurance, tools/try-mininet and bench/live.py.

All is in network namespaces without a name, which end with this process, so the network of the machine is not touched.
"""
import contextlib
import ctypes
import fcntl
import hashlib
import os
import pathlib
import random
import shutil
import signal
import socket
import struct
import subprocess
import threading
import time

# how many seconds a case waits for something before it fails
PATIENCE = 10
VXLAN = 4789
SWITCH, UNDERLAY, SET_PEER = "10.9.0.2", "10.9.0.1", "10.9.0.9"
CONTROLLER = ("127.0.0.1", 6653)
OVS_SCHEMA = "/usr/share/openvswitch/vswitch.ovsschema"

HELLO, ERROR, ECHO_REQUEST, FLOW_REMOVED, MULTIPART, BARRIER = 0, 1, 2, 11, 18, 20
FLOW_STATISTICS, PORT_STATISTICS = 1, 4
ANY = 0xFFFFFFFF


class Cases:
    passed = 0
    failed = 0

    def holds(self, name, good, what=""):
        if good:
            self.passed += 1
            print(f"{name}: passed", flush=True)
        else:
            self.failed += 1
            print(f"{name}: failed\n    {what}", flush=True)


# ---- namespaces


LIBC = ctypes.CDLL(None, use_errno=True)
NEW_NETWORK = 0x40000000
DIE_WITH_PARENT = 1


def called(result):
    if result:
        fault = ctypes.get_errno()
        raise OSError(fault, os.strerror(fault))


class Namespace:
    """A network namespace without a name: it ends when no process is in it and this one ends."""

    def __init__(self, is_here=False):
        """A new one; or the one that this process is in."""
        with open("/proc/thread-self/ns/net", "rb") as before:
            if is_here:
                self.file = os.dup(before.fileno())
                return
            called(LIBC.unshare(NEW_NETWORK))
            self.file = os.open("/proc/thread-self/ns/net", os.O_RDONLY)
            called(LIBC.setns(before.fileno(), NEW_NETWORK))
        self.ip("link", "set", "lo", "up")

    @classmethod
    def of(cls, process):
        """The namespace that a process is in."""
        it = cls.__new__(cls)
        it.file = os.open(f"/proc/{process}/ns/net", os.O_RDONLY)
        return it

    @property
    def path(self):
        return f"/proc/{os.getpid()}/fd/{self.file}"

    @contextlib.contextmanager
    def entered(self):
        """Sockets that are made in it belong to the namespace."""
        with open("/proc/thread-self/ns/net", "rb") as before:
            called(LIBC.setns(self.file, NEW_NETWORK))
            try:
                yield
            finally:
                called(LIBC.setns(before.fileno(), NEW_NETWORK))

    def socket(self, *kind):
        with self.entered():
            return socket.socket(*kind)

    def begin(self, *command, **words):
        def enter():
            LIBC.prctl(DIE_WITH_PARENT, signal.SIGKILL)
            called(LIBC.setns(self.file, NEW_NETWORK))

        return subprocess.Popen(command, preexec_fn=enter, **words)

    def run(self, *command):
        """What a command prints, both of it, and its status."""
        running = self.begin(*command, stdout=subprocess.PIPE, stderr=subprocess.STDOUT, text=True)
        try:
            return running.communicate(timeout=PATIENCE)[0], running.returncode
        except subprocess.TimeoutExpired:
            running.kill()
            return running.communicate()[0] + "no end", 1

    def ip(self, *words):
        said, status = self.run("ip", *words)
        if status:
            raise OSError(f"ip {' '.join(words)}: {said.strip()}")
        return said

    def checksums_in_software(self, interface):
        """As `ethtool -K INTERFACE tx off`: a veth leaves checksums to hardware that never comes."""
        asked = ctypes.create_string_buffer(struct.pack("II", 0x17, 0))
        with self.socket(socket.AF_INET, socket.SOCK_DGRAM) as any_socket:
            fcntl.ioctl(any_socket, 0x8946, struct.pack("16sP16x", interface.encode(), ctypes.addressof(asked)))


def hardware(host):
    return "02:00:00:00:01:%02x" % host


class Lab:
    """Two hosts with a VXLAN interface each, and a namespace for the switch: all in namespaces of their own."""

    def __init__(self, places=(SWITCH, SWITCH)):
        """`places` has, for each host, the address of its switch."""
        self.underlay, self.switch = Namespace(), Namespace()
        self.hosts = [Namespace() for _ in places]
        outer, inner = self.underlay, self.switch
        outer.ip("link", "add", "u0", "address", "02:00:00:00:09:01", "mtu", "1600", "type", "veth", "peer", "name", "u1")
        outer.ip("link", "set", "u1", "netns", inner.path)
        outer.ip("address", "add", f"{UNDERLAY}/24", "dev", "u0")
        outer.ip("address", "add", f"{SET_PEER}/24", "dev", "u0")
        inner.ip("address", "add", f"{SWITCH}/24", "dev", "u1")
        inner.ip("link", "set", "u1", "mtu", "1600", "up")
        outer.ip("link", "set", "u0", "up")
        # no frame of the tunnel waits for ARP below it, and is overtaken meanwhile
        for address in (UNDERLAY, SET_PEER):
            inner.ip("neighbour", "replace", address, "lladdr", "02:00:00:00:09:01", "dev", "u1", "nud", "permanent")
        outer.checksums_in_software("u0")
        inner.checksums_in_software("u1")
        # what a controller does not read fills the buffers of its connection soon
        with inner.entered():
            pathlib.Path("/proc/sys/net/ipv4/tcp_wmem").write_text("4096 16384 65536")
        for number, (host, place) in enumerate(zip(self.hosts, places), 1):
            if place != SWITCH:
                inner.ip("address", "add", f"{place}/24", "dev", "u1")
            self.add_host(number, host, place)

    def add_host(self, number, host, place):
        name = f"vx{number}"
        self.underlay.ip(
            *("link", "add", name, "address", hardware(number), "type", "vxlan", "id", str(number)),
            *("remote", place, "local", UNDERLAY, "dstport", str(VXLAN), "nolearning"),
        )
        self.underlay.ip("link", "set", name, "netns", host.path)
        host.ip("address", "add", f"10.1.0.{number}/24", "dev", name)
        host.ip("address", "add", f"fd00::{number}/64", "dev", name, "nodad")
        host.ip("link", "set", name, "mtu", "1500", "up")


def missing():
    """What is missing here, if something is."""
    if os.geteuid() != 0:
        return "it needs root"
    if not shutil.which("ip"):
        return "it needs ip (iproute2)"
    try:
        Lab()
    except (OSError, AttributeError) as fault:
        return f"no namespaces with VXLAN interfaces: {fault}"
    return None


# ---- OpenFlow


def message(kind, body=b"", xid=7):
    return struct.pack(">BBHI", 4, kind, 8 + len(body), xid) + body


def padded(data):
    return data + bytes(-len(data) % 8)


def match(*fields):
    data = b"".join(fields)
    return padded(struct.pack(">HH", 1, 4 + len(data)) + data)


def in_port(port):
    return bytes.fromhex("80000004") + struct.pack(">I", port)


def eth_type(number):
    return bytes.fromhex("80000a02") + struct.pack(">H", number)


def vlan(number):
    return bytes.fromhex("80000c02") + struct.pack(">H", 0x1000 | number)


def output(port):
    return struct.pack(">HHIH6x", 0, 16, port, 0xFFFF)


def push_vlan(number):
    return struct.pack(">HHH2x", 17, 8, 0x8100) + struct.pack(">HH", 25, 16) + vlan(number) + bytes(6)


POP_VLAN = struct.pack(">HH4x", 18, 8)


def flow_mod(command, fields=(), actions=(), priority=10, idle=0, flags=0, out_port=ANY, table=0):
    apply = b"".join(actions)
    instructions = struct.pack(">HH4x", 4, 8 + len(apply)) + apply if actions else b""
    head = struct.pack(">QQBBHHHIIIHxx", 0, 0, 0xFF if command == 3 else table, command, idle, 0, priority, ANY, out_port, ANY, flags)
    return message(14, head + match(*fields) + instructions)


def add(fields, actions, **words):
    return flow_mod(0, fields, actions, **words)


DELETE_ALL = flow_mod(3)
# frames of port 1 leave by port 2, and the other way round
FORWARDING = [add([in_port(1)], [output(2)]), add([in_port(2)], [output(1)])]


def statistics(kind, body):
    return message(MULTIPART, struct.pack(">HH4x", kind, 0) + body)


ALL_FLOWS = statistics(FLOW_STATISTICS, struct.pack(">B3xII4xQQ", 0xFF, ANY, ANY, 0, 0) + match())


class Controller:
    """A controller with a connection that it began, or that the switch did."""

    def __init__(self, connection):
        self.connection = connection
        self.connection.settimeout(PATIENCE)
        self.bytes = b""
        self.kept = []
        self.connection.sendall(message(HELLO))
        kind, _ = self.next()
        if kind != HELLO:
            raise ConnectionError(f"a message of type {kind} instead of HELLO")

    def next(self):
        """The next message: its type and its body."""
        while len(self.bytes) < 8 or len(self.bytes) < struct.unpack(">H", self.bytes[2:4])[0]:
            part = self.connection.recv(1 << 16)
            if not part:
                raise ConnectionError("the switch closed the connection")
            self.bytes += part
        length = struct.unpack(">H", self.bytes[2:4])[0]
        whole, self.bytes = self.bytes[:length], self.bytes[length:]
        return whole[1], whole[8:]

    def ask(self, *messages):
        """The replies to these messages; an ERROR is a failure. Other messages are kept for later."""
        self.connection.sendall(b"".join(messages) + message(BARRIER))
        replies = []
        while True:
            kind, body = self.next()
            if kind == BARRIER + 1:
                return replies
            if kind == ERROR:
                raise ConnectionError(f"the switch refused a message: {body.hex()}")
            (replies if kind == MULTIPART + 1 else self.kept).append((kind, body))

    def wait_for(self, wanted):
        """The first message of this type."""
        for place, (kind, _) in enumerate(self.kept):
            if kind == wanted:
                return self.kept.pop(place)[1]
        while True:
            kind, body = self.next()
            if kind == wanted:
                return body
            self.kept.append((kind, body))

    def received(self):
        """How many packets each port received."""
        [(_, body)] = self.ask(statistics(PORT_STATISTICS, struct.pack(">I4x", ANY)))
        rows = (body[at : at + 112] for at in range(8, len(body), 112))
        return {struct.unpack(">I", row[:4])[0]: struct.unpack(">Q", row[8:16])[0] for row in rows}

    def flows(self):
        """Flow entries without the time since they were added."""
        rows = []
        for _, body in self.ask(ALL_FLOWS):
            at = 8
            while at < len(body):
                length = struct.unpack(">H", body[at : at + 2])[0]
                rows.append(body[at : at + 4] + body[at + 12 : at + length])
                at += length
        return rows

    def fill(self, tables, count, actions=1):
        """Adds so many flows to each of the first tables. A row of statistics of each has 80 bytes, and 16 for each action."""
        for table in range(tables):
            self.ask(*(add([in_port(3), eth_type(0x9000 + it)], [output(2)] * actions, priority=5, table=table) for it in range(count)))

    def dumps(self, count):
        """How many bytes of rows each of the next FLOW replies has, in all its messages."""
        sizes = [0]
        while len(sizes) <= count:
            body = self.wait_for(MULTIPART + 1)
            sizes[-1] += len(body) - 8
            if not body[3] & 1:
                sizes.append(0)
        return sizes[:-1]

    def close(self):
        self.connection.close()

    def kill(self):
        """As the end of a process that has not read all: a reset."""
        self.connection.setsockopt(socket.SOL_SOCKET, socket.SO_LINGER, struct.pack("ii", 1, 0))
        self.connection.close()


# ---- the switch


class Live:
    """The program in the switch's namespace."""

    def __init__(self, lab, program, folder, *words):
        self.lab = lab
        self.said = open(folder / "said", "w+b")
        self.running = lab.switch.begin(program, "live", *words, stdin=subprocess.PIPE, stdout=self.said, stderr=self.said)

    def connect(self, **words):
        """A connection with the switch that listens."""
        end = time.monotonic() + PATIENCE
        while True:
            one = self.lab.switch.socket()
            with contextlib.suppress(ConnectionRefusedError):
                if "window" in words:
                    one.setsockopt(socket.SOL_SOCKET, socket.SO_RCVBUF, words["window"])
                one.settimeout(PATIENCE)
                one.connect(CONTROLLER)
                return one
            one.close()
            if time.monotonic() > end or self.running.poll() is not None:
                raise ConnectionError(f"nobody listens: {self.printed()}")
            time.sleep(0.02)

    def controller(self):
        return Controller(self.connect())

    def give(self, text):
        """Writes to its standard input."""
        self.running.stdin.write(text)
        self.running.stdin.flush()

    def says(self, line):
        """Whether it prints this line soon."""
        end = time.monotonic() + 2
        while line not in self.printed().splitlines() and time.monotonic() < end:
            time.sleep(0.01)
        return line in self.printed().splitlines()

    def printed(self):
        self.said.seek(0)
        return self.said.read().decode()

    def processor_time(self):
        words = pathlib.Path(f"/proc/{self.running.pid}/stat").read_text().rsplit(")", 1)[1].split()
        return (int(words[11]) + int(words[12])) / os.sysconf("SC_CLK_TCK")

    def memory(self):
        """Its resident memory, in kilobytes."""
        for line in pathlib.Path(f"/proc/{self.running.pid}/status").read_text().splitlines():
            if line.startswith("VmRSS:"):
                return int(line.split()[1])
        return 0

    def end(self):
        self.running.terminate()
        self.running.wait(PATIENCE)


@contextlib.contextmanager
def live(lab, program, folder, *words):
    switch = Live(lab, program, folder, *words)
    try:
        yield switch
    finally:
        switch.running.kill()
        switch.running.wait()
        switch.said.close()


@contextlib.contextmanager
def open_vswitch(place, folder):
    """Open vSwitch in a namespace, with its files in a new folder; gives a command `ovs-vsctl` for it."""
    folder.mkdir()
    database, log = f"unix:{folder}/db.sock", ["-vconsole:off", "-vfile:off"]
    os.environ.update(OVS_RUNDIR=str(folder), OVS_LOGDIR=str(folder), OVS_DBDIR=str(folder))
    subprocess.run(["ovsdb-tool", "create", f"{folder}/conf.db", OVS_SCHEMA], check=True)
    running = [place.begin("ovsdb-server", f"{folder}/conf.db", f"--remote=p{database}", *log)]

    def control(*words):
        said, status = place.run("ovs-vsctl", f"--db={database}", *words)
        if status:
            raise OSError(f"ovs-vsctl {' '.join(words)}: {said.strip()}")

    try:
        time.sleep(0.5)
        control("--no-wait", "init")
        # the userspace datapath alone
        running.append(place.begin("ovs-vswitchd", database, "--disable-system", *log))
        yield control
    finally:
        for it in reversed(running):
            it.kill()
            it.wait()
        shutil.rmtree(folder)


# ---- what hosts do


def checksum(data):
    total = sum(struct.unpack(f">{len(data) // 2}H", data))
    total = (total & 0xFFFF) + (total >> 16)
    return 0xFFFF - ((total & 0xFFFF) + (total >> 16))


class Ping:
    """Echo requests of host 1 to host 2, at regular times, in a thread."""

    def __init__(self, lab, interval=0.02, is_ipv6=False):
        self.interval, self.is_ipv6 = interval, is_ipv6
        if is_ipv6:
            self.socket = lab.hosts[0].socket(socket.AF_INET6, socket.SOCK_RAW, socket.IPPROTO_ICMPV6)
        else:
            self.socket = lab.hosts[0].socket(socket.AF_INET, socket.SOCK_RAW, socket.IPPROTO_ICMP)
        self.place = ("fd00::2" if is_ipv6 else "10.1.0.2", 0)
        self.name = random.randrange(1 << 16)
        self.sent, self.delays, self.is_over = {}, {}, False
        self.threads = [threading.Thread(target=it, daemon=True) for it in (self.listen, self.speak)]
        self.socket.settimeout(0.1)
        for thread in self.threads:
            thread.start()

    def send(self, number):
        body = struct.pack(">HH", self.name, number) + bytes(48)
        # the kernel computes the checksum of ICMPv6
        head = b"\x80\0\0\0" if self.is_ipv6 else b"\x08\0" + struct.pack(">H", checksum(b"\x08\0\0\0" + body))
        self.sent[number] = time.monotonic()
        with contextlib.suppress(OSError):
            self.socket.sendto(head + body, self.place)

    def speak(self):
        number = 0
        while not self.is_over:
            self.send(number)
            number += 1
            time.sleep(self.interval)

    def listen(self):
        while self.socket.fileno() >= 0:
            try:
                data = self.socket.recv(2048)
            except TimeoutError:
                continue
            except OSError:
                return
            data = data if self.is_ipv6 else data[(data[0] & 15) * 4 :]
            kind, name, number = data[0], *struct.unpack(">HH", data[4:8])
            if kind == (129 if self.is_ipv6 else 0) and name == self.name and number in self.sent:
                self.delays.setdefault(number, time.monotonic() - self.sent[number])

    def end(self):
        """How many were sent, how many were lost, and the longest delay in seconds."""
        self.is_over = True
        self.threads[1].join()
        end = time.monotonic() + 2
        while len(self.delays) < len(self.sent) and time.monotonic() < end:
            time.sleep(0.01)
        self.socket.close()
        self.threads[0].join()
        return len(self.sent), len(self.sent) - len(self.delays), max(self.delays.values(), default=0)


def pinged(lab, seconds=0.5, **words):
    ping = Ping(lab, **words)
    time.sleep(seconds)
    return ping.end()


class Interface:
    """A raw socket on an interface. What the kernel keeps beside a frame, its VLAN tag, is put in again."""

    def __init__(self, place, name, kind=0x0003):
        self.socket = place.socket(socket.AF_PACKET, socket.SOCK_RAW, socket.htons(kind))
        self.socket.setsockopt(263, 8, 1)
        self.socket.bind((name, kind))
        self.socket.settimeout(0.2)

    def receive(self):
        """A frame, and whether this machine sent it."""
        data, beside, _, address = self.socket.recvmsg(1 << 16, 1 << 10)
        for level, kind, value in beside:
            status, _, _, _, _, tag, ethertype = struct.unpack("IIIHHHH", value[:20])
            if (level, kind) == (263, 8) and status & 0x10:
                data = data[:12] + struct.pack(">HH", ethertype if status & 0x40 else 0x8100, tag) + data[12:]
        return data, address[2] == 4

    def wait_for(self, ending):
        """The first frame that comes with this ending, within a second."""
        end = time.monotonic() + 1
        while time.monotonic() < end:
            with contextlib.suppress(TimeoutError):
                data, is_sent = self.receive()
                if not is_sent and data.endswith(ending):
                    return data
        return None


class Capture:
    """The datagrams of the tunnel at the switch, in order."""

    def __init__(self, lab):
        self.interface = Interface(lab.switch, "u1")
        self.interface.socket.setsockopt(socket.SOL_SOCKET, 33, 256 << 20)
        self.datagrams, self.is_over = [], False
        self.thread = threading.Thread(target=self.listen, daemon=True)
        self.thread.start()

    def listen(self):
        while True:
            try:
                data, is_sent = self.interface.receive()
            except TimeoutError:
                if self.is_over:
                    return
                continue
            if data[12:14] == b"\x08\0" and data[23] == 17:
                self.datagrams.append((time.time(), data, is_sent))

    def end(self):
        """The datagrams, and how many the kernel had no room for."""
        self.is_over = True
        self.thread.join()
        return self.datagrams, struct.unpack("II", self.interface.socket.getsockopt(263, 6, 8))[1]


def sent_lines(datagrams):
    """The datagrams that the switch sent, as `replay` prints frames."""
    for _, data, is_sent in datagrams:
        if is_sent and data[42:43] == b"\x08":
            yield f"s {int.from_bytes(data[46:49], 'big')} {data[50:].hex() or '-'}"


def pcap(datagrams):
    parts = [struct.pack("IHHIIII", 0xA1B2C3D4, 2, 4, 0, 0, 1 << 16, 1)]
    for when, data, _ in datagrams:
        parts += struct.pack("IIII", int(when), int(when % 1 * 1e6), len(data), len(data)), data
    return b"".join(parts)


def announce(lab, controller):
    """Each host sends a frame, so that the switch learns where the frames of its port go."""
    for number, host in enumerate(lab.hosts, 1):
        with contextlib.closing(Interface(host, f"vx{number}").socket) as one:
            one.send(bytes.fromhex(("02000000000f" + hardware(number) + "88b6").replace(":", "")) + bytes(46))
    end = time.monotonic() + PATIENCE
    while not all(controller.received()[port] for port in (1, 2)):
        if time.monotonic() > end:
            raise TimeoutError("frames of the hosts do not reach the switch")
        time.sleep(0.01)


def transferred(lab, size):
    """Random bytes over TCP, from host 1 to host 2: whether they arrive whole, how many, and the seconds."""
    data = random.Random(2).randbytes(size)
    with lab.hosts[1].socket() as door, lab.hosts[0].socket() as client:
        door.setsockopt(socket.SOL_SOCKET, socket.SO_REUSEADDR, 1)
        door.bind(("10.1.0.2", 8000))
        door.listen()
        door.settimeout(PATIENCE)
        client.settimeout(PATIENCE)
        client.connect(("10.1.0.2", 8000))
        server = door.accept()[0]
        server.settimeout(PATIENCE)

        def write():
            with contextlib.suppress(OSError):
                client.sendall(data)
                client.shutdown(socket.SHUT_WR)

        writer = threading.Thread(target=write, daemon=True)
        begun = time.monotonic()
        writer.start()
        total, hashed = 0, hashlib.sha256()
        with server, contextlib.suppress(TimeoutError):
            while part := server.recv(1 << 20):
                total += len(part)
                hashed.update(part)
        passed = time.monotonic() - begun
        writer.join()
    return hashed.digest() == hashlib.sha256(data).digest(), total, passed


def noise(rng, count):
    """Datagrams that carry no frame of a port."""
    for _ in range(count):
        kind = rng.randrange(5)
        if kind == 0:
            yield rng.randbytes(rng.randrange(8))
        elif kind == 1:
            # without the flag I
            yield bytes([rng.randrange(256) & 0xF7]) + rng.randbytes(rng.randrange(1500))
        elif kind == 2:
            yield bytes([8, 0, 0, 0]) + rng.randrange(4, 1 << 24).to_bytes(3, "big") + rng.randbytes(rng.randrange(1500))
        elif kind == 3:
            yield bytes([0xFF]) + rng.randbytes(3) + b"\xff" + rng.randbytes(60)
        else:
            yield bytes([8, 0, 0, 0, 0xFF]) + rng.randbytes(65507 - 5)
