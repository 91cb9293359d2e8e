"""Interfaces of the kernel as ports of `ofswitch live`.

Each port has a VXLAN interface, which sends its frames to the switch in datagrams. An interface that is taken is joined to it by two
`tc` filters, which redirect what one of them receives to the other. An interface that is made is the VXLAN interface itself, in the
network namespace of its host. So the kernel carries all frames.

The datagrams leave from a network namespace without a name, the underlay, over a veth pair: the kernel's VXLAN sends nothing to a
program at an address of its own namespace. When the underlay ends, the kernel removes the VXLAN interfaces that were made there.
"""

from __future__ import annotations

import contextlib
import ctypes
import fcntl
import json
import os
import re
import select
import shutil
import socket
import struct
import subprocess
import time
from collections.abc import Iterable, Iterator, Mapping
from dataclasses import dataclass
from typing import Any, Union

# The greatest number of a VXLAN network (RFC 7348, 5), and so of a port.
MOST_NETWORK = (1 << 24) - 1

# The namespaces that are without a name.
_NEW_NETWORK = 0x40000000

# The underlay's MTU: room for a datagram of the longest frame.
_UNDERLAY_MTU = 65_000

# The most bytes of an interface's name.
_MOST_NAME_BYTES = 15

# Ways in which `tc` matches every frame: the kernel may be built without some of them.
_EVERY_FRAME = ("matchall", 'bpf bytecode "1,6 0 0 4294967295"', "u32 match u32 0 0")

# SIOCETHTOOL, and its commands that turn off checksums, segments of TCP and other segments that are longer than a frame.
_ETHTOOL = 0x8946
_OFFLOADS = (0x17, 0x1F, 0x24)

# A system call and an option of sockets that Python does not name.
_PIDFD_GETFD, _RCVBUFFORCE = 438, 33

# netlink: messages about links, and the flags UP and LOWER_UP.
_LINKS_GROUP = 1
_NEW_LINK, _DELETED_LINK = 16, 17
_IS_UP = 0x1 | 0x10000

# How long a command may take, in seconds.
_PATIENCE = 30.0

_LIBC = ctypes.CDLL(None, use_errno=True)


class InterfaceError(Exception):
    """An interface cannot be a port: it is missing, or the system refuses something."""


class BatchError(InterfaceError):
    """A command of a batch failed, the one with this number, from 0."""

    def __init__(self, text: str, line: int) -> None:
        super().__init__(text)
        self.line = line


@dataclass(frozen=True)
class Taken:
    """An interface of this network namespace."""

    name: str

    def __str__(self) -> str:
        return self.name


@dataclass(frozen=True)
class Made:
    """A new interface, in the network namespace with this name or of the process with this number; or in this one."""

    name: str
    namespace: str | None = None

    def __str__(self) -> str:
        return f"tap:{self.namespace}/{self.name}" if self.namespace else f"tap:{self.name}"


Interface = Union[Taken, Made]


def interface(word: str) -> Interface:
    """`veth0`, an interface; `tap:eth0`, a new one; `tap:h1/eth0`, a new one in the namespace h1."""
    kind, is_made, place = word.partition(":")
    if not is_made:
        return Taken(_name(word))
    if kind != "tap":
        raise ValueError(f"an interface is NAME, tap:NAME or tap:NETNS/NAME, not {word!r}")
    namespace, is_elsewhere, name = place.rpartition("/")
    if is_elsewhere and (not namespace or "/" in namespace):
        raise ValueError(f"a network namespace is a name or the number of a process, not {namespace!r}")
    return Made(_name(name), namespace or None)


def port_interface(word: str) -> tuple[int, Interface]:
    """`1=veth0`: a port and its interface."""
    number, is_there, name = word.partition("=")
    if not is_there or not (number.isascii() and number.isdigit() and 1 <= int(number) <= MOST_NETWORK):
        raise ValueError(f"a port is N=INTERFACE, with a number from 1 to {MOST_NETWORK}, not {word!r}")
    return int(number), interface(name)


def _name(word: str) -> str:
    is_plain = word.isprintable() and not re.search(r"[\s/:\"]", word) and word not in (".", "..")
    if not (is_plain and 1 <= len(word.encode()) <= _MOST_NAME_BYTES):
        raise ValueError(f"an interface's name has 1 to {_MOST_NAME_BYTES} bytes, and no space, quote, colon or slash, not {word!r}")
    return word


@dataclass(frozen=True)
class Seen:
    """What the system reports about an interface."""

    index: int
    address: str
    mtu: int
    is_up: bool
    master: str | None
    # those that are not of the link alone
    addresses: tuple[str, ...]
    is_promiscuous: bool = False


def seen(name: str) -> Seen:
    """An interface of this network namespace."""
    found = all_seen().get(name)
    if found is None:
        raise InterfaceError(f"there is no interface {name}")
    return found


def all_seen() -> dict[str, Seen]:
    """The interfaces of this network namespace, by name."""
    listed = json.loads(_run("ip", "-json", "address", "show") or "[]")
    # an interface may end while they are listed
    return {it["ifname"]: _as_seen(it) for it in listed if "ifname" in it}


def _as_seen(it: dict[str, Any]) -> Seen:
    addresses = (one for one in it.get("addr_info", []) if one.get("scope") != "link")
    flags = it.get("flags", [])
    return Seen(
        index=it["ifindex"],
        address=it.get("address", ""),
        mtu=it["mtu"],
        is_up="UP" in flags and "LOWER_UP" in flags,
        master=it.get("master"),
        addresses=tuple(f"{one['local']}/{one['prefixlen']}" for one in addresses),
        is_promiscuous="PROMISC" in flags,
    )


def require_system() -> None:
    """InterfaceError, with what is missing, if interfaces cannot be joined here."""
    if os.geteuid() != 0:
        raise InterfaceError("interfaces need root: run this with sudo, or use `ofswitch live` (docs/LIVE.md), which needs no root")
    for tool in ("ip", "tc"):
        if not shutil.which(tool):
            raise InterfaceError(f"{tool} is not installed (Debian: iproute2)")


class Underlay:
    """A namespace in which VXLAN interfaces are made, with a veth pair to the switch's namespace, until `close`.

    `switch` and `kernel` are the addresses of its two ends, and `port` is the UDP port of both.
    """

    def __init__(self) -> None:
        self._undo = contextlib.ExitStack()
        self.here = self._undo.enter_context(_kept_namespace("/proc/thread-self/ns/net"))
        self.place = self._undo.enter_context(_new_namespace())
        self.port, self.switch, self.kernel = _free_addresses()
        outer, inner = f"ofs{self.port}", "v"
        try:
            _run("ip", "link", "add", outer, "mtu", str(_UNDERLAY_MTU), "type", "veth", "peer", "name", inner, "mtu", str(_UNDERLAY_MTU), "netns", self.place)
            # removed now, and not only when the kernel ends the namespace
            self._undo.callback(_run, "ip", "link", "delete", outer, is_checked=False)
            _set_ipv6(outer, is_off="1")
            _without_offloads(outer)
            with entered(self.place):
                _set_ipv6(inner, is_off="1")
                _without_offloads(inner)
            _batch("ip", [f"address add {self.switch}/30 dev {outer}", f"link set {outer} up"])
            self.batch([f"address add {self.kernel}/30 dev {inner}", f"link set {inner} up"])
        except BaseException:
            self.close()
            raise

    def batch(self, lines: Iterable[str]) -> None:
        """Commands of `ip` in it."""
        with entered(self.place):
            _batch("ip", lines)

    def close(self) -> None:
        self._undo.close()


def _remove(place: str, names: list[str]) -> None:
    """Removes interfaces of a namespace, if they are there."""
    with entered(place):
        _batch("ip", (f"link delete {it}" for it in names), is_checked=False)


class Joined:
    """The interfaces of a switch's ports, joined to an underlay until `close`."""

    def __init__(self, ports: Mapping[int, Interface], underlay: Underlay) -> None:
        self.ports = dict(ports)
        self._underlay = underlay
        self._taken = {number: it.name for number, it in ports.items() if isinstance(it, Taken)}
        # what `close` has to do, the last first
        self._undo = contextlib.ExitStack()
        self.notes: list[str] = []
        try:
            # what the system reports about the interfaces that are taken
            self.seen = {number: self._see(name) for number, name in self._taken.items()}
            self._make()
            self._redirect()
        except BaseException:
            self.close()
            raise

    def close(self) -> None:
        """Removes all that was made, and sets all else as it was."""
        self._undo.close()

    def tunnel(self, number: int) -> str:
        """The name of a port's VXLAN interface, if the port's interface is taken."""
        return f"v{self._underlay.port}-{number}"

    def _see(self, name: str) -> Seen:
        found = seen(name)
        if found.master:
            raise InterfaceError(f"{name} belongs to {found.master}: ip link set {name} nomaster")
        if found.addresses:
            self.notes.append(f"{name} has addresses ({', '.join(found.addresses)}): this machine receives nothing there now")
        else:
            # else the machine itself sends there, for neighbour discovery
            self._undo.enter_context(_without_ipv6(name))
        return found

    def _make(self) -> None:
        """The VXLAN interfaces, each in its namespace."""
        under = self._underlay
        words = f"type vxlan id {{}} remote {under.switch} local {under.kernel} dstport {under.port} nolearning"
        places = {number: self._place(it) for number, it in self.ports.items()}
        names = {number: it.name if isinstance(it, Made) else self.tunnel(number) for number, it in self.ports.items()}
        numbers = list(self.ports)
        try:
            under.batch(f"link add {names[it]} netns {places[it]} {words.format(it)}" for it in numbers)
        except BatchError as fault:
            # those before it were made
            numbers = numbers[: fault.line]
            raise InterfaceError(f"{list(self.ports.values())[fault.line]} cannot be made: {fault}") from None
        finally:
            for place in dict.fromkeys(places.values()):
                self._undo.callback(_remove, place, [names[it] for it in numbers if places[it] == place])
        for place in dict.fromkeys(places.values()):
            self._begin(place, {number: names[number] for number in numbers if places[number] == place})

    def _place(self, it: Interface) -> str:
        """The path of the namespace of a port's VXLAN interface."""
        if isinstance(it, Made) and it.namespace is not None:
            return self._undo.enter_context(_named_namespace(it.namespace))
        return self._underlay.here

    def _begin(self, place: str, names: Mapping[int, str]) -> None:
        """Sets VXLAN interfaces of a namespace up."""
        with entered(place):
            lines = []
            for number, name in names.items():
                # the kernel computes checksums and cuts segments before a frame leaves in a datagram
                _without_offloads(name)
                mtu = ""
                if number in self.seen:
                    _set_ipv6(name, is_off="1")
                    mtu = f"mtu {self.seen[number].mtu} "
                lines.append(f"link set {name} {mtu}up")
            _batch("ip", lines)

    def _redirect(self) -> None:
        """Each interface that is taken, and its VXLAN interface, receive for each other."""
        if not self._taken:
            return
        for name in self._taken.values():
            try:
                _batch("tc", [f"qdisc add dev {name} clsact"])
            except InterfaceError as fault:
                raise InterfaceError(f"{name} may have filters of its own, which `tc qdisc delete dev {name} clsact` removes: {fault}") from None
            self._undo.callback(_batch, "tc", [f"qdisc delete dev {name} clsact"], is_checked=False)
        _batch("tc", (f"qdisc add dev {self.tunnel(it)} clsact" for it in self._taken))
        # those that were promiscuous before stay so
        quiet = [name for number, name in self._taken.items() if not self.seen[number].is_promiscuous]
        self._undo.callback(_batch, "ip", [f"link set {name} promisc off" for name in quiet], is_checked=False)
        _batch("ip", (f"link set {name} promisc on" for name in quiet))
        every = self._every_frame(next(iter(self._taken)))
        pairs = [(name, self.tunnel(number)) for number, name in self._taken.items()]
        _batch("tc", (_redirected(here, every, there) for one, other in pairs for here, there in ((one, other), (other, one))))

    def _every_frame(self, number: int) -> str:
        """A way to match every frame that the kernel has."""
        name = self.tunnel(number)
        for every in _EVERY_FRAME:
            with contextlib.suppress(InterfaceError):
                _batch("tc", [_redirected(name, every, name), f"filter delete dev {name} ingress"])
                return every
        raise InterfaceError("the kernel cannot redirect frames: it has none of the tc filters matchall, bpf and u32, or no mirred")


def _redirected(here: str, every: str, there: str) -> str:
    return f"filter add dev {here} ingress protocol all {every} action mirred egress redirect dev {there}"


def link_states(names: Mapping[str, int], stopped: int) -> Iterator[tuple[int, bool]]:
    """The ports of interfaces, with whether their links are up: now, and whenever one may have changed, until `stopped` can be read."""
    with socket.socket(socket.AF_NETLINK, socket.SOCK_RAW, socket.NETLINK_ROUTE) as links:
        links.bind((0, _LINKS_GROUP))
        # after this, no change is missed
        indexes = {it.index: names[name] for name, it in all_seen().items() if name in names}
        yield from _states(names)
        while True:
            ready, _, _ = select.select([links, stopped], [], [])
            if stopped in ready:
                return
            try:
                data = links.recv(1 << 16)
            except OSError:
                # messages were lost
                yield from _states(names)
                continue
            for index, is_up in _link_messages(data):
                if index in indexes:
                    yield indexes[index], is_up


def _states(names: Mapping[str, int]) -> Iterator[tuple[int, bool]]:
    found = all_seen()
    for name, number in names.items():
        yield number, name in found and found[name].is_up


def _link_messages(data: bytes) -> Iterator[tuple[int, bool]]:
    """The interfaces of netlink messages about links, by index, with whether they are up."""
    while len(data) >= 32:
        size, kind, _, _, _, _, _, index, flags, _ = struct.unpack("=IHHIIBxHiII", data[:32])
        if kind in (_NEW_LINK, _DELETED_LINK):
            yield index, kind == _NEW_LINK and flags & _IS_UP == _IS_UP
        data = data[max(16, size + 3 & ~3) :]


# ---- the system


def _free_addresses() -> tuple[int, str, str]:
    """A UDP port that nobody uses, and two addresses of a network (RFC 3927) that is not used here."""
    listed = json.loads(_run("ip", "-json", "address", "show") or "[]")
    used = {one.get("local") for it in listed for one in it.get("addr_info", [])}
    while True:
        with socket.socket(socket.AF_INET, socket.SOCK_DGRAM) as free:
            free.bind(("", 0))
            port = int(free.getsockname()[1])
        # a block of four addresses; the first and the last 256 are reserved, and 169.254.169 is of clouds
        block = 64 + port % 16_256
        first, second = (f"169.254.{block >> 6}.{(block & 63) * 4 + it}" for it in (1, 2))
        if block >> 6 != 169 and not used & {first, second}:
            return port, first, second


def _run(*command: str, is_checked: bool = True) -> str:
    """What a command prints."""
    try:
        done = subprocess.run(command, stdin=subprocess.DEVNULL, capture_output=True, text=True, timeout=_PATIENCE)
    except (OSError, subprocess.SubprocessError) as fault:
        raise InterfaceError(f"{' '.join(command)}: {fault}") from fault
    if is_checked and done.returncode:
        raise InterfaceError(f"{' '.join(command)}: {done.stderr.strip() or done.returncode}")
    return done.stdout + ("" if is_checked else done.stderr)


def _batch(tool: str, lines: Iterable[str], is_checked: bool = True) -> None:
    """Commands of `ip`, `bridge` or `tc`, in one process. The first that fails is an error, or all are tried."""
    listed = list(lines)
    if not listed:
        return
    command = [tool, *([] if is_checked else ["-force"]), "-batch", "-"]
    text = "".join(f"{it}\n" for it in listed)
    try:
        done = subprocess.run(command, input=text, capture_output=True, text=True, timeout=_PATIENCE)
    except (OSError, subprocess.SubprocessError) as fault:
        raise InterfaceError(f"{tool}: {fault}") from fault
    if is_checked and done.returncode:
        at = re.search(r"Command failed -:(\d+)", done.stderr)
        line = int(at[1]) - 1 if at else 0
        said = " ".join(done.stderr.split("Command failed")[0].split())
        raise BatchError(f"{tool} {listed[line]}: {said}", line)


@contextlib.contextmanager
def _kept_namespace(path: str) -> Iterator[str]:
    """Another path of a network namespace, which stays while this is open."""
    file = os.open(path, os.O_RDONLY)
    try:
        yield f"/proc/{os.getpid()}/fd/{file}"
    finally:
        os.close(file)


@contextlib.contextmanager
def _named_namespace(word: str) -> Iterator[str]:
    """A path of the network namespace that has a name, or that a process is in."""
    path = f"/proc/{word}/ns/net" if word.isdigit() else f"/run/netns/{word}"
    if not os.path.exists(path):
        raise InterfaceError(f"there is no network namespace {word}")
    with _kept_namespace(path) as kept:
        yield kept


@contextlib.contextmanager
def _new_namespace() -> Iterator[str]:
    """A path of a new network namespace."""
    with _kept_namespace("/proc/thread-self/ns/net") as before:
        _called(_LIBC.unshare(_NEW_NETWORK))
        try:
            kept = _kept_namespace("/proc/thread-self/ns/net")
            place = kept.__enter__()
        finally:
            _set_namespace(before)
    try:
        yield place
    finally:
        kept.__exit__(None, None, None)


@contextlib.contextmanager
def entered(place: str) -> Iterator[None]:
    """This thread, and the processes that it starts, are in a network namespace."""
    with _kept_namespace("/proc/thread-self/ns/net") as before:
        _set_namespace(place)
        try:
            yield
        finally:
            _set_namespace(before)


def _set_namespace(place: str) -> None:
    with open(place, "rb") as file:
        _called(_LIBC.setns(file.fileno(), _NEW_NETWORK))


def _called(result: int) -> None:
    if result:
        raise InterfaceError(f"network namespaces: {os.strerror(ctypes.get_errno())}")


def _set_ipv6(name: str, is_off: str) -> str | None:
    """Turns IPv6 off or on at an interface, and returns how it was; None if the kernel has no IPv6."""
    path = f"/proc/sys/net/ipv6/conf/{name}/disable_ipv6"
    try:
        with open(path, "r+", encoding="ascii") as file:
            before = file.read().strip()
            file.seek(0)
            file.write(is_off)
        return before
    except FileNotFoundError:
        return None


@contextlib.contextmanager
def _without_ipv6(name: str) -> Iterator[None]:
    before = _set_ipv6(name, "1")
    try:
        yield
    finally:
        if before is not None:
            _set_ipv6(name, before)


def _without_offloads(name: str) -> None:
    """As `ethtool -K NAME tx off tso off gso off`."""
    with socket.socket(socket.AF_INET, socket.SOCK_DGRAM) as any_socket:
        for command in _OFFLOADS:
            value = ctypes.create_string_buffer(struct.pack("II", command, 0))
            with contextlib.suppress(OSError):
                fcntl.ioctl(any_socket, _ETHTOOL, struct.pack("16sP16x", name.encode(), ctypes.addressof(value)))


def _bound(switch_port: int) -> Iterator[str]:
    """The inodes of the UDP sockets at a port."""
    with open("/proc/net/udp", encoding="ascii") as file:
        for line in file.readlines()[1:]:
            words = line.split()
            if int(words[1].rpartition(":")[2], 16) == switch_port:
                yield words[9]


def widen(pid: int, switch_port: int, size: int) -> bool:
    """Gives the UDP socket of a process at this port a receive buffer of this many bytes, also above the system's limit, if it may."""
    inodes = {f"socket:[{it}]" for it in _bound(switch_port)}
    with contextlib.suppress(OSError), contextlib.ExitStack() as stack:
        process = os.pidfd_open(pid)
        stack.callback(os.close, process)
        for number in os.listdir(f"/proc/{pid}/fd"):
            if os.readlink(f"/proc/{pid}/fd/{number}") in inodes:
                file = _LIBC.syscall(_PIDFD_GETFD, process, int(number), 0)
                if file >= 0:
                    with socket.socket(fileno=file) as one:
                        one.setsockopt(socket.SOL_SOCKET, _RCVBUFFORCE, size)
                    return True
    return False


def wait_until_bound(switch_port: int, process: subprocess.Popen[Any], seconds: float) -> bool:
    """Waits until the process receives datagrams at this port. False if it ended before."""
    end = time.monotonic() + seconds
    while not any(_bound(switch_port)):
        if process.poll() is not None:
            return False
        if time.monotonic() > end:
            raise InterfaceError(f"the switch did not begin within {seconds:g} s")
        time.sleep(0.005)
    return True
