"""Interfaces as ports of a live switch: what needs no root. tools/try-mininet tries the rest."""

import contextlib
import struct
import subprocess
import sys
from types import SimpleNamespace

import pytest
from ofswitch import interfaces, live
from ofswitch.interfaces import InterfaceError, Made, Seen, Taken

COMMAND = [sys.executable, "-m", "ofswitch"]


@pytest.mark.parametrize(
    "word, port, interface",
    [
        ("1=veth0", 1, Taken("veth0")),
        ("16777215=s1-eth1", 16_777_215, Taken("s1-eth1")),
        ("2=eth0.5", 2, Taken("eth0.5")),
        ("3=a=b", 3, Taken("a=b")),
        ("4=tap:eth0", 4, Made("eth0")),
        ("5=tap:h2/eth0", 5, Made("eth0", "h2")),
        ("6=tap:1234/eth0", 6, Made("eth0", "1234")),
    ],
)
def test_a_port_and_its_interface(word, port, interface):
    assert interfaces.port_interface(word) == (port, interface)
    assert f"{port}={interface}" == word


@pytest.mark.parametrize(
    "word",
    ["", "1", "1=", "=eth0", "0=eth0", "-1=eth0", "16777216=eth0", "one=eth0", "\u0661=eth0", "1=..", "1=a name", "1=sixteen-letters-", "1=veth:0",
     "1=tap:", "1=tap:/eth0", "1=tap:a/b/eth0", "1=tap:h1/", "1=net/eth0", '1=a"b', "1=a\x07b"],
)
def test_what_is_not_a_port_and_its_interface(word):
    with pytest.raises(ValueError):
        interfaces.port_interface(word)


LISTED = """[
 {"ifindex": 1, "ifname": "lo", "flags": ["LOOPBACK", "UP", "LOWER_UP"], "mtu": 65536, "operstate": "UNKNOWN", "address": "00:00:00:00:00:00",
  "addr_info": [{"family": "inet", "local": "127.0.0.1", "prefixlen": 8, "scope": "host"}]},
 {"ifindex": 7, "link": "eth0", "ifname": "s1-eth1", "flags": ["BROADCAST", "MULTICAST", "UP", "LOWER_UP"], "mtu": 1450, "master": "br0",
  "address": "5e:15:ad:3d:9a:2f", "addr_info": [{"family": "inet6", "local": "fe80::1", "prefixlen": 64, "scope": "link"}]},
 {"ifindex": 8, "ifname": "s1-eth2", "flags": ["NO-CARRIER", "BROADCAST", "MULTICAST", "UP"], "mtu": 1500, "address": "02:00:00:00:00:02",
  "addr_info": [{"family": "inet", "local": "10.0.0.1", "prefixlen": 24, "scope": "global"}]}
]"""


def test_what_the_system_reports(monkeypatch):
    monkeypatch.setattr(interfaces, "_run", lambda *command: LISTED)
    assert interfaces.seen("s1-eth1") == Seen(7, "5e:15:ad:3d:9a:2f", 1450, True, "br0", ())
    assert interfaces.seen("s1-eth2") == Seen(8, "02:00:00:00:00:02", 1500, False, None, ("10.0.0.1/24",))
    with pytest.raises(InterfaceError, match="there is no interface s1-eth3"):
        interfaces.seen("s1-eth3")


class Here:
    """An underlay of which nothing is made: `faults` are the numbers of commands that fail."""

    here, port, switch, kernel = "/proc/self/ns/net", 4789, "169.254.1.1", "169.254.1.2"

    def __init__(self, fault=None):
        self.fault = fault

    def batch(self, lines):
        for number, _ in enumerate(lines):
            if number == self.fault:
                raise interfaces.BatchError("File exists", number)


@pytest.fixture
def system(monkeypatch):
    """The commands that would be run, in order, instead of running them; a class of this machine that has these interfaces."""
    done = []

    @contextlib.contextmanager
    def entered(place):
        yield

    def set_ipv6(name, is_off):
        done.append(f"ipv6 {name} {is_off}")
        # it was on before
        return "0"

    monkeypatch.setattr(interfaces, "_batch", lambda tool, lines, is_checked=True: done.extend(f"{tool} {it}" for it in lines))
    monkeypatch.setattr(interfaces, "_set_ipv6", set_ipv6)
    monkeypatch.setattr(interfaces, "_without_offloads", lambda name: None)
    monkeypatch.setattr(interfaces, "entered", entered)
    monkeypatch.setattr(interfaces, "all_seen", lambda: {"veth1": Seen(7, "02:00:00:00:00:01", 1500, True, None, ()), "veth2": Seen(8, "02:00:00:00:00:02", 1500, True, None, (), True)})
    return done


def test_only_what_was_made_is_removed(system):
    """An interface of the name of the second one is there already: it is of somebody else, and so may be one of the third."""
    with pytest.raises(InterfaceError, match="tap:b cannot be made"):
        interfaces.Joined({1: Made("a"), 2: Made("b"), 3: Made("c")}, Here(fault=1))
    assert [it for it in system if "delete" in it] == ["ip link delete a"]


def test_interfaces_are_left_as_they_were(system):
    """IPv6, which was on, is on again; one that was not promiscuous is not, and the other one still is."""
    joined = interfaces.Joined({1: Taken("veth1"), 2: Taken("veth2")}, Here())
    assert "ipv6 veth1 1" in system and "ip link set veth1 promisc on" in system
    assert not any("promisc off" in it for it in system)
    made = len(system)
    joined.close()
    assert {"ipv6 veth1 0", "ipv6 veth2 0", "ip link set veth1 promisc off", "tc qdisc delete dev veth1 clsact", "tc qdisc delete dev veth2 clsact"} <= {*system[made:]}
    assert not any("veth2 promisc" in it for it in system)


def test_frames_go_both_ways(system):
    """What an interface receives is sent by the other one (tc-mirred(8): egress), and the other way round."""
    with contextlib.closing(interfaces.Joined({1: Taken("veth1"), 2: Made("h2-eth0")}, Here())):
        lines = [it for it in system if "filter add" in it and "veth1" in it]
    every = "ingress protocol all matchall action mirred egress redirect dev"
    assert lines == [f"tc filter add dev veth1 {every} v4789-1", f"tc filter add dev v4789-1 {every} veth1"]


def test_a_link_that_comes_up_again(monkeypatch):
    """Each change of an interface is one of its port, and what is as before is none."""
    monkeypatch.setattr(interfaces, "link_states", lambda names, stopped: iter([(1, True), (1, False), (1, False), (1, True), (1, False)]))
    switch, played = live.LiveSwitch.__new__(live.LiveSwitch), []
    switch.ports, switch.takes_rows, switch._undo = {1: Taken("veth1")}, True, contextlib.ExitStack()
    switch.joined = SimpleNamespace(seen={1: Seen(7, "02:00:00:00:00:01", 1500, True, None, ())})
    monkeypatch.setattr(live.LiveSwitch, "play", lambda self, row: played.append(row))
    switch._watch()
    # it waits for the thread
    switch.close()
    assert played == ["port link 1 down", "port link 1 up", "port link 1 down"]


def link_message(kind, index, flags, more=b""):
    body = struct.pack("=BxHiII", 0, 1, index, flags, 0) + more
    return struct.pack("=IHHII", 16 + len(body), kind, 0, 0, 0) + body + bytes(-len(body) % 4)


def test_messages_about_links():
    up, carrier = 0x1, 0x10000
    data = link_message(16, 7, up | carrier, b"xyz") + link_message(16, 8, up) + link_message(24, 9, up) + link_message(17, 7, up | carrier)
    assert list(interfaces._link_messages(data)) == [(7, True), (8, False), (7, False)]
    assert list(interfaces._link_messages(data[:20])) == []


def test_addresses_of_an_underlay(monkeypatch):
    monkeypatch.setattr(interfaces, "_run", lambda *command: "[]")
    port, switch, kernel = interfaces._free_addresses()
    assert 1024 <= port < 65_536
    assert switch.startswith("169.254.") and kernel.startswith("169.254.")
    assert int(kernel.rpartition(".")[2]) == int(switch.rpartition(".")[2]) + 1


def test_without_root(monkeypatch):
    monkeypatch.setattr(interfaces.os, "geteuid", lambda: 1000)
    with pytest.raises(InterfaceError, match="need root"):
        interfaces.require_system()


def program(folder, text):
    path = folder / "ofswitch"
    path.write_text(f"#!/bin/sh\n{text}\n")
    path.chmod(0o755)
    return str(path)


def test_whether_a_program_takes_rows(tmp_path):
    for name, text, wanted in (("a", "echo --peer --rows", True), ("b", "echo --peer", False)):
        (tmp_path / name).mkdir()
        assert live.takes_rows(program(tmp_path / name, text)) == wanted
    (tmp_path / "c").mkdir()
    with pytest.raises(live.ProgramError, match="no subcommand live"):
        live.takes_rows(program(tmp_path / "c", "echo replay"))


@pytest.mark.parametrize(
    "words, status, said",
    [
        ([], 1, "--port"),
        (["--port", "1"], 1, "a port is N=INTERFACE"),
        (["--port", "1=veth0", "--port", "1=veth1"], 1, "a port has one interface"),
        (["--port", "1=veth0", "--vxlan", "10.0.0.1"], 1, "--vxlan"),
        (["--port", "1=veth0", "--listen", "127.0.0.1:1", "--connect", "127.0.0.1:1"], 1, "not allowed"),
        (["--port", "1=veth0", "--program", "/nowhere/ofswitch"], 3, "no program /nowhere/ofswitch"),
    ],
)
def test_the_command(words, status, said):
    done = subprocess.run([*COMMAND, "live", *words], capture_output=True, text=True, timeout=60)
    assert done.returncode == status
    assert said in done.stderr


def test_the_file_for_mininet():
    done = subprocess.run([*COMMAND, "mininet"], capture_output=True, text=True, timeout=60, check=True)
    with open(done.stdout.strip(), encoding="utf-8") as file:
        assert 'switches = {"ofswitch": OFSwitch}' in file.read()
