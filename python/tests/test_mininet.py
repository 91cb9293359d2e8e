"""The switch of Mininet, with classes in place of those of Mininet. tools/try-mininet tries it with Mininet itself."""

import importlib
import subprocess
import sys
import types

import pytest
from ofswitch import live
from ofswitch.interfaces import Taken


class MininetSwitch:
    """What the switch needs from its base class."""

    inNamespace, listenPort, intfs = False, 6654, {0: "lo", 1: "s1-eth1", 2: "s1-eth2"}

    def __init__(self, name, dpid, **params):
        self.name, self.dpid = name, dpid

    def stop(self, deleteIntfs=True):
        pass


class Live:
    """In place of the program: it ends when the test says so."""

    def __init__(self, ports, words, program, output):
        self.ports, self.words, self.output, self.process = ports, words, output, subprocess.Popen(["sleep", "60"])

    def say(self, text):
        self.output.write(text.encode())
        self.output.flush()

    def poll(self):
        return self.process.poll()

    def wait(self):
        return self.process.wait()

    def close(self):
        self.process.kill()
        self.process.wait()


@pytest.fixture
def made(monkeypatch, tmp_path):
    """Makes a switch of a datapath_id, and starts it; `made.warned` has what Mininet would print."""
    warned = []
    modules = {
        "mininet": types.ModuleType("mininet"),
        "mininet.log": types.SimpleNamespace(error=warned.append, warn=warned.append),
        "mininet.node": types.SimpleNamespace(Switch=MininetSwitch),
    }
    for name, module in modules.items():
        monkeypatch.setitem(sys.modules, name, module)
    monkeypatch.delitem(sys.modules, "ofswitch.mininet", raising=False)
    module = importlib.import_module("ofswitch.mininet")
    monkeypatch.setattr(module, "LiveSwitch", Live)
    program = tmp_path / "ofswitch"
    # it answers `live --help`, and prints its words else
    program.write_text("#!/bin/sh\n[ \"$2\" = --help ] && echo --peer --rows || echo \"$@\"\n")
    program.chmod(0o755)
    switches = []

    def make(dpid, controllers=None, **options):
        switch = module.OFSwitch("s1", program=str(program), dpid=dpid, **options)
        switch.start(controllers)
        switches.append(switch)
        return switch

    make.warned = warned
    yield make
    for it in switches:
        it.stop()
    live.takes_rows.cache_clear()
    sys.modules.pop("ofswitch.mininet", None)


@pytest.mark.parametrize("dpid, number", [("0000000000000001", 1), ("0000000000000010", 16), ("00000000000000ff", 255), ("1a", 26)])
def test_a_datapath_id_is_hexadecimal(made, dpid, number, tmp_path):
    switch = made(dpid, log=str(tmp_path))
    assert switch.live.words[:2] == ["--dpid", str(number)]
    # and the events are explained as of that switch
    log = f"{tmp_path}/s1.events"
    assert switch.dpctl("explain") == f"replay --explain --dpid {number} {log}\n"
    assert switch.dpctl("dump-flows") == f"dis {log}\n" and switch.dpctl("check") == f"check {log}\n"


def test_ports_and_controllers(made):
    """A switch calls its first controller, and waits for one without any; lo is no port."""
    switch = made("1")
    assert switch.live.ports == {1: Taken("s1-eth1"), 2: Taken("s1-eth2")}
    assert switch.live.words[2:] == ["--listen", "127.0.0.1:6654"]
    controllers = [types.SimpleNamespace(name=f"c{it}", port=7000 + it, IP=lambda: "10.0.0.9") for it in (1, 2)]
    assert made("2", controllers).live.words[2:] == ["--connect", "10.0.0.9:7001"]
    assert made.warned == ["s1: ofswitch has one controller, c1\n"]


def test_what_dpctl_answers(made, tmp_path):
    """With the version, too, as dpctl of Open vSwitch needs it."""
    switch, log = made("1", log=str(tmp_path)), f"{tmp_path}/s1.events"
    assert switch.dpctl("dump-flows", "-O", "OpenFlow13") == f"dis {log}\n"
    assert switch.dpctl("trace", "in_port=1,icmp") == f"trace {log} in_port=1,icmp\n"
    for words in ((), ("show",), ("check", "more"), ("trace",), ("trace", "one", "two")):
        assert switch.dpctl(*words) == "ofswitch answers dump-flows, check, explain, trace FRAME\n"
    assert made("2").dpctl("dump-flows") == "this switch has no log to answer from: give it log=FOLDER\n"


def test_whether_a_controller_is_connected(made):
    switch = made("1")
    for said, wanted in [("", False), ("connection with 127.0.0.1:1\n", True), ("connection ended: by the controller\n", False), ("connection with 127.0.0.1:2\n", True)]:
        switch.live.say(said)
        assert switch.connected() == wanted


def test_a_program_that_ends(made, tmp_path):
    """Nothing is connected then, and it says why: for a person who looks, and at once."""
    switch = made("1", log=str(tmp_path))
    switch.live.say("connection with 127.0.0.1:1\nwrite fault\n")
    assert switch.connected() and switch.ended() is None
    ended = switch.live
    ended.close()
    why = "s1: ofswitch ended with status -9: write fault"
    assert not switch.connected() and switch.ended() == why
    assert switch.dpctl("dump-flows") == f"{why}\ndis {tmp_path}/s1.events\n"
    for _ in range(100):
        if made.warned:
            break
        subprocess.run(["sleep", "0.05"], check=True)
    assert made.warned == [f"{why}\n"]


def test_a_switch_that_mininet_stops(made):
    switch = made("1")
    switch.stop()
    subprocess.run(["sleep", "0.2"], check=True)
    assert made.warned == [] and switch.ended() is None
