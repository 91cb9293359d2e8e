"""Schedules of networks and controllers, and what they find."""

import pathlib
import random
import re
import shutil
import socket
import sys
import threading
import time

import messages
import pytest
from ofswitch import MessageType, ProgramError, Switch
from ofswitch.applications import RemoteApplication, application_of, load
from ofswitch.exploring import Found, explore
from ofswitch.laboratory import Fault, all_reach, no_error, no_loop

pytest_plugins = ["pytester"]

EXAMPLES = pathlib.Path(__file__).resolve().parents[2] / "examples"
ONE = {"switches": {"s1": 4}, "hosts": {"a": ("s1", 1), "b": ("s1", 2)}, "moves": [("s1", 3), ("s1", 4)]}
TWO = {"switches": {"s1": 4, "s2": 4}, "links": [("s1", 4, "s2", 4)], "hosts": {"a": ("s1", 1), "b": ("s2", 1)}, "moves": [("s1", 2), ("s2", 2)]}
RING = {
    "switches": {"s1": 3, "s2": 3, "s3": 3},
    "links": [("s1", 2, "s2", 3), ("s2", 2, "s3", 3), ("s3", 2, "s1", 3)],
    "hosts": {"a": ("s1", 1), "b": ("s2", 1)},
}
# b speaks, moves and is called: the switch still sends to its old port
MOVED = [("send", "b", "a"), ("send", "a", "b"), ("rest",), ("move", "b", "s1", 4)]


def plain(name):
    return load(EXAMPLES / "plain_learning.py", name)


def found(**words):
    with pytest.raises(Found) as caught:
        explore(**{"seconds": 120, **words})
    return caught.value


def os_ken(file, name="Learning"):
    pytest.importorskip("os_ken")
    return load(EXAMPLES / file, name)


def answers_come(lab):
    """a, inside, reaches b. b reaches a, unless it sent a frame to a before it got one from a."""
    assert lab.arrivals("a", "b") == 1
    first = next(it.word for it in lab.events if it.host == "b" and it.frame[:6] in lab.addresses.values())
    assert first == "sent" or lab.arrivals("b", "a") == 1


def test_a_host_that_moves():
    fault = found(application=plain("Forgetful"), **ONE)
    assert fault.fault.kind == "black hole" and len(fault.schedule) <= 6
    assert {it[0] for it in fault.schedule} >= {"send", "move"}
    # the written schedule runs again, and none of its actions can be left out
    assert found(application=plain("Forgetful"), **ONE, schedule=fault.schedule).fault.kind == "black hole"
    for at in range(len(fault.schedule)):
        assert explore(application=plain("Forgetful"), **ONE, schedule=fault.schedule[:at] + fault.schedule[at + 1 :]) == 1
    assert "move" in fault.story and "FLOW_MOD, command ADD" in fault.story and "-> PACKET_IN" in fault.story


def test_the_same_seed_gives_the_same_schedules():
    first, second = (found(application=plain("Forgetful"), **ONE, seed=7) for _ in range(2))
    assert first.schedule == second.schedule and first.story == second.story and str(first) == str(second)


def test_a_learning_switch_that_deletes():
    assert explore(application=plain("Learning"), **ONE, most=20, seconds=300) == 20
    assert explore(application=plain("Learning"), **ONE, schedule=MOVED) == 1
    assert found(application=plain("Forgetful"), **ONE, schedule=MOVED).fault.kind == "black hole"


@pytest.mark.parametrize("topology", [ONE, TWO])
def test_the_examples_for_os_ken(topology):
    fault = found(application=os_ken("learning_faulty.py"), **topology)
    assert fault.fault.kind == "black hole" and len(fault.schedule) <= 6
    assert explore(application=os_ken("learning.py"), **topology, schedule=fault.schedule) == 1
    assert explore(application=os_ken("learning.py"), **topology, most=10, seconds=300) == 10


def test_the_learning_switch_of_os_ken(tmp_path):
    """The one of os-ken's tutorial (simple_switch_13), as python/tests/test_network.py has it."""
    pytest.importorskip("os_ken")
    from test_network import LEARNING

    (tmp_path / "tutorial.py").write_text(LEARNING)
    [name] = re.findall(r"^class (\w+)", LEARNING, re.M)
    fault = found(application=load(tmp_path / "tutorial.py", name), **ONE)
    assert fault.fault.kind == "black hole" and len(fault.schedule) <= 6


def test_a_firewall_with_a_race(tmp_path):
    words = {"switches": {"s1": 2}, "hosts": {"a": ("s1", 1), "b": ("s1", 2)}, "at_rest": [answers_come], "without": {"lost", "time"}}
    fault = found(application=os_ken("racing_firewall.py", "Firewall"), **words)
    assert fault.fault.kind == "answers_come" and len(fault.schedule) <= 6
    # the answer comes after the PACKET_OUT, and before the flow that lets it pass
    race = [("send", "a", "b"), ("controller", "s1"), ("deliver", "s1"), ("send", "b", "a")]
    assert found(application=os_ken("racing_firewall.py", "Firewall"), **words, schedule=race).fault.kind == "answers_come"
    assert explore(application=os_ken("racing_firewall.py", "Firewall"), **words, schedule=[race[0], ("rest",), race[3]]) == 1
    # with the flows first it is right
    *lines, last = (EXAMPLES / "racing_firewall.py").read_text().splitlines(keepends=True)
    [first] = [it for it in lines if it.startswith("        path.send_msg(parser.OFPPacketOut(")]
    (tmp_path / "firewall.py").write_text("".join([it for it in lines if it != first] + [last, first]))
    assert explore(application=load(tmp_path / "firewall.py", "Firewall"), **words, schedule=race) == 1
    assert explore(application=load(tmp_path / "firewall.py", "Firewall"), **words, most=30, seconds=300) == 30


def test_a_loop():
    assert found(application=plain("Learning"), **RING).fault.kind in ("loop", "not quiet")
    assert found(application=plain("Learning"), **RING, always=[]).fault.kind == "not quiet"


class Wrong:
    """It sends a message that no switch accepts, or fails."""

    def __init__(self, data=bytes.fromhex("0400000800000001040e000800000002")):
        self.data = data

    def connected(self, dpid, send):
        send(self.data[:8])
        send(self.data[8:])

    def message(self, dpid, data):
        if len(self.data) == 8:
            raise KeyError(5)

    def lost(self, dpid):
        pass


def test_an_error_and_an_exception():
    fault = found(application=Wrong, **ONE)
    assert fault.fault.kind == "ERROR" and fault.schedule == [] and "OFPBRC_BAD_LEN" in str(fault)
    assert found(application=lambda: Wrong(Wrong().data[:8]), **ONE).fault.kind == "the application raised KeyError"


def test_a_controller_is_closed():
    closed = []

    class Closing(Wrong):
        def close(self):
            closed.append(self)

    found(application=Closing, **ONE, schedule=[])
    assert len(closed) == 1
    with pytest.raises(ProgramError):
        explore(application=Closing, **ONE, new_switch=lambda **options: Switch("/nowhere/ofswitch", **options))
    assert len(closed) == 2


def test_links_and_times():
    seen = []
    steps = [("cut", "s1", 4), ("send", "a", "b"), ("rest",), ("mend", "s1", 4), ("time",), ("lost", "s2"), ("connect", "s2"), ("wire", "s2", 4)]
    explore(application=plain("Learning"), **TWO, schedule=steps, at_rest=[all_reach, seen.append])
    [lab] = seen
    rows = [it.row for it in lab.story if hasattr(it, "row") and it.switch == "s2"]
    assert [it for it in rows if it.startswith(("port link", "t ", "lost"))] == ["port link 4 down", "port link 4 up", "t 5000000000", "lost"]
    assert rows.count("connect") == 2


def test_what_is_not_deterministic():
    class Chance(type(plain("Forgetful")())):
        def moved(self, send, address):
            # an ECHO_REQUEST with other data each time
            send(bytes.fromhex("0402000c00000001") + random.randbytes(4))

    fault = found(application=Chance, **ONE, always=[no_loop])
    assert "not deterministic" in str(fault) and len(fault.schedule) == 30


def test_xids_are_not_compared():
    """A controller in its own process has other xids each time: os-ken begins with a random one."""

    class Chance(type(plain("Forgetful")())):
        def connected(self, dpid, send):
            super().connected(dpid, lambda data: send(data[:4] + random.randbytes(4) + data[8:]))

    fault = found(application=Chance, **ONE)
    assert fault.fault.kind == "black hole" and len(fault.schedule) <= 6


@pytest.mark.parametrize(
    "changed, said",
    [
        ({"hosts": {"a": ("s1", 1), "b": ("s1", 5)}}, "there is no port 5 of s1"),
        ({"hosts": {"a": ("s2", 1)}}, "there is no port 1 of s2"),
        ({"moves": [("s1", 1)]}, "port 1 of s1 has 2 ends"),
        ({"links": [("s1", 0, "s1", 3)], "moves": []}, "there is no port 0 of s1"),
        ({"links": [("s1", 3, "s1", 3)], "moves": []}, "port 3 of s1 has 2 ends"),
    ],
)
def test_places_that_cannot_be(changed, said):
    with pytest.raises(ValueError, match=said):
        explore(application=plain("Learning"), **{**ONE, **changed})


def test_a_network_of_many_switches():
    """The start alone takes more than 400 deliveries."""
    switches = {f"s{it}": 1 for it in range(110)}
    hosts = {"a": ("s0", 1)}
    assert explore(application=plain("Learning"), switches=switches, hosts=hosts, schedule=[], at_rest=[]) == 1


def test_a_controller_that_ends_and_one_that_is_not_there():
    ended = lambda: RemoteApplication([sys.executable, "-c", "import sys; sys.exit(7)"])
    assert "the controller ended with status 7" in str(found(application=ended, **ONE, schedule=[]).fault)
    absent = lambda: RemoteApplication(address=("127.0.0.1", 1), timeout=0.2)
    assert "no controller listens at 127.0.0.1:1" in str(found(application=absent, **ONE, schedule=[]).fault)


def test_conditions_of_a_test():
    def one_frame(lab):
        assert [it.word for it in lab.events].count("sent") < 2, "two frames"

    fault = found(application=plain("Learning"), **ONE, always=[one_frame], at_rest=[])
    assert fault.fault.kind == "one_frame" and isinstance(fault.fault, Fault) and len(fault.schedule) == 2
    assert explore(application=plain("Learning"), **ONE, schedule=[], at_rest=[], always=[no_error]) == 1


class Sending:
    """A controller that sends something at the beginning of each connection, and something else at the third PACKET_IN."""

    def __init__(self, first=b"", at_third=b""):
        self.first, self.at_third, self.seen, self.losses = first, at_third, 0, 0

    def connected(self, dpid, send):
        self.send = send
        send(messages.HELLO)
        send(self.first)

    def message(self, dpid, data):
        self.seen += data[1] == MessageType.PACKET_IN
        if self.seen == 3 and data[1] == MessageType.PACKET_IN:
            self.send(self.at_third)

    def lost(self, dpid):
        self.losses += 1
        self.first = b""


FLOOD = messages.output(0xFFFFFFFB)


def test_each_frame_arrives_once():
    """Two copies are a fault; that the first of three frames is lost is none (docs/EXPLORE.md)."""
    assert found(application=lambda: Sending(messages.flow(FLOOD, FLOOD)), **ONE, schedule=[]).fault.kind == "copies"
    # the broadcasts of both hosts, and the first frame from one to the other, end at the controller
    learns = lambda: Sending(messages.flow(messages.output(messages.CONTROLLER), priority=0), messages.flow(FLOOD))
    assert explore(application=learns, **ONE, schedule=[]) == 1


def test_hosts_receive_frames_for_them():
    def no_others(lab):
        assert all(it.frame[:6] in (lab.addresses[it.host], b"\xff" * 6) for it in lab.events if it.word == "received")

    hosts = {"a": ("s1", 1), "b": ("s1", 2), "c": ("s1", 3)}
    assert explore(application=lambda: Sending(messages.flow(FLOOD)), switches={"s1": 3}, hosts=hosts, at_rest=[all_reach, no_others], schedule=[]) == 1


def test_the_controller_hears_that_the_switch_ended_the_connection():
    """After a message whose length is that of no message. At the end there is another connection."""
    application = Sending(bytes.fromhex("0405000700000008"))
    assert explore(application=lambda: application, **ONE, schedule=[], always=[], at_rest=[]) == 1
    assert application.losses == 1


def test_actions_that_are_left_out():
    def nobody_moves(lab):
        assert all(it[0] not in ("move", "cut") for it in lab.story)

    assert explore(application=Sending, **TWO, most=10, seconds=300, always=[nobody_moves], at_rest=[], without={"move", "cut"}) == 10


def test_a_message_of_a_remote_controller_in_two_parts():
    heard = []

    def talk(listener):
        stream, _ = listener.accept()
        with stream:
            for part in (messages.HELLO[:5], messages.HELLO[5:]):
                stream.sendall(part)
                time.sleep(0.1)
            is_heard.wait(60)

    is_heard = threading.Event()
    with socket.create_server(("127.0.0.1", 0)) as listener:
        threading.Thread(target=talk, args=[listener]).start()
        remote = RemoteApplication(address=listener.getsockname(), quiet=1.0)
        remote.connected(1, heard.append)
        is_heard.set()
        remote.close()
    assert heard == [messages.HELLO]


def test_a_datapath_of_os_ken_that_is_lost():
    """What the application still sends by it is for nobody, as in os-ken itself."""
    application, sent = application_of(os_ken("learning.py")), []
    application.connected(1, sent.append)
    path = application._paths[1]
    application.lost(1)
    path.send_msg(path.ofproto_parser.OFPHello(path))
    assert len(sent) == 1


def test_the_fixture(pytester, pytestconfig):
    plugin = [] if pytestconfig.pluginmanager.has_plugin("ofswitch") else ["-p", "ofswitch.pytest_plugin"]
    pytester.makepyfile(
        f"""
        from ofswitch.applications import load

        Forgetful = load({str(EXAMPLES / 'plain_learning.py')!r}, "Forgetful")

        def test_it(explore):
            explore(application=Forgetful, switches={{"s1": 4}}, hosts={{"a": ("s1", 1), "b": ("s1", 2)}}, moves=[("s1", 3)])
        """
    )
    result = pytester.runpytest("-p", "no:cacheprovider", *plugin, "--ofswitch-seconds", "120", "--ofswitch-seed", "7")
    result.assert_outcomes(failed=1)
    result.stdout.fnmatch_lines(["*black hole: *", "*seed 7, schedule *", "*test_found.py", "*story.txt", "*replay --explain */switch-s1.events"])
    [path] = [it for it in result.outlines if it.endswith("/test_found.py")]
    written = pathlib.Path(path).read_text()
    pytester.makepyfile(test_found=written)
    again = pytester.runpytest("-p", "no:cacheprovider", *plugin, "test_found.py")
    again.assert_outcomes(failed=1)
    again.stdout.fnmatch_lines(["*black hole: *"])
    # and leaves the same test again
    [path] = [it for it in again.outlines if it.endswith("/test_found.py")]
    assert pathlib.Path(path).read_text() == written
    # with the mended switch it passes
    pytester.makepyfile(test_found=written.replace("'Forgetful'", "'Learning'"))
    pytester.runpytest("-p", "no:cacheprovider", *plugin, "test_found.py").assert_outcomes(passed=1)


def test_a_controller_in_its_own_process():
    pytest.importorskip("os_ken")
    manager = shutil.which("osken-manager")
    if manager is None:
        pytest.skip("there is no osken-manager")
    words = [manager, "--ofp-listen-host", "127.0.0.1", "--ofp-tcp-listen-port", "{port}"]
    for file, is_wrong in (("learning_faulty.py", True), ("learning.py", False)):
        call = {"application": lambda: RemoteApplication([*words, str(EXAMPLES / file)]), **ONE, "schedule": MOVED}
        assert (found(**call).fault.kind == "black hole") if is_wrong else explore(**call) == 1
