"""The program behind a switch: how it is found, how it ends, and what is left of it."""

import gc
import multiprocessing
import os
import pathlib
import signal
import subprocess
import sys
import sysconfig
import textwrap
import threading
import time

import messages
import pytest
from ofswitch import Answer, ProgramError, Refused, Sent, Switch
from ofswitch.program import find

FRAME = bytes.fromhex("020000000002020000000001") + bytes.fromhex("88b5") + bytes(46)


def is_there(pid):
    """Whether this process runs; one that has ended and was not waited for is not there."""
    try:
        state = pathlib.Path(f"/proc/{pid}/stat").read_text().rpartition(")")[2].split()[0]
    except FileNotFoundError:
        return False
    return state != "Z"


def is_gone(pid, seconds=10):
    end = time.monotonic() + seconds
    while is_there(pid) and time.monotonic() < end:
        time.sleep(0.01)
    return not is_there(pid)


def children():
    """The processes that this one started, ended or not."""
    path = pathlib.Path(f"/proc/self/task/{threading.get_native_id()}/children")
    return path.read_text().split()


def script(folder, text):
    """A program in place of ofswitch."""
    path = folder / "program"
    path.write_text(f"#!{sys.executable}\n{textwrap.dedent(text)}")
    path.chmod(0o755)
    return path


def test_a_missing_program(monkeypatch, tmp_path):
    with pytest.raises(ProgramError, match="no program"):
        Switch(tmp_path / "ofswitch")
    monkeypatch.setenv("OFSWITCH", "/nowhere/ofswitch")
    with pytest.raises(ProgramError, match="/nowhere/ofswitch"):
        Switch()
    monkeypatch.delenv("OFSWITCH")
    monkeypatch.setenv("PATH", str(tmp_path))
    monkeypatch.setattr(sysconfig, "get_path", lambda name: str(tmp_path))
    with pytest.raises(ProgramError, match="PATH"):
        Switch()


def test_the_program_of_an_environment_that_is_not_activated(monkeypatch, tmp_path):
    made = script(tmp_path, "").rename(tmp_path / "ofswitch")
    monkeypatch.delenv("OFSWITCH", raising=False)
    monkeypatch.setenv("PATH", "/nowhere")
    monkeypatch.setattr(sysconfig, "get_path", lambda name: {"scripts": str(tmp_path)}[name])
    assert find(None) == str(made)


def test_a_program_that_does_not_run(tmp_path):
    path = tmp_path / "ofswitch"
    path.write_text("no program\n")
    path.chmod(0o755)
    with pytest.raises(ProgramError, match="does not run"):
        Switch(path)


def test_a_killed_program(switch):
    switch.port_add(1)
    os.kill(switch.pid, signal.SIGKILL)
    with pytest.raises(ProgramError, match="by signal 9"):
        for _ in range(2):
            switch.connect()
    with pytest.raises(ProgramError):
        switch.connect()
    assert switch.log.startswith("port add 1 020000000001 p1 up\nconnect\n")
    assert "HELLO" in switch.explain()


def test_a_program_that_ends_says_why(tmp_path):
    with Switch(script(tmp_path, "import sys; sys.stdin.readline(); sys.exit('no memory')")) as switch:
        with pytest.raises(ProgramError, match="status 1: no memory"):
            switch.connect()


def test_a_program_that_does_not_answer(tmp_path):
    with Switch(script(tmp_path, "import sys, time; [time.sleep(9) for _ in sys.stdin]"), timeout=0.2) as switch:
        begun = time.monotonic()
        with pytest.raises(ProgramError, match="did not answer within 0.2 s"):
            switch.connect()
        assert time.monotonic() - begun < 4
        assert not is_there(switch.pid)


def test_a_program_that_reads_nothing(tmp_path):
    """A row that is larger than a pipe."""
    with Switch(script(tmp_path, "import time; time.sleep(60)"), timeout=0.2) as switch:
        with pytest.raises(ProgramError, match="did not answer"):
            switch.feed(bytes(200_000))


def test_an_interrupted_row_ends_the_run(tmp_path):
    """What would still come is not taken for the answer to the next row."""
    with Switch(script(tmp_path, "import sys, time; [time.sleep(60) for _ in sys.stdin]")) as switch:
        main = threading.main_thread().ident
        threading.Timer(0.2, signal.pthread_kill, [main, signal.SIGINT]).start()
        with pytest.raises(KeyboardInterrupt):
            switch.connect()
        with pytest.raises(ProgramError, match="was ended"):
            switch.connect()


def test_with_ends_the_program():
    with Switch() as switch:
        assert is_there(switch.pid)
        switch.port_add(1)
    assert is_gone(switch.pid)
    with pytest.raises(ProgramError, match="was ended"):
        switch.connect()
    switch.close()
    assert switch.log == "port add 1 020000000001 p1 up\n"


def test_garbage_collection_ends_the_program():
    switch = Switch()
    switch.connect()
    pid = switch.pid
    del switch
    gc.collect()
    assert is_gone(pid)


@pytest.mark.parametrize("end", ["os.kill(os.getpid(), 9)", "os._exit(0)", "sys.exit()", "1 / 0"])
def test_a_dead_parent_ends_the_program(end):
    code = f"import os, sys, ofswitch; s = ofswitch.Switch(); s.connect(); print(s.pid, flush=True); {end}"
    done = subprocess.run([sys.executable, "-c", code], capture_output=True, text=True, timeout=60)
    assert is_gone(int(done.stdout))


def test_a_hundred_switches():
    before = children()
    switches = [Switch() for _ in range(100)]
    for port, switch in enumerate(switches, 1):
        switch.port_add(port)
        switch.connect()
        switch.feed(messages.HELLO)
        switch.feed(messages.flow(messages.output(port + 1)))
        assert switch.port_add(port + 1) != []
    for port, switch in enumerate(switches, 1):
        assert switch.frame(port, FRAME) == [Sent(port + 1, FRAME)]
    for switch in switches:
        switch.close()
    assert all(not is_there(switch.pid) for switch in switches)
    assert children() == before


def test_threads_take_turns(switch):
    switch.connect()
    switch.feed(messages.HELLO)
    wrong = []

    def ask(first):
        for xid in range(first, first + 200):
            if switch.feed(messages.echo(xid)) != [Answer(messages.echo_reply(xid))]:
                wrong.append(xid)

    threads = [threading.Thread(target=ask, args=(1000 * n,)) for n in range(8)]
    for thread in threads:
        thread.start()
    for thread in threads:
        thread.join()
    assert wrong == []


def test_a_forked_process_leaves_the_program_alone(switch):
    switch.connect()
    context = multiprocessing.get_context("fork")
    child = context.Process(target=switch.close)
    child.start()
    child.join()
    assert switch.port_add(0) == [Refused(8)]


def test_a_killed_run_of_the_account(switch):
    """It is said each time: the plugin asks again if the test fails because of it."""
    switch.port_add(1)
    assert "port add 1" in switch.explain()
    os.kill(switch._story._run.pid, signal.SIGKILL)
    switch.port_add(2)
    for _ in range(2):
        with pytest.raises(ProgramError):
            switch.explain()


def test_a_new_run_takes_over_before_the_last_read(new_switch, monkeypatch):
    """Nobody notices, but that the process is another one."""
    monkeypatch.setattr(Switch, "MOST_READS", 60)
    switch = new_switch()
    pids = {switch.pid}
    switch.port_add(1)
    switch.port_add(2)
    switch.port_add(0)
    switch.connect()
    switch.feed(messages.HELLO)
    switch.feed(messages.flow(messages.output(2), in_port=1, hard=10, flags=1))
    for number in range(300):
        assert switch.frame(1, FRAME) == [Sent(2, FRAME)]
        assert switch.port_remove(0) == [Refused(8)]
        assert switch.feed(messages.echo(number)) == [Answer(messages.echo_reply(number))]
        pids.add(switch.pid)
    assert len(pids) > 5
    assert [is_there(pid) for pid in pids].count(True) == 1
    [removed] = switch.at(10_000_000_000)
    # 300 packets of 60 bytes
    assert removed.data[8 + 24 : 8 + 40] == (300).to_bytes(8, "big") + (18_000).to_bytes(8, "big")


def test_reads_are_not_undercounted(switch):
    """The program counts its own reads in /proc: each of the switch's rows is counted as one at least."""
    switch.connect()
    switch.feed(messages.HELLO)
    for size in (0, 100, 5_000, 60_000, 300_000):
        switch.feed(messages.echo(1, bytes(1000)) * (size // 1000))
    counters = dict(line.split(": ") for line in pathlib.Path(f"/proc/{switch.pid}/io").read_text().splitlines())
    assert 0 < int(counters["syscr"]) <= switch._run.reads + 40
