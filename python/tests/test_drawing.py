"""`python -m ofswitch draw`: graphs of flow tables, and of the way of a frame or of a class of frames."""

import os
import shutil
import subprocess
import sys

import pytest

PROGRAM = os.environ.get("OFSWITCH", "ofswitch")
COMMAND = [sys.executable, "-m", "ofswitch", "draw"]

# An IPv4 packet for 10.1.1.9, and a frame of a type that is not read.
PACKET = "0200000000a10200000000010800450000140000000040fd64e30a0000010a010109"
FRAME = "ffffffffffff02000000000188b50000000000"

ROUTER = """flow 0 20 0x0000000000000002 0 0 0
match eth_type 0x0800
goto 1
flow 0 10 0x0000000000000000 0 0 0
match eth_type 0x0800
match ipv4_dst 0x0a000000 0xff000000
goto 2
flow 1 24 0x0000000000000003 5 0 0
match eth_type 0x0800
match ipv4_dst 0x0a010100 0xffffff00
write
dec_nw_ttl
output 2 0
"""

COPIES = """group 1 all
bucket 0 4294967295 4294967295
output 2 0
bucket 0 4294967295 4294967295
push_vlan 0x8100
output 3 0
flow 0 10 0x0000000000000000 0 0 0
apply
output 4 0
to_group 1
"""


def drawn(*words, text=None):
    """The lines of a graph, whose edges are without attributes, and their attributes by edge."""
    done = subprocess.run([*COMMAND, *words], input=text, capture_output=True, text=True, timeout=120)
    assert done.returncode == 0, done.stderr
    edges = [line.split(" [", 1) for line in done.stdout.splitlines() if " -> " in line]
    return done.stdout, {edge: attributes for edge, attributes in edges}


@pytest.fixture
def flows(tmp_path):
    def write(text):
        path = tmp_path / "tables.flows"
        path.write_text(text)
        return str(path)

    return write


def test_tables_groups_and_ports(flows):
    _, edges = drawn("--flows", flows(COPIES))
    assert list(edges) == ["in -> t0:head:w", "t0:e0:e -> p4", "t0:e0:e -> g1:head:w", "g1:b0:e -> p2", "g1:b1:e -> p3"]


def test_values_as_people_write_them(flows):
    graph, edges = drawn("--flows", flows(ROUTER))
    for words in ("ipv4_dst=10.1.1.0/24", "write: dec_nw_ttl", "idle 5 s", "no flows"):
        assert words in graph
    assert "t0:e1:e -> t2:head:w" in edges


def test_the_last_flow_that_wrote_an_action_sends(flows):
    """Both write the OUTPUT, and the second one takes the place of the first one (OpenFlow 1.3.5, 5.10)."""
    writes = ["flow 0 5 0x0000000000000000 0 0 0", "write", "output 2 0", "goto 1", "flow 1 5 0x0000000000000000 0 0 0", "write", "output 2 0"]
    _, edges = drawn("--flows", flows("".join(f"{it}\n" for it in writes)), "--port", "1", FRAME)
    assert "step" in edges["t1:e0:e -> p2"] and "step" not in edges["t0:e0:e -> p2"]


def test_what_never_wins_is_gray(flows):
    graph, edges = drawn("--flows", flows(ROUTER))
    assert graph.count("never wins") == 1
    assert "#999999" in edges["t0:e1:e -> t2:head:w"]
    assert "#999999" not in edges["t0:e0:e -> t1:head:w"]


def test_the_way_of_a_frame(flows):
    graph, edges = drawn("--flows", flows(ROUTER), "--port", "1", PACKET)
    assert "step 2" in edges["t0:e0:e -> t1:head:w"]
    assert "write step" in edges["t1:e0:e -> p2"]
    assert "step" not in edges["t0:e1:e -> t2:head:w"]
    assert "the packet has ipv4_dst=10.1.1.9" in graph


ROUTES = """flow 0 20 0x0000000000000000 0 0 0
match eth_type 0x0800
match ipv4_dst 0x0a010000 0xffff0000
apply
output 2 0
flow 0 20 0x0000000000000000 0 0 0
match eth_type 0x0800
match ipv4_dst 0x0a020000 0xffff0000
apply
output 2 0
flow 0 0 0x0000000000000000 0 0 0
apply
output 3 0
"""


def test_flows_are_in_the_order_of_their_priorities(flows):
    """Whatever their ages. A mask that is no prefix is written as an address."""
    text = ROUTES + "flow 0 30 0x0000000000000000 0 0 0\nmatch eth_type 0x0800\nmatch ipv4_dst 0x0a000001 0xff0000ff\n"
    graph, _ = drawn("--flows", flows(text.replace("flow 0 20", "flow 0 10", 1)))
    places = [graph.index(f"ipv4_dst={it}") for it in ("10.0.0.1/255.0.0.255", "10.2.0.0/16", "10.1.0.0/16")]
    assert places == sorted(places) and places[-1] < graph.index("any packet")


def test_a_path(flows):
    graph, edges = drawn("--flows", flows(ROUTES), "--port", "1", "--path", "1")
    assert "step" in edges["t0:e0:e -> p2"]
    assert "step" not in edges["t0:e1:e -> p2"]
    # a cell for the priority, the match and the instructions of each flow
    assert (graph.count("#cfe8ff"), graph.count("#eaf4ff")) == (3, 3)
    assert "step" in drawn("--flows", flows(ROUTES), "--path", "2")[1]["t0:e2:e -> p3"]


@pytest.mark.parametrize("number", ["0", "3"])
def test_a_path_that_does_not_exist(flows, number):
    done = subprocess.run([*COMMAND, "--flows", flows(ROUTES), "--path", number], capture_output=True, text=True, timeout=120)
    assert (done.returncode, done.stderr) == (1, f"there is no path {number}: `ofswitch paths` finds 2\n")


def test_a_path_has_its_own_frame(flows):
    words = ["--flows", flows(ROUTES), "--port", "1", "--path", "1", FRAME]
    done = subprocess.run([*COMMAND, *words], capture_output=True, text=True, timeout=120)
    assert done.returncode == 1
    assert "give --path or a frame" in done.stderr


def test_copies_are_apart(flows):
    _, edges = drawn("--flows", flows(COPIES), "--port", "1", FRAME)
    assert "(copy" not in edges["t0:e0:e -> p4"]
    assert "(copy 1)" in edges["g1:b0:e -> p2"]
    assert "(copy 2)" in edges["g1:b1:e -> p3"]


def test_a_table_without_a_hit(flows):
    graph, _ = drawn("--flows", flows(ROUTER), "--port", "1", FRAME)
    assert "no flow matches" in graph


def test_the_tables_after_an_event_file(flows, tmp_path):
    events = tmp_path / "built.events"
    built = subprocess.run([PROGRAM, "asm", flows(ROUTER)], capture_output=True, check=True, timeout=60)
    events.write_bytes(built.stdout)
    assert drawn("--events", str(events)) == drawn("--flows", flows(ROUTER))


@pytest.mark.skipif(shutil.which("dot") is None, reason="dot of Graphviz is not there")
def test_a_picture(flows, tmp_path):
    picture = tmp_path / "tables.svg"
    done = subprocess.run([*COMMAND, "--flows", flows(COPIES), "--svg", str(picture)], capture_output=True, timeout=120)
    assert (done.returncode, done.stdout, done.stderr) == (0, b"", b"")
    assert "<svg" in picture.read_text()


def test_without_dot(flows, tmp_path):
    there = {**os.environ, "PATH": str(tmp_path), "OFSWITCH": shutil.which(PROGRAM)}
    words = [*COMMAND, "--flows", flows(COPIES), "--svg", str(tmp_path / "it.svg")]
    done = subprocess.run(words, env=there, capture_output=True, text=True, timeout=120)
    assert done.returncode == 3
    assert "there is no program dot" in done.stderr


@pytest.mark.parametrize("words", [["--port", "1"], [FRAME], ["--svg", "it.svg", "--port", "1"]])
def test_a_frame_and_its_port(flows, words):
    done = subprocess.run([*COMMAND, "--flows", flows(COPIES), *words], capture_output=True, text=True, timeout=120)
    assert done.returncode == 1
    assert "a frame needs its port, and a port its frame" in done.stderr


def test_a_faulty_text(flows):
    done = subprocess.run([*COMMAND, "--flows", flows("flow 0 1\n")], capture_output=True, text=True, timeout=120)
    assert done.returncode == 2
    assert "line 1: syntax" in done.stderr
