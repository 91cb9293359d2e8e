"""What is a row here is a row for the program, and nothing else is."""

import os
import random
import subprocess

import pytest
from ofswitch import rows

PROGRAM = os.environ.get("OFSWITCH", "ofswitch")

# rows, and what is nearly one
LINES = """connect
lost
c -
c 0aFF
c 0
f 1 -
f 4294967295 ab
f 4294967296 ab
f 01 -
t 0
t 18446744073709551615
t 18446744073709551616
port add 1 0200000000a1 p1 up
port add 0 0200000000A1 abc123 down
port add 1 0200000000a1 sixteenletters00 up
port remove 4294967040
port remove 4294967041
port link 1 up
port link 0 down

#
# é""".splitlines()

LETTERS = " 0123456789abcdefABCDEF-#xportun\t\r_+é\0²"


def changed(line, luck):
    """The line with some letters more, less or other."""
    letters = list(line)
    for _ in range(luck.choice([0, 1, 1, 2])):
        at = luck.randrange(len(letters) + 1)
        letters[at : at + luck.randrange(2)] = luck.choice(["", luck.choice(LETTERS)])
    return "".join(letters)


def is_row(line):
    try:
        rows.check(line)
    except ValueError:
        return False
    return True


def test_rows_are_those_of_the_program():
    luck = random.Random(1)
    for _ in range(500):
        line = changed(luck.choice(LINES), luck)
        done = subprocess.run([PROGRAM, "replay", "-"], input=line.encode() + b"\n", capture_output=True, timeout=60)
        assert done.returncode == (0 if is_row(line) else 2), repr(line)


def test_names_of_ports():
    """The letters and digits of an interface's name, or the number of the port if there are none."""
    named = {"s1-eth1": "s1eth1", "eth0.5": "eth05", "--": "p7", "é": "p7", "Gi0/1": "gi01"}
    for name, wanted in named.items():
        assert rows.port_name(name, 7) == wanted
        rows.check(rows.port_add(7, None, name, True))


@pytest.mark.parametrize("name", ["", "a b", "eth0\n", "sixteen-letters-"])
def test_what_is_no_name_of_a_port(name):
    with pytest.raises(ValueError):
        rows.port_name(name, 7)


def test_a_datapath_id_in_the_first_line():
    """As `capture events` writes it, and other comments."""
    said = {"# a switch of datapath_id 0x2a: replay it with --dpid 0x2a": 42, "# replay with --dpid 7": 7, "# replay with --dpid": 1, "connect": 1, "": 1, "# --dpid x": 1}
    assert [rows.said_dpid(it) for it in said] == list(said.values())
