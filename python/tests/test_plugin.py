"""The plugin of pytest: what a test gets, and what a failure shows."""

import pytest

pytest_plugins = ["pytester"]

FAILING = """
def test_that_fails(switch):
    switch.port_add(1)
    [hello] = switch.connect()
    assert hello.xid == 7
"""

SEVERAL = """
def test_that_fails(new_switch):
    first, second = new_switch(), new_switch()
    first.port_add(1)
    second.port_add(2)
    assert False
"""


@pytest.fixture
def in_process(pytester, pytestconfig):
    """Runs the tests of a text, with the plugin, whether it is installed or not."""
    plugin = [] if pytestconfig.pluginmanager.has_plugin("ofswitch") else ["-p", "ofswitch.pytest_plugin"]

    def run(text, *options):
        pytester.makepyfile(text)
        return pytester.runpytest("-p", "no:cacheprovider", *plugin, *options)

    return run


def test_a_failure_shows_the_rows_and_what_they_did(in_process):
    result = in_process(FAILING)
    result.assert_outcomes(failed=1)
    result.stdout.fnmatch_lines(
        [
            "*ofswitch: the rows of switch 1, and what each did*",
            "ofswitch replay --explain */switch-1.events",
            "1: port add 1 020000000001 p1 up",
            "2: connect",
            "    to the controller: HELLO xid 0, 16 bytes",
        ]
    )
    [command] = [line for line in result.outlines if line.startswith("ofswitch replay --explain")]
    with open(command.split()[-1], encoding="utf-8") as file:
        assert file.read() == "port add 1 020000000001 p1 up\nconnect\n"


def test_a_failure_shows_each_switch(in_process):
    result = in_process(SEVERAL)
    result.assert_outcomes(failed=1)
    result.stdout.fnmatch_lines(["*switch 1*", "1: port add 1 *", "*switch 2*", "1: port add 2 *"])


def test_a_passing_test_shows_nothing(in_process):
    result = in_process("def test_that_passes(switch): assert switch.connect() != []")
    result.assert_outcomes(passed=1)
    result.stdout.no_fnmatch_line("*ofswitch replay*")


def test_a_killed_program_has_its_rows_shown(in_process):
    result = in_process(
        """
        import os, signal

        def test_that_fails(switch):
            os.kill(switch.pid, signal.SIGKILL)
            for _ in range(2):
                switch.connect()
        """
    )
    result.assert_outcomes(failed=1)
    result.stdout.fnmatch_lines(["*ProgramError*signal 9*", "ofswitch replay --explain *", "1: connect"])


def test_a_long_log_is_shown_in_part(in_process):
    result = in_process("def test_that_fails(switch):\n    for n in range(300): switch.play(f'# {n}')\n    assert False")
    result.stdout.fnmatch_lines([".. 200 lines, and then", "201: # 200"])


FRAMES = """
FRAME = bytes.fromhex("02000000000202000000000188b5")
FLOW = "flow 0 %d 0x0000000000000000 0 0 0\\nmatch in_port 0x00000001\\n"

def test_that_fails(switch):
    switch.port_add(1)
    switch.port_add(2)
    switch.load(FLOW % 5 + "apply\\noutput 2 0\\n")
    switch.frame(1, FRAME)
    switch.load(FLOW % 6)
    switch.at(9)
    assert switch.frame(PORT, FRAME)
"""


@pytest.mark.parametrize(
    "port, said",
    [
        # `load` without a connection is connect, a HELLO, the flow, and lost: rows 3 to 6, and after the first frame 8 to 11
        (1, ["the frame of line 13, since line 10: nothing leaves (before: out by port 2)", "    FLOW_MOD, command ADD, priority 6, match in_port 1", "", "1: port add 1 *"]),
        (2, ["the frame of line 13, since line 2: nothing leaves (before: not received)", "    port add 2 020000000002 p2 up", "", "1: port add 1 *"]),
        (3, ["the frame of line 13: not received", "", "1: port add 1 *"]),
    ],
)
def test_a_failure_says_what_changed_the_fate_of_its_frame(in_process, port, said):
    result = in_process(FRAMES.replace("PORT", str(port)))
    result.assert_outcomes(failed=1)
    result.stdout.fnmatch_lines(["ofswitch replay --explain *", "", *said], consecutive=True)


def test_the_switches_end_with_the_test(in_process):
    result = in_process(
        """
        import os
        import pytest

        kept = []

        def test_that_passes(new_switch):
            kept.extend(new_switch() for _ in range(5))

        def test_that_they_have_ended():
            for it in kept:
                # signal 0 asks whether the process is there
                with pytest.raises(ProcessLookupError):
                    os.kill(it.pid, 0)
        """
    )
    result.assert_outcomes(passed=2)


SHRUNK = """
def test_that_fails(switch):
    for port in range(1, 9):
        switch.port_add(port)
    switch.load("flow 0 9 0x0000000000000000 0 0 0\\nmatch in_port 0x00000001\\napply\\noutput 2 0\\n")
    for n in range(50):
        switch.at(n)
    %s
    assert False
"""


def test_a_failure_shows_the_rows_that_matter(in_process):
    result = in_process(SHRUNK % "switch.frame(1, bytes(60))", "--ofswitch-shrink")
    result.assert_outcomes(failed=1)
    shown = result.outlines
    start = next(at for at, it in enumerate(shown) if it.startswith("all rows: "))
    rows = [it.partition(": ")[2] for it in shown[start + 3 :] if it[:1].isdigit() and ": " in it]
    assert [it[:10] for it in rows] == ["port add 1", "port add 2", "connect", "c 04000008", "c 040e0058", f"f 1 {bytes(3).hex()}"]
    with open(shown[start].removeprefix("all rows: "), encoding="utf-8") as file:
        assert len(file.readlines()) == 8 + 4 + 50 + 1
    with open(shown[start + 1].split()[-1], encoding="utf-8") as file:
        assert [it[:10] for it in file.read().splitlines() if not it.startswith("#")] == [it[:10] for it in rows]


@pytest.mark.parametrize("rows", ["", "switch.play('# nothing')"])
def test_without_rows_there_is_nothing_to_compare(in_process, rows):
    result = in_process(f"def test_that_fails(switch):\n    {rows}\n    assert False", "--ofswitch-shrink")
    result.assert_outcomes(failed=1)
    result.stdout.no_fnmatch_line("*INTERNALERROR*")


def test_a_last_row_that_does_nothing_is_not_compared(in_process):
    result = in_process(SHRUNK % "pass", "--ofswitch-shrink")
    result.stdout.fnmatch_lines(["ofswitch replay --explain */switch-1.events", "8: port add 8 *", "*: t 49"])
    result.stdout.no_fnmatch_line("all rows: *")
