"""The examples of docs/TESTING.md, docs/LAB.md, docs/EXPLORE.md, docs/TUTORIAL.md, docs/VIEW.md and docs/CAPTURES.md do what they say."""

import pathlib
import re
import shutil
import subprocess
import sys

import pytest

pytest_plugins = ["pytester"]

TOP = pathlib.Path(__file__).resolve().parents[2]
MANUAL = TOP / "docs" / "TESTING.md"
LAB = TOP / "docs" / "LAB.md"
EXPLORE = TOP / "docs" / "EXPLORE.md"
TUTORIAL = TOP / "docs" / "TUTORIAL.md"
CAPTURES = TOP / "docs" / "CAPTURES.md"
VIEW = TOP / "docs" / "VIEW.md"


def examples_of(document):
    if not document.exists():
        pytest.skip(f"docs/{document.name} is not here")
    return re.findall(r"^```python\n(.*?)^```$", document.read_text(encoding="utf-8"), re.M | re.S)


@pytest.fixture(scope="module")
def examples():
    return examples_of(MANUAL)


@pytest.fixture(scope="module")
def of_lab():
    return examples_of(LAB)


@pytest.fixture
def run(pytester, pytestconfig):
    plugin = [] if pytestconfig.pluginmanager.has_plugin("ofswitch") else ["-p", "ofswitch.pytest_plugin"]

    def run(text):
        pytester.makepyfile(test_first=text)
        return pytester.runpytest("-p", "no:cacheprovider", *plugin)

    return run


def test_the_first(examples, run):
    result = run(examples[0])
    result.assert_outcomes(passed=1, failed=1)
    # the failure as the manual shows it, except for lines that are cut there
    shown = MANUAL.read_text(encoding="utf-8").partition("/switch-1.events\n\n")[2].partition("```")[0].splitlines()
    result.stdout.fnmatch_lines([re.sub(r"f+\.\.", "*", line) for line in shown], consecutive=True)


def test_with_os_ken(examples, run):
    pytest.importorskip("os_ken")
    pytest.importorskip("scapy")
    run(examples[1]).assert_outcomes(passed=1)


def test_with_a_client(examples, run):
    if shutil.which("ovs-ofctl") is None:
        pytest.skip("there is no ovs-ofctl")
    run(examples[2]).assert_outcomes(passed=1)


def test_there_is_no_other(examples):
    assert len(examples) == 3


def test_a_line_of_switches(of_lab, run):
    run(of_lab[0]).assert_outcomes(passed=1)


def test_a_ring_of_switches(of_lab, run):
    result = run(of_lab[1].replace("    print(", "    assert False, str("))
    result.assert_outcomes(failed=1)
    [printed] = re.findall(r"^    (frames crossed .*)$", LAB.read_text(encoding="utf-8"), re.M)
    result.stdout.fnmatch_lines([f"*{printed}*"])


def test_an_application_over_three_switches(of_lab, run, pytester):
    pytest.importorskip("os_ken")
    if shutil.which("osken-manager") is None:
        pytest.skip("there is no osken-manager")
    from test_network import LEARNING

    pytester.makefile(".py", learning=LEARNING)
    run(of_lab[2]).assert_outcomes(passed=1)


def test_there_is_no_other_of_the_lab(of_lab):
    # the last one needs root and Mininet: tools/try-mininet runs it
    assert len(of_lab) == 5 and "mininet" in of_lab[4]


def test_where_all_frames_go(of_lab, run, pytester):
    result = run(of_lab[3].replace("    print(", "    open('said', 'w').write(str(").replace('10.0.2.7"))', '10.0.2.7")))'))
    result.assert_outcomes(passed=1)
    shown = LAB.read_text(encoding="utf-8").partition("    s1 port 2: ")
    said = (pytester.path / "said").read_text().splitlines()
    assert [f"    {it}" for it in said] == (shown[1] + shown[2]).splitlines()[: len(said)]


def test_schedules(run, pytester):
    pytest.importorskip("os_ken")
    (pytester.path / "examples").symlink_to(TOP / "examples")
    learning, firewall = examples_of(EXPLORE)
    result = run(learning)
    result.assert_outcomes(failed=1)
    shown = EXPLORE.read_text(encoding="utf-8").partition("after a few schedules:\n\n```\n")[2].partition("```")[0].splitlines()
    result.stdout.fnmatch_lines([f"*{line}" for line in shown], consecutive=True)
    run(learning.replace("_faulty", "").replace("explore(", "explore(most=10,")).assert_outcomes(passed=1)
    result = run(firewall)
    result.assert_outcomes(failed=1)
    shown = EXPLORE.read_text(encoding="utf-8").partition("takes it for an attack.\n\n")[2].partition("\n\n")[0].splitlines()
    result.stdout.fnmatch_lines(["*answers_come: *", *(f"*{line}" for line in shown)])


def test_the_office(run, pytester):
    (pytester.path / "examples").symlink_to(TOP / "examples")
    [office] = examples_of(TUTORIAL)
    run(office).assert_outcomes(passed=1)
    run(office.replace("-mended", "")).assert_outcomes(failed=1)


def test_the_fewest_rows(tmp_path):
    """The command of docs/TESTING.md, and the last line that it prints, except for the time."""
    (tmp_path / "examples").symlink_to(TOP / "examples")
    text = MANUAL.read_text(encoding="utf-8")
    [command] = re.findall(r"^    (python -m ofswitch shrink .*)$", text, re.M)
    done = subprocess.run(command.replace("python", sys.executable, 1), shell=True, cwd=tmp_path, capture_output=True, text=True, timeout=60)
    [shown] = re.findall(r"^    (\d+ rows, .*)$", text, re.M)
    assert done.returncode == 0 and re.sub(r"in .* s:", "", done.stderr.strip()) == re.sub(r"in .* s:", "", shown)


def test_the_page_of_a_run(tmp_path):
    """The command of docs/VIEW.md."""
    (tmp_path / "examples").symlink_to(TOP / "examples")
    [command] = re.findall(r"^    (python -m ofswitch view .*)$", VIEW.read_text(encoding="utf-8"), re.M)
    done = subprocess.run(command.replace("python", sys.executable, 1), shell=True, cwd=tmp_path, capture_output=True, text=True, timeout=60)
    assert (done.returncode, done.stdout, done.stderr) == (0, "", "")
    assert "<title>timeout.events" in (tmp_path / "run.html").read_text(encoding="utf-8")


def test_commands_on_captures(tmp_path):
    """Each command line, in their order, prints the block below it."""
    if not CAPTURES.exists():
        pytest.skip("docs/CAPTURES.md is not here")
    for name in ("python", "examples"):
        (tmp_path / name).symlink_to(TOP / name)
    blocks = re.findall(r"^    (python -m ofswitch [^\n]*|tshark [^\n]*)\n(?:\n```\n(.*?)^```$)?", CAPTURES.read_text(encoding="utf-8"), re.M | re.S)
    assert len(blocks) == 8
    for command, block in blocks:
        if command.startswith("tshark") and shutil.which("tshark") is None:
            continue
        words = command.replace("python -m", f"{sys.executable} -m")
        done = subprocess.run(words, shell=True, cwd=tmp_path, capture_output=True, text=True, timeout=60)
        assert done.returncode in (0, 4) and done.stdout == block, command
