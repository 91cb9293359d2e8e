"""The sessions of tests/sessions: commands, each with what it has to print. A file is a test of its own, in a new folder.

`  $ COMMAND` is run by sh, in which TOP is the folder of the repository and OFSWITCH the program, and `  > TEXT` is a line of its
standard input. The lines behind them are its standard output, and from `  [STATUS] TEXT` on the first lines of its standard error;
without a status it is 0, and without a text standard error is empty. `  = COMMAND` has to do what the last of these lines say, too.
`...` is for any text. Lines that are not indented are for readers.
"""
import contextlib
import doctest
import os
import pathlib
import re
import tempfile
import unittest

from tests.program import EXAMPLES, PROGRAM, TOP, run

SESSIONS = pathlib.Path(__file__).parent / "sessions"
COMMAND = re.compile(r"^  ([$=]) (.*)\n((?:  >.*\n)*)((?:  (?![$=] ).*\n)*)", re.M)
STATUS = re.compile(r"^\[(\d+)\](?:\n| (.*))", re.M | re.S)
FLAGS = doctest.ELLIPSIS | doctest.DONT_ACCEPT_BLANKLINE | doctest.DONT_ACCEPT_TRUE_FOR_1


def unindented(block, prompt=""):
    return re.sub(f"^  {prompt} ?" if prompt else "^  ", "", block, flags=re.M)


def steps(path):
    """The commands of a session: the number of the line, the command, its standard input, its output, its status and how standard error begins."""
    whole, last = path.read_text(encoding="utf-8"), ""
    for found in COMMAND.finditer(whole):
        prompt, command, given, block = found.groups()
        last = block or last
        wanted = unindented(last if prompt == "=" else block)
        end = STATUS.search(wanted)
        out, status, err = (wanted[: end.start()], int(end[1]), end[2] or "") if end else (wanted, 0, "")
        yield whole.count("\n", 0, found.start()) + 1, command, unindented(given, ">"), out, status, err


class Sessions(unittest.TestCase):
    maxDiff = None

    def same(self, found, wanted):
        if not doctest.OutputChecker().check_output(wanted, found, FLAGS):
            self.assertEqual(found, wanted)

    def play(self, path):
        with tempfile.TemporaryDirectory() as folder:
            os.symlink(PROGRAM, f"{folder}/ofswitch")
            os.symlink(EXAMPLES, f"{folder}/examples")
            surroundings = {**os.environ, "PATH": f"{folder}:{os.environ['PATH']}", "LC_ALL": "C", "TOP": str(TOP), "OFSWITCH": PROGRAM, "PYTHONDONTWRITEBYTECODE": "1"}
            for line, command, given, out, status, err in steps(path):
                # what only makes a file is not counted
                counted = "ofswitch" in command or "TOP" in command or out or err
                with self.subTest(f"{path.name}:{line}: {command}") if counted else contextlib.nullcontext():
                    done = run(["sh", "-c", command], input=given, cwd=folder, env=surroundings)
                    self.same(done.out, out)
                    # more lines may follow
                    self.same(done.err, err and f"{err}...")
                    self.assertEqual(done.status, status)


for each in sorted(SESSIONS.glob("*.txt")):
    setattr(Sessions, f"test_{each.stem}", lambda self, path=each: self.play(path))
