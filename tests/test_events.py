"""Whole files: the event files of of_conformance, whose output comes from elsewhere, and the examples."""
import pathlib
import re
import tempfile
import unittest

from tests.program import EXAMPLES, TOP, ofswitch, run

CONFORMANCE = sorted((TOP / "crates/of_conformance/data").glob("*.events"))
FIRST_COMMANDS = TOP / "crates/of_first_commands/out/of_first_commands"


def byte_by_byte(events):
    """The rows of an event file, with a row for each byte of the controller."""
    return re.sub(r"^c ([^-].*)$", lambda it: "\n".join(f"c {byte}" for byte in re.findall("..", it[1])), events, flags=re.M)


class Files(unittest.TestCase):
    slow = True

    def test_conformance(self):
        for path in CONFORMANCE:
            with self.subTest(path.name):
                done = ofswitch("replay", path)
                self.assertEqual((done.status, done.out), (0, path.with_suffix(".expected").read_text(encoding="utf-8")))

    def test_conformance_byte_by_byte(self):
        for path in CONFORMANCE:
            wanted = path.with_suffix(".expected").read_text(encoding="utf-8")
            # a row that is refused would be refused for each byte
            if not re.search("^refused", wanted, re.M):
                with self.subTest(path.name):
                    done = ofswitch("replay", "-", input=byte_by_byte(path.read_text(encoding="utf-8")), timeout=900)
                    self.assertEqual((done.status, done.out), (0, wanted))

    def test_examples(self):
        for path in sorted(EXAMPLES.glob("*.events")):
            with self.subTest(path.name):
                done = ofswitch("replay", path)
                self.assertEqual((done.status, done.err), (0, ""))

    def test_flow_text_and_back(self):
        for path in sorted(EXAMPLES.glob("*.flows")):
            with self.subTest(path.name):
                wanted = [it for it in path.read_text(encoding="utf-8").splitlines() if it and not it.startswith("#")]
                self.assertEqual(ofswitch("dis", "-", input=ofswitch("asm", path).out).out.splitlines(), wanted)

    @unittest.skipUnless(FIRST_COMMANDS.exists(), "the program of the first commands is not built (./ofswitch replay FILE)")
    def test_first_commands(self):
        """The program of the first commands prints what the whole program does."""
        with tempfile.TemporaryDirectory() as folder:
            for path in [*sorted(EXAMPLES.glob("*.events")), *sorted(EXAMPLES.glob("*.flows")), EXAMPLES, pathlib.Path(folder, "no-such-file")]:
                for command in "replay", "asm", "dis":
                    with self.subTest(f"{command} {path.name}"):
                        self.assertEqual(run([FIRST_COMMANDS, command, path]), ofswitch(command, path))
