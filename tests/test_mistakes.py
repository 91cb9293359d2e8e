"""What the program prints about a line with a mistake that people make, in a file and on standard input (tests/mistakes.txt)."""
import pathlib
import tempfile
import unittest

from tests.program import ofswitch

# the command that reads a line of a kind, and the first line about its fault
KINDS = {"row": ("replay", "line 1: bad row"), "flow": ("asm", "line 1: syntax")}


def mistakes():
    """The kinds of lines, the lines, and what the second line says behind the name of the file."""
    for row in pathlib.Path(__file__).with_name("mistakes.txt").read_text(encoding="utf-8").splitlines():
        if not row.startswith("#"):
            kind, line, hint = row.split("|", 2)
            yield kind, f"{line}\n".encode().decode("unicode_escape").encode("latin-1"), hint.removeprefix("FILE")


class Mistakes(unittest.TestCase):
    def test_second_line(self):
        with tempfile.TemporaryDirectory() as folder:
            file = pathlib.Path(folder, "mistake.text")
            for kind, line, hint in mistakes():
                command, fault = KINDS[kind]
                file.write_bytes(line)
                for name, done in ("mistake.text", ofswitch(command, "mistake.text", cwd=folder)), ("-", ofswitch(command, "-", input=line)):
                    with self.subTest(line=line, file=name):
                        self.assertEqual((done.status, done.out, done.err.splitlines()[:2]), (2, "", [fault, f"{name}{hint}"]))
