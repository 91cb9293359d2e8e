"""The program that the tests run: that of the environment variable OFSWITCH, or the one that was built; and what several tests need."""
import contextlib
import os
import pathlib
import random
import shutil
import socket
import subprocess
import unittest
from typing import NamedTuple

TOP = pathlib.Path(__file__).resolve().parent.parent
EXAMPLES = TOP / "examples"
PROGRAM = os.path.abspath(os.environ.get("OFSWITCH") or TOP / "crates/ofswitch/out/ofswitch")
if not os.access(PROGRAM, os.X_OK):
    raise FileNotFoundError(f"{PROGRAM} is not built: run ./ofswitch --help, or name a program in OFSWITCH")


class Run(NamedTuple):
    status: int
    out: str
    err: str


def text(data):
    """Bytes as text, also those that are not UTF-8; line ends stay what they are."""
    return (data or b"").decode("utf-8", "surrogateescape")


def run(words, input=b"", timeout=300, **options):
    """Runs a command to its end, with this standard input, which is text or bytes."""
    given = input.encode("utf-8", "surrogateescape") if isinstance(input, str) else input
    options = {"stdout": subprocess.PIPE, "stderr": subprocess.PIPE, **options}
    done = subprocess.run([*map(os.fspath, words)], input=given, timeout=timeout, **options)
    return Run(done.returncode, text(done.stdout), text(done.stderr))


def ofswitch(*words, **options):
    return run([PROGRAM, *map(str, words)], **options)


def fed(text, *words):
    """A run with this standard input."""
    return ofswitch(*words, input=text)


def read(path):
    """A file of the repository."""
    return (TOP / path).read_text(encoding="utf-8")


class Case(unittest.TestCase):
    """A test whose comparisons are counted one by one, each with its name."""

    maxDiff = None

    def same(self, name, found, wanted):
        with self.subTest(name):
            self.assertEqual(found, wanted)

    def holds(self, name, good, found=""):
        with self.subTest(name):
            self.assertTrue(good, found)


def free_port():
    """A port of 127.0.0.1 that nobody uses, of TCP and of UDP, below those that who connects is given, lest one connect to itself."""
    while True:
        port = random.SystemRandom().randrange(20000, 32000)
        with socket.socket() as tcp, socket.socket(socket.AF_INET, socket.SOCK_DGRAM) as udp, contextlib.suppress(OSError):
            for it in tcp, udp:
                it.bind(("127.0.0.1", port))
            return port


def rows(table):
    """The columns of each row of a table."""
    return [line.split(" | ") for line in table.splitlines() if line]


def random_cases(count, name=""):
    """The numbers of random cases, each with what draws it: as many as OFSWITCH_CASES says, and others for each OFSWITCH_SEED."""
    seed = os.environ.get("OFSWITCH_SEED", "1")
    for number in range(int(os.environ.get("OFSWITCH_CASES", count))):
        yield f"{name}{seed} {number}", random.Random(f"{name}{seed} {number}")


def keep(folder, case):
    """Keeps the files of a case that failed in the folder OFSWITCH_KEEP, if it is named."""
    if "OFSWITCH_KEEP" in os.environ:
        shutil.copytree(folder, os.path.join(os.environ["OFSWITCH_KEEP"], case.replace(" ", "-")), dirs_exist_ok=True)
