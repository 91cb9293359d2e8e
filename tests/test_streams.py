"""Large files, and standard output that nobody reads."""
import os
import struct
import subprocess
import tempfile
import unittest

from tests.program import EXAMPLES, PROGRAM, ofswitch

HELLO = "connect\nc 0400000800000001\n"
GREETING = "a 04000010000000000001000800000010\n"
ECHOES = range(160_000)
# three megabytes, which take many reads and writes: ECHO_REQUESTs, and their replies
REQUESTS = HELLO + "".join(f"c 04020008{xid:08x}\n" for xid in ECHOES)
REPLIES = GREETING + "".join(f"a 04030008{xid:08x}\n" for xid in ECHOES)
# commands, and the status with which each ends
COMMANDS = [
    (0, "--help"),
    (0, "trace", EXAMPLES / "office.txt", "in_port=1,arp"),
    (0, "paths", EXAMPLES / "office.txt"),
    (0, "import", EXAMPLES / "office.txt"),
    (4, "check", EXAMPLES / "covered.flows"),
    (4, "diff", EXAMPLES / "router.flows", EXAMPLES / "router2.flows"),
]


class Large(unittest.TestCase):
    slow = True

    def test_three_megabytes(self):
        with tempfile.NamedTemporaryFile("w+") as file:
            file.write(REQUESTS)
            file.flush()
            with self.subTest("a file"):
                self.assertTrue(ofswitch("replay", file.name) == (0, REPLIES, ""))
            with self.subTest("a file as standard input"), open(file.name, encoding="utf-8") as opened:
                done = subprocess.run([PROGRAM, "replay", "-"], stdin=opened, capture_output=True, encoding="utf-8", timeout=120)
                self.assertTrue((done.returncode, done.stdout, done.stderr) == (0, REPLIES, ""))
            with self.subTest("a pipe"):
                self.assertTrue(ofswitch("replay", "-", input=REQUESTS) == (0, REPLIES, ""))
            file.write("nothing\n")
            file.flush()
            for words, given in ((file.name,), ""), (("-",), f"{REQUESTS}nothing\n"):
                with self.subTest("a bad row behind them", words=words):
                    done = ofswitch("replay", *words, input=given)
                    self.assertTrue((done.status, done.out) == (2, REPLIES))
                    self.assertEqual(done.err.splitlines()[0], "line 160003: bad row")

    def test_sixteen_full_tables(self):
        flows = "".join(f"flow {table} {it} 0x{it:016x} 0 0 0\napply\noutput 2 0\n" for table in range(16) for it in range(4096))
        made = ofswitch("asm", "-", input=flows, timeout=900).out
        self.assertTrue(ofswitch("dis", "-", input=made, timeout=900) == (0, flows, ""))

    def test_statistics_of_a_full_table(self):
        """4,096 rows of 56 bytes, in three replies of 1,169 rows and one of the 589 that are left."""
        add = [struct.pack(">BBHI16xB3xHHIIIH2xHH4x", 4, 14, 56, 2, 0, 0, priority, *[2**32 - 1] * 3, 0, 1, 4).hex() for priority in range(4096)]
        ask = "04120038000000030001000000000000ff000000ffffffffffffffff00000000000000000000000000000000000000000001000400000000"
        done = ofswitch("replay", "-", input=HELLO + "".join(f"c {it}\n" for it in [*add, ask]), timeout=300)
        self.assertEqual((done.status, done.err), (0, ""))
        found = [(it[:34], (len(it) - 2) // 2) for it in done.out.splitlines()[-4:]]
        self.assertEqual(found, [("a 0413ffc8000000030001000100000000", 65480)] * 3 + [("a 041380e8000000030001000000000000", 33000)])


class Unread(unittest.TestCase):
    def closed(self, *words, lines=0):
        """What a run printed whose standard output is closed after so many lines, its status, and standard error."""
        with subprocess.Popen([PROGRAM, *words], stdin=subprocess.DEVNULL, stdout=subprocess.PIPE, stderr=subprocess.PIPE, text=True) as running:
            printed = [running.stdout.readline() for _ in range(lines)]
            running.stdout.close()
            return running.wait(60), printed, running.stderr.read()

    def test_reader_that_goes(self):
        """The status is that of the work so far."""
        with tempfile.NamedTemporaryFile("w") as file:
            file.write(REQUESTS)
            file.flush()
            self.assertEqual(self.closed("replay", file.name, lines=1), (0, [GREETING], ""))

    def test_no_reader(self):
        ours, theirs = os.pipe()
        os.close(ours)
        with tempfile.NamedTemporaryFile("w") as file, os.fdopen(theirs, "wb") as unread:
            file.write(HELLO)
            file.flush()
            for status, *words in [*COMMANDS, (0, "replay", file.name), (0, "dis", file.name)]:
                with self.subTest(f"{words[0]} whose output nobody reads"):
                    done = subprocess.run([PROGRAM, *words], stdin=subprocess.DEVNULL, stdout=unread, stderr=subprocess.PIPE, timeout=60)
                    self.assertEqual((done.returncode, done.stderr), (status, b""))
