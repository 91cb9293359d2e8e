"""`replay -` row by row over a pipe: each row is answered before the next is sent."""
import contextlib
import os
import select
import subprocess
import time

from tests.program import PROGRAM, Case

GREETING = "a 04000010000000000001000800000010"
HELLO = "c 0400000800000001"

# Changes nothing, and always prints `refused 8`: it marks the end of what the rows before it print.
MARK = "port remove 0"
MARKED = "refused 8"

# How long the whole may take, in seconds: some 20 us a row are usual, so only a program that waits takes so long.
LIMIT = 300


class Replay:
    """A run of `replay -`, and the end of the time that it has. Its standard input may be one that does not block."""

    def __init__(self, *words, blocking=True):
        pipe = subprocess.PIPE
        theirs, ours = os.pipe()
        os.set_blocking(theirs, blocking)
        self.running = subprocess.Popen([PROGRAM, "replay", *words, "-"], stdin=theirs, stdout=pipe, stderr=pipe)
        self.running.stdin = os.fdopen(ours, "wb")
        os.close(theirs)
        self.end = time.monotonic() + LIMIT
        self.text = b""

    def send(self, text):
        self.running.stdin.write(text.encode())
        self.running.stdin.flush()

    def lines(self, count):
        """The next lines, for which it waits."""
        while self.text.count(b"\n") < count:
            left = self.end - time.monotonic()
            if left <= 0 or not select.select([self.running.stdout], [], [], left)[0]:
                raise TimeoutError(f"no answer after {LIMIT} seconds")
            more = os.read(self.running.stdout.fileno(), 65536)
            if not more:
                raise EOFError(f"it ended: {self.running.stderr.read().decode()}")
            self.text += more
        *lines, self.text = self.text.split(b"\n", count)
        return [line.decode() for line in lines]

    def ends(self):
        """What it prints once its input has ended, and its status."""
        self.running.stdin.close()
        rest = self.text + self.running.stdout.read()
        return rest.decode(), self.running.wait(timeout=60)

    def __enter__(self):
        return self

    def __exit__(self, *what):
        self.running.kill()
        self.running.wait()
        for pipe in (self.running.stdin, self.running.stdout, self.running.stderr):
            with contextlib.suppress(OSError):
                pipe.close()


class Pipe(Case):
    def test_row_by_row(self):
        """10,000 ECHO_REQUESTs, each sent once the one before it is answered."""
        with Replay() as replay:
            replay.send(f"connect\n{HELLO}\n")
            self.holds("the greeting", replay.lines(1) == [GREETING])
            wrong = 0
            for xid in range(10_000):
                replay.send(f"c 04020008{xid:08x}\n")
                wrong += replay.lines(1) != [f"a 04030008{xid:08x}"]
            self.holds("10,000 rows, one at a time", wrong == 0, f"{wrong} answers are not those of their rows")
            self.holds("its end", replay.ends() == ("", 0))

    def test_marked(self):
        """Rows that print nothing: the mark says that they were played."""
        with Replay() as replay:
            replay.send(f"port add 1 0200000000a1 p1 up\n{MARK}\n")
            self.holds("a row that prints nothing, and a mark", replay.lines(1) == [MARKED])
            replay.send(f"# a comment\n\nconnect\n{MARK}\n")
            self.holds("three rows, and a mark", replay.lines(2) == [GREETING, MARKED])
            replay.send("port remove 0")
            self.holds("a last row without its line end", replay.ends() == ("refused 8\n", 0))

    def test_parts(self):
        """A row in two writes is played when its line ends."""
        with Replay() as replay:
            replay.send("conn")
            time.sleep(0.05)
            replay.send("ect\n")
            self.holds("a row in two parts", replay.lines(1) == [GREETING])

    def test_in_words(self):
        with Replay("--explain") as replay:
            replay.send("connect\n")
            wanted = ["1: connect", "    to the controller: HELLO xid 0, 16 bytes"]
            self.holds("in words", replay.lines(2) == wanted)

    def test_not_blocking(self):
        """A standard input that does not block, on which nothing comes for two seconds: the program waits, and takes no processor time to speak of."""
        with Replay(blocking=False) as replay:
            replay.send("connect\n")
            self.holds("a row", replay.lines(1) == [GREETING])
            time.sleep(2)
            replay.send(f"{MARK}\n")
            self.holds("a row after two seconds", replay.lines(1) == [MARKED])
            before = os.times()
            self.holds("its end", replay.ends() == ("", 0))
            after = os.times()
            spent = after.children_user + after.children_system - before.children_user - before.children_system
            self.holds("its processor time", spent < 0.5, f"{spent:.2f} s")

    def test_bad_row(self):
        """The effects of the rows before it are printed, and the program ends by itself."""
        with Replay() as replay:
            replay.send("connect\nconnected\n")
            self.holds("a bad row", replay.lines(1) == [GREETING] and replay.running.wait(timeout=60) == 2)
