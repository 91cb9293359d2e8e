"""A switch as a value in a test."""

from __future__ import annotations

import contextlib
import functools
import os
import re
import tempfile
import threading
import warnings
import weakref
from collections.abc import Callable, Iterable, Iterator
from types import TracebackType
from typing import IO, Any, Protocol, cast

from . import rows
from .checking import check
from .difference import diff
from .dividing import paths
from .effects import Answer, Closed, Effect, Refused, effect_of
from .histories import history
from .importing import kind_option
from .library import Fault, load
from .program import MARK_ROW, MOST_READS, ProgramError, Run, StrPath, file_of, find, reads_of, received, run_to_end, table_options
from .requiring import require, unmet
from .rows import Octets
from .run_pcap import write_pcap
from .view import write_page

Watcher = Callable[[str, "list[Effect]"], None]


class Controller(Protocol):
    """The owner of the connection of a switch, such as a bridge."""

    def take(self, effects: list[Effect]) -> None:
        """Gets the effects of each row, as soon as it is played."""


# The most bytes of a log that stay in memory; a longer log goes to a temporary file.
_LOG_IN_MEMORY = 1 << 24

# How much of a log a new run of the program gets at a time, in bytes.
_BLOCK_SIZE = 1 << 20

# A HELLO, and a MULTIPART_REQUEST of the type PORT_DESC.
_PORT_DESC = bytes.fromhex("0400000800000000" "0412001000000001" "000d000000000000")

# Exit statuses: an argument or a file has a fault; `ofswitch import --skip` left lines out.
_BAD_ARGUMENT = 1
_BAD_FILE = 2
_LEFT_OUT = 4

# How many messages in words are kept, so that words that are used again start no program.
_MESSAGES_KEPT = 1024

# Hexadecimal digits, which are a frame as well as words are.
_DIGITS = re.compile(r"[0-9a-fA-F]+")


class Switch:
    """An OpenFlow 1.3 switch, at first without a connection, flows, groups and ports.

    It is a run of the program `ofswitch replay --ask -`. Each call plays one row of an event file (docs/EVENTS.md) and returns
    its effects, in order. If the arguments do not make a valid row, the call raises ValueError or TypeError before it sends
    anything to the program. Any thread may call it; calls wait for each other.
    """

    # the most reads of the program; before that a new run takes over, which has played the same rows
    MOST_READS = MOST_READS

    def __init__(
        self,
        program: StrPath | None = None,
        *,
        dpid: int = 1,
        log: StrPath | bool | None = None,
        timeout: float = 60.0,
    ) -> None:
        """Starts the program: the given one, the one that OFSWITCH names, or the one on the PATH.

        `dpid` is the datapath_id. If `log` is a path, the rows are also written to that file, as they are played. With
        `log=False` no row is kept, and `log`, `check`, `require`, `explain` and `pcap` are not available.
        Raises ProgramError if an answer takes longer than `timeout` seconds.
        """
        self._program = find(program)
        self._library = load() if program is None else None
        self._dpid = rows.dpid(dpid)
        self._options = [] if dpid == 1 else ["--dpid", str(dpid)]
        self._timeout = timeout
        # held while a row is played, and notified after it
        self._played = threading.Condition(threading.RLock())
        self._watchers: list[Watcher] = []
        # who has the connection, if a bridge does
        self._controller: Controller | None = None
        self._run = self._new_run()
        self._log = _log_file(log)
        self._log_has_path = log is not None and not isinstance(log, bool)
        if self._log is not None:
            weakref.finalize(self, self._log.close)
        self._port_names: dict[int, str] = {}
        self._is_connected = False
        # what the rows did in words, once somebody asked for it
        self._story: _Story | None = None

    # ---- rows

    def port_add(
        self, number: int, *, hw: rows.HwAddress | None = None, name: str | None = None, up: bool = True
    ) -> list[Effect]:
        """Adds a port. Without `hw` and `name` port 1 has the address 02:00:00:00:00:01 and the name p1.

        A name may be that of a host's interface, such as `s1-eth1` or `eth0.5`: the row has its letters and digits in lower
        case, and `port_names` keeps the name itself.
        """
        effects = self._play(rows.port_add(number, hw, name, up))
        if name is not None and not any(isinstance(it, Refused) for it in effects):
            self._port_names[number] = name
        return effects

    def port_remove(self, number: int) -> list[Effect]:
        effects = self._play(rows.port_remove(number))
        if not any(isinstance(it, Refused) for it in effects):
            self._port_names.pop(number, None)
        return effects

    def port_link(self, number: int, up: bool) -> list[Effect]:
        """Sets the link of a port up or down."""
        return self._play(rows.port_link(number, up))

    def connect(self) -> list[Effect]:
        """A controller connects: the switch sends HELLO."""
        return self._play(rows.connect())

    def lost(self) -> list[Effect]:
        """The connection with the controller is lost."""
        return self._play(rows.lost())

    def feed(self, data: Octets | str) -> list[Effect]:
        """The next bytes of the controller, which may be cut anywhere: bytes, a message of os-ken or pyof, or words, as `message_of` reads them."""
        return self._play(rows.feed(self.message_of(data) if isinstance(data, str) else data))

    def frame(self, port: int, frame: Octets | str) -> list[Effect]:
        """A frame comes in on a port: bytes, a packet of scapy or os-ken, or words, as `frame_of` reads them."""
        return self._play(rows.frame(port, self._octets(frame)))

    def at(self, nanoseconds: int) -> list[Effect]:
        """The time is this many nanoseconds after the start."""
        return self._play(rows.at(nanoseconds))

    def play(self, row: str) -> list[Effect]:
        """Plays a row of an event file, without its line end."""
        rows.check(row)
        return self._play(row)

    def play_all(self, many: Iterable[str]) -> list[list[Effect]]:
        """Plays rows in one write, and returns the effects of each. If one of them is not a valid row, none is played."""
        listed = list(many)
        for row in listed:
            rows.check(row)
        effects: list[list[Effect]] = []
        for part in _parts(listed):
            effects += self._play_all(part)
        return effects

    def load(
        self, text: str | os.PathLike[str], *, skip: bool = False, renumber: bool = False, port_names: StrPath | None = None
    ) -> list[Effect]:
        """Adds the groups and flows of a flow text (docs/FLOWTEXT.md), or of a file (a `pathlib.Path`), by the messages of a controller.

        If there is a connection, its HELLO must have been fed, and the messages come over it; otherwise a connection is made and
        closed again. Returns the answers: none, or an ERROR for each message that the switch refuses now. ValueError, with the
        line, if the text has a fault. The text may also be an event file, whose switch has these groups and flows, or what `ovs-ofctl`
        prints; for the last `skip`, `renumber` and `port_names` are as for `import_`.
        """
        return self._load(self._converted(["asm", *table_options(skip, renumber, port_names), *kind_option(text)], text))

    def import_(
        self, text: str | os.PathLike[str], *, skip: bool = False, renumber: bool = False, port_names: StrPath | None = None
    ) -> list[Effect]:
        """Adds the groups and flows of a text in the syntax of `ovs-ofctl` (docs/IMPORT.md), or of a file, as `load` does.

        With `skip` lines that this switch does not support are left out. With `renumber` the tables get the numbers 0, 1, 2 and so on.
        `port_names` is a file with the names of ports.
        """
        options = table_options(skip, renumber, port_names)
        return self.load(self._converted(["import", *options], text, good=(0, _LEFT_OUT)))

    def watch(self, watcher: Watcher) -> None:
        """From now on, calls this function with each row and its effects, in the order of the rows, also for rows that a bridge plays."""
        self._watchers.append(watcher)

    # ---- queries, which change nothing

    @property
    def log(self) -> str:
        """The rows so far: an event file for which `ofswitch replay` prints the same effects."""
        with self._played:
            return self._log_bytes().decode()

    def check(self, *, steps: int | None = None) -> dict[str, Any]:
        """The flows that never win, and other likely mistakes (docs/CHECK.md), as `ofswitch.check` returns them."""
        return check(self._events(), steps=steps, program=self._program)

    def diff(self, other: Switch, *, frames: bool = False, steps: int | None = None) -> dict[str, Any]:
        """The frames that this switch and another one treat differently, as they are now (docs/DIFF.md), as `ofswitch.diff` returns them."""
        return diff(self._events(), other._events(), frames=frames, steps=steps, program=self._program)

    def paths(
        self,
        *,
        port: int | None = None,
        match: str | None = None,
        each: bool = False,
        to: int | str | None = None,
        steps: int | None = None,
    ) -> dict[str, Any]:
        """The steps that the frames take that this switch receives, as it is now (docs/PATHS.md), as `ofswitch.paths` returns them."""
        return paths(self._events(), port=port, match=match, each=each, to=to, steps=steps, program=self._program)

    def require(self, requirements: str | os.PathLike[str], *, steps: int | None = None) -> list[dict[str, Any]]:
        """Asserts for all frames that this switch, as it is now, meets requirements (docs/REQUIRE.md): lines of a text, or of a file.

        AssertionError if one fails or is undecided, with the frame that shows it and its trace. A warning says which of the others
        hold only because the switch receives no frame that matches. Returns what `ofswitch.require` returns.
        """
        # a failure shows the line of the test
        __tracebackhide__ = True
        found = require(self._events(), requirements, steps=steps, program=self._program)
        if reasons := unmet(found, self.trace):
            raise AssertionError(reasons.rstrip())
        for it in found:
            if not it["matches"]:
                warnings.warn(f"{it['requirement']}: the switch receives no frame that matches", stacklevel=2)
        return found

    def history(self, port: int, frame: Octets | str) -> list[dict[str, Any]]:
        """Since when a frame goes where it goes, and who did it: the changes of its fate (docs/HISTORY.md), as `ofswitch.history` returns them."""
        return history(self._events(), port, self._octets(frame), dpid=self._dpid, program=self._program)

    def history_of(self, flow: str) -> list[dict[str, Any]]:
        """When the flow entries that have these words came, changed and went, and by what: "table=0,ip,nw_dst=10.0.0.0/8" (docs/HISTORY.md)."""
        return history(self._events(), flow=flow, dpid=self._dpid, program=self._program)

    def frame_of(self, words: str) -> bytes:
        """The frame that has these fields: "tcp,nw_src=10.0.0.1,tp_dst=80" (docs/TRACE.md). ValueError if there is none.

        Hexadecimal digits are a frame, too.
        """
        if "in_port" in words:
            raise ValueError("in_port: the port is an argument of its own")
        if words.isascii() and words.isprintable() and not _DIGITS.fullmatch(words):
            if self._library is not None:
                # what is wrong with words is left to the program
                with contextlib.suppress(Fault):
                    return self._library.frame_in_words(words)[1]
            answer = self._answer(f"bytes {words}").rstrip()
            if _DIGITS.fullmatch(answer):
                return bytes.fromhex(answer)
        # a run of its own says what is wrong with the words
        return _frame_in_words(self._program, words, self._timeout)

    def message_of(self, words: str) -> bytes:
        """The message of a controller that words say: "flow priority=10,ip,actions=output:2" (docs/EVENTS.md). ValueError if there is none."""
        return _message_in_words(self._program, words, self._timeout)

    def steps(self, port: int, frame: Octets | str, *, explain: bool = False) -> str:
        """Each step that this frame would take now, one per line, and then what leaves (docs/TRACE.md); with notes if `explain`."""
        return self._answer(f"{'explain' if explain else 'trace'} {rows.frame(port, self._octets(frame)).removeprefix('f ')}")

    @property
    def keeps_log(self) -> bool:
        """Whether there is a log; not with `log=False`."""
        return self._log is not None

    @property
    def program(self) -> str:
        """The path of the program."""
        return self._program

    @property
    def port_names(self) -> dict[int, str]:
        """The names that were passed to `port_add`, by the port's number."""
        return dict(self._port_names)

    @property
    def dpid(self) -> int:
        """The datapath_id."""
        return self._dpid

    @property
    def replay_options(self) -> list[str]:
        """The options that `ofswitch replay` needs to play the log, in addition to the file."""
        return list(self._options)

    def flows(self) -> str:
        """The groups and flow tables now, as flow text (docs/FLOWTEXT.md)."""
        return self._answer("flows")

    def explain(self) -> str:
        """The rows so far and what each did, in words (docs/EVENTS.md).

        A second run of the program plays the rows of the log that are new since the last call.
        """
        with self._played, self._log_from_start() as log:
            if self._story is None:
                self._story = _Story(self._new_run("--explain"))
            self._story.follow(log)
            return self._story.text()

    def trace(self, port: int, frame: Octets | str) -> str:
        """What this frame would do now, in words: how it comes in, each lookup, and what leaves."""
        notes = self._answer(f"frame {rows.frame(port, self._octets(frame)).removeprefix('f ')}")
        return "".join(line.removeprefix("    ") for line in notes.splitlines(keepends=True))

    def pcap(self, path: StrPath) -> None:
        """Writes all frames and messages so far as a pcapng file: an interface for each port, and one for the controller's messages.

        Frames and messages have the time of the `t` row before them. The program plays the log again.
        """
        with self._played:
            log = self._log_bytes().decode()
        lines = log.split("\n")[:-1]
        with Switch(self._program, dpid=self._dpid, log=False, timeout=self._timeout) as again:
            write_pcap(path, zip(lines, again.play_all(lines)), self._port_names)

    def ports(self) -> list[dict[str, Any]]:
        """The ports now, as a PORT_DESC reply has them (OpenFlow 1.3.5, 7.3.5.7). The program plays the log again."""
        with self._played:
            log = self._log_bytes().decode()
        with Switch(self._program, dpid=self._dpid, log=False, timeout=self._timeout) as again:
            again.play_all(log.split("\n")[:-1])
            again.lost()
            again.connect()
            [answer] = cast("list[Any]", again.feed(_PORT_DESC))
            return cast("list[dict[str, Any]]", answer.fields["body"])

    def view(self, path: StrPath, *, frame: tuple[int, Octets | str] | None = None) -> None:
        """Writes a page that shows the rows so far in a browser (docs/VIEW.md), with the fate of a frame, if its port and itself are given."""
        shown = None if frame is None else (frame[0], rows.as_bytes(self._octets(frame[1])).hex())
        with self._played:
            log = self._log_bytes()
        write_page(path, log, f"switch {self._dpid}", self._program, self._options, shown)

    @property
    def pid(self) -> int:
        """The process id of the program. It changes after four thousand million reads."""
        return self._run.pid

    # ---- its end

    def close(self) -> None:
        """Ends the program. The log stays."""
        self._run.close()
        if self._story is not None:
            self._story.close()

    def __enter__(self) -> Switch:
        return self

    def __exit__(
        self, kind: type[BaseException] | None, fault: BaseException | None, trace: TracebackType | None
    ) -> None:
        self.close()

    # ---- for a bridge

    def attach(self, controller: Controller) -> threading.Condition:
        """From now on a bridge has the connection. The returned condition is held while a row is played, and notified after it."""
        with self._played:
            if self._controller:
                raise RuntimeError("a bridge has the connection already")
            self._controller = controller
        return self._played

    def detach(self) -> None:
        """The bridge no longer has the connection."""
        with self._played:
            self._controller = None

    def play_for_controller(self, row: str) -> list[Effect]:
        """Plays a row about the connection for the bridge that has it."""
        return self._play(row, of_controller=True)

    # ---- inside

    def _play(self, row: str, *, of_controller: bool = False) -> list[Effect]:
        return self._play_all([row], of_controller=of_controller)[0]

    def _play_all(self, many: list[str], *, of_controller: bool = False) -> list[list[Effect]]:
        with self._played:
            if self._controller and not of_controller and any(map(rows.is_of_controller, many)):
                raise RuntimeError("a bridge has the connection with the controller")
            lines = [it.encode() + b"\n" for it in many]
            text = b"".join(it + MARK_ROW for it in lines)
            self._make_room(len(text))
            self._keep(lines)
            printed = self._run.play_each(text, len(many))
            effects = [[effect_of(it) for it in part] for part in printed]
            for row, its in zip(many, effects):
                self._see_connection(row, its)
                if self._controller:
                    self._controller.take(its)
                for watcher in self._watchers:
                    watcher(row, its)
            self._played.notify_all()
            return effects

    def _make_room(self, size: int) -> None:
        """Makes sure that the program will read so many more bytes."""
        if self._run.reads + 2 * reads_of(size) > self.MOST_READS:
            self._renew()
        self._run.check()

    def _answer(self, question: str) -> str:
        """What the program answers to a question (docs/EVENTS.md), which changes nothing."""
        asked = f"#? {question}\n".encode()
        with self._played:
            self._make_room(len(asked))
            lines = self._run.play_each(asked, 1)[0]
        return "".join(f"{it.decode()}\n" for it in lines)

    def _see_connection(self, row: str, effects: list[Effect]) -> None:
        """Notes whether there is a connection after a row."""
        if row == rows.connect():
            self._is_connected = True
        elif row == rows.lost() or any(isinstance(it, Closed) for it in effects):
            self._is_connected = False

    def _keep(self, lines: list[bytes]) -> None:
        if self._log is not None:
            self._log.writelines(lines)
            if self._log_has_path:
                self._log.flush()

    def _events(self) -> str:
        """The log, as an event file also if it is empty."""
        return self.log or f"{rows.at(0)}\n"

    def _new_run(self, *options: str) -> Run:
        words = ["replay", *self._options, *options, "--ask", "--reads", str(self.MOST_READS), "-"]
        return Run([self._program, *words], self._timeout)

    def _renew(self) -> None:
        """Replaces the program by a new run, which plays the log first: the same rows lead to the same switch."""
        if self._log is None:
            raise ProgramError(f"the program reads at most {self.MOST_READS} times, and without a log no new run can take over")
        run = self._new_run()
        with self._log_from_start() as log:
            while block := log.read(_BLOCK_SIZE):
                run.play(block + log.readline())
        self._run.close()
        self._run = run

    def _log_bytes(self) -> bytes:
        with self._log_from_start() as log:
            return log.read()

    @contextlib.contextmanager
    def _log_from_start(self) -> Iterator[IO[bytes]]:
        """The log, for reading; afterwards rows are appended to it again, whatever happens."""
        if self._log is None:
            raise RuntimeError("this switch keeps no log")
        self._log.seek(0)
        try:
            yield self._log
        finally:
            self._log.seek(0, os.SEEK_END)

    def _octets(self, frame: Octets | str) -> Octets:
        return self.frame_of(frame) if isinstance(frame, str) else frame

    def _converted(self, words: list[str], text: str | os.PathLike[str], good: tuple[int, ...] = (0,)) -> str:
        """The output of the program for a text or a file. ValueError if it has a fault, or options of another kind."""
        # for a file, but not for standard input, the program explains the fault in words
        with file_of(text) as file:
            try:
                return run_to_end([self._program, *words, file], b"", self._timeout, good)
            except ProgramError as fault:
                if fault.status not in (_BAD_ARGUMENT, _BAD_FILE):
                    raise
                raise ValueError(fault.said) from None

    def _load(self, events: str) -> list[Effect]:
        """Plays the messages of an event file of `asm`, which begins with `connect` and a HELLO."""
        connect, hello, *messages = events.split("\n")[:-1]
        with self._played:
            if self._is_connected:
                return [it for its in self._play_all(messages) for it in its] if messages else []
            effects = self._play_all([connect, hello, *messages])
            self._play(rows.lost())
        # without the HELLO of the switch
        return [it for its in effects[1:] for it in its]


class _Story:
    """What the rows of a log did, in words: a run that follows the log."""

    def __init__(self, run: Run) -> None:
        self._run = run
        # how many bytes of the log were played, and in how many parts
        self._at = 0
        self._parts = 0
        self._lines: list[bytes] = []

    def follow(self, log: IO[bytes]) -> None:
        """Plays the rows that are new."""
        log.seek(self._at)
        while block := log.read(_BLOCK_SIZE):
            block += log.readline()
            self._lines += map(self._numbered, self._run.play(block))
            self._at += len(block)
            self._parts += 1

    def _numbered(self, line: bytes) -> bytes:
        """A line with the number of its row in the log: the run has a question behind each part."""
        number, colon, row = line.partition(b": ")
        return b"%d: %s" % (int(number) - self._parts, row) if colon and number.isdigit() else line

    def text(self) -> str:
        return b"".join(it + b"\n" for it in self._lines).decode()

    def close(self) -> None:
        self._run.close()


def _frame_in_words(program: str, words: str, timeout: float) -> bytes:
    """The frame that has the fields of these words. ValueError if there is none."""
    try:
        return received(program, words, 1, timeout)[1]
    except ProgramError as fault:
        if fault.status != _BAD_ARGUMENT:
            raise
        raise ValueError(fault.said) from None


@functools.lru_cache(maxsize=_MESSAGES_KEPT)
def _message_in_words(program: str, words: str, timeout: float) -> bytes:
    """The bytes of the message that these words say. ValueError if there is none."""
    try:
        return bytes.fromhex(run_to_end([program, "say", "--hex", words], b"", timeout))
    except ProgramError as fault:
        if fault.status not in (_BAD_ARGUMENT, _BAD_FILE):
            raise
        raise ValueError(fault.said) from None


def _parts(many: list[str]) -> Iterator[list[str]]:
    """The rows, in parts of about a block each."""
    part: list[str] = []
    size = 0
    for row in many:
        part.append(row)
        size += len(row)
        if size > _BLOCK_SIZE:
            yield part
            part, size = [], 0
    if part:
        yield part


def _log_file(path: StrPath | bool | None) -> IO[bytes] | None:
    if path is False:
        return None
    if path is not None and path is not True:
        return open(path, "w+b")
    return cast("IO[bytes]", tempfile.SpooledTemporaryFile(max_size=_LOG_IN_MEMORY))
