"""Compares a C library that tools/library made with the program; OFSWITCH_LIBRARY is the path of its libofswitch.so.

Each call is made by ctypes for the files in examples/, and with the beginnings of these files; its text and its status are those of the command. A
living switch gives for the rows of an event file, one by one, what `replay` prints for the whole file. Then examples/embed.c is compiled and run, under
valgrind if that is installed, and the tests of the Python module over the library, if pytest is.
"""
import ctypes
import glob
import json
import os
import shutil
import subprocess
import tempfile
import unittest

from tests.program import PROGRAM, TOP, Case

LIBRARY = os.path.dirname(os.path.realpath(os.environ.get("OFSWITCH_LIBRARY", "")))
FRAME = "0200000000020200000000010806000108000604000102000000000a0a00000000000000000a0a000001"
STEPS = 100000
NOT_RUN = b"this switch cannot run these flows"
REQUIRED = f"{TOP}/examples/office.req"
WORDS = ["arp", "tcp,nw_src=10.0.0.1,tp_dst=80", "in_port=3,ip,nw_ttl=7", "udp6,ipv6_dst=2001:db8::1", "no=word", "tcp,nw_proto=17"]
# a port, a match, the place to which paths lead, as a word and as a number, and whether each set of frames is a path
PATHS = [
    (0, "", "", 0, False),
    (1, "", "", 0, True),
    (0, "ip,nw_dst=10.0.0.0/8", "controller", 0xFFFFFFFD, False),
    (0, "arp", "drop", 0xFFFFFFFF, False),
    (0, "", "2", 2, False),
    (77, "", "", 0, False),
    (0, "no=word", "", 0, False),
]


with open(REQUIRED, "rb") as lines:
    REQUIREMENTS = lines.read()


class Answer(ctypes.Structure):
    """struct ofswitch_answer"""

    _fields_ = [("length", ctypes.c_size_t), ("line", ctypes.c_uint64), ("status", ctypes.c_uint8)]


def given(data):
    return [ctypes.c_char_p(data), ctypes.c_size_t(len(data))]


class Calls:
    """The calls of the library, whose text comes into a buffer of this size first."""

    def __init__(self, room):
        self.library, self.room = ctypes.CDLL(f"{LIBRARY}/libofswitch.so"), room

    def call(self, name, *words):
        """The status, the line and the text of a call."""
        room = self.room
        while True:
            text, answer = ctypes.create_string_buffer(room + 1), Answer()
            text.raw = b"\xee" * (room + 1)
            getattr(self.library, f"ofswitch_{name}")(*words, text, ctypes.c_size_t(room), ctypes.byref(answer))
            if text.raw[room] != 0xEE:
                raise MemoryError(f"{name} wrote behind the buffer")
            if answer.length <= room:
                if text.raw[answer.length :].strip(b"\xee"):
                    raise MemoryError(f"{name} wrote behind its text")
                return answer.status, answer.line, text.raw[: answer.length]
            room = answer.length


class Living:
    """A switch that lives between calls, in our own memory."""

    def __init__(self, calls, dpid):
        self.calls = calls
        size = calls.library.ofswitch_size
        size.restype = ctypes.c_size_t
        # aligned to 16
        self.memory = ctypes.create_string_buffer(size() + 16)
        self.at = ctypes.c_void_p(-(-ctypes.addressof(self.memory) // 16) * 16)
        calls.library.ofswitch_begin(ctypes.c_uint64(dpid), self.at)

    def play(self, line):
        """The status and the text of a row, by the call of its kind."""
        kind, *words = line.split(b" ")
        if (kind, len(words)) == (b"c", 1):
            call = "feed", self.at, *given(unhex(words[0]))
        elif (kind, len(words)) == (b"f", 2):
            call = "frame", self.at, ctypes.c_uint32(int(words[0])), *given(unhex(words[1]))
        elif (kind, len(words)) == (b"t", 1):
            call = "moment", self.at, ctypes.c_uint64(int(words[0]))
        else:
            return self.play_text(line)
        status, _, text = self.calls.call(*call)
        return status, text

    def play_text(self, line):
        status, _, text = self.calls.call("row", self.at, *given(line))
        return status, text

    def end(self):
        self.calls.library.ofswitch_end(self.at)


def unhex(word):
    return b"" if word == b"-" else bytes.fromhex(word.decode())


def ran(data, *words):
    done = subprocess.run([PROGRAM, *words], input=data, capture_output=True, timeout=60)
    return done.returncode, done.stdout


def without_missing(out):
    """Without the lines about ports that are named and missing, which a call says by its status."""
    return b"".join(it for it in out.splitlines(True) if not it.endswith(b" is named, and the switch does not have it\n"))


def files():
    """Files that describe a switch, and what is left of them where they are cut."""
    for path in sorted(glob.glob(f"{TOP}/examples/*")):
        if path.endswith((".flows", ".events", ".txt")):
            with open(path, "rb") as file:
                data = file.read()
            yield os.path.basename(path), data
            for cut in (len(data) // 3, len(data) - 3):
                yield f"the first {cut} bytes of {os.path.basename(path)}", data[:cut]


# a switch by the inline functions of the header, and the rows that it plays
BY_HEADER = r"""
#include <ofswitch.h>
static struct ofswitch_answer answer;
static uint8_t text[4096];
static void print_text(void) { fwrite(text, 1, answer.length, stdout); }
int main(void) {
    const uint8_t hello[8] = {4, 0, 0, 8, 0, 0, 0, 1}, hw[6] = {2, 0, 0, 0, 0, 0xa1};
    struct ofswitch_switch *at = ofswitch_new(1);
    ofswitch_row(at, (const uint8_t *)"connect", 7, text, sizeof text, &answer), print_text();
    ofswitch_feed(at, hello, sizeof hello, text, sizeof text, &answer), print_text();
    ofswitch_port(at, 4294967040, hw, "abcdefghijklmno", false, text, sizeof text, &answer), print_text();
    ofswitch_port(at, 1, hw, "abcdefghijklmnop", true, text, sizeof text, &answer);
    ofswitch_free(at);
    return answer.status;
}
"""
BY_ROWS = b"connect\nc 0400000800000001\nport add 4294967040 0200000000a1 abcdefghijklmno down\nport add 1 0200000000a1 abcdefghijklmnop up\n"


def compiled(source, program):
    """Compiles a program over the library; how it is run: under valgrind, if that is installed."""
    words = ["cc", "-std=c11", "-Wall", "-Wextra", "-Werror", f"-I{LIBRARY}", source, f"-L{LIBRARY}", f"-Wl,-rpath,{LIBRARY}"]
    subprocess.run([*words, "-lofswitch", "-o", program], check=True)
    return ["valgrind", "--quiet", "--leak-check=full", "--error-exitcode=99"] if shutil.which("valgrind") else []


@unittest.skipUnless(os.path.isfile(os.environ.get("OFSWITCH_LIBRARY", "")), "OFSWITCH_LIBRARY names no libofswitch.so (tools/library makes it)")
class Library(Case):
    slow = True

    def test_files(self):
        for at, (name, data) in enumerate(files()):
            self.compare(Calls((0, 1, 100, 1 << 16)[at % 4]), name, data)
            if name.endswith(".events"):
                self.compare_living(Calls(1 << 20), name, data)

    def compare(self, calls, name, data):
        frame = bytes.fromhex(FRAME)
        for json_word in ["--json"], []:
            words = ctypes.c_bool(not json_word)
            status, _, text = calls.call("trace", *given(data), ctypes.c_uint32(1), *given(frame), words)
            wanted, out = ran(data, "trace", *json_word, "--port", "1", "-", FRAME)
            # if the file is at fault, the command prints why as JSON
            self.same(f"trace {json_word} of {name}", (status, text), (wanted, without_missing(out) if status in (0, 5) else b""))
            status, _, text = calls.call("check", *given(data), ctypes.c_size_t(STEPS), words)
            wanted, out = ran(data, "check", *json_word, "-")
            if out.startswith(NOT_RUN):
                # the command looks at a table that the switch cannot run, the library does not
                wanted, out = 2, b""
            self.same(f"check {json_word} of {name}", (status, text), (wanted, without_missing(out) if status in (0, 4, 5) else b""))
            status, _, text = calls.call("require", *given(data), *given(REQUIREMENTS), ctypes.c_size_t(STEPS), words)
            wanted, out = ran(data, "check", "--require", REQUIRED, *json_word, "-")
            self.same(f"requirements {json_word} of {name}", (status, text), (wanted, without_missing(out) if status in (0, 4, 5) else b""))
        for skip, renumber in (False, False), (True, False), (True, True):
            words = ["--skip"] * skip + ["--renumber"] * renumber
            status, _, text = calls.call("import", *given(data), ctypes.c_bool(skip), ctypes.c_bool(renumber))
            self.same(f"import {words} of {name}", (status, text), ran(data, "import", "--json", *words, "-"))
        if ".events" in name:
            status, line, text = calls.call("replay", *given(data), ctypes.c_uint64(1))
            self.same(f"replay of {name}", (status, text), ran(data, "replay", "-"))
            self.same(f"replay of {name}: a line at fault", line > 0, status == 2)
            status, _, text = calls.call("explain", *given(data), ctypes.c_uint64(1))
            self.same(f"explain of {name}", (status, text), ran(data, "replay", "--explain", "--json", "-"))

    def compare_living(self, calls, name, data):
        """Each row of a file on a living switch, by the call of its kind and as text, gives what `replay` prints for it."""
        wanted = ran(data, "replay", "-")[1]
        if not data.endswith(b"\n"):
            return
        for way in "play", "play_text":
            switch = Living(calls, 1)
            played = [getattr(switch, way)(line) for line in data.split(b"\n")[:-1]]
            switch.end()
            self.same(f"{way} of {name}: the texts", b"".join(text for _, text in played), wanted)
            self.same(f"{way} of {name}: the statuses", {status for status, _ in played} - {0}, set())

    def test_row_faults(self):
        """What is not a row changes nothing."""
        calls = Calls(1 << 20)
        switch = Living(calls, 1)
        self.same("a row that is none", switch.play_text(b"no row"), (2, b""))
        self.same("the row after it", switch.play_text(b"connect"), (0, ran(b"connect\n", "replay", "-")[1]))
        self.same("a refused row", switch.play_text(b"connect"), (0, b"refused 4\n"))
        switch.end()

    def test_refusals(self):
        """What is not a requirement, a port that the switch does not have, and a file that is at fault, give no text."""
        calls = Calls(100)
        flows, steps, words = b"actions=output:2\n", ctypes.c_size_t(STEPS), ctypes.c_bool(True)
        self.same("a line that is no requirement", calls.call("require", *given(flows), *given(b"# none\nno word\n"), steps, words), (2, 2, b""))
        self.same("requirements of a file at fault", calls.call("require", *given(b"flow 0\n"), *given(b"no frame leaves by 2\n"), steps, words), (2, 1, b""))
        self.same("a port that a requirement names", calls.call("require", *given(flows), *given(b"no frame leaves by 7\n"), steps, words)[0], 0)
        self.same("a port that is missing", calls.call("trace", *given(flows), ctypes.c_uint32(7), *given(bytes(14)), words), (1, 0, b""))

    def test_words(self):
        calls = Calls(1 << 16)
        for words in WORDS:
            port = ctypes.c_uint32(1)
            status, _, frame = calls.call("frame_in_words", ctypes.byref(port), *given(words.encode()))
            code, out = ran(b"", "trace", "--flows", "-", "--ports", "1-9", "--json", *([] if "in_port" in words else ["--port", "1"]), words)
            wanted = (0, json.loads(out)["in_port"], json.loads(out)["frame"]) if code == 0 else (2, 1, "")
            self.same(f"the frame {words}", (status, port.value, frame.hex()), wanted)

    def test_pairs(self):
        """Differences and paths of some switches."""
        calls = Calls(1 << 16)
        texts = [(name, data) for name, data in files() if not name.startswith("the first")]
        for (name, data), (other, second) in zip(texts, texts[1:] + texts[:1]):
            with tempfile.NamedTemporaryFile() as file:
                file.write(second)
                file.flush()
                for frames, words in (False, False), (True, False), (True, True):
                    given_words = [ctypes.c_bool(frames), ctypes.c_size_t(STEPS), ctypes.c_bool(words)]
                    status, line, text = calls.call("diff", *given(data), *given(second), *given_words)
                    wanted, out = ran(data, "diff", *[] if words else ["--json"], *["--frames"] * frames, "-", file.name)
                    self.same(f"diff of {name} and {other}", (status, text), (wanted, out if status in (0, 4, 5) else b""))
                    self.same(f"diff of {name} and {other}: a line at fault", line > 0, status == 2)
            for at, (port, words, place, to, each) in enumerate(PATHS):
                in_words = at % 3 == 0
                options = [*(["--port", str(port)] if port else []), *(["--match", words] if words else []), *(["--to", place] if place else [])]
                given_words = [ctypes.c_uint32(port), *given(words.encode()), ctypes.c_uint32(to), ctypes.c_bool(each)]
                status, _, text = calls.call("paths", *given(data), *given_words, ctypes.c_size_t(STEPS), ctypes.c_bool(in_words))
                wanted, out = ran(data, "paths", *[] if in_words else ["--json"], *options, *["--each"] * each, "-")
                self.same(f"paths {options} of {name}", (status, text), (wanted, without_missing(out) if status in (0, 5) else b""))

    def test_header(self):
        """The inline functions of the header do what the rows of `replay` do."""
        with tempfile.TemporaryDirectory() as folder:
            with open(f"{folder}/header.c", "w", encoding="utf-8") as source:
                source.write(BY_HEADER)
            under = compiled(f"{folder}/header.c", f"{folder}/header")
            done = subprocess.run([*under, f"{folder}/header"], capture_output=True, timeout=300)
            self.same("the functions of the header", (done.returncode, done.stdout), ran(BY_ROWS, "replay", "-"))

    def test_example(self):
        """examples/embed.c prints what `replay` and `trace --json` do; valgrind finds neither a leak nor a wrong access."""
        with tempfile.TemporaryDirectory() as folder:
            program = f"{folder}/embed"
            under = compiled(f"{TOP}/examples/embed.c", program)
            for file, command, words in (
                ("router.flows", ["trace", "--json", "--port", "1", "-", FRAME], ["1", FRAME]),
                ("first-path.events", ["replay", "-"], []),
                ("statistics.events", ["replay", "-"], []),
            ):
                path = f"{TOP}/examples/{file}"
                with open(path, "rb") as text:
                    wanted = ran(text.read(), *command)
                done = subprocess.run([*under, program, path, *words], capture_output=True, timeout=300)
                self.same(f"examples/embed.c {file} {' '.join(under[:1])}", (done.returncode, done.stdout), wanted)

    def test_module(self):
        """The tests of the Python module over the library."""
        for python in "python3", "/usr/bin/python3":
            if not subprocess.run([python, "-c", "import pytest"], stderr=subprocess.DEVNULL).returncode:
                settings = {**os.environ, "OFSWITCH": PROGRAM, "OFSWITCH_LIBRARY": f"{LIBRARY}/libofswitch.so", "PYTHONPATH": f"{TOP}/python", "PYTHONDONTWRITEBYTECODE": "1"}
                words = [python, "-m", "pytest", "-q", "-p", "no:cacheprovider", f"{TOP}/python/tests/test_library.py"]
                done = subprocess.run(words, env=settings, stdout=subprocess.PIPE, stderr=subprocess.STDOUT, encoding="utf-8")
                self.same("the Python module", done.stdout if done.returncode else "", "")
                return
        self.skipTest("there is no pytest")
