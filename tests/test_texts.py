"""Compares what the program prints with texts that come from elsewhere.

Cases of tests/texts.txt: which entries win, and remarks (`check`); tables of Open vSwitch as flow text and as JSON (`import`); questions in
an event file; each word of ovs-ofctl that is read, and how many have no line there. Faults of flow texts, and their canonical text. Each line
that the tables of of_hints describe is read, and not with a wrong or an extra word, which the hint names.
"""
import glob
import json
import os
import re

from tests import findings
from tests.program import TOP, Case, fed, read, rows

CASE = re.compile(r"^== (.*?) : (.*)\n((?:(?!-> ).*\n)*)-> (\d)\n((?:(?!== ).*\n)*)", re.M)


def findings_in(document):
    """The findings of a report as JSON, a line each, without the packets."""
    return "".join(f"{re.sub(' in_port.*', '', it)}\n" for it in findings.lines(json.loads(document)))


KEYWORDS = re.compile(r"^== words of (\w+) : .*\n((?:(?!== ).*\n)*)", re.M)
# where the words are in the sources: the rows of five tables, and what is compared with a word elsewhere
TABLES = {it: f"of_ovs_words/src/{it[:-1]}_word.rt" for it in ("fields", "heads", "protocols", "actions", "ports")}
OTHERS = ("of_ovs_words/src/*.rt", "of_ovs_lines/src/line.rt", "of_ovs_lines/src/partial_*.rt")
# the first line of the flow text of a flow that says nothing of itself
HEAD = "flow 0 32768 0x0000000000000000 0 0 0"


def words_read(kind):
    """The words of ovs-ofctl in the sources."""
    if kind in TABLES:
        return {*re.findall(r'^    \w+!\(b"(\w+)"', read(f"crates/{TABLES[kind]}"), re.M)}
    paths = [it for pattern in OTHERS for it in glob.glob(f"{TOP}/crates/{pattern}")]
    return {word for it in paths for word in re.findall(r'(?:\bis\([\w()]+, |_ignore_ascii_case\()b"([A-Za-z]\w+)"', read(os.path.relpath(it, TOP)))}


GROUPS = {
    "a group holds 16 buckets": "group 1 all\n" + "bucket 0 4294967295 4294967295\n" * 17,
    "a switch holds 256 groups": "".join(f"group {number} all\n" for number in range(1, 258)),
}

# ports, HELLO, a flow from port 1 to port 2, and a link that goes down; the last line does not end
EVENTS = """\
port add 1 020000000001 p1 up
port add 2 020000000002 p2 up
connect
c 0400000800000001
c 040e00580000000200000000000000000000000000000000000000000000000affffffffffffffffffffffff000000000001000c800000040000000100000000000400180000000000000010000000020000000000000000
port link 2 down"""

# a comment, an empty line, and flows of two tables out of order; its last line does not end
TEXT = """\
# a comment
flow 3 10 0x00000000000000ff 5 10 1
write
push_vlan 0x8100
metadata 0x0000000000000001 0x000000000000000f

flow 0 10 0x0000000000000000 0 0 0
match in_port 0x00000001
match eth_type 0x0800
match ipv4_src 0x0a000000 0xff000000
apply
output 2 0
set ipv4_dst 0x0a000001
goto 3"""

CANONICAL = """\
flow 0 10 0x0000000000000000 0 0 0
match in_port 0x00000001
match eth_type 0x0800
match ipv4_src 0x0a000000 0xff000000
apply
output 2 0
set ipv4_dst 0x0a000001
goto 3
flow 3 10 0x00000000000000ff 5 10 1
write
push_vlan 0x8100
metadata 0x0000000000000001 0x000000000000000f
"""

FLOW = "flow 0 10 0x0000000000000000 0 0 0"

# texts, and their fault
TEXT_FAULTS = [
    (f"{FLOW}\ngroup 1 all", "line 2: syntax"),
    ("group 1 all\ngroup 1 all", "line 2: syntax"),
    (f"{FLOW}\napply\nto_group 3\nflow 0 010", "line 4: syntax"),
    (f"{FLOW}\n{FLOW}", "line 2: type 5 code 3"),
    (f"{FLOW}\napply\nto_group 3", "line 1: type 2 code 9"),
    ("flow 16 10 0x0000000000000000 0 0 0", "line 1: type 5 code 2"),
    ("flow 0 10 0x0000000000000000 0 0 2", "line 1: type 5 code 7"),
    (f"#\n{FLOW}\nmatch ipv4_dst 0x0a000001", "line 2: type 4 code 9"),
    ("group 4294967041 all", "line 1: type 6 code 1"),
    ("group 1 indirect", "line 1: type 6 code 1"),
    ("group 1 all\nbucket 0 0 0\noutput 0 0", "line 1: type 2 code 4"),
    ("group 1 ff\nbucket 0 4294967295 4294967295", "line 1: type 6 code 13"),
    ("group 1 all\nbucket 0 0 0\nto_group 2", "line 1: type 2 code 9"),
    ("group 1 ff\nbucket 0 4294967295 2", "line 1: type 6 code 13"),
    ("group 1 all\nbucket 0 0 0\nto_group 1", "line 1: type 6 code 7"),
    # a group that is refused alone exists, and names none: so 2 is the first of those that are refused
    ("group 1 all\nbucket 0 0 0\nto_group 2\ngroup 2 indirect\ngroup 3 all", "line 4: type 6 code 1"),
    # of a chain of four the first alone is refused
    (
        "group 1 all\ngroup 2 all\nbucket 0 0 0\nto_group 3\ngroup 3 all\nbucket 0 0 0\nto_group 4\ngroup 4 all\nbucket 0 0 0\nto_group 1",
        "line 2: type 6 code 7",
    ),
]

# a word of each kind, which with `0` behind it is no more of the kind: the largest number, and the longest name
WORDS = {
    "Hex(8)": "0xffffffffffffffff",
    "Value": "0xffff",
    "Mask": "0x0fff",
    "Bytes": "0aFF",
    "Hardware": "0200000000aF",
    "PortName": "abcdefghijklmz9",
    "State": "down",
    "GroupKind": "indirect",
    "Field": "eth_type",
}
# what a line of a flow text needs before it
BEFORE = {"group": "", "flow": "", "bucket": "group 1 all\n"}


def word_of(kind, constants):
    kind = constants.get(kind, kind).removeprefix("Word::")
    number = re.fullmatch(r"Decimal\((.*)\)", kind)
    if number:
        return str(2**64 - 1 if number[1] == "u64::MAX" else int(number[1].replace("_", ""), 0))
    return WORDS[kind]


def forms(table):
    """The forms of a table of of_hints: name, words of the largest value, and usage."""
    source = read("crates/of_hints/src/forms.rt")
    constants = dict(re.findall(r"^pub const (\w+): Word = (.*);$", source, re.M))
    count, body = re.search(rf"^pub const {table}: \[Form; (\d+)\] = \[\n(.*?)^\];", source, re.M | re.S).groups()
    found = re.findall(r'name: b"(.*)",\n *words: &\[(.*)\],\n *usage: "(.*)",', body)
    if len(found) != int(count):
        raise ValueError(f"{len(found)} of the {count} forms of {table}")
    return [(name, [word_of(it, constants) for it in kinds.split(", ") if it], usage) for name, kinds, usage in found]


def line_of(name, words, usage):
    """The line that the usage shows, if it shows two the one with more words, with these words behind its name."""
    count = len(name.split(" "))
    shown = usage.split(", or ")[-1].split(" ")
    return " ".join([*shown[:count], *words, *shown[count + len(words) :]])


def verdict(command, before, line):
    """Whether a line is read, and the hint if it is not."""
    done = fed(f"{before}{line}\n", command, "-")
    kind = "bad row" if command == "replay" else "syntax"
    fault, hint = [*done.err.splitlines(), "", ""][:2]
    number = before.count("\n") + 1
    return fault != f"line {number}: {kind}", hint.removeprefix(f"-:{number}:")


class Texts(Case):
    def test_texts(self):
        whole = read("tests/texts.txt")
        cases = CASE.findall(whole)
        self.same("cases of texts.txt", len(cases), len(re.findall("^== (?!words of )", whole, re.M)))
        for command, what, text, status, wanted in cases:
            done = fed(text, *command.split())
            out = findings_in(done.out) if command.startswith("check --json") else done.out
            self.same(f"{command}: {what}", (done.status, out), (int(status), wanted))
            if status == "0" or "--json" in command:
                self.same(f"{command}: {what}: standard error", done.err, "")
            if command.startswith("import") and "--json" not in command:
                lines = json.loads(fed(text, *command.split(), "--json").out)["text"]
                self.same(f"{command} --json: {what}", lines, wanted.splitlines())

    def test_words(self):
        """Each word has a line in texts.txt, in which it is, and the line is read as the third column says, or refused so."""
        listed = {kind: rows(text) for kind, text in KEYWORDS.findall(read("tests/texts.txt"))}
        self.same("words of texts.txt", [*listed], [*TABLES, "others"])
        needed = {(kind, word) for kind in listed for word in words_read(kind)}
        lacking = needed - {(kind, row[0]) for kind, lines in listed.items() for row in lines}
        print(f"{len(needed)} words of ovs-ofctl, {len(lacking)} without a line in tests/texts.txt")
        self.same("words without a line", sorted(lacking), [])
        for kind, lines in listed.items():
            for word, line, wanted in lines:
                done = fed(line.replace(" & ", "\n"), "import", "-")
                if done.status == 0:
                    found = "; ".join(it for it in done.out.splitlines() if it != HEAD)
                else:
                    found = done.err[: len(wanted)]
                is_there = (kind, word) in needed and re.search(rf"(?<![a-z_]){word}(?![a-z0-9])", line, re.I)
                self.same(f"the word {word} of {kind} in {line}", (bool(is_there), found), (True, wanted))

    def test_refused_groups(self):
        for sentence, text in GROUPS.items():
            done = fed(text, "asm", "-")
            # behind the file and the line
            said = [it.split(": ", 1)[-1] for it in done.err.splitlines()[2:3]]
            self.same(f"the sentence of a refused group: {sentence}", (done.status, said), (2, [sentence]))

    def test_first_lines(self):
        asked = ["trace", "--port", "1", "02000000000202000000000188b5", "--lines", "--events", "-"]
        lines = EVENTS.splitlines(keepends=True)
        for count in range(len(lines) + 2):
            wanted = fed("".join(lines[:count]), *asked).out
            self.same(f"a trace after {count} lines", fed(EVENTS, *asked, "--at", str(count + 1)).out, wanted)
        self.same("a trace after all of them", fed(EVENTS, *asked).out, "lookup 0 entry 0\napply\noutput 2 0\nset\nend\n")

    def test_flow_texts(self):
        self.same("a canonical text", fed(fed(TEXT, "asm", "-").out, "dis", "-").out, CANONICAL)
        self.same("one flow", fed(FLOW, "asm", "-").status, 0)
        for text, fault in TEXT_FAULTS:
            done = fed(text, "asm", "-")
            self.same(f"asm of {text!r}", (done.status, done.out, done.err.splitlines()[:1]), (2, "", [fault]))

    def hints(self, table, command):
        for name, words, usage in forms(table):
            before = BEFORE.get(name, f"{FLOW}\n") if command == "asm" else ""
            line = line_of(name, words, usage)
            self.same(f"the line {line}", (line.startswith(name), verdict(command, before, line)[0]), (True, True))
            is_read, hint = verdict(command, before, f"{line} 0")
            missing = f" a missing or extra word: write {usage}"
            self.same(f"the line {line} 0", (is_read, hint[: len(missing)]), (False, missing))
            for place in range(len(words)):
                wrong = line_of(name, [it + "0" * (at == place) for at, it in enumerate(words)], usage)
                is_read, hint = verdict(command, before, wrong)
                named = f"{len(name.split(' ')) + place + 1}: "
                self.same(f"the line {wrong}", (is_read, hint[: len(named)]), (False, named))

    def test_rows(self):
        self.hints("EVENT_ROWS", "replay")

    def test_lines(self):
        self.hints("FLOW_LINES", "asm")

