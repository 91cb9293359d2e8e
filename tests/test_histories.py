"""Compares `history` of random logs with the switch at each of their lines.

A log has messages that add, modify and delete flows and groups, changes of ports, times, frames and messages that change nothing; some
rows complete several messages. These are failures:
- after a line, the fate of a frame that `history` printed last is not the trace of the frame before the next line (`ofswitch trace --at`)
- after a line, the flow entries that `history --flow` printed are not those of `replay --ask` with the question `flows` that are selected
- a change of which both sides are the same, or a time at which other entries go than those of which it is said that they expire
- a reason that the flow entries before and after the line do not show: an entry that was added was there, one that was replaced or
  modified is not there in both, or one that was deleted or expired is still there
- in all logs no flow expires, none is modified, none goes with its group, or one of the reasons is missing
"""
import json
import os
import re
import struct
import tempfile
import unittest

from tests.program import keep, ofswitch, random_cases

LOGS, ROWS = 120, 25
ANY = 0xFFFFFFFF
FRAMES = [bytes.fromhex(f"02000000000{to}02000000000988b5") + bytes(46) for to in (1, 2)]
ADD, MODIFY, MODIFY_STRICT, DELETE, DELETE_STRICT = range(5)
REASONS = {
    "added": "an entry was added, so another one wins",
    "replaced": "the entry was replaced",
    "modified": "the entry was modified",
    "deleted": "the entry was deleted",
    "expired": "the entry expired",
    "with its group": "the entry was deleted with its group",
    "buckets": "the buckets of a group changed",
    "port": "a port changed",
}


# ---- random logs
def message(kind, body):
    return struct.pack("!BBHI", 4, kind, 8 + len(body), 7) + body


def padded(match):
    """An OXM match of these bytes (OpenFlow 1.3.5, 7.2.3)."""
    return struct.pack("!HH", 1, 4 + len(match)) + match + bytes(-(4 + len(match)) % 8)


def some_match(pick):
    match = struct.pack("!HBBI", 0x8000, 0, 4, pick.choice((1, 2))) if pick.random() < 0.4 else b""
    return match + (struct.pack("!HBB6s", 0x8000, 3 << 1, 6, pick.choice(FRAMES)[:6]) if pick.random() < 0.5 else b"")


def some_actions(pick):
    """OUTPUT, or GROUP."""
    port, group = pick.choice((2, 3, 0xFFFFFFFB, 0xFFFFFFFD)), pick.choice((1, 2))
    return struct.pack("!HHI", 22, 8, group) if pick.random() < 0.3 else struct.pack("!HHIH6x", 0, 16, port, 0xFFFF)


def flow_mod(pick):
    command, table = pick.choice((ADD, ADD, ADD, MODIFY, MODIFY_STRICT, DELETE, DELETE_STRICT)), pick.choice((0, 0, 1))
    actions = some_actions(pick)
    instructions = struct.pack("!HH4x", 4, 8 + len(actions)) + actions
    if table == 0 and pick.random() < 0.4:
        instructions += struct.pack("!HHB3x", 1, 8, 1)
    idle, hard = pick.choice(((0, 0), (2, 0), (0, 3), (2, 3)))
    head = struct.pack("!QQBBHHHIIIH2x", pick.choice((0, 5)), 0, table, command, idle, hard, pick.choice((1, 2)), ANY, ANY, ANY, 0)
    return message(14, head + padded(some_match(pick)) + (instructions if command < DELETE else b""))


def group_mod(pick):
    """A group with a bucket for a port."""
    command = pick.choice((0, 0, 1, 2))
    action = struct.pack("!HHIH6x", 0, 16, pick.choice((2, 3)), 0)
    bucket = struct.pack("!HHII4x", 16 + len(action), 0, ANY, ANY) + action
    return message(15, struct.pack("!HBxI", command, 0, pick.choice((1, 2))) + (bucket if command < 2 else b""))


def some_row(pick, now):
    draw = pick.random()
    if draw < 0.08:
        return f"port link {pick.choice((1, 2, 3))} {pick.choice(('up', 'up', 'down'))}"
    if draw < 0.2:
        now[0] += pick.choice((500_000_000, 1_000_000_000, 2_000_000_000))
        return f"t {now[0]}"
    if draw < 0.32:
        return f"f {pick.choice((1, 2))} {pick.choice(FRAMES).hex()}"
    if draw < 0.36:
        return pick.choice(("# a comment", "lost", "port add 4 020000000004 p4 up", "port remove 4"))
    made = [pick.choice((flow_mod, flow_mod, flow_mod, group_mod, lambda pick: message(2, b"")))(pick) for _ in range(pick.choice((1, 1, 1, 2, 3)))]
    return "c " + b"".join(made).hex()


def some_log(pick):
    now = [0]
    start = [f"port add {it} 02000000000{it} p{it} up" for it in (1, 2, 3)] + ["connect", "c 0400000800000001"]
    return start + [some_row(pick, now) for _ in range(ROWS)]


# ---- what the program prints
def printed(*words, **options):
    done = ofswitch(*words, **options)
    if done.status:
        raise AssertionError(f"{words}: status {done.status}: {done.err}")
    return done.out


def changes(file, *words):
    return [json.loads(line) for line in printed("history", "--json", file, *words).splitlines()]


def fate_by_trace(file, line, port, frame):
    """The fate of a frame before a line, in the words of `history`, without packets to the controller, whose messages a trace prints."""
    done = ofswitch("trace", file, "--at", line, "--port", port, frame.hex())
    if done.status == 1 and done.err.startswith("bad --port"):
        return ["not received: there is no such port"]
    traced = done.out.splitlines()
    if traced[0].endswith("so the frame is dropped"):
        return [f"not received: {re.search(r': (the port .*|there is no such port), so', traced[0])[1]}"]
    # `history` does not say why an output or a group sends nothing
    return [re.sub(r": entry \d+|(?<=^output )(\S+): .*|(?<=^group )(\S+): .*", r"\1\2", it) for it in traced[1:] if not it.startswith(("to the controller", "nothing leaves"))]


def without_controller(fate):
    """Without packets to the controller, and with a line for each port."""
    for line in fate:
        if found := re.match(r"out by ports ([\d, to]*): (\w*)", line):
            parts = [it.split(" to ") for it in found[1].split(", ")]
            yield from (f"out by port {port}: {found[2]}" for it in parts for port in range(int(it[0]), int(it[-1]) + 1))
        elif not line.startswith(("to the controller", "nothing leaves")):
            yield line


def text_of(line):
    """A flow entry of `history` as the first line of flow text and its actions."""
    found = re.match(r"table (\d+), priority (\d+), (.*), cookie (0x\w+), idle (\d+), hard (\d+), flags (\d+), added at \d+, (.*)", line)
    table, priority, match, cookie, idle, hard, flags, does = found.groups()
    return f"flow {table} {priority} 0x{int(cookie, 16):016x} {idle} {hard} {flags}", match, re.sub(r"apply actions, |go to table", "goto", does)


def entries_by_question(rows):
    """The flow text after each line, as blocks."""
    asked = "".join(f"{it}\n#? mark\n#? flows\n" for it in rows)
    answers = printed("replay", "--ask", "-", input=asked).split("?\n")[1::2]
    return [[f"flow{it}".splitlines() for it in text.partition("flow")[2].split("\nflow")] if "flow" in text else [] for text in answers]


def is_selected(block, table, port):
    """By the words of a table and a port."""
    return block[0].split(" ")[1] == str(table) and f"match in_port 0x0000000{port}" in block


def entries_in(block_list):
    """The entries of flow text as `history` names them in the way of a frame."""
    for block in block_list:
        _, table, priority, *_ = block[0].split(" ")
        match = [it.split(" ")[1:] for it in block if it.startswith("match ")]
        words = [f"in_port {int(value, 16)}" if name == "in_port" else f"{name} {':'.join(re.findall('..', value[2:]))}" for name, value in match]
        yield f"table {table}, priority {priority}, {', '.join(words) or 'any packet'}"


def is_shown(change, before, after):
    """Whether the flow entries before and after a change show its reason."""
    at = len(os.path.commonprefix([change["before"], change["after"]]))
    gone, come = (next(iter(change[it][at:]), None) for it in ("before", "after"))
    hit = [it for it in change["before"][:at] if it.startswith("table")]
    reason = change["reason"]
    if reason == REASONS["added"]:
        # an entry that replaced itself is the youngest now
        return come in after and (come not in before or gone in after)
    if reason in (REASONS["replaced"], REASONS["modified"]):
        return any(it in before and it in after for it in hit)
    if reason in (REASONS["deleted"], REASONS["expired"], REASONS["with its group"]):
        return gone in before and gone not in after
    return True


def causes(change, row):
    """The reasons that a change may have, by who made it."""
    if "row" in change:
        return ["expired"] if row.startswith("t ") else ["port"]
    words = change["by"][0].split(" ")
    kinds = {"ADD": ["added", "replaced"], "MODIFY": ["modified"], "MODIFY_STRICT": ["modified"], "DELETE": ["deleted"], "DELETE_STRICT": ["deleted"]}
    if "FLOW_MOD" in words:
        return next(found for name, found in kinds.items() if name in words)
    return ["with its group"] if "DELETE" in words else ["buckets"]


def wrong_reasons(told, rows, blocks, seen):
    for change in told:
        line, reason = change["line"], change["reason"]
        seen.add(next((it for it, words in REASONS.items() if words == reason), reason))
        if reason not in (REASONS[it] for it in causes(change, rows[line - 1])):
            yield f"line {line}: {reason}: {change.get('by', change.get('row'))}"
        if "message" in change and rows[line - 1].startswith("c ") and len(messages_of(rows[line - 1])) > 1:
            continue
        if not is_shown(change, [*entries_in(blocks[line - 2])], [*entries_in(blocks[line - 1])]):
            yield f"line {line}: {reason}: {change}"


def messages_of(row):
    """The messages of a row of the controller's bytes."""
    octets, found = bytes.fromhex(row.removeprefix("c ")), []
    while octets:
        size = int.from_bytes(octets[2:4], "big")
        found, octets = [*found, octets[:size]], octets[size:]
    return found


def wrong_fates(file, rows, port, frame, seen):
    found = changes(file, "--port", str(port), frame.hex())
    yield from wrong_reasons(found, rows, entries_by_question(rows), seen)
    told, told_last = iter([*found, None]), ["not received: there is no such port"]
    change = next(told)
    for line in range(2, len(rows) + 1):
        while change and change["line"] < line:
            if change["before"] == change["after"]:
                yield f"line {change['line']}: nothing changed"
            told_last, change = change["after"], next(told)
        if (traced := fate_by_trace(file, line, port, frame)) != [*without_controller(told_last)]:
            yield f"before line {line}, port {port}, frame {frame.hex()}: {told_last}, the trace {traced}"


def wrong_entries(file, rows, table, port, seen):
    told, there = iter([*changes(file, "--flow", f"table={table},in_port={port}"), None]), []
    change = next(told)
    for line, blocks in enumerate(entries_by_question(rows), 1):
        while change and change["line"] == line:
            if not set(change["before"]) <= set(there) or set(change["before"]) & set(change["after"]):
                yield f"line {line}: {change['before']} were not there, or are again"
            if rows[line - 1][0] == "t" and len(change["expired"]) != len(change["before"]):
                yield f"line {line}: {change['before']} went, but {change['expired']} expired"
            there = [it for it in there if it not in change["before"]] + change["after"]
            seen |= {rows[line - 1][0], "modified" if change["before"] and change["after"] else "changed"}
            if "message" in change and "GROUP_MOD" in change["by"][0]:
                seen.add("group")
            change = next(told)
        asked = sorted(it[0] for it in blocks if is_selected(it, table, port))
        if sorted(text_of(it)[0] for it in there) != asked:
            yield f"line {line}, table {table}, port {port}: {there}, the switch {asked}"


class Histories(unittest.TestCase):
    slow = True
    maxDiff = None

    def test_random_logs(self):
        seen = set()
        for case, pick in random_cases(LOGS):
            rows = some_log(pick)
            with self.subTest(case), tempfile.TemporaryDirectory() as folder:
                file = os.path.join(folder, "log.events")
                with open(file, "w", encoding="utf-8") as text:
                    text.write("".join(f"{it}\n" for it in rows))
                wrong = [*wrong_fates(file, rows, pick.choice((1, 2)), pick.choice(FRAMES), seen)]
                wrong += wrong_entries(file, rows, pick.choice((0, 1)), pick.choice((1, 2)), seen)
                if wrong:
                    keep(folder, case)
                self.assertEqual(wrong[:3], [])
        with self.subTest("each kind of change is in some log"):
            self.assertEqual({"c", "t", "group", "modified", *REASONS} - seen, set())
