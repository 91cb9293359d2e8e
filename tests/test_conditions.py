"""Compares `check` on tables with words that OpenFlow 1.3 does not have with `check` on tables of OpenFlow 1.3 that have a bit of
METADATA in place of each such word.

Each word, and each action `conjunction`, gets a random bit. A packet with this metadata is a world in which just these words hold, so both tables
have the same flows that never win. The tables are random ones, and if OFSWITCH_TABLES names files or folders, as for tools/try-tables
and with `:` between them, those of other people, table by table.
"""
import importlib.machinery
import importlib.util
import os
import random
import re
import sys
import unittest

from tests.program import TOP, ofswitch, random_cases

TABLES = 200
PLACES = [it for it in os.environ.get("OFSWITCH_TABLES", "").split(":") if it]
CONDITION = re.compile(
    r"(reg\d+|ct_\w+|tun_\w+|pkt_mark|skb_priority|conj_id|recirc_id|dp_hash|actset_output|nw_ttl|nw_frag|ip_frag|tcp_flags|sctp_\w+|mpls_\w+|nsh_\w+|nd_\w+)[=:]"
    r"|in_port=\D|tp_(src|dst)=[^/]*/"
)
NEVER = re.compile(r"^table \d+ (?:entry \d+ \()?line (\d+)[ ,].* never wins")
WORDS = ("reg0=0x1", "reg0=0x2/0x2", "ct_state=+trk", "tun_id=5", "pkt_mark=1")
MATCHES = ("ip,nw_dst=10.0.0.0/9", "ip,nw_dst=10.128.0.0/9", "ip,nw_dst=10.0.0.0/8", "ip", "tcp", "tcp,tp_dst=80", "udp", "arp", "in_port=1", "in_port=2",
           "in_port=1,ip", "dl_vlan=5", "dl_dst=00:00:00:00:00:01/00:00:00:00:00:01", "dl_dst=00:00:00:00:00:00/00:00:00:00:00:01", "")


def words_of(line):
    """The words before the actions, and those of the actions."""
    head, _, actions = re.split(r"(\bactions?=)", line, maxsplit=1)
    return [it for it in re.split(r"[ ,\t]+", head) if it], actions


def table_of(words):
    """The number of the table, and the words without it."""
    numbers = [it.split("=")[1] for it in words if it.startswith("table=")]
    return int(numbers[-1], 0) if numbers else 0, [it for it in words if not it.startswith("table=")]


def encoded(pick, lines):
    """The lines of each table with bits of METADATA, by their numbers; None if there are too many words, or metadata is in use."""
    tables, bits = {}, {}
    free = list(range(64))
    pick.shuffle(free)
    for number, line in enumerate(lines, 1):
        words, actions = words_of(line)
        table, words = table_of(words)
        asked = [it for it in words if CONDITION.match(it)]
        if re.match(r"conjunction\(", actions):
            asked.append(f"line {number}")
        mask = 0
        for word in asked:
            if word not in bits:
                if not free:
                    return None
                bits[word] = 1 << free.pop()
            mask |= bits[word]
        plain = [it for it in words if not CONDITION.match(it)]
        if any(it.startswith("metadata=") for it in plain):
            return None
        if mask:
            plain.append(f"metadata={mask:#x}/{mask:#x}")
        tables.setdefault(table, []).append((number, mask, ",".join(plain)))
    return tables


def nevers(output):
    return {int(it[1]) for it in map(NEVER.match, output.splitlines()) if it}


def some_table(pick):
    """Flows with words, no two of one table, one priority, one match and the same words."""
    flows = set()
    for _ in range(pick.randint(2, 12)):
        words = pick.sample(WORDS, pick.choice((0, 0, 1, 1, 2, 3)))
        words = [it for it in words if not (it.startswith("reg0=0x2") and "reg0=0x1" in words)]
        clause = pick.random() < 0.05
        flows.add((pick.choice((0, 9, 200)), pick.randint(1, 4), pick.choice(MATCHES), tuple(sorted(words)), "conjunction(1,1/2)" if clause else "drop"))
    flows = sorted(flows)
    pick.shuffle(flows)
    for table, priority, match, words, actions in flows:
        words = list(words)
        pick.shuffle(words)
        yield ",".join([f"table={table}", f"priority={priority}", *words, *([match] if match else [])]) + f" actions={actions}"


def check(lines):
    """The output of `check` on lines of ovs-ofctl; None if they are not read."""
    done = ofswitch("check", "--ovs", "-", input="\n".join(lines) + "\n")
    return done.out if done.status in (0, 4) else None


def verdicts(pick, lines):
    """The lines that never win, by tables, by the verdicts on these lines and on those with metadata; None if they are not read or not compared."""
    output = check(lines)
    tables = encoded(pick, lines) if output is not None and output.startswith("this switch cannot run these flows") else None
    if tables is None:
        return None
    here, there = {}, {}
    for table, rows in tables.items():
        numbers = [number for number, _, _ in rows]
        other = check([f"{text},actions=drop" for _, _, text in rows])
        if other is None:
            return None
        here[table], there[table] = nevers(output) & set(numbers), {numbers[it - 1] for it in nevers(other)}
    return here, there


def others():
    """The functions of tools/try-tables."""
    loader = importlib.machinery.SourceFileLoader("try_tables", str(TOP / "tools/try-tables"))
    module = importlib.util.module_from_spec(importlib.util.spec_from_loader("try_tables", loader))
    sys.path.append(str(TOP / "tools"))
    loader.exec_module(module)
    return module


class Conditions(unittest.TestCase):
    slow = True
    maxDiff = None

    def compare(self, pick, lines):
        found = verdicts(pick, lines)
        if found is not None:
            with self.subTest("\n".join(lines)):
                self.assertEqual(*found)
        return found is not None

    def test_random_tables(self):
        compared = [self.compare(pick, list(some_table(pick))) for _, pick in random_cases(TABLES, "conditions ")]
        self.assertGreater(sum(compared), len(compared) // 2)

    @unittest.skipUnless(PLACES, "OFSWITCH_TABLES names no tables of other people")
    def test_tables_of_others(self):
        tools = others()
        paths = [path for place in PLACES for path in tools.files_in(place)]
        tables = {tuple(dict.fromkeys(it for it in table if not tools.GROUP.match(it))): None for path in paths for table in tools.tables_in(path)}
        for lines in tables:
            self.compare(random.Random("others"), lines)
