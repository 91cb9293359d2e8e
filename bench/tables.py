#!/usr/bin/env python3
"""bench/tables.py [PROGRAM]: the time and the memory of sixteen full tables, 65,536 flows.

The tables are access lists that are made here: prefixes of 8 to 32 bits, protocols and ports, and a table-miss flow entry in each. For each
command it prints the seconds of processor time and the megabytes of one run. Then it sends as many FLOW_MODs with one match field and one
OUTPUT to `serve`, and prints how much memory a flow takes.
"""
import os
import random
import resource
import socket
import struct
import subprocess
import sys
import tempfile
import time

TOP = os.path.dirname(os.path.dirname(os.path.realpath(__file__)))
PROGRAM = f"{TOP}/crates/ofswitch/out/ofswitch"
TABLES, PER_TABLE = 16, 4096


def prefix(drawn, word):
    """A prefix of 8 to 32 bits, as ovs-ofctl writes it."""
    length = drawn.randrange(8, 33)
    address = drawn.getrandbits(32) >> (32 - length) << (32 - length)
    return f"{word}={'.'.join(str(address >> shift & 255) for shift in (24, 16, 8, 0))}/{length}"


def rules(table):
    """The lines of a full table: rules of descending priority, and the table-miss flow entry."""
    drawn = random.Random(table)
    onward = f"goto_table:{table + 1}" if table + 1 < TABLES else "output:2"
    for at in range(PER_TABLE - 1):
        protocol = drawn.choice(("tcp", "udp"))
        port = f",tp_dst={drawn.randrange(1, 65536)}" if drawn.random() < 0.7 else ""
        action = drawn.choice(("drop", onward))
        yield f"table={table},priority={30000 - at},{protocol},{prefix(drawn, 'nw_src')},{prefix(drawn, 'nw_dst')}{port},actions={action}"
    yield f"table={table},priority=0,actions={onward}"


def run(name, words, output):
    """Runs a command, and prints what it took."""
    with open(output, "w", encoding="utf-8") as file, subprocess.Popen(words, stdout=file, stderr=subprocess.DEVNULL) as child:
        _, status, used = os.wait4(child.pid, 0)
        child.returncode = os.waitstatus_to_exitcode(status)
    print(f"{name}: {used.ru_utime + used.ru_stime:.2f} s, {used.ru_maxrss / 1024:.0f} MB, status {child.returncode}", flush=True)


def flow_mod(table, number):
    """An ADD of a flow for an ETH_DST, with one OUTPUT."""
    match = struct.pack(">HHI6s2x", 1, 14, 0x80000606, number.to_bytes(6, "big"))
    instruction = struct.pack(">HH4xHHIH6x", 4, 24, 0, 16, 1 + number % 4, 0)
    head = struct.pack(">BBHI", 4, 14, 88, 9)
    body = struct.pack(">QQBBHHHIIIH2x", 0, 0, table, 0, 0, 0, 10, 0xFFFFFFFF, 0xFFFFFFFF, 0xFFFFFFFF, 0)
    return head + body + match + instruction


def resident(child):
    """The bytes of memory that a process has."""
    with open(f"/proc/{child.pid}/statm", encoding="utf-8") as text:
        return int(text.read().split()[1]) * resource.getpagesize()


def free_port():
    with socket.socket() as one:
        one.bind(("127.0.0.1", 0))
        return one.getsockname()[1]


def connected(port):
    for _ in range(300):
        try:
            return socket.create_connection(("127.0.0.1", port))
        except ConnectionRefusedError:
            time.sleep(0.02)
    sys.exit("tables: nobody listens")


def send(peer, messages, xid):
    """Sends messages, and returns when the switch has handled them: it answers a barrier."""
    peer.sendall(messages + struct.pack(">BBHI", 4, 20, 8, xid))
    reply, got = struct.pack(">BBHI", 4, 21, 8, xid), b""
    while not got.endswith(reply):
        came = peer.recv(65536)
        if not came:
            sys.exit("tables: the switch ended the connection")
        got += came


def say_memory(program):
    """Prints how much more memory `serve` has with full tables."""
    port = free_port()
    words = [program, "serve", "--listen", f"127.0.0.1:{port}", "--turns", "4000000000", "--quiet"]
    with subprocess.Popen(words, stdout=subprocess.DEVNULL) as child, connected(port) as peer:
        send(peer, struct.pack(">BBHI", 4, 0, 8, 1), 2)
        before = resident(child)
        send(peer, b"".join(flow_mod(table, number) for table in range(TABLES) for number in range(PER_TABLE)), 3)
        more = resident(child) - before
        child.kill()
    print(f"serve: {more / 2**20:.1f} MB more with {TABLES * PER_TABLE} flows, {more / TABLES / PER_TABLE:.0f} bytes for each")


def main(program):
    with tempfile.TemporaryDirectory() as folder:
        table, flows = f"{folder}/table.txt", f"{folder}/table.flows"
        with open(table, "w", encoding="utf-8") as text:
            text.writelines(f"{line}\n" for number in range(TABLES) for line in rules(number))
        run("import", [program, "import", table], flows)
        run("asm", [program, "asm", flows], f"{folder}/table.events")
        run("dis", [program, "dis", f"{folder}/table.events"], f"{folder}/again.flows")
        run("check --flows", [program, "check", "--flows", flows], f"{folder}/lines")
        run("check", [program, "check", table], f"{folder}/report")
    say_memory(program)


if __name__ == "__main__":
    main(sys.argv[1] if len(sys.argv) > 1 else PROGRAM)
