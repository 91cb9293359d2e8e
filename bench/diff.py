#!/usr/bin/env python3
"""bench/diff.py [PROGRAM]: times `diff` of two switches of which one flow differs, and of a switch with itself.

For each pair it prints the seconds of processor time and the megabytes of one run. The tables are made here: 2,000 routes, an access list
of 2,000 rules, and a router of four tables with 1,000 sources and 1,000 routes, of which a route or an entry of the last table changes.
"""
import os
import random
import resource
import subprocess
import sys
import tempfile

TOP = os.path.dirname(os.path.dirname(os.path.realpath(__file__)))
PROGRAM = f"{TOP}/crates/ofswitch/out/ofswitch"


def flow(table, priority, *lines):
    """A flow of flow text, with its match and its instructions."""
    return "\n".join([f"flow {table} {priority} 0x{0:016x} 0 0 0", *lines, ""])


def prefix(word, number):
    """A match on 24 bits of an IPv4 address."""
    return f"match {word} 0x{number:08x} 0xffffff00"


def routes(changed=None):
    """2,000 routes over eight ports."""
    return [
        flow(0, 24, "match eth_type 0x0800", prefix("ipv4_dst", 0x0A000000 + (at << 8)), "apply", "dec_nw_ttl", f"output {9 if at == changed else 1 + at % 8} 0")
        for at in range(2000)
    ]


def access_list(changed=None):
    """2,000 rules of descending priority; two of three forward."""
    drawn, rules = random.Random(5), []
    for at in range(2000):
        fields = [prefix(word, drawn.getrandbits(32) & 0xFFFFFF00) for word in ("ipv4_src", "ipv4_dst")]
        actions = ["apply", f"output {5 if at == changed else 2} 0"] if at % 3 else []
        rules.append(flow(0, 30000 - at, "match eth_type 0x0800", "match ip_proto 0x06", *fields, f"match tcp_dst 0x{drawn.randrange(1, 65536):04x}", *actions))
    return rules


def router(route=None, last=None):
    """Ports, sources that write METADATA, routes that set ETH_DST, and the ports of these addresses."""
    ports = [flow(0, 10, f"match in_port 0x{at:08x}", "goto 1") for at in range(1, 33)]
    sources = [
        flow(1, 30000 - at, "match eth_type 0x0800", prefix("ipv4_src", 0x0B000000 + (at << 8)), f"metadata 0x{at % 4:016x} 0x{15:016x}", "goto 2")
        for at in range(1000)
    ]
    hops = [
        flow(2, 24, "match eth_type 0x0800", prefix("ipv4_dst", 0x0A000000 + (at << 8)), "apply", f"set eth_dst 0x02{9 if at == route else 1 + at % 8:010x}", "goto 3")
        for at in range(1000)
    ]
    ends = [flow(3, 10, f"match eth_dst 0x02{at:010x}", "apply", f"output {12 if at == last else at} 0") for at in range(1, 10)]
    return [*ports, *sources, flow(1, 0, "goto 2"), *hops, *ends]


PAIRS = [
    ("2,000 routes, one changed", routes(), routes(1234)),
    ("access list of 2,000 rules, one changed", access_list(), access_list(778)),
    ("router of 1,000 x 1,000, a route changed", router(), router(route=500)),
    ("router of 1,000 x 1,000, the last table changed", router(), router(last=3)),
    ("router of 1,000 x 1,000, with itself", router(), router()),
]


def run(program, first, second):
    """One run of `diff`: its processor time and its memory, and the last line of the report."""
    with tempfile.TemporaryDirectory() as folder:
        for name, flows in (("first", first), ("second", second)):
            with open(f"{folder}/{name}", "w", encoding="utf-8") as text:
                text.write("".join(flows))
        command = [program, "diff", f"{folder}/first", f"{folder}/second"]
        with subprocess.Popen(command, stdout=subprocess.PIPE, text=True) as child:
            report = child.stdout.read()
            _, _, used = os.wait4(child.pid, 0)
    return used.ru_utime + used.ru_stime, used.ru_maxrss / 1024, report.rstrip().split("\n")[-1]


def main(program):
    resource.setrlimit(resource.RLIMIT_CPU, (600, 600))
    for name, first, second in PAIRS:
        seconds, megabytes, last = run(program, first, second)
        print(f"{name}: {seconds:.2f} s, {megabytes:.0f} MB: {last}", flush=True)


if __name__ == "__main__":
    main(sys.argv[1] if len(sys.argv) > 1 else PROGRAM)
