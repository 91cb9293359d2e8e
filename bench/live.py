#!/usr/bin/env python3
"""bench/live.py [SECONDS]: times `ofswitch live` between two hosts in network namespaces, and prints a line for each figure.

At the place of the switch it times, in turns: the program without and with `--log`, bench/forwarder.c if there is a C compiler, and
the userspace switch of Open vSwitch if it is installed (on veth interfaces, without VXLAN). It floods with ping, sends a stream of
TCP for SECONDS (by default 4) and datagrams of 64 bytes for as long. There are three rounds; a figure is the median, with all
rounds behind it. It needs root, ping, iperf3, and what tools/try-live needs. OFSWITCH names another program.
"""
import contextlib
import json
import os
import pathlib
import re
import shutil
import statistics
import subprocess
import sys
import tempfile
import time

sys.dont_write_bytecode = True
TOP = pathlib.Path(__file__).resolve().parent.parent
sys.path.insert(0, str(TOP / "tools"))
import lab as LAB  # noqa: E402

PROGRAM = os.environ.get("OFSWITCH", str(TOP / "crates/ofswitch/out/ofswitch"))
SECONDS = int(sys.argv[1]) if len(sys.argv) > 1 else 4
ROUNDS = 3
PINGS = 5_000 * SECONDS


# ---- what is timed, each with the two hosts that it connects


@contextlib.contextmanager
def forwarder(folder):
    lab = LAB.Lab()
    program = folder / "forwarder"
    subprocess.run(["cc", "-O2", "-o", program, TOP / "bench/forwarder.c"], check=True)
    running = lab.switch.begin(program)
    try:
        time.sleep(0.3)
        yield lab.hosts
    finally:
        running.kill()
        running.wait()


@contextlib.contextmanager
def ofswitch(folder, *words):
    lab = LAB.Lab()
    peers = [word for port in (1, 2) for word in ("--peer", f"{port}={LAB.UNDERLAY}")]
    with LAB.live(lab, PROGRAM, folder, "--vxlan", LAB.SWITCH, "--ports", "2", *peers, *words) as switch:
        with contextlib.closing(switch.controller()) as controller:
            controller.ask(*LAB.FORWARDING)
            yield lab.hosts


def logged(folder):
    return ofswitch(folder, "--log", str(folder / "run.log"))


@contextlib.contextmanager
def open_vswitch(folder):
    switch, hosts = LAB.Namespace(), [LAB.Namespace(), LAB.Namespace()]
    for number, host in enumerate(hosts, 1):
        switch.ip("link", "add", f"s{number}", "type", "veth", "peer", "name", f"e{number}")
        switch.ip("link", "set", f"e{number}", "netns", host.path)
        switch.ip("link", "set", f"s{number}", "up")
        host.ip("address", "add", f"10.1.0.{number}/24", "dev", f"e{number}")
        host.ip("link", "set", f"e{number}", "up")
        switch.checksums_in_software(f"s{number}")
        host.checksums_in_software(f"e{number}")
    with LAB.open_vswitch(switch, folder / "ovs") as control:
        control(*"add-br br0 -- set bridge br0 datapath_type=netdev protocols=OpenFlow13 fail-mode=secure -- add-port br0 s1 -- add-port br0 s2".split())
        for here, there in ((1, 2), (2, 1)):
            said, status = switch.run("ovs-ofctl", "-O", "OpenFlow13", "add-flow", f"unix:{folder}/ovs/br0.mgmt", f"in_port={here},actions=output:{there}")
            if status:
                raise OSError(f"Open vSwitch: {said}")
        yield hosts


# ---- figures


def flooded(hosts):
    """The average time of a ping in milliseconds, and the percentage that was lost."""
    said = finished(hosts[0], "ping", "-q", "-f", "-c", str(PINGS), "10.1.0.2")
    average, lost = re.search(r"= [\d.]+/([\d.]+)/", said), re.search(r"([\d.]+)% packet loss", said)
    return {"ping, ms": float(average[1]), "ping, % lost": float(lost[1])}


def finished(host, *command):
    running = host.begin(*command, stdout=subprocess.PIPE, stderr=subprocess.PIPE, text=True)
    try:
        said, fault = running.communicate(timeout=60 + 4 * SECONDS)
    except subprocess.TimeoutExpired as late:
        running.kill()
        running.communicate()
        raise OSError(f"{command[0]} does not end") from late
    if running.returncode:
        raise OSError(f"{' '.join(command)}: {(said + fault)[-300:]}")
    return said


def streams(hosts):
    server = hosts[1].begin("iperf3", "-s", stdout=subprocess.DEVNULL, stderr=subprocess.DEVNULL)
    try:
        time.sleep(0.5)
        client = ["iperf3", "-J", "-c", "10.1.0.2", "-t", str(SECONDS)]
        stream = json.loads(finished(hosts[0], *client))["end"]
        time.sleep(0.5)
        small = json.loads(finished(hosts[0], *client, "-u", "-b", "0", "-l", "64"))["end"]["sum"]
    finally:
        server.kill()
        server.wait()
    return {
        "TCP, Gbit/s": stream["sum_received"]["bits_per_second"] / 1e9,
        "TCP, sent again": stream["sum_sent"]["retransmits"],
        "UDP of 64 bytes, received/s": (small["packets"] - small["lost_packets"]) / small["seconds"],
    }


def main():
    for tool in ("ip", "ping", "iperf3"):
        if not shutil.which(tool):
            sys.exit(f"live.py: {tool} is not installed")
    timed = {"ofswitch": ofswitch, "ofswitch --log": logged}
    if shutil.which("cc"):
        timed["forwarder in C"] = forwarder
    if shutil.which("ovs-vswitchd"):
        timed["Open vSwitch, userspace"] = open_vswitch
    figures = {}
    with tempfile.TemporaryDirectory() as folder:
        for _ in range(ROUNDS):
            for name, place in timed.items():
                with place(pathlib.Path(folder)) as hosts:
                    for figure, value in {**flooded(hosts), **streams(hosts)}.items():
                        figures.setdefault((figure, name), []).append(value)
    for (figure, name), values in sorted(figures.items()):
        print(f"{figure}: {name}: {statistics.median(values):,.3f} ({', '.join(f'{it:,.3f}' for it in values)})")


main()
