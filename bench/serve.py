#!/usr/bin/env python3
"""bench/serve.py: times `ofswitch serve` as a controller sees it over loopback, and prints a line for each figure.

The controller is bench/controller.c, which needs a C compiler. In the same run it times, in turns with ofswitch, an echo program in C
over the same kind of socket, and the userspace switch of Open vSwitch if it is installed (ovsdb-server, ovs-vswitchd). OFSWITCH names
another program.
"""
import contextlib
import os
import pathlib
import shutil
import socket
import subprocess
import tempfile
import time

TOP = pathlib.Path(__file__).resolve().parent.parent
PROGRAM = os.environ.get("OFSWITCH", str(TOP / "crates/ofswitch/out/ofswitch"))
ROUNDS = 3

ECHO = r"""
#include <arpa/inet.h>
#include <netinet/tcp.h>
#include <stdlib.h>
#include <sys/socket.h>
#include <unistd.h>
int main(int n, char **words) {
    int listener = socket(AF_INET, SOCK_STREAM, 0), one = 1;
    struct sockaddr_in at = {AF_INET, htons(atoi(words[1])), {htonl(INADDR_LOOPBACK)}};
    struct timeval wait = {0, 10000};
    static char buffer[65536];
    bind(listener, (void *)&at, sizeof at);
    listen(listener, 1);
    int peer = accept(listener, 0, 0);
    setsockopt(peer, IPPROTO_TCP, TCP_NODELAY, &one, sizeof one);
    setsockopt(peer, SOL_SOCKET, SO_RCVTIMEO, &wait, sizeof wait);
    for (;;) {
        ssize_t came = read(peer, buffer, sizeof buffer);
        if (came == 0) return 0;
        if (came > 0) write(peer, buffer, came);
    }
}
"""


def free_port():
    with socket.socket() as one:
        one.bind(("127.0.0.1", 0))
        return one.getsockname()[1]


@contextlib.contextmanager
def ofswitch(folder):
    port = free_port()
    events = folder / "ports.events"
    events.write_text("".join(f"port add {n} 0200000000a{n} p{n} up\n" for n in range(1, 5)))
    words = [PROGRAM, "serve", "--listen", f"127.0.0.1:{port}", "--events", events, "--turns", "4000000000", "--quiet"]
    running = subprocess.Popen(words, stdout=subprocess.DEVNULL)
    yield port
    running.kill()
    running.wait()


@contextlib.contextmanager
def open_vswitch(folder):
    port = free_port()
    place = dict(os.environ, OVS_RUNDIR=str(folder), OVS_LOGDIR=str(folder), OVS_DBDIR=str(folder))
    database = folder / "conf.db"
    control = f"unix:{folder}/db.sock"
    run = lambda *words: subprocess.run(words, env=place, check=True, stdout=subprocess.DEVNULL)
    run("ovsdb-tool", "create", database, "/usr/share/openvswitch/vswitch.ovsschema")
    store = subprocess.Popen(["ovsdb-server", f"--remote=p{control}", database], env=place, stderr=subprocess.DEVNULL)
    time.sleep(0.5)
    run("ovs-vsctl", f"--db={control}", "--no-wait", "init")
    switch = subprocess.Popen(["ovs-vswitchd", "--enable-dummy", "--disable-system", control], env=place, stderr=subprocess.DEVNULL)
    bridge = ["add-br", "br0", "--", "set", "bridge", "br0", "datapath_type=dummy", "protocols=OpenFlow13", "fail-mode=secure"]
    ports = [word for n in range(1, 5) for word in ("--", "add-port", "br0", f"p{n}", "--", "set", "interface", f"p{n}", "type=dummy", f"ofport_request={n}")]
    run("ovs-vsctl", f"--db={control}", *bridge, *ports, "--", "set-controller", "br0", f"ptcp:{port}:127.0.0.1")
    yield port
    for running in (switch, store):
        running.kill()
        running.wait()


@contextlib.contextmanager
def echo(folder):
    source = folder / "echo.c"
    source.write_text(ECHO)
    subprocess.run(["cc", "-O2", "-w", "-o", folder / "echo", source], check=True)
    port = free_port()
    running = subprocess.Popen([folder / "echo", str(port)])
    yield port
    running.kill()
    running.wait()


def say_figures(controller, name, start, words):
    """Prints what the controller measures of a program."""
    with tempfile.TemporaryDirectory() as folder, start(pathlib.Path(folder)) as port:
        said = subprocess.run([controller, str(port), *words], check=True, stdout=subprocess.PIPE, text=True).stdout
    for line in said.splitlines():
        figure, what = line.split("\t")
        print(f"{name:14} {what:34} {float(figure):12,.10g}", flush=True)


def main():
    with tempfile.TemporaryDirectory() as folder:
        controller = f"{folder}/controller"
        subprocess.run(["cc", "-O2", "-o", controller, TOP / "bench/controller.c"], check=True)
        timers = [("ofswitch", ofswitch, []), ("echo in C", echo, ["echo"])]
        if shutil.which("ovs-vswitchd") and shutil.which("ovsdb-server"):
            timers.append(("Open vSwitch", open_vswitch, []))
        for _ in range(ROUNDS):
            for timer in timers:
                say_figures(controller, *timer)


main()
