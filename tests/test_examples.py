"""The command lines of the documents, and the output below them.

Each line `./ofswitch ..` that names no placeholder (FILE, LOG, N) and is no `serve` or `live` has to end with status 0, and print nothing
to standard error. The fenced block that follows it in its section is its output. If the text between it and a later block names
options, such as `--why all`, that block is the beginning of the output of the same line with these options. If ovs-ofctl is
installed, its lines below a `serve` that waits are run on another port, with the lines that read a file which they make, and have to
end with status 0.
"""
import os
import pathlib
import re
import shutil
import subprocess
import tempfile
import time
import unittest

from tests.program import EXAMPLES, PROGRAM, TOP, Case, free_port, read, run

DOCUMENTS = ["README.md", *sorted(f"docs/{it.name}" for it in (TOP / "docs").glob("*.md"))]
OPTIONS = re.compile(r"`(--[^`]+)`")


def examples(text):
    """Command lines with their blocks: the number of the line, the command, the lines that it prints (None: any), whether all."""
    command, number, fence, is_output, options, is_waiting = None, 0, None, False, [], False
    for here, line in enumerate(text.split("\n"), 1):
        if fence is not None:
            if line != "```":
                fence.append(line)
                continue
            if is_output and command and is_waiting:
                yield number, command, fence, True
            elif is_output and command and options:
                yield here, " ".join([command, *options]), fence, False
            fence, options, is_waiting = None, [], is_waiting and not is_output
        elif line.startswith("```"):
            # a block of a language is no output
            fence, is_output = [], line == "```"
        elif line.startswith(("    ", "#")):
            if command and is_waiting:
                yield number, command, None, True
            is_waiting = line.startswith("    ./ofswitch")
            command, number, options = line.strip() if is_waiting else None, here, []
        elif command:
            options += OPTIONS.findall(line)
    if command and is_waiting:
        yield number, command, None, True


def is_run(command):
    return not re.search(r" (?:serve|live)\b", command) and not re.search(r" (?:FILE|LOG|N)\b", command)


def wrong(command, block, is_whole, room):
    """What is wrong with a command and its block, or None."""
    done = run(["sh", "-c", command], cwd=room)
    if done.status or done.err:
        return f"status {done.status}, standard error {done.err[:100]!r}"
    lines = done.out.splitlines()
    if block is not None and (lines if is_whole else lines[: len(block)]) != block:
        differing = next((pair for pair in zip(lines, block) if pair[0] != pair[1]), (f"{len(lines)} lines", f"{len(block)} lines"))
        return "it prints `{}`, and the document says `{}`".format(*differing)
    return None


def served(text):
    """A `serve` that waits, with the lines of ovs-ofctl below it in its section and those that read what they make, and its number."""
    command, number, clients = None, 0, []
    for here, line in enumerate([*text.split("\n"), "#"], 1):
        made = {it for client in clients for it in re.findall(r"> (\S+)", client)}
        if command and (line.startswith("    ovs-ofctl") or line.startswith("    ./ofswitch") and made & {*line.split()}):
            clients.append(line.strip())
        elif line.startswith(("#", "    ./ofswitch")):
            if clients:
                yield number, command, clients
            is_served = line.startswith("    ./ofswitch serve") and "--connect" not in line
            command, number, clients = line.strip() if is_served else None, here, []


def listens(port):
    """Whether a process listens at a port, as the system says."""
    return re.search(rf": \w+:{port:04X} \w+:0000 0A ", pathlib.Path("/proc/net/tcp").read_text())


def wrong_clients(command, clients, room):
    """The first line of ovs-ofctl that fails against the switch that the command serves, or None."""
    port = free_port()
    words = ["./ofswitch", *command.split()[1:], "--quiet", "--listen", f"127.0.0.1:{port}"]
    with subprocess.Popen(words, cwd=room, stdin=subprocess.DEVNULL, stdout=subprocess.DEVNULL, stderr=subprocess.DEVNULL) as server:
        # a connection to see whether it listens would be the one controller
        end = time.monotonic() + 30
        while not listens(port) and time.monotonic() < end:
            time.sleep(0.05)
        try:
            for it in clients:
                done = run(["sh", "-c", it.replace(":6653", f":{port}")], cwd=room, timeout=20)
                if done.status:
                    return f"{it[:60]}: status {done.status}, {done.err[:100]!r}"
        except subprocess.TimeoutExpired:
            return f"{it[:60]}: no answer within 20 seconds"
        finally:
            server.kill()
    return None


class Examples(Case):
    slow = True

    def setUp(self):
        folder = tempfile.TemporaryDirectory()
        self.addCleanup(folder.cleanup)
        self.room = folder.name
        os.symlink(PROGRAM, f"{self.room}/ofswitch")
        os.symlink(EXAMPLES, f"{self.room}/examples")

    def test_commands(self):
        for path in DOCUMENTS:
            text = read(path)
            clients = {it for *_, lines in served(text) for it in lines}
            for number, command, block, is_whole in examples(text):
                if is_run(command) and command not in clients:
                    self.same(f"{path}:{number}: {command}", wrong(command, block, is_whole, self.room), None)

    @unittest.skipUnless(shutil.which("ovs-ofctl"), "there is no ovs-ofctl")
    def test_clients(self):
        for path in DOCUMENTS:
            for number, command, clients in served(read(path)):
                self.same(f"{path}:{number}: {command}", wrong_clients(command, clients, self.room), None)
