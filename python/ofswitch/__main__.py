"""`python -m ofswitch bridge`: a switch whose rows are typed and whose controller connects over TCP; also `live`, `mininet`, `draw`, `view`, `capture`, `shrink`."""

from __future__ import annotations

import argparse
import ipaddress
import logging
import os
import re
import signal
import sys
import threading
from collections.abc import Iterable
from types import FrameType
from typing import NoReturn, TextIO

from . import capture, interfaces, picture, rows, shrink_file, view
from .accepting import AcceptError
from .bridge import Bridge
from .connection import Address
from .effects import Effect
from .interfaces import Interface, InterfaceError
from .live import LiveSwitch
from .pcap import CaptureError
from .program import ProgramError, table_options
from .recording import PortFile
from .switch import Switch

# The exit statuses, which are those of `ofswitch`.
BAD_ARGUMENTS = 1
BAD_ROW = 2
FAULT = 3

DESCRIPTION = """
Reads rows of an event file (docs/EVENTS.md) from standard input, and plays each as soon as it is read. A controller has the
connection: its bytes are fed to the switch, and the switch's answers go to it. Standard output has the effects of all rows, in
order, as `ofswitch replay` prints them. The rows `connect`, `lost` and `c` are reserved for the controller. Ends at the end of
standard input.
"""

STATUSES = """
Exit status: 0 all rows were played; 1 bad arguments; 2 a line was not a valid row, and was left out; 3 the program ended, a file
cannot be opened, or the bridge cannot listen at the address.
"""


DRAW_DESCRIPTION = """
Prints the groups and flow tables of a flow text (docs/FLOWTEXT.md), of what `ovs-ofctl` prints, or of a switch after an event file, as a
graph in the language of Graphviz: tables with their flows by priority, groups with their buckets, ports, and the arrows between them. Flows that
never win (docs/CHECK.md) are gray. With a port and a frame, the path of the frame is blue, with the numbers of the steps of its trace
(docs/TRACE.md), and each table on the path shows the values that it sees of the packet. With --path K it is the path of the frame that
`ofswitch paths` shows for its path K (docs/PATHS.md), and the flows that other frames of that path hit are light blue.
"""

DRAW_STATUSES = """
Exit status: 0 drawn; 1 bad arguments; 2 the file is at fault; 3 a file cannot be read, or the program or `dot` is missing or failed.
"""


VIEW_DESCRIPTION = """
Writes a page that shows an event file (docs/EVENTS.md) in a browser, without a server: its rows in words on a line of time, what each
answered and sent, and the groups and flow tables after each row, with what it changed (docs/VIEW.md). With --frame it also shows where
a frame would go after each row, and the rows at which that changes.
"""

VIEW_STATUSES = """
Exit status: 0 written; 1 bad arguments, or a bad frame; 2 a line of the event file is not a valid row; 3 a file cannot be read or written,
or the program is missing or ended.
"""


CAPTURE_DESCRIPTION = """
Reads and writes captures (pcap and pcapng files; docs/CAPTURES.md). Converts an OpenFlow 1.3 connection of any switch to an event
file, or compares it, message by message, with the answers of the specified switch; converts frames to event rows; and writes
everything that happens in an event file as a capture for Wireshark. Standard error names the parts of a capture that cannot be used.
"""

CAPTURE_STATUSES = """
Exit status: 0 done, and nothing differs; 1 bad arguments; 2 a line of an event file is not a valid row, or there is no connection to
compare; 3 a file cannot be opened, or is not a capture or not what --json prints, or the program is missing or ended; 4 the recorded
switch differs from the specified one.
"""


LIVE_DESCRIPTION = """
Runs `ofswitch live` (docs/LIVE.md) with network interfaces as its ports, until it is interrupted. The kernel carries the frames: each
port has a VXLAN interface, which `tc` joins to the interface that is named. All that is made is removed at the end.
It needs root, and the programs ip and tc (iproute2).
"""

LIVE_PORTS = """
An interface of a port is one of these: NAME, which exists in this network namespace; tap:NETNS/NAME, which is made in the network
namespace NETNS (a name of `ip netns`, or the number of a process in it); tap:NAME, which is made here. An interface that exists
belongs to the switch then: the machine receives nothing there. Its offloads may stay on, since the kernel cuts long segments and
computes checksums before the frames reach the switch.

Exit status: that of `ofswitch live`; 1 bad arguments; 3 an interface or the program cannot be used; 130 and 143 after SIGINT and SIGTERM.
"""

MININET_DESCRIPTION = """
Prints the file that Mininet has to read: sudo mn --custom $(python -m ofswitch mininet) --switch ofswitch --controller remote
(docs/LAB.md).
"""


SHRINK_DESCRIPTION = """
Prints the fewest rows of an event file (docs/EVENTS.md) that still show something, as an event file with the lines of LOG as comments
(docs/TESTING.md): a change of what becomes of a frame, what a row prints, or a row that prints a pattern. Without any one of the rows
it is not shown any more. Rows after the comment `# keep` stay.
"""

SHRINK_STATUSES = """
Exit status: 0 shrunk; 1 bad arguments; 2 a line is not a valid row; 3 a file cannot be opened, or the program is missing or ended;
4 LOG does not show it.
"""


class Parser(argparse.ArgumentParser):
    def error(self, message: str) -> NoReturn:
        self.print_usage(sys.stderr)
        self.exit(BAD_ARGUMENTS, f"{self.prog}: {message}\n")


def parser() -> argparse.ArgumentParser:
    whole = Parser(prog="python -m ofswitch", description="An OpenFlow 1.3 switch for tests.")
    commands = whole.add_subparsers(dest="command", required=True, parser_class=Parser)
    bridge = commands.add_parser(
        "bridge", help="a switch between typed rows and a controller", description=DESCRIPTION, epilog=STATUSES
    )
    way = bridge.add_mutually_exclusive_group(required=True)
    way.add_argument("--listen", metavar="ADDR", type=address, help="the address at which to wait for controllers, such as 127.0.0.1:6653")
    way.add_argument("--connect", metavar="ADDR", type=address, help="the controller to connect to")
    bridge.add_argument("--events", metavar="FILE", help="an event file that is played before a controller connects")
    bridge.add_argument("--log", metavar="FILE", help="the file for all rows, also those of the controller")
    bridge.add_argument("--dpid", metavar="N", type=dpid, default=1, help="the datapath_id (by default 1)")
    bridge.add_argument("--program", metavar="PATH", help="the program ofswitch (by default OFSWITCH, or the one on the PATH)")
    add_live(commands)
    commands.add_parser("mininet", help="the file for `mn --custom`", description=MININET_DESCRIPTION)
    add_draw(commands)
    add_view(commands)
    add_capture(commands)
    add_shrink(commands)
    return whole


def add_live(commands: argparse._SubParsersAction[Parser]) -> None:
    live = commands.add_parser("live", help="a switch whose ports are network interfaces", description=LIVE_DESCRIPTION, epilog=LIVE_PORTS)
    live.add_argument(
        "--port", metavar="N=INTERFACE", type=port_interface, action="append", required=True, dest="ports",
        help="the interface of port N, such as 1=veth0 or 2=tap:h2/eth0; may be given for each port",
    )
    way = live.add_mutually_exclusive_group()
    way.add_argument("--listen", metavar="ADDR", help="the address at which to wait for a controller (by default 127.0.0.1:6653)")
    way.add_argument("--connect", metavar="ADDR", help="the controller to connect to")
    live.add_argument("--events", metavar="FILE", help="an event file that is played at the start, after the ports are added")
    live.add_argument("--tables", metavar="FILE", help="begin with the groups and flows of a flow text, of what ovs-ofctl prints, or of an event file")
    add_table_options(live, "--tables")
    live.add_argument("--log", metavar="FILE", help="log all events to this event file")
    live.add_argument("--idle", metavar="S", help="close a connection of which nothing was heard for S seconds (by default never)")
    live.add_argument("--turns", metavar="N", help="end after N turns (by default never)")
    live.add_argument("--dpid", metavar="N", help="the datapath_id, decimal or 0x and hexadecimal digits (by default 1)")
    live.add_argument("--quiet", action="store_true", help="do not report connections on standard error")
    live.add_argument("--rows", choices=["-"], help="play rows of standard input while it runs, if the program can")
    live.add_argument("--program", metavar="PATH", help="the program ofswitch (by default OFSWITCH, or the one on the PATH)")


def add_draw(commands: argparse._SubParsersAction[Parser]) -> None:
    draw = commands.add_parser("draw", help="a picture of flow tables", description=DRAW_DESCRIPTION, epilog=DRAW_STATUSES)
    text = draw.add_mutually_exclusive_group(required=True)
    text.add_argument("--flows", metavar="FILE", help="a flow text")
    text.add_argument("--events", metavar="FILE", help="an event file: draw the tables that a switch has after it")
    text.add_argument("--ovs", metavar="FILE", help="what ovs-ofctl prints or reads (docs/IMPORT.md)")
    add_table_options(draw, "--ovs")
    draw.add_argument("--port", metavar="N", type=int, help="the port at which the frame comes in; with --path, only frames of this port are divided")
    draw.add_argument("--path", metavar="K", type=int, help="draw path K, from 1, of those that `ofswitch paths` finds")
    draw.add_argument("--svg", metavar="FILE", help="write a picture to this file, with `dot` of Graphviz, instead of printing the graph")
    draw.add_argument("--program", metavar="PATH", help="the program ofswitch (by default OFSWITCH, or the one on the PATH)")
    draw.add_argument("frame", metavar="HEX", nargs="?", help="a frame whose path is drawn, two hexadecimal digits per byte")


def add_table_options(command: Parser, option: str) -> None:
    """The options for what `ovs-ofctl` prints, which is the file of an option (docs/IMPORT.md)."""
    command.add_argument("--skip", action="store_true", help=f"with {option}, leave out lines of what ovs-ofctl prints that this switch refuses")
    command.add_argument("--renumber", action="store_true", help=f"with {option}, give tables of what ovs-ofctl prints the numbers 0 to 15, in their order")
    command.add_argument("--port-names", metavar="FILE", help=f"with {option}, what `ovs-ofctl dump-ports-desc` prints, for the names of ports")


def add_view(commands: argparse._SubParsersAction[Parser]) -> None:
    view = commands.add_parser("view", help="a page that shows an event file", description=VIEW_DESCRIPTION, epilog=VIEW_STATUSES)
    view.add_argument("log", metavar="LOG", help="an event file; - is standard input")
    view.add_argument("-o", dest="out", metavar="PAGE", required=True, help="the HTML file that is written")
    view.add_argument("--frame", metavar="FRAME", help="a frame whose fate is shown, in hexadecimal digits or in words (docs/TRACE.md)")
    view.add_argument("--port", metavar="N", type=port, help="the port at which the frame comes in, unless its words say it")
    view.add_argument("--dpid", metavar="N", type=dpid, help="the datapath_id (by default the one that the first line of the file names, or 1)")
    view.add_argument("--program", metavar="PATH", help="the program ofswitch (by default OFSWITCH, or the one on the PATH)")


def add_capture(commands: argparse._SubParsersAction[Parser]) -> None:
    capture = commands.add_parser("capture", help="captures of OpenFlow connections and of frames", description=CAPTURE_DESCRIPTION, epilog=CAPTURE_STATUSES)
    what = capture.add_subparsers(dest="what", required=True, parser_class=Parser)
    events = what.add_parser("events", help="an event file of a recorded switch", epilog=CAPTURE_STATUSES)
    compare = what.add_parser("compare", help="the differences between the recorded switch and the specified one", epilog=CAPTURE_STATUSES)
    frames = what.add_parser("frames", help="event rows of the frames of a capture", epilog=CAPTURE_STATUSES)
    pcap = what.add_parser("pcap", help="a pcapng file of all that happens in an event file", epilog=CAPTURE_STATUSES)
    for it in (events, compare):
        it.add_argument("file", metavar="FILE", help="a pcap or pcapng file of an OpenFlow 1.3 connection")
        it.add_argument("--tcp-port", metavar="N", type=int, help="only connections with this TCP port at either end")
        it.add_argument("--dpid", metavar="N", type=dpid, help="only the switch with this datapath_id (by default the first switch)")
        it.add_argument(
            "--in", dest="inputs", metavar="N=FILE", type=port_file, action="append", default=[],
            help="a capture of the frames that port N received; by default the frames of whole PACKET_INs",
        )
    compare.add_argument(
        "--out", dest="outputs", metavar="N=FILE", type=port_file, action="append", default=[],
        help="a capture of the frames that left by port N, to be compared",
    )
    compare.add_argument("--json", action="store_true", help="print the differences as one JSON document (docs/JSON.md)")
    compare.add_argument("--accept", metavar="FILE", help="differences that are known and no longer count: what --json printed for an earlier capture")
    frames.add_argument("file", metavar="FILE", help="a pcap or pcapng file of Ethernet frames")
    frames.add_argument("--port", metavar="N", type=port, required=True, help="the port that receives them")
    pcap.add_argument("file", metavar="EVENTS", help="an event file")
    pcap.add_argument("out", metavar="OUT", help="the pcapng file that is written")
    pcap.add_argument("--dpid", metavar="N", type=dpid, help="the datapath_id (by default the one that the first line of the file names, or 1)")
    for it in (compare, pcap):
        it.add_argument("--program", metavar="PATH", help="the program ofswitch (by default OFSWITCH, or the one on the PATH)")


def add_shrink(commands: argparse._SubParsersAction[Parser]) -> None:
    shrink = commands.add_parser("shrink", help="the fewest rows that show a fault", description=SHRINK_DESCRIPTION, epilog=SHRINK_STATUSES)
    shrink.add_argument("file", metavar="LOG", help="an event file")
    what = shrink.add_mutually_exclusive_group(required=True)
    what.add_argument("--change", metavar="FRAME", help="the last change of what becomes of this frame, in hexadecimal digits or in words as `ofswitch trace` takes it")
    what.add_argument("--row", metavar="N", type=count, help="what the row in line N prints, without xids and buffer ids")
    what.add_argument("--prints", metavar="REGEX", type=pattern, help="a pattern in a line that is printed, or in its effect in words, such as BAD_PREREQ")
    shrink.add_argument("--port", metavar="N", type=port, help="the port of the frame, unless its words have in_port")
    shrink.add_argument("--nth", metavar="K", type=count, help="change K of the frame, from 1, instead of the last one")
    shrink.add_argument("--fields", action="store_true", help="also leave out fields of FLOW_MODs, and cut frames at their headers")
    shrink.add_argument("--test", metavar="OUT", help="write a test for pytest with the rows, and what the last one does, to this file")
    shrink.add_argument("--dpid", metavar="N", type=dpid, help="the datapath_id (by default the one that the first line of the file names, or 1)")
    shrink.add_argument("--program", metavar="PATH", help="the program ofswitch (by default OFSWITCH, or the one on the PATH)")


def count(word: str) -> int:
    if not (word.isascii() and word.isdigit() and int(word) > 0):
        raise argparse.ArgumentTypeError("a number from 1")
    return int(word)


def pattern(word: str) -> re.Pattern[str]:
    try:
        return re.compile(word)
    except re.error as fault:
        raise argparse.ArgumentTypeError(f"not a regular expression: {fault}") from None


def port(word: str) -> int:
    if not (word.isascii() and word.isdigit() and 1 <= int(word) <= rows.MOST_PORT):
        raise argparse.ArgumentTypeError(f"a port is a number from 1 to {rows.MOST_PORT}")
    return int(word)


def port_file(word: str) -> PortFile:
    number, is_there, path = word.partition("=")
    if not (is_there and path):
        raise argparse.ArgumentTypeError("a port and a capture are N=FILE")
    return port(number), path


def port_interface(word: str) -> tuple[int, Interface]:
    try:
        return interfaces.port_interface(word)
    except ValueError as fault:
        raise argparse.ArgumentTypeError(str(fault)) from None


def address(word: str) -> Address:
    host, _, port = word.rpartition(":")
    try:
        ip = ipaddress.ip_address(host.removeprefix("[").removesuffix("]"))
        if not 0 <= int(port) <= 65_535:
            raise ValueError
    except ValueError:
        raise argparse.ArgumentTypeError("an address is an IP address and a port, such as 127.0.0.1:6653 or [::1]:6653") from None
    return str(ip), int(port)


def dpid(word: str) -> int:
    """A datapath_id, decimal, or hexadecimal after 0x."""
    try:
        return rows.dpid(int(word, 0))
    except ValueError:
        raise argparse.ArgumentTypeError("a datapath_id is a number of 64 bits, decimal or 0x and hexadecimal digits") from None


def print_effects(row: str, effects: list[Effect]) -> None:
    for effect in effects:
        print(effect)
    if effects:
        sys.stdout.flush()


def play(switch: Switch, lines: Iterable[str], name: str) -> int:
    """Plays lines, reports those that are not valid rows, and returns the exit status."""
    status = 0
    for place, line in enumerate(lines, 1):
        row = line.removesuffix("\n")
        try:
            if rows.is_of_controller(row):
                raise ValueError("the connection is the controller's")
            switch.play(row)
        except ValueError as fault:
            print(f"{name}, line {place}: {fault}", file=sys.stderr)
            status = BAD_ROW
    return status


def run(asked: argparse.Namespace) -> int:
    with Switch(asked.program, dpid=asked.dpid, log=asked.log) as switch:
        switch.watch(print_effects)
        status = 0
        if asked.events is not None:
            with open_lines(asked.events) as lines:
                status = play(switch, lines, asked.events)
        bridge = Bridge(switch, asked.listen) if asked.listen else Bridge.dial(switch, asked.connect)
        logging.info("%s %s:%s", "listening at" if asked.listen else "connecting to", *bridge.address)
        with bridge, open_lines(sys.stdin.fileno()) as lines:
            return play(switch, lines, "standard input") or status


class Terminated(Exception):
    """SIGTERM or SIGHUP, with the number of the signal."""

    def __init__(self, number: int) -> None:
        super().__init__(number)
        self.number = number


def terminate(number: int, _frame: FrameType | None) -> NoReturn:
    raise Terminated(number)


def run_live(asked: argparse.Namespace) -> int:
    ports = dict(asked.ports)
    if len(ports) < len(asked.ports):
        parser().error("a port has one interface")
    words = [word for name in ("listen", "connect", "idle", "tables", "log", "turns", "dpid") if (value := getattr(asked, name)) is not None for word in (f"--{name}", value)]
    words += [*table_options(asked.skip, asked.renumber, asked.port_names), *(["--quiet"] if asked.quiet else [])]
    for number in (signal.SIGTERM, signal.SIGHUP):
        signal.signal(number, terminate)
    try:
        with LiveSwitch(ports, words, program=asked.program, events=asked.events) as switch:
            for note in switch.notes:
                logging.info("%s", note)
            try:
                if asked.rows:
                    if not switch.takes_rows:
                        raise ProgramError("this ofswitch takes no rows while it runs")
                    threading.Thread(target=play_live, args=[switch], daemon=True).start()
                return switch.wait()
            finally:
                # what was made is removed whatever comes now
                for number in (signal.SIGTERM, signal.SIGHUP, signal.SIGINT):
                    signal.signal(number, signal.SIG_IGN)
    except Terminated as it:
        return 128 + it.number


def play_live(switch: LiveSwitch) -> None:
    """Plays the rows of standard input, and reports those that are not valid."""
    with open_lines(sys.stdin.fileno()) as lines:
        for place, line in enumerate(lines, 1):
            try:
                switch.play(line.removesuffix("\n"))
            except ValueError as fault:
                print(f"standard input, line {place}: {fault}", file=sys.stderr)


def run_mininet(asked: argparse.Namespace) -> int:
    print(os.path.join(os.path.dirname(os.path.abspath(__file__)), "mn_custom.py"))
    return 0


def open_lines(file: str | int) -> TextIO:
    """Opens a file whose lines end only with LF. A line with bytes that are not UTF-8 is not a valid row."""
    return open(file, encoding="utf-8", errors="surrogateescape", newline="\n", closefd=isinstance(file, str))


def main() -> int:
    asked = parser().parse_args()
    if asked.command == "draw":
        if asked.path is not None and asked.frame is not None:
            parser().error("a path has its own frame: give --path or a frame")
        if asked.path is None and (asked.port is None) != (asked.frame is None):
            parser().error("a frame needs its port, and a port its frame")
        if asked.ovs is None and (asked.skip or asked.renumber or asked.port_names):
            parser().error("--skip, --renumber and --port-names are for --ovs")
    if asked.command == "view" and asked.frame is None and asked.port is not None:
        parser().error("a port needs its frame")
    logging.basicConfig(level=logging.INFO, format="%(message)s")
    try:
        commands = {
            "draw": picture.run,
            "view": view.run,
            "capture": capture.run,
            "bridge": run,
            "live": run_live,
            "mininet": run_mininet,
            "shrink": shrink_file.run,
        }
        status = commands[asked.command](asked)
        sys.stdout.flush()
        return status
    except BrokenPipeError:
        # nobody reads on, as with `| head`; nothing is written at the end, either
        os.dup2(os.open(os.devnull, os.O_WRONLY), sys.stdout.fileno())
        return FAULT
    except (ProgramError, CaptureError, AcceptError, InterfaceError, OSError) as fault:
        if asked.command in ("draw", "view") and isinstance(fault, ProgramError) and fault.status is not None and fault.status > 0:
            # the program says what is wrong with the file
            print(fault.said, file=sys.stderr)
            return fault.status
        print(fault, file=sys.stderr)
        return FAULT
    except KeyboardInterrupt:
        return 130


if __name__ == "__main__":
    sys.exit(main())
