"""The program on a terminal: its colors, what it says that it does, and the width of its help."""
import os
import pty
import re
import subprocess

from tests.program import EXAMPLES, PROGRAM, Case, ofswitch

# a sequence of SGR (ECMA-48, 8.3.117)
SGR = re.compile(r"\x1b\[[0-9;]*m")
RED, GREEN, YELLOW, CYAN, END = (f"\x1b[{it}m" for it in (31, 32, 33, 36, 0))


def read_all(descriptor):
    """What comes to a terminal until all of its writers are gone."""
    text = b""
    while True:
        try:
            part = os.read(descriptor, 65536)
        except OSError:
            part = b""
        if not part:
            os.close(descriptor)
            return text.decode().replace("\r\n", "\n")
        text += part


def environment(changes):
    return {**{name: value for name, value in os.environ.items() if name != "NO_COLOR"}, **changes}


def on_terminal(*words, stream="stdout", **changes):
    """What a run prints on standard output, or on standard error, if that is a terminal, and its status."""
    ours, theirs = pty.openpty()
    streams = {"stdin": subprocess.DEVNULL, "stdout": subprocess.DEVNULL, "stderr": subprocess.DEVNULL, stream: theirs}
    running = subprocess.Popen([PROGRAM, *words], env=environment(changes), **streams)
    os.close(theirs)
    text = read_all(ours)
    return text, running.wait(timeout=60)


def in_pipe(*words, **changes):
    done = ofswitch(*words, env=environment(changes))
    return done.out, done.status


# a report in words, and some of its parts in color
FRAME = "in_port=1,ip,nw_src=10.0.9.7,nw_dst=10.0.1.5"
REPORTS = (
    (("check", EXAMPLES / "covered.flows"), (f"{RED} never wins{END}: shadowed by",)),
    (("check", "--all", "--words", EXAMPLES / "covered.flows"), (f"{GREEN} wins: {END}in_port=1",)),
    (("check", EXAMPLES / "doubtful.flows"), (f"table 2{YELLOW} is unreachable{END}: no goto",)),
    (("check", EXAMPLES / "office.txt", "--require", EXAMPLES / "office.req"), (f"{RED}requirement fails{END}: line 2",)),
    (("check", "--ports", "1", EXAMPLES / "office.txt"), (f"{YELLOW} the switch does not have it{END}\n",)),
    (("diff", EXAMPLES / "router.flows", EXAMPLES / "router2.flows"), (f"{RED}differs by port 3{END}: in_port 4", f"    first: {CYAN}out by port 3{END}: ")),
    (("diff", EXAMPLES / "router.flows", EXAMPLES / "router.flows"), (f"{GREEN}same: {END}all frames that a port receives are treated alike\n",)),
    (("paths", EXAMPLES / "office.txt"), (f"{GREEN}path: {END}in_port",)),
    (("trace", EXAMPLES / "office.txt", FRAME), (f"table 0{GREEN}: entry 1{END}, priority 10", f"\n{CYAN}out by port 2{END}: ")),
    (("trace", "--explain", "--why", "all", EXAMPLES / "office.txt", FRAME), (f"{GREEN}): wins{END}\n",)),
    (("history", EXAMPLES / "moved-host.events", "--row", "21"), (f"\n{RED}    - nothing leaves{END}\n", f"\n{GREEN}    + output controller{END}\n")),
)
# what is no report in words
OTHERS = (
    ("check", "--json", EXAMPLES / "covered.flows"),
    ("diff", "--json", EXAMPLES / "router.flows", EXAMPLES / "router2.flows"),
    ("paths", "--json", EXAMPLES / "office.txt"),
    ("history", "--json", EXAMPLES / "moved-host.events", "--row", "21"),
    ("trace", "--json", EXAMPLES / "office.txt", FRAME),
    ("trace", "--lines", EXAMPLES / "office.txt", FRAME),
)


def help_of(*words):
    return in_pipe(*words)[0].splitlines()


class Terminal(Case):
    def test_colors(self):
        for words, parts in REPORTS:
            name = " ".join([words[0], *(it for it in words[1:] if str(it).startswith("--"))])
            plain, status = in_pipe(*words)
            painted, painted_status = on_terminal(*words)
            self.holds(f"{name}: without its colors the same", SGR.sub("", painted) == plain and plain and painted_status == status, painted)
            for part in parts:
                self.holds(f"{name}: {SGR.sub('', part).strip()} in color", part in painted, painted)
            self.holds(f"{name}: each color ends", len(SGR.findall(painted)) == 2 * painted.count(END), painted)
            self.holds(f"{name} in a pipe", "\x1b" not in plain, plain)
            for more, changes, wanted in (
                ((), {"NO_COLOR": "1"}, plain),
                ((), {"NO_COLOR": ""}, painted),
                (("--color=never",), {}, plain),
                (("--color", "auto"), {}, painted),
                (("--color=always",), {"NO_COLOR": "1"}, painted),
            ):
                self.holds(f"{name} {more} {changes}", on_terminal(*words, *more, **changes)[0] == wanted)
            self.holds(f"{name} --color=always in a pipe", in_pipe(*words, "--color=always")[0] == painted)
        for words in OTHERS:
            plain, _ = in_pipe(*words)
            self.holds(f"{words[:2]} has no colors", plain and on_terminal(*words)[0] == in_pipe(*words, "--color", "always")[0] == plain)
        self.holds("a bad color", ofswitch("check", "--color", "red", "-").err == "bad color: auto, always or never\n")

    def test_width(self):
        whole = help_of("--help")
        commands = [it for it in re.findall(r"^  (\w+) ", "\n".join(whole).split("Commands:\n")[1].split("\n\n")[0], re.M) if it != "help"]
        self.holds("the commands", len(commands) == 12, commands)
        for words in ((), *((it,) for it in commands)):
            for option in "--help", "-h":
                lines = help_of(*words, option)
                self.holds(f"{' '.join(words)} {option}: at most 80 columns", lines and max(map(len, lines)) <= 80, max(lines, key=len, default=""))
        statuses = "\n".join(whole).split("Exit status:\n")[-1].splitlines()
        self.holds("a line for each status", [it[2] for it in statuses if re.match(r"  \d ", it)] == [*"012345"], statuses)

    def test_progress(self):
        """What a command does is in a line that is gone when it ends."""
        router, log = EXAMPLES / "router.flows", EXAMPLES / "first-path.events"
        for said, status, words in (
            ("all frames are compared", 0, ("diff", router, router)),
            ("all frames are followed", 0, ("paths", router)),
            ("the flow entries are checked", 0, ("check", router)),
            ("the lines are read", 0, ("import", EXAMPLES / "office.txt")),
            ("the rows are run", 0, ("history", log, "in_port=1,arp")),
        ):
            found = on_terminal(*words, stream="stderr")
            self.holds(f"{words[0]} on a terminal", found == (f"\r\x1b[K{said}\r\x1b[K", status), found)
            self.same(f"{words[0]} without a terminal", ofswitch(*words).err, "")
