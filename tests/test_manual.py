"""The manual and the completions name each subcommand and each option of the program, and shells and man read them."""
import os
import re
import shutil
import tempfile
import unittest

from tests.program import PROGRAM, TOP, Case, ofswitch, run

FORMATS = ("ofswitch-events", "ofswitch-flows", "ofswitch-import")
# words that are typed, and what bash offers for the last one
COMPLETED = ((("rep",), "replay"), (("replay", "--exp"), "--explain"), (("trace", "--port", "1", "--fl"), "--flows"))
COMPLETE = """\
. "$1"; shift
COMP_WORDS=(ofswitch "$@")
COMP_CWORD=$#
_ofswitch
printf '%s\\n' "${COMPREPLY[@]}"
"""


def manual(form):
    words = ["--program", PROGRAM] if "-" not in form else []
    return run([TOP / "tools/manual", *words, form])


def part(text, first, last):
    """What is between a line and the next that is so."""
    found = re.search(rf"^{first}\n(.*?)^(?:{last})", text, re.M | re.S)
    return found[1] if found else ""


def places(forms, command, option):
    """Whether the forms of the manual name an option of a subcommand, by their names."""
    page = part(forms["man"], rf'\.SH "OFSWITCH {command.upper()}"', r"\.SH|\Z")
    zsh = re.search(rf"^ *{command}\)(.*?);;", forms["zsh"], re.M | re.S)
    yield "the manual page", re.search(rf"^(-., )*{option}", page, re.M)
    yield "bash", re.search(rf"'{command} '\*\) words='[^']*{option}[ ']", forms["bash"])
    yield "zsh", zsh and f"{option}[" in zsh[1]
    yield "fish", re.search(rf"from {command}'.* -l {option[2:]} ", forms["fish"])


class Manual(Case):
    @classmethod
    def setUpClass(cls):
        made = {form: manual(form).out for form in ("man", "bash", "zsh", "fish", *FORMATS)}
        # as the page is read: without marks, and - for \-
        cls.made, cls.forms = made, {**made, "man": re.sub(r"\\f[BR]", "", made["man"]).replace(r"\-", "-")}

    def test_subcommands(self):
        subcommands = re.findall(r"^  ([a-z]+) ", part(ofswitch("--help").out, "Commands:", r"\n"), re.M)
        self.assertTrue(subcommands)
        self.holds("the lines of -h", len(ofswitch("-h").out.splitlines()) <= 15)
        for command in subcommands:
            for form in "bash", "zsh", "fish":
                self.holds(f"{command}, for {form}", re.search(rf"\b{command}\b", self.forms[form]))
            self.holds(f"{command}, in the manual page", command in self.forms["man"].splitlines())
            if command != "help":
                self.options(command, ofswitch(command, "-h").out)

    def options(self, command, brief):
        self.holds(f"the lines of {command} -h", len(brief.splitlines()) <= 15, brief)
        for line in part(ofswitch(command, "--help").out, "Options:", r"\n|\Z").splitlines():
            for option in re.findall(r".*(--[a-z-]+)", line):
                self.holds(f"{option} in {command} -h", option in brief, brief)
                for place, is_there in places(self.forms, command, option):
                    self.holds(f"{command} {option}, {place}", is_there)

    def test_shells(self):
        for shell in "bash", "zsh", "fish":
            with self.subTest(shell), tempfile.NamedTemporaryFile("w") as file:
                if not shutil.which(shell):
                    self.skipTest(f"there is no {shell}")
                file.write(self.made[shell])
                file.flush()
                self.assertEqual(run([shell, "-n", file.name]), (0, "", ""))

    @unittest.skipUnless(shutil.which("bash"), "there is no bash")
    def test_completions(self):
        with tempfile.NamedTemporaryFile("w") as file:
            file.write(self.made["bash"])
            file.flush()
            for words, wanted in COMPLETED:
                self.holds(f"bash completes {words}", wanted in run(["bash", "-c", COMPLETE, "bash", file.name, *words]).out.splitlines())

    @unittest.skipUnless(shutil.which("man"), "there is no man")
    def test_pages(self):
        with tempfile.TemporaryDirectory() as folder:
            for page in "man", *FORMATS:
                path = f"{folder}/{page}.1"
                with open(path, "w", encoding="utf-8") as file:
                    file.write(self.made[page])
                done = run(["man", "--warnings", "-l", path], env={**os.environ, "LC_ALL": "C.UTF-8", "MANWIDTH": "80"})
                self.same(f"{page} as man shows it", (done.status, done.err), (0, ""))
                self.holds(f"the lines of {page}: at most 80 columns", max(map(len, done.out.splitlines())) <= 80)
