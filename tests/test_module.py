"""The Python module (python/) as a user installs it, in a new environment without an index, and its own tests."""
import functools
import os
import re
import shutil
import subprocess
import tempfile
import unittest

from tests.program import EXAMPLES, PROGRAM, TOP, Case, run

ENVIRONMENT = {**os.environ, "OFSWITCH": PROGRAM, "PYTHONDONTWRITEBYTECODE": "1"}
# what a program may do with the module that was installed
PROGRAMS = {
    "a switch": """
import ofswitch
with ofswitch.Switch() as switch:
    assert switch.port_add(0) == [ofswitch.Refused(8)]
    assert [str(effect) for effect in switch.connect()] == ['a 04000010000000000001000800000010']
""",
    "the version": """
import importlib.metadata, ofswitch
assert importlib.metadata.version('ofswitch') == ofswitch.__version__
assert importlib.metadata.metadata('ofswitch').get_all('Classifier')
""",
    "several switches": """
from ofswitch import Arrived, Network
with Network({'s1': 2, 's2': 2}) as network:
    network.link('s1', 2, 's2', 1)
    for switch in network.switches.values():
        switch.import_('in_port=1,actions=output:2')
    assert network.send('s1', 1, bytes(60)) == [Arrived('s2', 2, bytes(60))]
""",
    "schedules, without os-ken": f"""
from ofswitch.applications import load
from ofswitch.exploring import explore
learning = load('{EXAMPLES}/plain_learning.py', 'Learning')
assert explore(application=learning, switches={{'s1': 2}}, hosts={{'a': ('s1', 1), 'b': ('s1', 2)}}, seconds=60, most=3) == 3
""",
}
COMMANDS = {
    "the command that was installed": ["bridge", "--listen", "127.0.0.1:0"],
    "the fewest rows": ["shrink", EXAMPLES / "failover.events", "--row", "13"],
    "a capture that was recorded": ["capture", "compare", TOP / "python/tests/captures/self.pcap"],
    "a page of an event file": ["view", EXAMPLES / "failover.events", "-o", "page.html"],
}


@functools.lru_cache(maxsize=None)
def python(module="sys"):
    """The Python that has a module, if there is one: the module wants 3.11."""
    for it in "python3", "/usr/bin/python3":
        if shutil.which(it) and run([it, "-c", f"import sys, {module}; sys.exit(sys.version_info < (3, 11))"]).status == 0:
            return it
    return None


def has_venv():
    return python() and run([python(), "-c", "import ensurepip, venv"]).status == 0


@unittest.skipUnless(has_venv(), "there is no Python 3.11 that can make an environment")
class Installed(Case):
    slow = True

    @classmethod
    def setUpClass(cls):
        folder = tempfile.TemporaryDirectory()
        cls.addClassCleanup(folder.cleanup)
        cls.folder = folder.name
        subprocess.run([python(), "-m", "venv", f"{cls.folder}/fresh"], check=True, capture_output=True)
        subprocess.run([f"{cls.folder}/fresh/bin/pip", "install", "--no-index", "--quiet", TOP / "python"], check=True, capture_output=True, env=ENVIRONMENT)

    def good(self, name, *words, env=ENVIRONMENT):
        done = run(words, cwd=self.folder, env=env)
        self.same(name, (done.status, done.err[-2000:] if done.status else ""), (0, ""))
        return done.out

    def test_programs(self):
        for name, program in PROGRAMS.items():
            self.good(name, "fresh/bin/python", "-c", program)

    def test_commands(self):
        for name, words in COMMANDS.items():
            self.good(name, "fresh/bin/python", "-m", "ofswitch", *words)

    @unittest.skipUnless(shutil.which("objdump"), "there is no objdump")
    def test_wheel(self):
        # without the library, which would have to be proved here: tests/test_library.py tries it
        wheel = self.good("tools/package wheel", TOP / "tools/package", "wheel", ".", env={**ENVIRONMENT, "OFSWITCH_LIBRARY": os.environ.get("OFSWITCH_LIBRARY", "")})
        self.good("an environment", python(), "-m", "venv", "wheeled")
        self.good("pip install of the wheel", "wheeled/bin/pip", "install", "--no-index", "--quiet", wheel.strip())
        # the program that is on the PATH, and not the one that OFSWITCH names
        surroundings = {**ENVIRONMENT, "PATH": f"{self.folder}/wheeled/bin:{os.environ['PATH']}"}
        del surroundings["OFSWITCH"]
        self.good("the program in the wheel", "wheeled/bin/python", "-c", PROGRAMS["a switch"], env=surroundings)


@unittest.skipUnless(python("pytest"), "there is no Python 3.11 with pytest")
class OwnTests(unittest.TestCase):
    """The tests of the module, each of which is a test here."""

    slow = True

    def test_all(self):
        is_installed = run([python("pytest"), "-c", "import importlib.metadata as it; it.version('ofswitch')"]).status == 0
        plugin = [] if is_installed else ["-p", "ofswitch.pytest_plugin"]
        words = ["-m", "pytest", "-q", "-rpfEs", "--no-header", "-p", "no:cacheprovider", *plugin, "--rootdir", TOP / "python", TOP / "python/tests"]
        with tempfile.TemporaryDirectory() as folder:
            done = run([python("pytest"), *words], env={**ENVIRONMENT, "PYTHONPATH": str(TOP / "python")}, cwd=folder, timeout=3600)
        found = re.findall(r"^(PASSED|FAILED|ERROR|SKIPPED) (.*)", done.out, re.M)
        self.assertTrue(found, done.out[-2000:] + done.err[-2000:])
        for outcome, name in found:
            with self.subTest(name):
                if outcome == "SKIPPED":
                    self.skipTest(name)
                self.assertEqual(outcome, "PASSED", done.out if outcome != "PASSED" else "")
        self.assertIn(done.status, (0, 1), done.out[-2000:])
