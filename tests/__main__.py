"""`python3 -m tests [-j JOBS] [-k PART]`: runs the tests, or those with PART in their names, several at a time, and counts them.

Each row of a table (a subtest) counts, and each test without rows. What was skipped is named with its reason. The last line is
`N passed, M failed`; the line before it says how many were skipped.
"""
import argparse
import concurrent.futures
import os
import sys
import unittest


class Counting(unittest.TestResult):
    """Counts the rows of tests that have rows, and the other tests."""

    passed = rows = 0

    def startTest(self, test):
        super().startTest(test)
        self.rows = 0

    def addSubTest(self, test, subtest, err):
        super().addSubTest(test, subtest, err)
        self.rows += 1
        self.passed += err is None

    def addSuccess(self, test):
        super().addSuccess(test)
        self.passed += self.rows == 0


def tests_of(suite):
    for it in suite:
        yield from tests_of(it) if isinstance(it, unittest.TestSuite) else [it]


def units(suite):
    """The names of what runs by itself, those that take long first: each test, or a class that prepares something for all its tests."""
    names = {}
    for test in tests_of(suite):
        prepares = getattr(test, "setUpClass", unittest.TestCase.setUpClass).__func__ is not unittest.TestCase.setUpClass.__func__
        names.setdefault(test.id().rpartition(".")[0] if prepares else test.id(), getattr(test, "slow", False))
    return sorted(names, key=lambda it: not names[it])


def run(name, patterns):
    """How many passed, and what failed and what was skipped, each with what is said about it."""
    loader, result = unittest.TestLoader(), Counting()
    loader.testNamePatterns = patterns
    loader.loadTestsFromName(name).run(result)
    return result.passed, [(str(test), why) for test, why in result.failures + result.errors], [(str(test), why) for test, why in result.skipped]


def main():
    parser = argparse.ArgumentParser(prog="python3 -m tests", description=__doc__.partition("\n\n")[0])
    parser.add_argument("-j", metavar="JOBS", type=int, default=os.cpu_count(), help="how many run at a time")
    parser.add_argument("-k", metavar="PART", action="append", help="a part of the name of a file, a class or a test")
    words = parser.parse_args()
    patterns = words.k and [f"*{it}*" for it in words.k]
    loader = unittest.TestLoader()
    loader.testNamePatterns = patterns
    names = units(loader.discover("tests", top_level_dir="."))
    passed, failed, skipped = 0, 0, []
    with concurrent.futures.ProcessPoolExecutor(words.j) as pool:
        for done in concurrent.futures.as_completed([pool.submit(run, name, patterns) for name in names]):
            good, bad, left_out = done.result()
            passed, failed = passed + good, failed + len(bad)
            skipped += left_out
            for test, why in bad:
                print(f"FAILED {test}\n{why}", flush=True)
    for test, why in sorted(skipped):
        print(f"skipped: {test}: {why}")
    print(f"{len(skipped)} skipped\n{passed} passed, {failed} failed")
    return 1 if failed else 0


if __name__ == "__main__":
    os.chdir(os.path.dirname(os.path.dirname(os.path.abspath(__file__))))
    sys.exit(main())
