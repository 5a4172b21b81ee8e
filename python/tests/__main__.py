"""Runs the test_*.py of this folder, two files at a time. The last line is `N passed, M failed`; a subtest counts as a test."""

import multiprocessing
import pathlib
import sys
import unittest

HERE = pathlib.Path(__file__).resolve().parent
sys.path[:0] = [str(HERE), str(HERE.parent)]
AT_A_TIME = 2


class Counted(unittest.TestResult):
    """A result that counts what passed: subtests, and tests without any."""

    def __init__(self):
        super().__init__()
        self.passed, self.parted = 0, set()

    def addSubTest(self, test, subtest, error):
        super().addSubTest(test, subtest, error)
        self.parted.add(test.id())
        self.passed += error is None

    def addSuccess(self, test):
        super().addSuccess(test)
        self.passed += test.id() not in self.parted


def run_file(name):
    """How many tests of a file passed, and what the others say."""
    result = Counted()
    unittest.defaultTestLoader.loadTestsFromName(name).run(result)
    return result.passed, [f"{test}\n{words}" for test, words in result.failures + result.errors]


def main():
    names = sorted(path.stem for path in HERE.glob("test_*.py"))
    passed, failures = 0, []
    with multiprocessing.Pool(AT_A_TIME) as pool:
        for count, failed in pool.imap_unordered(run_file, names, chunksize=1):
            passed += count
            failures += failed
    print(*failures, sep="\n", end="\n" if failures else "")
    print(f"{passed} passed, {len(failures)} failed")
    return 1 if failures else 0


if __name__ == "__main__":
    sys.exit(main())
