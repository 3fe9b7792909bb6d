"""Runs the tests beside it, and says how many passed, failed and were skipped."""
import glob
import os
import sys
import unittest

HERE = os.path.dirname(os.path.abspath(__file__))


class Told(unittest.TextTestResult):
    """One line for each test that failed or was skipped."""

    passed = 0

    def addSuccess(self, test):
        super().addSuccess(test)
        self.passed += 1

    def addSkip(self, test, reason):
        super().addSkip(test, reason)
        print(f"skipped: {test.id()}: {reason}")


def main():
    sys.path.insert(0, HERE)
    names = sys.argv[1:] or [os.path.basename(it)[:-3] for it in sorted(glob.glob(f"{HERE}/*_test.py"))]
    names = [it if "_test" in it else f"{it}_test" for it in names]
    tests = unittest.defaultTestLoader.loadTestsFromNames(names)
    told = unittest.TextTestRunner(stream=sys.stdout, resultclass=Told, verbosity=0).run(tests)
    failed = len(told.failures) + len(told.errors)
    print(f"tools: {told.passed} passed, {failed} failed, {len(told.skipped)} skipped")
    return 1 if failed else 0


if __name__ == "__main__":
    sys.exit(main())
