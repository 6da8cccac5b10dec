"""Runs the unittest files of a folder, and counts the tests that pass, fail and are skipped."""

import signal
import sys
import unittest


class Counting(unittest.TextTestResult):
    """A test result that also counts the tests that pass. A test with subtests counts once."""

    passed = 0

    def addSuccess(self, test):
        """Counts a test that has passed."""
        super().addSuccess(test)
        self.passed += 1


def whole(test):
    """The name of a test, or of the test to which a subtest belongs."""
    return getattr(test, 'test_case', test).id()


def run(folder, names):
    """Runs the files test_NAME.py of a folder, all of them if no names are given, and returns the exit status. The last line is 'N passed,
    M failed', followed by the number of skipped tests if there are any."""
    # A shell that starts the tests in the background makes them ignore Ctrl-C, and also each program that a test would interrupt by it.
    signal.signal(signal.SIGINT, signal.default_int_handler)
    sys.path.insert(0, str(folder))
    names = names or sorted(file.stem[len('test_'):] for file in folder.glob('test_*.py'))
    suite = unittest.defaultTestLoader.loadTestsFromNames([f'test_{name}' for name in names])
    found = unittest.TextTestRunner(stream=sys.stdout, resultclass=Counting).run(suite)
    for test, why in found.skipped:
        print(f'skipped: {test}: {why}')
    bad = {whole(test) for test, _ in found.failures + found.errors}
    behind = f', {len(found.skipped)} skipped' if found.skipped else ''
    print(f'{found.passed} passed, {len(bad)} failed{behind}')
    return 1 if bad else 0
