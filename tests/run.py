"""Runs everything: `rt ci` (proofs, must-fail edits, programs), then the project's own tests. Stops at the first failure.

An edit that must fail and is bad, so that it was not put to the prover, is a failure here. What `rt ci` says of each edit is kept in
target/must-fail.txt, for tests/test_edits.py. Tests that were skipped are told, each with its reason. The last line is `N passed, M failed`; N
counts what was proved and what was tested.
"""
import pathlib
import re
import subprocess
import sys
import time
import unittest

ROOT = pathlib.Path(__file__).resolve().parent.parent
EDITS_SAID = ROOT / "target" / "must-fail.txt"
CLOSING = re.compile(r"(\d+) passed, (\d+) failed")
BAD_EDITS = re.compile(r"rt: ok\b.*; must-fail edits: [^;]*?\b(\d+) bad\b")
OF_AN_EDIT = "rt: must-fail "


def prove():
    """What `rt ci` passed and failed; its output goes on to ours."""
    run = subprocess.Popen(["rt", "ci"], cwd=ROOT, stdout=subprocess.PIPE, stderr=subprocess.STDOUT, text=True, errors="replace")
    lines = []
    with run:
        for line in run.stdout:
            print(line, end="", flush=True)
            lines.append(line)
    EDITS_SAID.parent.mkdir(exist_ok=True)
    EDITS_SAID.write_text("".join(line for line in lines if line.startswith(OF_AN_EDIT)))
    return counted(lines, run.returncode)


def counted(lines, status):
    """What `rt ci` passed and failed, by its lines and its status. A bad edit counts as failed."""
    passed, failed, bad = 0, 1, 0
    for line in lines:
        if closing := CLOSING.fullmatch(line.strip()):
            passed, failed = map(int, closing.groups())
        if told := BAD_EDITS.match(line):
            bad = int(told[1])
    if status != 0:
        failed = max(failed, 1)
    return passed, failed + bad


class Result(unittest.TextTestResult):
    """Counts the tests that passed: one that is skipped, as a whole or in a part, is none of them."""

    passed = 0

    def addSuccess(self, test):
        super().addSuccess(test)
        self.passed += 1


def suite():
    """The project's own tests."""
    sys.path.insert(0, str(ROOT))
    loader = unittest.TestLoader()
    return unittest.TestSuite(
        loader.discover(str(ROOT / folder), top_level_dir=str(ROOT)) for folder in ("reckoning/tests", "tests"))


def test(tests):
    """What these tests passed and failed, and a line for each that was skipped."""
    result = unittest.TextTestRunner(stream=sys.stdout, verbosity=1, failfast=True, resultclass=Result).run(tests)
    failed = len(result.failures) + len(result.errors) + len(result.unexpectedSuccesses)
    return result.passed, failed, [f"skipped: {test.id()}: {reason}" for test, reason in result.skipped]


def main():
    begun = time.monotonic()
    passed, failed = prove()
    proved = time.monotonic()
    print(f"proofs: {proved - begun:.0f} s", flush=True)
    if not failed:
        more, failed, skipped = test(suite())
        passed += more
        print(f"tests: {time.monotonic() - proved:.0f} s", *skipped, sep="\n")
    print(f"{passed} passed, {failed} failed")
    return 1 if failed else 0


if __name__ == "__main__":
    sys.exit(main())
