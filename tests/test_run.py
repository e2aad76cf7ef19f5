"""What `tests/run.py` counts and tells: a bad edit and a wrong status count as failed, a skipped test is none that passed, and its reason is told."""
import io
import unittest
from contextlib import redirect_stdout

from tests import run


class Mixed(unittest.TestCase):
    """Its methods are not named as tests are, so that they are run by the tests below alone."""

    def passes(self):
        pass

    def fails(self):
        self.fail()

    def skips(self):
        self.skipTest("no folder")

    def skips_a_part(self):
        with self.subTest("one"):
            self.skipTest("no file")


class Counting(unittest.TestCase):
    def counted(self, *names):
        with redirect_stdout(io.StringIO()):
            return run.test(unittest.TestSuite(map(Mixed, names)))

    def test_passed_and_failed(self):
        self.assertEqual(self.counted("passes", "passes", "fails"), (2, 1, []))

    def test_skipped_are_told_and_not_counted(self):
        passed, failed, told = self.counted("passes", "skips", "skips_a_part")
        self.assertEqual((passed, failed), (1, 0))
        self.assertEqual([line.rpartition(": ")[2] for line in told], ["no folder", "no file"])
        self.assertTrue(all(line.startswith("skipped: tests.test_run.Mixed.skips") for line in told))


class Proving(unittest.TestCase):
    """Of the lines of `rt ci`."""

    OK = "rt: ok; handles allowed: none; must-fail edits: 136 refused{}; every proof and must-fail edit was done in this run\n"

    def test_passed_and_failed(self):
        self.assertEqual(run.counted(["rt: one proved\n", self.OK.format(""), "42 passed, 0 failed\n"], 0), (42, 0))
        self.assertEqual(run.counted(["rt: FAILED: one\n", "41 passed, 1 failed\n"], 1), (41, 1))

    def test_status(self):
        """It fails where `rt ci` does, whatever that printed, and where the last line is missing."""
        self.assertEqual(run.counted([self.OK.format(""), "42 passed, 0 failed\n"], 1), (42, 1))
        self.assertEqual(run.counted(["rt: one proved\n"], 0), (0, 1))
        self.assertEqual(run.counted(["42 passed, 0 failed (one and the crates below alone: not the gate)\n"], 0), (0, 1))

    def test_bad_edits(self):
        for bad in (1, 12):
            self.assertEqual(run.counted([self.OK.format(f", {bad} bad"), "42 passed, 0 failed\n"], 0), (42, bad))
        self.assertEqual(run.counted([self.OK.format(", 0 bad"), "42 passed, 0 failed\n"], 0), (42, 0))


if __name__ == "__main__":
    unittest.main()
