"""The four commands."""

import subprocess
import sys
import tempfile
import unittest
from pathlib import Path

from reckoning.sheets import HOURS_8, HOURS_8_REPORT, LABELS, MOVES, labels_text, moves_text

ROOT = Path(__file__).resolve().parents[2]
SHEET = dict(moves=MOVES, labels=LABELS, formula=HOURS_8)


class Commands(unittest.TestCase):
    def run_with(self, command, printed=b"", **texts):
        with tempfile.TemporaryDirectory() as folder:
            for name, text in texts.items():
                (Path(folder) / f"{name}.txt").write_bytes(text)
            done = subprocess.run([sys.executable, "-m", "reckoning", command, folder], input=printed,
                                  stdout=subprocess.PIPE, stderr=subprocess.PIPE, cwd=ROOT)
        return done.returncode, done.stdout.decode()

    def test_judge(self):
        self.assertEqual(self.run_with("judge", HOURS_8_REPORT, **SHEET), (0, "allowed\n"))
        status, told = self.run_with("judge", HOURS_8_REPORT.replace(b"yes", b"no"), **SHEET)
        self.assertEqual((status, told), (1, "state 0: verdict no does not follow from the ends\n"))
        first = HOURS_8_REPORT[:len(HOURS_8_REPORT) // 2]
        self.assertEqual(self.run_with("judge", first, **SHEET), (1, "3 lines, should be 6: two listings of 2 states\n"))
        status, told = self.run_with("judge", first + first, **SHEET)
        self.assertEqual(status, 1)
        self.assertTrue(told.startswith("second listing, row 1: "), told)

    def test_refusal(self):
        self.assertEqual(self.run_with("refusal", **SHEET), (0, "accepted\n"))
        self.assertEqual(self.run_with("refusal", moves=MOVES, labels=LABELS), (0, "1\n"))
        self.assertEqual(self.run_with("judge", b"refused\n1\n"), (0, "allowed\n"))

    def test_ends(self):
        status, told = self.run_with("ends", **SHEET)
        self.assertEqual((status, told.splitlines()), (0, [
            "depth 42, width 168",
            "0: lower 3991843 to 3992010, upper 3992011 to 3992178, yes",
            "1: lower 1000000000 to 1000000000, upper 1000000000 to 1000000000, no"]))

    def test_ends_of_two_phases(self):
        status, told = self.run_with("ends", moves=MOVES, labels=LABELS, formula=b"P < 1 V 1 8 up dead\n")
        self.assertEqual((status, told.splitlines()), (0, [
            "depth 84, width 336",
            "0: lower 3491800 to 3492135, upper 3492136 to 3492471, no",
            "1: lower 0 to 0, upper 0 to 0, yes"]))
        self.assertEqual(self.run_with("ends", moves=MOVES, labels=LABELS, formula=b"P < 1 V 8 1 up dead\n"), (0, "refused 16\n"))

    def test_copy(self):
        """It needs no formula, and prints what the program prints that copies."""
        moves = moves_text([(1, 0, 2), (0, 1, 5), (1, 1, 4), (0, 1, 6)])
        self.assertEqual(self.run_with("copy", moves=moves, labels=LABELS), (0, "from,to,rate\n0,1,11\n1,0,2\n1,1,4\n"))
        self.assertEqual(self.run_with("copy", moves=moves), (0, "refused\n1\n"))
        self.assertEqual(self.run_with("copy", moves=moves_text([(0, 2, 5)]), labels=LABELS, formula=b""), (0, "refused\n6\n"))

    def test_cannot_tell(self):
        """The limit at state 0 is a half, a whole number of billionths, which going deeper does not show."""
        moves = moves_text([(0, 1, 1_000_000), (0, 2, 1_000_000), (1, 3, 2_000_000)])
        labels = labels_text([b"dead"], [[0], [1], [1], [0]])
        status, told = self.run_with("ends", moves=moves, labels=labels, formula=b"P < 1 V 0.5 0.5 tt dead\n")
        self.assertEqual((status, told), (2, "cannot tell: quotients of two phases that seem to end at a whole billionth\n"))
