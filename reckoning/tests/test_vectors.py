"""Agreement with the vectors, where they are there."""

import unittest

from reckoning.judge import allowed_ends
from reckoning.refusal import refusal
from reckoning.tests.vectors import MISSING, cases, texts_of


@unittest.skipIf(MISSING, MISSING)
class Vectors(unittest.TestCase):
    def test_refusals(self):
        for case in cases():
            with self.subTest(case["name"]):
                answer = refusal(*texts_of(case))
                self.assertEqual(answer if isinstance(answer, int) else None, case.get("refused"))

    def test_reports(self):
        for case in cases():
            if "refused" not in case:
                with self.subTest(case["name"]):
                    self.agrees(case, allowed_ends(*texts_of(case)))

    def agrees(self, case, allowed):
        """The vectors say nothing of the width of an `X`, whose ends are determined; its depth is 0."""
        self.assertEqual(allowed.depth, case["depth"])
        if case["depth"]:
            self.assertEqual(allowed.width, case.get("width"))
        self.assertEqual([list(pair) for pair in allowed.lower], case["lower"])
        self.assertEqual([list(pair) for pair in allowed.upper], case["upper"])
        self.assertEqual(list(map(sorted, allowed.verdicts)), list(map(sorted, case["verdict"])))
