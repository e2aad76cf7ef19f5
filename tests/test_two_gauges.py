"""The README of the sheet to start from, which is copied with it: it comments every line, and what it says of answers and limits holds."""
import re
import unittest

from reckoning.limits import HOUR, most_hundredths
from reckoning.refusal import refusal
from reckoning.verdict import NO, YES
from tests.program import run
from tests.tables import code, table
from tests.two_gauges import FOLDER, FORMULA, LABELS, MOVES, recipe, rows

TEXT = (FOLDER / "README.md").read_text()


def first_cells(*heads):
    """What stands in quotes in the first column of a table."""
    return [code(row[0]) for row in table(TEXT, *heads)]


class Readme(unittest.TestCase):
    def test_comments_every_line(self):
        for name, comment in (("states.txt", "why it is there"), ("moves.txt", "what moves"), ("labels.txt", "what holds")):
            with self.subTest(name):
                self.assertEqual(first_cells(f"`{name}`", comment), (FOLDER / name).read_text().splitlines())

    def test_comments_the_question(self):
        question = FORMULA.decode().rstrip("\n")
        self.assertEqual(" ".join(first_cells(f"`{question}`", "what it says")), question)

    def test_report(self):
        shown = re.search(r"## Read the answer\n\n((?:    .+\n)+)", TEXT)[1]
        self.assertEqual(re.sub("(?m)^    ", "", shown).encode(), run((MOVES, LABELS, FORMULA)))

    def test_other_questions(self):
        found = table(TEXT, "question", "`formula.txt`", "chance at 0", "yes at")
        self.assertGreaterEqual(len(found), 4)
        for row in found:
            with self.subTest(row[0]):
                self.assertEqual(*recipe(*row))

    def test_other_hours(self):
        """Up to how many hours state 0 says yes, to the hundredth."""
        for hours, verdict in (("81.85", YES), ("81.86", NO)):
            self.assertIn(f"`U {hours}`", TEXT)
            self.assertEqual(rows(f"P <= 10000000 U {hours} tt lost")[0].verdict, verdict)

    def test_load(self):
        """The greatest exit rate, and the hours that it allows."""
        chain = refusal(MOVES, LABELS, FORMULA).chain
        most = most_hundredths(chain.q) / HOUR
        self.assertIn(f"Here it is {chain.q:,}, out of state {chain.exits.index(chain.q)}, which allows {most:.2f} hours", TEXT)

    def test_reads_well_anywhere(self):
        """It links to nothing, since it is copied to wherever the sheet goes."""
        self.assertNotIn("](", TEXT)


if __name__ == "__main__":
    unittest.main()
