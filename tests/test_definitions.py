"""The definitions compute, and agree with the second reckoning, on a job and a clean copy for each number and some accepted; and they do not prove
what is false."""
import random
import re
import unittest
from itertools import product

from reckoning.copying import BY_SHEET, SHORT_COPY, copied
from reckoning.ends import Rules
from reckoning.formula import hours_text
from reckoning.judge import report_depth
from reckoning.limits import BILLION, HOUR, MOST_HUNDREDTHS, MOST_LEVELS, MOST_NODES, MOST_RATE, MOST_STATES, RATE_HOURS, SHEET_BYTES
from reckoning.refusal import BY_TEXTS, SHORT, Job, lengths, refusal
from reckoning.report import Row, worst_first
from reckoning.sheets import FULL_MOVES, LABELS, MOVES, MOVES_LINE, NO_MOVES, between, labels_text, moves_text, until
from reckoning.verdict import WORDS
from tests import definitions
from tests.edges import nodes

MOST = nodes(MOST_NODES)[2]             # a formula of as many nodes as there may be

# moves, labels, formula, lent lengths
JOBS = (
    (MOVES, LABELS, b"P <= 10000000 U 8.25 up P > 7 U %s up ! dead\n" % hours_text(MOST_HUNDREDTHS), None),
    (MOVES[:-1], LABELS, b"up\n", None),
    (MOVES_LINE + b"0,1,05\n", LABELS, b"up\n", None),
    (MOVES, b"state,up,up\n0,1,0\n1,0,1\n", b"up\n", None),
    (MOVES, b"state,up\n1,1\n0,0\n", b"up\n", None),
    (moves_text([(0, 2, 5)]), LABELS, b"up\n", None),
    (moves_text([(0, 0, 2), (0, 1, 1)]), LABELS, b"P >= 333333334 X dead\n", lengths(2, 2, 2)),
    (moves_text([(0, 0, MOST_RATE)]), LABELS, b"P < 1 U %s P < 1 X up P > 5 X ! dead\n" % hours_text(MOST_HUNDREDTHS), None),
    (moves_text([(1, 1, 5), (0, 1, 3), (1, 1, 5), (0, 1, 4)]), LABELS, b"P < 1 U 8 up P >= 5 X dead\n", lengths(2, 4, 4)),
    (moves_text([(1, 1, 5), (0, 1, 3), (1, 1, 5), (0, 1, 4)]), LABELS, b"up\n", lengths(2, 4, 1)._replace(moves=7)),
    (moves_text([(0, 1, MOST_RATE // 2), (1, 0, 1), (0, 1, MOST_RATE // 2)]), LABELS, until(HOUR), None),
    (moves_text([(0, 1, MOST_RATE // 2), (1, 0, 1), (0, 1, MOST_RATE // 2 + 1)]), LABELS, b"up\n", None),
    (moves_text([(0, 1, 5), (1, 0, 1), (0, 1, 0)]), LABELS, b"up\n", None),
    (moves_text([(0, 0, MOST_RATE), (0, 1, 1)]), LABELS, b"up\n", None),
    (MOVES, LABELS, b"P < 1 X dead up\n", None),
    (MOVES, LABELS, b"P < 1000000001 X dead\n", None),
    (moves_text([(1, 0, 5), (0, 1, 5)]), LABELS, b"up\n", None),
    (moves_text([(0, 1, MOST_RATE + 1)]), LABELS, b"up\n", None),
    (MOVES, LABELS, b"& up\n", None),
    (MOVES, LABELS, b"P < 1 U 8.50 up dead\n", None),
    (MOVES, LABELS, b"! " * MOST_LEVELS + b"up\n", None),
    (MOVES, LABELS, b"& up gas\n", None),
    (MOVES, LABELS, until(MOST_HUNDREDTHS + 1), None),
    (FULL_MOVES, LABELS, until(HOUR + 1), None),
    (MOVES, LABELS, between(HOUR, 825), lengths(2, 1, 3)),
    (MOVES, LABELS, b"P <= 7 V 0 8.25 P > 5 V 8 8 tt dead P < 1 X P >= 0 V 0.05 %s up ! dead\n" % hours_text(MOST_HUNDREDTHS), None),
    (NO_MOVES, LABELS, between(MOST_HUNDREDTHS, MOST_HUNDREDTHS), None),
    (FULL_MOVES, LABELS, between(HOUR, 2 * HOUR), None),
    (FULL_MOVES, LABELS, between(0, HOUR + 1), None),
    (FULL_MOVES, LABELS, between(HOUR + 1, HOUR + 1), None),
    (FULL_MOVES, LABELS, between(HOUR, 2 * HOUR + 1), None),
    (FULL_MOVES, LABELS, b"& P < 1 U 5 up dead P < 1 V 3 1 up dead\n", None),
    (MOVES, LABELS, between(801, 800), None),
    (MOVES, LABELS, b"P < 1 V 8 1 up P < 1 V 1 8760.01 up dead\n", None),
    (MOVES, LABELS, between(MOST_HUNDREDTHS + 1, HOUR), None),
    (MOVES, LABELS, b"P < 1 V 1 up dead\n", None),
    (MOVES, LABELS, b"P < 1 V 1 8.50 up dead\n", None),
    (moves_text([(0, 1, RATE_HOURS)]), LABELS, until(6_325), lengths(2, 1, 3)),
    (MOVES, LABELS, b"P > 0 U 0.01 up P >= 1000000000 X dead\n", lengths(2, 1, 4)),
    (MOVES, LABELS, until(HOUR), lengths(2, 1, 3)._replace(marks=5)),
    *((MOVES, LABELS, b"& up " * 7 + b"! " * more + b"up\n", lengths(2, 1, 15 + more)) for more in (1, 2, 3)),
    *((MOVES, LABELS, b"& up " * 7 + b"! " * more + b"up\n", lengths(2, 1, 15 + more)._replace(marks=33)) for more in (1, 2, 3)),
    (MOVES, LABELS, MOST, lengths(2, 1, MOST_NODES)),
    (MOVES, LABELS, MOST, lengths(2, 1, MOST_NODES)._replace(marks=33)),
    (MOVES, LABELS, until(HOUR), lengths(2, 1, 3)._replace(moves=1)),
    (moves_text([(0, 0, 2), (0, 1, 1)]), LABELS, b"P > 0 X dead\n", lengths(2, 2, 2)._replace(moves=3)),
    (MOVES, LABELS, until(HOUR), lengths(2, 1, 3)._replace(order=1)),
    (MOVES, LABELS, until(HOUR), lengths(2, 1, 3)._replace(order=3)),
    (b"", LABELS, b"up\n", None),
    (MOVES, labels_text([], [[]] * (MOST_STATES + 1)), b"tt\n", None),
)


ELEVEN = labels_text([], [[]] * 11)

# moves, labels, and the length of the lent buffer
COPIES = (
    *dict.fromkeys((moves, labels, SHEET_BYTES) for moves, labels, _, _ in JOBS),
    (moves_text([(10, 2, 5), (2, 10, 7), (2, 9, 1), (0, 0, 3), (2, 10, 93), (9, 0, 1), (2, 2, 8)]), ELEVEN, SHEET_BYTES),
    (moves_text([(s, 10 - s, 10**(s % 8)) for s in (7, 3, 9, 0, 1, 10, 8, 2, 5, 4, 6, 3, 7)]), ELEVEN, SHEET_BYTES),
    (moves_text([(1, 0, 1), *[(0, 1, 9)] * 12, (1, 1, 2)]), LABELS, SHEET_BYTES),
    *((NO_MOVES, LABELS, room) for room in (0, len(NO_MOVES) - 1, len(NO_MOVES))),
    *((moves_text([(1, 0, 60), (0, 1, 5), (1, 0, 40)]), LABELS, room) for room in (0, 1, 26, 27, 28)),
    (MOVES_LINE + b"0,1,5\n0,1,0\n", LABELS, 0),
    (MOVES_LINE + b"0,9,0\n", LABELS, 0),
    (b"from,to\n0,1,5\n", LABELS, 0),
    (MOVES, b"", SHEET_BYTES),
    (MOVES, b"state\n", SHEET_BYTES),
)


def reckoned(moves, labels, formula, lent):
    """The job, with what the second reckoning says of it."""
    job = {"moves": moves, "labels": labels, "formula": formula, "lent": lent}
    answer = refusal(moves, labels, formula, lent)
    if isinstance(answer, Job):
        job["q"] = answer.chain.q
        job["depth"] = report_depth(Rules(answer.chain), answer.tree)
    else:
        job["refused"] = answer
    return job


def reports():
    """Rows of reports: the small sheet's, each way in which three lower ends can stand to each other, and drawn ones."""
    rng = random.Random(23)
    yield [Row(0, 0, 40, "no"), Row(BILLION, BILLION, 40, "yes")]
    for lower in product((0, 7, 9), repeat=3):
        yield [Row(low, upper, 0, word) for low, upper, word in zip(lower, (9, BILLION, 9), ("no", "undecided", "yes"))]
    for states in (1, 9, 12):
        yield [Row(low, BILLION, 168, rng.choice(WORDS)) for low in rng.choices((0, 3_992_010, BILLION, rng.randrange(BILLION)), k=states)]


class Definitions(unittest.TestCase):
    def test_agree_with_the_second_reckoning(self):
        """On jobs, on the order and the two listings of reports, and on clean copies."""
        jobs = [reckoned(*job) for job in JOBS]
        numbers = {job.get("refused") for job in jobs}
        self.assertTrue(numbers >= {None, *BY_TEXTS, SHORT} - {5}, numbers)
        listings = [definitions.report_equations(number, rows) for number, rows in enumerate(reports())]
        self.assertGreater(len(listings), 30)
        numbers = {copied(*copy) if isinstance(copied(*copy), int) else None for copy in COPIES}
        self.assertTrue(numbers >= {None, *BY_SHEET, SHORT_COPY} - {5}, numbers)
        copies = [definitions.copy_equations(number, *copy) for number, copy in enumerate(COPIES)]
        good, printed = definitions.check(definitions.equations_of(jobs) + listings + copies)
        self.assertTrue(good, printed)

    def test_a_wrong_number_is_not_proved(self):
        job = dict(reckoned(*JOBS[1]), refused=3)
        good, _ = definitions.check(definitions.equations_of([job]))
        self.assertFalse(good)

    def test_another_copy_is_not_proved(self):
        """The lines as they were typed, and a number for what is accepted."""
        moves = moves_text([(1, 0, 60), (0, 1, 5), (1, 0, 40)])
        good, printed = definitions.check([definitions.copy_equations(number, moves, LABELS, answer=answer)
                                           for number, answer in enumerate((moves, SHORT_COPY))])
        self.assertFalse(good)
        self.assertEqual(re.findall("error: `(.+?)`", printed), ["copy-of-0", "copy-refusal-of-1"])

    def test_another_order_is_not_proved(self):
        """Equal ends by falling number."""
        rows = [Row(0, 0, 0, "no"), Row(5, 5, 0, "no"), Row(5, 5, 0, "no")]
        self.assertEqual(worst_first(rows), [1, 2, 0])
        good, printed = definitions.check([definitions.report_equations(0, rows, order=[2, 1, 0])])
        self.assertFalse(good)
        self.assertIn("order-of-0", printed)


if __name__ == "__main__":
    unittest.main()
