"""Prints that the rules allow, and altered ones that they do not.

`allows` and `refuses` are given a first listing, and put the second behind it; `allows_whole` and `refuses_whole` are given all of a print.
"""

import unittest
from itertools import permutations, product
from random import Random
from unittest import mock

from reckoning import backing
from reckoning.judge import allowed_ends, judge
from reckoning.limits import BILLION, MOST_HUNDREDTHS, MOST_LEVELS, MOST_RATE
from reckoning.refusal import lengths
from reckoning.report import Row, read_report, report_text, worst_first
from reckoning.sheets import (FAST_MOVES, FORMULA, FULL_MOVES, HOURS_8, HOURS_8_REPORT, LABELS, MOVES, NO_MOVES, REPORT, REPORT_LINE, between,
                              labels_text, moves_text, until)
from reckoning.tests.chains import row, texts
from reckoning.tests.prints import twice
from reckoning.verdict import WORDS

HOURS_8_ROWS = REPORT_LINE + b"0,3992010,3992011,42,yes\n1,1000000000,1000000000,42,no\n"


def faults(formula, printed, moves=MOVES, labels=LABELS):
    return judge(moves, labels, formula, printed)


class Judged(unittest.TestCase):
    def allows_whole(self, formula, printed, **sheet):
        self.assertEqual(faults(formula, printed, **sheet), [])

    def refuses_whole(self, formula, printed, **sheet):
        self.assertNotEqual(faults(formula, printed, **sheet), [])

    def allows(self, formula, first, **sheet):
        self.allows_whole(formula, twice(first), **sheet)

    def refuses(self, formula, first, **sheet):
        self.refuses_whole(formula, twice(first), **sheet)


class Bench(Judged):
    def test_printed_sheets(self):
        yes, no = b"1000000000,1000000000,%d,yes\n", b"0,0,%d,no\n"
        self.allows_whole(FORMULA, REPORT)
        self.allows_whole(HOURS_8, HOURS_8_REPORT)
        self.assertEqual(twice(HOURS_8_ROWS), HOURS_8_REPORT)
        self.allows(b"tt\n", REPORT_LINE + b"0," + yes % 0 + b"1," + yes % 0)
        self.allows(b"& up ! dead\n", REPORT_LINE + b"0," + yes % 0 + b"1," + no % 0)
        self.allows(b"! " * (MOST_LEVELS - 1) + b"up\n", REPORT_LINE + b"0," + no % 0 + b"1," + yes % 0)
        self.allows(until(MOST_HUNDREDTHS),
                    REPORT_LINE + b"0,0,0,40,yes\n1,1000000000,1000000000,40,no\n", moves=NO_MOVES)

    def test_refusals(self):
        self.allows_whole(b"P >= 5 U 2 up dead\n", b"refused\n14\n", moves=FULL_MOVES)
        self.allows_whole(b"! " * MOST_LEVELS + b"up\n", b"refused\n11\n")
        for printed in (b"refused\n14", b"refused 14\n", b"refused\n13\n", b"refused\n014\n", b"",
                        b"refused\n14\n\n", b"refused\n14\nrefused\n14\n", b"Refused\n14\n", REPORT):
            self.refuses_whole(b"P >= 5 U 2 up dead\n", printed, moves=FULL_MOVES)
        self.refuses_whole(FORMULA, b"refused\n15\n")

    def test_lent(self):
        for short in ("verdicts", "order"):
            self.assertEqual(judge(MOVES, LABELS, FORMULA, b"refused\n15\n", lengths(2, 1, 3)._replace(**{short: 1})), [])
        self.assertEqual(judge(MOVES, LABELS, FORMULA, REPORT, lengths(2, 1, 3)), [])

    def test_depth_168(self):
        allowed = allowed_ends(FAST_MOVES, LABELS, b"P >= 5 U 1 up dead\n")
        self.assertEqual((allowed.depth, allowed.width), (168, 672))

    def test_at_least_0(self):
        allowed = allowed_ends(MOVES, LABELS, b"P >= 0 U 1 up dead\n")
        self.assertEqual(allowed.verdicts, [{"yes"}, {"yes"}])

    def test_freedom(self):
        """Ends a little off are allowed, to the last billionth."""
        for ends in (b"3991843,3992011", b"3992010,3992178", b"3992000,3992100", b"3991900,3992068"):
            self.allows(HOURS_8, HOURS_8_ROWS.replace(b"3992010,3992011", ends))


class Layout(Judged):
    def test_small_sheet_altered(self):
        for printed in (
                REPORT[:-1], REPORT + b"\n", REPORT.replace(b"\n", b"\r\n"), REPORT + b"2,0,0,40,no\n", REPORT + b" ",
                REPORT[len(REPORT_LINE):], b"state,lower,upper,depth\n" + REPORT[len(REPORT_LINE):],
                REPORT.replace(b"0,0,0,", b"0,00,0,"), REPORT.replace(b"0,0,0,", b"00,0,0,"),
                REPORT.replace(b"40,no", b"040,no"), REPORT.replace(b",", b", "),
                REPORT.replace(b"no", b"No"), REPORT.replace(b"40,no", b"40,0"),
                REPORT.replace(b"0,0,0,40,no", b"0,0,0,no"), b"", b"\n"):
            with self.subTest(printed=printed):
                self.refuses_whole(FORMULA, printed)
        for rows in (b"1,1000000000,1000000000,40,yes\n0,0,0,40,no\n", b"0,0,0,40,no\n"):
            self.refuses(FORMULA, REPORT_LINE + rows)

    def test_state_numbers(self):
        line = b"1000000000,1000000000,0,yes\n"
        self.allows(b"tt\n", REPORT_LINE + b"0," + line + b"1," + line)
        for first, second in ((b"1,", b"0,"), (b"0,", b"0,"), (b"1,", b"2,")):
            self.refuses(b"tt\n", REPORT_LINE + first + line + second + line)

    def test_depth(self):
        self.refuses_whole(FORMULA, REPORT.replace(b",40,", b",42,"))
        self.refuses(HOURS_8, HOURS_8_ROWS.replace(b",42,yes", b",41,yes"))
        self.refuses(b"tt\n", REPORT_LINE + b"0,1000000000,1000000000,40,yes\n1,1000000000,1000000000,40,yes\n")


class Content(Judged):
    def altered(self, old, new, formula=HOURS_8, first=HOURS_8_ROWS, **sheet):
        self.allows(formula, first, **sheet)
        self.assertIn(old, first)
        self.refuses(formula, first.replace(old, new, 1), **sheet)

    def test_lower_above(self):
        self.altered(b"3992010,", b"3992011,")

    def test_upper_below(self):
        self.altered(b",3992011", b",3992010")

    def test_too_wide(self):
        self.altered(b"3992010,3992011", b"3991900,3992069")
        self.altered(b"3992010,3992011", b"0,1000000000")

    def test_too_far(self):
        self.altered(b"3992010,", b"3991842,")
        self.altered(b",3992011", b",3992179")

    def test_wrong_verdict(self):
        self.altered(b"42,yes", b"42,no")
        self.altered(b"42,yes", b"42,undecided")

    def test_point_ends_missing(self):
        self.altered(b"1000000000,1000000000,42", b"999999999,1000000000,42")
        sheet = dict(moves=MOVES, labels=labels_text([b"up", b"dead"], [(1, 0), (0, 1), (0, 0)]))
        self.altered(b"2,0,0,", b"2,0,1,", first=HOURS_8_ROWS + b"2,0,0,42,yes\n", **sheet)

    def test_only_the_second_holds(self):
        labels = LABELS.replace(b"0,1,0", b"0,0,1")
        first = REPORT_LINE + b"0,1000000000,1000000000,42,no\n1,1000000000,1000000000,42,no\n"
        self.altered(b"0,1000000000,1000000000,42,no", b"0,0,0,42,yes", first=first, labels=labels)

    def test_rounded_to_nearest(self):
        """The limit is about 3,992,010.656 billionths."""
        self.altered(b"3992010,3992011", b"3992011,3992011")

    def test_load_0_is_exact(self):
        self.altered(b"0,0,0,40", b"0,0,1,40", formula=FORMULA, first=REPORT_LINE + b"0,0,0,40,no\n1,1000000000,1000000000,40,yes\n")

    def test_staying_put_left_out(self):
        """State 0 moves half as often as q says: e^-1/2, not e^-1, stays."""
        moves = moves_text([(0, 1, 500_000), (1, 0, 1_000_000)])
        formula = b"P >= 500000000 U 1 up dead\n"
        right = REPORT_LINE + b"0,393469340,393469341,42,no\n1,1000000000,1000000000,42,yes\n"
        self.altered(b"393469340,393469341,42,no", b"632120558,632120559,42,yes",
                     formula=formula, first=right, moves=moves)


class NextMove(Judged):
    """`X` at the top: both ends are determined, and the depth is 0."""
    RESTARTS = dict(moves=moves_text([(0, 0, 2), (0, 1, 1), (1, 1, 3)]))
    FORMULA = b"P >= 333333334 X dead\n"
    FIRST = REPORT_LINE + b"0,333333333,333333334,0,undecided\n1,1000000000,1000000000,0,yes\n"

    def test_small_sheet(self):
        self.allows(b"P > 0 X dead\n", REPORT_LINE + b"0,1000000000,1000000000,0,yes\n1,0,0,0,no\n")
        self.refuses(b"P > 0 X dead\n", REPORT_LINE + b"0,1000000000,1000000000,0,yes\n1,1000000000,1000000000,0,yes\n")

    def test_a_restart_counts(self):
        self.allows(self.FORMULA, self.FIRST, **self.RESTARTS)
        for old, new in ((b"333333333,333333334", b"1000000000,1000000000"), (b"333333333,", b"333333332,"), (b",333333334", b",333333335"),
                         (b"333333333,333333334", b"333333333,333333333"), (b"333333333,333333334", b"333333334,333333334"),
                         (b",0,undecided", b",0,no"), (b",0,undecided", b",40,undecided"), (b",0,yes", b",42,yes"),
                         (b"1,1000000000,1000000000,0,yes", b"1,0,0,0,no")):
            self.assertIn(old, self.FIRST)
            self.refuses(self.FORMULA, self.FIRST.replace(old, new, 1), **self.RESTARTS)

    def test_until_leaves_restarts_out(self):
        """Rate 500 beside a restart as fast as can be: the bench value with q 500."""
        self.allows(HOURS_8, HOURS_8_ROWS, moves=moves_text([(0, 0, 63_999_500), (0, 1, 500)]))
        self.allows(until(MOST_HUNDREDTHS), REPORT_LINE + b"0,0,0,40,yes\n1,1000000000,1000000000,40,no\n", moves=moves_text([(0, 0, 64_000_000)]))

    def test_width(self):
        allowed = allowed_ends(MOVES, LABELS, self.FORMULA)
        self.assertEqual((allowed.depth, allowed.width), (0, 1))

    def test_refusals(self):
        self.allows_whole(b"P < 1 X dead up\n", b"refused\n10\n")
        self.allows_whole(b"P < 1000000001 X dead\n", b"refused\n13\n")


class TwoTimes(Judged):
    """`V` at the top: 1 to 8 hours on the small sheet, where the limit is about 3,492,135.635 billionths."""
    FORMULA = b"P < 1 V 1 8 up dead\n"
    FIRST = REPORT_LINE + b"0,3492135,3492136,84,no\n1,0,0,84,yes\n"

    def test_small_sheet(self):
        self.allows(self.FORMULA, self.FIRST)
        for ends in (b"3491800,3492136", b"3492135,3492471", b"3492000,3492336"):
            self.allows(self.FORMULA, self.FIRST.replace(b"3492135,3492136", ends))

    def test_altered(self):
        """One billionth too near, too far or too wide; the depth of one phase; the first operand forgotten at state 1."""
        for old, new in ((b"3492135,", b"3492136,"), (b",3492136", b",3492135"), (b"3492135,", b"3491799,"), (b",3492136", b",3492472"),
                         (b"3492135,3492136", b"3491900,3492237"), (b"84", b"42"), (b"84", b"82"), (b"84,no", b"84,undecided"),
                         (b"84,no", b"84,yes"), (b"1,0,0,84,yes", b"1,0,1,84,undecided"), (b"1,0,0,84,yes", b"1,1000000000,1000000000,84,no"),
                         (b"3492135,3492136", b"3992010,3992011")):
            self.assertIn(old, self.FIRST)
            self.refuses(self.FORMULA, self.FIRST.replace(old, new))

    def test_states_of_the_second_are_stepped(self):
        """At two hours in the middle of a row that is left once an hour: held at 1 the middle state would make it 1 - 1 / e^2 and 1."""
        (moves, _), labels, formula = texts(row(3, 1_000_000)), labels_text([b"mid"], [[0], [1], [0]]), b"P >= 500000000 V 2 2 tt mid\n"
        right = REPORT_LINE + b"0,270670566,270670567,84,no\n1,135335283,135335284,84,no\n2,0,0,84,no\n"
        self.allows(formula, right, moves=moves, labels=labels)
        self.refuses(formula, right.replace(b"135335283,135335284,84,no", b"1000000000,1000000000,84,yes"), moves=moves, labels=labels)
        self.refuses(formula, right.replace(b"270670566,270670567,84,no", b"864664716,864664717,84,yes"), moves=moves, labels=labels)

    def test_first_time_0(self):
        """It is `U`: ends, depth, point ends and what the moves decide."""
        self.allows_whole(b"P <= 10000000 V 0 8 up dead\n", HOURS_8_REPORT)
        self.allows_whole(b"P >= 1000000000 V 0 0 up dead\n", REPORT)
        slow = dict(zip(("moves", "labels"), texts(row(3, 1))))
        first = REPORT_LINE + b"0,0,1,42,%s\n1,9,10,42,yes\n2,1000000000,1000000000,42,yes\n"
        self.allows(b"P > 0 V 0 0.01 up dead\n", first % b"yes", **slow)
        self.refuses(b"P > 0 V 0 0.01 up dead\n", first % b"undecided", **slow)

    def test_the_moves_decide_nothing(self):
        """Possible, and under a billionth: with two phases the ends say undecided, and yes does not follow from them."""
        slow = dict(zip(("moves", "labels"), texts(row(3, 1))))
        first = REPORT_LINE + b"0,0,1,84,%s\n1,9,10,84,yes\n2,0,0,84,no\n"
        self.allows(b"P > 0 V 0.01 0.02 up dead\n", first % b"undecided", **slow)
        for word in (b"yes", b"no"):
            self.refuses(b"P > 0 V 0.01 0.02 up dead\n", first % word, **slow)
        told = faults(b"P > 0 V 0.01 0.02 up dead\n", twice(first % b"yes"), **slow)
        self.assertEqual(told, ["state 0: verdict yes does not follow from the ends"])
        sure = REPORT_LINE + b"0,3992010,3992011,84,no\n1,%s,84,%s\n"
        for ends, word, good in ((b"1000000000,1000000000", b"yes", True), (b"999999999,1000000000", b"undecided", True),
                                 (b"999999999,1000000000", b"yes", False), (b"999999663,1000000000", b"undecided", False),
                                 (b"999999999,999999999", b"no", False)):
            (self.allows if good else self.refuses)(b"P >= 1000000000 V 1 8 tt dead\n", sure % (ends, word))

    def test_no_moves(self):
        """q = 0: exact ends at depth 80."""
        labels = labels_text([b"up", b"dead"], [(1, 1), (0, 1), (1, 0), (0, 0)])
        first = REPORT_LINE + b"0,1000000000,1000000000,80,yes\n1,0,0,80,no\n2,0,0,80,no\n3,0,0,80,no\n"
        self.allows(b"P > 5 V 1 2 up dead\n", first, moves=NO_MOVES, labels=labels)
        for old, new in ((b"1,0,0,80,no", b"1,1000000000,1000000000,80,yes"), (b"2,0,0,", b"2,0,1,"), (b"0,1000000000,", b"0,999999999,")):
            self.refuses(b"P > 5 V 1 2 up dead\n", first.replace(old, new), moves=NO_MOVES, labels=labels)

    def test_refusals(self):
        for formula, number in ((between(800, 100), 16), (between(800, MOST_HUNDREDTHS + 1), 13), (between(MOST_HUNDREDTHS + 1, 100), 13),
                                (b"P < 1 V 1 up dead\n", 10)):
            self.allows_whole(formula, b"refused\n%d\n" % number)
            self.refuses_whole(formula, b"refused\n14\n")
        self.allows_whole(between(200, 200), b"refused\n14\n", moves=FULL_MOVES)
        self.allows_whole(between(200, 100), b"refused\n16\n", moves=FULL_MOVES)
        allowed = allowed_ends(FULL_MOVES, LABELS, between(100, 200))
        self.assertEqual((allowed.depth, allowed.width), (336, 1_344))


class SecondListing(Judged):
    """The rows once more, "by falling lower end, equal ones by rising state number", and nothing else behind the first listing."""
    # Five states whose chances are 0, a third, 0, 1 and a third.
    MOVES = moves_text([(1, 2, 2), (1, 3, 1), (2, 4, 1), (3, 3, 7), (4, 1, 1_000_000), (4, 3, 500_000)])
    LABELS = labels_text([b"dead"], [[0], [0], [0], [1], [0]])
    FORMULA = b"P >= 333333334 X dead\n"
    LINES = [b"0,0,0,0,no\n", b"1,333333333,333333334,0,undecided\n", b"2,0,0,0,no\n", b"3,1000000000,1000000000,0,yes\n",
             b"4,333333333,333333334,0,undecided\n"]

    def print_of(self, *states, head=REPORT_LINE, rows=None):
        """The print whose second listing has these states."""
        lines = rows or self.LINES
        return REPORT_LINE + b"".join(self.LINES) + head + b"".join(lines[state] for state in states)

    def turned_down(self, printed):
        self.refuses_whole(self.FORMULA, printed, moves=self.MOVES, labels=self.LABELS)

    def test_in_order(self):
        self.allows_whole(self.FORMULA, self.print_of(3, 1, 4, 0, 2), moves=self.MOVES, labels=self.LABELS)
        self.assertEqual(self.print_of(3, 1, 4, 0, 2), twice(REPORT_LINE + b"".join(self.LINES)))

    def test_every_other_order(self):
        """Rising ends, ties by falling number and the first listing again among them."""
        others = [order for order in permutations(range(5)) if order != (3, 1, 4, 0, 2)]
        self.assertEqual(len(others), 119)
        self.assertLessEqual({(0, 2, 1, 4, 3), (2, 0, 4, 1, 3), (3, 4, 1, 2, 0), (0, 1, 2, 3, 4)}, set(others))
        for order in others:
            with self.subTest(order):
                self.turned_down(self.print_of(*order))

    def test_a_row_twice_or_none(self):
        for order in ((3, 1, 1, 0, 2), (3, 3, 4, 0, 2), (3, 1, 4, 0, 0), (3, 1, 4, 0), (3, 1, 4, 0, 2, 2), (3, 1, 4, 0, 2, 3), (3,), ()):
            with self.subTest(order):
                self.turned_down(self.print_of(*order))

    def test_one_listing(self):
        whole, first = self.print_of(3, 1, 4, 0, 2), REPORT_LINE + b"".join(self.LINES)
        second = whole.removeprefix(first)
        for printed in (first, second, second + first, whole + first, whole + second, first + first, first + b"\n" + second):
            self.turned_down(printed)

    def test_head(self):
        for head in (b"", b"\n", REPORT_LINE[:-1], REPORT_LINE + REPORT_LINE, REPORT_LINE.upper(), b"state,lower,upper,depth\n", b" " + REPORT_LINE):
            with self.subTest(head):
                self.turned_down(self.print_of(3, 1, 4, 0, 2, head=head))

    def test_other_rows(self):
        """The same states in order, but one row is not that of the first listing."""
        for state, line in ((0, b"0,0,1,0,undecided\n"), (1, b"1,333333333,333333334,0,no\n"), (3, b"3,1000000000,1000000000,40,yes\n"),
                            (2, b"2,0,0,0,no \n"), (4, b"04,333333333,333333334,0,undecided\n"), (4, b"5,333333333,333333334,0,undecided\n")):
            with self.subTest(line):
                rows = [*self.LINES[:state], line, *self.LINES[state + 1:]]
                self.turned_down(self.print_of(3, 1, 4, 0, 2, rows=rows))

    def test_something_behind(self):
        whole = self.print_of(3, 1, 4, 0, 2)
        for behind in (b"\n", b" ", b"2,0,0,0,no\n", REPORT_LINE, b"refused\n1\n"):
            self.turned_down(whole + behind)

    def test_by_lower_end_alone(self):
        """Upper ends and verdicts count nothing: a tie of no and undecided goes by number, either way round."""
        labels, formula = labels_text([b"dead"], [[0], [0], [1]]), b"! P < 333333334 X dead\n"
        no, open_ = b"%d,0,0,0,no\n", b"%d,0,1000000000,0,undecided\n"
        for moves, lines in ((moves_text([(1, 1, 2), (1, 2, 1)]), (no % 0, open_ % 1, no % 2)),
                             (moves_text([(0, 0, 2), (0, 2, 1)]), (open_ % 0, no % 1, no % 2))):
            first = REPORT_LINE + b"".join(lines)
            self.allows_whole(formula, first + first, moves=moves, labels=labels)
            for order in permutations(lines):
                if order != lines:
                    self.refuses_whole(formula, first + REPORT_LINE + b"".join(order), moves=moves, labels=labels)

    def test_small_sheet(self):
        """It "prints three lines more: the names, state 1, state 0"; one listing, or the first again, is not enough."""
        self.assertEqual(REPORT.splitlines()[3:], [b"state,lower,upper,depth,verdict", b"1,1000000000,1000000000,40,yes", b"0,0,0,40,no"])
        first = REPORT[:len(REPORT) // 2]
        self.refuses_whole(FORMULA, first)
        self.refuses_whole(FORMULA, first + first)

    def test_one_state(self):
        row_, sheet = b"0,1000000000,1000000000,0,yes\n", dict(moves=NO_MOVES, labels=b"state\n0\n")
        self.allows_whole(b"tt\n", (REPORT_LINE + row_) * 2, **sheet)
        for printed in (REPORT_LINE + row_, REPORT_LINE + row_ * 2, (REPORT_LINE + row_) * 3, REPORT_LINE * 2 + row_ * 2):
            self.refuses_whole(b"tt\n", printed, **sheet)

    def test_judged_before_the_ways(self):
        """A wrong order is told even where the ways to back a report are too many to try."""
        moves, labels = texts(row(3, 500))
        formula = b"P >= 1 U 0 tt P >= 3992000 U 8 up dead\n"
        lines = [b"0,0,0,40,no\n", b"1,0,0,40,no\n", b"2,0,0,40,no\n"]
        with mock.patch.object(backing, "MOST_WORK", 5):
            with self.assertRaises(backing.TooMany):
                judge(moves, labels, formula, twice(REPORT_LINE + b"".join(lines)))
            wrong = REPORT_LINE + b"".join(lines) + REPORT_LINE + b"".join(lines[::-1])
            self.assertIn("second listing, row 1", judge(moves, labels, formula, wrong)[0])


class Order(unittest.TestCase):
    def test_worst_first(self):
        """Each stands above the next, and every state is there once."""
        random = Random(19)
        for _ in range(200):
            lower = [random.choice((0, 0, 5, BILLION, random.randint(0, BILLION))) for _ in range(random.randint(1, 40))]
            order = worst_first([Row(each, BILLION, 0, "undecided") for each in lower])
            self.assertEqual(sorted(order), list(range(len(lower))))
            for above, below in zip(order, order[1:]):
                self.assertTrue(lower[above] > lower[below] or lower[above] == lower[below] and above < below, (lower, order))

    def test_report_text_is_read_back(self):
        random = Random(20)
        for _ in range(50):
            lower = random.choices((0, 7, 10, BILLION), k=random.randint(1, 9))
            rows = [Row(low, random.randint(low, BILLION), 42, random.choice(WORDS)) for low in lower]
            self.assertEqual(read_report(report_text(rows), len(rows)), rows)


class Possible(Judged):
    """Thresholds 0 and 1,000,000,000: the moves decide the verdict, while ends and depth stay as they were."""
    SLOW = dict(zip(("moves", "labels"), texts(row(3, 1))))
    ROWS = b"0,0,1,42,%s\n1,9,10,42,%s\n2,1000000000,1000000000,42,%s\n"

    def said(self, formula, *wanted, rows=ROWS, **sheet):
        """Just these verdicts are allowed."""
        self.allows(formula + b"\n", REPORT_LINE + rows % wanted, **sheet)
        for at, word in product(range(len(wanted)), (b"yes", b"no", b"undecided")):
            if word != wanted[at]:
                self.refuses(formula + b"\n", REPORT_LINE + rows % (*wanted[:at], word, *wanted[at + 1:]), **sheet)

    def test_under_a_billionth(self):
        """`0,0,1,42,yes` is a row that is printed."""
        self.said(b"P > 0 U 0.01 up dead", b"yes", b"yes", b"yes", **self.SLOW)
        self.said(b"P <= 0 U 0.01 up dead", b"no", b"no", b"no", **self.SLOW)
        self.said(b"P >= 0 U 0.01 up dead", b"yes", b"yes", b"yes", **self.SLOW)
        self.said(b"P < 0 U 0.01 up dead", b"no", b"no", b"no", **self.SLOW)

    def test_one_threshold_further(self):
        """1 is no such threshold: the interval decides, or does not."""
        self.said(b"P >= 1 U 0.01 up dead", b"undecided", b"yes", b"yes", **self.SLOW)
        self.said(b"P < 1 U 0.01 up dead", b"undecided", b"no", b"no", **self.SLOW)

    def test_certain(self):
        """At the greatest load the upper end is 1,000,000,000 and the chance is not."""
        rows = b"0,999999999,1000000000,168,%s\n1,1000000000,1000000000,168,%s\n"
        for comparison, words in ((b">=", (b"no", b"yes")), (b"<", (b"yes", b"no")), (b"<=", (b"yes", b"yes")), (b">", (b"no", b"no"))):
            self.said(b"P %s 1000000000 U 1 up dead" % comparison, *words, rows=rows, moves=FULL_MOVES, labels=LABELS)
        self.said(b"P >= 999999999 U 1 up dead", b"yes", b"yes", rows=rows, moves=FULL_MOVES, labels=LABELS)

    def test_ends_stay(self):
        """A yes gives no leave to other ends."""
        formula = b"P > 0 U 0.01 up dead\n"
        for first in (b"0,1,1,42,yes\n", b"0,0,0,42,yes\n", b"0,1,2,42,yes\n", b"0,0,1,40,yes\n", b"0,0,169,42,yes\n", b"0,0,1000000000,42,yes\n"):
            self.refuses(formula, REPORT_LINE + first + b"1,9,10,42,yes\n2,1000000000,1000000000,42,yes\n", **self.SLOW)

    def test_no_way(self):
        """State 1 fails the first operand, so that state 0 cannot come to state 2, however long."""
        labels = labels_text([b"up", b"dead"], [(1, 0), (0, 0), (0, 1)])
        rows = b"0,0,0,42,%s\n1,0,0,42,%s\n2,1000000000,1000000000,42,%s\n"
        self.said(b"P > 0 U 8760 up dead", b"no", b"no", b"yes", rows=rows, moves=self.SLOW["moves"], labels=labels)
        self.said(b"P <= 0 U 8760 up dead", b"yes", b"yes", b"no", rows=rows, moves=self.SLOW["moves"], labels=labels)

    def test_time_0(self):
        rows = b"0,0,0,40,%s\n1,0,0,40,%s\n2,1000000000,1000000000,40,%s\n"
        self.said(b"P > 0 U 0 up dead", b"no", b"no", b"yes", rows=rows, **self.SLOW)

    def test_next_move(self):
        sheet = dict(moves=moves_text([(0, 0, MOST_RATE - 1), (0, 1, 1)]), labels=LABELS)
        for formula, ends, words in ((b"P > 0 X dead", b"15,16", (b"yes", b"no")),
                                     (b"P >= 1000000000 X up", b"999999984,999999985", (b"no", b"no")),
                                     (b"P >= 1000000000 X tt", b"1000000000,1000000000", (b"yes", b"no")),
                                     (b"P < 1000000000 X tt", b"1000000000,1000000000", (b"no", b"yes"))):
            self.said(formula, *words, rows=b"0," + ends + b",0,%s\n1,0,0,0,%s\n", **sheet)

    def test_told_by_which_rule(self):
        told = faults(b"P > 0 U 0.01 up dead\n", twice(REPORT_LINE + self.ROWS % ((b"undecided",) * 3)), **self.SLOW)
        self.assertEqual(told[0], "state 0: verdict undecided does not follow from the moves")


class FurtherThanDepth(Judged):
    """60 states in a row, rate 1, 1 hour."""

    def first(self, far_upper, far_verdict):
        far = b"".join(b"%d,0,%d,42,%s\n" % (s, far_upper, far_verdict) for s in range(58))
        return REPORT_LINE + far + b"58,999,1000,42,yes\n59,1000000000,1000000000,42,yes\n"

    def test_upper_end(self):
        moves, labels = texts(row(60, 1))
        formula = b"P >= 1 U 1 up dead\n"
        self.allows(formula, self.first(1, b"undecided"), moves=moves, labels=labels)
        self.refuses(formula, self.first(0, b"no"), moves=moves, labels=labels)
        self.refuses(formula, self.first(0, b"undecided"), moves=moves, labels=labels)

    def test_possible(self):
        """The moves see further than the depth."""
        moves, labels = texts(row(60, 1))
        formula = b"P > 0 U 1 up dead\n"
        self.allows(formula, self.first(1, b"yes"), moves=moves, labels=labels)
        for upper, word in ((1, b"undecided"), (1, b"no"), (0, b"yes"), (0, b"no")):
            self.refuses(formula, self.first(upper, word), moves=moves, labels=labels)

    def test_undecided_operand_is_not_no(self):
        """Under `!` an undecided operand taken as no turns into a false yes."""
        moves, labels = texts(row(60, 1))
        point, unknown = b"%d,1000000000,1000000000,0,%s\n", b"%d,0,1000000000,0,undecided\n"
        far = range(58)
        tail = b"58,0,0,0,no\n59,0,0,0,no\n"
        right = REPORT_LINE + b"".join(unknown % s for s in far) + tail
        wrong = REPORT_LINE + b"".join(point % (s, b"yes") for s in far) + tail
        formula = b"! P >= 1 U 1 up dead\n"
        self.allows(formula, right, moves=moves, labels=labels)
        self.refuses(formula, wrong, moves=moves, labels=labels)

    def test_undecided_operand_of_until(self):
        """Both readings count: lower with no, upper with yes; at the thresholds 0 and 1,000,000,000 too, since an operand is undecided."""
        moves, labels = texts(row(60, 1))
        tail = b"58,1000000000,1000000000,40,yes\n59,1000000000,1000000000,40,yes\n"
        right = b"".join(b"%d,0,1000000000,40,undecided\n" % s for s in range(58))
        wrong = b"".join(b"%d,0,0,40,no\n" % s for s in range(58))
        for bound in (b">= 1", b"> 0", b">= 1000000000"):
            formula = b"P " + bound + b" U 0 tt P >= 1 U 1 up dead\n"
            self.allows(formula, REPORT_LINE + right + tail, moves=moves, labels=labels)
            self.refuses(formula, REPORT_LINE + wrong + tail, moves=moves, labels=labels)
