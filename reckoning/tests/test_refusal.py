"""Refusal numbers: the table's examples, how its words are read, and the order of the tests."""

import unittest

from reckoning.formula import Between, Label, Next, P, hours_text, nodes
from reckoning.limits import (BILLION, FORMULA_BYTES, HOUR, MOST_HUNDREDTHS, MOST_LETTERS, MOST_LEVELS, MOST_MOVES, MOST_NAMES, MOST_NODES, MOST_RATE,
                              MOST_RATE_HUNDREDTHS, MOST_ROWS, MOST_STATES, SHEET_BYTES)
from reckoning.refusal import BY_TEXTS, TESTS, Lent, lengths, needed, refusal
from reckoning.sheets import FULL_MOVES, LABELS, MOVES, MOVES_LINE, NO_MOVES, between, labels_text, moves_text, until

FORMULA = b"P >= 5 U 8 up dead\n"
OVER_HOURS = until(MOST_HUNDREDTHS + 1)
OVER_THRESHOLD = until(HOUR, threshold=BILLION + 1)


def answer(moves=MOVES, labels=LABELS, formula=FORMULA, lent=None):
    got = refusal(moves, labels, formula, lent)
    return got if isinstance(got, int) else 0


def states_text(count):
    return b"state\n" + b"".join(b"%d\n" % s for s in range(count))


def and_tree(leaves):
    """A formula of so many leaves, nested as little as can be, as tokens."""
    if leaves == 1:
        return b"up"
    return b"& " + and_tree(leaves // 2) + b" " + and_tree(leaves - leaves // 2)


def of_nodes(count):
    """A formula text of so many nodes, nested as little as can be."""
    return b"! " * (1 - count % 2) + and_tree((count + 1) // 2) + b"\n"


class Refusals(unittest.TestCase):
    def check(self, cases):
        """Each case is a number, 0 for accepted, and what differs from the small sheet."""
        for number, parts in cases:
            with self.subTest(number=number, parts={k: v[:60] for k, v in parts.items()}):
                self.assertEqual(answer(**parts), number)

    def test_order(self):
        """7 and 8 are never given, and 16 is tested after 13 and before 14."""
        self.assertEqual([number for number, _ in TESTS], [1, 2, 3, 4, 5, 6, 9, 10, 11, 12, 13, 16, 14, 15])
        self.assertEqual(BY_TEXTS, {1, 2, 3, 4, 5, 6, 9, 10, 11, 12, 13, 14, 16})

    def test_table(self):
        one = b"state,up\n"
        self.check([
            (0, {}),
            (1, dict(formula=b"")), (1, dict(moves=b"")), (1, dict(labels=b"")),
            (2, dict(moves=MOVES_LINE + b"0,1\n")),
            (3, dict(labels=b"state,up,up\n0,1,0\n1,0,1\n")),
            (4, dict(labels=one + b"1,0\n", formula=b"up\n", moves=NO_MOVES)),
            (5, dict(moves=MOVES_LINE + b"0,1,5\n" * (MOST_MOVES + 1))),
            (6, dict(moves=MOVES_LINE + b"0,9,5\n")), (6, dict(moves=MOVES_LINE + b"2,0,5\n")),
            (0, dict(moves=MOVES_LINE + b"0,0,5\n")),
            (0, dict(moves=MOVES_LINE + b"1,0,5\n0,1,5\n")),
            (0, dict(moves=MOVES_LINE + b"0,1,5\n0,1,5\n")),
            (9, dict(moves=MOVES_LINE + b"0,1,0\n")),
            (9, dict(moves=moves_text([(0, 1, MOST_RATE + 1)]))),
            (10, dict(formula=b"& up\n")),
            (11, dict(formula=b"! " * MOST_LEVELS + b"up\n")),
            (12, dict(formula=b"gas\n")),
            (13, dict(formula=OVER_HOURS)),
            (13, dict(formula=OVER_THRESHOLD)),
            (14, dict(moves=FULL_MOVES, formula=b"P < 1 U 2 up dead\n")),
            (15, dict(lent=lengths(2, 1, 3)._replace(verdicts=1))),
        ])

    def test_bytes(self):
        long_moves = MOVES_LINE + b"0,1,1\n" * 10_240
        exact = states_text(2) + b"9" * (SHEET_BYTES - len(states_text(2)) - 1) + b"\n"
        self.check([
            (1, dict(formula=b"a" * FORMULA_BYTES + b"\n")), (10, dict(formula=b"a" * (FORMULA_BYTES - 1) + b"\n")),
            (1, dict(moves=long_moves[:SHEET_BYTES] + b"\n")),
            (2, dict(labels=exact)), (1, dict(labels=exact + b"\n")),
            (3, dict(moves=b"\n")), (3, dict(labels=b"\n")), (10, dict(formula=b"\n")),
            (1, dict(moves=b"from,to,rate", labels=b"")),
        ])

    def test_numbers_in_sheets(self):
        cases = [(2, dict(moves=MOVES_LINE + b"0,1," + rate + b"\n")) for rate in
                 (b"05", b"1000000000", b"", b"+5", b"-5", b" 5", b"5 ", b"5\r", b"x", b"00", b"5,")]
        cases += [(9, dict(moves=MOVES_LINE + b"0,1,999999999\n")),
                  (2, dict(labels=b"state,up,dead\n00,1,0\n1,0,1\n")),
                  (2, dict(labels=b"state,up,dead\n0,1,0\n01,0,1\n")),
                  (2, dict(labels=b"state,up,dead\n0,01,0\n1,0,1\n")),
                  (2, dict(labels=b"state,up,dead\n0,2,0\n1,0,1\n")),
                  (2, dict(labels=b"state,up,dead\n1,0\n"))]
        self.check(cases)

    def test_lines(self):
        self.check([
            (2, dict(moves=MOVES[:-1])), (2, dict(labels=LABELS[:-1])),
            (2, dict(moves=MOVES_LINE[:-1])), (2, dict(moves=b"nonsense")), (2, dict(labels=b"state,up")),
            (2, dict(moves=MOVES + b"\n")), (2, dict(labels=LABELS + b"\n")),
            (2, dict(moves=b"\nfrom,to,rate\n")),
            (3, dict(labels=b"\n0\n1\n")), (2, dict(labels=b"state,\n0\n")),
            (3, dict(labels=b"state,\n")), (2, dict(labels=b"state,up,up\n0,1\n")),
            (3, dict(labels=b"state,up,up\n0,1,0\n")), (2, dict(moves=b"from;to;rate\n0,1\n")),
            (3, dict(moves=b"from,to,rate\r\n0,1,5\n")), (3, dict(moves=b"0,1,5\n")),
        ])

    def test_names(self):
        def head(*names):
            return dict(labels=labels_text(names, [[1] * len(names)]), formula=b"tt\n", moves=NO_MOVES)
        names = [b"a" * k for k in range(1, MOST_LETTERS + 1)] + [bytes([b]) for b in b"bcdefghijklmnop"]
        self.check([
            (0, head(*names[:MOST_NAMES])), (3, head(*names[:MOST_NAMES + 1])),
            (0, head(b"l" * MOST_LETTERS)), (3, head(b"l" * (MOST_LETTERS + 1))),
            (3, head(b"tt")), (3, head(b"state")), (3, head(b"Up")), (3, head(b"")), (3, head(b" up")), (0, head(b"ttt")),
            (0, dict(labels=states_text(2), formula=b"tt\n")),
        ])

    def test_states_and_moves(self):
        def sheet(states, moves=NO_MOVES):
            return dict(labels=states_text(states), moves=moves, formula=b"tt\n")
        full, half = [(a, b, 1) for a in range(91) for b in range(91) if a != b], MOST_RATE // 2
        self.check([
            (0, sheet(1)), (0, sheet(MOST_STATES)), (4, sheet(MOST_STATES + 1)), (4, sheet(0)),
            (4, dict(labels=b"state\n0\n0\n")), (4, dict(labels=b"state\n0\n2\n")),
            (0, sheet(91, moves_text(full[:MOST_MOVES]))), (5, sheet(91, moves_text(full[:MOST_MOVES + 1]))),
            (0, sheet(3, MOVES_LINE + b"0,2,5\n0,1,5\n")),
            (0, sheet(3, moves_text([(0, 1, half), (0, 2, half), (1, 0, MOST_RATE)]))),
            (9, sheet(3, moves_text([(0, 1, half), (0, 2, half + 1)]))),
            (9, sheet(6, MOVES_LINE + b"".join(b"0,%d,999999999\n" % s for s in range(1, 6)))),
        ])

    def test_grammar(self):
        broken = [b"up", b"up\n\n", b"up\r\n", b"\tup\n", b" up\n", b"up \n", b"up  \n", b"& up  dead\n",
                  b"up dead\n", b"!\n", b"! up up\n", b"UP\n", b"abcdefghijklm\n", b"U 1 up dead\n",
                  b"P = 1 U 1 up dead\n", b"P => 1 U 1 up dead\n", b"P < 1 up dead\n", b"P < 1 U 1 up\n",
                  b"P < U 1 up dead\n", b"P < x U 1 up dead\n", b"P < 1 U x up dead\n", b"P\n",
                  b"P < 01 U 1 up dead\n", b"P < 1 U 01 up dead\n", b"P < 1.5 U 8 up dead\n",
                  b"P < 10000000000 U 1 up dead\n", b"P < 1 U 10000000000 up dead\n", b"5\n", b"up,dead\n",
                  b"( up )\n", b"u\xe9\n", b"u\x00\n", b"P < 1 U 1 up dead up\n", b"| up dead\n"]
        self.check([(10, dict(formula=text)) for text in broken])
        self.check([(12, dict(formula=b"state\n")), (12, dict(formula=b"ttt\n")),
                    (13, dict(formula=b"P < 9999999999 U 1 up dead\n")),
                    (13, dict(formula=b"P < 1 U 9999999999 up dead\n")),
                    (0, dict(formula=until(MOST_HUNDREDTHS, threshold=BILLION)))])

    def test_next_move(self):
        """`X` and one state formula, behind `P` alone; it has no hours, so 13 tests its threshold alone and 14 nothing."""
        broken = [b"P < 1 X dead up\n", b"P < 1 X\n", b"X dead\n", b"P < 1 X 8 dead\n", b"P < 1 X 8 up dead\n", b"P X dead\n", b"P < X dead\n",
                  b"P < 1 x dead\n", b"P < 1 X X dead\n", b"P < 1 XX dead\n", b"P < 1 X  dead\n", b"P < 1 X dead \n", b"! X dead\n",
                  b"P < 1 U 8 X up dead\n", b"P < 1 U X up dead\n", b"P < 1.5 X dead\n", b"P < 01 X dead\n"]
        good = [b"P < 1 X dead\n", b"P >= 0 X tt\n", b"! P > 5 X & up ! dead\n", b"P < 1 X P < 1 X up\n", b"P < 1 X P < 1 U 8.25 up dead\n",
                b"P < 1 U 8 P < 1 X up P < 1 X dead\n", b"P <= 1000000000 X dead\n"]
        self.check([(10, dict(formula=text)) for text in broken] + [(0, dict(formula=text)) for text in good])
        self.check([(13, dict(formula=b"P < 1000000001 X dead\n")), (13, dict(formula=b"P < 1 X P < 1000000001 X dead\n")),
                    (13, dict(formula=b"P < 1 X " + OVER_HOURS)), (12, dict(formula=b"P < 1000000001 X gas\n")),
                    (0, dict(moves=FULL_MOVES, formula=b"P < 1 X dead\n")),
                    (14, dict(moves=FULL_MOVES, formula=b"P < 1 X P < 1 U 2 up dead\n"))])
        self.assertEqual(nodes(refusal(MOVES, LABELS, good[0]).tree), [P(b"<", 1, Next(Label(b"dead"))), Label(b"dead")])

    def test_nodes_and_levels_of_next_moves(self):
        deep = b"P < 1 X " * (MOST_LEVELS - 1)
        self.check([(0, dict(formula=deep + b"up\n")), (11, dict(formula=deep + b"! up\n")), (11, dict(formula=b"P < 1 X " * MOST_LEVELS + b"up\n"))])
        self.assertEqual(needed(refusal(MOVES, LABELS, deep + b"up\n")).marks, 2 * MOST_LEVELS)

    def test_between(self):
        """`V`, two times as hours are, and two state formulas, behind `P` alone."""
        broken = [b"P < 1 V 1 up dead\n", b"P < 1 V up dead\n", b"P < 1 V 1 8 up\n", b"P < 1 V 1 8\n", b"P < 1 V 1\n", b"P < 1 V\n",
                  b"V 1 8 up dead\n", b"P < 1 V 1 8 up dead up\n", b"P < 1 V 1 8 9 up dead\n", b"P < 1 v 1 8 up dead\n",
                  b"P < 1 VV 1 8 up dead\n", b"P < 1 V 1  8 up dead\n", b"P < 1 V 1,8 up dead\n", b"P < 1 V up 1 8 dead\n",
                  b"P < 1 V 1 up 8 dead\n", b"P V 1 8 up dead\n", b"P < V 1 8 up dead\n", b"P < 1.5 V 1 8 up dead\n",
                  b"P < 1 U 1 8 up dead\n", b"P < 1 X 1 8 up dead\n", b"P < 1 U V 1 8 up dead\n", b"! V 1 8 up dead\n"]
        for typed in (b"8.50", b"8.0", b"8.", b".5", b"00.5", b"01", b"8.125", b"8.2.5", b"x", b"-1", b"", b"10000000000"):
            broken += [b"P < 1 V %s 9 up dead\n" % typed, b"P < 1 V 1 %s up dead\n" % typed]
        good = [b"P < 1 V 1 8 up dead\n", b"P < 1 V 0 0 up dead\n", b"P < 1 V 0 8 up dead\n", b"P < 1 V 8 8 up dead\n",
                b"P < 1 V 0.05 8.25 up dead\n", b"P < 1 V 8759.99 8760 up dead\n", b"P < 1 V 0.01 0.01 up dead\n",
                b"! P > 5 V 1 8 & up ! dead tt\n", b"P < 1 V 1 8 P < 1 V 2 3 up dead up\n",
                b"P < 1 U 8 P < 1 V 1 2 up dead P < 1 X dead\n", b"P < 1 X P <= 1000000000 V 1 2 up dead\n"]
        self.check([(10, dict(formula=text)) for text in broken] + [(0, dict(formula=text)) for text in good])
        tree = refusal(MOVES, LABELS, b"P < 1 V 0.05 8.25 up dead\n").tree
        self.assertEqual(nodes(tree), [P(b"<", 1, Between(5, 825, Label(b"up"), Label(b"dead"))), Label(b"up"), Label(b"dead")])

    def test_phases(self):
        """Two, but for the first time 0; equal times are two phases, the later one of no time."""
        for times, phases in (((100, 800), (100, 700)), ((0, 800), (800,)), ((0, 0), (0,)), ((800, 800), (800, 0)), ((1, 2), (1, 1))):
            path = refusal(MOVES, LABELS, between(*times)).tree.path
            self.assertEqual((path.times, path.phases), (times, phases))

    def test_numbers_of_between(self):
        """13 tests the threshold and both times, 16 whether they fall; each is put to the whole formula before the next."""
        top, falling, over = MOST_HUNDREDTHS, b"P < 1 V 8 1 up dead", b"P < 1 V 8761 1 up dead"
        self.check([(13, dict(formula=text)) for text in (
            between(top + 1, top + 1), between(1, top + 1), between(top + 1, 1), between(0, top + 1), between(top + 1, 0),
            b"P < 1000000001 V 1 8 up dead\n", b"P < 1000000001 V 8 1 up dead\n", b"P < 1 V 9999999999.99 1 up dead\n",
            over + b"\n", b"& " + falling + b" " + over + b"\n", b"P < 1 V 8 1 up " + over + b"\n")])
        self.check([(16, dict(formula=text)) for text in (
            falling + b"\n", between(2, 1), between(1, 0), between(top, top - 1), between(top, 0), b"! " + falling + b"\n",
            b"P < 1 X " + falling + b"\n", b"& P < 1 U 5 up dead P < 1 V 3 1 up dead\n", b"P < 1 V 1 8 up " + falling + b"\n")])
        self.check([(12, dict(formula=b"P < 1 V 8 1 gas dead\n")), (10, dict(formula=b"P < 1 V 8 1 up\n")),
                    (16, dict(moves=NO_MOVES, formula=falling + b"\n")), (16, dict(formula=falling + b"\n", lent=(0,) * len(Lent._fields)))])
        self.check([(16, dict(moves=FULL_MOVES, formula=text)) for text in (
            falling + b"\n", b"& P < 1 U 2 up dead " + falling + b"\n", b"P < 1 V 2 2 up " + falling + b"\n")])

    def test_load_of_between(self):
        """14 tests each phase by itself: q 64,000,000 has an hour for each, and `V 0 t` is `U t`."""
        def job(earliest, latest, rate=MOST_RATE):
            return dict(moves=moves_text([(0, 1, rate)]), formula=between(earliest, latest))
        self.check([(0, job(HOUR, 2 * HOUR)), (14, job(HOUR, 2 * HOUR + 1)), (14, job(HOUR + 1, 2 * HOUR)), (14, job(HOUR + 1, HOUR + 1)),
                    (0, job(HOUR, HOUR)), (0, job(1, HOUR + 1)), (14, job(1, HOUR + 2)), (0, job(0, HOUR)), (14, job(0, HOUR + 1)),
                    (14, job(0, 2 * HOUR)), (0, job(0, 0))])
        most = MOST_RATE_HUNDREDTHS // 1_517
        self.check([(0, job(1_517, 3_034, most)), (14, job(1_517, 1_517, most + 1)), (14, job(1, 1_518, most + 1)),
                    (0, job(1_516, 3_032, most + 1))])
        inner = between(HOUR, 2 * HOUR + 1)
        self.check([(14, dict(moves=FULL_MOVES, formula=about + inner)) for about in (b"P < 1 V 1 2 up ", b"P < 1 X ")])

    def test_nodes_and_levels_of_between(self):
        deep = b"P < 1 V 1 8 up "
        self.check([(0, dict(formula=deep * (MOST_LEVELS - 1) + b"up\n")), (11, dict(formula=deep * (MOST_LEVELS - 1) + b"! up\n")),
                    (11, dict(formula=b"P < 1 V 8 1 up " * MOST_LEVELS + b"up\n"))])
        job = refusal(MOVES, LABELS, deep * (MOST_LEVELS - 1) + b"up\n")
        self.assertEqual((len(nodes(job.tree)), needed(job).marks), (2 * MOST_LEVELS - 1, 2 * MOST_ROWS))

    def test_moves_to_the_own_state(self):
        """They count as lines, in 6 and 9's sum, and are left out of q: 14 is not for them."""
        def sheet(*moves, formula=b"tt\n"):
            return dict(moves=moves_text(moves), formula=formula)
        longest = until(MOST_HUNDREDTHS)
        self.check([
            (0, sheet((0, 0, 2), (0, 1, 1), (1, 1, 3))), (6, sheet((2, 2, 1))), (0, sheet((0, 1, 3), (0, 0, 2))),
            (0, sheet((0, 0, 1), (0, 0, 1))), (9, sheet((1, 1, 0))),
            (0, sheet((0, 0, MOST_RATE))), (9, sheet((0, 0, MOST_RATE), (0, 1, 1))), (0, sheet((0, 0, MOST_RATE - 1), (0, 1, 1))),
            (0, sheet((0, 0, MOST_RATE), formula=longest)), (0, sheet((0, 0, MOST_RATE - 1), (0, 1, 1), formula=longest)),
            (14, sheet((0, 0, 1), (0, 1, MOST_RATE - 1), formula=longest)),
        ])
        job = refusal(moves_text([(0, 0, MOST_RATE - 500), (0, 1, 500)]), LABELS, FORMULA)
        self.assertEqual((job.chain.q, job.chain.totals, needed(job).moves), (500, [MOST_RATE, 0], 4))
        rows = [(s, s, 1) for s in range(MOST_STATES)] * 9
        self.check([(number, dict(moves=moves_text(rows[:lines]), labels=states_text(MOST_STATES), formula=b"tt\n"))
                    for number, lines in ((0, MOST_MOVES), (5, MOST_MOVES + 1))])

    def test_lines_in_any_order(self):
        """Lines may stand in any order and pairs repeat; 5 and 15 count lines, and 9 looks at each line's rate and at the totals."""
        def sheet(*moves):
            return dict(moves=moves_text(moves), formula=b"tt\n")
        half = MOST_RATE // 2
        self.check([
            (0, sheet((1, 1, 3), (0, 1, 5), (1, 0, 2), (0, 0, 1))), (0, sheet((0, 1, 5), (1, 0, 2), (0, 1, 5))),
            (0, sheet((0, 1, half), (0, 1, half))), (9, sheet((0, 1, half), (0, 1, half + 1))), (9, sheet((0, 1, half), (0, 0, half), (0, 1, 1))),
            (0, sheet((0, 1, half), (1, 0, MOST_RATE), (0, 0, half))), (9, sheet((1, 0, 1), (0, 1, half), (0, 0, 1), (0, 1, half))),
            (9, sheet((0, 1, 0), (0, 1, 5))), (9, sheet((0, 1, 5), (0, 1, 0))), (9, sheet((0, 1, 5), (1, 0, 1), (0, 1, MOST_RATE + 1))),
            (6, sheet((1, 0, 0), (0, 1, MOST_RATE + 1), (0, 2, 1))), (9, sheet(*[(0, 1, 999_999_999)] * MOST_MOVES)),
            (5, sheet(*[(0, 1, 1)] * (MOST_MOVES + 1))), (0, sheet(*[(0, 1, MOST_RATE // MOST_MOVES)] * MOST_MOVES)),
        ])
        twice = moves_text([(1, 0, 2), (0, 1, 5), (0, 1, 7)])
        need = needed(refusal(twice, LABELS, b"tt\n"))
        self.assertEqual(need.moves, 6)
        self.check([(15, dict(moves=twice, formula=b"tt\n", lent=need._replace(moves=5))), (0, dict(moves=twice, formula=b"tt\n", lent=need))])

    def test_hours(self):
        """One or two decimals behind a point, the last not 0; ten digits before it."""
        good = {b"8.25": 825, b"8.5": 850, b"8.05": 805, b"0.05": 5, b"0.5": 50, b"0": 0, b"8760": MOST_HUNDREDTHS, b"8759.99": MOST_HUNDREDTHS - 1}
        for typed, hundredths in good.items():
            with self.subTest(typed):
                job = refusal(MOVES, LABELS, b"P < 1 U %s up dead\n" % typed)
                self.assertEqual(job.tree.path.hundredths, hundredths)
                self.assertEqual(hours_text(hundredths), typed)
        broken = [b"8.50", b"8.0", b"8.00", b"8.", b".5", b".", b"00.5", b"08.5", b"8.125", b"8.2.5", b"8..5", b"8.-5", b"8.5h", b"8,5", b"+8.5",
                  b"1e3", b"10000000000.5", b"8.\xb2", b"0.", b"0.0", b"0.00"]
        self.check([(10, dict(formula=b"P < 1 U %s up dead\n" % typed)) for typed in broken])
        self.check([(10, dict(formula=b"P < %s U 8 up dead\n" % typed)) for typed in (b"1.5", b"0.25")])
        self.check([(13, dict(formula=b"P < 1 U %s up dead\n" % typed)) for typed in (b"8760.01", b"8760.5", b"9999999999.99")])

    def test_nodes_and_levels(self):
        over = b"P < 1 U 1 up dead\n"
        self.check([
            (0, dict(formula=b"! " * (MOST_LEVELS - 1) + b"up\n")), (0, dict(formula=b"! " * (MOST_LEVELS - 2) + over)),
            (11, dict(formula=b"! " * (MOST_LEVELS - 1) + over)), (11, dict(formula=b"! " * 250 + b"up\n")),
            (10, dict(formula=b"! " * 255 + b"\n")), (11, dict(formula=b"! " * 255 + b"a\n")),
            (0, dict(formula=b"! " + and_tree(MOST_NODES // 2) + b"\n")), (11, dict(formula=and_tree(MOST_NODES // 2 + 1) + b"\n")),
            (10, dict(formula=b"! " * (MOST_LEVELS + 1) + b"&\n")), (10, dict(formula=and_tree(MOST_NODES // 2 + 8) + b" up\n")),
            (11, dict(formula=b"! " * MOST_LEVELS + b"gas\n")),
        ])

    def test_each_test_is_put_to_the_whole(self):
        two = states_text(2)
        self.check([
            (2, dict(moves=MOVES_LINE + b"0,1,5\n" * (MOST_MOVES + 1) + b"0,1\n")),
            (2, dict(labels=states_text(600) + b"x\n")),
            (6, dict(moves=MOVES_LINE + b"1,1,0\n0,1,0\n0,2,5\n")),
            (9, dict(moves=MOVES_LINE + b"1,0,0\n0,0,0\n")), (6, dict(moves=MOVES_LINE + b"1,0,0\n0,1,5\n1,2,5\n")),
            (3, dict(labels=b"names\n" + b"0\n" * 20_000)), (4, dict(labels=b"state\n" + b"0\n" * 20_000)),
            (2, dict(labels=b"state\n" + b"0\n" * 20_000 + b"x\n")),
            (1, dict(moves=b"x", formula=b"")), (2, dict(moves=MOVES_LINE + b"0\n", formula=b"&\n")),
            (9, dict(moves=MOVES_LINE + b"0,1,0\n", formula=b"&\n")), (3, dict(moves=b"\n", labels=two)),
            (10, dict(labels=two, formula=b"& gas\n")), (12, dict(formula=OVER_HOURS.replace(b"up", b"gas"))),
            (13, dict(moves=FULL_MOVES, formula=b"& P < 1 U 2 up up " + OVER_HOURS)),
            (14, dict(moves=FULL_MOVES, formula=b"& up P < 1 U 2 up up\n", lent=(0,) * len(Lent._fields))),
        ])

    def test_load(self):
        def job(q, hundredths):
            return dict(moves=moves_text([(0, 1, q)]), formula=until(hundredths))
        most = MOST_RATE_HUNDREDTHS
        over = [(most // 825 + 1, 825), (most // MOST_HUNDREDTHS + 1, MOST_HUNDREDTHS), (most // 1_517 + 1, 1_517)]     # the last by one
        self.check([(0, job(MOST_RATE, HOUR)), (14, job(MOST_RATE, HOUR + 1)), (0, job(MOST_RATE, 0)), (0, job(most // 825, 825)),
                    (0, job(most // MOST_HUNDREDTHS, MOST_HUNDREDTHS)), *((14, job(*each)) for each in over)])

    def test_lent(self):
        need = Lent(2, 2, 2, 2, 2, 532, 6)
        self.assertEqual(needed(refusal(MOVES, LABELS, FORMULA)), need)
        cases = [(0, dict(lent=need)), (0, dict(lent=tuple(length + 9 for length in need))),
                 (0, dict(moves=NO_MOVES, lent=need._replace(moves=0)))]
        cases += [(15, dict(lent=need._replace(**{name: getattr(need, name) - 1}))) for name in need._fields]
        for number, parts in cases:
            with self.subTest(parts=parts):
                self.assertEqual(answer(**dict(parts, formula=b"P >= 5 U 8 up dead\n")), number)

    def test_two_move_words_for_each_line(self):
        """Whatever the formula is, and for moves to the own state too."""
        for lines in (1, 2, 3):
            moves = moves_text([(0, 0, 2), (0, 1, 1), (1, 1, 3)][:lines])
            for formula in (b"tt\n", b"P > 0 X dead\n", b"P > 0 U 8 up dead\n", FORMULA):
                need = needed(refusal(moves, LABELS, formula))
                self.assertEqual(need.moves, 2 * lines)
                for words, number in ((lines, 15), (2 * lines - 1, 15), (2 * lines, 0), (2 * lines + 1, 0)):
                    self.assertEqual(answer(moves=moves, formula=formula, lent=need._replace(moves=words)), number)

    def test_mark_bytes_for_each_state(self):
        """One for each node, and from 17 nodes on 17, whatever the formula is made of and however many states there are."""
        nested = b"P < 1 V 1 8 up P < 1 U 8 up P < 1 X "
        deep = {31: b"& up " * 15 + b"up\n", 17: b"& up & up " + b"! " * 12 + b"up\n", 18: b"& ! up & up " + b"! " * 12 + b"up\n",
                26: nested * 5 + b"up\n", 41: b"& & " + nested * 4 + b"up " + b"P > 0 X " * 12 + b"up " + b"! ! " * 2 + b"up\n"}
        for count, formula in (*((count, of_nodes(count)) for count in (1, 3, 16, 17, 18, 40, MOST_NODES)), *deep.items()):
            for states in (1, 2, 3, MOST_STATES):
                moves, labels = MOVES if states > 1 else NO_MOVES, labels_text([b"up"], [[s % 2] for s in range(states)])
                job = refusal(moves, labels, formula)
                need = needed(job)
                self.assertEqual((len(nodes(job.tree)), need.marks), (count, min(17, count) * states))
                for marks, number in ((0, 15), (need.marks - 1, 15), (need.marks, 0), (need.marks + 1, 0), (count * states, 0)):
                    self.assertEqual(answer(moves, labels, formula, need._replace(marks=marks)), number)
        self.assertEqual(lengths(MOST_STATES, MOST_MOVES, MOST_NODES).marks, 8_704)


class Reading(unittest.TestCase):
    def test_a_move_to_the_own_state_is_stored(self):
        job = refusal(moves_text([(0, 0, 2), (0, 1, 1)]), LABELS, FORMULA)
        self.assertEqual(job.chain.rates, {(0, 0): 2, (0, 1): 1})

    def test_rates_of_a_pair_are_added(self):
        """Wherever its lines stand, and to the own state too."""
        job = refusal(moves_text([(1, 0, 4), (0, 1, 2), (1, 1, 1), (0, 1, 3), (1, 1, 6), (0, 1, 2)]), LABELS, FORMULA)
        self.assertEqual(job.chain.rates, {(0, 1): 7, (1, 0): 4, (1, 1): 7})
        self.assertEqual((job.chain.exits, job.chain.totals, job.chain.q), ([7, 4], [7, 11], 7))

    def test_accepted_job(self):
        job = refusal(MOVES, LABELS, FORMULA)
        self.assertEqual(job.chain.states, 2)
        self.assertEqual(job.chain.rates, {(0, 1): 500})
        self.assertEqual(job.chain.marks, {b"up": (True, False), b"dead": (False, True)})

    def test_the_small_sheet_is_the_papers(self):
        self.assertEqual(LABELS, b"state,up,dead\n0,1,0\n1,0,1\n")
        self.assertEqual(MOVES, b"from,to,rate\n0,1,500\n")
