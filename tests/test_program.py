"""The program against the second reckoning and document 01: made jobs, damaged jobs, jobs at the limits, bench values; and its stack."""
import random
import resource
import subprocess
import unittest

from reckoning.copying import copied
from reckoning.formula import hours_text
from reckoning.judge import judge
from reckoning.limits import BILLION, HOUR, MOST_HUNDREDTHS, MOST_LEVELS, MOST_MOVES, MOST_RATE, MOST_STATES, SHEET_BYTES
from reckoning.refusal import BY_TEXTS
from reckoning.report import read_report, refused
from reckoning.sheets import (FAST_MOVES, FORMULA, FULL_MOVES, HOURS_8, LABELS, MOVES, NO_MOVES, REPORT, REPORT_LINE, labels_text, moves_text,
                              until)
from reckoning.tests import chains
from reckoning.tests.lines import WAYS, drawn
from reckoning.tests.prints import twice
from reckoning.tests.vectors import MISSING, cases, texts_of
from tests import edges, orders, two_times, ways
from tests.agreement import refusal_number, tried
from tests.jobs import Sheet, damaged_job, random_job
from tests.mutations import bent_job, with_lines_drawn
from tests.places import DEEP
from tests.possible import drawn_job
from tests.program import run, told

DAMAGED = 3_000
MADE = 300
RESTARTS = 60
STACK = 1 << 20             # bytes that the program gets by with
READING_STACK = 1 << 18     # and the readers


class Program(unittest.TestCase):
    def agrees(self, job, **more):
        """Whether the job was judged: the rest have too many ways to back a report."""
        faults = tried(judge, *job, run(job, **more))
        self.assertFalse(faults, job)
        return faults is not None

    def test_damaged_jobs(self):
        rng = random.Random(1)
        jobs = [make(rng) for _ in range(DAMAGED // 2) for make in (damaged_job, bent_job)]
        judged = [self.agrees(job) for job in jobs]
        self.assertGreater(sum(judged), 0.9 * DAMAGED)
        self.assertLessEqual(BY_TEXTS - {5}, set(map(refusal_number, jobs)))

    def test_made_jobs(self):
        rng = random.Random(2)
        judged = [self.agrees(random_job(rng)) for _ in range(MADE)]
        self.assertGreater(sum(judged), 0.9 * MADE)

    @unittest.skipIf(MISSING, MISSING)
    def test_vectors(self):
        for case in cases():
            with self.subTest(case["name"]):
                printed = run(texts_of(case))
                if "refused" in case:
                    self.assertEqual(printed, refused(case["refused"]))
                else:
                    self.within(case, read_report(printed, len(case["lower"])))

    def within(self, case, rows):
        """Every row of a report is as a vector allows it."""
        for row, lower, upper, verdicts in zip(rows, case["lower"], case["upper"], case["verdict"], strict=True):
            self.assertEqual(row.depth, case["depth"])
            self.assertTrue(lower[0] <= row.lower <= lower[1] and upper[0] <= row.upper <= upper[1], row)
            self.assertIn(row.verdict, verdicts)
            self.assertLessEqual(row.upper - row.lower, BILLION if case.get("width") is None else case["width"])

    def test_limits(self):
        for name, pair in edges.pairs().items():
            for job in pair:
                with self.subTest(name):
                    number = refusal_number(job)
                    if number:
                        self.assertEqual(run(job, stack=STACK), refused(number))
                    else:
                        self.assertFalse(run(job, stack=STACK).startswith(b"refused"))

    def test_bench_values(self):
        """What document 01 says of jobs on its small sheet, and of the limits."""
        def rows(formula, moves=MOVES):
            return read_report(run((moves, LABELS, formula)), 2)
        self.assertEqual(run((MOVES, LABELS, FORMULA)), REPORT)
        self.assertEqual([(row.depth, row.verdict) for row in rows(b"tt\n")], [(0, "yes")] * 2)
        self.assertEqual([row.verdict for row in rows(b"& up ! dead\n")], ["yes", "no"])
        first = rows(HOURS_8)[0]
        self.assertLessEqual(first.lower, 3_992_010)
        self.assertGreaterEqual(first.upper, 3_992_011)
        self.assertLessEqual(first.upper - first.lower, 168)
        self.assertEqual((first.depth, first.verdict), (42, "yes"))
        self.assertEqual({row.depth for row in rows(until(HOUR), FAST_MOVES)}, {168})
        self.assertEqual(run((FULL_MOVES, LABELS, until(2 * HOUR))), refused(14))
        still = rows(until(MOST_HUNDREDTHS), NO_MOVES)
        self.assertEqual([(row.lower, row.upper, row.depth) for row in still], [(0, 0, 40), (BILLION, BILLION, 40)])
        self.assertEqual(len(rows(b"! " * (MOST_LEVELS - 1) + b"up\n")), 2)
        self.assertEqual(run(edges.levels(MOST_LEVELS + 1)), refused(11))
        self.assertEqual([row.verdict for row in rows(b"P >= 0 U 1 up dead\n")], ["yes"] * 2)

    def test_hours_with_decimals(self):
        """Quarter hours lie between the hours about them; a trailing zero, a third decimal or a lonely point breaks the grammar."""
        def asked(hours):
            return MOVES, LABELS, b"P <= 10000000 U %s up dead\n" % hours
        lows = [read_report(run(asked(hours)), 2)[0].lower for hours in (b"8", b"8.05", b"8.25", b"8.5", b"8.75", b"9")]
        self.assertEqual(lows, sorted(set(lows)))
        for hours in (b"0.05", b"8.25", b"8.5", b"8759.99"):
            self.assertEqual(judge(*asked(hours), run(asked(hours))), [])
        for hours in (b"8.50", b"8.0", b"8.", b".5", b"00.5", b"8.125", b"8.2.5"):
            self.assertEqual(run(asked(hours)), refused(10), hours)
        self.assertEqual(run((MOVES, LABELS, b"P <= 0.5 U 8 up dead\n")), refused(10))
        for hours in (b"8760.01", b"9999999999.99"):
            self.assertEqual(run(asked(hours)), refused(13))
        self.assertEqual(run((FULL_MOVES, LABELS, until(HOUR + 1))), refused(14))

    def test_next_move(self):
        """`X` has the exact fraction, rounded outwards, at depth 0; it is 0 where no move leads on; and a move to the own state is a move."""
        def printed(formula, *moves):
            return run((moves_text(moves), LABELS, formula + b"\n"))
        restart, dead = ((0, 0, 2), (0, 1, 1)), b"1,0,0,0,no\n"
        third = b"P %s X dead"
        self.assertEqual(printed(third % b">= 333333334", (0, 1, 500)), twice(REPORT_LINE + b"0,1000000000,1000000000,0,yes\n" + dead))
        self.assertEqual(printed(third % b">= 333333334"), twice(REPORT_LINE + b"0,0,0,0,no\n" + dead))
        self.assertEqual(printed(third % b">= 333333334", *restart), twice(REPORT_LINE + b"0,333333333,333333334,0,undecided\n" + dead))
        self.assertEqual(printed(third % b">= 1000000000", (1, 1, 3)), twice(REPORT_LINE + b"0,0,0,0,no\n1,1000000000,1000000000,0,yes\n"))
        for bound, word in ((b">= 333333333", "yes"), (b"> 333333333", "undecided"), (b"> 333333334", "no"), (b"< 333333333", "no"),
                            (b"<= 333333333", "undecided"), (b"< 333333334", "undecided"), (b"<= 333333334", "yes"), (b"< 333333335", "yes")):
            self.assertEqual(read_report(printed(third % bound, *restart), 2)[0].verdict, word, bound)

    def test_next_move_among_other_nodes(self):
        """Within an until, about one, under `!` and within itself: an undecided `X` stays undecided."""
        moves = moves_text([(0, 0, 2), (0, 1, 1)])
        third = b"P >= 333333334 X dead"
        for formula, ends in ((b"P >= 1 U 0 tt " + third, (0, BILLION, 40, "undecided")), (b"! " + third, (0, BILLION, 0, "undecided")),
                              (b"P > 0 X " + third, (0, 666_666_667, 0, "undecided"))):
            job = moves, LABELS, formula + b"\n"
            self.assertEqual(tuple(read_report(run(job), 2)[0]), ends, formula)
            self.assertEqual(judge(*job, run(job)), [])
        about = MOVES, LABELS, b"P >= 1000000000 X P >= 3992000 U 8 up dead\n"
        self.assertEqual(judge(*about, run(about)), [])

    def test_refusals_of_the_next_move(self):
        for formula in (b"P < 1 X dead up", b"P < 1 X", b"X dead", b"P < 1 X 8 dead", b"P < 1 U 8 X up dead"):
            self.assertEqual(run(edges.small(formula)), refused(10), formula)
        self.assertEqual(run(edges.small(b"P < 1000000001 X dead")), refused(13))
        self.assertEqual(run(edges.typed(b"0,0,%d\n0,1,1" % MOST_RATE)), refused(9))

    def test_until_beside_restarts(self):
        """Moves to the own state change no until, and are not in q."""
        def asked(*moves):
            return moves_text(moves), LABELS, HOURS_8
        self.assertEqual(run(asked((0, 0, MOST_RATE - 500), (0, 1, 500))), run(asked((0, 1, 500))))
        longest = until(MOST_HUNDREDTHS)
        self.assertEqual(run((moves_text([(0, 0, MOST_RATE)]), LABELS, longest)), run((NO_MOVES, LABELS, longest)))
        rng = random.Random(7)
        for sheet in (Sheet(rng) for _ in range(RESTARTS)):
            question = b"P >= 500000000 U 1 %s %s\n" % (rng.choice(sheet.names), rng.choice(sheet.names))
            others = moves_text([(a, b, rate) for a, b, rate in sheet.moves if a != b])
            self.assertEqual(run((sheet.moves_text, sheet.labels_text, question)), run((others, sheet.labels_text, question)))

    def test_sums_past_32_bits(self):
        """Sums that 32 bits do not hold are 9, also where they would come round to 5: of rates of nine digits and of rates within the limit, to as
        many states as there may be, and of one pair, on as many lines. Thousands of states that are not there are 6, which is tested before."""
        most, round_to_5 = 10**9 - 1, 2**32 + 5
        four, all_but_one = [most] * 4, [most] * (MOST_STATES - 1)
        within = [MOST_RATE - 1] * (round_to_5 // (MOST_RATE - 1))
        for rates in (four + [round_to_5 - sum(four)], [round_to_5 - sum(four)] + four, within + [round_to_5 - sum(within)],
                      all_but_one + [(5 - sum(all_but_one)) % 2**32], all_but_one + [most], [1] + all_but_one):
            self.assertTrue(all(0 < rate <= most for rate in rates))
            self.assertGreater(sum(rates), 2**32)
            self.assertEqual(run(edges.rates_out(rates)), refused(9))
        even = [MOST_RATE // MOST_STATES] * MOST_STATES
        self.assertEqual(run(edges.rates_out(even)).count(b",yes\n"), 2 * MOST_STATES)
        self.assertEqual(run(edges.rates_out(even[:-1] + [even[-1] + 1])), refused(9))
        of_one_pair = [most] * (MOST_MOVES - 3)
        for last in (most, (5 - sum(of_one_pair)) % 2**32):
            self.assertLessEqual(last, most)
            self.assertEqual(run(edges.typed(b"\n".join(b"0,1,%d" % rate for rate in (*of_one_pair, last)))), refused(9))
        self.assertEqual(run(edges.typed(b"\n".join(b"0,%d,%d" % (to, most) for to in range(3_500)))), refused(6))

    def test_worst_state_at_the_top(self):
        """The small sheet "prints three lines more: the names, state 1, state 0", which makes six; a refusal prints two as before."""
        self.assertEqual(run((MOVES, LABELS, FORMULA)).split(b"\n"), [
            b"state,lower,upper,depth,verdict", b"0,0,0,40,no", b"1,1000000000,1000000000,40,yes",
            b"state,lower,upper,depth,verdict", b"1,1000000000,1000000000,40,yes", b"0,0,0,40,no", b""])
        self.assertEqual(run((MOVES, LABELS, b"gas\n")), b"refused\n12\n")

    def test_known_orders(self):
        """The second listing has the rows of the first in the order that the job was made for, also with as many states as there may be."""
        for size in orders.SIZES:
            for name, (shares, order) in orders.known(size).items():
                with self.subTest(name, states=size + 1):
                    lines = run(orders.shares_job(shares)).splitlines(keepends=True)
                    first, second = lines[:size + 2], lines[size + 2:]
                    ends = [b"%d,%d,%d," % (state, low, low) for state, low in enumerate([*map(orders.lower_end, shares), 0])]
                    self.assertTrue(all(map(bytes.startswith, first[1:], ends)))
                    self.assertEqual(second, [REPORT_LINE, *(first[1 + state] for state in order)])

    def test_ties(self):
        """Equal lower ends go by rising number: all equal, two values by turns, and no beside undecided."""
        yes, no, labels = b"%d,1000000000,1000000000,0,yes\n", b"%d,0,0,0,no\n", labels_text([b"up"], [[1], [0], [1], [0]])
        first = REPORT_LINE + b"".join(yes % state for state in range(4))
        self.assertEqual(run((NO_MOVES, labels, b"tt\n")), first + first)
        first = REPORT_LINE + yes % 0 + no % 1 + yes % 2 + no % 3
        self.assertEqual(run((NO_MOVES, labels, b"up\n")), first + REPORT_LINE + yes % 0 + yes % 2 + no % 1 + no % 3)
        labels, open_ = labels_text([b"dead"], [[0], [0], [1]]), b"%d,0,1000000000,0,undecided\n"
        first = REPORT_LINE + no % 0 + open_ % 1 + no % 2
        self.assertEqual(run((moves_text([(1, 1, 2), (1, 2, 1)]), labels, b"! P < 333333334 X dead\n")), first + first)

    def test_a_refusal_is_four_writes(self):
        """The name, what every refusal begins with, the sentence and the line feed; nothing beside a report."""
        sentence = b"formula.txt breaks the grammar."
        self.assertEqual(told((MOVES, LABELS, b"&\n")), [b"sheetcheck", b": refused, since ", sentence, b"\n"])
        self.assertEqual(told((MOVES, LABELS, FORMULA)), [])

    def test_stack_of_the_deepest_formulas(self):
        limit = lambda: resource.setrlimit(resource.RLIMIT_STACK, (READING_STACK, READING_STACK))
        told = subprocess.run([DEEP], stdout=subprocess.PIPE, check=True, preexec_fn=limit).stdout
        self.assertEqual(told, b"ok\n" * 30)


class AnyOrder(unittest.TestCase):
    """Lines in any order, and pairs on several lines: what is printed is what is printed for the moves that rise, each pair on one line."""

    def same(self, job, other):
        """What is printed for both, which is the same and a report that the rules allow."""
        printed = run(job, stack=STACK)
        self.assertEqual(printed, run(other, stack=STACK), job[0][:200])
        self.assertFalse(tried(judge, *job, printed), job[0][:200])
        return printed

    def test_small_sheet(self):
        """A rate of 500 on one line and on several, with a restart and a move back between them."""
        self.assertEqual(self.same(edges.typed(b"0,1,200\n0,1,300")[:2] + (FORMULA,), (MOVES, LABELS, FORMULA)), REPORT)
        rising = edges.typed(b"0,0,7\n0,1,500\n1,0,3\n1,1,1")[:2]
        typed = edges.typed(b"1,1,1\n0,1,499\n1,0,2\n0,0,7\n0,1,1\n1,0,1")[:2]
        for formula in (FORMULA, HOURS_8, b"tt\n", b"P >= 5 X dead\n", b"P > 0 U 0.01 up dead\n", b"P > 5 V 1 8 tt dead\n"):
            self.same((*typed, formula), (*rising, formula))

    def test_every_way(self):
        """Each way in which moves may be typed, for made sheets and for the questions of each kind."""
        rng, apart = random.Random(51), set()
        for sheet in (Sheet(rng) for _ in range(MADE // 15)):
            rising, hours = moves_text(sheet.moves), hours_text(max(1, sheet.hundredths(rng, most_load=3)))
            for name, way in WAYS.items():
                asked = rng.choice([b"P >= 5 U " + hours, b"P > 0 U " + hours, b"P > 5 V 0.01 " + hours, b"P >= 5 X ! &"])
                formula = b" ".join([asked, rng.choice(sheet.names), rng.choice(sheet.names)]) + b"\n"
                typed = moves_text(way(rng, sheet.moves))
                self.same((typed, sheet.labels_text, formula), (rising, sheet.labels_text, formula))
                apart |= {name} if typed != rising else set()
        self.assertEqual(apart, set(WAYS) - {"rising"})

    def test_made_jobs(self):
        """Jobs of all kinds whose lines are in any order, and damaged and bent ones, beside the same with the clean copy of their moves."""
        rng, apart = random.Random(52), 0
        for job in (make(rng) for _ in range(MADE // 2) for make in (random_job, drawn_job, damaged_job, bent_job)):
            copy = copied(*job[:2])
            if not isinstance(copy, int):
                self.assertEqual(run(job), run((copy, *job[1:])), job)
                apart += copy != job[0]
        self.assertGreater(apart, MADE // 2)

    def test_as_many_lines_as_there_may_be(self):
        """4,096 lines: of one pair, of as many pairs that fall or are drawn, and of 512 pairs eight times; and totals that are just allowed."""
        rng, question = random.Random(53), b"P >= 5 U 0.5 tt ! tt\n"
        for moves, labels, _ in (edges.moves_again(MOST_MOVES), edges.moves_falling(MOST_MOVES), edges.rates_again(MOST_RATE),
                                 edges.rates_apart(MOST_RATE), edges.long_moves(SHEET_BYTES)):
            rising = copied(moves, labels)
            for typed in (moves, with_lines_drawn(rng, moves)):
                self.assertTrue(self.same((typed, labels, question), (rising, labels, question)).startswith(REPORT_LINE))
        ring, times = [(s, (s + 1) % MOST_STATES, 125_000) for s in range(MOST_STATES)], MOST_MOVES // MOST_STATES
        rising = moves_text((source, target, times * rate) for source, target, rate in ring)
        typed, question = moves_text(drawn(rng, times * ring)), b"P >= 5 U 64 tt dead\n"
        labels = two_times.largest()[1]
        self.assertTrue(self.same((typed, labels, question), (rising, labels, question)).startswith(REPORT_LINE))

    def test_totals(self):
        """9 looks at each line's rate and at the totals of the states, wherever the lines stand."""
        half = MOST_RATE // 2
        for lines, number in ((b"0,1,0\n0,1,5", 9), (b"0,1,5\n1,0,3\n0,1,0", 9), (b"0,1,%d\n1,0,1\n0,1,%d" % (half, half + 1), 9),
                              (b"0,1,%d\n1,0,1\n0,0,1\n0,1,%d" % (half, half), 9), (b"1,0,1\n0,1,%d\n0,2,1" % (MOST_RATE + 1), 6)):
            self.assertEqual(run(edges.typed(lines)), refused(number), lines)
        for lines in (b"0,1,%d\n1,0,1\n0,1,%d" % (half, half), b"1,0,%d\n0,1,%d\n0,0,%d\n1,1,%d" % (half, half, half, half)):
            self.assertTrue(run(edges.typed(lines)).startswith(REPORT_LINE), lines)


class TwoTimes(unittest.TestCase):
    """`V`: the second operand at some time between two, the first until then."""

    def rows(self, job):
        """The rows of a report that the rules allow."""
        printed = run(job)
        self.assertEqual(judge(*job, printed), [], job)
        return read_report(printed, job[1].count(b"\n") - 1)

    def holds(self, row, value):
        """Whether a value in billionths, not whole, lies within the ends of a row."""
        self.assertLess(row.lower, value)
        self.assertLess(value, row.upper)

    def test_small_sheet(self):
        """Up for an hour, then dead within seven: state 1, dead and not up, has ends 0 and 0. What was before does not matter with `tt`."""
        first, dead = self.rows(two_times.small(b"1 8"))
        self.holds(first, 3_492_135.635)
        self.assertEqual((first.depth, first.verdict, dead), (84, "no", (0, 0, 84, "yes")))
        first, dead = self.rows(two_times.small(b"1 8", first=b"tt"))
        self.holds(first, 3_992_010.656)
        self.assertEqual((dead.upper, dead.depth, dead.verdict), (BILLION, 84, "no"))

    def test_first_time_0(self):
        """It is `U` in every respect: the same text is printed, be it a report or a refusal."""
        rng = random.Random(41)
        jobs = [(MOVES, LABELS, FORMULA), (MOVES, LABELS, HOURS_8), (NO_MOVES, LABELS, HOURS_8), edges.load(MOST_RATE, HOUR),
                edges.load(MOST_RATE, HOUR + 1), edges.load(1, MOST_HUNDREDTHS), edges.load(1, MOST_HUNDREDTHS + 1)]
        jobs += [ways.until_job(led, *bound) for led in ways.known(5).values() for bound in ways.BOUNDS]
        jobs += [make(rng) for _ in range(MADE // 4) for make in (random_job, drawn_job)]
        changed = 0
        for job in jobs:
            other = two_times.from_time_0(job)
            changed += other != job
            self.assertEqual(run(other), run(job), other)
        self.assertGreater(changed, 0.5 * len(jobs))

    def test_equal_times(self):
        """Two phases, the later one with load 0 and depth 40: where the chain is at two hours, and at eight."""
        first, middle, last = self.rows(two_times.in_the_middle(b"2 2"))
        self.holds(first, 270_670_566.473)
        self.holds(middle, 135_335_283.237)
        self.assertEqual((last.lower, {row.depth for row in (first, middle, last)}), (0, {84}))
        self.holds(self.rows(two_times.small(b"8 8", first=b"tt"))[0], 3_992_010.656)
        self.assertEqual(self.rows(two_times.small(b"8 8"))[0][:3:2], (0, 82))

    def test_states_of_the_second_are_stepped(self):
        """From half an hour to two: in the middle state at its start is not enough, since it may be left before."""
        first, middle, _ = self.rows(two_times.in_the_middle(b"0.5 2"))
        self.holds(first, 774_460_706.7)
        self.holds(middle, 606_530_659.7)

    def test_states_where_the_first_fails_stay_at_0(self):
        """Whoever has left the first state and come back does not count, and the second state has ends 0."""
        for typed in (b"2 2", b"2 8"):
            here, other = self.rows(two_times.never_left(typed))
            self.holds(here, 135_335_283.237)
            self.assertEqual((other.lower, other.upper), (0, 0))

    def test_no_moves(self):
        """With q = 0 the ends are exact; with the first time 0 the first operand does not matter where the second holds."""
        for typed in (b"1 2", b"0.01 0.01", b"8760 8760", b"0.01 8760"):
            rows = self.rows(two_times.no_moves(typed))
            self.assertEqual([(row.lower, row.upper) for row in rows], two_times.no_moves_ends())
            self.assertEqual({row.depth for row in rows}, {80})
        self.assertEqual([row.verdict for row in self.rows(two_times.no_moves(b"0 2"))], ["yes", "no", "yes", "no"])

    def test_ends_alone_decide(self):
        """Possible or certain by the moves is not asked of two phases: undecided where the threshold lies between the ends."""
        for bound, word in ((b"> 0", "undecided"), (b"<= 0", "undecided"), (b">= 0", "yes"), (b"< 0", "no"), (b">= 1000000000", "no"),
                            (b"< 1000000000", "yes"), (b"<= 1000000000", "yes"), (b"> 1000000000", "no")):
            first, _, last = self.rows(two_times.slow_row(bound, b"0.01 0.02"))
            none = "yes" if bound in (b"<= 0", b">= 0", b"< 1000000000", b"<= 1000000000") else "no"
            self.assertEqual((first.lower, first.verdict, last), (0, word, (0, 0, 84, none)), bound)
            by_moves = {b"> 0": "yes", b"<= 0": "no"}.get(bound, word)
            self.assertEqual(self.rows(two_times.slow_row(bound, b"0 0.02"))[0].verdict, by_moves, bound)

    def test_among_other_nodes(self):
        """Within an until, about one, under `!`, in a next move and within itself, with undecided operands and without."""
        inner, near = b"P >= 3492136 V 1 8 up dead", b"P >= 3992011 U 8 up dead"
        for formula in (b"P >= 1 U 0 tt " + inner, b"! " + inner, b"P > 0 X " + inner, b"P > 5 V 1 2 tt " + inner,
                        b"P > 5 V 1 2 " + inner + b" dead", b"P >= 500000000 V 1 8 up " + near,
                        b"P >= 500000000 V 1 1 ! " + near + b" dead", b"P > 0 V 0.01 1 up " + near,
                        b"& " + inner + b" P < 5 V 0 8 up dead", b"P > 0 V 1 8 P > 0 V 0 8 up dead P > 0 X up"):
            self.rows((MOVES, LABELS, formula + b"\n"))
        self.assertEqual(self.rows((MOVES, LABELS, b"P >= 1 U 0 tt " + inner + b"\n"))[0].verdict, "undecided")

    def test_refusals(self):
        for formula, number in ((b"P < 1 V 8 1 up dead", 16), (b"P < 1 V 0.02 0.01 up dead", 16), (b"P < 1 V 9000 1 up dead", 13),
                                (b"P < 1 V 1 9000 up dead", 13), (b"P < 1000000001 V 8 1 up dead", 13), (b"P < 1 V 1 up dead", 10),
                                (b"P < 1 V 8 1 gas dead", 12), (b"& P < 1 U 5 up dead P < 1 V 3 1 up dead", 16)):
            self.assertEqual(run(edges.small(formula)), refused(number), formula)
        for formula, number in ((b"P < 1 V 2 2 up dead", 14), (b"P < 1 V 0 2 up dead", 14), (b"P < 1 V 1 2.01 up dead", 14),
                                (b"P < 1 V 2 1 up dead", 16), (b"& P < 1 U 5 up dead P < 1 V 3 1 up dead", 16)):
            self.assertEqual(run((FULL_MOVES, LABELS, formula + b"\n")), refused(number), formula)

    def test_greatest_loads(self):
        """Depth 168 in each phase, with as many states as there may be, within the program's stack."""
        job = two_times.largest()
        printed = run(job, stack=STACK)
        self.assertEqual(judge(*job, printed), [])
        self.assertEqual({row.depth for row in read_report(printed, MOST_STATES)}, {336})


class Possible(unittest.TestCase):
    """Thresholds 0 and 1,000,000,000: the moves decide the verdict, ends and depth stay as they were."""

    def words(self, job, states):
        """The verdicts of a report that the rules allow."""
        printed = run(job)
        self.assertEqual(judge(*job, printed), [])
        return [each.verdict for each in read_report(printed, states)]

    def test_possible_under_a_billionth(self):
        """Three states in a row, left once in a million hours: state 0 comes to state 2 within 36 seconds, though no billionth tells of it."""
        moves, labels = chains.texts(chains.row(3, 1))
        for bound, word in ((b"> 0", b"yes"), (b"<= 0", b"no"), (b">= 0", b"yes"), (b"< 0", b"no"), (b">= 1", b"undecided"), (b"< 1", b"undecided"),
                            (b">= 1000000000", b"no"), (b"< 1000000000", b"yes"), (b"> 1000000000", b"no"), (b"<= 1000000000", b"yes")):
            lines = run((moves, labels, b"P " + bound + b" U 0.01 up dead\n")).splitlines()
            self.assertEqual((lines[1], lines[-1]), (b"0,0,1,42," + word,) * 2, bound)
        for formula, line in ((b"! P > 0 U 0.01 up dead", b"0,0,0,0,no"), (b"P >= 1 U 0 tt P > 0 U 0.01 up dead", b"0,1000000000,1000000000,40,yes"),
                              (b"P > 0 U 0 tt P >= 1 U 0.01 up dead", b"0,0,1000000000,40,undecided")):
            self.assertEqual(run((moves, labels, formula + b"\n")).splitlines()[1], line, formula)

    def test_certain_by_the_second_alone(self):
        """State 0 comes to state 1 surely but not at once: no upper end makes that certain, and no time."""
        def asked(bound):
            return self.words((FULL_MOVES, LABELS, b"P %s U 1 up dead\n" % bound), 2)
        self.assertEqual([asked(b">= 1000000000"), asked(b"< 1000000000"), asked(b"> 0")], [["no", "yes"], ["yes", "no"], ["yes", "yes"]])
        self.assertEqual(read_report(run((FULL_MOVES, LABELS, b"P >= 1000000000 U 1 up dead\n")), 2)[0].upper, BILLION)

    def test_where_moves_lead(self):
        """What is possible and what is certain, where the way is known: through states where the first operand fails, against the moves, by moves to
        the own state, without moves, and with no time."""
        for name, led in ways.known(5).items():
            for bound in ways.BOUNDS:
                with self.subTest(name, bound=bound):
                    self.assertEqual(self.words(ways.until_job(led, *bound), 5), ways.until_verdicts(led, *bound))
                    self.assertEqual(self.words(ways.until_job(led, *bound, hours=b"0"), 5), ways.until_verdicts(led, *bound, False))
                    self.assertEqual(self.words(ways.next_job(led, *bound), 5), ways.next_verdicts(led, *bound))

    def test_drawn_questions(self):
        rng = random.Random(9)
        for job in (drawn_job(rng) for _ in range(MADE)):
            self.assertFalse(tried(judge, *job, run(job)), job)

    def test_one_undecided_state_far_away(self):
        """Where an operand is undecided at one state, the ends decide at every state, as they did."""
        for hours, first in ((ways.SHORT, "undecided"), (b"100", "yes")):
            for job in ways.far_away(hours):
                self.assertEqual(self.words(job, 6)[:3], [first, "yes", "yes"], job)

    def test_the_longest_ways(self):
        """As many states as there may be, in a row: each comes to the last, within the program's stack."""
        for name in ("onward", "back", "a ring", "a tree", "the first fails on the way"):
            led = ways.known(MOST_STATES)[name]
            rows = read_report(run(ways.until_job(led, b">", 0), stack=STACK), MOST_STATES)
            self.assertEqual([each.verdict for each in rows], ways.until_verdicts(led, b">", 0), name)


if __name__ == "__main__":
    unittest.main()
