"""Step values, weights and quotients, by other routes and in general."""

import unittest
from fractions import Fraction
from itertools import islice
from math import exp
from operator import mul
from random import Random

from reckoning.bracket import Run
from reckoning.chain import Chain, Phase, depth, earlier, next_chances, pair_quotients, quotients, step_values, until, weights
from reckoning.limits import HOUR, MOST_HUNDREDTHS, MOST_RATE, MOST_RATE_HUNDREDTHS, RATE_HOURS, RATE_HUNDREDTHS, SPARE_STEPS
from reckoning.tests.chains import random_chain, random_hundredths, random_pairs, random_untils, reading, row, without_own_moves


def first_weights(load, count):
    return list(islice(weights(load), count))


def float_phase(chain, phase):
    """The limit of a phase as a matrix power of e in floats: halve the time, add terms, square.

    A move to the own state adds to the matrix's own entry what it adds to the total that is taken away there.
    """
    n, halvings = chain.states, 20
    time, pinned = phase.hundredths / RATE_HUNDREDTHS / 2 ** halvings, phase.ones | phase.zeros
    small = [[time * (chain.rates.get((a, b), 0) - (a == b) * chain.totals[a]) if a not in pinned else 0.0
              for b in range(n)] for a in range(n)]
    term = result = [[float(a == b) for b in range(n)] for a in range(n)]
    for k in range(1, 12):
        term = [[value / k for value in line] for line in times(term, small)]
        result = [[x + y for x, y in zip(*pair)] for pair in zip(result, term)]
    for _ in range(halvings):
        result = times(result, result)
    return [sum(map(mul, line, phase.start)) for line in result]


def times(a, b):
    columns = list(zip(*b))
    return [[sum(x * y for x, y in zip(line, column)) for column in columns] for line in a]


class Depth(unittest.TestCase):
    def test_depth(self):
        for load, want in ((0, 40), (Fraction(1, 250), 42), (1, 42), (Fraction(1_000_001, 1_000_000), 44),
                           (64, 168), (2, 44), (Fraction(127, 2), 168)):
            self.assertEqual(depth(Fraction(load)), want)

    def test_q_is_the_whole_sheets(self):
        chain = Chain(3, {(0, 1): 5, (1, 0): 4, (1, 2): 7}, {})
        self.assertEqual((chain.exits, chain.q), ([5, 11, 0], 11))
        self.assertEqual(chain.load(8 * HOUR), Fraction(88, RATE_HOURS))
        self.assertEqual(chain.load(825), Fraction(11 * 825, RATE_HUNDREDTHS))

    def test_moves_to_the_own_state(self):
        """Until leaves them out of exit rates and q."""
        chain = Chain(3, {(0, 0): 90, (0, 1): 5, (1, 0): 4, (1, 2): 7, (2, 2): 30}, {})
        self.assertEqual((chain.exits, chain.q, chain.totals), ([5, 11, 0], 11, [95, 11, 30]))
        still = Chain(2, {(0, 0): MOST_RATE}, {})
        self.assertEqual((still.q, still.load(MOST_HUNDREDTHS), still.totals), (0, 0, [MOST_RATE, 0]))

    def test_weights(self):
        self.assertEqual(first_weights(Fraction(0), 3), [1, 0, 0])
        self.assertEqual(first_weights(Fraction(1, 2), 4),
                         [1, Fraction(1, 2), Fraction(1, 8), Fraction(1, 48)])

    def test_weights_halve_in_the_spare_steps(self):
        random = Random(1)
        loads = [Fraction(random.randint(0, MOST_RATE_HUNDREDTHS), RATE_HUNDREDTHS) for _ in range(20)]
        loads.append(Fraction(MOST_RATE_HUNDREDTHS, RATE_HUNDREDTHS))
        for load in loads:
            last = first_weights(load, depth(load) + 20)[depth(load) - SPARE_STEPS:]
            self.assertTrue(all(2 * after <= before for before, after in zip(last, last[1:])))


class StepValues(unittest.TestCase):
    def test_until_by_hand(self):
        chain = Chain(3, {(0, 1): 1, (0, 2): 1, (1, 0): 1}, {})
        values = step_values(chain, until((True, True, False), (False, False, True), HOUR))
        half, quarter = Fraction(1, 2), Fraction(1, 4)
        self.assertEqual(list(islice(values, 4)), [[0, 0, 1], [half, 0, 1], [half, quarter, 1],
                                                   [half + quarter / 2, half * half + quarter / 2, 1]])

    def test_only_the_second_holds(self):
        chain = row(2, 5)
        values = list(islice(step_values(chain, until((False, False), (True, False), HOUR)), 3))
        self.assertEqual(values, [[1, 0]] * 3)

    def test_no_rate(self):
        chain = Chain(3, {}, {})
        phase = until((True, True, False), (True, False, False), MOST_HUNDREDTHS)
        self.assertEqual(list(islice(step_values(chain, phase), 3)), [[1, 0, 0]] * 3)
        self.assertEqual(quotients(chain, phase, 50), [1, 0, 0])
        self.assertEqual(Run(chain, phase).to(50).quotients(), [1, 0, 0])


class Quotients(unittest.TestCase):
    def test_row_by_a_closed_form(self):
        """With equal exits on the way, d moves away means: at least d moves in time."""
        for count, rate, hundredths in ((2, 500, 8 * HOUR), (5, 300_000, 725), (6, MOST_RATE, HOUR)):
            chain = row(count, rate)
            load = chain.load(hundredths)
            for last in (0, 3, depth(load), depth(load) + 9):
                all_weights = first_weights(load, last + 1)
                want = [sum(all_weights[count - 1 - s:]) / sum(all_weights) for s in range(count)]
                self.assertEqual(quotients(chain, until(*reading(chain), hundredths), last), want)

    def test_two_exits_by_a_closed_form(self):
        chain = Chain(3, {(0, 1): 200_000, (0, 2): 300_000}, {})
        phase = until((True, False, False), (False, True, False), 3 * HOUR)
        got = quotients(chain, phase, 60)[0]
        self.assertAlmostEqual(float(got), 0.4 * (1 - exp(-1.5)), places=12)

    def test_two_speeds_by_a_closed_form(self):
        """Rates 2 and 1 in a row: 1 - 2 / e^t + 1 / e^(2 t)."""
        chain = Chain(3, {(0, 1): 2_000_000, (1, 2): 1_000_000}, {})
        got = quotients(chain, until((True, True, False), (False, False, True), 2 * HOUR), 60)[0]
        self.assertAlmostEqual(float(got), 1 - 2 * exp(-2) + exp(-4), places=12)

    def test_random_by_a_matrix(self):
        for chain, phase in random_untils(Random(2), 25):
            run = Run(chain, phase).to(depth(chain.load(phase.hundredths)))
            want = float_phase(chain, phase)
            for s in range(chain.states):
                self.assertAlmostEqual(float(run.quotient(s)), want[s], delta=1e-9)

    def test_fast_sums_are_the_papers(self):
        for chain, phase in random_untils(Random(3), 25):
            for last in (0, 1, 7, 45):
                self.assertEqual(Run(chain, phase).to(last).quotients(), quotients(chain, phase, last))

    def test_fast_sums_of_another_phase(self):
        """A phase that starts from fractions and pins nothing to 1."""
        random = Random(4)
        for _ in range(10):
            chain = random_chain(random)
            start = tuple(Fraction(random.randint(0, 9), 9) for _ in range(chain.states))
            phase = Phase(start, frozenset(), frozenset((0,)), random_hundredths(random, chain))
            self.assertEqual(Run(chain, phase).to(12).quotients(), quotients(chain, phase, 12))


class Rising(unittest.TestCase):
    def test_with_depth(self):
        for chain, phase in random_untils(Random(5), 30):
            run = Run(chain, phase)
            before = run.quotients()
            for last in range(1, 60):
                after = run.to(last).quotients()
                self.assertTrue(all(a <= b for a, b in zip(before, after)))
                before = after

    def test_with_the_reading(self):
        random = Random(6)
        for chain, phase in random_untils(random, 30):
            more = [tuple(mark or random.random() < 0.4 for mark in marks) for marks in reading(chain)]
            runs = [Run(chain, each).to(40) for each in (phase, until(*more, phase.hundredths))]
            for s in range(chain.states):
                self.assertLessEqual(runs[0].quotient(s), runs[1].quotient(s))

    def test_not_with_moves_to_the_own_state(self):
        """They change no quotient."""
        for chain, phase in random_untils(Random(19), 30):
            for last in (1, 9, 40):
                self.assertEqual(quotients(chain, phase, last), quotients(without_own_moves(chain), phase, last))


class TwoPhases(unittest.TestCase):
    """The earlier phase over the later one's quotients."""
    ROUND = Chain(3, {(0, 1): 1, (0, 2): 1, (1, 0): 1}, {})     # state 2 is for good

    def test_earlier_by_hand(self):
        """State 1, where both hold, is stepped; state 2, where the second holds alone, is 0 from the start."""
        first, second = (True, True, False), (False, True, True)
        later = quotients(self.ROUND, until(first, second, 0), 40)
        self.assertEqual(later, [0, 1, 1])
        half, quarter = Fraction(1, 2), Fraction(1, 4)
        values = step_values(self.ROUND, earlier(first, later, HOUR))
        self.assertEqual(list(islice(values, 4)), [[0, 1, 0], [half, half, 0], [quarter, half, 0], [quarter, 3 * quarter / 2, 0]])

    def test_quotients_rise_and_fall(self):
        """With the depth of the earlier phase: at state 1 they fall, at state 0 they rise and fall again."""
        first, second = (True, True, False), (False, True, True)
        phases = 100 * HOUR * RATE_HOURS, 0     # load 200
        found = [pair_quotients(self.ROUND, first, second, phases, (last, 40)) for last in range(1, 30)]
        at_0, at_1, _ = zip(*found)
        self.assertTrue(all(before > after for before, after in zip(at_1, at_1[1:])))
        self.assertGreater(at_0[0], 0)
        self.assertGreater(at_0[0], at_0[-1])
        self.assertEqual(pair_quotients(self.ROUND, first, second, phases, (0, 40))[0], 0)

    def test_small_sheet_by_a_closed_form(self):
        """Up for an hour, then dead within seven; dead by the eighth hour, when nothing is asked of the time before."""
        chain, rate = row(2, 500), 500 / RATE_HOURS
        up, dead = reading(chain)
        got = pair_quotients(chain, up, dead, (HOUR, 7 * HOUR), (42, 42))
        self.assertAlmostEqual(float(got[0]), exp(-rate) * (1 - exp(-7 * rate)), places=15)
        self.assertEqual(got[1], 0)
        got = pair_quotients(chain, (True, True), dead, (HOUR, 7 * HOUR), (42, 42))
        self.assertAlmostEqual(float(got[0]), 1 - exp(-8 * rate), places=15)
        self.assertEqual(got[1], 1)

    def test_at_one_time_by_a_closed_form(self):
        """Both times two hours, a row left once an hour: in the middle state then, r t / e^(r t)."""
        chain = row(3, 1_000_000)
        got = pair_quotients(chain, (True,) * 3, (False, True, False), (2 * HOUR, 0), (60, 40))
        for value, want in zip(got, (2 * exp(-2), exp(-2), 0)):
            self.assertAlmostEqual(float(value), want, places=14)

    def test_random_by_matrices(self):
        for chain, phases in random_pairs(Random(61), 25):
            own = [depth(chain.load(hundredths)) for hundredths in phases]
            first, second = reading(chain)
            later = float_phase(chain, until(first, second, phases[1]))
            want = float_phase(chain, earlier(first, later, phases[0]))
            start = Run(chain, until(first, second, phases[1])).to(own[1]).quotients()
            for value, other in zip(Run(chain, earlier(first, start, phases[0])).to(own[0]).quotients(), want):
                self.assertAlmostEqual(float(value), other, delta=1e-9)

    def test_fast_sums_are_the_papers(self):
        for chain, phases in random_pairs(Random(62), 15):
            first, second = reading(chain)
            for last, later_last in ((0, 0), (1, 9), (9, 1), (12, 12)):
                start = Run(chain, until(first, second, phases[1])).to(later_last).quotients()
                run = Run(chain, earlier(first, start, phases[0])).to(last)
                self.assertEqual(run.quotients(), pair_quotients(chain, first, second, phases, (last, later_last)))

    def test_rising_with_the_reading_and_the_later_depth(self):
        """At every depth of the earlier phase."""
        random = Random(63)
        for chain, phases in random_pairs(random, 20):
            holds = reading(chain)
            more = [tuple(mark or random.random() < 0.4 for mark in marks) for marks in holds]
            for last in (0, 3, 11):
                less = pair_quotients(chain, *holds, phases, (last, 5))
                for greater in (pair_quotients(chain, *holds, phases, (last, 8)), pair_quotients(chain, *more, phases, (last, 5))):
                    self.assertTrue(all(a <= b for a, b in zip(less, greater)))

    def test_splitting_the_time_of_an_until(self):
        """Where the second is for good and the first holds everywhere, "between the hours" is "within the last of them"."""
        chain = Chain(3, {(0, 1): 300_000, (1, 0): 700_000, (1, 2): 200_000}, {})
        everywhere, end = (True,) * 3, (False, False, True)
        whole = quotients(chain, until(everywhere, end, 5 * HOUR), 70)
        parts = pair_quotients(chain, everywhere, end, (2 * HOUR, 3 * HOUR), (70, 70))
        for value, other in zip(whole, parts):
            self.assertAlmostEqual(float(value), float(other), places=13)


class NextMove(unittest.TestCase):
    def test_by_hand(self):
        """Two moves of three into state 1, one of them its own; no move out of state 2."""
        chain = Chain(3, {(0, 0): 1, (0, 1): 3, (0, 2): 5, (1, 1): 7, (1, 2): 7}, {})
        third, half = Fraction(1, 3), Fraction(1, 2)
        self.assertEqual(next_chances(chain, (False, True, False)), [third, half, 0])
        self.assertEqual(next_chances(chain, (True, True, False)), [4 * third / 3, half, 0])
        self.assertEqual(next_chances(chain, (True, True, True)), [1, 1, 0])
        self.assertEqual(next_chances(chain, (False, False, False)), [0, 0, 0])

    def test_a_move_to_the_own_state_counts(self):
        """As a restart does: it is a next move, into the state itself."""
        chain = Chain(2, {(0, 0): 2, (0, 1): 1}, {})
        self.assertEqual(next_chances(chain, (False, True)), [Fraction(1, 3), 0])
        self.assertEqual(next_chances(chain, (True, False)), [Fraction(2, 3), 0])
        self.assertEqual(next_chances(without_own_moves(chain), (False, True)), [1, 0])

    def test_a_reading_and_its_opposite_add_to_1(self):
        random = Random(20)
        for _ in range(40):
            chain = random_chain(random)
            holds = [random.random() < 0.5 for _ in range(chain.states)]
            pairs = zip(next_chances(chain, holds), next_chances(chain, [not each for each in holds]))
            self.assertEqual([a + b for a, b in pairs], [1 if total else 0 for total in chain.totals])

    def test_by_the_jump_of_the_uniformised_chain(self):
        """With no move to an own state: one step of until from a state that is left at q is the next move."""
        random, seen = Random(21), 0
        for _ in range(60):
            chain = without_own_moves(random_chain(random))
            dead = chain.marks[b"dead"]
            *_, values = islice(step_values(chain, until((True,) * chain.states, dead, HOUR)), 2)
            chances = next_chances(chain, dead)
            for s in range(chain.states):
                if chain.q and chain.exits[s] == chain.q and not dead[s]:
                    seen += 1
                    self.assertEqual(values[s], chances[s])
        self.assertGreater(seen, 20)
