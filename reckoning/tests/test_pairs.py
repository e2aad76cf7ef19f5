"""Bounds of all quotients of two phases, for each pair of depths from the phases' own on."""

import unittest
from itertools import product
from random import Random
from unittest import mock

from reckoning import pairs
from reckoning.bracket import Bounds, Run
from reckoning.chain import Chain, depth, earlier, pair_quotients, until
from reckoning.limits import BILLION, HOUR, MOST_HUNDREDTHS, MOST_RATE, MOST_STATES
from reckoning.pairs import Pair, Unsettled, bracket_pairs, pair_certain, pair_possible
from reckoning.tests.chains import random_pairs, reading, row

CERTAIN, IMPOSSIBLE = Bounds(BILLION, BILLION), Bounds(0, 0)


def of(chain, *phases):
    return bracket_pairs(chain, *reading(chain), *phases)


def own_depths(chain, phases):
    return [depth(chain.load(hundredths)) for hundredths in phases]


def at_depths(chain, phases, depths):
    """The quotients of `up` and `dead` at a pair of depths."""
    first, second = reading(chain)
    start = Run(chain, until(first, second, phases[1])).to(depths[1]).quotients()
    return Run(chain, earlier(first, start, phases[0])).to(depths[0]).quotients()


class BracketPairs(unittest.TestCase):
    def test_small_sheet(self):
        """1 to 8 hours: up for an hour, then dead within seven. State 1 is dead from the start, and so not up."""
        self.assertEqual(of(row(2, 500), HOUR, 7 * HOUR), [Bounds(3_492_135, 3_492_136), IMPOSSIBLE])
        everywhere = bracket_pairs(row(2, 500), (True, True), (False, True), HOUR, 7 * HOUR)
        self.assertEqual(everywhere, [Bounds(3_992_010, 3_992_011), CERTAIN])

    def test_the_second_alone_is_not_enough(self):
        """The first has to hold to the first hour, and there itself."""
        chain = row(2, 500)
        self.assertEqual(bracket_pairs(chain, (False, False), (True, True), HOUR, HOUR), [IMPOSSIBLE] * 2)
        self.assertEqual(bracket_pairs(chain, (True, False), (True, True), HOUR, HOUR)[1], IMPOSSIBLE)

    def test_no_moves(self):
        """With q = 0 it is 1 where both hold and 0 elsewhere, at every time."""
        still = Chain(4, {(2, 2): 5}, {})
        both = (True, True, False, False), (True, False, True, False)
        for phases in ((1, 0), (HOUR, 7 * HOUR), (MOST_HUNDREDTHS, 0), (1, MOST_HUNDREDTHS - 1)):
            self.assertEqual(bracket_pairs(still, *both, *phases), [CERTAIN, IMPOSSIBLE, IMPOSSIBLE, IMPOSSIBLE])

    def test_equal_times(self):
        """The later phase has load 0, yet nothing is exact: at 2 hours in the middle of a row that is left once an hour."""
        middle = bracket_pairs(row(3, 1_000_000), (True,) * 3, (False, True, False), 2 * HOUR, 0)
        self.assertEqual(middle, [Bounds(270_670_566, 270_670_567), Bounds(135_335_283, 135_335_284), IMPOSSIBLE])

    def test_far_from_the_second(self):
        """100 states, rate 1: at their own depths, 42 each, the two phases do not come to the last state together, deeper they do."""
        chain, phases = Chain(100, row(100, 1).rates, row(100, 1).marks | {b"up": (True,) * 100}), (1, HOUR)
        self.assertEqual((of(chain, *phases)[0], of(chain, *phases)[99]), (Bounds(0, 1), CERTAIN))
        self.assertEqual([at_depths(chain, phases, depths)[0] > 0 for depths in (own_depths(chain, phases), (42, 56), (42, 57), (57, 42))],
                         [False, False, True, True])

    def test_far_from_a_failing_state(self):
        """59 states of both operands and a last one of neither: at its own depth state 0 has the quotient 1, deeper it has less."""
        chain, phases = row(60, 1), (HOUR, 0)
        up = chain.marks[b"up"]
        chain = Chain(60, chain.rates, {b"up": up, b"dead": up})
        self.assertEqual([at_depths(chain, phases, (last, 40))[0] == 1 for last in (42, 58, 59)], [True, True, False])
        bounds = of(chain, *phases)
        self.assertEqual((bounds[0], bounds[59]), (Bounds(BILLION - 1, BILLION), IMPOSSIBLE))

    def test_never_left(self):
        """Where both hold and no move leads away all quotients are 1; a ring of both is one such place."""
        ring = Chain(3, {(0, 1): 5, (1, 0): 7, (2, 0): 9}, {})
        both = (True, True, False)
        self.assertEqual(bracket_pairs(ring, both, both, 9 * HOUR, HOUR), [CERTAIN, CERTAIN, IMPOSSIBLE])

    def test_every_pair_of_depths_lies_within(self):
        """And the two bounds are nearest: some pair lies less than a billionth from each."""
        for chain, phases in random_pairs(Random(71), 40):
            own = own_depths(chain, phases)
            deeper = ([each + more for each, more in zip(own, pair)] for pair in product((0, 1, 5, 40), repeat=2))
            columns = zip(*(at_depths(chain, phases, depths) for depths in deeper))
            for (down, up), column in zip(of(chain, *phases), columns):
                values = [BILLION * value for value in column]
                self.assertTrue(down <= min(values) < down + 1)
                self.assertTrue(up - 1 < max(values) <= up)

    def test_the_papers_quotients(self):
        """The same by the plain sums in fractions, for small depths of a slow chain."""
        chain, phases = row(3, 700), (3 * HOUR, 5 * HOUR)
        plain = pair_quotients(chain, *reading(chain), phases, own_depths(chain, phases))
        self.assertEqual(plain, at_depths(chain, phases, own_depths(chain, phases)))
        for bounds, value in zip(of(chain, *phases), plain):
            self.assertTrue(bounds.down <= BILLION * value <= bounds.up)

    def test_tight(self):
        for chain, phases in random_pairs(Random(72), 40):
            for down, up in of(chain, *phases):
                self.assertTrue(0 <= up - down <= 1)

    def test_a_whole_billionth(self):
        """At half an hour, from state 0, what leaves state 1 weighs as much as what comes to it: every quotient is a half, and none tells that the
        next will be."""
        chain = Chain(4, {(0, 1): 1_000_000, (0, 2): 1_000_000, (1, 3): 2_000_000}, {})
        everywhere, second = (True,) * 4, (False, True, True, False)
        self.assertEqual({pair_quotients(chain, everywhere, second, (HOUR // 2, 0), (last, 40))[0] for last in (1, 2, 9, 42, 60)}, {0.5})
        with self.assertRaises(Unsettled):
            bracket_pairs(chain, everywhere, second, HOUR // 2, 0)
        near = bracket_pairs(chain, everywhere, second, HOUR // 2 + 1, 0)[0]
        self.assertTrue(BILLION // 2 < near.down < near.up < BILLION // 2 + 10_000_000)

    def test_deepest(self):
        """A full sheet at the greatest load in both phases stays feasible."""
        n = MOST_STATES
        chain = Chain(n, {(s, (s + k) % n): MOST_RATE // 8 - 3 * s - k for s in range(n) for k in range(1, 9)}, {})
        bounds = bracket_pairs(chain, (True,) * n, tuple(s == 0 for s in range(n)), HOUR, HOUR)
        self.assertTrue(all(0 < down < up == down + 1 < BILLION for down, up in bounds))


class ByMoves(unittest.TestCase):
    """Where all quotients are 0, and where all are 1."""

    def test_by_hand(self):
        chain = Chain(4, {(0, 1): 1, (1, 2): 1, (2, 3): 1}, {})
        everywhere, end = (True,) * 4, (False, False, False, True)
        self.assertEqual(pair_possible(chain, everywhere, end, 0), (True,) * 4)
        self.assertEqual(pair_possible(chain, (True, False, True, True), end, HOUR), (False, False, True, True))
        self.assertEqual(pair_possible(chain, (True, True, True, False), end, HOUR), (True, True, True, False))
        self.assertEqual(pair_possible(chain, (True, True, True, False), end, 0), (False,) * 4)
        self.assertEqual(pair_certain(chain, everywhere, end), (False, False, False, True))
        self.assertEqual(pair_certain(chain, everywhere, (False, False, True, True)), (False, False, True, True))
        self.assertEqual(pair_certain(chain, (True, True, True, False), everywhere), (False,) * 4)

    def test_by_quotients(self):
        """Deep enough for every move to count; the limit of one that is possible is above 0, and of one that is not certain below 1."""
        seen = set()
        for chain, phases in random_pairs(Random(73), 150):
            if chain.q:
                first, second = reading(chain)
                quotients = at_depths(chain, phases, (46, 46))
                self.assertEqual(pair_possible(chain, first, second, phases[1]), tuple(value > 0 for value in quotients))
                self.assertEqual(pair_certain(chain, first, second), tuple(value == 1 for value in quotients))
                seen.update((value > 0) + (value == 1) for value in quotients)
        self.assertEqual(seen, {0, 1, 2})


class Deeper(unittest.TestCase):
    def test_more_quotients(self):
        """A pair that goes deeper has the quotients of the other too; with a deeper later phase less is missing."""
        chain = row(3, 1_000_000)
        shallow, deep = (Pair(chain, *reading(chain), (HOUR, HOUR), more, 0) for more in (0, 20))
        for s in range(3):
            self.assertLessEqual(deep.least[s], shallow.least[s])
            self.assertGreaterEqual(deep.greatest[s], shallow.greatest[s])
            self.assertTrue(deep.least[s] <= deep.run.quotient(s) <= deep.greatest[s])
        self.assertLess(Pair(chain, *reading(chain), (HOUR, HOUR), 0, 9).missing, shallow.missing)

    def test_open_until_deep_enough(self):
        """Load 1/2, where the first weights halve already: from depths of a few steps on both bounds are open, and the upper one is never another."""
        chain, answers = row(3, 500_000), []
        for more in range(1, 30):
            with mock.patch.object(pairs, "depth", lambda load: more):
                pair = Pair(chain, (True,) * 3, (False, True, False), (HOUR, HOUR), 0, 0)
            answers.append((pair.down(0), pair.up(0)))
        right = bracket_pairs(chain, (True,) * 3, (False, True, False), HOUR, HOUR)[0]
        self.assertEqual(answers[2], (None, None))
        self.assertEqual(answers[-1], right)
        self.assertLessEqual({up for _, up in answers}, {None, right.up})
