"""Bounds of all quotients from D on."""

import unittest
from fractions import Fraction
from random import Random

from reckoning.bracket import Bounds, Run, bracket, reaching, settled_ceil
from reckoning.chain import Chain, depth, until
from reckoning.limits import BILLION, HOUR, MOST_HUNDREDTHS, MOST_RATE, MOST_STATES
from reckoning.tests.chains import random_chain, random_untils, reading, row


def of(chain, hundredths):
    return bracket(chain, *reading(chain), hundredths)


class Bracket(unittest.TestCase):
    def test_bench_value(self):
        self.assertEqual(of(row(2, 500), 8 * HOUR), [Bounds(3_992_010, 3_992_011), Bounds(BILLION, BILLION)])

    def test_load_0(self):
        exact = [Bounds(0, 0), Bounds(0, 0), Bounds(BILLION, BILLION)]
        self.assertEqual(of(row(3, 500), 0), exact)
        still = Chain(3, {}, row(3, 1).marks)
        self.assertEqual(of(still, MOST_HUNDREDTHS), exact)

    def test_further_than_depth(self):
        """60 states, rate 1, 1 hour: the quotient at D is 0 far away, later ones are above it."""
        bounds = of(row(60, 1), HOUR)
        self.assertEqual(bounds[0], Bounds(0, 1))
        self.assertEqual(bounds[58], Bounds(999, 1_000))
        run = Run(row(60, 1), until(*reading(row(60, 1)), HOUR))
        self.assertEqual(run.to(42).quotient(0), 0)
        self.assertGreater(run.to(59).quotient(0), 0)

    def test_not_reached(self):
        chain = Chain(3, {(0, 1): 5, (2, 1): 9}, {})
        first, second = (True, False, True), (False, False, False)
        self.assertEqual(bracket(chain, first, second, 9 * HOUR), [Bounds(0, 0)] * 3)
        self.assertEqual(reaching(chain, first, (False, True, False)), {0, 2})
        self.assertEqual(reaching(chain, (False, False, True), (False, True, False)), {2})

    def test_random(self):
        """`down` is the floor at D; far deeper quotients lie from `up` - 1 to `up`."""
        for chain, phase in random_untils(Random(7), 40):
            bounds = of(chain, phase.hundredths)
            run = Run(chain, phase).to(depth(chain.load(phase.hundredths)))
            self.assertEqual([b.down for b in bounds],
                             [run.quotient(s) * BILLION // 1 for s in range(chain.states)])
            run.to(run.depth + 60)
            for s, (_, up) in enumerate(bounds):
                value = run.quotient(s) * BILLION
                self.assertTrue(value <= up and (up == 0 or up - 1 < value))

    def test_enclosure_holds_deeper_quotients(self):
        for chain, phase in random_untils(Random(8), 20):
            run = Run(chain, phase).to(depth(chain.load(phase.hundredths)))
            pairs = [run.enclosure(s) for s in range(chain.states)]
            run.to(run.depth + 25)
            for s, (low, high) in enumerate(pairs):
                self.assertLessEqual(low, run.quotient(s))
                self.assertLessEqual(run.quotient(s), high)

    def test_open_until_settled(self):
        """Load 1/2: weights halve from the first, so the enclosure holds early, but wide."""
        chain = row(2, 500_000)
        run = Run(chain, until(*reading(chain), HOUR))
        answers = [settled_ceil(run.to(last), 0) for last in range(1, 30)]
        self.assertIsNone(answers[4])
        self.assertEqual({*answers}, {None, 393_469_341})
        self.assertEqual(answers, sorted(answers, key=lambda up: up is not None))

    def test_tight(self):
        """From D on little is left: the bounds are at most 2 billionths apart."""
        for chain, phase in random_untils(Random(9), 40):
            for down, up in of(chain, phase.hundredths):
                self.assertTrue(0 <= up - down <= 2)

    def test_deepest(self):
        """A full sheet at the greatest load stays feasible."""
        n = MOST_STATES
        rates = {(s, (s + k) % n): MOST_RATE // 8 - 3 * s - k for s in range(n) for k in range(1, 9)}
        marks = tuple(s == 0 for s in range(n))
        bounds = bracket(Chain(n, rates, {}), (True,) * n, marks, HOUR)
        self.assertEqual(bounds[0], Bounds(BILLION, BILLION))
        self.assertTrue(all(0 <= up - down <= 1 for down, up in bounds))
        self.assertGreater(bounds[300].down, bounds[100].up)


class Average(unittest.TestCase):
    def test_until_quotient_is_below_its_last_value(self):
        """Why quotients never fall: each is an average of values that never fall."""
        random = Random(10)
        for _ in range(20):
            chain = random_chain(random)
            run = Run(chain, until(*reading(chain), HOUR))
            for _ in range(30):
                run.step()
                for s in range(chain.states):
                    if run.weight:
                        self.assertLessEqual(run.quotient(s), Fraction(run.tops[s], run.weight))
