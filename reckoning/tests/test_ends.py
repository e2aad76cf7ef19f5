"""The ends that the rules leave, and the verdicts that follow."""

import unittest
from itertools import product
from operator import ge, gt, le, lt
from random import Random

from reckoning.chain import Chain, next_chances, pair_quotients
from reckoning.ends import CERTAIN, IMPOSSIBLE, Ends, Rules, has, verdicts
from reckoning.formula import COMPARISONS, Between, Next, P, Tt, Until
from reckoning.limits import BILLION, HOUR, MOST_HUNDREDTHS
from reckoning.tests.chains import random_chain, random_hundredths, random_times, row
from reckoning.verdict import NO, UNDECIDED, WORDS, YES, both, negate, of_ends

NEXT = Next(Tt())
COMPARED = {b"<": lt, b"<=": le, b">=": ge, b">": gt}


def path(hundredths):
    return Until(hundredths, Tt(), Tt())


def between(earliest, latest):
    return Between(earliest, latest, Tt(), Tt())


class Verdicts(unittest.TestCase):
    def test_negate_and_both(self):
        self.assertEqual([negate(word) for word in (NO, YES, UNDECIDED)], [YES, NO, UNDECIDED])
        table = {(a, b): both(a, b) for a, b in product(WORDS, WORDS)}
        self.assertEqual([pair for pair in table if table[pair] == YES], [(YES, YES)])
        self.assertTrue(all((word == NO) == (NO in pair) for pair, word in table.items()))

    def test_comparisons_at_the_threshold(self):
        """Both ends p."""
        self.assertEqual([of_ends(c, 5, 5, 5) for c in (b"<", b"<=", b">=", b">")], [NO, YES, YES, NO])

    def test_comparisons_across(self):
        for lower, upper, words in ((4, 5, {b">=": UNDECIDED, b">": NO, b"<": UNDECIDED, b"<=": YES}),
                                    (5, 6, {b">=": YES, b">": UNDECIDED, b"<": NO, b"<=": UNDECIDED}),
                                    (3, 4, {b">=": NO, b">": NO, b"<": YES, b"<=": YES}),
                                    (6, 7, {b">=": YES, b">": YES, b"<": NO, b"<=": NO})):
            for comparison, word in words.items():
                self.assertEqual(of_ends(comparison, 5, lower, upper), word)

    def test_possible_verdicts_by_trying_every_pair(self):
        random = Random(11)
        for _ in range(300):
            cuts = sorted(random.randint(0, 12) for _ in range(4))
            width = random.choice((None, random.randint(cuts[2] - cuts[1], 12)))
            ends = Ends((cuts[0], cuts[1]), (cuts[2], cuts[3]), width)
            node = P(random.choice(COMPARISONS), random.randint(0, 13), path(HOUR))
            pairs = [pair for pair in product(range(13), range(13)) if has(ends, *pair)]
            want = {of_ends(node.comparison, node.threshold, *pair) for pair in pairs}
            self.assertEqual(verdicts(node, ends), want)


class StateEnds(unittest.TestCase):
    def test_bench_value(self):
        ends = Rules(row(2, 500)).ends(path(8 * HOUR), (YES, NO), (NO, YES))
        near = Ends((3_992_011 - 168, 3_992_010), (3_992_011, 3_992_010 + 168), 168)
        self.assertEqual(ends, [near, CERTAIN])

    def test_only_the_second_holds(self):
        self.assertEqual(Rules(row(2, 5)).ends(path(HOUR), (NO, NO), (YES, NO)), [CERTAIN, IMPOSSIBLE])

    def test_undecided_second(self):
        ends = Rules(row(2, 500)).ends(path(8 * HOUR), (YES, NO), (UNDECIDED, YES))[0]
        self.assertEqual(ends.upper, (BILLION, BILLION))
        self.assertEqual(ends.lower, (3_991_843, 3_992_010))
        self.assertIsNone(ends.width)

    def test_undecided_first(self):
        """Lower exactly 0, upper bound to its own reading."""
        ends = Rules(row(2, 500)).ends(path(8 * HOUR), (UNDECIDED, NO), (NO, YES))[0]
        self.assertEqual((ends.lower, ends.upper), ((0, 0), (3_992_011, 3_992_178)))

    def test_load_0(self):
        """Each end is its reading's exact value."""
        for chain, hundredths in ((row(2, 500), 0), (Chain(2, {}, {}), MOST_HUNDREDTHS)):
            ends = Rules(chain).ends(path(hundredths), (UNDECIDED, YES), (NO, UNDECIDED))
            self.assertEqual([e[:2] for e in ends], [((0, 0), (0, 0)), ((0, 0), (BILLION, BILLION))])

    def test_one_undecided_state_frees_all(self):
        chain = row(4, 500)
        free = Rules(chain).ends(path(8 * HOUR), (YES, YES, YES, UNDECIDED), (NO, NO, NO, YES))
        bound = Rules(chain).ends(path(8 * HOUR), (YES, YES, YES, YES), (NO, NO, NO, YES))
        self.assertEqual([e.width for e in free[:3]], [None] * 3)
        self.assertEqual([e.width for e in bound[:3]], [168] * 3)

    def test_nearest_pair_is_always_left(self):
        random = Random(12)
        for _ in range(60):
            chain = random_chain(random)
            vectors = [tuple(random.choice(WORDS) for _ in range(chain.states)) for _ in range(2)]
            for ends in Rules(chain).ends(path(random_hundredths(random, chain)), *vectors):
                self.assertTrue(has(ends, ends.lower[1], ends.upper[0]))
                self.assertTrue(has(ends, ends.lower[0], ends.upper[0]))
                self.assertTrue(has(ends, ends.lower[1], ends.upper[1]))


class TwoPhases(unittest.TestCase):
    """The ends of `V` with the first time above 0."""

    def test_small_sheet(self):
        ends = Rules(row(2, 500)).ends(between(HOUR, 8 * HOUR), (YES, NO), (NO, YES))
        self.assertEqual(ends, [Ends((3_492_136 - 336, 3_492_135), (3_492_136, 3_492_135 + 336), 336), IMPOSSIBLE])

    def test_depth(self):
        """The sum of the phases' own: with load 0 a phase has 40."""
        for times, deep in (((HOUR, 8 * HOUR), 84), ((8 * HOUR, 8 * HOUR), 82), ((0, 8 * HOUR), 42), ((0, 0), 40), ((1, 1), 82)):
            self.assertEqual(Rules(row(2, 500)).depth(between(*times)), deep)
        self.assertEqual(Rules(row(2, 64_000_000)).depth(between(HOUR, 2 * HOUR)), 336)
        self.assertEqual(Rules(Chain(2, {}, {})).depth(between(HOUR, 2 * HOUR)), 80)

    def test_point_ends(self):
        """Both 0 where the first is no, also where the second is yes; no other: where both are yes and none leads away 1 is just the nearest."""
        certain = Ends((BILLION - 336, BILLION), (BILLION, BILLION), 336)
        self.assertEqual(Rules(row(2, 500)).ends(between(HOUR, 8 * HOUR), (NO, YES), (YES, YES)), [IMPOSSIBLE, certain])
        self.assertEqual(Rules(row(2, 500)).ends(between(HOUR, 8 * HOUR), (NO, YES), (UNDECIDED, NO))[0], IMPOSSIBLE)

    def test_neither_reached(self):
        """A chance of 0 that no point end gives has room above it."""
        self.assertEqual(Rules(row(2, 500)).ends(between(HOUR, 8 * HOUR), (YES, YES), (NO, NO)), [Ends((0, 0), (0, 336), 336)] * 2)

    def test_no_moves(self):
        """With q = 0 each end is its reading's exact value, through both phases."""
        still = Rules(Chain(5, {(0, 0): 9}, {}))
        ends = still.ends(between(HOUR, 2 * HOUR), (YES, YES, UNDECIDED, YES, NO), (YES, NO, YES, UNDECIDED, YES))
        self.assertEqual([each[:2] for each in ends], [((BILLION,) * 2,) * 2, ((0, 0), (0, 0)), ((0, 0), (BILLION,) * 2), ((0, 0), (BILLION,) * 2),
                                                       ((0, 0), (0, 0))])

    def test_load_0_of_the_later_phase(self):
        """It makes nothing exact: equal times leave the room of 4 x 82."""
        ends = Rules(row(2, 500)).ends(between(8 * HOUR, 8 * HOUR), (YES, YES), (NO, YES))
        self.assertEqual(ends, [Ends((3_992_011 - 328, 3_992_010), (3_992_011, 3_992_010 + 328), 328),
                                Ends((BILLION - 328, BILLION), (BILLION, BILLION), 328)])

    def test_undecided(self):
        """Read as no through both phases for the lower end, as yes for the upper: at state 1, then for the first at state 0."""
        rules, times = Rules(row(2, 500)), between(HOUR, 8 * HOUR)
        for first, second, lower, upper in (((YES, UNDECIDED), (NO, YES), (3_491_800, 3_492_135), (3_992_011, 3_992_346)),
                                            ((YES, YES), (NO, UNDECIDED), (0, 0), (3_992_011, 3_992_346)),
                                            ((UNDECIDED, YES), (NO, YES), (0, 0), (3_992_011, 3_992_346))):
            ends = rules.ends(times, first, second)[0]
            self.assertEqual(ends, Ends(lower, upper, None))
        both = rules.ends(times, (YES, UNDECIDED), (NO, YES))[1]
        self.assertEqual(both, Ends((0, 0), (BILLION, BILLION), None))

    def test_first_time_0(self):
        """`V 0 t` is `U t`: ends, depth and width, whatever the operands are."""
        random = Random(64)
        for _ in range(60):
            chain = random_chain(random)
            hundredths, rules = random_hundredths(random, chain), Rules(chain)
            vectors = [tuple(random.choice(WORDS) for _ in range(chain.states)) for _ in range(2)]
            self.assertEqual(rules.ends(between(0, hundredths), *vectors), Rules(chain).ends(path(hundredths), *vectors))
            self.assertEqual(rules.depth(between(0, hundredths)), rules.depth(path(hundredths)))

    def test_nearest_pair_is_always_left(self):
        random = Random(65)
        for _ in range(60):
            chain = random_chain(random)
            vectors = [tuple(random.choice(WORDS) for _ in range(chain.states)) for _ in range(2)]
            for ends in Rules(chain).ends(between(*random_times(random, chain)), *vectors):
                self.assertTrue(has(ends, ends.lower[1], ends.upper[0]))
                self.assertTrue(has(ends, ends.lower[0], ends.upper[0]))
                self.assertTrue(has(ends, ends.lower[1], ends.upper[1]))

    def test_no_reading_lies_outside(self):
        """Whatever reading the undecided states have, its quotients at some pairs of depths lie within the widest ends."""
        random = Random(66)
        for _ in range(25):
            chain = random_chain(random, states=random.randint(2, 3), greatest=5_000)
            times = 1 + random.randrange(5 * HOUR), 8 * HOUR
            vectors = [tuple(random.choice(WORDS) for _ in range(chain.states)) for _ in range(2)]
            every, asked = Rules(chain).ends(between(*times), *vectors), between(*times)
            for first, second in product(*map(readings, vectors)):
                values = pair_quotients(chain, first, second, asked.phases, (42, 42))
                self.assertTrue(all(ends.lower[1] <= BILLION * value <= ends.upper[0] for ends, value in zip(every, values)))


def exactly(lower, upper, width=1):
    """Ends that are determined."""
    return Ends((lower, lower), (upper, upper), width)


def readings(vector):
    """Every way to take each undecided state for yes or no."""
    return product(*({YES: (True,), NO: (False,), UNDECIDED: (False, True)}[word] for word in vector))


class NextEnds(unittest.TestCase):
    """The ends of `X`, which the rules determine."""

    def test_rounded_outwards(self):
        chain = Chain(3, {(0, 0): 2, (0, 1): 1, (1, 0): 2, (1, 1): 2, (1, 2): 2, (2, 0): 1, (2, 1): 1}, {})
        ends = Rules(chain).ends(NEXT, (NO, YES, NO))
        self.assertEqual(ends, [exactly(333_333_333, 333_333_334), exactly(333_333_333, 333_333_334), exactly(BILLION // 2, BILLION // 2)])

    def test_no_move_out(self):
        chain = Chain(2, {(1, 1): 3}, {})
        self.assertEqual(Rules(chain).ends(NEXT, (YES, YES)), [exactly(0, 0), exactly(BILLION, BILLION)])
        self.assertEqual(Rules(chain).ends(NEXT, (UNDECIDED, UNDECIDED)), [exactly(0, 0, None), exactly(0, BILLION, None)])

    def test_the_own_state_need_not_be_the_operands(self):
        """A state of the operand has no chance of its own, and one outside no chance less: moves alone count."""
        self.assertEqual(Rules(row(3, 500)).ends(NEXT, (YES, NO, NO)), [exactly(0, 0)] * 3)
        self.assertEqual(Rules(row(3, 500)).ends(NEXT, (NO, YES, NO)), [exactly(BILLION, BILLION), exactly(0, 0), exactly(0, 0)])

    def test_undecided_operand(self):
        """Lower with no, upper with yes, and one undecided state frees the width of all."""
        chain = Chain(3, {(0, 1): 1, (0, 2): 2, (1, 2): 7}, {})
        self.assertEqual(Rules(chain).ends(NEXT, (NO, UNDECIDED, YES)),
                         [exactly(666_666_666, BILLION, None), exactly(BILLION, BILLION, None), exactly(0, 0, None)])
        self.assertEqual(Rules(chain).ends(NEXT, (NO, YES, UNDECIDED))[0], exactly(333_333_333, BILLION, None))

    def test_depth(self):
        self.assertEqual(Rules(row(2, 500)).depth(NEXT), 0)

    def random_vectors(self, seed):
        """Random chains, each with some verdicts of an operand and what the rules make of them."""
        random = Random(seed)
        for _ in range(60):
            chain = random_chain(random, states=random.randint(2, 4))
            vector = tuple(random.choice(WORDS) for _ in range(chain.states))
            yield chain, vector, Rules(chain).ends(NEXT, vector)

    def test_no_reading_lies_outside(self):
        """And the two readings that make the ends come within a billionth of them."""
        for chain, vector, every in self.random_vectors(22):
            chances = list(zip(*(next_chances(chain, taken) for taken in readings(vector))))
            for ends, found in zip(every, chances):
                self.assertTrue(0 <= BILLION * min(found) - ends.lower[0] < 1)
                self.assertTrue(0 <= ends.upper[0] - BILLION * max(found) < 1)

    def test_width(self):
        for chain, vector, every in self.random_vectors(23):
            decided = tuple(YES if word == UNDECIDED else word for word in vector)
            for ends in Rules(chain).ends(NEXT, decided):
                self.assertLessEqual(ends.upper[0] - ends.lower[0], 1)
                self.assertEqual(ends.width, 1)

    def test_a_decided_verdict_is_that_of_every_fraction(self):
        """Yes or no from the ends holds of the exact fraction, whatever the reading."""
        random, decided = Random(24), 0
        for chain, vector, every in self.random_vectors(25):
            chances = list(zip(*(next_chances(chain, taken) for taken in readings(vector))))
            for ends, found in zip(every, chances):
                node = P(random.choice(COMPARISONS), random.choice((*ends.lower, *ends.upper, random.randint(0, BILLION))), NEXT)
                word, = verdicts(node, ends)
                truths = {COMPARED[node.comparison](BILLION * chance, node.threshold) for chance in found}
                if word != UNDECIDED:
                    decided += 1
                    self.assertEqual(truths, {word == YES})
        self.assertGreater(decided, 60)
