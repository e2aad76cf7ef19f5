"""Possible and certain, by hand on small chains, against exact chances, and where they decide the verdict of a `P`."""

import unittest
from itertools import product
from random import Random

from reckoning.bracket import Run, reaching
from reckoning.chain import Chain, next_chances, until
from reckoning.ends import Rules, verdicts
from reckoning.formula import COMPARISONS, Between, Next, P, Tt, Until
from reckoning.graph import decided, holds, next_certain, next_possible, until_certain, until_possible
from reckoning.limits import BILLION, HOUR, MOST_HUNDREDTHS, MOST_RATE
from reckoning.tests.chains import random_chain, random_hundredths, reading, row
from reckoning.verdict import NO, UNDECIDED, WORDS, YES, negate, of_ends


def chain(states, *moves):
    """So many states with these moves, each at the same rate."""
    return Chain(states, {move: 500 for move in moves}, {})


def at(states, *where):
    """An operand that holds at these states."""
    return tuple(s in where for s in range(states))


def words(truths):
    """An operand's verdicts where it holds so."""
    return tuple(YES if truth else NO for truth in truths)


class Untils(unittest.TestCase):
    def possible(self, of, first, second, hundredths=HOUR):
        """The states where an until over two lists of states is possible."""
        found = until_possible(of, hundredths, at(of.states, *first), at(of.states, *second))
        return [s for s in range(of.states) if found[s]]

    def test_along_a_row(self):
        of = chain(4, (0, 1), (1, 2), (2, 3))
        self.assertEqual(self.possible(of, (0, 1, 2), (3,)), [0, 1, 2, 3])
        self.assertEqual(self.possible(of, (0, 1, 2, 3), (1,)), [0, 1])

    def test_a_state_on_the_way_where_the_first_fails(self):
        of = chain(4, (0, 1), (1, 2), (2, 3))
        self.assertEqual(self.possible(of, (0, 2), (3,)), [2, 3])
        self.assertEqual(self.possible(of, (0,), (3,)), [3])

    def test_this_one_included(self):
        """A state where neither holds leads nowhere, though its only move enters a state of the second."""
        self.assertEqual(self.possible(chain(2, (0, 1)), (1,), (1,)), [1])
        self.assertEqual(self.possible(chain(3, (0, 1), (1, 2)), (1,), (2,)), [1, 2])

    def test_another_way_round(self):
        of = chain(4, (0, 1), (0, 2), (1, 3), (2, 3))
        self.assertEqual(self.possible(of, (0, 2), (3,)), [0, 2, 3])
        self.assertEqual(self.possible(of, (0, 1), (3,)), [0, 1, 3])

    def test_the_second_need_not_hold_where_the_first_does(self):
        """It ends the way wherever it holds, and a state of it needs no move and no first operand."""
        of = chain(3, (0, 1), (1, 2))
        self.assertEqual(self.possible(of, (0,), (1,)), [0, 1])
        self.assertEqual(self.possible(of, (), (1, 2)), [1, 2])
        self.assertEqual(self.possible(of, (0,), (1, 2)), [0, 1, 2])

    def test_moves_lead_one_way(self):
        self.assertEqual(self.possible(chain(3, (1, 0), (1, 2)), (0, 1, 2), (2,)), [1, 2])
        self.assertEqual(self.possible(chain(3, (2, 1), (1, 0)), (0, 1, 2), (2,)), [2])

    def test_time_0(self):
        of = chain(3, (0, 1), (1, 2))
        self.assertEqual(self.possible(of, (0, 1), (2,), hundredths=0), [2])
        self.assertEqual(self.possible(of, (0, 1), (2,), hundredths=1), [0, 1, 2])
        self.assertEqual(self.possible(of, (0, 1, 2), (0, 1), hundredths=0), [0, 1])

    def test_surely_but_not_at_once(self):
        """Nothing but the second can come of state 0, yet no time makes it certain."""
        of = chain(2, (0, 1))
        self.assertEqual(self.possible(of, (0,), (1,), MOST_HUNDREDTHS), [0, 1])
        self.assertEqual(until_certain(at(2, 1)), (False, True))

    def test_a_move_to_the_own_state(self):
        """It leads nowhere by itself and hinders nothing."""
        self.assertEqual(self.possible(chain(2, (0, 0)), (0, 1), (1,)), [1])
        self.assertEqual(self.possible(chain(2, (0, 0), (0, 1)), (0,), (1,)), [0, 1])
        self.assertEqual(self.possible(chain(2, (1, 1)), (0, 1), (1,)), [1])

    def test_a_state_without_moves(self):
        of = chain(3, (0, 1))
        self.assertEqual(self.possible(of, (0, 1, 2), (1,)), [0, 1])
        self.assertEqual(self.possible(chain(2), (0, 1), (1,), MOST_HUNDREDTHS), [1])

    def test_rings(self):
        """Ways that come back to where they began end all the same."""
        of = chain(4, (0, 1), (1, 0), (2, 3), (3, 2))
        self.assertEqual(self.possible(of, (0, 1, 2, 3), (3,)), [2, 3])
        self.assertEqual(self.possible(of, (0, 1, 2, 3), ()), [])

    def test_any_rate_is_enough(self):
        of = Chain(3, {(0, 1): 1, (0, 2): MOST_RATE - 1}, {})
        self.assertEqual(self.possible(of, (0,), (1,), hundredths=1), [0, 1])

    def test_the_longest_row(self):
        of = row(60, 1)
        self.assertEqual(self.possible(of, range(59), (59,), hundredths=1), list(range(60)))
        self.assertEqual(self.possible(of, [s for s in range(59) if s != 30], (59,)), list(range(31, 60)))


class NextMoves(unittest.TestCase):
    def both(self, of, *where):
        """The states where a next move into these is possible, and where it is certain."""
        operand = at(of.states, *where)
        return [[s for s, each in enumerate(found(of, operand)) if each] for found in (next_possible, next_certain)]

    def test_some_and_all(self):
        of = chain(3, (0, 1), (0, 2), (1, 2), (2, 0), (2, 1))
        self.assertEqual(self.both(of, 2), [[0, 1], [1]])
        self.assertEqual(self.both(of, 0, 1), [[0, 2], [2]])
        self.assertEqual(self.both(of, 0, 1, 2), [[0, 1, 2], [0, 1, 2]])
        self.assertEqual(self.both(of), [[], []])

    def test_no_move_out(self):
        """Not possible, and so not certain either, even where the operand holds everywhere."""
        self.assertEqual(self.both(chain(2, (0, 1)), 0, 1), [[0], [0]])

    def test_a_move_to_the_own_state(self):
        """It enters the own state: what holds there counts, and only with the move."""
        self.assertEqual(self.both(chain(2, (0, 0)), 0, 1), [[0], [0]])
        self.assertEqual(self.both(chain(2, (0, 0), (0, 1)), 1), [[0], []])
        self.assertEqual(self.both(chain(2, (0, 0), (0, 1)), 0), [[0], []])
        self.assertEqual(self.both(chain(2, (0, 1)), 0), [[], []])

    def test_one_move_alone(self):
        """Two moves away is not the next."""
        self.assertEqual(self.both(chain(3, (0, 1), (1, 2)), 2), [[1], [1]])


class Verdicts(unittest.TestCase):
    def test_comparisons(self):
        """For what is impossible, for what is possible alone, and for what is certain."""
        kinds = (False, False), (True, False), (True, True)
        table = {
            (b">", 0): (False, True, True), (b"<=", 0): (True, False, False), (b">=", 0): (True,) * 3, (b"<", 0): (False,) * 3,
            (b">=", BILLION): (False, False, True), (b"<", BILLION): (True, True, False), (b"<=", BILLION): (True,) * 3,
            (b">", BILLION): (False,) * 3,
        }
        self.assertEqual(len(table), 2 * len(COMPARISONS))
        for (comparison, threshold), wanted in table.items():
            with self.subTest(comparison, threshold=threshold):
                self.assertEqual(tuple(holds(comparison, threshold, *kind) for kind in kinds), wanted)

    def said(self, of, comparison, threshold, path, *operands):
        return decided(of, P(comparison, threshold, path), operands)

    def test_until(self):
        of, path = chain(3, (0, 1), (2, 0)), Until(HOUR, Tt(), Tt())
        operands = words(at(3, 0)), words(at(3, 1))
        self.assertEqual(self.said(of, b">", 0, path, *operands), (YES, YES, NO))
        self.assertEqual(self.said(of, b"<=", 0, path, *operands), (NO, NO, YES))
        self.assertEqual(self.said(of, b">=", BILLION, path, *operands), (NO, YES, NO))
        self.assertEqual(self.said(of, b"<", BILLION, path, *operands), (YES, NO, YES))
        self.assertEqual(self.said(of, b">", 0, Until(0, Tt(), Tt()), *operands), (NO, YES, NO))

    def test_next_move(self):
        of, path, operand = chain(3, (0, 0), (0, 1), (2, 1)), Next(Tt()), words(at(3, 1))
        self.assertEqual(self.said(of, b">", 0, path, operand), (YES, NO, YES))
        self.assertEqual(self.said(of, b">=", BILLION, path, operand), (NO, NO, YES))

    def test_between(self):
        """Two phases are left to their ends; with the first time 0 it is until, with no second time either."""
        of, operands = chain(3, (0, 1), (2, 0)), (words(at(3, 0)), words(at(3, 1)))
        for comparison, threshold in product(COMPARISONS, (0, BILLION)):
            for times in ((1, 1), (1, HOUR), (HOUR, HOUR)):
                node = P(comparison, threshold, Between(*times, Tt(), Tt()))
                self.assertIsNone(decided(of, node, operands))
                by_ends = tuple(verdicts(node, ends) for ends in Rules(of).ends(node.path, *operands))
                self.assertEqual(Rules(of).verdicts(node, *operands), by_ends)
                self.assertEqual(Rules(of).following(node, operands, [(0, 1)] * 3), tuple(of_ends(comparison, threshold, 0, 1) for _ in range(3)))
            for latest in (0, HOUR):
                both = (self.said(of, comparison, threshold, each, *operands) for each in (Between(0, latest, Tt(), Tt()), Until(latest, Tt(), Tt())))
                self.assertEqual(*both)
        self.assertEqual(self.said(of, b">", 0, Between(0, HOUR, Tt(), Tt()), *operands), (YES, YES, NO))

    def test_other_thresholds(self):
        operands = words(at(2, 0)), words(at(2, 1))
        for threshold in (1, 2, 500_000_000, BILLION - 1):
            self.assertIsNone(self.said(chain(2, (0, 1)), b">", threshold, Until(HOUR, Tt(), Tt()), *operands))
            self.assertIsNone(self.said(chain(2, (0, 1)), b">=", threshold, Next(Tt()), operands[0]))

    def test_one_undecided_state_far_away(self):
        """State 5 has no moves and none leads there: where an operand is undecided at it the interval rule stands at every state."""
        of = Chain(6, {(0, 1): 1, (1, 2): 1}, {})
        path, node = Until(1, Tt(), Tt()), P(b">", 0, Until(1, Tt(), Tt()))
        first, second = words(at(6, 0, 1)), words(at(6, 2))
        self.assertEqual(decided(of, node, (first, second)), (YES, YES, YES, NO, NO, NO))
        for open_ in ((first[:5] + (UNDECIDED,), second), (first, second[:5] + (UNDECIDED,))):
            self.assertIsNone(decided(of, node, open_))
            self.assertEqual(Rules(of).verdicts(node, *open_)[:3], ({UNDECIDED}, {YES, UNDECIDED}, {YES}))
            self.assertEqual(Rules(of).following(node, open_, [(0, 1)] * 6)[0], UNDECIDED)
        self.assertEqual(Rules(of).verdicts(node, first, second)[:3], ({YES}, {YES}, {YES}))
        self.assertEqual(Rules(of).following(node, (first, second), [(0, 1)] * 6)[0], YES)
        self.assertEqual(Rules(of).ends(path, first, second)[0][:2], ((0, 0), (1, 168)))
        near = P(b">", 0, Next(Tt()))
        self.assertIsNone(decided(of, near, (second[:5] + (UNDECIDED,),)))
        self.assertEqual(decided(of, near, (second,)), (NO, YES, NO, NO, NO, NO))


class Chances(unittest.TestCase):
    """Possible is a chance above 0, certain a chance of 1; the chances are exact."""

    def test_until(self):
        random, seen = Random(31), set()
        for _ in range(150):
            of = random_chain(random)
            (first, second), hundredths = reading(of), random_hundredths(random, of)
            run = Run(of, until(first, second, hundredths)).to(of.states + 40)
            chances = run.quotients()
            self.assertEqual(until_possible(of, hundredths, first, second), tuple(chance > 0 for chance in chances))
            self.assertEqual(until_certain(second), tuple(chance == 1 for chance in chances))
            seen.update((chance > 0) + (chance == 1) for chance in chances)
        self.assertEqual(seen, {0, 1, 2})

    def test_until_by_the_other_search(self):
        random = Random(32)
        for _ in range(150):
            of = random_chain(random)
            first, second = reading(of)
            found = reaching(of, first, second)
            self.assertEqual(until_possible(of, HOUR, first, second), tuple(second[s] or s in found for s in range(of.states)))

    def test_next_move(self):
        random = Random(33)
        for _ in range(150):
            of = random_chain(random)
            operand = of.marks[b"dead"]
            chances = next_chances(of, operand)
            self.assertEqual(next_possible(of, operand), tuple(chance > 0 for chance in chances))
            self.assertEqual(next_certain(of, operand), tuple(chance == 1 for chance in chances))

    def nodes(self, seed):
        """Random chains, many of them slow, each with a `P` at one of the two thresholds and verdicts of its operands, some of them undecided."""
        random = Random(seed)
        for _ in range(600):
            of = random_chain(random, random.randint(2, 4), random.choice((10, None)))
            path = random.choice((Next(Tt()), Until(random.choice((1, random_hundredths(random, of))), Tt(), Tt())))
            choice = random.choice((WORDS, (NO, YES), (NO, YES)))
            operands = [tuple(random.choice(choice) for _ in range(of.states)) for _ in path.operands]
            yield of, P(random.choice(COMPARISONS), random.choice((0, BILLION)), path), operands

    def test_never_undecided(self):
        open_ = 0
        for of, node, operands in self.nodes(34):
            found = decided(of, node, operands)
            if any(UNDECIDED in vector for vector in operands):
                self.assertIsNone(found)
                self.assertEqual(Rules(of).verdicts(node, *operands), tuple(verdicts(node, ends) for ends in Rules(of).ends(node.path, *operands)))
                open_ += 1
            else:
                self.assertLessEqual(set(found), {NO, YES})
                self.assertEqual(Rules(of).verdicts(node, *operands), tuple({word} for word in found))
        self.assertGreater(open_, 30)

    def test_never_against_the_ends(self):
        """Where the ends decide too, they say the same; there are states where they could not tell."""
        told = 0
        for of, node, operands in self.nodes(35):
            found = decided(of, node, operands)
            for word, ends in zip(found or (), Rules(of).ends(node.path, *operands)):
                by_ends = verdicts(node, ends)
                self.assertNotIn(negate(word), by_ends)
                told += UNDECIDED in by_ends
        self.assertGreater(told, 10)

    def test_every_small_chain(self):
        """Three states, every set of moves between them, an until of every two operands: what `leads` says of one move by one."""
        pairs = list(product(range(3), repeat=2))
        for picked in product((False, True), repeat=len(pairs)):
            of = chain(3, *(pair for pair, taken in zip(pairs, picked) if taken))
            for first, second in ((at(3, 0, 1), at(3, 2)), (at(3, 0), at(3, 1)), (at(3, 0, 1, 2), at(3, 1))):
                self.assertEqual(until_possible(of, HOUR, first, second), tuple(self.leads(of, first, second, s, of.states) for s in range(3)))

    def leads(self, of, first, second, s, moves):
        """Whether a state leads to the second within so many moves, each out of a state of the first."""
        return second[s] or moves > 0 and first[s] and any(self.leads(of, first, second, to, moves - 1) for from_, to in of.rates if from_ == s)


if __name__ == "__main__":
    unittest.main()
