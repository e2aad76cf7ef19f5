"""Clean copies: what they hold, when two are equal, and what they are refused with."""

import unittest
from random import Random

from reckoning.copying import BY_SHEET, COPY_TESTS, SHORT_COPY, copied, copy_text, printed_copy
from reckoning.limits import MOST_MOVES, MOST_RATE, MOST_STATES, SHEET_BYTES
from reckoning.refusal import Job, refusal
from reckoning.report import refused
from reckoning.sheets import FULL_MOVES, LABELS, MOVES, MOVES_LINE, NO_MOVES, labels_text, moves_text
from reckoning.tests.chains import moves_of, random_chain, texts
from reckoning.tests.lines import WAYS, lines_for

RANDOM = 200
STATES = labels_text([], [[]] * MOST_STATES)


def rates_of(moves, labels):
    """The rate of every pair that has moves."""
    return refusal(moves, labels, b"tt\n").chain.rates


class Copies(unittest.TestCase):
    def made(self, seed):
        """Random chains, each with its labels and two typed texts of its moves."""
        random = Random(seed)
        for _ in range(RANDOM):
            chain = random_chain(random)
            yield chain, texts(chain)[1], *(moves_text(lines_for(random, moves_of(chain))) for _ in range(2))

    def test_by_hand(self):
        """Pairs rise by numbers and not by letters, rates of a pair are added, and moves to the own state stay."""
        labels = labels_text([], [[]] * 11)
        moves = MOVES_LINE + b"10,2,5\n2,10,7\n2,9,1\n0,0,3\n2,10,93\n9,0,1\n2,2,8\n"
        self.assertEqual(copied(moves, labels), MOVES_LINE + b"0,0,3\n2,2,8\n2,9,1\n2,10,100\n9,0,1\n10,2,5\n")

    def test_no_moves(self):
        self.assertEqual(copied(NO_MOVES, LABELS), NO_MOVES)

    def test_of_what_document_01_described(self):
        """Such a text is its own copy."""
        for moves in (MOVES, FULL_MOVES, NO_MOVES):
            self.assertEqual(copied(moves, LABELS), moves)
        for chain, labels, *_ in self.made(71):
            moves = texts(chain)[0]
            self.assertEqual(copied(moves, labels), moves)

    def test_of_lines_in_any_order(self):
        """The copy is the text that document 01 described, yields the same chain, and is no longer than what it is a copy of."""
        apart = 0
        for chain, labels, moves, _ in self.made(72):
            copy = copied(moves, labels)
            self.assertEqual(copy, texts(chain)[0])
            self.assertEqual(rates_of(copy, labels), chain.rates)
            self.assertEqual(refusal(copy, labels, b"tt\n").chain, refusal(moves, labels, b"tt\n").chain)
            self.assertLessEqual(len(copy), len(moves))
            apart += copy != moves
        self.assertGreater(apart, RANDOM // 2)

    def test_of_every_way_of_typing(self):
        """Each of them makes other texts, but for the one that is the copy itself."""
        random, others = Random(76), set()
        for _ in range(20):
            chain = random_chain(random, greatest=5_000)
            moves, labels = texts(chain)
            for name, way in WAYS.items():
                lines = moves_text(way(random, moves_of(chain)))
                self.assertEqual(copied(lines, labels), moves, name)
                others |= {name} if lines != moves else set()
        self.assertEqual(others, set(WAYS) - {"rising"})

    def test_of_a_copy(self):
        for _, labels, moves, _ in self.made(73):
            copy = copied(moves, labels)
            self.assertEqual(copied(copy, labels), copy)

    def test_equal_exactly_where_every_rate_is(self):
        """Of two texts over the same labels: typed for one chain, and for chains that differ in the rate of one pair."""
        random, equal, apart = Random(74), 0, 0
        for chain, labels, moves, other in self.made(75):
            self.assertEqual(copied(moves, labels), copied(other, labels))
            equal += moves != other
            for lines in (moves, other):
                pair = random.choice([(a, b) for a in range(chain.states) for b in range(chain.states)])
                more = lines + b"%d,%d,%d\n" % (*pair, random.choice((1, 9, 1_000)))
                same = rates_of(more, labels) == rates_of(moves, labels) if isinstance(refusal(more, labels, b"tt\n"), Job) else None
                if same is not None:
                    self.assertEqual(copied(more, labels) == copied(moves, labels), same)
                    apart += not same
        self.assertGreater(equal, RANDOM // 2)
        self.assertGreater(apart, RANDOM)

    def test_limits(self):
        """As many lines as there may be, of one pair and of as many, among as many states, and a total that is just allowed."""
        again = moves_text([(0, 1, MOST_RATE // MOST_MOVES)] * MOST_MOVES)
        self.assertEqual(copied(again, LABELS), moves_text([(0, 1, MOST_RATE // MOST_MOVES * MOST_MOVES)]))
        lines = [(s, (5 * s + k) % MOST_STATES, 1 + k) for k in range(MOST_MOVES // MOST_STATES) for s in reversed(range(MOST_STATES))]
        self.assertEqual(len(lines), MOST_MOVES)
        self.assertEqual(copied(moves_text(lines), STATES), moves_text(sorted(lines)))
        full = [(0, 1, MOST_RATE - MOST_MOVES + 1), *[(0, 1, 1)] * (MOST_MOVES - 1)]
        self.assertEqual(copied(moves_text(full[::-1]), LABELS), FULL_MOVES)
        self.assertEqual(copied(moves_text([(0, 1, MOST_RATE - MOST_MOVES + 2), *full[1:]]), LABELS), 9)


class Refusals(unittest.TestCase):
    def test_order(self):
        """1 to 9 as they are of a job; 17 is the last and none of these."""
        self.assertEqual([number for number, _ in COPY_TESTS], [1, 2, 3, 4, 5, 6, 9])
        self.assertEqual((BY_SHEET, SHORT_COPY), ({1, 2, 3, 4, 5, 6, 9}, 17))

    REFUSED = {
        1: [(b"", LABELS), (MOVES, b""), (b"", b""), (MOVES_LINE + b"x" * SHEET_BYTES, LABELS), (MOVES, LABELS + b"x" * SHEET_BYTES)],
        2: [(MOVES[:-1], LABELS), (MOVES, LABELS[:-1]), (MOVES_LINE + b"0,1\n", LABELS), (MOVES_LINE + b"0,1,05\n", LABELS),
            (MOVES_LINE + b"0,1,5\n" * (MOST_MOVES + 1) + b"0,1\n", LABELS)],
        3: [(b"from,to\n0,1,5\n", LABELS), (MOVES, b"state,up,up\n0,1,0\n1,0,1\n"), (b"\n", LABELS)],
        4: [(MOVES, b"state,up\n1,0\n"), (MOVES, b"state\n"), (MOVES, labels_text([], [[]] * (MOST_STATES + 1)))],
        5: [(MOVES_LINE + b"0,1,5\n" * (MOST_MOVES + 1), LABELS)],
        6: [(MOVES_LINE + b"0,9,5\n", LABELS), (MOVES_LINE + b"0,1,0\n2,0,5\n", LABELS)],
        9: [(MOVES_LINE + b"0,1,0\n0,1,5\n", LABELS), (moves_text([(0, 1, MOST_RATE), (1, 0, 5), (0, 0, 1)]), LABELS)],
    }

    def test_each_number(self):
        """Whatever the room is, and as a job with the formula `tt` is refused."""
        self.assertEqual(set(self.REFUSED), BY_SHEET)
        for number, sheets in self.REFUSED.items():
            for moves, labels in sheets:
                with self.subTest(number=number, moves=moves[:40], labels=labels[:40]):
                    for room in (None, 0, 1, SHEET_BYTES):
                        self.assertEqual(copied(moves, labels, room), number)
                    self.assertEqual(refusal(moves, labels, b"tt\n"), number)
                    self.assertEqual(printed_copy(moves, labels), refused(number))

    def test_no_formula(self):
        """What a job is refused for its formula is copied."""
        for formula in (b"", b"&\n", b"gas\n"):
            self.assertIsInstance(refusal(MOVES, LABELS, formula), int)
        self.assertEqual(copied(MOVES, LABELS), MOVES)

    def test_room(self):
        """17 where the copy is longer than the buffer, however long the text itself is."""
        moves = moves_text([(1, 0, 5), (0, 1, 60), (0, 1, 40)])
        copy = MOVES_LINE + b"0,1,100\n1,0,5\n"
        for room in (0, 1, len(copy) - 1):
            self.assertEqual(copied(moves, LABELS, room), SHORT_COPY)
        for room in (len(copy), len(copy) + 1, len(moves), SHEET_BYTES):
            self.assertEqual(copied(moves, LABELS, room), copy)
        self.assertLess(len(copy), len(moves))
        self.assertEqual(copied(NO_MOVES, LABELS, len(MOVES_LINE) - 1), SHORT_COPY)
        self.assertEqual(printed_copy(moves, LABELS), copy)

    def test_every_copy_has_room(self):
        """A text within its byte limit has a copy within it, also where the rates of pairs add to more digits than any line has."""
        moves = moves_text([(s, t, 9) for s in range(100, 500) for t in (500, 501) for _ in range(5)])
        self.assertLessEqual(len(moves), SHEET_BYTES)
        copy = copied(moves, STATES, SHEET_BYTES)
        self.assertEqual(copy, moves_text([(s, t, 45) for s in range(100, 500) for t in (500, 501)]))
        self.assertEqual(copy_text(refusal(copy, STATES, b"tt\n").chain), copy)


if __name__ == "__main__":
    unittest.main()
