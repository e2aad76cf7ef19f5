"""Clean copies, by the library and by the program that copies, against the second reckoning: what is written, what stays as it was, and refusals."""
import random
import unittest
from ctypes import sizeof

from reckoning.__main__ import read_texts
from reckoning.copying import BY_SHEET, SHORT_COPY, copied, printed_copy
from reckoning.limits import MOST_MOVES, MOST_RATE, MOST_STATES, SHEET_BYTES
from reckoning.refusal import refusal
from reckoning.report import refused
from reckoning.sheets import FULL_MOVES, LABELS, MOVES, NO_MOVES, labels_text, moves_text
from reckoning.tests.lines import WAYS, drawn
from tests import edges
from tests.agreement import copy_faults
from tests.copies import job_faults, sheet_faults
from tests.jobs import Sheet, damaged_job, random_job
from tests.library import COPY, COPY_KINDS, GUARD, MORE, Library
from tests.mutations import bent_job, with_lines_drawn
from tests.places import COPIER, FOLDERS
from tests.possible import drawn_job
from tests.program import run

DAMAGED = 2_000
MADE = 200
BY_PROGRAM = 300
STACK = 1 << 20             # bytes that the program gets by with
SHOWN = 500                 # bytes of a moves text, where something is wrong with it


def some_sheet(rng):
    """The moves and labels of a made job, of a damaged or a bent one."""
    return rng.choice([random_job, drawn_job, damaged_job, bent_job])(rng)[:2]


def sheets_at_the_limits():
    """For each limit the sheet that meets it and the one that passes it; and those whose lines stand in another order."""
    rng = random.Random(81)
    for name, pair in edges.pairs().items():
        for moves, labels, _ in pair:
            yield name, (moves, labels)
            yield name, (with_lines_drawn(rng, moves), labels)


class CopyTest(unittest.TestCase):
    """A test that has the library copy."""

    @classmethod
    def setUpClass(cls):
        cls.library = Library()

    def copy_of(self, sheet, room=COPY):
        """The bytes that a copy was written in, once the call has no faults."""
        called = self.library.copy(sheet, room)
        self.assertEqual((copy_faults(sheet, called), called.number), ([], 0), sheet[0][:SHOWN])
        return front(called, length_of(called))

    def refused_with(self, sheet, room=COPY):
        """The number that a sheet is refused with, once the call has no faults and has left every byte as it was."""
        called = self.library.copy(sheet, room)
        self.assertEqual(copy_faults(sheet, called), [], sheet[0][:SHOWN])
        self.assertEqual(called.after, called.before)
        return called.number


class Copies(CopyTest):
    def test_by_hand(self):
        """Pairs rise by their numbers, the rates of a pair are added, and moves to the own state are there."""
        labels = labels_text([], [[]] * 11)
        moves = moves_text([(10, 2, 5), (2, 10, 7), (2, 9, 1), (0, 0, 3), (2, 10, 93), (9, 0, 1), (2, 2, 8)])
        self.assertEqual(self.copy_of((moves, labels)), b"from,to,rate\n0,0,3\n2,2,8\n2,9,1\n2,10,100\n9,0,1\n10,2,5\n")
        self.assertEqual(self.copy_of((NO_MOVES, LABELS)), NO_MOVES)

    def test_every_way(self):
        """However the moves of a sheet are typed, the copy is the text in which they rise and none stands twice."""
        rng = random.Random(82)
        for sheet in (Sheet(rng) for _ in range(MADE)):
            rising = moves_text(sheet.moves)
            for name, way in WAYS.items():
                typed = moves_text(way(rng, sheet.moves))
                self.assertEqual(self.copy_of((typed, sheet.labels_text)), rising, name)
                self.assertLessEqual(len(rising), len(typed))
            self.assertEqual(self.copy_of((rising, sheet.labels_text), len(rising)), rising)

    def test_made_and_damaged_sheets(self):
        """Copies and every number, with buffers of all lengths about what is needed."""
        rng = random.Random(83)
        found = [some_sheet(rng) for _ in range(DAMAGED)]
        for sheet in found:
            self.assertEqual(sheet_faults(self.library, sheet), [], sheet)
        answers = [copied(*sheet) for sheet in found]
        self.assertLessEqual(BY_SHEET - {5}, set(answers))
        self.assertGreater(sum(answer not in (*BY_SHEET, moves) for answer, (moves, _) in zip(answers, found)), DAMAGED // 4)

    def test_the_copy_as_a_job(self):
        """It gets the report that the job gets, to the last byte; and it is its own copy."""
        rng = random.Random(84)
        for job in [make(rng) for _ in range(MADE) for make in (random_job, drawn_job, bent_job)] + [tuple(read_texts(each)) for each in FOLDERS]:
            self.assertEqual(job_faults(self.library, job), [], job)
            copy = copied(*job[:2])
            if not isinstance(copy, int):
                self.assertEqual(self.copy_of((copy, job[1]), len(copy)), copy)
                self.assertEqual(refusal(copy, job[1], b"tt\n").chain, refusal(*job[:2], b"tt\n").chain)

    def test_equal_exactly_where_every_rate_is(self):
        """Of two accepted texts over the same labels; the second has one line more, or the same moves typed otherwise."""
        rng, equal, apart = random.Random(85), 0, 0
        for sheet in (Sheet(rng) for _ in range(MADE)):
            one, labels = sheet.moves_text, sheet.labels_text
            for other in (moves_text(drawn(rng, sheet.moves)), one + b"%d,%d,1\n" % (rng.randrange(sheet.states), rng.randrange(sheet.states))):
                chains = [refusal(moves, labels, b"tt\n") for moves in (one, other)]
                if not any(isinstance(chain, int) for chain in chains):
                    same = chains[0].chain.rates == chains[1].chain.rates
                    self.assertEqual(self.copy_of((one, labels)) == self.copy_of((other, labels)), same)
                    equal, apart = equal + same, apart + (not same)
        self.assertGreater(min(equal, apart), MADE // 2)

    def test_limits(self):
        """Each limit met and passed, the lines as they are and drawn; among them 4,096 lines of one pair and a copy of 61,440 bytes."""
        longest = 0
        for name, sheet in sheets_at_the_limits():
            with self.subTest(name):
                self.assertEqual(sheet_faults(self.library, sheet), [])
                longest = max(longest, len(printed_copy(*sheet)))
        self.assertEqual(longest, COPY)
        self.assertEqual(self.copy_of(edges.rates_again(MOST_RATE)[:2]), FULL_MOVES)
        self.assertEqual(self.refused_with(edges.rates_again(MOST_RATE + 1)[:2]), 9)
        self.assertEqual(self.copy_of(edges.moves_again(MOST_MOVES)[:2]), moves_text([(0, 1, MOST_MOVES)]))
        self.assertEqual(self.refused_with(edges.moves_again(MOST_MOVES + 1)[:2]), 5)
        own = moves_text([(s, s, 1) for s in range(MOST_STATES)] * (MOST_MOVES // MOST_STATES))
        labels = labels_text([], [[]] * MOST_STATES)
        self.assertEqual(self.copy_of((own, labels)), moves_text([(s, s, MOST_MOVES // MOST_STATES) for s in range(MOST_STATES)]))


class Rooms(CopyTest):
    """Lent buffers of all lengths: 17 where the copy is longer, and nothing beyond the copy changes where it is not."""
    SHEETS = (
        (NO_MOVES, LABELS),
        (MOVES, LABELS),
        (moves_text([(1, 1, 4), (0, 1, 60), (1, 0, 5), (0, 1, 40)]), LABELS),
        (moves_text([(s, (s + 1) % 11, 10**(s % 8)) for s in reversed(range(11))]), labels_text([], [[]] * 11)),
    )

    def test_every_length(self):
        for sheet in self.SHEETS:
            copy = copied(*sheet)
            for room in range(len(copy)):
                self.assertEqual(self.refused_with(sheet, room), SHORT_COPY)
            for room in (*range(len(copy), len(copy) + 40), COPY, COPY + MORE):
                self.assertEqual(self.copy_of(sheet, room), copy)

    def test_beyond_the_copy(self):
        """The lent bytes behind it and the guards are as they were; so is all before it."""
        for sheet in self.SHEETS:
            copy, more = copied(*sheet), 50
            called = self.library.copy(sheet, len(copy) + more)
            end = GUARD + len(copy)
            self.assertEqual(called.after.copy[GUARD:end], copy)
            self.assertEqual((called.after.copy[:GUARD], called.after.copy[end:]), (called.before.copy[:GUARD], called.before.copy[end:]))
            self.assertEqual(len(called.after.copy[end:]), more + GUARD)

    def test_the_longest_copies(self):
        """As long as a text may be: one byte less is 17."""
        for moves, labels, _ in (edges.long_moves(SHEET_BYTES), edges.long_moves(SHEET_BYTES - 1)):
            self.assertEqual(self.refused_with((moves, labels), len(moves) - 1), SHORT_COPY)
            self.assertEqual(len(self.copy_of((moves, labels), len(moves))), len(moves))

    def test_17_is_tested_last(self):
        """What the texts are refused with is answered whatever is lent, and every byte is as it was."""
        rng, found = random.Random(86), {}
        for sheet in (sheet for _, sheet in (*sheets_at_the_limits(), *(("", some_sheet(rng)) for _ in range(DAMAGED // 4)))):
            copy = copied(*sheet)
            if isinstance(copy, int):
                found.setdefault(copy, sheet)
        self.assertEqual(set(found), BY_SHEET)
        for number, sheet in found.items():
            for room in (0, 1, 100, COPY, COPY + MORE):
                self.assertEqual(self.refused_with(sheet, room), number)


class Program(unittest.TestCase):
    """`sheetcopy`, run in a folder: it prints the copy, or `refused` and the number."""

    def prints(self, sheet, formula=b"tt\n"):
        """That it prints what the second reckoning has, within its stack."""
        self.assertEqual(run((*sheet, formula), stack=STACK, command=(COPIER,)), printed_copy(*sheet), sheet[0][:SHOWN])

    def test_made_and_damaged_sheets(self):
        rng = random.Random(87)
        found = [some_sheet(rng) for _ in range(BY_PROGRAM)]
        for sheet in found:
            self.prints(sheet)
        self.assertGreater(len({printed_copy(*sheet) for sheet in found}), BY_PROGRAM // 4)

    def test_limits(self):
        for name, sheet in sheets_at_the_limits():
            with self.subTest(name):
                self.prints(sheet)

    def test_examples(self):
        for folder in FOLDERS:
            self.prints(tuple(read_texts(folder)[:2]))

    def test_looks_at_no_formula(self):
        """What a job would be refused for by its formula is copied: an empty one, a broken one, and one that is too long."""
        for formula in (b"", b"&\n", b"gas\n", b"x" * SHEET_BYTES):
            self.prints((moves_text([(1, 0, 2), (0, 1, 3), (0, 1, 4)]), LABELS), formula)

    def test_refusals(self):
        self.assertEqual(run((b"", LABELS, b"tt\n"), command=(COPIER,)), refused(1))
        self.assertEqual(run((moves_text([(0, 1, 0), (0, 1, 5)]), LABELS, b"tt\n"), command=(COPIER,)), refused(9))


def length_of(called):
    """The length that a call stored."""
    size = sizeof(COPY_KINDS.length)
    return int.from_bytes(called.after.length[GUARD * size:(GUARD + 1) * size], "little")


def front(called, count):
    """The first bytes of the lent buffer, after the call."""
    return called.after.copy[GUARD:GUARD + count]


if __name__ == "__main__":
    unittest.main()
