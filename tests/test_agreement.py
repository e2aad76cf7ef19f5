"""That a call of the library which did something wrong is told: each part of a good call is falsified in turn."""
import unittest
from ctypes import sizeof
from itertools import permutations

from reckoning.copying import copied
from reckoning.refusal import needed, refusal
from reckoning.sheets import FORMULA, LABELS, MOVES, MOVES_LINE, REPORT, labels_text, moves_text
from tests.agreement import copy_faults, elements, library_faults, printed
from tests.library import COPY_KINDS, GUARD, KINDS, CopyMemory, Library, Memory

SHEET = moves_text([(0, 1, 500), (1, 2, 700)]), labels_text([b"up", b"dead"], [[1, 0], [1, 0], [0, 1]])
TIES = *SHEET, b"up\n"     # 1, 1 and 0: the order is that of the numbers
ACCEPTED = *SHEET, b"P < 500000000 U 8 up dead\n"
REFUSED = *SHEET, b"gas\n"


def changed(called, name, at):
    """The call with one byte of a buffer other than it was left."""
    data = bytearray(getattr(called.after, name))
    data[at] ^= 0x5A
    return called._replace(after=called.after._replace(**{name: bytes(data)}))


def with_order(called, order):
    """The call with other numbers at the start of its order buffer."""
    size = sizeof(KINDS.order)
    data, start = called.after.order, GUARD * size
    numbers = b"".join(number.to_bytes(size, "little") for number in order)
    return called._replace(after=called.after._replace(order=data[:start] + numbers + data[start + len(numbers):]))


class Falsified(unittest.TestCase):
    def setUp(self):
        self.library = Library()
        self.accepted, self.refused = self.library.check(ACCEPTED), self.library.check(REFUSED)

    def test_the_calls_themselves_have_no_faults(self):
        self.assertEqual(library_faults(ACCEPTED, self.accepted), [])
        self.assertEqual(library_faults(REFUSED, self.refused), [])

    def test_numbers(self):
        for number in range(1, 17):
            self.assertEqual(library_faults(ACCEPTED, self.accepted._replace(number=number)), [f"number {number}, should be 0"])
        self.assertEqual(library_faults(REFUSED, self.refused._replace(number=0)), ["number 0, should be 12"])

    def test_bytes_of_a_refused_call(self):
        for name in Memory._fields:
            for at in range(0, len(getattr(self.refused.after, name)), 101):
                self.assertTrue(library_faults(REFUSED, changed(self.refused, name, at)), (name, at))

    def test_bytes_of_an_accepted_call(self):
        """The guards, the first and the last element that is written, and the one after it."""
        need = Memory(*needed(refusal(*ACCEPTED)), 1)
        for name in Memory._fields:
            size, whole = sizeof(getattr(KINDS, name)), len(getattr(self.accepted.after, name))
            start, end = GUARD * size, (GUARD + getattr(need, name)) * size
            for at in (0, start - 1, start + size - 1, end - 1, end, whole - 1):
                self.assertTrue(library_faults(ACCEPTED, changed(self.accepted, name, at)), (name, at))

    def test_zeros_left_unwritten(self):
        for name in ("moves", "vectors", "marks"):
            before = getattr(self.accepted.before, name)
            told = library_faults(ACCEPTED, self.accepted._replace(after=self.accepted.after._replace(**{name: before})))
            self.assertEqual(told, [f"{name} or a guard of it is not as it should be"])

    def test_index_left_unwritten(self):
        """One word for each line of moves set to 0, and not two."""
        lines, size = ACCEPTED[0].count(b"\n") - 1, sizeof(KINDS.moves)
        middle = (GUARD + lines) * size
        half = self.accepted.after.moves[:middle] + self.accepted.before.moves[middle:]
        told = library_faults(ACCEPTED, self.accepted._replace(after=self.accepted.after._replace(moves=half)))
        self.assertEqual(told, ["moves or a guard of it is not as it should be"])

    def test_marks_beyond_17_for_each_state(self):
        """A mark byte for each node and state set to 0, and not 17 for each state."""
        nodes, states = 31, 3
        many = *SHEET, b"& up " * (nodes // 2) + b"up\n"
        called = self.library.check(many)
        self.assertEqual(library_faults(many, called), [])
        zeros = called.after.marks[:GUARD] + bytes(nodes * states) + called.after.marks[GUARD + nodes * states:]
        told = library_faults(many, called._replace(after=called.after._replace(marks=zeros)))
        self.assertEqual(told, ["marks or a guard of it is not as it should be"])

    def test_orders(self):
        """The states are 2, 1, 0 from the worst on, or 0, 1, 2 where the first two are equal: every other order is told, and a state that is none."""
        for job, right in ((ACCEPTED, (2, 1, 0)), (TIES, (0, 1, 2))):
            called = self.library.check(job)
            self.assertEqual(tuple(elements(called, "order", 3)), right)
            for order in (*permutations(range(3)), (2, 2, 2), (2, 1, 1), (0, 0, 1), (2, 1, 3), (0, 1, 512), (258, 257, 256)):
                told = library_faults(job, with_order(called, order))
                self.assertEqual(len(told), int(order != right), (order, told))
                self.assertTrue(all("of the order" in line for line in told), told)

    def test_orders_of_reports_that_are_not_judged(self):
        wrong = with_order(self.accepted, (0, 1, 2))
        self.assertEqual(library_faults(ACCEPTED, wrong, most_states=1), ["row 1 of the order is state 0, should be 2"])
        self.assertEqual(library_faults(ACCEPTED, self.accepted, most_states=1), [])

    def test_another_question(self):
        """What was done for one question is told where it is handed in for another: an until where one between two times is asked for, from the
        first hour on and from time 0 on over less time; from time 0 on over the same time it is the same."""
        for path, told in ((b"V 1 8", "depth 42, should be 84"), (b"V 8 8", "depth 42, should be 82"), (b"V 0 7.99", "ends "), (b"V 0 8", "")):
            other = *SHEET, ACCEPTED[2].replace(b"U 8", path)
            found = library_faults(other, self.accepted._replace(texts=other))
            self.assertEqual([line.partition(": ")[2].startswith(told) for line in found[:1]], [True] * bool(told), found)

    def test_texts(self):
        for called, job in ((self.accepted, ACCEPTED), (self.refused, REFUSED)):
            self.assertEqual(library_faults(job, called._replace(texts=(b"", *job[1:]))), ["a text has changed"])

    def test_a_byte_that_is_no_verdict(self):
        told = library_faults(ACCEPTED, changed(self.accepted, "verdicts", GUARD))
        self.assertEqual(len(told), 1)
        self.assertIn("verdict", told[0])


class FalsifiedCopies(unittest.TestCase):
    TYPED = moves_text([(1, 2, 700), (0, 1, 400), (0, 1, 100)]), SHEET[1]
    ROOM = 60

    def setUp(self):
        library, self.copy = Library(), SHEET[0]
        self.made, self.short = library.copy(self.TYPED, self.ROOM), library.copy(self.TYPED, len(self.copy) - 1)
        self.refused = library.copy((MOVES_LINE, b""), self.ROOM)

    def told(self, called, sheet=TYPED):
        return copy_faults(sheet, called)

    def test_the_calls_themselves_have_no_faults(self):
        self.assertEqual(copied(*self.TYPED), self.copy)
        self.assertEqual([each.number for each in (self.made, self.short, self.refused)], [0, 17, 1])
        self.assertEqual((self.told(self.made), self.told(self.short), self.told(self.refused, (MOVES_LINE, b""))), ([], [], []))

    def test_numbers(self):
        for number in range(1, 18):
            self.assertEqual(self.told(self.made._replace(number=number)), [f"number {number} of a copy, should be 0"])
        for number in range(17):
            self.assertEqual(self.told(self.short._replace(number=number)), [f"number {number} of a copy, should be 17"])

    def test_every_byte(self):
        """Of the copy, of what is behind it, of the length and of all guards, after a copy and after a refusal."""
        for called in (self.made, self.short):
            for name in CopyMemory._fields:
                for at in range(len(getattr(called.after, name))):
                    self.assertEqual(self.told(changed(called, name, at)), [f"{name} of a copy or a guard of it is not as it should be"])

    def test_left_as_it_was(self):
        """A copy that was not written, and a length that was not stored."""
        for name in CopyMemory._fields:
            left = self.made.after._replace(**{name: getattr(self.made.before, name)})
            self.assertEqual(self.told(self.made._replace(after=left)), [f"{name} of a copy or a guard of it is not as it should be"])

    def test_another_copy(self):
        """The moves as they were typed, and another length stored."""
        start, size = GUARD, sizeof(COPY_KINDS.length)
        as_typed = self.made.before.copy[:start] + self.TYPED[0] + self.made.before.copy[start + len(self.TYPED[0]):]
        self.assertTrue(self.told(self.made._replace(after=self.made.after._replace(copy=as_typed))))
        longer = self.made.after.length[:GUARD * size] + (self.ROOM).to_bytes(size, "little") + self.made.after.length[(GUARD + 1) * size:]
        self.assertTrue(self.told(self.made._replace(after=self.made.after._replace(length=longer))))

    def test_texts(self):
        self.assertEqual(self.told(self.made._replace(texts=(b"", SHEET[1]))), ["a text has changed"])


class Printed(unittest.TestCase):
    def test_small_sheet(self):
        """What the documents print in full, both listings, and a refusal."""
        library = Library()
        self.assertEqual(printed(library.check((MOVES, LABELS, FORMULA)), 2), REPORT)
        self.assertEqual(printed(library.check((MOVES, LABELS, b"\n")), 2), b"refused\n10\n")

    def test_second_listing_is_the_order_buffer(self):
        called = with_order(Library().check(ACCEPTED), (1, 0, 1))
        lines = printed(called, 3).splitlines()
        self.assertEqual(lines[5:], [lines[2], lines[1], lines[2]])


if __name__ == "__main__":
    unittest.main()
