"""The static library against the second reckoning, document 01 and the program: numbers, reports, and what happens to the lent memory."""
import random
import unittest
from concurrent.futures import ThreadPoolExecutor
from ctypes import sizeof

from reckoning.__main__ import read_texts
from reckoning.formula import hours_text, nodes
from reckoning.limits import BILLION, HOUR, MOST_HUNDREDTHS, MOST_MOVES, MOST_NODES, MOST_RATE, MOST_STATES
from reckoning.refusal import BY_TEXTS, Lent, lengths, needed, refusal
from reckoning.sheets import FAST_MOVES, FORMULA, LABELS, MOVES, NO_MOVES, labels_text, moves_text
from tests import edges, many_nodes, orders, two_times, ways
from tests.agreement import elements, library_faults, printed, refusal_number, rows_of, tried
from tests.blocks import needed_by
from tests.jobs import damaged_job, random_job
from tests.library import ENOUGH, GUARD, KINDS, MORE, Library
from tests.mutations import bent_job
from tests.places import ARCHIVE, FOLDERS
from tests.possible import drawn_job
from tests.program import run
from tests.small_formulas import SMALL_FORMULAS

DAMAGED = 3_000
MADE = 600
AS_PROGRAM = 120
AT_ONCE = 10
NOTHING = Lent(*[0] * len(Lent._fields))
ONES = Lent(*[1] * len(Lent._fields))
FEW = lengths(8, 8, 24)
FEW_STATES = 5              # of a job of many nodes that is judged


class LibraryTest(unittest.TestCase):
    """A test that calls the library."""

    @classmethod
    def setUpClass(cls):
        cls.library = Library()

    def agrees(self, job, lent=ENOUGH):
        """What the call did, once it has no faults, and whether the second reckoning could judge all of it."""
        called = self.library.check(job, lent)
        faults = tried(library_faults, job, called)
        self.assertFalse(faults, (job, lent))
        return called, faults is not None


class Jobs(LibraryTest):
    """Made jobs, damaged ones and those at the edges."""

    def test_damaged_jobs(self):
        rng = random.Random(11)
        called, judged = zip(*(self.agrees(make(rng)) for _ in range(DAMAGED // 2) for make in (damaged_job, bent_job)))
        self.assertGreater(sum(judged), 0.9 * DAMAGED)
        self.assertLessEqual({0, *BY_TEXTS} - {5}, {each.number for each in called})

    def test_made_jobs(self):
        rng = random.Random(12)
        called, judged = zip(*(self.agrees(random_job(rng)) for _ in range(MADE)))
        self.assertGreater(sum(judged), 0.9 * MADE)
        self.assertEqual({each.number for each in called}, {0})

    def test_small_formulas(self):
        """Over the small sheet and with q 64,000,000: reports, and every number that a formula can earn but 11."""
        numbers = {self.agrees((moves, LABELS, formula))[0].number for moves in (MOVES, FAST_MOVES) for formula in SMALL_FORMULAS}
        self.assertEqual(numbers, {0, 1, 10, 12, 13, 14, 16})

    def test_limits(self):
        for name, (meets, passes) in edges.pairs().items():
            with self.subTest(name):
                self.assertNotEqual(self.agrees(meets)[0].number, self.agrees(passes)[0].number)

    def test_examples(self):
        for folder in FOLDERS:
            with self.subTest(folder.name):
                self.assertEqual(self.agrees(read_texts(folder))[0].number, 0)

    def test_says_what_the_program_prints(self):
        rng = random.Random(13)
        jobs = [make(rng) for _ in range(AS_PROGRAM // 2) for make in (random_job, damaged_job)]
        for job in jobs + [read_texts(folder) for folder in FOLDERS]:
            self.assertEqual(printed(self.library.check(job), states_of(job)), run(job), job)

    def test_two_at_once(self):
        """Two threads that call at the same time, each with its own buffers, get what one gets by itself."""
        jobs = [read_texts(folder) for folder in FOLDERS] * AT_ONCE
        alone = [printed(self.library.check(job), states_of(job)) for job in jobs]

        def each(_):
            library = Library()
            return [printed(library.check(job), states_of(job)) for job in jobs]
        with ThreadPoolExecutor(2) as threads:
            self.assertEqual(list(threads.map(each, range(2))), [alone, alone])


class Archive(LibraryTest):
    """What the archive is linked with."""

    def test_needs_what_the_header_names(self):
        self.assertEqual(needed_by(ARCHIVE), {"memcpy", "memset"})


class EveryByte(LibraryTest):
    """Sheets with long numbers and names, in which each byte is replaced, dropped and cut at, one at a time."""

    SHEETS = (
        (moves_text([(0, 1, 12_345_678), (1, 0, MOST_RATE - 1)]), b"state,up,abcdefghijkl,t\n0,1,0,1\n1,0,1,0\n",
         b"& ! up P >= 123456789 U 1 abcdefghijkl t\n"),
        (moves_text([(123_456_789, 987_654_321, 555_555_555)]), b"state\n0\n", b"tt\n"),
        (NO_MOVES, b"state\n123456789\n", b"tt\n"),
        (NO_MOVES, b"state\n0\n", b"P < 1987654321 U 1876543219 tt ! & tt tt\n"),
        (NO_MOVES, b"state,ta\n0,1\n", b"P <= 1000000000 U %s ta ! ta\n" % hours_text(MOST_HUNDREDTHS - 75)),
        (moves_text([(0, 0, 2), (0, 1, 1), (1, 1, MOST_RATE)]), b"state,ta\n0,1\n1,0\n", b"P > 333333333 X P <= 666666667 X ta\n"),
        (moves_text([(0, 1, MOST_RATE // 2)]), b"state,ta\n0,1\n1,0\n", b"P > 5 V 0.75 2.75 ta P <= 1 V 0 1.25 tt ! ta\n"),
        (moves_text([(1, 0, 9), (0, 1, MOST_RATE // 2), (0, 0, 1), (0, 1, MOST_RATE // 2 - 1), (1, 0, 1)]), b"state,ta\n0,1\n1,0\n", b"P > 5 X ta\n"),
    )
    ALWAYS = b"./09:`az{,\n \x00\xff"

    def changed(self):
        """Every sheet with one change in one of its texts."""
        for sheet in self.SHEETS:
            for which, text in enumerate(sheet):
                for at, byte in enumerate(text):
                    others = {byte - 1, byte + 1, byte ^ 0x80, byte ^ 0x20, *self.ALWAYS} - {byte}
                    changes = [text[:at] + bytes([other]) + text[at + 1:] for other in sorted(others)]
                    for change in (*changes, text[:at], text[:at] + b"\n", text[:at] + text[at + 1:], text[:at + 1] + text[at:]):
                        yield (*sheet[:which], change, *sheet[which + 1:])

    def test_numbers(self):
        called = [self.agrees(job, FEW)[0] for job in self.changed()]
        self.assertGreater(len(called), 5_000)
        self.assertLessEqual({0, 1, 2, 3, 4, 6, 9, 10, 12, 13, 14, 16}, {each.number for each in called})


class Buffers(LibraryTest):
    """Lent buffers that are just long enough, and too short."""

    def accepted_jobs(self):
        """Jobs whose seven lengths are all above 0, and the lengths."""
        rng = random.Random(14)
        jobs = [read_texts(folder) for folder in FOLDERS] + [random_job(rng) for _ in range(25)]
        jobs += [edges.load(MOST_RATE, HOUR), edges.moves(MOST_MOVES), edges.nodes(MOST_NODES)]
        found = [(job, needed(refusal(*job))) for job in jobs]
        return [(job, need) for job, need in found if need.moves]

    def test_exactly_as_needed(self):
        for job, need in self.accepted_jobs():
            self.assertEqual(self.agrees(job, need)[0].number, 0)

    def test_one_short(self):
        for job, need in self.accepted_jobs():
            for name in Lent._fields:
                with self.subTest(name):
                    short = need._replace(**{name: getattr(need, name) - 1})
                    self.assertEqual(self.agrees(job, short)[0].number, 15)
                    self.assertEqual(self.agrees(job, ENOUGH._replace(**{name: getattr(short, name)}))[0].number, 15)

    def test_none_lent(self):
        for job, need in self.accepted_jobs():
            self.assertEqual(self.agrees(job, NOTHING)[0].number, 15)
            for name in Lent._fields:
                with self.subTest(name):
                    self.assertEqual(self.agrees(job, need._replace(**{name: 0}))[0].number, 15)

    def test_two_short(self):
        rng = random.Random(15)
        for job, need in self.accepted_jobs():
            names = rng.sample(Lent._fields, 2)
            short = need._replace(**{name: rng.randrange(getattr(need, name)) for name in names})
            self.assertEqual(self.agrees(job, short)[0].number, 15)

    def test_no_moves_need_no_words(self):
        job = edges.states(2)
        self.assertEqual(self.agrees(job, needed(refusal(*job)))[0].number, 0)
        self.assertEqual(needed(refusal(*job)).moves, 0)

    def test_other_numbers_come_first(self):
        """A job that its texts are refused for keeps its number whatever is lent."""
        found = refused_jobs()
        self.assertEqual(set(found), BY_TEXTS)
        for number, job in found.items():
            for lent in (NOTHING, ONES, ENOUGH):
                self.assertEqual(self.agrees(job, lent)[0].number, number)


class Orders(LibraryTest):
    """The order buffer: "the state numbers in that order after acceptance", the worst state first."""

    def order_of(self, job, lent=ENOUGH):
        """The order that an accepted job leaves."""
        called, _ = self.agrees(job, lent)
        self.assertEqual(called.number, 0)
        return elements(called, "order", states_of(job))

    def test_small_sheet(self):
        self.assertEqual(self.order_of((MOVES, LABELS, FORMULA)), [1, 0])

    def test_known_orders(self):
        """Falling, rising and equal ends and mixtures of them, for few states and for as many as there may be."""
        for size in orders.SIZES:
            for name, (shares, order) in orders.known(size).items():
                with self.subTest(name, states=size + 1):
                    self.assertEqual(self.order_of(orders.shares_job(shares)), order)

    def test_every_order_of_five(self):
        for shares in orders.every_five():
            job = orders.shares_job(shares)
            called, _ = self.agrees(job)
            self.assertEqual([row.lower for row in rows_of(called, 6)], [*map(orders.lower_end, shares), 0])
            expected = [state for share in (3, 2, 1) for state in range(5) if shares[state] == share] + [5]
            self.assertEqual(elements(called, "order", 6), expected)

    def test_drawn_orders(self):
        """Drawn ends, many of them equal or few, on the largest sheets."""
        rng = random.Random(17)
        for most in (1, 2, 5, 40, 600, orders.WHOLE):
            shares = [rng.randint(1, most) for _ in range(MOST_STATES - 1)]
            order = self.order_of(orders.shares_job(shares))
            self.assertEqual(order, [*sorted(range(MOST_STATES - 1), key=lambda state: (orders.WHOLE - shares[state], state)), MOST_STATES - 1])

    def test_ties_go_by_number(self):
        """Equal lower ends, whatever the upper ends and the verdicts: states 0 and 1 are no and undecided, or the other way round."""
        labels, third = labels_text([b"dead"], [[0], [0], [1]]), b"! P < 333333334 X dead\n"
        for moves, verdicts in ((moves_text([(1, 1, 2), (1, 2, 1)]), ["no", "undecided", "no"]),
                                (moves_text([(0, 0, 2), (0, 2, 1)]), ["undecided", "no", "no"])):
            called, _ = self.agrees((moves, labels, third))
            self.assertEqual([row.verdict for row in rows_of(called, 3)], verdicts)
            self.assertEqual(elements(called, "order", 3), [0, 1, 2])

    def test_outermost_node_other_than_a_bound(self):
        """States that say yes go before the others, by number: the ends of a label are 1,000,000,000 or 0."""
        marks = [state % 3 == 1 for state in range(MOST_STATES)]
        job = NO_MOVES, labels_text([b"up"], [[mark] for mark in marks]), b"up\n"
        self.assertEqual(self.order_of(job), [s for s in range(MOST_STATES) if marks[s]] + [s for s in range(MOST_STATES) if not marks[s]])
        self.assertEqual(self.order_of((*job[:2], b"tt\n")), list(range(MOST_STATES)))

    def test_lengths(self):
        """One number short is 15 with every byte as it was; beyond the n that are needed nothing changes."""
        size = sizeof(KINDS.order)
        for job in ((MOVES, LABELS, FORMULA), orders.shares_job([3, 1, 2]), orders.shares_job(list(range(1, MOST_STATES)))):
            need = needed(refusal(*job))
            self.assertEqual(need.order, states_of(job))
            for lent in (need._replace(order=need.order - 1), ENOUGH._replace(order=need.order - 1), ENOUGH._replace(order=0)):
                called, _ = self.agrees(job, lent)
                self.assertEqual((called.number, called.after), (15, called.before))
            for more in (0, 1, 2, 7, MORE):
                called, _ = self.agrees(job, need._replace(order=need.order + more))
                end = (GUARD + need.order) * size
                self.assertEqual(called.number, 0)
                self.assertEqual(called.after.order[end:], called.before.order[end:])
                self.assertEqual(len(called.after.order[end:]), (more + GUARD) * size)

    def test_refused_jobs_leave_it(self):
        for number, job in refused_jobs().items():
            called, _ = self.agrees(job)
            self.assertEqual((called.number, called.after.order), (number, called.before.order))

    def test_the_program_lists_the_same(self):
        """The states of the program's second listing are those of the order buffer."""
        rng = random.Random(18)
        jobs = [random_job(rng, most_states=12) for _ in range(AS_PROGRAM // 4)] + [read_texts(folder) for folder in FOLDERS]
        jobs += [orders.shares_job(shares) for shares, _ in orders.known(MOST_STATES - 1).values()]
        moved = 0
        for job in jobs:
            order, states = self.order_of(job), states_of(job)
            lines = run(job).splitlines()
            self.assertEqual([int(line.split(b",")[0]) for line in lines[states + 2:]], order)
            moved += order != list(range(states))
        self.assertGreater(moved, len(jobs) // 3)


class MoveWords(LibraryTest):
    """The move words: two for each line of moves, the moves and beside them the index of those that come in."""

    def jobs(self):
        """One line of moves and many, also to the own state and of one pair; formulas that the moves decide, and others."""
        restarts, again = moves_text([(0, 0, 2), (0, 1, 1), (1, 1, 3)]), moves_text([(1, 1, 3), (0, 1, 2), (1, 1, 3), (0, 1, 5)])
        yield from ((moves, LABELS, formula) for moves in (MOVES, restarts, again)
                    for formula in (b"tt\n", b"P > 0 U 0.01 up dead\n", b"P > 0 X dead\n"))
        for full in (edges.moves(MOST_MOVES), edges.moves_falling(MOST_MOVES), edges.moves_again(MOST_MOVES)):
            yield from ((*full[:2], formula) for formula in (b"tt\n", b"P > 0 U 1 tt ! tt\n", b"P >= 1000000000 X tt\n"))

    def test_lengths(self):
        """As many words as lines, or one less than two for each, are 15 with every byte as it was."""
        for job in self.jobs():
            need, lines = needed(refusal(*job)), job[0].count(b"\n") - 1
            self.assertEqual(need.moves, 2 * lines)
            for words in {0, 1, lines, 2 * lines - 1}:
                for lent in (need._replace(moves=words), ENOUGH._replace(moves=words)):
                    called, _ = self.agrees(job, lent)
                    self.assertEqual((called.number, called.after), (15, called.before))

    def test_zeros(self):
        """After acceptance two words for each line hold 0, and those beyond are as they were."""
        size = sizeof(KINDS.moves)
        for job in self.jobs():
            need = needed(refusal(*job))
            for more in (0, 1, 2, MORE):
                called, _ = self.agrees(job, need._replace(moves=need.moves + more))
                start, end = GUARD * size, (GUARD + need.moves) * size
                self.assertEqual(called.number, 0)
                self.assertEqual(called.after.moves[start:end], bytes(2 * size * (job[0].count(b"\n") - 1)))
                self.assertEqual(called.after.moves[end:], called.before.moves[end:])


class MarkBytes(LibraryTest):
    """The mark bytes: for each state one for each node of the formula, at most 17. More of them change nothing."""

    def jobs(self):
        """Formulas of few nodes and of many, nested in several ways, each with what it needs, its nodes and its states."""
        rng = random.Random(45)
        jobs = [job for states in (1, FEW_STATES) for job in many_nodes.jobs(rng, states)]
        for job in jobs + [job for _, job in many_nodes.every_label_jobs()]:
            reckoned = refusal(*job)
            yield job, needed(reckoned), len(nodes(reckoned.tree)), reckoned.chain.states

    def test_lengths(self):
        """One byte short, or none, is 15 with every byte as it was."""
        for job, need, count, states in self.jobs():
            self.assertEqual(need.marks, min(17, count) * states)
            for marks in {0, need.marks - 1}:
                for lent in (need._replace(marks=marks), ENOUGH._replace(marks=marks)):
                    called, _ = self.agrees(job, lent)
                    self.assertEqual((called.number, called.after), (15, called.before))

    def test_zeros(self):
        """After acceptance the bytes that are needed hold 0, and those beyond are as they were, also where there is one for each node and state."""
        for job, need, count, states in self.jobs():
            for marks in (need.marks, need.marks + 1, count * states, count * states + MORE):
                called, _ = self.agrees(job, need._replace(marks=marks))
                end = GUARD + min(17, count) * states
                self.assertEqual((called.number, called.after.marks[GUARD:end]), (0, bytes(end - GUARD)))
                self.assertEqual(called.after.marks[end:], called.before.marks[end:])

    def test_reports(self):
        """Ends, depth, verdicts and order are the same with as few bytes as are needed and with one for each node and state."""
        judged = []
        for job, need, count, states in self.jobs():
            (least, one), (most, other) = (self.agrees(job, need._replace(marks=marks)) for marks in (need.marks, count * states))
            self.assertEqual((least.number, printed(least, states)), (0, printed(most, states)), job)
            judged += [one, other]
        self.assertGreater(sum(judged), 0.9 * len(judged))

    def test_each_operand_counts(self):
        """Whatever side a row of operators is nested to, each of its labels makes a no."""
        for count, job in many_nodes.every_label_jobs():
            called, _ = self.agrees(job, needed(refusal(*job)))
            self.assertEqual([row.verdict for row in rows_of(called, count + 1)], ["no"] * count + ["yes"])

    def test_most_states(self):
        """On sheets of as many states as there may be too; their reports are not judged here."""
        rng = random.Random(46)
        for count in (16, 17, 18, MOST_NODES):
            levels = many_nodes.levels_for(count)[-1]
            for lean in many_nodes.leans(count, levels):
                job = many_nodes.job(rng, count, levels, lean, MOST_STATES)
                called = [self.library.check(job, ENOUGH._replace(marks=rows * MOST_STATES)) for rows in (min(17, count), count)]
                self.assertEqual([library_faults(job, each, FEW_STATES) for each in called], [[], []])
                self.assertEqual(*(printed(each, MOST_STATES) for each in called))
                short = self.library.check(job, ENOUGH._replace(marks=min(17, count) * MOST_STATES - 1))
                self.assertEqual((short.number, short.after), (15, short.before))


class Possible(LibraryTest):
    """Thresholds 0 and 1,000,000,000: what the moves say, on sheets for which it is known beforehand."""

    def sheets(self):
        """Each sheet with the bounds that are put to it, told by name: all on the smaller ones, two on the largest."""
        for size in ways.SIZES:
            for name, led in ways.known(size).items():
                for bound in ways.BOUNDS if size < MOST_STATES else ((b">", 0), (b">=", BILLION)):
                    yield f"{name}, {size} states, {bound}", led, bound

    def says(self, job, verdicts):
        called, _ = self.agrees(job)
        self.assertEqual([row.verdict for row in rows_of(called, states_of(job))], verdicts)
        return called

    def test_untils(self):
        """Over the shortest time, and with no time."""
        for told, led, bound in self.sheets():
            with self.subTest(told):
                self.says(ways.until_job(led, *bound), ways.until_verdicts(led, *bound))
                self.says(ways.until_job(led, *bound, hours=b"0"), ways.until_verdicts(led, *bound, in_time=False))

    def test_next_moves(self):
        for told, led, bound in self.sheets():
            with self.subTest(told):
                self.says(ways.next_job(led, *bound), ways.next_verdicts(led, *bound))

    def test_drawn_questions(self):
        """Nested, with undecided operands and without, and lent just enough."""
        rng = random.Random(19)
        jobs = [drawn_job(rng) for _ in range(MADE)]
        judged = [self.agrees(job, needed(refusal(*job)))[1] for job in jobs]
        self.assertGreater(sum(judged), 0.9 * MADE)

    def test_ends_stay(self):
        """The ends are those of the same question with another threshold, and most do not tell what the moves do."""
        for name, led in ways.known(33).items():
            with self.subTest(name):
                rows = [rows_of(self.library.check(ways.until_job(led, b">", threshold)), 33) for threshold in (0, 1, BILLION)]
                first, *others = [[row[:3] for row in each] for each in rows]
                self.assertEqual(others, [first, first])
        rows = rows_of(self.says(ways.until_job(ways.known(33)["onward"], b">", 0), ["yes"] * 33), 33)
        self.assertTrue(all(row.lower == 0 and row.upper > 0 for row in rows[:31]))

    def test_nested(self):
        """Within another until, under `!` and within a next move an until that the moves decide is decided."""
        led = ways.known(8)["the first fails on the way"]
        asked, sheet = b"P > 0 U 0.01 up dead", ways.sheet(led)
        inner = ways.until_verdicts(led, b">", 0)
        self.says((*sheet, b"! " + asked + b"\n"), ["no" if word == "yes" else "yes" for word in inner])
        self.says((*sheet, b"P >= 1 U 0 tt " + asked + b"\n"), inner)
        self.says((*sheet, b"P > 0 U 0 tt " + asked + b"\n"), inner)
        self.says((*sheet, b"P > 0 X " + asked + b"\n"), [*inner[1:], "no"])

    def test_one_undecided_state_far_away(self):
        """The interval rule stands at every state where an operand is undecided at one, though no move leads there."""
        for hours, first in ((ways.SHORT, "undecided"), (b"100", "yes")):
            for job in ways.far_away(hours):
                rows = rows_of(self.agrees(job)[0], 6)
                self.assertEqual([row.verdict for row in rows[:3]], [first, "yes", "yes"])


class TwoTimes(LibraryTest):
    """`V`: reports, and that it is `U` with the first time 0, in all that is written."""

    def test_known_jobs(self):
        for typed in (b"1 8", b"8 8", b"0.01 8760", b"0 8", b"0 0", b"8760 8760"):
            for job in (two_times.small(typed), two_times.small(typed, first=b"tt"), two_times.no_moves(typed)):
                self.assertEqual(self.agrees(job)[0].number, 0)
        for typed in (b"2 2", b"0.5 2", b"0.01 64.01", b"64 64", b"64 128"):
            for job in (two_times.in_the_middle(typed), two_times.never_left(typed)):
                self.assertEqual(self.agrees(job)[0].number, 0)
        self.assertEqual(self.agrees(two_times.largest())[0].number, 0)

    def test_depth_is_the_sum(self):
        for job, depth in ((two_times.small(b"1 8"), 84), (two_times.small(b"8 8"), 82), (two_times.no_moves(b"1 2"), 80),
                           (two_times.largest(), 336)):
            self.assertEqual(elements(self.library.check(job), "depth", 1), [depth])

    def test_first_time_0(self):
        """The same answer, the same lengths needed, and the same bytes in all that is written."""
        rng, changed = random.Random(42), 0
        for job in (make(rng) for _ in range(MADE // 2) for make in (random_job, drawn_job)):
            other = two_times.from_time_0(job)
            need = needed(refusal(*job))
            self.assertEqual(needed(refusal(*other)), need)
            one, two = (self.library.check(each, need) for each in (job, other))
            self.assertEqual((two.number, printed(two, states_of(job))), (one.number, printed(one, states_of(job))), other)
            self.assertFalse(tried(library_faults, other, two))
            changed += other != job
        self.assertGreater(changed, MADE // 4)

    def test_thresholds(self):
        """At 0 and 1,000,000,000 the ends are those of other thresholds, and the verdicts follow from them."""
        for typed in (b"0.01 0.01", b"0.01 0.02", b"1 8760"):
            rows = [rows_of(self.agrees(two_times.slow_row(bound, typed))[0], 3) for bound in (b"> 0", b"> 1", b">= 1000000000")]
            first, *others = [[row[:3] for row in each] for each in rows]
            self.assertEqual(others, [first, first])
        rows = rows_of(self.agrees(two_times.slow_row(b"> 0", b"0.01 0.02"))[0], 3)
        self.assertEqual([row.verdict for row in rows], ["undecided", "yes", "no"])

    def test_refused_jobs_leave_all(self):
        """16 comes before 14 and 15, and after all others."""
        falling = edges.small(b"P < 1 V 8 1 up dead")
        for job, number in ((falling, 16), (edges.loads(MOST_RATE, 2 * HOUR, HOUR), 16), (edges.loads(MOST_RATE, HOUR, 2 * HOUR + 1), 14),
                            (edges.loads(1, MOST_HUNDREDTHS + 1, HOUR), 13), (edges.small(b"P < 1 V 8 1 gas dead"), 12)):
            for lent in (NOTHING, ONES, ENOUGH):
                called, _ = self.agrees(job, lent)
                self.assertEqual((called.number, called.after), (number, called.before))


def refused_jobs():
    """A job for each number that the texts alone can be refused with."""
    rng = random.Random(16)
    jobs = [make(rng) for _ in range(DAMAGED // 2) for make in (damaged_job, bent_job)]
    jobs += [job for pair in edges.pairs().values() for job in pair]
    found = {refusal_number(job): job for job in jobs}
    del found[None]
    return found


def states_of(job):
    """The states of a labels text whose lines are good."""
    return job[1].count(b"\n") - 1


if __name__ == "__main__":
    unittest.main()
