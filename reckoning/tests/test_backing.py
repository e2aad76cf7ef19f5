"""Inner nodes: a report counts only if all its nodes can be backed together."""

import unittest
from itertools import product
from operator import contains
from random import Random
from unittest import mock

from reckoning import backing
from reckoning import formula as f
from reckoning.ends import Rules, has
from reckoning.judge import allowed_ends, judge
from reckoning.refusal import refusal
from reckoning.limits import BILLION
from reckoning.report import ENDS_OF
from reckoning.sheets import LABELS, MOVES, REPORT_LINE, moves_text
from reckoning.tests.chains import random_chain, random_hundredths, random_times, row, texts
from reckoning.tests.prints import twice
from reckoning.verdict import NO, WORDS, YES, both, negate

NEAR = b"P >= 3992000 U 8 up dead"      # the limit is about 3,992,010.656: yes or undecided


def printed(rows):
    return twice(REPORT_LINE + b"".join(b"%d,%d,%d,%d,%s\n" % (s, *row[:3], row[3].encode()) for s, row in enumerate(rows)))


def other(*words):
    """The print of an outermost node other than `P`."""
    return printed([(*ENDS_OF[word], 0, word) for word in words])


def random_ends(random, ends):
    """A pair that the rules leave."""
    while True:
        pair = random.randint(*ends.lower), random.randint(*ends.upper)
        if has(ends, *pair):
            return pair


def random_rows(random, rules, node):
    """A backing picked at random: the rows that a checker with such ends would print."""
    below = [[row[3] for row in random_rows(random, rules, each)] for each in f.operands(node)]
    if isinstance(node, f.P):
        way, deep = tuple(map(tuple, below)), rules.depth(node.path)
        pairs = [random_ends(random, each) for each in rules.ends(node.path, *way)]
        return [(*pair, deep, word) for pair, word in zip(pairs, rules.following(node, way, pairs))]
    if isinstance(node, f.Not):
        words = map(negate, *below)
    elif isinstance(node, f.And):
        words = map(both, *below)
    else:
        words = backing.marks_of(rules, node)
    return [(*ENDS_OF[word], 0, word) for word in words]


def random_formula(random, chain, levels):
    """Tokens of a formula whose thresholds often lie near a value of the chain, or are 0 or 1,000,000,000."""
    kind = random.choice("!&UUUVVXXl") if levels > 1 else "l"
    if kind == "l":
        return random.choice((b"tt", b"up", b"dead"))
    parts = [random_formula(random, chain, levels - 1) for _ in range(1 if kind in "!X" else 2)]
    if kind in "!&":
        return b" ".join([kind.encode(), *parts])
    path, near = random_path(random, chain, kind)
    threshold = random.choice((0, BILLION, *[min(BILLION, max(0, near))] * 3))
    return b" ".join([b"P", random.choice(f.COMPARISONS), b"%d" % threshold, f.path_head(path), *parts])


def random_path(random, chain, kind):
    """A path formula without its operands, and a number near its value for labels at some state."""
    if kind == "X":
        path = f.Next(None)
        return path, random.choice(label_ends(chain, path, b"dead")).lower[0] + random.randint(-1, 1)
    times = random_times(random, chain) if kind == "V" else [random_hundredths(random, chain)]
    path = f.TIMED[kind.encode()][0](*times, None, None)
    return path, random.choice(Rules(chain).bounds(path, chain.marks[b"up"], chain.marks[b"dead"])).down + random.randint(-60, 60)


def label_ends(chain, path, *names):
    """The ends of a path whose operands are labels."""
    return Rules(chain).ends(path, *(tuple(YES if mark else NO for mark in chain.marks[name]) for name in names))


def random_jobs(random, count, levels, states=(2, 4)):
    """Jobs of so few and so many states: the three texts, and the job as it was read."""
    for _ in range(count):
        chain = random_chain(random, states=random.randint(*states))
        job = (*texts(chain), random_formula(random, chain, levels) + b"\n")
        yield job, refusal(*job)


class Nodes(unittest.TestCase):
    def allows(self, formula, words):
        return not judge(MOVES, LABELS, formula + b"\n", other(*words))

    def test_one_node(self):
        self.assertTrue(self.allows(b"! " + NEAR, ("no", "no")))
        self.assertTrue(self.allows(b"! " + NEAR, ("undecided", "no")))
        self.assertFalse(self.allows(b"! " + NEAR, ("yes", "no")))

    def test_the_same_text_twice_is_two_nodes(self):
        below = b"P < 3992000 U 8 up dead"      # no or undecided
        words = b"! & ! " + below + b" " + NEAR
        self.assertTrue(self.allows(words, ("undecided", "no")))
        self.assertTrue(self.allows(words, ("no", "no")))
        self.assertFalse(self.allows(words, ("yes", "no")))
        self.assertTrue(self.allows(b"& " + NEAR + b" " + NEAR, ("undecided", "yes")))

    def test_an_inner_verdict_binds_the_outer_ends_together(self):
        """With the inner node undecided at 0 its upper end is 10^9 there, with it yes both are."""
        formula = b"P >= 1 U 0 tt " + NEAR + b"\n"
        sure, open_ = (BILLION, BILLION, 40, "yes"), (0, BILLION, 40, "undecided")
        for rows, good in (((sure, sure), True), ((open_, sure), True), ((sure, open_), False),
                           (((5, BILLION, 40, "yes"), sure), False)):
            self.assertEqual(judge(MOVES, LABELS, formula, printed(rows)) == [], good)

    def test_no_backing_for_a_mixture(self):
        """Two states must be backed by one and the same way of the inner node."""
        moves, labels = texts(row(3, 500))
        inner = b"P >= 3992000 U 8 up dead"     # state 0 no, state 1 yes or undecided, state 2 yes
        formula = b"P >= 500000000 U 8 up " + inner + b"\n"
        state_2 = (BILLION, BILLION, 42, "yes")
        yes_at_1 = ((3_992_010, 3_992_011, 42, "no"), (BILLION, BILLION, 42, "yes"), state_2)
        open_at_1 = ((7_976, 3_992_011, 42, "no"), (3_992_010, BILLION, 42, "undecided"), state_2)
        self.assertEqual(judge(moves, labels, formula, printed(yes_at_1)), [])
        self.assertEqual(judge(moves, labels, formula, printed(open_at_1)), [])
        mixed = (yes_at_1[0], open_at_1[1], state_2)
        self.assertNotEqual(judge(moves, labels, formula, printed(mixed)), [])
        allowed = allowed_ends(moves, labels, formula)
        self.assertEqual(allowed.verdicts, [{"no"}, {"yes", "undecided"}, {"yes"}])

    def test_next_move_of_an_inner_verdict(self):
        """State 0 goes to state 1, where the inner until is yes or undecided: one and the same way has to back the two ends."""
        moves, labels = texts(row(3, 500))
        formula = b"P >= 500000000 X " + NEAR + b"\n"
        yes, open_, no = (BILLION, BILLION, 0, "yes"), (0, BILLION, 0, "undecided"), (0, 0, 0, "no")
        for rows, good in (((yes, yes, no), True), ((open_, yes, no), True), ((yes, open_, no), False), ((no, yes, no), False),
                           (((0, BILLION, 42, "undecided"), yes, no), False)):
            self.assertEqual(judge(moves, labels, formula, printed(rows)) == [], good, rows)
        allowed = allowed_ends(moves, labels, formula)
        self.assertEqual((allowed.verdicts, allowed.depth, allowed.width), ([{"yes", "undecided"}, {"yes"}, {"no"}], 0, None))

    def test_next_move_within_until(self):
        """A third lies between two whole billionths: `X` is undecided at state 0 alone, and the until about it has to say so."""
        moves, labels = moves_text([(0, 0, 2), (0, 1, 1)]), LABELS
        formula = b"P >= 1 U 0 tt P >= 333333334 X dead\n"
        self.assertEqual(judge(moves, labels, formula, printed([(0, BILLION, 40, "undecided"), (0, 0, 40, "no")])), [])
        for wrong in ((0, 0, 40, "no"), (BILLION, BILLION, 40, "yes")):
            self.assertNotEqual(judge(moves, labels, formula, printed([wrong, (0, 0, 40, "no")])), [])
        self.assertFalse(judge(moves, labels, formula.replace(b"333333334", b"333333333"), printed([(BILLION, BILLION, 40, "yes"), (0, 0, 40, "no")])))

    def test_between_of_an_inner_verdict(self):
        """The inner until is yes or undecided at state 0: with it open the lower end is that of no in both phases, and the upper that of yes."""
        formula = b"P >= 500000000 V 1 8 up " + NEAR + b"\n"
        yes_at_0, open_at_0 = (999_500_124, 999_500_125, 84, "yes"), (3_492_135, 999_500_125, 84, "undecided")
        none = (0, 0, 84, "no")
        for rows, good in (((yes_at_0, none), True), ((open_at_0, none), True), (((0, 999_500_125, 84, "undecided"), none), False),
                           (((BILLION, BILLION, 84, "yes"), none), False), ((yes_at_0, yes_at_0), False)):
            self.assertEqual(judge(MOVES, LABELS, formula, printed(rows)) == [], good, rows)
        allowed = allowed_ends(MOVES, LABELS, formula)
        self.assertEqual((allowed.verdicts, allowed.depth, allowed.width), ([{"yes", "undecided"}, {"no"}], 84, None))

    def test_between_within_until(self):
        """The inner limit is about 3,492,135.635: with the threshold between its ends it is undecided at state 0, and the until about it says so."""
        formula = b"P >= 1 U 0 tt P >= 3492136 V 1 8 up dead\n"
        open_, no = (0, BILLION, 40, "undecided"), (0, 0, 40, "no")
        self.assertEqual(judge(MOVES, LABELS, formula, printed([open_, no])), [])
        for wrong in ((BILLION, BILLION, 40, "yes"), (0, 0, 40, "no")):
            self.assertNotEqual(judge(MOVES, LABELS, formula, printed([wrong, no])), [])
        sure = formula.replace(b"3492136", b"3491800")
        self.assertEqual(judge(MOVES, LABELS, sure, printed([(BILLION, BILLION, 40, "yes"), no])), [])

    def test_possible_of_an_inner_verdict(self):
        """The inner until is yes at state 0, or undecided: only in the one way are the moves what decides the outer."""
        formula = b"P > 0 U 0.01 up & up ! " + NEAR + b"\n"
        impossible, open_ = (0, 0, 42, "no"), (0, BILLION, 42, "undecided")
        for rows, good in (((impossible, impossible), True), ((open_, impossible), True), (((0, 0, 42, "undecided"), impossible), False),
                           (((0, BILLION, 42, "no"), impossible), False), (((0, BILLION, 42, "yes"), impossible), False)):
            self.assertEqual(judge(MOVES, LABELS, formula, printed(rows)) == [], good, rows)
        self.assertEqual(allowed_ends(MOVES, LABELS, formula).verdicts, [{"no", "undecided"}, {"no"}])

    def test_possible_binds_inner_nodes(self):
        """State 0 comes to state 2 with a chance under a billionth: the inner `P > 0` is yes there, so the ends above it are points."""
        moves, labels = texts(row(3, 1))
        inner = b"P > 0 U 0.01 up dead"
        for formula, rows in ((b"P >= 1 U 0 tt " + inner, [(BILLION, BILLION, 40, "yes")] * 3), (b"! " + inner, [(0, 0, 0, "no")] * 3),
                              (b"P >= 1000000000 X " + inner, [(BILLION, BILLION, 0, "yes")] * 2 + [(0, 0, 0, "no")])):
            self.assertEqual(judge(moves, labels, formula + b"\n", printed(rows)), [], formula)
            for wrong in ((0, BILLION, rows[0][2], "undecided"), (0, 0, rows[0][2], "no" if rows[0][3] == "yes" else "yes")):
                self.assertNotEqual(judge(moves, labels, formula + b"\n", printed([wrong, *rows[1:]])), [], formula)

    def test_too_many(self):
        """The limit is put to the ways left; near ways are tried all the same."""
        moves, labels = texts(row(3, 500))
        job = refusal(moves, labels, b"P >= 1 U 1 tt " + NEAR + b"\n")
        with mock.patch.object(backing, "MOST_WORK", 5):
            with self.assertRaises(backing.TooMany):
                backing.operand_ways(Rules(job.chain), job.tree)
            two = b"P >= 1 U 0 tt " + NEAR + b"\n"
            near = printed([(0, 0, 40, "no"), (BILLION, BILLION, 40, "yes"), (BILLION, BILLION, 40, "yes")])
            self.assertEqual(judge(moves, labels, two, near), [])
            with self.assertRaises(backing.TooMany):
                judge(moves, labels, two, printed([(0, 0, 40, "no")] * 3))


def plain_ways(rules, node):
    """Every verdict vector of a node, each tried by itself."""
    below = [plain_ways(rules, each) for each in f.operands(node)]
    vectors = set()
    for each in product(*below):
        if isinstance(node, f.P):
            words = rules.verdicts(node, *each)
            vectors |= {v for v in product(WORDS, repeat=len(words)) if all(map(contains, words, v))}
        elif isinstance(node, (f.Not, f.And)):
            vectors.add(tuple(map(negate if isinstance(node, f.Not) else both, *each)))
        else:
            vectors.add(backing.marks_of(rules, node))
    return vectors


class Spelling(unittest.TestCase):
    def test_reads_back(self):
        random = Random(18)
        for _ in range(100):
            text = random_formula(random, random_chain(random, states=2), 5)
            self.assertEqual(f.spelled(f.read_formula(text + b"\n")), text)


class Ways(unittest.TestCase):
    def test_limit_of_pairs(self):
        """Two ways for each operand, three states: the four pairs are what is too many."""
        moves, labels = texts(row(3, 500))
        job = refusal(moves, labels, b"P >= 1 U 1 " + NEAR + b" " + NEAR + b"\n")
        with mock.patch.object(backing, "MOST_WORK", 6):
            self.assertEqual(len(backing.ways(Rules(job.chain), job.tree.path.first)), 2)
            with self.assertRaises(backing.TooMany):
                backing.operand_ways(Rules(job.chain), job.tree)

    def test_boxes_hold_every_way(self):
        most = 0
        for _, job in random_jobs(Random(16), 160, levels=4, states=(2, 2)):
            rules = Rules(job.chain)
            found = backing.ways(rules, job.tree)
            most = max(most, len(found))
            self.assertEqual(set(found), plain_ways(rules, job.tree))
        self.assertGreater(most, 2)

    def test_near_ways_are_ways(self):
        for _, job in random_jobs(Random(17), 80, levels=3, states=(3, 3)):
            rules = Rules(job.chain)
            found = backing.ways(rules, job.tree)
            self.assertTrue(all(backing.near(rules, job.tree, *off) in found for off in backing.OFFSETS))


class RandomBackings(unittest.TestCase):
    def test_every_backing_is_allowed(self):
        random, open_ways = Random(13), 0
        for job, read in random_jobs(random, 250, levels=4):
            self.assertNotIsInstance(read, int)
            rules = Rules(read.chain)
            open_ways += len(backing.boxes(rules, read.tree)) > 1
            for _ in range(3):
                text = printed(random_rows(random, rules, read.tree))
                self.assertEqual(judge(*job, text), [], (job, text))
        self.assertGreater(open_ways, 3)

    def test_allowed_ends_cover_every_backing(self):
        random = Random(14)
        for job, read in random_jobs(random, 60, levels=4):
            allowed = allowed_ends(*job)
            for s, row_ in enumerate(random_rows(random, Rules(read.chain), read.tree)):
                self.assertTrue(allowed.lower[s][0] <= row_[0] <= allowed.lower[s][1])
                self.assertTrue(allowed.upper[s][0] <= row_[1] <= allowed.upper[s][1])
                self.assertIn(row_[3], allowed.verdicts[s])
                self.assertEqual(row_[2], allowed.depth)

    def test_one_billionth_beyond_is_not_allowed(self):
        random = Random(15)
        for job, read in random_jobs(random, 60, levels=3):
            allowed = allowed_ends(*job)
            rows = random_rows(random, Rules(read.chain), read.tree)
            s = random.randrange(read.chain.states)
            for at, value in ((0, allowed.lower[s][1] + 1), (0, allowed.lower[s][0] - 1),
                              (1, allowed.upper[s][1] + 1), (1, allowed.upper[s][0] - 1)):
                altered = [list(row_) for row_ in rows]
                altered[s][at] = value
                self.assertNotEqual(judge(*job, printed(altered)), [])
