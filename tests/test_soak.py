"""A short soak; and that a soak of a library that is wrong somewhere stops there, keeps the job and can be run again."""
import random
import subprocess
import tempfile
import unittest
from collections import Counter
from pathlib import Path
from unittest import mock

from reckoning import formula as f
from reckoning.backing import near_operands
from reckoning.copying import SHORT_COPY, copied
from reckoning.ends import Rules, verdicts
from reckoning.graph import EXTREMES
from reckoning.limits import HOUR
from reckoning.refusal import BY_TEXTS, SHORT, needed, refusal
from reckoning.verdict import UNDECIDED, WORDS, of_ends
from tests import finding, soaking
from tests.agreement import rows_of
from tests.library import COPY, ENOUGH, GUARD, MORE, Library
from tests.mutations import some_lent
from tests.places import COPIER, PROGRAM, ROOT
from tests.program import run
from tests.soaking import soak, some_job, try_job

SOAK = ROOT / "tests" / "soak"
JOBS = 2_000
SEED = 22
FEW_STATES = 8              # of a job whose bounds are looked at


class Wrong:
    """A library whose checks are changed by a function, or whose copies are."""

    def __init__(self, library, change=lambda called: called, change_copy=lambda called: called):
        self.library, self.change, self.change_copy = library, change, change_copy

    def check(self, job, lent=ENOUGH):
        return self.change(self.library.check(job, lent))

    def copy(self, sheet, room=COPY):
        return self.change_copy(self.library.copy(sheet, room))


class ByEnds(Wrong):
    """A library that has every verdict of an outermost `P` from its ends."""

    def check(self, job, lent=ENOUGH):
        called = self.library.check(job, lent)
        tree = None if called.number else f.read_formula(job[2])
        if not isinstance(tree, f.P):
            return called
        rows = rows_of(called, job[1].count(b"\n") - 1)
        data = bytes(WORDS.index(of_ends(tree.comparison, tree.threshold, row.lower, row.upper)) for row in rows)
        verdicts = called.after.verdicts
        return called._replace(after=called.after._replace(verdicts=verdicts[:GUARD] + data + verdicts[GUARD + len(data):]))


def one_for_another(called):
    """13 and 14 exchanged: these two are seldom."""
    return called._replace(number={13: 14, 14: 13}.get(called.number, called.number))


def lower_above_upper(called):
    """The first lower end, where there is a report, one above the upper end."""
    if called.number:
        return called
    start, end = GUARD * 4, (GUARD + 1) * 4
    lower = int.from_bytes(called.after.upper[start:end], "little") + 1
    data = called.after.lower[:start] + lower.to_bytes(4, "little") + called.after.lower[end:]
    return called._replace(after=called.after._replace(lower=data))


def another_state_first(called):
    """The first number of the order, where there is a report, another one."""
    if called.number:
        return called
    at = GUARD * 2
    data = called.after.order[:at] + bytes([called.after.order[at] ^ 1]) + called.after.order[at + 1:]
    return called._replace(after=called.after._replace(order=data))


class FirstOfPairs(Wrong):
    """A library that takes the first line of each pair of states and leaves out those that stand there again."""

    def check(self, job, lent=ENOUGH):
        called = self.library.check(job, lent)
        if called.number:
            return called
        head, *lines = job[0].splitlines(keepends=True)
        firsts = {line.rpartition(b",")[0]: line for line in reversed(lines)}
        other = self.library.check((b"".join([head, *firsts.values()]), *job[1:]), lent)
        return other._replace(before=other.before._replace(moves=called.before.moves), after=other.after._replace(moves=called.after.moves),
                              texts=tuple(job))


def no_refusal_of_17(called):
    """A copy that is too long is said to be there."""
    return called._replace(number=0) if called.number == SHORT_COPY else called


def a_byte_beyond(called):
    """The byte behind the lent buffer another one."""
    at = GUARD + called.lent
    data = called.after.copy[:at] + bytes([called.after.copy[at] ^ 1]) + called.after.copy[at + 1:]
    return called._replace(after=called.after._replace(copy=data))


def length_left(called):
    """The length as it was."""
    return called._replace(after=called.after._replace(length=called.before.length))


KINDS = {(): "next move", (0,): "no time"}


def kinds_of(job):
    """What there is to say of the bounds of a job that ask for possible or certain, the ends taken as near as can be."""
    rules = Rules(job.chain)
    for node in f.bounds(job.tree):
        if node.threshold in EXTREMES:
            operands = near_operands(rules, node)
            two = len(node.path.phases) == 2
            yield "two phases" if two else KINDS.get(node.path.phases, "until")
            yield "outermost" if node is job.tree else "inner"
            if any(UNDECIDED in operand for operand in operands):
                yield "an operand undecided"
            elif any(UNDECIDED in verdicts(node, ends) for ends in rules.ends(node.path, *operands)):
                yield "the ends do not tell" if two else "the ends would not tell"


def phases_of(job):
    """What there is to say of the untils between two times of a job, the ends taken as near as can be."""
    rules = Rules(job.chain)
    for node in f.bounds(job.tree):
        if isinstance(node.path, f.Between):
            earliest, latest = node.path.times
            yield "from 0" if earliest == 0 else "equal times" if earliest == latest else "rising times"
            yield "no moves" if rules.chain.q == 0 else "moves"
            if earliest % HOUR and latest % HOUR:
                yield "decimals"
            if any(UNDECIDED in operand for operand in near_operands(rules, node)):
                yield "an operand undecided"
            yield from ("inside a " + type(other.path).__name__ for other in f.bounds(job.tree) if node in f.nodes(other)[1:])
            yield from ("about a " + type(other.path).__name__ for other in f.bounds(node)[1:])


def lines_of(job):
    """What there is to say of the lines of a job's moves."""
    pairs = [move[:2] for move in job.moves]
    yield "rising" if pairs == sorted(pairs) else "not rising"
    yield "pairs again" if len(set(pairs)) < len(pairs) else "each pair once"
    if any(source == target and pairs.count((source, target)) > 1 for source, target in pairs):
        yield "a restart again"


class Soak(unittest.TestCase):
    @classmethod
    def setUpClass(cls):
        cls.library = Library()

    def test_no_disagreement(self):
        ended = soak(JOBS, SEED, self.library)
        self.assertEqual((ended.faults, ended.counts["jobs"]), ([], JOBS), ended)
        self.assertEqual(ended.counts["by the program"], JOBS // soaking.PROGRAM_EVERY)
        self.assertEqual(ended.counts["copied"], JOBS // soaking.COPY_EVERY)
        self.assertLess(ended.counts["given up"], 0.05 * JOBS)
        self.assertGreater(ended.counts[0], 0.2 * JOBS)
        self.assertLessEqual({0, *BY_TEXTS, SHORT} - {5}, set(ended.counts))

    def test_a_wrong_number_is_found(self):
        ended = soak(JOBS, SEED, Wrong(self.library, one_for_another))
        self.assertIn(ended.faults, (["number 14, should be 13"], ["number 13, should be 14"]))

    def test_a_wrong_end_is_found(self):
        ended = soak(JOBS, SEED, Wrong(self.library, lower_above_upper))
        self.assertRegex("".join(ended.faults), "^state 0: ends ")

    def test_a_wrong_order_is_found(self):
        ended = soak(JOBS, SEED, Wrong(self.library, another_state_first))
        self.assertRegex("".join(ended.faults), r"^row 1 of the order is state \d+, should be \d+$")

    def test_verdicts_from_the_ends_are_found(self):
        """Once the moves decide a verdict, a library that goes by the ends is told."""
        ended = soak(JOBS, SEED, ByEnds(self.library))
        self.assertRegex("".join(ended.faults), r"^state \d+: verdict undecided does not follow from the moves")

    def test_wrong_copies_are_found(self):
        for change, told in ((no_refusal_of_17, "number 0 of a copy, should be 17"), (a_byte_beyond, "copy of a copy or a guard"),
                             (length_left, "length of a copy or a guard")):
            ended = soak(JOBS, SEED, Wrong(self.library, change_copy=change))
            self.assertTrue(ended.faults[0].startswith(told), ended.faults)
            self.assertEqual(ended.counts["jobs"] % soaking.COPY_EVERY, 0)

    def test_rates_that_are_not_added_are_found(self):
        self.assertRegex(soak(JOBS, SEED, FirstOfPairs(self.library)).faults[0], r"^state \d+: |^the report on the clean copy ")

    def test_lines_in_any_order(self):
        """Of the jobs that are accepted many have lines that do not rise, pairs that stand again, and copies that are other texts."""
        rng, seen = random.Random(SEED), Counter()
        for job in (some_job(rng) for _ in range(JOBS)):
            reckoned = refusal(*job)
            if not isinstance(reckoned, int):
                seen.update([*lines_of(reckoned), "another copy" if copied(*job[:2]) != job[0] else "the same"])
        for kind in ("rising", "not rising", "pairs again", "each pair once", "a restart again", "another copy", "the same"):
            self.assertGreater(seen[kind], JOBS // 40, seen)

    def test_thresholds_that_the_moves_decide(self):
        """Of the bounds in the jobs that are tried, many have these thresholds: decided operands and undecided ones, until and next move, outermost
        and inner, with no time and with some; and verdicts that the ends would not tell."""
        rng, seen = random.Random(SEED), Counter()
        for reckoned in (refusal(*some_job(rng)) for _ in range(JOBS)):
            if not isinstance(reckoned, int) and reckoned.chain.states <= FEW_STATES:
                seen.update(kinds_of(reckoned))
        for kind in ("until", "next move", "no time", "two phases", "inner", "outermost", "the ends would not tell", "the ends do not tell",
                     "an operand undecided"):
            self.assertGreater(seen[kind], 15, seen)

    def test_untils_between_two_times(self):
        """Of the jobs that are tried many have these, with all kinds of times and operands, inside other questions and about them."""
        rng, seen = random.Random(SEED), Counter()
        for reckoned in (refusal(*some_job(rng)) for _ in range(JOBS)):
            if not isinstance(reckoned, int) and reckoned.chain.states <= FEW_STATES:
                seen.update(phases_of(reckoned))
        for kind in ("from 0", "equal times", "rising times", "decimals", "moves", "no moves", "an operand undecided",
                     *(f"{where} a {each}" for where in ("inside", "about") for each in ("Until", "Between", "Next"))):
            self.assertGreater(seen[kind], 10, seen)

    def test_move_words_of_all_lengths_are_lent(self):
        """Just enough, one short, half, one more and many more; short ones alone are refused with 15."""
        rng, over = random.Random(SEED), Counter()
        for job in (some_job(rng) for _ in range(JOBS)):
            reckoned = refusal(*job)
            if not isinstance(reckoned, int) and reckoned.moves:
                lent, need = some_lent(rng, job), needed(reckoned)
                over[lent.moves - need.moves if lent.moves != len(reckoned.moves) else "half"] += 1
                if lent._replace(moves=need.moves) == need:
                    self.assertEqual(refusal(*job, lent) == SHORT, lent.moves < 2 * len(reckoned.moves))
        self.assertLessEqual({-1, 0, 1, MORE, "half"}, set(over))

    def test_order_buffers_of_all_lengths_are_lent(self):
        """Just enough, one short, one more and many more; short ones alone are refused with 15."""
        rng, over = random.Random(SEED), Counter()
        for job in (some_job(rng) for _ in range(JOBS)):
            reckoned = refusal(*job)
            if not isinstance(reckoned, int):
                lent, need = some_lent(rng, job), needed(reckoned)
                over[lent.order - need.order] += 1
                if lent._replace(order=need.order) == need:
                    self.assertEqual(refusal(*job, lent) == SHORT, lent.order < need.order)
        self.assertLessEqual({-1, 0, 1, MORE}, set(over))
        self.assertTrue(any(each < -1 for each in over) and any(each > MORE for each in over), over)

    def test_mark_bytes_of_all_lengths_are_lent(self):
        """Just enough, one short, one more, many more, and of formulas of more than 17 nodes one for each node and state; short ones alone are refused
        with 15."""
        rng, over = random.Random(SEED), Counter()
        for job in (some_job(rng) for _ in range(JOBS)):
            reckoned = refusal(*job)
            if not isinstance(reckoned, int):
                lent, need = some_lent(rng, job), needed(reckoned)
                count, states = len(f.nodes(reckoned.tree)), reckoned.chain.states
                over["each node" if count > 17 and lent.marks == count * states else lent.marks - need.marks] += 1
                over["many nodes"] += count > 17
                if lent._replace(marks=need.marks) == need:
                    self.assertEqual(refusal(*job, lent) == SHORT, lent.marks < min(17, count) * states)
        self.assertLessEqual({-1, 0, 1, MORE, "each node"}, set(over))
        self.assertGreater(over["many nodes"], JOBS // 40)

    def test_a_wrong_program_is_found(self):
        """The one that checks, and the one that copies."""
        for wrong, told in ((PROGRAM, "the program prints"), (COPIER, "the program that copies prints")):
            def printed(job, command=(PROGRAM,)):
                return b"refused\n7\n" if command == (wrong,) else run(job, command=command)
            with mock.patch.object(soaking, "run", printed):
                ended = soak(JOBS, SEED, self.library)
            self.assertEqual(ended.counts["jobs"], soaking.PROGRAM_EVERY)
            self.assertTrue(ended.faults[0].startswith(told), ended.faults)

    def test_a_kept_job_can_be_tried_again(self):
        wrong = Wrong(self.library, one_for_another)
        ended = soak(JOBS, SEED, wrong)
        with tempfile.TemporaryDirectory() as folder:
            finding.keep(Path(folder) / "found", ended.job, ended.lent)
            job, lent = finding.kept(Path(folder) / "found")
            self.assertEqual((job, lent), (ended.job, ended.lent))
            self.assertEqual(try_job(wrong, job, lent, by_program=False)[1], ended.faults)
            done = subprocess.run([SOAK, "--again", Path(folder) / "found"], stdout=subprocess.PIPE, text=True)
            self.assertEqual((done.stdout, done.returncode), ("no faults\n", 0))

    def test_command(self):
        done = subprocess.run([SOAK, "60", "--seed", "5"], stdout=subprocess.PIPE, text=True)
        self.assertEqual(done.returncode, 0)
        first, last = done.stdout.splitlines()
        self.assertEqual(first, "seed 5")
        self.assertRegex(last, r"^60 jobs, 2 of them by the program too, 12 with a copy of their moves; \d+ accepted; refused .*; "
                               r"\d+ given up by the judge$")


if __name__ == "__main__":
    unittest.main()
