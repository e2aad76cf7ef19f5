"""Turned-back jobs and sheets: the ordered list of tests, and what passes them all."""

from collections import Counter, namedtuple
from functools import cached_property

from . import formula as f
from . import texts
from .chain import Chain
from .limits import (FORMULA_BYTES, VECTOR_SPARE, MOST_HUNDREDTHS, MOST_LEVELS, MOST_MOVES, MOST_NODES, MOST_RATE, MOST_RATE_HUNDREDTHS,
                     MOST_ROWS, MOST_STATES, MOST_THRESHOLD, MOVE_PLACES, SHEET_BYTES, VECTOR_PLACES)

Lent = namedtuple("Lent", "lower upper verdicts order moves vectors marks")


class Sheet:
    """A moves and a labels text, and what is read of them once the tests below have let them through."""

    def __init__(self, moves, labels):
        self.moves_text, self.labels_text = moves, labels

    @cached_property
    def move_lines(self):
        return texts.lines(self.moves_text)

    @cached_property
    def label_lines(self):
        return texts.lines(self.labels_text)

    @cached_property
    def names(self):
        return texts.fields(self.label_lines[0])[1:]

    @cached_property
    def state_rows(self):
        return [[int(part) for part in texts.fields(line)] for line in self.label_lines[1:]]

    @cached_property
    def moves(self):
        """The lines of moves as they stand: (from, to, rate), in any order, a pair perhaps several times."""
        return [tuple(int(part) for part in texts.fields(line)) for line in self.move_lines[1:]]

    @cached_property
    def chain(self):
        """Of lines in any order, "repeated pairs are added together"."""
        rates = Counter()
        for source, target, rate in self.moves:
            rates[source, target] += rate
        columns = list(zip(*self.state_rows))[1:]
        marks = {name: tuple(map(bool, column)) for name, column in zip(self.names, columns)}
        return Chain(len(self.state_rows), dict(rates), marks)


class Job(Sheet):
    """The three texts and the lent lengths."""

    def __init__(self, moves, labels, formula, lent=None):
        super().__init__(moves, labels)
        self.formula_text, self.lent = formula, lent

    @cached_property
    def tree(self):
        """None where the formula breaks the grammar."""
        return f.read_formula(self.formula_text)


def wrong_size(text, most):
    """Whether a text is empty or over its byte limit."""
    return not 0 < len(text) <= most


def empty_or_long_sheet(sheet):
    return wrong_size(sheet.moves_text, SHEET_BYTES) or wrong_size(sheet.labels_text, SHEET_BYTES)


def empty_or_long(job):
    return empty_or_long_sheet(job) or wrong_size(job.formula_text, FORMULA_BYTES)


def broken_line(sheet):
    if not (texts.ends_in_line_feed(sheet.moves_text) and texts.ends_in_line_feed(sheet.labels_text)):
        return True
    width = len(texts.fields(sheet.label_lines[0]))
    return (not all(map(texts.is_move_line, sheet.move_lines[1:]))
            or not all(texts.is_state_line(line, width) for line in sheet.label_lines[1:]))


def wrong_first_line(sheet):
    return sheet.move_lines[0] != texts.MOVES_HEAD or not texts.is_labels_head(sheet.label_lines[0])


def wrong_states(sheet):
    count = len(sheet.state_rows)
    return not 1 <= count <= MOST_STATES or any(row[0] != at for at, row in enumerate(sheet.state_rows))


def many_moves(sheet):
    """Lines are counted, and not pairs."""
    return len(sheet.moves) > MOST_MOVES


def unknown_state(sheet):
    count = len(sheet.state_rows)
    return any(source >= count or target >= count for source, target, _ in sheet.moves)


def wrong_rate(sheet):
    """Each line's rate and the totals of the states are looked at; these have the moves to the own state in them."""
    return any(rate == 0 for _, _, rate in sheet.moves) or max(sheet.chain.totals) > MOST_RATE


def broken_formula(job):
    return job.tree is None


def large_formula(job):
    return len(f.nodes(job.tree)) > MOST_NODES or f.levels(job.tree) > MOST_LEVELS


def unknown_name(job):
    return any(isinstance(node, f.Label) and node.name not in job.names for node in f.nodes(job.tree))


def large_number(job):
    """Both times of a `V` are tested."""
    return (any(p.threshold > MOST_THRESHOLD for p in f.bounds(job.tree))
            or any(time > MOST_HUNDREDTHS for path in f.paths(job.tree) for time in path.times))


def falling_times(job):
    """The first time of a `V` exceeds the second."""
    return any(first > second for path in f.paths(job.tree) for first, second in zip(path.times, path.times[1:]))


def large_load(job):
    """Of each phase, "14 tests each phase". Moves to the own state are not in q."""
    return any(job.chain.q * hundredths > MOST_RATE_HUNDREDTHS for path in f.paths(job.tree) for hundredths in path.phases)


def lengths(states, moves, nodes):
    """The seven lengths that the caller lends for so many states, move lines and nodes."""
    return Lent(lower=states, upper=states, verdicts=states, order=states, moves=MOVE_PLACES * moves,
                vectors=VECTOR_PLACES * states + VECTOR_SPARE, marks=min(MOST_ROWS, nodes) * states)


def needed(job):
    """The seven lengths that the caller lends for a job."""
    return lengths(len(job.state_rows), len(job.moves), len(f.nodes(job.tree)))


def short_buffer(job):
    """Any of the seven; of the order buffer "15 covers it too"."""
    return job.lent is not None and any(has < need for has, need in zip(job.lent, needed(job), strict=True))


# Document 01's table, in the order of its tests: those of a sheet that is neither empty nor too long, and all of a job. "7 is never given again";
# "8 is never given again"; "16 .. tested after 13 and before 14".
SHEET_TESTS = (
    (2, broken_line),
    (3, wrong_first_line),
    (4, wrong_states),
    (5, many_moves),
    (6, unknown_state),
    (9, wrong_rate),
)
TESTS = (
    (1, empty_or_long),
    *SHEET_TESTS,
    (10, broken_formula),
    (11, large_formula),
    (12, unknown_name),
    (13, large_number),
    (16, falling_times),
    (14, large_load),
    (15, short_buffer),
)
SHORT = 15
BY_TEXTS = frozenset(number for number, _ in TESTS if number != SHORT)      # the numbers that three texts alone can be refused with


def refusal(moves, labels, formula, lent=None):
    """The number of the first test that holds, or the accepted job.

    `lent` is the seven lent lengths in the order of `Lent`; None is long enough.
    """
    return tested(TESTS, Job(moves, labels, formula, lent))


def tested(tests, what):
    """The number of the first of these tests that holds of a job or a sheet, or that job or sheet itself."""
    return next((number for number, holds in tests if holds(what)), what)
