"""Jobs that ask for an until between two times, and what is known of their answers beforehand."""
import re
from itertools import product

from reckoning.limits import BILLION, MOST_RATE, MOST_STATES
from reckoning.sheets import LABELS, MOVES, NO_MOVES, labels_text, moves_text

WITHIN = re.compile(rb"U (?=\S)")
COMBINATIONS = list(product((1, 0), repeat=2))      # of the two operands


def from_time_0(job):
    """The same job with "between 0 and t hours" in the place of "within t hours", everywhere: the same report, to the last byte."""
    moves, labels, formula = job
    return moves, labels, WITHIN.sub(b"V 0 ", formula)


def small(typed, first=b"up"):
    """Two times put to the small sheet."""
    return MOVES, LABELS, b"P < 1 V %s %s dead\n" % (typed, first)


def no_moves(typed):
    """A state for each way in which the two operands hold or fail, and no moves."""
    return NO_MOVES, labels_text([b"up", b"dead"], COMBINATIONS), b"P > 5 V %s up dead\n" % typed


def no_moves_ends():
    """The ends of these states with the first time above 0: the first operand has to hold besides the second."""
    return [(BILLION, BILLION) if first and second else (0, 0) for first, second in COMBINATIONS]


def in_the_middle(typed):
    """A row of three states, left once an hour: is it in the middle state between these times, whatever was before?"""
    return moves_text([(0, 1, 1_000_000), (1, 2, 1_000_000)]), labels_text([b"mid"], [[0], [1], [0]]), b"P >= 500000000 V %s tt mid\n" % typed


def never_left(typed):
    """Two states, each left for the other once an hour: is it in the first between these times, and was it there all the time before?"""
    return moves_text([(0, 1, 1_000_000), (1, 0, 1_000_000)]), labels_text([b"here"], [[1], [0]]), b"P >= 500000000 V %s here here\n" % typed


def slow_row(bound, typed):
    """Three states in a row, left once in a million hours: the last is reached from the first, though no billionth tells of it."""
    return (moves_text([(0, 1, 1), (1, 2, 1)]), labels_text([b"up", b"dead"], [(1, 0), (1, 0), (0, 1)]),
            b"P %s V %s up dead\n" % (bound, typed))


def largest():
    """As many states as there may be, each left as fast as may be, and the greatest load in both phases."""
    moves = [(s, (s + 1) % MOST_STATES, MOST_RATE) for s in range(MOST_STATES)]
    return moves_text(sorted(moves)), labels_text([b"dead"], [[s % 32 == 0] for s in range(MOST_STATES)]), b"P >= 5 V 1 2 tt dead\n"
