"""Jobs whose verdicts are known beforehand by how their moves lead: what is possible and what is certain.

Moves are as slow as can be and the time asked for is as short: one move in it has ten chances in a billion, two have less than one.
"""
import random
from collections import namedtuple
from itertools import product

from reckoning.formula import COMPARISONS
from reckoning.graph import EXTREMES
from reckoning.limits import MOST_STATES
from reckoning.sheets import labels_text, moves_text

SIZES = 3, 4, 8, 33, MOST_STATES        # states
SHORT = b"0.01"                         # hours
BOUNDS = list(product(COMPARISONS, EXTREMES))

# Moves as pairs of states, the states of the two operands, and those where the until is possible.
Led = namedtuple("Led", "states moves first second possible")


def known(count):
    """Sheets of so many states, by how their moves lead."""
    states = range(count)
    last, middle = count - 1, count // 2
    onward, back = [(s, s + 1) for s in states[:-1]], [(s, s - 1) for s in states[1:]]
    all_, after = set(states), set(states[middle + 1:])
    own = [(s, s) for s in states]
    return {
        "onward": Led(count, onward, all_, {last}, all_),
        "back": Led(count, back, all_, {0}, all_),
        "both ways": Led(count, onward + back, all_, {middle}, all_),
        "the first fails on the way": Led(count, onward, all_ - {middle}, {last}, after),
        "the first fails at the start": Led(count, onward, all_ - {0}, {last}, all_ - {0}),
        "the first fails at the second": Led(count, onward, all_ - {last}, {last}, all_),
        "a move that is not there": Led(count, [move for move in onward if move[0] != middle], all_, {last}, after),
        "against the moves": Led(count, onward, all_, {0}, {0}),
        "a ring": Led(count, [*onward, (last, 0)], all_, {middle}, all_),
        "a star": Led(count, [(s, last) for s in states[:-1]], all_, {last}, all_),
        "restarts besides": Led(count, onward + own, all_, {last}, all_),
        "restarts alone": Led(count, own, all_, {middle}, {middle}),
        "no moves": Led(count, [], all_, {middle}, {middle}),
        "no second": Led(count, onward, all_, set(), set()),
        "a tree": tree(count),
    }


def tree(count):
    """Each state but 0 has one move, to a lower one that is drawn; the first operand fails at some. From state 0 on it is seen who leads there."""
    draw = random.Random(count)
    to = {s: draw.randrange(s) for s in range(1, count)}
    first, possible = {s for s in to if draw.random() < 0.8}, {0}
    for s in to:
        if s in first and to[s] in possible:
            possible.add(s)
    return Led(count, list(to.items()), first, {0}, possible)


def sheet(led):
    """The two texts of such a sheet."""
    marks = [(s in led.first, s in led.second) for s in range(led.states)]
    return moves_text([(*move, 1) for move in sorted(led.moves)]), labels_text([b"up", b"dead"], marks)


def until_job(led, comparison, threshold, hours=SHORT):
    return *sheet(led), b"P %s %d U %s up dead\n" % (comparison, threshold, hours)


def next_job(led, comparison, threshold):
    return *sheet(led), b"P %s %d X dead\n" % (comparison, threshold)


def until_verdicts(led, comparison, threshold, in_time=True):
    """The word of each state; with no time only a state of the second comes to one."""
    possible = led.possible if in_time else led.second
    return words(led.states, comparison, threshold, possible, led.second)


def next_verdicts(led, comparison, threshold):
    """The word of each state: where some move enters the second, and where there are moves and none leads elsewhere."""
    possible = {s for s, to in led.moves if to in led.second}
    return words(led.states, comparison, threshold, possible, possible - {s for s, to in led.moves if to not in led.second})


def words(states, comparison, threshold, possible, certain):
    """What is said at each state: with 0 `>` asks for possible and `>=` for nothing, with a billion `>=` for certain and `>` for too much."""
    more, least = (possible, set(range(states))) if threshold == 0 else (set(), certain)
    where = more if comparison in (b">", b"<=") else least
    return ["yes" if (s in where) == (comparison in (b">", b">=")) else "no" for s in range(states)]


def far_away(hours):
    """Two rows of three, 0 to 2 and 3 to 5, and no move between them: an until of the first row, with a question of the second row in an operand.

    The one operand or the other holds besides where the end of the second row is reached within so many hours with at least one chance in a billion.
    That is undecided at state 3 for the shortest time, and decided everywhere for 100 hours; states 0 to 2 have nothing to do with it.
    """
    rows = [(1, 0, 0, 0), (1, 0, 0, 0), (0, 1, 0, 0), (0, 0, 1, 0), (0, 0, 1, 0), (0, 0, 0, 1)]
    sheet_texts = moves_text([(0, 1, 1), (1, 2, 1), (3, 4, 1), (4, 5, 1)]), labels_text([b"up", b"dead", b"far", b"end"], rows)
    beside = b"! & ! %%s ! P >= 1 U %s far end" % hours
    return [(*sheet_texts, b"P > 0 U %s %s %s\n" % (SHORT, *operands)) for operands in ((beside % b"up", b"dead"), (b"up", beside % b"dead"))]
