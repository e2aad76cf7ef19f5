"""Writes the sheets of the bench: chains drawn from a seed, always the same for the same numbers."""
import random
from collections import namedtuple

from reckoning.__main__ import FILES
from reckoning.limits import MOST_LEVELS, MOST_MOVES, MOST_STATES, RATE_HOURS
from reckoning.sheets import NO_MOVES, labels_text, moves_text
from tests.orders import shares_job

TOP_RATE = RATE_HOURS                   # the greatest exit rate of every sheet: the load of an until over t hours is t
HOURS = [1, 32, 64]                     # loads, and so depths 42, 104 and 168
SIZES = [(64, 7), (256, 7), (MOST_STATES, 7)]               # states, and moves out of each
SHAPES = [(MOST_STATES, 2), (MOST_STATES, 4), (256, 14), (64, 28)]
DEAD_OF = 32                            # one state of so many is dead
ROWS = [(MOST_STATES, 1), (MOST_STATES, 7)]                 # the same of rows, in which one state after the other leads to the last
NESTED = MOST_LEVELS - 1                # untils, one in the other, of the deepest formula
RESTART_RATE = RATE_HOURS // 10         # of the move to the own state, in a sheet with restarts

# A sheet in a folder: its number of states and of moves.
Sheet = namedtuple("Sheet", "folder states moves")


def parts(draw, whole, count):
    """So many whole numbers from 1 that add up to the whole."""
    cuts = sorted(draw.sample(range(1, whole), count - 1))
    return [after - before for before, after in zip([0] + cuts, cuts + [whole])]


def row(draw, state, states, per_state):
    """The moves out of a state: about so many of them, and exit rates from a third of the greatest up to it, which state 0 has."""
    count = min(states - 1, draw.randint(per_state - per_state // 3, per_state + per_state // 3))
    exit_rate = TOP_RATE if state == 0 else draw.randint(TOP_RATE // 3, TOP_RATE)
    targets = sorted(draw.sample([other for other in range(states) if other != state], count))
    return [(state, to, rate) for to, rate in zip(targets, parts(draw, exit_rate, count))]


def write(folder, states, per_state, restarts=False):
    """Writes moves.txt and labels.txt of a sheet with so many states and about so many moves out of each.

    With restarts the same sheet has a move to the own state at each state besides.
    """
    draw = random.Random(1000 * states + per_state)
    dead = set(draw.sample(range(1, states), max(1, states // DEAD_OF)))
    moves = [move for state in range(states) for move in row(draw, state, states, per_state)]
    if restarts:
        moves = sorted(moves + [(state, state, RESTART_RATE) for state in range(states)])
    assert len(moves) <= MOST_MOVES
    marks = [(state not in dead, state in dead) for state in range(states)]
    return written(folder, moves_text(moves), labels_text([b"up", b"dead"], marks))


def write_row(folder, states, per_state):
    """Writes a sheet in which each state but the last moves on to the next and to those just before it, and the last alone is dead."""
    last, moves = states - 1, []
    for state in range(last):
        others = range(max(0, state + 1 - per_state), state)
        rate = TOP_RATE // (len(others) + 1)
        moves += [(state, to, rate) for to in others] + [(state, state + 1, TOP_RATE - rate * len(others))]
    return written(folder, moves_text(moves), labels_text([b"up", b"dead"], [(state < last, state == last) for state in range(states)]))


def write_shares(folder, shares):
    """Writes a sheet whose states move to a last one, `dead`, with these shares of their moves, in thousandths."""
    moves, labels, _ = shares_job(shares)
    return written(folder, moves, labels)


def write_bare(folder, states):
    """Writes a sheet with so many states, no labels and no moves."""
    return written(folder, NO_MOVES, labels_text([], [[]] * states))


def moves_of(sheet):
    """The moves of a sheet that the bench wrote, as (from, to, rate)."""
    lines = (sheet.folder / FILES[0]).read_bytes().splitlines()[1:]
    return [tuple(map(int, line.split(b","))) for line in lines]


def retyped(sheet, moves, folder):
    """Writes a sheet once more, with these moves as its lines."""
    return written(folder, moves_text(moves), (sheet.folder / FILES[1]).read_bytes())


def written(folder, moves, labels):
    """Writes the two texts of a sheet."""
    folder.mkdir(parents=True, exist_ok=True)
    for name, text in zip(FILES, (moves, labels)):
        (folder / name).write_bytes(text)
    states, lines = (text.count(b"\n") - 1 for text in (labels, moves))
    return Sheet(folder, states, lines)


def until(hours):
    """The question of the bench: does a state come to a dead one within so many hours? No state is undecided below it."""
    return f"P >= 500000000 U {hours} tt dead"


def between(first, last):
    """Is a state dead at some time between these hours? No state is undecided below it."""
    return f"P >= 500000000 V {first} {last} tt dead"


def more_than(threshold, hours):
    """Does a state come to a dead one within so many hours with more than so many chances in a billion?"""
    return f"P > {threshold} U {hours} tt dead"


def next_move():
    """Does the next move lead to a dead state? No state is undecided below it."""
    return "P >= 500000000 X dead"


def three_untils(hours):
    """The same until three times over, judged against three thresholds."""
    return f"& {until(hours)} & P >= 400000000 U {hours} tt dead P >= 300000000 U {hours} tt dead"


def deepest(hours):
    """As many untils, each inside the other, as a formula may have levels."""
    return f"P >= 500000000 U {hours} tt " * NESTED + "dead"
