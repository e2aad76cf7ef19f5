"""Jobs whose order is known beforehand: the chance of each state is given, and so is which state is worse than which.

Each state moves to a last one, `dead`, with the share of its moves that is given in thousandths; its other moves are restarts. The next move is
asked for, so that the lower end of a state is its share, to the billionth. The last state has no move, so its ends are 0.
"""
from itertools import product

from reckoning.limits import BILLION, MOST_STATES
from reckoning.sheets import labels_text, moves_text

WHOLE = 1_000               # thousandths
SIZES = 1, 2, 3, 4, 5, 7, 8, 9, 31, 32, 33, 255, 256, 257, MOST_STATES - 1      # states without the last


def shares_job(shares):
    """The job in which so many thousandths of the moves out of each state, from 1 on, lead to the last state."""
    last = len(shares)
    moves = [move for state, share in enumerate(shares) for move in ((state, state, WHOLE - share), (state, last, share)) if move[2]]
    return moves_text(moves), labels_text([b"dead"], [[state == last] for state in range(last + 1)]), b"P >= 500000000 X dead\n"


def lower_end(share):
    return share * BILLION // WHOLE


def known(count):
    """For so many states and the last one: shares by what they do, and the order that they lead to."""
    states = list(range(count))
    even, odd = states[::2], states[1::2]
    return {
        "falling": ([WHOLE - state for state in states], [*states, count]),
        "rising": ([1 + state for state in states], [*states[::-1], count]),
        "equal": ([7] * count, [*states, count]),
        "by turns": ([5 + state % 2 for state in states], [*odd, *even, count]),
        "two by two rising": ([1 + state // 2 for state in states],
                              [state for pair in reversed(range(0, count, 2)) for state in states[pair:pair + 2]] + [count]),
        "one out of place": ([*(WHOLE - 1 - state for state in states[:-1]), WHOLE], [*states[-1:], *states[:-1], count]),
    }


def every_five():
    """Every way in which five states can be worse than, better than or equal to each other, in three steps."""
    return map(list, product((1, 2, 3), repeat=5))
