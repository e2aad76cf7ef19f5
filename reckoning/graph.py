"""Possible and certain, by the moves: where the fifth request of document 02 has these decide the verdict of a `P`.

An operand is given as a truth for each state. A move is one with a rate, whatever the rate is, and one to the own state is a move.
"""

from .formula import Next
from .limits import BILLION
from .verdict import NO, UNDECIDED, YES

EXTREMES = (0, BILLION)     # "thresholds 0 and 1,000,000,000"


def until_possible(chain, hundredths, first, second):
    """Until is possible "where the second operand holds, or, with time above 0, where states of the first operand, this one included, lead
    along moves to a state of the second".
    """
    found = leading(chain, first, second) if hundredths else holding(second)
    return tuple(s in found for s in range(chain.states))


def leading(chain, first, second):
    """The states of the second operand, and those that lead to one of them along moves, each move out of a state of the first.

    They are found in rounds: in each those that have a move to a state of the round before.
    """
    found = last = holding(second)
    while last:
        last = {source for source, target in chain.rates if target in last and first[source]} - found
        found = found | last
    return found


def holding(operand):
    """The states where an operand holds."""
    return {s for s, holds in enumerate(operand) if holds}


def until_certain(second):
    """Until is "certain only where the second holds", whatever the moves and the time are."""
    return tuple(second)


def next_possible(chain, operand):
    """Next is possible "where some move enters the operand"."""
    return tuple(any(operand[target] for target in row) for row in targets(chain))


def next_certain(chain, operand):
    """Next is certain "where moves exist and all do"."""
    return tuple(bool(row) and all(operand[target] for target in row) for row in targets(chain))


def targets(chain):
    """For each state where its moves lead."""
    rows = [[] for _ in range(chain.states)]
    for source, target in chain.rates:
        rows[source].append(target)
    return rows


def holds(comparison, threshold, possible, certain):
    """Whether a comparison with 0 or 1,000,000,000 holds: `>=` a billion asks for certain, `>` 0 for possible, `<` and `<=` are the opposites."""
    at_least = certain if threshold else True
    more = False if threshold else possible
    return {b">=": at_least, b"<": not at_least, b">": more, b"<=": not more}[comparison]


def decided(chain, node, operands):
    """The verdict of a `P` at each state whose operands have these verdicts; None where it is not the moves that decide: they leave "two phases to
    their ends".
    """
    if node.threshold not in EXTREMES or len(node.path.phases) == 2 or any(UNDECIDED in verdicts for verdicts in operands):
        return None
    truths = [tuple(verdict == YES for verdict in verdicts) for verdicts in operands]
    if isinstance(node.path, Next):
        possible, certain = next_possible(chain, *truths), next_certain(chain, *truths)
    else:
        possible, certain = until_possible(chain, *node.path.phases, *truths), until_certain(truths[1])
    return tuple(YES if holds(node.comparison, node.threshold, *pair) else NO for pair in zip(possible, certain))
