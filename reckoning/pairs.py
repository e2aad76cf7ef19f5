"""Bounds of all quotients of two phases, for each pair of depths from the phases' own on, in exact whole numbers.

Quotients rise with the depth of the later phase: there they do by themselves, and the earlier phase, no factor of whose steps is below 0, takes
starts that are nowhere less to quotients that are nowhere less. With the depth of the earlier phase they rise or fall, or do both. So the infimum
is one over that depth alone, the later phase at its own, and the supremum lies where the later phase has come to its limit.
"""

from fractions import Fraction

from .bracket import Bounds, Run, ceil_billionths, floor_billionths
from .chain import depth, earlier, until
from .graph import leading, until_possible
from .limits import BILLION

DEEPER = 0, 16, 64, 256     # steps that phases go beyond their own depths, until all bounds are settled


class Unsettled(Exception):
    """However deep one goes, it cannot be told on which side of a whole billionth the quotients end; they may end just there."""


class Pair:
    """The earlier phase from its own depth to so many steps beyond it, the later one at so many steps beyond its own.

    `least` and `greatest` are the quotients of each state there. `missing` is the most that the later phase's limit lies above what the earlier one
    starts from, see `Run.enclosure`; no step makes more of it.
    """

    def __init__(self, chain, first, second, phases, more, later_more):
        own, later_own = (depth(chain.load(hundredths)) for hundredths in phases)
        later = Run(chain, until(first, second, phases[1])).to(later_own + later_more)
        self.missing = Fraction(later.weight, later.total + later.weight)
        self.run = Run(chain, earlier(first, later.quotients(), phases[0])).to(own)
        self.least = self.greatest = self.run.quotients()
        for _ in range(more):
            self.run.step()
            found = self.run.quotients()
            self.least, self.greatest = list(map(min, self.least, found)), list(map(max, self.greatest, found))

    def down(self, s):
        """The infimum of a state over all depths of the earlier phase, which is below 1, rounded down; None if still open."""
        low = floor_billionths(min(self.least[s], self.run.enclosure(s)[0]))
        high = min(BILLION - 1, floor_billionths(self.least[s]))
        return low if low == high else None

    def up(self, s):
        """The supremum of a state over all depths of both phases, which is above 0, rounded up; None if still open."""
        low = max(1, ceil_billionths(self.greatest[s]))
        high = min(BILLION, ceil_billionths(max(self.greatest[s], self.run.enclosure(s)[1]) + self.missing))
        return high if low == high else None


def bracket_pairs(chain, first, second, *phases):
    """For each state the Bounds of all quotients of two phases of so many hundredths of an hour, the earlier one first.

    With q = 0 no value changes. Elsewhere the moves tell where all quotients are 0 and where all are 1, and the rest is settled by going deeper.
    """
    if chain.q == 0:
        return [Bounds(*[BILLION if a and b else 0] * 2) for a, b in zip(first, second)]
    possible, certain = pair_possible(chain, first, second, phases[1]), pair_certain(chain, first, second)
    for more in DEEPER:
        beyond = Pair(chain, first, second, phases, more, more)
        at_own = Pair(chain, first, second, phases, more, 0) if more else beyond
        downs = [BILLION if certain[s] else at_own.down(s) for s in range(chain.states)]
        ups = [beyond.up(s) if possible[s] else 0 for s in range(chain.states)]
        if None not in downs + ups:
            return list(map(Bounds, downs, ups))
    raise Unsettled("quotients of two phases that seem to end at a whole billionth")


def pair_possible(chain, first, second, hundredths):
    """Where a quotient of two phases is above 0 at some depths: where states of the first lead to one of the first whose until is possible."""
    start = [a and b for a, b in zip(first, until_possible(chain, hundredths, first, second))]
    found = leading(chain, first, start)
    return tuple(s in found for s in range(chain.states))


def pair_certain(chain, first, second):
    """Where all quotients of two phases are 1: where no moves lead to a state that fails an operand."""
    failing = leading(chain, (True,) * chain.states, [not (a and b) for a, b in zip(first, second)])
    return tuple(s not in failing for s in range(chain.states))
