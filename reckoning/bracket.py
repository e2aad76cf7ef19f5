"""Bounds of all quotients of an until from depth D on, in exact whole numbers.

The step values of a phase are kept as tops over a power of q, the sums as tops over one divisor,
so that no fraction is ever reduced in the inner loop.
"""

from collections import namedtuple
from fractions import Fraction
from math import gcd, lcm

from .chain import depth, until
from .limits import BILLION, RATE_HUNDREDTHS

# `down`: the greatest whole billionth below or at all quotients from D on.
# `up`: the least whole billionth above or at all of them.
Bounds = namedtuple("Bounds", "down up")


class Run:
    """The sums of a phase to the depth reached, step by step.

    With all rates divided by g, their greatest common divisor, q' = q / g and x / y = t g / 10^8, the
    weight of step k is (x q' / y)^k / k! and a step value has a top over q'^k. So weight x value is
    tops / (y^k k!), where each step multiplies the tops by x times the divided rates. `sums` and
    `total` are over y^N N! at depth N; `weight` is the top of the last weight alone.
    """

    def __init__(self, chain, phase):
        self.chain, self.phase, self.depth = chain, phase, 0
        g = gcd(*chain.rates.values()) or 1
        share = Fraction(phase.hundredths * g, RATE_HUNDREDTHS)
        self.x, self.y = share.numerator, share.denominator
        self.q = chain.q // g
        self.rows = [self.row(s, g) for s in range(chain.states) if s not in phase.ones | phase.zeros]
        start = [Fraction(value) for value in phase.start]
        self.weight = lcm(*(value.denominator for value in start))
        self.tops = [int(value * self.weight) for value in start]
        self.sums, self.total = self.tops[:], self.weight

    def row(self, s, g):
        """State s with its (to, factor) pairs, staying put among them; no factor with q = 0."""
        row = [(target, rate // g * self.x) for target, rate in self.chain.rows[s]]
        stay = (self.q - self.chain.exits[s] // g) * self.x
        return s, (row + [(s, stay)] if stay else row)

    def step(self):
        self.depth += 1
        self.weight *= self.x * self.q
        old, new = self.tops, [0] * self.chain.states
        for s in self.phase.ones:
            new[s] = self.weight
        for s, row in self.rows:
            new[s] = sum([factor * old[target] for target, factor in row])
        self.tops = new
        grow = self.y * self.depth
        self.sums = [top * grow + more for top, more in zip(self.sums, new)]
        self.total = self.total * grow + self.weight

    def to(self, depth):
        while self.depth < depth:
            self.step()
        return self

    def quotient(self, s):
        return Fraction(self.sums[s], self.total)

    def quotients(self):
        """The quotient of each state."""
        return [self.quotient(s) for s in range(self.chain.states)]

    def enclosure(self, s):
        """From D on no later quotient is outside these two fractions.

        The weights after this one add to at most this one, no value is below 0 and none above 1. So no later quotient
        is below A / (W + w), and none exceeds (A + w) / (W + w).
        """
        more = self.weight
        return Fraction(self.sums[s], self.total + more), Fraction(self.sums[s] + more, self.total + more)


def floor_billionths(chance):
    """A fraction in whole billionths, rounded down."""
    return chance.numerator * BILLION // chance.denominator


def ceil_billionths(chance):
    """A fraction in whole billionths, rounded up."""
    return -(-chance.numerator * BILLION // chance.denominator)


def reaching(chain, first, second):
    """The states of the first operand alone that lead, through such states, to the second."""
    into = [[] for _ in range(chain.states)]
    for s, row in enumerate(chain.rows):
        for target, _ in row:
            into[target].append(s)
    found, waiting = set(), [s for s in range(chain.states) if second[s]]
    while waiting:
        for s in into[waiting.pop()]:
            if first[s] and not second[s] and s not in found:
                found.add(s)
                waiting.append(s)
    return found


def bracket(chain, first, second, hundredths):
    """For each state the Bounds of all quotients of this until from D on.

    Step values never fall: at step 1 each is at least that of step 0, and a step takes values that are
    nowhere less to values that are nowhere less, as no factor is below 0. So quotients never fall with
    depth: the one at N + 1 is an average of the one at N, itself an average of the values to N, and of
    the value at N + 1, which is below none of those. The infimum is the quotient at D, the supremum
    the limit.

    Where the second operand holds or cannot be reached, and with load 0, all quotients are equal.
    Elsewhere the limit is above 0 and not rational (a sum of powers of e, not constant in time), so it
    is no whole billionth and going deeper settles it.
    """
    run = Run(chain, until(first, second, hundredths))
    if chain.load(hundredths) == 0:
        return [Bounds(BILLION * value, BILLION * value) for value in run.phase.start]
    run.to(depth(chain.load(hundredths)))
    open_states = reaching(chain, first, second)
    downs = list(map(floor_billionths, run.quotients()))
    ups = downs[:]
    while open_states:
        for s in open_states:
            ups[s] = settled_ceil(run, s)
        open_states = {s for s in open_states if ups[s] is None}
        run.to(run.depth + 1 if open_states else run.depth)
    return [Bounds(down, up) for down, up in zip(downs, ups)]


def settled_ceil(run, s):
    """The limit of a state that can reach the second operand, rounded up; None if still open."""
    low, high = max(1, ceil_billionths(run.quotient(s))), ceil_billionths(run.enclosure(s)[1])
    return high if low == high else None
