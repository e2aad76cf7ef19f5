"""What the chain means: exit rates, q, load, depth, a phase's step values and quotients, two phases, and the chance of the next move.

Written as the paper has it, in fractions. `bracket.py` and `pairs.py` reckon the same faster.
"""

from dataclasses import dataclass
from fractions import Fraction
from functools import cached_property
from itertools import islice
from math import ceil

from .limits import LOAD_STEPS, RATE_HUNDREDTHS, SPARE_STEPS


@dataclass(frozen=True)
class Chain:
    """States 0 to `states` - 1, rates by (from, to), and for each name a mark for each state."""
    states: int
    rates: dict
    marks: dict

    @cached_property
    def rows(self):
        """For each state the moves to other states, as (to, rate)."""
        rows = [[] for _ in range(self.states)]
        for (source, target), rate in self.rates.items():
            if source != target:
                rows[source].append((target, rate))
        return rows

    @cached_property
    def exits(self):
        """The exit rate of each state for until, which leaves moves to the own state out."""
        return [sum(rate for _, rate in row) for row in self.rows]

    @cached_property
    def totals(self):
        """The exit rate of each state for `X`, and what 9 tests: moves to the own state count too."""
        totals = [0] * self.states
        for (source, _), rate in self.rates.items():
            totals[source] += rate
        return totals

    @cached_property
    def q(self):
        """The uniformisation rate: the greatest exit rate for until."""
        return max(self.exits)

    def load(self, hundredths):
        """The load of a phase over so many hundredths of an hour."""
        return Fraction(self.q * hundredths, RATE_HUNDREDTHS)


def depth(load):
    """D = 2 x (L rounded up) + 40."""
    return LOAD_STEPS * ceil(load) + SPARE_STEPS


@dataclass(frozen=True)
class Phase:
    """A start vector and, for every later step, the states pinned to 1 and to 0; its hundredths of an hour."""
    start: tuple
    ones: frozenset
    zeros: frozenset
    hundredths: int


def until(first, second, hundredths):
    """Until as a phase: `first` and `second` say for each state whether the operand holds."""
    states = range(len(second))
    return Phase(start=tuple(int(second[s]) for s in states),
                 ones=frozenset(s for s in states if second[s]),
                 zeros=frozenset(s for s in states if not first[s] and not second[s]),
                 hundredths=hundredths)


def earlier(first, quotients, hundredths):
    """The earlier of two phases: it "starts from the later one's quotient where the first operand holds and 0 elsewhere, holds 0 where that
    operand fails, and steps everywhere else, states of the second operand included".
    """
    return Phase(start=tuple(value if holds else 0 for holds, value in zip(first, quotients)),
                 ones=frozenset(),
                 zeros=frozenset(s for s, holds in enumerate(first) if not holds),
                 hundredths=hundredths)


def step_values(chain, phase):
    """The vectors of step values, step 0 first, without end."""
    values = [Fraction(value) for value in phase.start]
    while True:
        yield values
        values = [later_value(chain, phase, s, values) for s in range(chain.states)]


def later_value(chain, phase, s, values):
    """The value of state s one step after `values`."""
    if s in phase.ones:
        return Fraction(1)
    if s in phase.zeros:
        return Fraction(0)
    if chain.q == 0:
        return values[s]
    total = sum(rate * values[target] for target, rate in chain.rows[s])
    return (total + (chain.q - chain.exits[s]) * values[s]) / chain.q


def weights(load):
    """The weights, step 0 first, without end."""
    weight, step = Fraction(1), 0
    while True:
        yield weight
        step += 1
        weight = weight * load / step


def quotients(chain, phase, last):
    """The exact quotient of each state at depth `last`."""
    tops, total = [Fraction(0)] * chain.states, Fraction(0)
    pairs = zip(weights(chain.load(phase.hundredths)), step_values(chain, phase))
    for weight, values in islice(pairs, last + 1):
        tops = [top + weight * value for top, value in zip(tops, values)]
        total += weight
    return [top / total for top in tops]


def pair_quotients(chain, first, second, phases, depths):
    """The exact quotient of each state in two phases, for one pair of depths; of both pairs the earlier phase's comes first."""
    start = quotients(chain, until(first, second, phases[1]), depths[1])
    return quotients(chain, earlier(first, start, phases[0]), depths[0])


def next_chances(chain, holds):
    """The probability of `X` at each state: the rates into states where the operand holds over the exit rate; 0 where that is 0."""
    into = [0] * chain.states
    for (source, target), rate in chain.rates.items():
        into[source] += rate if holds[target] else 0
    return [Fraction(rate, total) if total else Fraction(0) for rate, total in zip(into, chain.totals)]
