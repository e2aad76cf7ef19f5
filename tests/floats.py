"""A sheet reckoned in doubles by plain uniformisation: short, with no bounds on its error.

It shares with `reckoning` the units and the reader of formulas, and nothing of what is reckoned. The texts are known to be good. A move to
the own state is one like others here: an until's chance is the same with a greater exit rate, as long as the load stays small.
"""
from math import exp
from operator import ge, gt, le, lt

from reckoning.formula import And, Label, Next, Not, P, bounds, operands, read_formula
from reckoning.limits import BILLION, HOUR, RATE_HOURS

NEGLIGIBLE = 1e-13          # of the weights, left out at the end
COMPARED = {b"<": lt, b"<=": le, b">=": ge, b">": gt}


class Floats:
    """One job: its formula, the first `P` of it, and what it makes of a node at each state."""

    def __init__(self, moves, labels, formula):
        head, *rows = [line.split(b",") for line in labels.splitlines()]
        self.states = range(len(rows))
        self.marks = {name: [row[column] == b"1" for row in rows] for column, name in enumerate(head)}
        self.rows = [[] for _ in self.states]
        for line in moves.splitlines()[1:]:
            source, target, rate = map(int, line.split(b","))
            self.rows[source].append((target, rate / RATE_HOURS))
        self.exits = [sum(rate for _, rate in row) for row in self.rows]
        self.tree = read_formula(formula)
        self.outermost = bounds(self.tree)[0]

    def holds(self, node):
        """Whether a node holds, at each state."""
        if isinstance(node, P):
            return [COMPARED[node.comparison](each, node.threshold / BILLION) for each in self.chance(node)]
        below = [self.holds(each) for each in operands(node)]
        if isinstance(node, Not):
            return [not each for each in below[0]]
        if isinstance(node, And):
            return [a and b for a, b in zip(*below)]
        return self.marks[node.name] if isinstance(node, Label) else [True] * len(self.states)

    def chance(self, node):
        """The probability of a `P`, at each state."""
        below = [self.holds(each) for each in operands(node)]
        if isinstance(node.path, Next):
            return self.next_move(*below)
        phases = [hundredths / HOUR for hundredths in node.path.phases]
        return self.until(*phases, *below) if len(phases) == 1 else self.between(*phases, *below)

    def next_move(self, holds):
        """The probability of an `X` at each state."""
        into = [sum(rate for target, rate in row if holds[target]) for row in self.rows]
        return [rate / out if out else 0.0 for rate, out in zip(into, self.exits)]

    def until(self, hours, first, second):
        """The probability of an until at each state."""
        return self.after(hours, [float(holds) for holds in second], [b or not a for a, b in zip(first, second)])

    def between(self, earlier, later, first, second):
        """The probability of an until over the later hours, once the first operand has held for the earlier ones."""
        start = [value if holds else 0.0 for value, holds in zip(self.until(later, first, second), first)]
        return self.after(earlier, start, [not holds for holds in first])

    def after(self, hours, values, held):
        """The mean of the values that the chain has come to after so many hours; a state that is held keeps the value that it has."""
        q = max(self.exits)
        weight, step = exp(-q * hours), 0
        left, sums = 1 - weight, [weight * value for value in values]
        while left > NEGLIGIBLE and step < 2 * q * hours + 100:
            step += 1
            values = [values[s] if held[s] else self.stepped(values, s, q) for s in self.states]
            weight *= q * hours / step
            left -= weight
            sums = [total + weight * value for total, value in zip(sums, values)]
        return sums

    def stepped(self, values, s, q):
        moved = sum(rate * values[target] for target, rate in self.rows[s])
        return (moved + (q - self.exits[s]) * values[s]) / q
