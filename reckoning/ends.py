"""Which ends and which verdicts the rules leave a `P` at each state, once its operands' verdicts are named."""

from collections import namedtuple

from .bracket import bracket, ceil_billionths, floor_billionths
from .chain import depth, next_chances
from .formula import Next
from .graph import decided
from .limits import BILLION, NEXT_DEPTH, NEXT_WIDTH, WIDTH_FACTOR
from .pairs import bracket_pairs
from .verdict import COMPARISON, NO, UNDECIDED, YES, negate, of_ends

# All pairs with lower from `lower[0]` to `lower[1]`, upper from `upper[0]` to `upper[1]`, and
# upper - lower at most `width`, where that is a number.
Ends = namedtuple("Ends", "lower upper width")

CERTAIN = Ends((BILLION, BILLION), (BILLION, BILLION), 0)
IMPOSSIBLE = Ends((0, 0), (0, 0), 0)


class Rules:
    """The rules for one chain. Bounds once reckoned are kept."""

    def __init__(self, chain):
        self.chain = chain
        self.known = {}

    def depth(self, path):
        """The sum over the phases: of two "the printed depth is their sum, which is D in both limits of 4 × D"."""
        return NEXT_DEPTH if isinstance(path, Next) else sum(depth(self.chain.load(hundredths)) for hundredths in path.phases)

    def width(self, path, *operands):
        """The most that two ends may differ; None where an operand state is undecided."""
        if any(UNDECIDED in verdicts for verdicts in operands):
            return None
        return NEXT_WIDTH if isinstance(path, Next) else WIDTH_FACTOR * self.depth(path)

    def bounds(self, path, first, second):
        """The bracket of a reading; in one phase the first operand does not matter where the second holds."""
        single = len(path.phases) == 1
        key = tuple(a and not b for a, b in zip(first, second)) if single else first, second, *path.phases
        if key not in self.known:
            self.known[key] = (bracket if single else bracket_pairs)(self.chain, *key)
        return self.known[key]

    def ends(self, path, *operands):
        """The Ends of each state, where the operands have these verdicts."""
        return (self.next_ends if isinstance(path, Next) else self.timed_ends)(path, *operands)

    def next_ends(self, path, operand):
        """Both ends of `X` are determined: its fraction rounded down for the one reading, up for the other."""
        lows, highs = (next_chances(self.chain, reading(operand, taken)) for taken in ((YES,), (YES, UNDECIDED)))
        width = self.width(path, operand)
        return [Ends((down, down), (up, up), width) for down, up in zip(map(floor_billionths, lows), map(ceil_billionths, highs))]

    def timed_ends(self, path, first, second):
        """Of `U` and of `V`: "undecided operand states read as no" make the lower end, through both phases, and read as yes the upper."""
        lows = self.bounds(path, reading(first, (YES,)), reading(second, (YES,)))
        highs = self.bounds(path, reading(first, (YES, UNDECIDED)), reading(second, (YES, UNDECIDED)))
        width = self.width(path, first, second)
        slack = 0 if self.exact(path) else WIDTH_FACTOR * self.depth(path)
        point = until_point if len(path.phases) == 1 else pair_point
        return [point(a, b) or Ends((max(0, low.up - slack), low.down), (high.up, min(BILLION, high.down + slack)), width)
                for a, b, low, high in zip(first, second, lows, highs)]

    def exact(self, path):
        """Whether each end is the exact value of its reading: "with load 0", and of two phases "with q = 0"."""
        return self.chain.q == 0 or path.phases == (0,)

    def verdicts(self, node, *operands):
        """The verdicts that a `P` can have at each state, where its operands have these: by the moves just one, else by its ends."""
        by_moves = decided(self.chain, node, operands)
        if by_moves is None:
            return tuple(verdicts(node, ends) for ends in self.ends(node.path, *operands))
        return tuple(frozenset((verdict,)) for verdict in by_moves)

    def following(self, node, operands, pairs):
        """The verdict of a `P` at each state, where its operands have these verdicts and its ends are these pairs."""
        by_ends = tuple(of_ends(node.comparison, node.threshold, *pair) for pair in pairs)
        return decided(self.chain, node, operands) or by_ends


def reading(verdicts, taken_as_yes):
    return tuple(verdict in taken_as_yes for verdict in verdicts)


def until_point(first, second):
    """The Ends that are given for an until by the verdicts of its operands at a state, if there are such."""
    return CERTAIN if second == YES else IMPOSSIBLE if first == second == NO else None


def pair_point(first, second):
    """The same of two phases: "both 0 where the first operand is no", whatever the second is, and no other."""
    return IMPOSSIBLE if first == NO else None


def has(ends, lower, upper):
    """Whether the rules leave this pair."""
    return (ends.lower[0] <= lower <= ends.lower[1] and ends.upper[0] <= upper <= ends.upper[1]
            and (ends.width is None or upper - lower <= ends.width))


def some(ends, lower_from=0, lower_to=BILLION, upper_from=0, upper_to=BILLION):
    """Whether some pair is left with its ends within these limits too: try the nearest two."""
    lower, upper = min(ends.lower[1], lower_to), max(ends.upper[0], upper_from)
    return lower_from <= lower and upper <= upper_to and has(ends, lower, upper)


def verdicts(node, ends):
    """The verdicts that this `P` can have at a state with these Ends, by the interval rule."""
    negated, more = COMPARISON[node.comparison]
    least = node.threshold + more
    found = []
    if some(ends, lower_from=least):
        found.append(YES)
    if some(ends, upper_to=least - 1):
        found.append(NO)
    if some(ends, lower_to=least - 1, upper_from=least):
        found.append(UNDECIDED)
    return frozenset(map(negate, found) if negated else found)
