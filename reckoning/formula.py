"""The formula text: one line, tokens set apart by one space, read into a tree."""

from dataclasses import dataclass
from enum import Enum

from .limits import FORMULA_DIGITS, HOUR
from .texts import LINE_FEED, TRUE_WORD, ends_in_line_feed, is_decimals, is_number, is_word

COMPARISONS = (b"<", b"<=", b">=", b">")


@dataclass(frozen=True)
class Tt:
    """`tt`"""


@dataclass(frozen=True)
class Label:
    name: bytes


@dataclass(frozen=True)
class Not:
    inner: object


@dataclass(frozen=True)
class And:
    left: object
    right: object


class OfTwo:
    """A path formula over two operands, the first until the second."""

    @property
    def operands(self):
        return self.first, self.second


@dataclass(frozen=True)
class Until(OfTwo):
    """A path formula, `U`: neither a node nor a level. Its time is in hundredths of an hour, as every time here."""
    hundredths: int
    first: object
    second: object
    letter = b"U"

    @property
    def times(self):
        """The times that are typed, in their order."""
        return (self.hundredths,)

    @property
    def phases(self):
        """How long each phase is, the earlier one first."""
        return self.times


@dataclass(frozen=True)
class Between(OfTwo):
    """Until between two times, `V`: the second operand at some time from the earliest to the latest, the first until then."""
    earliest: int
    latest: int
    first: object
    second: object
    letter = b"V"

    @property
    def times(self):
        """The times that are typed, in their order."""
        return self.earliest, self.latest

    @property
    def phases(self):
        """One where the first time is 0: "it is `U` with the second". Else two, and "the later of two phases is until over the difference"."""
        return (self.earliest, self.latest - self.earliest) if self.earliest else (self.latest,)


@dataclass(frozen=True)
class Next:
    """The next move, `X`: what holds after it. It has no time."""
    operand: object
    letter = b"X"
    times = phases = ()

    @property
    def operands(self):
        return (self.operand,)


@dataclass(frozen=True)
class P:
    comparison: bytes
    threshold: int
    path: object


# How far behind its `P` the first of the times stands: behind the comparison, the threshold and a letter.
TO_TIMES = 4

# The path formulas with times, and how many of these each has.
TIMED = {Until.letter: (Until, 1), Between.letter: (Between, 2)}


class Wanted(Enum):
    """What the grammar has next at some token."""
    STATE_FORMULA = "state formula"
    COMPARISON = "comparison"
    THRESHOLD = "threshold"
    PATH_FORMULA = "path formula"
    HOURS = "hours"
    NOTHING = "nothing"


class Broken(Exception):
    """The text breaks the grammar: at token `at`, counted from 0, something else is wanted, or one more token where the text ends."""

    def __init__(self, at, wanted):
        super().__init__(at, wanted)
        self.at, self.wanted = at, wanted


def read_formula(text):
    """The tree of a formula text, or None where it breaks the grammar.

    The text is within its byte limit, so the readers call each other less deep than Python allows.
    """
    try:
        return read_tokens(tokens_of(text)) if ends_in_line_feed(text) else None
    except Broken:
        return None


def tokens_of(text):
    """The tokens of a formula text, whose line feed may be missing; spaces too many set empty ones apart."""
    return text.removesuffix(LINE_FEED).split(b" ")


def read_tokens(tokens):
    """The tree of a formula, given as tokens."""
    tree, at = state_formula(tokens, 0)
    if at < len(tokens):
        raise Broken(at, Wanted.NOTHING)
    return tree


def token(tokens, at, wanted):
    if at == len(tokens):
        raise Broken(at, wanted)
    return tokens[at]


def state_formula(tokens, at):
    """The state formula from token `at` on, and the place after it."""
    head = token(tokens, at, Wanted.STATE_FORMULA)
    if head == b"!":
        inner, at = state_formula(tokens, at + 1)
        return Not(inner), at
    if head == b"&":
        left, at = state_formula(tokens, at + 1)
        right, at = state_formula(tokens, at)
        return And(left, right), at
    if head == b"P":
        return bounded(tokens, at + 1)
    if not is_word(head):
        raise Broken(at, Wanted.STATE_FORMULA)
    return (Tt() if head == TRUE_WORD else Label(head)), at + 1


def bounded(tokens, at):
    """What follows `P`: a comparison, a threshold and a path formula."""
    comparison = token(tokens, at, Wanted.COMPARISON)
    if comparison not in COMPARISONS:
        raise Broken(at, Wanted.COMPARISON)
    threshold = billionths(tokens, at + 1)
    path, at = path_formula(tokens, at + 2)
    return P(comparison, threshold, path), at


def path_formula(tokens, at):
    """`X` and a state formula, `U`, hours and two of them, or `V`, hours twice and two of them."""
    letter = token(tokens, at, Wanted.PATH_FORMULA)
    if letter == Next.letter:
        operand, at = state_formula(tokens, at + 1)
        return Next(operand), at
    if letter not in TIMED:
        raise Broken(at, Wanted.PATH_FORMULA)
    kind, count = TIMED[letter]
    times = [hours(tokens, at + 1 + place) for place in range(count)]
    first, at = state_formula(tokens, at + 1 + count)
    second, at = state_formula(tokens, at)
    return kind(*times, first, second), at


def billionths(tokens, at):
    """A threshold."""
    part = token(tokens, at, Wanted.THRESHOLD)
    if not is_number(part, FORMULA_DIGITS):
        raise Broken(at, Wanted.THRESHOLD)
    return int(part)


def hours(tokens, at):
    """Hours, in hundredths: a number, and perhaps a point and decimals."""
    whole, point, decimals = token(tokens, at, Wanted.HOURS).partition(b".")
    if not is_number(whole, FORMULA_DIGITS) or point and not is_decimals(decimals):
        raise Broken(at, Wanted.HOURS)
    return int(whole) * HOUR + int(decimals.ljust(2, b"0"))


def hours_text(hundredths):
    """So many hundredths of an hour as the formula has them: with no more decimals than they need."""
    whole, rest = divmod(hundredths, HOUR)
    return b"%d" % whole + (b".%02d" % rest).rstrip(b"0") if rest else b"%d" % whole


def spelled(tree):
    """The text of a formula, without its line feed."""
    return b" ".join([state_head(tree), *map(spelled, operands(tree))])


def state_head(tree):
    """What stands before the operands of a state formula; all of it where it has none."""
    if isinstance(tree, (Tt, Label)):
        return TRUE_WORD if isinstance(tree, Tt) else tree.name
    if isinstance(tree, P):
        return b"P %s %d %s" % (tree.comparison, tree.threshold, path_head(tree.path))
    return b"!" if isinstance(tree, Not) else b"&"


def path_head(path):
    """What stands before the operands of a path formula."""
    return b" ".join([path.letter, *map(hours_text, path.times)])


def operands(tree):
    """The state formulas one level down."""
    if isinstance(tree, Not):
        return (tree.inner,)
    if isinstance(tree, And):
        return (tree.left, tree.right)
    if isinstance(tree, P):
        return tree.path.operands
    return ()


def nodes(tree):
    """Every state formula of the tree, itself first. Nodes are places: the same text twice is two."""
    found, waiting = [], [tree]
    while waiting:
        found.append(waiting.pop())
        waiting.extend(reversed(operands(found[-1])))
    return found


def levels(tree):
    """How deep the tree is nested: a label alone is 1."""
    count, row = 0, [tree]
    while row:
        count += 1
        row = [below for node in row for below in operands(node)]
    return count


def bounds(tree):
    """Every `P` of the tree; no other is above the first."""
    return [node for node in nodes(tree) if isinstance(node, P)]


def paths(tree):
    """Every path formula of the tree, outer ones first."""
    return [node.path for node in bounds(tree)]
