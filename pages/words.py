"""A formula in words: a sentence for the question and, where a probability is asked about inside another, one for each of these under a number.

Label names stand between backticks. The words are made from the second reckoning's reading of the formula and are not proved.
"""
from decimal import Decimal

from reckoning.formula import And, Between, Label, Next, Not, P, Tt, hours_text
from reckoning.graph import EXTREMES
from reckoning.limits import BILLION, HOUR
from .picture import plain

COMPARED = {b"<": "less than", b"<=": "at most", b">=": "at least", b">": "more than"}

# What a comparison with 0 or 1,000,000,000 asks, where it does not hold or fail of every chance.
AT_EXTREMES = {
    (b">", 0): "it can happen at all that ",
    (b"<=", 0): "it cannot happen that ",
    (b">=", BILLION): "it is certain that ",
    (b"<", BILLION): "it is not certain that ",
}
ALWAYS = {b"<=", b">="}
NEXT = "the next move, whenever it comes, leads to a state where "


class Telling:
    """The sentences of one formula; those of inner questions wait for their turn under a number."""

    def __init__(self, tree):
        self.inner = []
        self.sentences = [self.outermost(tree)]
        while len(self.sentences) <= len(self.inner):
            number = len(self.sentences)
            self.sentences.append(f"({number}) stands for: " + self.bounded(self.inner[number - 1]))

    def outermost(self, tree):
        """A `P` that ends the sentence is told in it."""
        if isinstance(tree, P):
            return self.bounded(tree)
        if isinstance(tree, Not) and isinstance(tree.inner, P):
            return "it is not so that " + self.bounded(tree.inner)
        given, following = implication(tree)
        if given and len(following) == 1 and isinstance(following[0], P):
            return f"if {self.all_of(given)} then {self.bounded(following[0])}"
        return self.clause(tree)

    def bounded(self, node):
        return chance_words(node.comparison, node.threshold) + self.path(node.path, (node.comparison, node.threshold) in AT_EXTREMES)

    def path(self, path, at_any_time=False):
        if isinstance(path, Next):
            return "a next move comes" if path.operand == Tt() else NEXT + self.clause(path.operand)
        if isinstance(path, Between) and path.earliest == path.latest > 0 and path.second == Tt():
            return f"all through {hours_words(path.latest)} {self.within(path.first)}"
        told = f"{time_words(path, at_any_time)} {self.within(path.second)}"
        if path.first == Tt() or not path.times[-1]:
            return told
        return f"{told}, and until then {self.within(path.first)}"

    def clause(self, tree):
        """What holds where a state formula does."""
        if is_plain(tree):
            return f"{self.name(tree)} holds"
        if isinstance(tree, And):
            return self.all_of(conjuncts(tree))
        if is_plain(tree.inner):
            return f"{self.name(tree.inner)} does not hold"
        if isinstance(tree.inner, Not):
            return self.clause(tree.inner.inner)
        given, following = implication(tree)
        if not following:
            return self.not_all_of(given)
        return f"if {self.all_of(given)} then {self.any_of(following)}" if given else self.any_of(following)

    def within(self, tree):
        """A clause as a part of a longer sentence."""
        return bracketed(self.clause(tree), all(implication(tree)))

    def grouped(self, tree):
        """A clause as one of several that are joined."""
        return bracketed(self.clause(tree), not is_plain(tree) and not is_negated(tree))

    def name(self, tree):
        """A label, `tt` or the number of an inner question."""
        if isinstance(tree, P):
            self.inner.append(tree)
            return f"({len(self.inner)})"
        return "`tt`" if isinstance(tree, Tt) else f"`{tree.name.decode()}`"

    def all_of(self, trees):
        holding = [self.name(tree) for tree in trees if is_plain(tree)]
        failing = [self.name(tree.inner) for tree in trees if is_negated(tree)]
        others = [self.grouped(tree) for tree in trees if not is_plain(tree) and not is_negated(tree)]
        return " and ".join(held(holding) + failed(failing) + others)

    def any_of(self, trees):
        if len(trees) == 1:
            return self.clause(trees[0])
        if all(map(is_plain, trees)):
            return joined([self.name(tree) for tree in trees], "or") + " holds"
        return " or ".join(map(self.grouped, trees))

    def not_all_of(self, trees):
        """Of parts without `!`, which `&` joins: each has a name."""
        return joined([self.name(tree) for tree in trees], "and") + f" do not {'both' if len(trees) == 2 else 'all'} hold"


def question(tree):
    """The sentences of a formula: the question, then what each number in it stands for."""
    return [told[0].upper() + told[1:] + "." for told in Telling(tree).sentences]


def is_plain(tree):
    """Whether a state formula has a name of its own: `tt`, a label, or a `P`, which has a number."""
    return isinstance(tree, (Tt, Label, P))


def is_negated(tree):
    return isinstance(tree, Not) and is_plain(tree.inner)


def bracketed(words, needed):
    return f"({words})" if needed else words


def conjuncts(tree):
    """The parts that `&` joins, however it is nested."""
    if isinstance(tree, And):
        return conjuncts(tree.left) + conjuncts(tree.right)
    return [tree]


def implication(tree):
    """What `! &` asks for: if all of the first parts hold, one of the second. "a or b" has no first parts, "not both" no second."""
    if not isinstance(tree, Not) or not isinstance(tree.inner, And):
        return [], []
    parts = conjuncts(tree.inner)
    given = [part for part in parts if not isinstance(part, Not)]
    following = [choice for part in parts if isinstance(part, Not) for choice in choices(part.inner)]
    return given, following


def choices(tree):
    """The parts that "or" joins, however it is nested."""
    given, following = implication(tree)
    return following if following and not given else [tree]


def chance_words(comparison, threshold):
    if (comparison, threshold) in AT_EXTREMES:
        return AT_EXTREMES[comparison, threshold]
    told = f"with probability {COMPARED[comparison]} {plain(Decimal(threshold) / BILLION)}"
    if threshold in EXTREMES:
        told += ", which is always so" if comparison in ALWAYS else ", which is never so"
    return told + ": "


def time_words(path, at_any_time):
    """When the second operand is to hold. With the first time 0 a `V` is a `U`, and what is possible or certain then is so within any time."""
    earliest, latest = path.times if isinstance(path, Between) else (0, *path.times)
    if not latest:
        return "within 0 hours, which is at once,"
    if not earliest:
        return f"within {hours_words(latest)}" + (", as within any other time above 0," if at_any_time else "")
    if earliest == latest:
        return f"at {hours_words(latest)} exactly"
    return f"at some time from {number_words(earliest)} to {hours_words(latest)}"


def hours_words(hundredths):
    return number_words(hundredths) + (" hour" if hundredths == HOUR else " hours")


def number_words(hundredths):
    """So many hundredths of an hour in hours, with commas between the thousands."""
    whole, point, decimals = hours_text(hundredths).decode().partition(".")
    return f"{int(whole):,}{point}{decimals}"


def held(names):
    return [joined(names, "and") + (" holds" if len(names) == 1 else " hold")] if names else []


def failed(names):
    if len(names) < 2:
        return [f"{name} does not hold" for name in names]
    return [f"neither {names[0]} nor {names[1]} holds" if len(names) == 2 else f"none of {joined(names, 'and')} holds"]


def joined(names, word):
    return names[0] if len(names) == 1 else f"{', '.join(names[:-1])} {word} {names[-1]}"
