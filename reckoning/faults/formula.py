"""Refusals 11 to 14 and 16: a formula that keeps the grammar, and what it asks for passes a limit or is not there."""
from collections import namedtuple
from difflib import get_close_matches

from ..formula import TO_TIMES, And, Label, Not, P, hours_text, nodes, operands, state_head, tokens_of
from ..limits import HOUR, MOST_HUNDREDTHS, MOST_LEVELS, MOST_NODES, MOST_THRESHOLD, most_hundredths
from ..texts import FORMULA_FILE
from .names import CONSTANTS
from .words import listed, quoted, told

# A state formula, the token that it begins with, counted from 1, that of the one whose operand it is, 0 for none, and how deep it is nested.
Placed = namedtuple("Placed", "token above level node")

TO_THRESHOLD = 2            # how far behind its `P` the threshold stands


def placed(tree):
    """Every state formula of a tree, in the order of the tokens."""
    found, waiting, token = [], [(0, 1, tree)], 1
    while waiting:
        each = Placed(token, *waiting.pop())
        found.append(each)
        waiting.extend((token, each.level + 1, below) for below in reversed(operands(each.node)))
        token += len(state_head(each.node).split(b" "))
    return found


def placed_bounds(job):
    """Every `P` of the formula of a job."""
    return [each for each in placed(job.tree) if isinstance(each.node, P)]


def told_token(words, token):
    return told(words, FORMULA_FILE, token=token)


def large_formula(job):
    """The first state formula that is one too many or nested too deep."""
    found = placed(job.tree)
    at, each = next((at, each) for at, each in enumerate(found, 1) if at > MOST_NODES or each.level > MOST_LEVELS)
    part = quoted(tokens_of(job.formula_text)[each.token - 1])
    if at > MOST_NODES:
        words = f"{len(found)} nodes (each label, tt, !, & and P is one), there may be at most {MOST_NODES}: {part} is the first too many"
        return [told_token(words, each.token)]
    return [told_token(f"{part} is nested {each.level} deep, the limit is {MOST_LEVELS}{nesting_cure(job.tree)}", each.token)]


def nesting_cure(tree):
    """How to nest less, where operators stand right under their like."""
    again = [node for node in nodes(tree) if any(type(below) is type(node) for below in operands(node))]
    if any(isinstance(node, Not) for node in again):
        return ": two ! in a row can be left out"
    return ": & & a b & c d nests less than & a & b & c d" if any(isinstance(node, And) for node in again) else ""


def unknown_name(job):
    """The first label that labels.txt lacks."""
    token, name = next((each.token, each.node.name) for each in placed(job.tree) if isinstance(each.node, Label) and each.node.name not in job.names)
    return [told_token(f"no label {quoted(name)}{meant(name, job.names)}", token)]


def meant(name, names):
    """What may be meant by an unknown name."""
    if not names:
        return f", labels.txt has none{constant_cure(name)}"
    near = get_close_matches(name.decode(), [each.decode() for each in names], 1)
    cure = constant_cure(name) or (f": is {near[0]} meant?" if near else "")
    return f", labels.txt has {listed(names)}{cure}"


def constant_cure(name):
    """What is said of a word that other notations have; nothing of other words."""
    return f": write {CONSTANTS[name]}" if name in CONSTANTS else ""


def large_number(job):
    """The first threshold or time that is over its limit."""
    for token, *_, p in placed_bounds(job):
        if p.threshold > MOST_THRESHOLD:
            words = f"threshold {p.threshold:,}, it is in billionths and at most {MOST_THRESHOLD:,}, which is probability 1"
            return [told_token(words, token + TO_THRESHOLD)]
        for at, time in enumerate(p.path.times):
            if time > MOST_HUNDREDTHS:
                return [told_token(f"{hours(time)} hours, the limit is {MOST_HUNDREDTHS // HOUR:,}, which is a year", token + TO_TIMES + at)]


def falling_times(job):
    """The first `V` whose first time exceeds the second."""
    token, times = next((token + TO_TIMES, p.path.times) for token, *_, p in placed_bounds(job) if p.path.times != tuple(sorted(p.path.times)))
    first, second = map(hours, times)
    return [told_token(f"the first time, {first}, is after the second, {second}: write V {second} {first}", token)]


def large_load(job):
    """The first until, or phase of one, that is too long for the fastest state."""
    rate = job.chain.q
    most = most_hundredths(rate)
    token, words = next((token, words) for token, hundredths, words in phases(job) if hundredths > most)
    state = job.chain.exits.index(rate)
    return [told_token(f"{words}, the rates allow at most {hours(most)}: state {state} is left at {rate:,} moves per million hours", token)]


def phases(job):
    """The token, the hundredths of an hour and the words of every phase in a formula."""
    for token, *_, p in placed_bounds(job):
        last = token + TO_TIMES + len(p.path.times) - 1
        if len(p.path.phases) == 1:
            yield last, p.path.phases[0], f"{hours(p.path.phases[0])} hours"
        elif p.path.phases:
            earlier, later = p.path.phases
            yield last - 1, earlier, f"{hours(earlier)} hours up to the first time"
            yield last, later, f"{hours(later)} hours from the first time to the second"


def hours(hundredths):
    return hours_text(hundredths).decode()
