"""Whether the rules of documents 01 and 02 allow a printed answer, and what they allow."""

from collections import namedtuple

from . import backing
from . import formula as f
from .ends import Rules, has
from .graph import decided
from .pairs import Unsettled
from .refusal import refusal
from .report import ENDS_OF, Layout, read_report, refused

# What the rules leave for a report. `lower` and `upper` hold for each state the least and the greatest
# value, `verdicts` the words; `width` is the most that two ends may differ, where the node is a `P`
# and no operand state can be undecided.
Allowed = namedtuple("Allowed", "depth width lower upper verdicts")

# What is raised where it cannot be told what the rules allow.
CANNOT_TELL = backing.TooMany, Unsettled


def judge(moves, labels, formula, printed, lent=None):
    """The faults of a printed answer; none if it is allowed. May raise what is in CANNOT_TELL.

    The second listing follows from the first, so that a wrong one is a fault of the layout, and no row is judged then.
    """
    job = refusal(moves, labels, formula, lent)
    if isinstance(job, int):
        return [] if printed == refused(job) else [f"should print refused and {job}"]
    try:
        rows = read_report(printed, job.chain.states)
    except Layout as fault:
        return [str(fault)]
    rules = Rules(job.chain)
    depth = report_depth(rules, job.tree)
    faults = [f"state {s}: depth {row.depth}, should be {depth}"
              for s, row in enumerate(rows) if row.depth != depth]
    return faults or fewest(faults_by_way(rules, job.tree, rows))


def report_depth(rules, tree):
    return rules.depth(tree.path) if isinstance(tree, f.P) else 0


def faults_by_way(rules, tree, rows):
    """For each way to back a report the faults of this one.

    Near ways go first: a narrow checker has one of them, and one way without faults is enough.
    """
    if isinstance(tree, f.P):
        for off in backing.OFFSETS:
            yield p_faults(rules, tree, backing.near_operands(rules, tree, *off), rows)
        for way in backing.operand_ways(rules, tree):
            yield p_faults(rules, tree, way, rows)
    else:
        for off in backing.OFFSETS:
            yield other_faults([{word} for word in backing.near(rules, tree, *off)], rows)
        for box in backing.boxes(rules, tree):
            yield other_faults(box, rows)


def fewest(ways):
    """The faults of the best way; none as soon as one way has none."""
    best = None
    for faults in ways:
        if not faults:
            return []
        if best is None or len(faults) < len(best):
            best = faults
    return best


def p_faults(rules, node, way, rows):
    """The faults of the rows of an outermost `P` whose operands have the verdicts `way`."""
    faults, decides = [], "ends" if decided(rules.chain, node, way) is None else "moves"
    words = rules.following(node, way, [(row.lower, row.upper) for row in rows])
    for s, (ends, row, word) in enumerate(zip(rules.ends(node.path, *way), rows, words)):
        if not has(ends, row.lower, row.upper):
            faults.append(f"state {s}: ends {row.lower} and {row.upper}, allowed are {told(ends)}")
        elif row.verdict != word:
            faults.append(f"state {s}: verdict {row.verdict} does not follow from the {decides}")
    return faults


def told(ends):
    width = "" if ends.width is None else f", width at most {ends.width}"
    return "lower {} to {}, upper {} to {}".format(*ends.lower, *ends.upper) + width


def other_faults(box, rows):
    """The faults of the rows of an outermost node that is no `P`."""
    faults = []
    for s, (words, row) in enumerate(zip(box, rows)):
        if row.verdict not in words:
            faults.append(f"state {s}: verdict {row.verdict}, allowed {' or '.join(sorted(words))}")
        elif (row.lower, row.upper) != ENDS_OF[row.verdict]:
            faults.append(f"state {s}: ends {row.lower} and {row.upper} for {row.verdict}")
    return faults


def allowed_ends(moves, labels, formula):
    """What the rules leave for the report of an accepted job. May raise what is in CANNOT_TELL."""
    job = refusal(moves, labels, formula)
    if isinstance(job, int):
        raise ValueError(f"refused with {job}")
    rules = Rules(job.chain)
    return (p_allowed if isinstance(job.tree, f.P) else other_allowed)(rules, job.tree)


def p_allowed(rules, node):
    ways = backing.operand_ways(rules, node)
    columns = list(zip(*(rules.ends(node.path, *way) for way in ways)))
    lower = [span(end for ends in column for end in ends.lower) for column in columns]
    upper = [span(end for ends in column for end in ends.upper) for column in columns]
    words = [frozenset().union(*column) for column in zip(*(rules.verdicts(node, *way) for way in ways))]
    widths = [rules.width(node.path, *way) for way in ways]
    return Allowed(rules.depth(node.path), None if None in widths else widths[0], lower, upper, words)


def other_allowed(rules, node):
    words = [frozenset().union(*column) for column in zip(*backing.boxes(rules, node))]
    pairs = [[ENDS_OF[word] for word in each] for each in words]
    lower = [span(low for low, _ in each) for each in pairs]
    upper = [span(high for _, high in each) for each in pairs]
    return Allowed(0, None, lower, upper, words)


def span(values):
    values = list(values)
    return min(values), max(values)
