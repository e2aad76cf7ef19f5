"""The verdicts that a node can have in some backing, over all states together.

A box is a set of verdicts for each state, and stands for all ways to pick one from each. Given its
operands' verdicts, a `P` leaves each state to itself, so its verdicts are a box. What a node can have
at all is a union of boxes. The two operands of a node are different places in the formula, so each
way of the one goes with each way of the other.
"""

from itertools import product
from math import prod

from . import formula as f
from .verdict import NO, YES, both, negate

MOST_WORK = 50_000          # ways to name verdicts, times states, that are tried before giving up
OFFSETS = tuple(product(range(3), range(3)))    # billionths that the ends of a near way are off


class TooMany(Exception):
    """The rules leave too many ways: it cannot be told."""


def limit(rules, ways):
    if ways * rules.chain.states > MOST_WORK:
        raise TooMany(f"too many ways to name inner verdicts: {ways}")


def marks_of(rules, node):
    """The verdicts of `tt` or a label."""
    if isinstance(node, f.Tt):
        return (YES,) * rules.chain.states
    return tuple(YES if mark else NO for mark in rules.chain.marks[node.name])


def boxes(rules, node):
    """The boxes of a node: a set of tuples of verdict sets."""
    if isinstance(node, f.Not):
        return {tuple(map(negate_all, box)) for box in boxes(rules, node.inner)}
    if isinstance(node, f.And):
        lefts, rights = boxes(rules, node.left), boxes(rules, node.right)
        limit(rules, len(lefts) * len(rights))
        return {tuple(map(both_all, left, right)) for left in lefts for right in rights}
    if isinstance(node, f.P):
        return {rules.verdicts(node, *way) for way in operand_ways(rules, node)}
    return {tuple(frozenset((verdict,)) for verdict in marks_of(rules, node))}


def negate_all(words):
    return frozenset(map(negate, words))


def both_all(lefts, rights):
    return frozenset(both(left, right) for left in lefts for right in rights)


def operand_ways(rules, node):
    """For a `P` every choice of a verdict vector for each operand."""
    found = [ways(rules, operand) for operand in f.operands(node)]
    limit(rules, prod(map(len, found)))
    return list(product(*found))


def ways(rules, node):
    """Every verdict vector that a node can have, in a fixed order."""
    found = boxes(rules, node)
    limit(rules, sum(prod(map(len, box)) for box in found))
    return sorted({vector for box in found for vector in product(*box)})


def near(rules, node, below=0, above=0):
    """One way of a node: each `P` here and below has ends so many billionths off the nearest two.

    So few fit into the width; the ranges of the two ends are kept in any case.
    """
    if isinstance(node, f.Not):
        return tuple(map(negate, near(rules, node.inner, below, above)))
    if isinstance(node, f.And):
        return tuple(map(both, near(rules, node.left, below, above), near(rules, node.right, below, above)))
    if isinstance(node, f.P):
        way = near_operands(rules, node, below, above)
        pairs = [(max(ends.lower[0], ends.lower[1] - below), min(ends.upper[1], ends.upper[0] + above)) for ends in rules.ends(node.path, *way)]
        return rules.following(node, way, pairs)
    return marks_of(rules, node)


def near_operands(rules, node, below=0, above=0):
    """One way of the operands of a `P`."""
    return tuple(near(rules, operand, below, above) for operand in f.operands(node))
