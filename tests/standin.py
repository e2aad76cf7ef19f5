"""Stands in for the program: `python3 -m tests.standin FOLDER` prints a report that the rules allow, from the second reckoning.

Of the ends that are allowed it takes the nearest two.
"""
import sys

from reckoning.__main__ import read_texts
from reckoning.backing import near, near_operands
from reckoning.ends import Rules
from reckoning.formula import P
from reckoning.judge import report_depth
from reckoning.refusal import refusal
from reckoning.report import ENDS_OF, Row, refused, report_text


def answer(moves, labels, formula):
    """The bytes that are printed for a job."""
    job = refusal(moves, labels, formula)
    if isinstance(job, int):
        return refused(job)
    rules = Rules(job.chain)
    return report_text(rows(rules, job.tree))


def rows(rules, tree):
    """The row of each state."""
    depth = report_depth(rules, tree)
    if not isinstance(tree, P):
        return [Row(*ENDS_OF[word], depth, word) for word in near(rules, tree)]
    way = near_operands(rules, tree)
    pairs = [(ends.lower[1], ends.upper[0]) for ends in rules.ends(tree.path, *way)]
    return [Row(*pair, depth, word) for pair, word in zip(pairs, rules.following(tree, way, pairs))]


if __name__ == "__main__":
    sys.stdout.buffer.write(answer(*read_texts(sys.argv[1])))
