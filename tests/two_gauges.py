"""The sheet to start from, and questions put to it: what the program answers, and what a page says that it answers."""
from reckoning.__main__ import read_texts
from reckoning.formula import P, read_formula
from reckoning.judge import judge
from reckoning.limits import BILLION
from reckoning.report import read_report
from reckoning.verdict import NO, YES
from tests.places import EXAMPLES
from tests.program import run
from tests.tables import code

FOLDER = EXAMPLES / "two-gauges"
MOVES, LABELS, FORMULA = read_texts(FOLDER)


def rows(formula, moves=MOVES):
    """The rows of the report on a question, given without its line feed, once the second reckoning has allowed the report."""
    job = moves, LABELS, formula.encode() + b"\n"
    printed = run(job)
    faults = judge(*job, printed)
    if faults:
        raise AssertionError(f"{formula}: {faults}")
    return read_report(printed, LABELS.count(b"\n") - 1)


def chance(row, decimals):
    """The probability of a row to so many decimals, where both ends have the same."""
    [shown] = {f"{end / BILLION:.{decimals}f}" for end in (row.lower, row.upper)}
    return shown


def chances(formula, decimals, moves=MOVES):
    """The probabilities from each state to so many decimals."""
    return [chance(row, decimals) for row in rows(formula, moves)]


def recipe(question, formula, shown, yes_at):
    """A recipe as a page has it, and the same by the program: the question, the formula, the chance at state 0 where the outermost node is a `P`,
    and the states that say yes, where all others say no.
    """
    found = rows(code(formula))
    told = ", ".join(str(state) for state, row in enumerate(found) if row.verdict == YES)
    decided = all(row.verdict in (YES, NO) for row in found)
    bounded = isinstance(read_formula(code(formula).encode() + b"\n"), P)
    decimals = len(shown.partition(".")[2])
    return (question, shown, yes_at), (question, chance(found[0], decimals) if bounded else "", told if decided else "undecided")
