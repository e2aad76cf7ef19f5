"""Takes the times of the next move, and of jobs on a sheet with a move to the own state at each state, beside the same sheet without them."""
from collections import namedtuple

import sheets
from measuring import READING, Times, report_of
from reckoning.__main__ import read_texts
from reckoning.backing import near_operands
from reckoning.ends import Rules
from reckoning.refusal import refusal

# A formula put to a sheet: least times in nanoseconds of a job that reads alone and of the whole job, and the ends of each state.
Asked = namedtuple("Asked", "sheet formula reading job ends")


def formulas():
    """The next move, and the bench's longest until."""
    return sheets.next_move(), sheets.until(sheets.HOURS[-1])


def measure_restarts(pair, rounds):
    """Each formula put to both sheets of a pair, all of them in every round."""
    times, commands = Times(), [("job", sheet.folder, formula) for sheet in pair for formula in (READING, *formulas())]
    for _ in range(rounds):
        for command in commands:
            times.take(*command)
    return [asked_of(times, sheet, formula) for formula in formulas() for sheet in pair]


def asked_of(times, sheet, formula):
    """What was taken of one formula and one sheet."""
    reading, job = ("job", sheet.folder, READING), ("job", sheet.folder, formula)
    return Asked(sheet, formula, times.least[reading], times.least[job], report_of(times.printed[job]).ends)


def exact(asked):
    """Whether the ends of a next move are its exact fractions, rounded outwards, by the second reckoning."""
    moves, labels, _ = read_texts(asked.sheet.folder)
    job = refusal(moves, labels, asked.formula.encode() + b"\n")
    rules = Rules(job.chain)
    found = rules.ends(job.tree.path, *near_operands(rules, job.tree))
    return asked.ends == [(ends.lower[0], ends.upper[0]) for ends in found]
