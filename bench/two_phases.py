"""Takes the times of an until between two times, each phase of the greatest load, beside the same in doubles and beside one until of that load."""
from collections import namedtuple

import sheets
from measuring import READING, Times, report_of
from reckoning.limits import BILLION

FIRST, LAST = sheets.HOURS[-1], 2 * sheets.HOURS[-1]       # hours: the greatest load in each phase

# Of a sheet: least times in nanoseconds of a job that reads alone, of the jobs with two phases and with one, and of the two loops in doubles; of
# two phases the depth, the ends of each state in billionths, and the answers in doubles that they are held against.
TwoPhases = namedtuple("TwoPhases", "sheet formula reading job until doubles one_doubles depth ends by_doubles")


def commands(sheet):
    """The jobs that read alone, that have two phases and that have one, and the loops of two phases and of one."""
    jobs = [("job", sheet.folder, formula) for formula in (READING, sheets.between(FIRST, LAST), sheets.until(FIRST))]
    return [*jobs, ("doubles", sheet.folder, FIRST, LAST), ("doubles", sheet.folder, FIRST)]


def measure_two_phases(sheet, rounds):
    """What was taken on a sheet, all commands in every round."""
    times = Times()
    for _ in range(rounds):
        for command in commands(sheet):
            times.take(*command)
    _, two, _, in_doubles, _ = commands(sheet)
    depth, _, ends = report_of(times.printed[two])
    least = [times.least[command] for command in commands(sheet)]
    return TwoPhases(sheet, two[-1], *least, depth, ends, [BILLION * float(line) for line in times.printed[in_doubles]])


def engine(taken):
    """What the two phases take, beside reading."""
    return taken.job - taken.reading


def over_doubles(taken):
    """How many times as long as in doubles."""
    return engine(taken) / taken.doubles


def over_one(taken):
    """How many times as long as one until."""
    return engine(taken) / (taken.until - taken.reading)
