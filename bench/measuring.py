"""Takes the times of the bench: for each row the loop in doubles, the loop in balls, and the project's jobs."""
import subprocess
from collections import namedtuple

import sheets
from building import PLACE
from reckoning.limits import BILLION

MILLISECONDS = {"doubles": 20, "balls": 40, "job": 40, "short": 40}     # how long a program repeats its work in each round
READING = "tt"                                              # the formula of a job that reads and prepares alone
WAYS = ["products", "dot"]                                  # in which balls are added up

# A sheet and the hours of its until.
Question = namedtuple("Question", "sheet hours")

# Least times in nanoseconds; `balls` (by products) and `dot` are None where Arb is not there. `engine` is the job's time over that of
# reading alone, `again` half of what a job with three untils takes longer than one. `ends` are those of each state in billionths;
# `by_doubles` and `by_balls` are the answers that they are held against.
Row = namedtuple("Row", "sheet depth doubles balls dot engine again reading job three ends by_doubles by_balls")


# What `job` prints below the time: the depth, the state numbers in order, and the ends of each state.
Report = namedtuple("Report", "depth order ends")


class Times:
    """The least time of each command so far, and the rest of what it printed."""

    def __init__(self):
        self.least = {}
        self.printed = {}

    def take(self, program, *words):
        """Runs a program of the bench once and keeps its time where that is the least."""
        command = [str(PLACE / program), *map(str, words), str(MILLISECONDS[program])]
        first, *rest = subprocess.run(command, check=True, stdout=subprocess.PIPE, text=True).stdout.splitlines()
        key = (program, *words)
        self.least[key] = min(float(first), self.least.get(key, float("inf")))
        self.printed[key] = rest


def commands(questions, arb):
    """Every command that the rows need, each once."""
    found = {}
    for sheet, hours in questions:
        found["doubles", sheet.folder, hours] = True
        for way in WAYS if arb else ():
            found["balls", way, sheet.folder, hours] = True
        for formula in (READING, sheets.until(hours), sheets.three_untils(hours)):
            found["job", sheet.folder, formula] = True
    return list(found)


def pairs(lines):
    """Lines of two whole numbers."""
    return [tuple(map(int, line.split())) for line in lines]


def report_of(lines):
    """The report that `job` printed."""
    depth, order, *ends = lines
    return Report(int(depth), list(map(int, order.split())), pairs(ends))


def row_of(times, question, arb):
    """The row of a question from the times taken."""
    sheet, hours = question
    asked = [("job", sheet.folder, formula) for formula in (READING, sheets.until(hours), sheets.three_untils(hours))]
    reading, job, three = (times.least[key] for key in asked)
    doubles = ("doubles", sheet.folder, hours)
    ways = [("balls", way, sheet.folder, hours) for way in WAYS]
    balls, dot = (times.least[way] if arb else None for way in ways)
    depth, _, ends = report_of(times.printed[asked[1]])
    return Row(sheet, depth, times.least[doubles], balls, dot, job - reading, (three - job) / 2, reading, job, three,
               ends, [BILLION * float(line) for line in times.printed[doubles]],
               [pairs(times.printed[way]) for way in ways] if arb else None)


def measure(questions, arb, rounds):
    """The rows of the questions. Every round runs all commands, so that a busy while of the machine falls on no row alone."""
    times = Times()
    for _ in range(rounds):
        for command in commands(questions, arb):
            times.take(*command)
    return [row_of(times, question, arb) for question in questions]


def width(row):
    """The width of the widest interval, in billionths."""
    return max(upper - lower for lower, upper in row.ends)


def doubles_agree(row):
    """Whether each answer in doubles lies in its interval, but for a billionth, which is far above the error of the doubles."""
    return all(lower - 1 <= x <= upper + 1 for (lower, upper), x in zip(row.ends, row.by_doubles, strict=True))


def balls_agree(row):
    """Whether each ball meets its interval: both hold the exact quotient at the depth. None where Arb is not there."""
    if row.by_balls is None:
        return None
    return all(least <= upper and lower <= most
               for balls in row.by_balls for (lower, upper), (least, most) in zip(row.ends, balls, strict=True))
