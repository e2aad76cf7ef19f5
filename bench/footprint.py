"""What memory and what stack the program takes on a sheet."""
import subprocess
from collections import namedtuple

from building import PLACE, PROGRAM
from reckoning.sheets import REPORT_LINE

STEP = 16                               # stack limits are tried in steps of so many KB
BAR = 1024                              # the limit that the program has to do with, in KB
RUNS = 20                               # the system counts memory in blocks, so that runs differ by some 100 KB: the greatest counts

# What is run, its greatest resident memory in KB under the limit of 1 MB, whether it printed its report there, and the least limit in KB
# under which it still does.
Footprint = namedtuple("Footprint", "told resident printed stack")


def run_within(folder, stack):
    """What the program printed on the sheet of a folder under a stack limit in KB, and its greatest resident memory in KB."""
    run = subprocess.run([str(PLACE / "within"), str(stack), str(PROGRAM)], cwd=folder, check=True, capture_output=True, text=True)
    resident, status = map(int, run.stderr.split())
    return run.stdout if status == 0 else None, resident


def least_stack(folder, report):
    """The least stack limit in KB under which the program still prints the report. It does under the greatest tried."""
    fails, does = 0, BAR // STEP
    while does - fails > 1:
        middle = (fails + does) // 2
        if run_within(folder, middle * STEP)[0] == report:
            does = middle
        else:
            fails = middle
    return does * STEP


def footprint(folder, told):
    """The footprint of the program on the sheet of a folder."""
    report, _ = run_within(folder, 8 * BAR)
    runs = [run_within(folder, BAR) for _ in range(RUNS)]
    printed = report is not None and report.startswith(REPORT_LINE.decode()) and all(within == report for within, _ in runs)
    return Footprint(told, max(resident for _, resident in runs), printed, least_stack(folder, report) if printed else None)
