"""Sheets as they are typed: moves and labels written from values, and the small sheet and the bench texts of document 01."""

from .formula import hours_text
from .limits import BILLION, MOST_RATE
from .report import HEAD, Row, report_text
from .texts import LABELS_HEAD, MOVES_HEAD

MOVES_LINE = MOVES_HEAD + b"\n"
REPORT_LINE = HEAD + b"\n"


def moves_text(moves):
    """The moves text of (from, to, rate), in the order given."""
    return MOVES_LINE + b"".join(b"%d,%d,%d\n" % move for move in moves)


def labels_text(names, rows):
    """The labels text of these names, with a row of marks for each state."""
    lines = [[LABELS_HEAD, *names], *([b"%d" % s, *(b"%d" % mark for mark in row)] for s, row in enumerate(rows))]
    return b"".join(b",".join(line) + b"\n" for line in lines)


def until(hundredths, comparison=b"<", threshold=1):
    """An until over the two labels of the small sheet, as a formula text."""
    return b"P %s %d U %s up dead\n" % (comparison, threshold, hours_text(hundredths))


def between(earliest, latest, comparison=b"<", threshold=1):
    """An until between two times, over the same labels, as a formula text."""
    return b"P %s %d V %s %s up dead\n" % (comparison, threshold, hours_text(earliest), hours_text(latest))


# "With labels `state,up,dead` / `0,1,0` / `1,0,1`, moves `from,to,rate` / `0,1,500` and formula `P >= 1000000000 U 0 up dead`,
# it prints in full: .." "Call these two texts the small sheet." It "prints three lines more: the names, state 1, state 0".
LABELS = labels_text([b"up", b"dead"], [(1, 0), (0, 1)])
MOVES = moves_text([(0, 1, 500)])
FORMULA = b"P >= 1000000000 U 0 up dead\n"
REPORT = (REPORT_LINE + b"0,0,0,40,no\n1,1000000000,1000000000,40,yes\n"
          + REPORT_LINE + b"1,1000000000,1000000000,40,yes\n0,0,0,40,no\n")

# "`P <= 10000000 U 8 up dead`: L is 0.004, depth 42, limit about 3,992,010.656 billionths", and the narrowest report of it.
HOURS_8 = b"P <= 10000000 U 8 up dead\n"
HOURS_8_REPORT = report_text([Row(3_992_010, 3_992_011, 42, "yes"), Row(BILLION, BILLION, 42, "no")])

# "q 64,000,000 and 1 hour: depth 168."; "No moves"
FAST_MOVES = moves_text([(0, 1, 64_000_000)])
NO_MOVES = MOVES_LINE

# As fast as a rate may be.
FULL_MOVES = moves_text([(0, 1, MOST_RATE)])
