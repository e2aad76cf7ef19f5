"""The layout of what the program prints: a refusal, or two listings of the same rows."""

from collections import namedtuple

from .limits import BILLION
from .texts import fields, is_number, lines
from .verdict import NO, UNDECIDED, WORDS, YES

HEAD = b"state,lower,upper,depth,verdict"
DIGITS = len(str(BILLION))      # of the longest number in a report

# The ends of an outermost node other than `P`.
ENDS_OF = {YES: (BILLION, BILLION), NO: (0, 0), UNDECIDED: (0, BILLION)}

Row = namedtuple("Row", "lower upper depth verdict")


class Layout(Exception):
    """The print breaks the layout."""


def refused(number):
    return b"refused\n%d\n" % number


def worst_first(rows):
    """The state numbers "by falling lower end, equal ones by rising state number"; the rows are in the order of the states."""
    return sorted(range(len(rows)), key=lambda state: (-rows[state].lower, state))


def listing(rows, states):
    """The line of names, then the lines of these states."""
    found = [(state, *rows[state]) for state in states]
    return HEAD + b"\n" + "".join(",".join(map(str, line)) + "\n" for line in found).encode()


def report_text(rows):
    """What is printed for these rows, given in the order of the states."""
    return listing(rows, range(len(rows))) + listing(rows, worst_first(rows))


def read_report(printed, states):
    """The rows of a report, in the order of the states, once both of its listings are laid out as they have to be."""
    if not printed.endswith(b"\n"):
        raise Layout("the last line feed is missing")
    found = lines(printed)
    if len(found) != 2 * (states + 1):
        raise Layout(f"{len(found)} lines, should be {2 * (states + 1)}: two listings of {states} states")
    first, second = (without_head(part) for part in (found[:states + 1], found[states + 1:]))
    rows = [read_row(line, state) for state, line in enumerate(first)]
    look_at_second(second, [first[state] for state in worst_first(rows)])
    return rows


def without_head(part):
    """The lines of a listing below its line of names."""
    if part[0] != HEAD:
        raise Layout(f"line {part[0]!r} at the head of a listing")
    return part[1:]


def look_at_second(second, wanted):
    """The second listing has the lines of the first, every one of them once, the worst state at the top."""
    for place, (line, other) in enumerate(zip(second, wanted), 1):
        if line != other:
            raise Layout(f"second listing, row {place}: {line!r}, should be {other!r}")


def read_row(line, state):
    parts = fields(line)
    if len(parts) != 5 or not all(is_number(part, DIGITS) for part in parts[:4]):
        raise Layout(f"state {state}: line {line!r}")
    if int(parts[0]) != state:
        raise Layout(f"state {state}: the line is of state {int(parts[0])}")
    word = parts[4].decode("latin-1")
    if word not in WORDS:
        raise Layout(f"state {state}: verdict {word!r}")
    return Row(int(parts[1]), int(parts[2]), int(parts[3]), word)
