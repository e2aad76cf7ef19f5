"""What is wrong with a token that should be a comparison, a threshold or hours."""
import re

from ..formula import COMPARISONS, TIMED, Between, Next, Until
from ..limits import BILLION, FORMULA_DIGITS, HOUR, MOST_HUNDREDTHS, MOST_THRESHOLD
from ..texts import is_number
from .amounts import amount, as_hours, as_threshold, groups, rising, zeros
from .words import first, quoted

TWISTED = {b"=>": ">=", b"=<": "<=", b"=": "<= or >=", b"==": "<= or >="}
ASKED = b"=?"
GLUED = re.compile(rb"(<=|>=|<|>)([0-9.].*)")
BILLIONTHS = "thresholds are whole billionths"
EXAMPLE = "990000000 is 0.99"
HOURS_SLIPS = tuple((re.compile(slip), words) for slip, words in (
    (rb"[0-9]+[.][0-9]*0", "ends in a zero"),
    (rb"[0-9]+[.]", "ends in a point"),
    (rb"[.][0-9]+", "begins with a point"),
    (rb"0[0-9].*", "begins with a zero"),
    (rb"[0-9]+[.][0-9]{3,}", "has more than two decimals"),
    (rb"[0-9]+,[0-9]+", "has a comma"),
    (rb"[0-9.]+[eE][-+]?[0-9]+", "has an exponent"),
))
COMPARED = re.compile(rb"<=?(.*)")
UNITS = (b"h", b"hr", b"hrs", b"hour", b"hours")
WITH_UNIT = re.compile(rb"([0-9.]+)(?:%s)" % b"|".join(UNITS))
TWO_TIMES = re.compile(rb"[\[(]?([0-9.]+)[,;-]([0-9.]+)[\])]?")


def comparison_fault(tokens, at):
    return first((twisted, asked, glued, no_comparison), tokens[at])


def twisted(part):
    return f"{quoted(part)} is no comparison: write {TWISTED[part]}" if part in TWISTED else ""


def asked(part):
    """`P=?` is how PRISM asks for the number itself."""
    return f"{quoted(part)} is no comparison: every report shows the probability, write >= 0 to ask for no threshold" if part == ASKED else ""


def glued(part):
    """A comparison and a threshold with no space between them."""
    found = GLUED.fullmatch(part)
    return f"{quoted(part)} lacks a space: write {found[1].decode()} {threshold_meant(found[2])}" if found else ""


def threshold_meant(part):
    """How a typed threshold is written: what is at most 1 is taken for a probability."""
    if is_number(part, FORMULA_DIGITS):
        return as_threshold(part) or part.decode()
    return as_threshold(part) or "and a threshold in whole billionths"


def no_comparison(part):
    return f"{quoted(part)} is no comparison: after P comes <, <=, >= or >"


def threshold_fault(tokens, at):
    if tokens[at - 1] + tokens[at] in COMPARISONS:
        return f"a space inside a comparison: write {(tokens[at - 1] + tokens[at]).decode()}"
    if tokens[at] in (*TIMED, Next.letter):
        return f"no threshold before {quoted(tokens[at])}: {BILLIONTHS}, {EXAMPLE}"
    part = tokens[at]
    return zeros(part, FORMULA_DIGITS) or groups(part, FORMULA_DIGITS) or first((threshold_digits, probability, no_threshold), part)


def threshold_digits(part):
    return f"{len(part)} digits, a threshold is at most {MOST_THRESHOLD:,} billionths, which is probability 1" if part.isdigit() else ""


def probability(part):
    """A threshold typed as a decimal or in per cent."""
    value = amount(part)
    if value is None:
        return ""
    words = f"{quoted(part)} is not whole, {BILLIONTHS}: "
    if value > 1 and value.denominator == 1 and value <= MOST_THRESHOLD:
        return f"{quoted(part)} is not written as a whole number: write {value}"
    if value > 1:
        return f"{quoted(part)} is no threshold: {BILLIONTHS}, at most {MOST_THRESHOLD:,}, which is probability 1"
    down, rest = divmod(value * BILLION, 1)
    return words + (f"it lies between {down} and {down + 1}" if rest else f"{part.decode()} is {down}")


def no_threshold(part):
    return f"{quoted(part)} is no threshold: {BILLIONTHS}, {EXAMPLE}"


def hours_fault(tokens, at):
    part = tokens[at]
    return (two_times(tokens, at) or compared(tokens, at) or groups(part, FORMULA_DIGITS)
            or first((typed_otherwise, hours_digits, with_unit), part) or f"{quoted(part)} is no number of hours: {hours_next(tokens, at)}")


def two_times(tokens, at):
    """Both times in one token: behind `V` where no other time follows, and elsewhere in brackets."""
    found, after = TWO_TIMES.fullmatch(tokens[at]), b"".join(tokens[at + 1:at + 2])
    are_two = tokens[at - 1] == Between.letter and amount(after) is None or tokens[at][:1] in (b"[", b"(")
    times = rising(*found.groups()) if found and are_two else [None]
    return "" if None in times else f"{quoted(tokens[at])} is two times in one: write V {' '.join(times)}"


def hours_digits(part):
    whole = part.partition(b".")[0]
    most = f"hours are at most {MOST_HUNDREDTHS // HOUR:,}"
    return f"{len(whole)} digits, {most}" if whole.isdigit() and len(whole) > FORMULA_DIGITS else ""


def typed_otherwise(part):
    """A number, but not as hours are written."""
    words = next((words for slip, words in HOURS_SLIPS if slip.fullmatch(part)), "")
    meant = as_hours(part)
    return f"{quoted(part)} {words}: " + (f"write {meant}" if meant else "hours go to hundredths, as 8.25 does") if words else ""


def compared(tokens, at):
    """PRISM has a comparison before the hours, perhaps with a space between them."""
    found = COMPARED.fullmatch(tokens[at])
    typed = found[1] or b"".join(tokens[at + 1:at + 2]) if found else b""
    return f"{quoted(tokens[at])} has a comparison: write the hours alone, {as_hours(typed) or 8}" if found else ""


def with_unit(part):
    found = WITH_UNIT.fullmatch(part)
    return f"{quoted(part)} has a unit: write {as_hours(found[1])}" if found and as_hours(found[1]) else ""


def hours_next(tokens, at):
    """What is said where a time is wanted: the one of `U`, or the first or the second of `V`."""
    if tokens[at - 1] == Until.letter:
        return "hours come after U, as in U 8.25 up dead"
    return f"{'two times in hours come' if tokens[at - 1] == Between.letter else 'a second time comes'} after V, as in V 2 8.25 up dead"
