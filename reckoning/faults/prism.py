"""Formulas as PRISM writes them, put as they are written here."""
import re

from ..formula import read_formula
from ..limits import BILLION
from .amounts import as_hours, as_threshold
from .names import CONSTANTS

OPERAND = rb"""(?P<%s>!?\ *"?[a-z]+"?)"""
TIMES = rb"""<=?\ *(?P<time>[0-9.]+) | =\ *(?P<at>[0-9.]+) | \[(?P<earliest>[0-9.]+),\ *(?P<latest>[0-9.]+)\]"""
PRISM = re.compile(rb"""P\ *(?P<comparison><=|>=|<|>|=\?)\ *(?P<threshold>[0-9.]*)\ *
                        \[\ *(?:%s\ +)?(?P<letter>[UFGX])\ *(?:%s)?\ *%s\ *\]\s*"""
                   % (OPERAND % b"first", TIMES, OPERAND % b"second"), re.VERBOSE)
OPPOSITE = {">=": "<=", ">": "<", "<=": ">=", "<": ">"}
BY_MOVES = ("P > 0", "P <= 0")      # what is possible at any time is so within any time above 0: an hour stands for all


def as_here(text):
    """The formula that a formula text in PRISM's notation stands for; None where it is none, or it has no counterpart."""
    found = PRISM.fullmatch(text)
    formula = f"{bound(found)} {path_of(found)}" if found else ""
    return formula if read_formula(formula.encode() + b"\n") else None


def is_unbounded(text):
    """Whether a formula text in PRISM's notation asks about all time."""
    found = PRISM.fullmatch(text)
    return bool(found) and found["letter"] != b"X" and not is_timed(found)


def is_timed(found):
    return any(found[name] for name in ("time", "at", "earliest"))


def bound(found):
    """`P`, a comparison and a threshold. `P=?` asks for the probability, which every report shows."""
    comparison = found["comparison"].decode()
    if comparison == "=?":
        return "" if is_opposite(found) else "P >= 0"
    threshold = as_threshold(found["threshold"])
    if threshold is None:
        return ""
    return f"P {OPPOSITE[comparison]} {BILLION - int(threshold)}" if is_opposite(found) else f"P {comparison} {threshold}"


def is_opposite(found):
    """Whether the opposite is asked for in its place: `G` between two times, where something is never to happen."""
    return found["letter"] == b"G" and bool(found["earliest"])


def path_of(found):
    letter, second = found["letter"].decode(), operand(found["second"])
    if (letter == "U") != bool(found["first"]) or letter == "X" and is_timed(found):
        return ""
    if letter == "X":
        return f"X {second}"
    if letter == "G" and found["time"]:
        return all_through(as_hours(found["time"]), second)
    first = operand(found["first"]) if letter == "U" else "tt"
    return f"{times_of(found)} {first} {negated(second) if is_opposite(found) else second}"


def all_through(hours, operand):
    """`G` within some hours: how things are at the last of them, the operand holding until then."""
    return f"V {hours} {hours} {operand} tt" if hours not in (None, "0") else ""


def times_of(found):
    """`U` or `V` with its hours."""
    if found["time"]:
        return f"U {as_hours(found['time'])}"
    if found["at"]:
        return f"V {as_hours(found['at'])} {as_hours(found['at'])}"
    if found["earliest"]:
        return f"V {as_hours(found['earliest'])} {as_hours(found['latest'])}"
    return "U 1" if bound(found) in BY_MOVES and found["letter"] != b"G" else ""


def operand(typed):
    """A label, perhaps in quotes, perhaps behind `!`."""
    word = typed.strip(b"!\" ")
    plain = CONSTANTS.get(word) or word.decode()
    return negated(plain) if typed.startswith(b"!") else plain


def negated(formula):
    return formula[2:] if formula.startswith("! ") else f"! {formula}"
