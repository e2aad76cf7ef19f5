"""What is wrong with a field of a sheet that should be a number, a rate or a mark."""
import re
from math import floor

from ..limits import MOST_RATE, RATE_HOURS, SHEET_DIGITS
from ..texts import is_mark, is_number
from .amounts import amount, groups, zeros
from .saving import saving_slip
from .words import counted, first, quoted

STATE = "a state's number"
RATE = "a rate in moves per million hours"
POINT_AND_THREE = re.compile(rb"[1-9][0-9]{0,2}[.][0-9]{3}")
MINUS = re.compile(rb"-[0-9.]+")


def number_fault(field, wanted):
    """What is wrong with a field that is no number of a sheet; `wanted` says what it should be."""
    return saving_slip(field) or groups(field, SHEET_DIGITS) or zeros(field, SHEET_DIGITS) or first(
        (empty, spaced, negative, plus, digits, decimal, no_number), field, wanted)


def mark_fault(field, name):
    """What is wrong with a field that is no mark; its column has this name."""
    if not name:
        return "this column has no name in the first line: give it one, or take the column out in every line"
    wanted = f"0 or 1 for {quoted(name)}"
    return saving_slip(field) or empty(field, wanted) or is_mark(field.strip()) and spaced(field, wanted) or no_mark(field, wanted)


def empty(field, wanted):
    return "" if field else f"empty, {wanted} is wanted"


def spaced(field, _):
    bare = field.strip()
    return f"{quoted(field)} has a space beside it: write {bare.decode()}" if bare != field and is_number(bare, SHEET_DIGITS) else ""


def negative(field, wanted):
    return f"{quoted(field)} is negative: {wanted} is wanted" if MINUS.fullmatch(field) else ""


def plus(field, _):
    return f"{quoted(field)} has a sign: write {field[1:].decode()}" if field[:1] == b"+" and is_number(field[1:], SHEET_DIGITS) else ""


def digits(field, wanted):
    if not field.isdigit():
        return ""
    most = f", of at most {MOST_RATE:,}" if wanted == RATE else ""
    return f"{counted(len(field), 'digit')}, a number has at most {SHEET_DIGITS}: {wanted} is wanted{most}"


def decimal(field, wanted):
    """Decimals or an exponent. A point before three digits may set thousands apart."""
    value = amount(field)
    if value is None:
        return ""
    if POINT_AND_THREE.fullmatch(field):
        return f"{quoted(field)} may be {field.replace(b'.', b'').decode()} or {trimmed(field)}: {wanted} is wanted, whole and without a point"
    if value.denominator == 1 and is_number(b"%d" % value.numerator, SHEET_DIGITS):
        return f"{quoted(field)} is not written as a whole number: write {value}"
    return f"{quoted(field)} is no whole number: " + (rounding(value) if wanted == RATE else f"{wanted} is wanted")


def rounding(value):
    """How a rate is made whole. One below 1 may be meant per hour."""
    down, per_million = floor(value), value * RATE_HOURS
    if down:
        return f"round it, a failure's rate up to {down + 1} and a repair's down to {down}"
    hourly = f", or write {per_million} if it is per hour" if per_million.denominator == 1 and per_million <= MOST_RATE else ""
    return f"a rate is moves per million hours, round it up to 1{hourly}"


def trimmed(field):
    """A number without the zeros at the end of its decimals."""
    return field.rstrip(b"0").rstrip(b".").decode()


def no_number(field, wanted):
    return f"{quoted(field)} is no number: {wanted} is wanted"


def no_mark(field, wanted):
    return f"{quoted(field)} is no mark: {wanted} is wanted"
