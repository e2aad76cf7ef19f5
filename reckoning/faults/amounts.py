"""Numbers as people type them, where the texts have other ones: what was meant by them, written as the texts have it."""
import re
from fractions import Fraction

from ..formula import hours_text
from ..limits import BILLION, FORMULA_DIGITS, HOUR
from ..texts import is_number
from .words import quoted

# Decimals behind a point or a comma, an exponent, a per cent sign; no more digits than anyone means.
TYPED = re.compile(rb"(?=[.,]?[0-9])[0-9]{0,12}(?:[.,][0-9]{0,12})?(?:[eE][-+]?[0-9]{1,2})?%?")
GROUPED = re.compile(rb"[1-9][0-9]{0,2}(?:(?:,[0-9]{3})+|(?:_[0-9]{3})+|(?:'[0-9]{3})+|(?: [0-9]{3})+|(?:[.][0-9]{3}){2,})")
PER_CENT = b"%"
HUNDRED = 100
NO_DIGIT = re.compile(rb"[^0-9]")


def amount(part):
    """The value of a typed number that is not negative; None where it is no such number."""
    if not TYPED.fullmatch(part):
        return None
    value = Fraction(part.rstrip(PER_CENT).replace(b",", b".").decode())
    return value / HUNDRED if part.endswith(PER_CENT) else value


def ungrouped(part):
    """The digits of a number typed with thousands separators; None where it is no such number."""
    return NO_DIGIT.sub(b"", part).decode() if GROUPED.fullmatch(part) else None


def groups(part, digits):
    """What is said of a number of at most so many digits with thousands separators; nothing of others."""
    bare = ungrouped(part)
    return f"{quoted(part)} has thousands separators: write {bare}" if bare and len(bare) <= digits else ""


def zeros(part, digits):
    """What is said of a number of at most so many digits with zeros before it; nothing of others."""
    bare = part.lstrip(b"0") or b"0"
    return f"{quoted(part)} begins with a zero: write {bare.decode()}" if part.isdigit() and bare != part and is_number(bare, digits) else ""


def as_threshold(part):
    """A typed probability as a threshold; None where it is none, or no whole billionths."""
    value = amount(part)
    return str(value * BILLION) if value is not None and value <= 1 and (value * BILLION).denominator == 1 else None


def rising(*typed):
    """Typed numbers as hours of a formula, the least first; None for one that cannot be."""
    return [as_hours(part) for part in sorted(typed, key=lambda part: amount(part) or 0)]


def as_hours(part):
    """A typed number as hours of a formula; None where it is none, or no whole hundredths."""
    value = amount(part)
    if value is None or value >= 10**FORMULA_DIGITS or (value * HOUR).denominator > 1:
        return None
    return hours_text(int(value * HOUR)).decode()
