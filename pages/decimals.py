"""Chances as decimals, from the two ends of an interval in billionths."""
from decimal import Decimal
from os.path import commonprefix

from reckoning.limits import BILLION
from .picture import plain

PLACES = len(str(BILLION)) - 1      # decimals of a billionth
FEW_DIGITS = 2                      # with fewer digits in common, zeros at their head left out, both ends are told


def decimal(billionths):
    return plain(Decimal(billionths) / BILLION)


def chance(lower, upper):
    """The chance as far as both ends have the same digits; the two ends where they have few in common."""
    if lower == upper:
        return decimal(lower)
    digits = commonprefix([f"{Decimal(end) / BILLION:.{PLACES}f}" for end in (lower, upper)])
    if len(digits.replace(".", "").lstrip("0")) < FEW_DIGITS:
        return f"{decimal(lower)} to {decimal(upper)}"
    return digits + "\N{HORIZONTAL ELLIPSIS}"
