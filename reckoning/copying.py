"""The clean copy of a moves text: "the moves text that document 01 described, moves to the own state included, pairs rising and none twice".

The writer takes moves and labels and tests them as a job's are tested; there is no formula, so 1 is of these two texts alone.
"""

from functools import lru_cache

from .refusal import SHEET_TESTS, Sheet, empty_or_long_sheet, tested
from .report import refused
from .sheets import moves_text

COPY_TESTS = (1, empty_or_long_sheet), *SHEET_TESTS
BY_SHEET = frozenset(number for number, _ in COPY_TESTS)    # the numbers that two texts alone can be refused with
SHORT_COPY = 17


def copy_text(chain):
    """The moves text of a chain: a line for each pair that has moves, with its rate."""
    return moves_text((*pair, rate) for pair, rate in sorted(chain.rates.items()))


@lru_cache(maxsize=4)       # a sheet is often asked for again, with a buffer of another length
def copied_with_room(moves, labels):
    """The clean copy, or the number that the texts are refused with."""
    sheet = tested(COPY_TESTS, Sheet(moves, labels))
    return sheet if isinstance(sheet, int) else copy_text(sheet.chain)


def copied(moves, labels, room=None):
    """The clean copy, or the number that it is refused with: "17 when the buffer for the copy is too short, tested last".

    `room` is how many bytes the buffer has; None is long enough.
    """
    copy = copied_with_room(moves, labels)
    is_short = room is not None and not isinstance(copy, int) and len(copy) > room
    return SHORT_COPY if is_short else copy


def printed_copy(moves, labels):
    """What a program prints that copies: the copy, or `refused` and the number."""
    copy = copied(moves, labels)
    return refused(copy) if isinstance(copy, int) else copy
