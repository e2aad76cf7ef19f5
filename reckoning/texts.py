"""The layouts of the three texts, as bytes: numbers, decimals, lines, fields, names."""

import re

from .limits import MOST_LETTERS, MOST_NAMES, SHEET_DIGITS

FILES = MOVES_FILE, LABELS_FILE, FORMULA_FILE = "moves.txt", "labels.txt", "formula.txt"

LINE_FEED = b"\n"
COMMA = b","

MOVES_HEAD = b"from,to,rate"
MOVE_FIELDS = 3
LABELS_HEAD = b"state"
TRUE_WORD = b"tt"

NUMBER = re.compile(rb"0|[1-9][0-9]*")
DECIMALS = re.compile(rb"[0-9]?[1-9]")
WORD = re.compile(rb"[a-z]+")


def is_number(field, digits):
    """Digits without a leading zero, or 0 alone, at most so many."""
    return len(field) <= digits and NUMBER.fullmatch(field) is not None


def is_decimals(field):
    """One or two digits, the last of them not 0."""
    return DECIMALS.fullmatch(field) is not None


def is_word(field):
    """1 to 12 letters a to z."""
    return len(field) <= MOST_LETTERS and WORD.fullmatch(field) is not None


def is_mark(field):
    return field in (b"0", b"1")


def ends_in_line_feed(text):
    return text.endswith(LINE_FEED)


def lines(text):
    """The lines of a text, without their line feeds; a last line may lack its own."""
    parts = text.split(LINE_FEED)
    return parts[:-1] if ends_in_line_feed(text) else parts


def fields(line):
    """Commas + 1 fields: an empty line has one empty field."""
    return line.split(COMMA)


def is_move_line(line):
    parts = fields(line)
    return len(parts) == MOVE_FIELDS and all(is_number(part, SHEET_DIGITS) for part in parts)


def is_state_line(line, width):
    """A state's number and a mark for each label; `width` is the first line's count of fields."""
    parts = fields(line)
    return len(parts) == width and is_number(parts[0], SHEET_DIGITS) and all(map(is_mark, parts[1:]))


def is_labels_head(line):
    """`state`, then up to 16 names, none of them `tt`, `state` or a repeat."""
    head, *names = fields(line)
    if head != LABELS_HEAD or len(names) > MOST_NAMES or len(set(names)) < len(names):
        return False
    return all(is_word(name) and name not in (TRUE_WORD, LABELS_HEAD) for name in names)
