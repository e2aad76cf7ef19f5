"""Refusal 2: a line after the first breaks its layout, or the last line feed is missing."""
import re

from ..limits import SHEET_DIGITS
from ..texts import COMMA, LABELS_FILE, MOVE_FIELDS, MOVES_FILE, ends_in_line_feed, fields, is_mark, is_move_line, is_number, is_state_line
from .amounts import ungrouped
from .fields import RATE, STATE, mark_fault, number_fault
from .saving import NO_LINE_FEED, quotes, saving_slip, separators
from .words import counted, first, quoted, told

COMMENT = re.compile(rb"#|//|--")
MOVE_WANTED = STATE, STATE, RATE


def broken_lines(sheet):
    """The first line that breaks its layout, in moves.txt before labels.txt."""
    names = fields(sheet.label_lines[0])
    return [move_lines_fault(sheet) or state_lines_fault(sheet, names)]


def move_lines_fault(sheet):
    """The sentence of the first line of moves.txt that breaks its layout; nothing where none does."""
    for line, text in enumerate(sheet.move_lines[1:], 2):
        if not is_move_line(text):
            field, words = move_line_fault(text)
            return told(words, MOVES_FILE, line, field)
    return line_feed_fault(MOVES_FILE, sheet.moves_text, sheet.move_lines)


def state_lines_fault(sheet, names):
    """The same of labels.txt; `names` is the fields of its first line, `state` among them."""
    for line, text in enumerate(sheet.label_lines[1:], 2):
        if not is_state_line(text, len(names)):
            field, words = state_line_fault(text, names)
            return told(words, LABELS_FILE, line, field)
    return line_feed_fault(LABELS_FILE, sheet.labels_text, sheet.label_lines)


def move_line_fault(text):
    """The field that is wrong, None for the line as a whole, and what is wrong with it."""
    parts = fields(text)
    whole = line_slip(text) or move_count_fault(parts)
    return (None, whole) if whole else move_field_fault(parts)


def state_line_fault(text, names):
    """The same of a state's line."""
    parts = fields(text)
    whole = line_slip(text) or state_count_fault(parts, names)
    return (None, whole) if whole else state_field_fault(parts, names)


def line_slip(text):
    """What is wrong with a line whatever its fields are; nothing where it has fields of any kind."""
    return first((saving_slip, empty, separators, quotes, comment), text)


def empty(text):
    """Spreadsheets leave the separators of an empty row."""
    return "" if text.strip(b" \t,;") else "an empty line: take it out"


def comment(text):
    found = COMMENT.search(text)
    return f"{quoted(text)} has {quoted(found[0])} in it: a line has numbers alone, and no comment" if found else ""


def move_count_fault(parts):
    """Thousands commas set fields apart."""
    if len(parts) == MOVE_FIELDS:
        return ""
    rate = ungrouped(COMMA.join(parts[MOVE_FIELDS - 1:]))
    grouped = rate and len(rate) <= SHEET_DIGITS
    cure = f": is {rate} meant? write it without commas" if grouped else count_cure(parts, MOVE_FIELDS) or decimal_comma(parts)
    return f"{counted(len(parts), 'field')}, a move has {MOVE_FIELDS}{cure}"


def decimal_comma(parts):
    """Decimals behind a comma make a fourth field."""
    if len(parts) != MOVE_FIELDS + 1 or not all(part.isdigit() for part in parts):
        return ""
    return f": if the rate is {parts[-2].decode()}.{parts[-1].decode()}, round it to a whole number"


def state_count_fault(parts, names):
    if len(parts) == len(names):
        return ""
    cure = ": set its names apart by commas" if len(names) == 1 and not names[0].isalpha() else count_cure(parts, len(names))
    return f"{counted(len(parts), 'field')}, the first line has {len(names)}{cure}"


def count_cure(parts, wanted):
    """Commas too many at the end."""
    more = len(parts) - wanted
    return f": take out the comma{'' if more == 1 else 's'} at the end" if more > 0 and not any(parts[wanted:]) else ""


def move_field_fault(parts):
    """The first field of a line of moves that is no number, counted from 1, and what is wrong with it."""
    return next((field, number_fault(part, wanted)) for field, (part, wanted) in enumerate(zip(parts, MOVE_WANTED), 1)
                if not is_number(part, SHEET_DIGITS))


def state_field_fault(parts, names):
    """The first field of a state's line that is wrong, counted from 1, and what is wrong with it."""
    if not is_number(parts[0], SHEET_DIGITS):
        return 1, number_fault(parts[0], STATE)
    return next((field, mark_fault(part, name)) for field, (part, name) in enumerate(zip(parts[1:], names[1:]), 2) if not is_mark(part))


def line_feed_fault(file, text, lines):
    """What is told where the last line feed is missing; nothing where it is there."""
    if ends_in_line_feed(text):
        return ""
    return told(saving_slip(lines[-1]) or NO_LINE_FEED, file, len(lines))
