"""Refusal 3: a first line, or a name in it, is wrong."""
from ..limits import MOST_NAMES
from ..texts import COMMA, LABELS_FILE, LABELS_HEAD, MOVES_FILE, MOVES_HEAD, TRUE_WORD, fields, is_labels_head, is_move_line, is_word
from .names import name_fault
from .saving import quotes, saving_slip, separators
from .words import first, quoted, told

FIRST_LINE = 1
FIRST_NAME = 2              # the field of the first name
EXCHANGED = "; are the texts of moves.txt and labels.txt exchanged?"


def wrong_heads(sheet):
    """The first fault of the first lines, in moves.txt before labels.txt."""
    line = sheet.move_lines[0]
    if line != MOVES_HEAD:
        return [told(first((saving_slip, separators, quotes, other_moves_head), line), MOVES_FILE, FIRST_LINE)]
    head, *names = fields(sheet.label_lines[0])
    if head != LABELS_HEAD:
        return [told(first((saving_slip, separators, quotes, other_labels_head), head), LABELS_FILE, FIRST_LINE, 1)]
    at, words = next((at, words) for at in range(len(names)) if (words := one_name_fault(names, at)))
    return [told(words, LABELS_FILE, FIRST_LINE, FIRST_NAME + at)]


def other_moves_head(line):
    if line.rstrip(COMMA) == MOVES_HEAD:
        return f"{quoted(line)} has commas at its end: take them out, here and in every line"
    if is_move_line(line):
        return f"{quoted(line)} is a move: put the line {MOVES_HEAD.decode()} above it"
    return otherwise(line, MOVES_HEAD) + (EXCHANGED if is_labels_head(line) else "")


def other_labels_head(head):
    if head.isdigit():
        return f"{quoted(head)} is a number: put the line with {LABELS_HEAD.decode()} and the names of the labels above the states"
    return otherwise(head, LABELS_HEAD) + (EXCHANGED if head == fields(MOVES_HEAD)[0] else "")


def otherwise(typed, head):
    """What should stand there, and how it differs from what does."""
    words = f"{quoted(typed) if typed else 'empty'}, should be {head.decode()}"
    if typed.lower() == head:
        return words + " in small letters"
    return words + " without spaces" if b"".join(typed.split()) == head else words


def one_name_fault(names, at):
    """What is wrong with a name, those before it being right; nothing where it is right."""
    name = names[at]
    if at == MOST_NAMES:
        return f"{len(names)} names, there may be at most {MOST_NAMES}: this is the first too many"
    if not name:
        return "empty: give the column a name, or take the column out in every line"
    bare = name.strip(b" \"'").lower()
    if bare in (TRUE_WORD, LABELS_HEAD):
        return f"{quoted(name)} cannot be a name, since {bare.decode()} has a meaning of its own: choose another"
    if bare in names[:at]:
        return f"{quoted(name)} again, it stands in field {names.index(bare) + FIRST_NAME} already"
    return "" if is_word(name) else name_fault(name)
