"""What is wrong with a word that should be a label name, in labels.txt or in a formula."""
import re

from ..limits import MOST_LETTERS
from ..texts import is_word
from .saving import saving_slip
from .words import first, quoted

WANTED = f"a name is 1 to {MOST_LETTERS} letters a to z"
NOT_SMALL = re.compile(rb"[^a-z]")
NO_LETTER = re.compile(rb"[^A-Za-z]")

# What other notations have for what always holds and what never does, and how that is written here.
CONSTANTS = {b"true": "tt", b"false": "! tt"}


def name_fault(name):
    """What is wrong with a word that is not 1 to 12 letters a to z."""
    return first((saving_slip, empty, long, spaced, quotes, capitals, other), name)


def empty(name):
    return "" if name else f"empty, {WANTED}"


def long(name):
    return "" if NOT_SMALL.search(name) else f"{quoted(name)} has {len(name)} letters, {WANTED}"


def spaced(name):
    bare = name.strip()
    return f"{quoted(name)} has a space beside it: write {bare.decode()}" if is_word(bare) else ""


def quotes(name):
    bare = name.strip(b"\"'")
    return f"{quoted(name)} has quotes: write {bare.decode()}" if is_word(bare) else ""


def capitals(name):
    return f"{quoted(name)} has capitals, {WANTED}: write {name.lower().decode()}" if is_word(name.lower()) else ""


def other(name):
    found = NO_LETTER.search(name) or NOT_SMALL.search(name)
    return f"{quoted(name)} has {quoted(found[0])} in it, {WANTED}"
