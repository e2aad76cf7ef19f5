"""A sheet's question put for other hours: those of an until are replaced; of a `V` the second time, and both where it asks about one hour."""
from reckoning.formula import TO_TIMES, Between, spelled


def is_at_one_hour(path):
    """Whether a path formula asks how things are at one hour."""
    return isinstance(path, Between) and path.earliest == path.latest


def put(until, hours):
    """The text of a `P` with another word for its hours."""
    words, times = spelled(until).decode().split(" "), len(until.path.times)
    kept = 0 if is_at_one_hour(until.path) else times - 1
    words[TO_TIMES + kept:TO_TIMES + times] = [hours] * (times - kept)
    return " ".join(words)


def at_hours(texts, until, hours):
    """The three texts with the question put for so many hours, as the formula has them."""
    moves, labels, _ = texts
    return moves, labels, put(until, hours).encode() + b"\n"
