"""Jobs that meet a limit of document 01 exactly, and jobs that pass it by one."""
from reckoning.limits import (BILLION, FORMULA_BYTES, FORMULA_DIGITS, HOUR, MOST_HUNDREDTHS, MOST_LETTERS, MOST_LEVELS, MOST_MOVES, MOST_NAMES,
                              MOST_NODES, MOST_RATE, MOST_RATE_HUNDREDTHS, MOST_STATES, SHEET_BYTES, SHEET_DIGITS, most_hundredths)
from reckoning.sheets import LABELS, MOVES, MOVES_LINE, NO_MOVES, between, labels_text, moves_text, until


def small(formula):
    """A formula, without its line feed, put to the small sheet."""
    return MOVES, LABELS, formula + b"\n"


def typed(lines):
    """Lines of moves, without the last line feed, over the small sheet's states."""
    return MOVES_LINE + lines + b"\n", LABELS, b"tt\n"


def states(count):
    return NO_MOVES, labels_text([b"up"], [[1]] * count), b"up\n"


def moves(count):
    """So many moves, those to the own state among them, among as few states as have room for one more than the limit."""
    n = next(n for n in range(2, MOST_STATES) if n * n > MOST_MOVES)
    pairs = [(a, b, 1) for a in range(n) for b in range(n)]
    return moves_text(pairs[:count]), labels_text([], [[]] * n), b"tt\n"


def names(count):
    words = [bytes([97 + at]) for at in range(count)]
    return NO_MOVES, labels_text(words, [[1] * count]), words[-1] + b"\n"


def named(*words):
    return NO_MOVES, labels_text(words, [[1] * len(words)]), b"tt\n"


def levels(count):
    return small(b"! " * (count - 1) + b"up")


def nodes(count):
    """A formula of so many nodes, nested as little as can be."""
    def tree(k):
        if k == 1:
            return b"up"
        left = (k - 1) // 2 | 1
        return b"& " + tree(left) + b" " + tree(k - 1 - left)
    return small(tree(count) if count % 2 else b"! " + tree(count - 1))


def rates(total):
    """Two moves out of a state whose rates add up to so much."""
    half = total // 2
    return moves_text([(0, 1, half), (0, 2, total - half)]), labels_text([], [[]] * 3), b"tt\n"


def rates_out(rates):
    """Moves with these rates out of state 0, its own state first, among as many states."""
    return moves_text([(0, to, rate) for to, rate in enumerate(rates)]), labels_text([], [[]] * len(rates)), b"tt\n"


def rates_again(total):
    """As many lines of one pair as there may be, the fastest at the foot, whose rates add up to so much."""
    return typed(b"0,1,1\n" * (MOST_MOVES - 1) + b"0,1,%d" % (total - MOST_MOVES + 1))


def rates_apart(total):
    """Lines of two pairs out of one state by turns, with those of another between them, whose rates add up to so much."""
    half = total // 2
    return typed(b"0,1,%d\n1,0,%d\n0,0,%d\n1,1,1\n0,1,7" % (half - 7, MOST_RATE - 1, total - half))


def moves_again(count):
    """So many lines of one pair."""
    return typed(b"\n".join([b"0,1,1"] * count))


def moves_falling(count):
    """So many moves, the last first."""
    rising, *others = moves(count)
    head, *lines = rising.splitlines(keepends=True)
    return b"".join([head, *reversed(lines)]), *others


def restarts(total):
    """A move to the own state and one to another, whose rates add up to so much."""
    return moves_text([(0, 0, total - 500), (0, 1, 500)]), LABELS, until(MOST_HUNDREDTHS)


def load_beside_restarts(hundredths):
    """A move to the own state as fast as the one to another, which alone counts in q, and an until over so many hundredths of an hour."""
    return moves_text([(0, 0, MOST_RATE // 2), (0, 1, MOST_RATE // 2), (1, 1, MOST_RATE)]), LABELS, until(hundredths)


def load(rate, hundredths):
    """A greatest exit rate, and an until over so many hundredths of an hour."""
    return moves_text([(0, 1, rate)]), LABELS, until(hundredths)


def loads(rate, earliest, latest):
    """A greatest exit rate, and an until between two times in hundredths of an hour."""
    return moves_text([(0, 1, rate)]), LABELS, between(earliest, latest)


def hours(typed):
    """An until whose hours are typed so."""
    return small(b"P < 1 U %s up dead" % typed)


def threshold(number):
    return MOVES, LABELS, until(HOUR, threshold=number)


def next_threshold(number):
    return small(b"P < %d X dead" % number)


def next_levels(count):
    return small(b"P < 1 X " * (count - 1) + b"up")


def between_threshold(number):
    return MOVES, LABELS, between(HOUR, 8 * HOUR, threshold=number)


def between_levels(count):
    return small(b"P < 1 V 1 8 up " * (count - 1) + b"up")


def formula_bytes(count):
    """Too many levels, so 11 while the bytes are within the limit."""
    return MOVES, LABELS, b"! " * ((count - 2) // 2) + b"u" * (1 + count % 2) + b"\n"


def filled(head, line, count):
    """A text of exactly so many bytes: a head, then the line again and again, the last one longer by what is left."""
    lines, rest = divmod(count - len(head), len(line))
    return head + line * (lines - 1) + line[:-1] + b"0" * rest + b"\n"


def label_bytes(count):
    """States out of turn, so 4 while the bytes are within the limit."""
    return MOVES, filled(b"state\n", b"1\n", count), b"tt\n"


def move_bytes(count):
    """Too many moves, so 5 while the bytes are within the limit."""
    return filled(MOVES_LINE, b"0,1,1\n", count), LABELS, b"tt\n"


def long_moves(count):
    """Moves that fall, on long lines, in exactly so many bytes, over as many states as there may be."""
    lines, rest = divmod(count - len(MOVES_LINE), len(b"100,200,123456\n"))
    pairs = [(100 + at // 10, 200 + at % 10, 1_234_567 if at < rest else 123_456) for at in range(lines)]
    return moves_text(pairs[::-1]), labels_text([], [[]] * MOST_STATES), b"tt\n"


def about(job, limit):
    """The job that meets a limit and the one that passes it."""
    return job(limit), job(limit + 1)


def pairs():
    """For each limit a job that meets it and one that passes it."""
    near = MOST_RATE_HUNDREDTHS // 1_517 + 1            # with 15.17 hours it passes the limit by 1
    return {
        "states": about(states, MOST_STATES),
        "moves": about(moves, MOST_MOVES),
        "moves of one pair": about(moves_again, MOST_MOVES),
        "moves that fall": about(moves_falling, MOST_MOVES),
        "names": about(names, MOST_NAMES),
        "letters": about(lambda count: named(b"a" * count), MOST_LETTERS),
        "a name tt": (named(b"t", b"ta", b"at", b"tta"), named(b"t", b"ta", b"tt")),
        "a name state": (named(b"stat", b"states"), named(b"stat", b"state")),
        "a name again": (named(b"up", b"upper", b"u"), named(b"up", b"upper", b"up")),
        "an empty name": (named(), named(b"")),
        "levels": about(levels, MOST_LEVELS),
        "nodes": about(nodes, MOST_NODES),
        "rates": about(rates, MOST_RATE),
        "rates of one pair": about(rates_again, MOST_RATE),
        "rates on lines apart": about(rates_apart, MOST_RATE),
        "load": about(lambda hundredths: load(MOST_RATE, hundredths), most_hundredths(MOST_RATE)),
        "load by one": (load(MOST_RATE_HUNDREDTHS // 1_600, 1_600), load(near, 1_517)),
        "hours": about(lambda hundredths: load(1, hundredths), MOST_HUNDREDTHS),
        "decimals": (hours(b"8.25"), hours(b"8.125")),
        "the last decimal": (hours(b"8.05"), hours(b"8.50")),
        "threshold": about(threshold, BILLION),
        "threshold of a next move": about(next_threshold, BILLION),
        "levels of next moves": about(next_levels, MOST_LEVELS),
        "operands of a next move": (small(b"P < 1 X dead"), small(b"P < 1 X dead up")),
        "times that rise": about(lambda earliest: loads(500, earliest, 8 * HOUR), 8 * HOUR),
        "times that rise at the top": (loads(1, MOST_HUNDREDTHS, MOST_HUNDREDTHS), loads(1, MOST_HUNDREDTHS, MOST_HUNDREDTHS - 1)),
        "hours of both times": about(lambda hundredths: loads(1, hundredths, hundredths), MOST_HUNDREDTHS),
        "hours of the second time": about(lambda hundredths: loads(1, 1, hundredths), MOST_HUNDREDTHS),
        "hours of the first time, which falls": (loads(1, MOST_HUNDREDTHS, 1), loads(1, MOST_HUNDREDTHS + 1, 1)),
        "load up to the first time": about(lambda hundredths: loads(MOST_RATE, hundredths, hundredths), most_hundredths(MOST_RATE)),
        "load from the first time on": about(lambda hundredths: loads(MOST_RATE, HOUR, HOUR + hundredths), most_hundredths(MOST_RATE)),
        "load from time 0 on": about(lambda hundredths: loads(MOST_RATE, 0, hundredths), most_hundredths(MOST_RATE)),
        "load from the first time on by one": (loads(MOST_RATE_HUNDREDTHS // 1_600, 1_600, 3_200), loads(near, 1_516, 1_516 + 1_517)),
        "load where times fall": (loads(MOST_RATE, HOUR + 1, HOUR), loads(MOST_RATE, HOUR + 1, HOUR + 1)),
        "two times": (small(b"P < 1 V 1 8 up dead"), small(b"P < 1 V 1 up dead")),
        "decimals of the second time": (small(b"P < 1 V 1 8.05 up dead"), small(b"P < 1 V 1 8.50 up dead")),
        "threshold between times": about(between_threshold, BILLION),
        "levels between times": about(between_levels, MOST_LEVELS),
        "rates with a restart": about(restarts, MOST_RATE),
        "load beside a restart": about(load_beside_restarts, most_hundredths(MOST_RATE // 2)),
        "digits in the formula": (threshold(BILLION), threshold(10**FORMULA_DIGITS)),
        "digits in moves": (typed(b"0,1," + b"9" * SHEET_DIGITS), typed(b"0,1,1" + b"0" * SHEET_DIGITS)),
        "formula bytes": about(formula_bytes, FORMULA_BYTES),
        "bytes of labels": about(label_bytes, SHEET_BYTES),
        "bytes of moves": about(move_bytes, SHEET_BYTES),
        "bytes of moves on long lines": about(long_moves, SHEET_BYTES),
        "a rate on each line": (typed(b"0,0,1\n0,1,1\n0,0,1"), typed(b"0,0,1\n0,1,1\n0,0,0")),
        "no state": ((NO_MOVES, b"state\n0\n", b"tt\n"), (NO_MOVES, b"state\n", b"tt\n")),
    }
