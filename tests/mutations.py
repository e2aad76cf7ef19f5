"""Jobs made from other jobs: bytes, lines and tokens changed, parts of two jobs put together, and lent lengths about what is needed.

Unlike `jobs.damaged`, which breaks the layout more often than not, most of these keep it, so that the later tests of document 01 are reached.
"""
import re
from collections import Counter

from reckoning.formula import COMPARISONS, hours_text, nodes
from reckoning.graph import EXTREMES
from reckoning.limits import (BILLION, FORMULA_DIGITS, HOUR, MOST_HUNDREDTHS, MOST_MOVES, MOST_NODES, MOST_RATE, MOST_STATES, RATE_HOURS,
                              SPARE_STEPS)
from reckoning.refusal import Lent, needed, refusal
from reckoning.sheets import moves_text
from reckoning.tests.lines import drawn, lines_for
from tests.jobs import damaged, random_job
from tests.library import ENOUGH, MORE

SEPARATORS = re.compile(rb"([, \n])")
NUMBERS = [b"%d" % number for number in (
    0, 1, 2, 3, 5, SPARE_STEPS, MOST_NODES, MOST_STATES - 1, MOST_STATES, MOST_MOVES, MOST_HUNDREDTHS // HOUR, MOST_HUNDREDTHS // HOUR + 1, RATE_HOURS, MOST_RATE - 1,
    MOST_RATE, MOST_RATE + 1, BILLION - 1, BILLION, BILLION + 1, 10**FORMULA_DIGITS - 1, 10**FORMULA_DIGITS)]
HOURS = [*map(hours_text, (1, 50, 825, 850, MOST_HUNDREDTHS - 1, MOST_HUNDREDTHS + 1)), b"8.50", b"8.0", b"8.", b".5", b"00.5", b"8.125", b"8.2.5",
         b"9999999999.99", b"10000000000.5"]
WORDS = [b"tt", b"state", b"up", b"dead", b"t", b"tta", b"abcdefghijkl", b"abcdefghijklm", b"", b"00", b"01", b"U", b"V", b"X", b"\xff"]
OPERATORS = [b"! ", b"& tt ", b"& up ", b"P < 1 U 1 tt ", b"P >= 500000000 U %s up " % hours_text(MOST_HUNDREDTHS), b"P > 0 U 0 ", b"P < 1 X ",
             b"P >= 333333334 X ", b"P > 0 U 0.01 tt ", b"P <= 0 X ", b"P >= 1000000000 X ", b"P < 1000000000 U 1 tt ", b"P < 1 V 0.5 1 tt ",
             b"P > 0 V 0 0.01 tt ", b"P > 0 V 0.01 0.01 up ", b"P < 1 V 1 0.5 tt "]
TIMED = re.compile(rb"U \S+|V \S+ \S+")
THRESHOLD = re.compile(rb"(?<=P < |P > )\d+|(?<=P <= |P >= )\d+")
MOST_SUM = 2**32 - 1         # in 32 bits
MOST_CHANGES = 4
MOST_DIGITS = 20


def with_token(rng, text):
    """A field or token replaced by its beginning, by one that stands elsewhere in the text, or by one that means something in some text."""
    parts = SEPARATORS.split(text)
    at = rng.randrange(0, len(parts), 2)
    begun = parts[at][:rng.randint(0, len(parts[at]))]
    parts[at] = rng.choice([begun, rng.choice(parts[::2]), rng.choice(NUMBERS), rng.choice(HOURS), rng.choice(WORDS),
                            rng.choice(COMPARISONS)])
    return b"".join(parts)


def is_number(part):
    """Whether a part is digits, so few that a number near it can be reckoned."""
    return part.isdigit() and len(part) <= MOST_DIGITS


def with_number(rng, text):
    """A number replaced by one near it or at some limit; a token where there is no number."""
    parts = SEPARATORS.split(text)
    places = [at for at, part in enumerate(parts) if is_number(part)]
    if not places:
        return with_token(rng, text)
    at = rng.choice(places)
    near = b"%d" % max(0, int(parts[at]) + rng.choice([-1_000, -2, -1, 1, 2, 1_000]))
    parts[at] = rng.choice([near, rng.choice(NUMBERS)])
    return b"".join(parts)


def with_extremes(rng, text):
    """Thresholds of a formula, each or not, replaced by 0 or 1,000,000,000."""
    return THRESHOLD.sub(lambda found: rng.choice([found[0], *(b"%d" % extreme for extreme in EXTREMES)]), text)


def with_times(rng, text):
    """The untils of a formula, each or not, replaced by one between two times: some that stand there, 0, at a limit or beyond, rising or falling."""
    def other(found):
        times = [*found[0].split()[1:], b"0", b"0.01", b"1", rng.choice(HOURS)]
        return rng.choice([found[0], b"V %s %s" % (rng.choice(times), rng.choice(times))])
    return TIMED.sub(other, text)


def read_moves(text):
    """The moves of a made moves text, as (from, to, rate)."""
    return [tuple(map(int, line.split(b","))) for line in text.split(b"\n")[1:-1]]


def with_other_lines(rng, text):
    """The moves of a made moves text typed otherwise, and some typed again, which adds to their rates."""
    moves = read_moves(text)
    return moves_text(lines_for(rng, moves + rng.choice([[], moves[:1], moves])))


def with_great_rates(rng, text):
    """The rates of a made moves text replaced by great ones: five out of one state add up to a little more than 32 bits hold."""
    sums, moves = Counter(), []
    for state, other, _ in read_moves(text):
        rate = min(BILLION - 1, MOST_SUM + rng.randint(1, MOST_RATE) - sums[state])
        moves.append((state, other, max(1, rate)))
        sums[state] += moves[-1][2]
    return moves_text(moves)


def with_operators(rng, text):
    """Operators put in before some token, once or many times."""
    at = rng.choice([0, *(found.end() for found in re.finditer(rb" ", text))])
    return text[:at] + rng.choice(OPERATORS) * rng.choice([1, 1, 2, 8, 14, 15, 16, 60]) + text[at:]


def with_lines_again(rng, text):
    """A line repeated, where lines are numbered with the numbers going on."""
    lines = text.splitlines(keepends=True)
    at, times = rng.randrange(len(lines)), rng.choice([1, 1, 1, 2, 2, 8, 64, 600])
    head, comma, rest = lines[at].partition(b",")
    if is_number(head) and rng.random() < 0.8:
        more = [b"%d" % (int(head) + step) + comma + rest for step in range(1, times + 1)]
    else:
        more = [lines[at]] * times
    return b"".join(lines[:at + 1] + more + lines[at + 1:])


def with_lines_drawn(rng, text):
    """The lines of a text in another order, but for the first."""
    head, *lines = text.splitlines(keepends=True)
    return b"".join([head, *drawn(rng, lines)])


def spliced(rng, one, other):
    """The beginning of a text and the end of another, cut between lines, tokens or bytes."""
    pattern = rng.choice([rb"\n", rb"[, \n]", rb""])
    cuts = [rng.choice([found.end() for found in re.finditer(pattern, text)] or [0]) for text in (one, other)]
    return one[:cuts[0]] + other[cuts[1]:]


def mutated(rng, job, other):
    """A job changed in a few places; `other` is a second job to take parts from."""
    texts = list(job)
    for _ in range(rng.randint(1, MOST_CHANGES)):
        which = rng.choice([0, 1, 2, 2])
        kind = rng.choice(["damage", "token", "number", "number", "more", "splice", "take", "order"])
        if kind == "take":
            texts[which] = other[which]
        elif kind == "splice":
            texts[which] = spliced(rng, texts[which], other[which])
        elif kind == "damage" or not texts[which]:
            texts[which] = damaged(rng, texts[which])
        elif kind in ("token", "number"):
            texts[which] = (with_token if kind == "token" else with_number)(rng, texts[which])
        elif kind == "order":
            texts[0] = with_lines_drawn(rng, texts[0] or b"\n")
        else:
            texts[which] = (with_operators if which == 2 else with_lines_again)(rng, texts[which])
    return tuple(texts)


def bent_job(rng):
    """A made job whose layout is kept, so that it is the later tests that it fails, or none: numbers or times replaced, lines typed otherwise or
    again, or operators put into the formula."""
    texts = list(random_job(rng))
    which, bend = rng.choice([(0, with_number), (0, with_great_rates), (0, with_other_lines), (2, with_number), (2, with_operators),
                              (2, with_extremes), (2, with_times)])
    texts[which] = bend(rng, texts[which])
    return tuple(texts)


def some_lent(rng, job):
    """Lent lengths for a job: just enough, one short, half of it, long, a mark byte for each node and state, or anything."""
    reckoned = refusal(*job)
    if isinstance(reckoned, int) or rng.random() < 0.1:
        return Lent(*(rng.choice([0, 1, rng.randint(0, most), most]) for most in ENOUGH))
    exact, name = needed(reckoned), rng.choice(Lent._fields)
    need = getattr(exact, name)
    more = [len(nodes(reckoned.tree)) * reckoned.chain.states] if name == "marks" else []
    other = rng.choice([need - 1, need // 2, need + 1, need + MORE, *more])
    return rng.choice([exact, exact._replace(**{name: max(0, other)}), Lent(*(most + MORE for most in ENOUGH))])
