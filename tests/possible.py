"""Drawn jobs that ask what is possible or certain, many of them where no interval tells it: nested, and with operands undecided at some state."""
from collections import namedtuple

from reckoning.limits import BILLION, MOST_RATE
from reckoning.sheets import labels_text, moves_text
from reckoning.tests.lines import lines_for
from tests.ways import BOUNDS, SHORT

NAMES = [b"up", b"dead", b"hot"]

# How fast the states of a sheet are left, and for how long a question is. `telling` are the bounds that the ends often cannot decide at this speed,
# and `near` others like that, which nothing else decides: is there one chance in a billion, or are there all but one?
Speed = namedtuple("Speed", "exit_rate hours telling near")
SLOW = Speed(1, [b"0", SHORT, SHORT, SHORT, b"8760"], [(b">", 0), (b"<=", 0)], [b">= 1", b"< 1"])
FAST = Speed(MOST_RATE, [b"0", b"0.5", b"1"], [(b">=", BILLION), (b"<", BILLION)], [b"> 999999999", b"<= 999999999"])


def drawn_job(rng):
    """A drawn sheet, most of whose moves lead on to the next state, with lines in any order, and a question with the threshold 0 or 1,000,000,000."""
    states, speed = rng.randint(3, 7), rng.choice([SLOW, FAST])
    moves = []
    for s in range(states):
        targets = [to for to in range(states) if rng.random() < (0.9 if to == s + 1 else 0.05)]
        moves += [(s, to, speed.exit_rate // len(targets) or 1) for to in targets]
    marks = [[rng.random() < holds for holds in (0.9, 0.2, 0.5)] for _ in range(states)]
    return moves_text(lines_for(rng, moves)), labels_text(NAMES, marks), drawn_question(rng, speed, levels=3) + b"\n"


def drawn_question(rng, speed, levels):
    """Whether something is possible or certain; its operands are often simple ones."""
    bound, first, second = b"P %s %d" % rng.choice(speed.telling * 3 + BOUNDS), b"up", b"dead"
    if rng.random() < 0.5:
        first, second = (drawn_operand(rng, speed, levels - 1) for _ in range(2))
    if rng.random() < 0.2:
        return b"%s X %s" % (bound, second)
    return b"%s %s %s %s" % (bound, drawn_head(rng, speed), first, second)


def drawn_head(rng, speed):
    """`U` and hours, or `V` and two that do not fall, which are two phases, and not for the moves to decide, where the first are above 0."""
    if rng.random() < 0.7:
        return b"U " + rng.choice(speed.hours)
    return b"V %s %s" % tuple(sorted((rng.choice(speed.hours), rng.choice(speed.hours)), key=float))


def drawn_operand(rng, speed, levels):
    """A label, one of two, a question like that, or one that its ends often leave undecided."""
    if levels and rng.random() < 0.3:
        return drawn_question(rng, speed, levels)
    return rng.choice([rng.choice(NAMES), b"! " + rng.choice(NAMES), b"! & ! %s ! %s" % tuple(rng.sample(NAMES, 2)),
                       b"P %s %s tt %s" % (rng.choice(speed.near), drawn_head(rng, speed), rng.choice(NAMES))])
