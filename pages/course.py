"""How the chance of a sheet's worst state runs over time: the hours to ask for, what the program answers, and which state is worth a curve."""
from collections import namedtuple
from decimal import Decimal

from reckoning.formula import hours_text
from reckoning.limits import BILLION, FORMULA_BYTES, HOUR, MOST_HUNDREDTHS, RATE_HUNDREDTHS, most_hundredths
from .asking import ask, listings, rows
from .over_time import at_hours, is_at_one_hour
from .picture import Point

BEGINNING = 0               # the state where things begin, by custom
STEPS = 24                  # of the curve, in equal parts; the hours of the question are one point more where they are none of these

# The worst state that is worth a curve, None where no state is, with its points; the worst of all and, where its interval reaches 0 or 1 at every
# time, that end in billionths; and the points of the state where things begin, none where it is drawn already or is not worth it.
Course = namedtuple("Course", "state points worst reached beginning")


def span(path, rate):
    """The hundredths of an hour that a curve begins and ends at: from no time, or the first of two, to twice the question's, within the limits.

    A question about 0 hours has its curve over the mean time until the fastest state is left. That of one about one hour begins behind hour 0,
    where a `V` is a `U` and its first operand does not count.
    """
    if is_at_one_hour(path):
        begun = 1
    else:
        begun = path.phases[0] if len(path.phases) == 2 else 0
    wanted = 2 * path.times[-1] or RATE_HUNDREDTHS // rate
    return begun, min(wanted, (0 if is_at_one_hour(path) else begun) + most_hundredths(rate), MOST_HUNDREDTHS)


def hours_to_ask(path, rate):
    """In hundredths, rising; those of the question are among them."""
    begun, ended = span(path, rate)
    return sorted({begun + (ended - begun) * step // STEPS for step in range(STEPS + 1)} | {path.times[-1]})


def answers(command, texts, until, rate):
    """For each of the hours the rows of the report, by state numbers; hours with which the formula would be too long are left out."""
    jobs = {hundredths: at_hours(texts, until, hours_text(hundredths).decode()) for hundredths in hours_to_ask(until.path, rate)}
    printed = {hundredths: ask(command, job, inside=True)[0] for hundredths, job in jobs.items() if len(job[2]) <= FORMULA_BYTES}
    return {Decimal(hundredths) / HOUR: rows(listings(text)[0]) for hundredths, text in printed.items()}


def points_of(answered, state):
    return [Point(hours, found[state].lower, found[state].upper, found[state].verdict) for hours, found in answered.items()]


def reached(points):
    """0 or 1, in billionths, where the interval reaches that at every point and so tells the chance from it at none; else None."""
    if not any(point.lower for point in points):
        return 0
    return BILLION if all(point.upper == BILLION for point in points) else None


def course(command, sheet, until, order):
    """The curve of the first of these states, the worst first, whose chance is told from 0 and from 1 at some time, and that of the beginning."""
    answered = answers(command, sheet.texts, until, sheet.chain.q)
    points = {state: points_of(answered, state) for state in order}
    state = next((state for state in order if reached(points[state]) is None), None)
    beginning = points[BEGINNING] if state != BEGINNING and reached(points[BEGINNING]) is None else []
    return Course(state, points.get(state, []), order[0], reached(points[order[0]]), beginning)
