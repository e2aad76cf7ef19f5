"""Takes the times that tell what the order of the states costs a job.

The library sorts the states within a job, so that its sort is not timed by itself. The same chances are put to it laid out in three ways: falling
with the state number, which is in order already, rising, and drawn; and equal chances, which are in order too. The texts are equally long, and
nothing but the sort has to do with where an end stands: what rising or drawn ends take longer than falling ones is the sort's.

What the sort takes of ends that are in order is not seen so. It is part of all that comes after the tests, which is measured on a job without
moves and with the formula `tt`, whose ends are equal: its time less that of the same job refused with 15 for want of an order buffer, which ends
with the tests.
"""
import random
from collections import namedtuple

import sheets
from building import PLACE
from measuring import READING, Times, report_of
from reckoning.report import Row, worst_first

IN_ORDER, OUT_OF_ORDER, EQUAL = "falling", ("rising", "drawn"), "equal"
MOST_SHARE = 899            # thousandths: all shares, and what they leave, have three digits
ASKED = "P >= 1 X dead"     # yes at every state but the last, so that judging is the same work for every way

# For so many states: the least time in nanoseconds of the job with each way; that of all that comes after the tests of a job without moves; and
# whether each order was right.
Ordering = namedtuple("Ordering", "states times after right")


def ways(states):
    """The chances of all states but the last, in thousandths, by how they are laid out."""
    falling = [MOST_SHARE - place for place in range(states - 1)]
    drawn = random.Random(states).sample(falling, len(falling))
    return {IN_ORDER: falling, "rising": falling[::-1], "drawn": drawn, EQUAL: [500] * (states - 1)}


def sheets_of(states):
    """The sheets of so many states, by their ways, and the one without moves."""
    place = PLACE / f"order-{states}"
    found = {way: sheets.write_shares(place / way, shares) for way, shares in ways(states).items()}
    return found, sheets.write_bare(place / "bare", states)


def measure_orders(sizes, rounds):
    """The orderings of these numbers of states, all of their jobs in every round."""
    times, asked = Times(), {states: sheets_of(states) for states in sizes}
    for _ in range(rounds):
        for found, bare in asked.values():
            for sheet in found.values():
                times.take("job", sheet.folder, ASKED)
            for program in ("job", "short"):
                times.take(program, bare.folder, READING)
    return [ordering_of(times, states, *sheets_found) for states, sheets_found in asked.items()]


def ordering_of(times, states, found, bare):
    """What was taken for so many states."""
    keys = {way: ("job", sheet.folder, ASKED) for way, sheet in found.items()}
    accepted, refused = ((program, bare.folder, READING) for program in ("job", "short"))
    right = all(in_order(report_of(times.printed[key])) for key in (*keys.values(), accepted))
    return Ordering(states, {way: times.least[key] for way, key in keys.items()}, times.least[accepted] - times.least[refused], right)


def in_order(report):
    """Whether a report's order is that of the second reckoning."""
    return report.order == worst_first([Row(*ends, report.depth, None) for ends in report.ends])


def slowest(ordering):
    """The time of the job whose ends out of order take longest, in nanoseconds."""
    return max(ordering.times[way] for way in OUT_OF_ORDER)


def out_of_order(ordering):
    """The most that ends out of order cost over ends in order, in nanoseconds."""
    return slowest(ordering) - ordering.times[IN_ORDER]


def at_most(ordering):
    """A time that the sort as a whole stays below, in nanoseconds: that of equal ends is part of what comes after the tests; the rest is added."""
    return ordering.after + slowest(ordering) - ordering.times[EQUAL]
