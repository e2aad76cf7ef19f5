"""The bars of the bench: what the figures have to keep to."""
from collections import namedtuple

import sheets
from line_orders import OUT_OF_ORDER, formulas
from measuring import balls_agree, doubles_agree, width
from ordering import at_most, out_of_order
from reckoning.chain import depth
from restarts import exact
from searching import for_each, share, share_with_index
from two_phases import over_doubles as two_over_doubles

FEW_MOVES = 3                           # with fewer moves out of a state than this a sheet is sparse
MOST_OVER_DOUBLES = {"dense": 1.6, "sparse": 2.4}
GOAL_OVER_DOUBLES = {"dense": 1.3, "sparse": 2.0}
LEAST_UNDER_BALLS = 60
LEAST_UNDER_DOTS = 30                   # a goal and no bar
MOST_OVER_UNTILS = 1.3
JUDGED_DEPTH = depth(sheets.HOURS[-1])  # the whole job is judged at this depth, and told of the others
MOST_OF_JOB = 0.05                      # of a whole job, for the order of its states
MOST_OF_UNTIL = 0.03                    # of an until, for the search along the moves
MOST_WITH_INDEX = 0.1                   # and with the index of incoming moves: a goal and no bar
MOST_APART = 4                          # times that a search for each state and move may take of what it takes on another sheet: a goal and no bar
MOST_OVER_RISING = 1.1                  # of lines out of order, the whole job against that with rising lines
MOST_RESIDENT = 4096                    # KB
MOST_WIDTH = 2                          # billionths

# What is asked, what was found, and whether that meets it; only a bar that is `judged` makes the bench fail.
Bar = namedtuple("Bar", "asked found met judged")


def shape(row):
    """Whether a row's sheet is dense or sparse."""
    return "sparse" if row.sheet.moves < FEW_MOVES * row.sheet.states else "dense"


def over_doubles(rows):
    """The engine against the doubles, in every row: a bar and a goal for dense sheets, and for sparse ones."""
    for kind in MOST_OVER_DOUBLES:
        over = [row.engine / row.doubles for row in rows if shape(row) == kind]
        for most, judged in ((MOST_OVER_DOUBLES[kind], True), (GOAL_OVER_DOUBLES[kind], False)):
            yield Bar(f"engine at most {most} times the doubles in every {kind} row", f"{min(over):.2f} to {max(over):.2f}",
                      max(over) <= most, judged)


def under_balls(rows):
    """The engine against the balls, in every row: against the same loop, and as a thing to be told against Arb's dot product."""
    for name, told_as, least in (("balls", "Arb", LEAST_UNDER_BALLS), ("dot", "Arb's dot product", LEAST_UNDER_DOTS)):
        asked = f"engine at least {least} times faster than {told_as} in every row"
        if any(row.balls is None for row in rows):
            yield Bar(asked, "Arb is not there", None, False)
        else:
            under = [getattr(row, name) / row.engine for row in rows]
            yield Bar(asked, f"{min(under):.1f} to {max(under):.1f}", min(under) >= least, name == "balls")


def over_untils(rows):
    """The whole job against its until, one bar for each depth."""
    for at in sorted({row.depth for row in rows}, reverse=True):
        over = [row.job / row.engine for row in rows if row.depth == at]
        yield Bar(f"whole job at most {MOST_OVER_UNTILS} times its until at depth {at}", f"{min(over):.2f} to {max(over):.2f}",
                  max(over) <= MOST_OVER_UNTILS, at == JUDGED_DEPTH)


def of_footprints(footprints):
    """Resident memory and stack, the greatest of what was run."""
    resident = max(each.resident for each in footprints)
    yield Bar("resident memory at most 4 MB", f"{resident} KB", resident <= MOST_RESIDENT, True)
    printed = all(each.printed for each in footprints)
    found = f"{max(each.stack for each in footprints)} KB do" if printed else "no report under it"
    yield Bar("stack at most 1 MB", found, printed, True)


def of_answers(rows):
    """That all three compute the same, and how wide the intervals are."""
    agree = all(doubles_agree(row) and balls_agree(row) is not False for row in rows)
    yield Bar("answers of doubles and Arb within the intervals in every row", "yes" if agree else "no", agree, True)
    widest = max(map(width, rows))
    yield Bar(f"no interval wider than {MOST_WIDTH} billionths", f"{widest}", widest <= MOST_WIDTH, True)


def of_two_phases(taken):
    """Two phases against the doubles, as a goal, and that both compute the same."""
    ratio, most = two_over_doubles(taken), MOST_OVER_DOUBLES[shape(taken)]
    yield Bar(f"two phases at most {most} times the doubles", f"{ratio:.2f}", ratio <= most, False)
    agree = doubles_agree(taken)
    yield Bar("answers of doubles within the intervals of two phases", "yes" if agree else "no", agree, True)


def of_restarts(asked):
    """That next moves are exact, and that restarts change no until."""
    (*nexts, plain, restarted) = asked
    right = all(map(exact, nexts))
    yield Bar("ends of the next move exact, rounded outwards", "yes" if right else "no", right, True)
    same = plain.ends == restarted.ends
    yield Bar("an until's ends the same with restarts as without", "yes" if same else "no", same, True)


def of_orders(orderings, rows):
    """That each order is right, and what the order costs of the longest job of as many states: ends out of order, and all of it at most."""
    right = all(ordering.right for ordering in orderings)
    yield Bar("orders those of the second reckoning", "yes" if right else "no", right, True)
    for told_as, cost, judged in (("ends out of order cost", out_of_order, True), ("the order takes", at_most, False)):
        shares = [cost(ordering) / row.job for ordering in orderings for row in rows
                  if row.sheet.states == ordering.states and row.depth == JUDGED_DEPTH]
        yield Bar(f"{told_as} at most {100 * MOST_OF_JOB:.0f} % of the whole job at depth {JUDGED_DEPTH}",
                  f"{100 * min(shares):.1f} % to {100 * max(shares):.1f} %", max(shares) <= MOST_OF_JOB, judged)


def of_searches(searches, largest):
    """That the search finds what it should, what it costs of an until, and that it takes as long for each state and move on every sheet."""
    right = all(search.right for search in searches)
    yield Bar("verdicts by the moves those of the second reckoning", "yes" if right else "no", right, True)
    for told_as, some, judged in (("on the largest sheet", [search for search in searches if search.sheet == largest], True),
                                  ("on every sheet", searches, False)):
        shares = [share(search) for search in some]
        yield Bar(f"the search takes at most {100 * MOST_OF_UNTIL:.0f} % of its until at depth {JUDGED_DEPTH} {told_as}",
                  f"{100 * min(shares):.1f} % to {100 * max(shares):.1f} %", max(shares) <= MOST_OF_UNTIL, judged)
    shares = [share_with_index(search) for search in searches]
    yield Bar(f"the index and a search take at most {100 * MOST_WITH_INDEX:.0f} % of the until at depth {JUDGED_DEPTH} on every sheet",
              f"{100 * min(shares):.1f} % to {100 * max(shares):.1f} %", max(shares) <= MOST_WITH_INDEX, False)
    each = [for_each(search) for search in searches]
    yield Bar(f"the search takes at most {MOST_APART} times as long for each state and move on one sheet as on another",
              f"{min(each):.2f} to {max(each):.2f} ns", max(each) <= MOST_APART * min(each), False)


def of_line_orders(orders):
    """What lines out of order cost a whole job of the largest sheet, and that all orders have the same report and the same copy."""
    asked = zip(formulas(), (f"at depth {JUDGED_DEPTH}", f"at depth {depth(sheets.HOURS[0])}", "with `tt`"), (True, False, False))
    for formula, told_as, judged in asked:
        over = [order.over[formula] for order in orders if order.way in OUT_OF_ORDER]
        yield Bar(f"whole job at most {MOST_OVER_RISING} times with lines out of order {told_as}", f"{min(over):.3f} to {max(over):.3f}",
                  max(over) <= MOST_OVER_RISING, judged)
    same = all(order.same for order in orders)
    yield Bar("reports and copies the same for all orders of lines", "yes" if same else "no", same, True)


def bars(rows, others, footprints, asked, two_phases, orderings, searches, line_orders):
    """All bars; `others` are rows of other shapes, where the whole job is not held against its until, `asked` those with restarts."""
    every = rows + others
    return [*over_doubles(every), *under_balls(every), *over_untils(rows), *of_orders(orderings, rows), *of_searches(searches, rows[-1].sheet),
            *of_line_orders(line_orders), *of_footprints(footprints), *of_answers(every), *of_restarts(asked), *of_two_phases(two_phases)]


def told(bar):
    """A bar as a line."""
    verdict = {True: "met", False: "NOT met", None: "not measured"}[bar.met]
    return f"{verdict:<13}{bar.asked}: {bar.found}" + ("" if bar.judged or bar.met is None else "  (told, not judged)")


def missed(bar):
    """Whether this bar makes the bench fail."""
    return bar.judged and not bar.met
