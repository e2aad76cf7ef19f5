"""The figures of the bench as text."""
from growth import slope, steps_made, two_terms
from line_orders import formulas
from measuring import balls_agree, doubles_agree, width
from ordering import at_most, out_of_order
from searching import for_each, share as share_of_until, share_with_index
from two_phases import engine, over_doubles, over_one

HEADS = ["states", "moves", "depth", "doubles", "Arb", "Arb dot", "engine", "again", "reading", "job",
         "eng/dbl", "Arb/eng", "dot/eng", "job/until", "3 untils", "widest", "dbl in", "Arb in"]
RESTART_HEADS = ["formula", "states", "moves", "reading", "job", "job - reading", "ns for each move"]
PHASE_HEADS = ["formula", "states", "moves", "depth", "doubles", "engine", "eng/dbl", "over one", "dbl over one", "widest", "dbl in"]
ORDER_HEADS = ["states", "falling", "rising", "drawn", "equal", "out of order", "after tests"]
SEARCH_HEADS = ["states", "moves", "furthest", "until", "search", "of until", "ns for each", "with index", "of until"]
LINE_HEADS = ["lines", "states", "moves", "job", "of rising", "at depth 42", "of rising", "reading", "of rising", "copy", "ns for each line", "same"]
GROWTH_HEADS = ["states", "moves", "depth", "doubles", "Arb", "engine", "whole job"]
QUIET = 0.1                             # two ways to one time part by at most this share on a quiet machine
WORDS = {True: "yes", False: "NO", None: "-"}


def laid_out(heads, lines):
    """A table with its columns at the right."""
    table = [heads, *lines]
    widths = [max(len(line[i]) for line in table) for i in range(len(heads))]
    return "\n".join("  ".join(cell.rjust(width) for cell, width in zip(line, widths)) for line in table)


def milliseconds(time):
    """A time in nanoseconds as milliseconds; a dash for none."""
    return "-" if time is None else f"{time / 1e6:.4f}" if time < 1e7 else f"{time / 1e6:.2f}"


def line_of(row):
    """A row of the table of times."""
    times = [row.doubles, row.balls, row.dot, row.engine, row.again, row.reading, row.job]
    ratios = [f"{row.engine / row.doubles:.2f}",
              *("-" if time is None else f"{time / row.engine:.1f}" for time in (row.balls, row.dot)),
              f"{row.job / row.engine:.2f}", f"{row.three / (row.three - row.reading):.2f}"]
    return [str(row.sheet.states), str(row.sheet.moves), str(row.depth), *map(milliseconds, times), *ratios,
            str(width(row)), WORDS[doubles_agree(row)], WORDS[balls_agree(row)]]


def times_table(rows):
    """Times in milliseconds, ratios, widths and whether the answers agree."""
    return laid_out(HEADS, map(line_of, rows))


def noise_line(rows):
    """How far the two ways to the engine's time part, as a sign of how quiet the machine was."""
    apart = max(abs(row.again / row.engine - 1) for row in rows)
    busy = "" if apart <= QUIET else ": the machine was too busy for these times, more rounds may help"
    return f"engine and again part by at most {100 * apart:.0f} %{busy}"


def growth_line(row):
    """A row of the table of growth."""
    by = row.sheet.moves * row.depth
    times = [row.doubles, row.balls, row.engine, row.job]
    return [str(row.sheet.states), str(row.sheet.moves), str(row.depth), *("-" if time is None else f"{time / by:.2f}" for time in times)]


def growth_table(rows):
    """Nanoseconds for each move and step."""
    return laid_out(GROWTH_HEADS, map(growth_line, rows))


def fit_line(name, rows, others, unit, count):
    """The two fits of a time: the slope over the rows, the two terms over the others too. `count` says how many of the unit a row has."""
    power = slope([(row.sheet.moves * count(row), getattr(row, name)) for row in rows])
    a, b, miss = two_terms([(row.sheet.states * count(row), row.sheet.moves * count(row), getattr(row, name)) for row in rows + others])
    return (f"{name}: grows as (moves x {unit}) to the power {power:.3f}; "
            f"{a:.2f} ns x states x {unit} + {b:.2f} ns x moves x {unit}, no row off by more than {100 * miss:.0f} %")


def fit_lines(rows, others):
    """How the doubles' and the engine's time grow with the depth, and the engine's with the steps that it makes of it."""
    def depth(row):
        return row.depth

    def steps(row):
        return steps_made(row.depth)
    told = ", ".join(f"{steps_made(depth)} at depth {depth}" for depth in sorted({row.depth for row in rows}))
    return "\n".join([fit_line("doubles", rows, others, "depth", depth), fit_line("engine", rows, others, "depth", depth),
                      f"Steps that the engine makes, up to the last whose weight counts: {told}.",
                      fit_line("engine", rows, others, "steps", steps)])


def restart_line(asked):
    """A row of the table of next moves and restarts."""
    own = asked.job - asked.reading
    times = map(milliseconds, (asked.reading, asked.job, own))
    return [asked.formula, str(asked.sheet.states), str(asked.sheet.moves), *times, f"{own / asked.sheet.moves:.2f}"]


def restart_table(rows):
    """Times of the next move and of an until, on a sheet and on the same sheet with restarts."""
    return laid_out(RESTART_HEADS, map(restart_line, rows))


def phase_line(taken):
    """A row of the table of two phases."""
    return [taken.formula, *map(str, (taken.sheet.states, taken.sheet.moves, taken.depth)), milliseconds(taken.doubles), milliseconds(engine(taken)),
            f"{over_doubles(taken):.2f}", f"{over_one(taken):.2f}", f"{taken.doubles / taken.one_doubles:.2f}", str(width(taken)),
            WORDS[doubles_agree(taken)]]


def phase_table(rows):
    """Times of an until between two times, in two phases."""
    return laid_out(PHASE_HEADS, map(phase_line, rows))


def order_line(ordering):
    """A row of the table of orders."""
    times = [ordering.times[way] for way in ORDER_HEADS[1:5]]
    return [str(ordering.states), *map(milliseconds, (*times, out_of_order(ordering), ordering.after))]


def order_table(orderings):
    """Times of a next move whose ends are laid out in four ways, and of what comes after the tests."""
    return laid_out(ORDER_HEADS, map(order_line, orderings))


def order_shares(ordering, rows):
    """What the order costs, as a share of the whole job of each row that has as many states."""
    shares = [f"{share(out_of_order(ordering), row)} at depth {row.depth} for ends out of order, less than {share(at_most(ordering), row)} in all"
              for row in rows if row.sheet.states == ordering.states]
    return f"the order of {ordering.states} states, of the whole job with one until: " + "; ".join(shares)


def share(time, row):
    """A time as a share of a row's whole job."""
    return f"{100 * time / row.job:.1f} %"


def search_line(search):
    """A row of the table of searches."""
    return [*map(str, (search.sheet.states, search.sheet.moves, search.furthest)), milliseconds(search.until), milliseconds(search.search),
            f"{100 * share_of_until(search):.1f} %", f"{for_each(search):.2f}", milliseconds(search.with_index), f"{100 * share_with_index(search):.1f} %"]


def search_table(searches):
    """Times of the search along the moves."""
    return laid_out(SEARCH_HEADS, map(search_line, searches))


def search_fit(searches):
    """How the time of the search grows; it cannot be told where a search was not seen at all."""
    if any(search.search <= 0 for search in searches):
        return "search: too short to be seen on some sheet, so that its growth is not told"
    power = slope([(search.sheet.states + search.sheet.moves, search.search) for search in searches])
    a, b, miss = two_terms([(search.sheet.states, search.sheet.moves, search.search) for search in searches])
    return (f"search: grows as (states + moves) to the power {power:.3f}; {a:.2f} ns x states + {b:.2f} ns x moves, "
            f"no row off by more than {100 * miss:.0f} %")


def line_order_line(order):
    """A row of the table of orders of lines."""
    timed = [cell for formula in formulas() for cell in (milliseconds(order.times[formula]), f"{order.over[formula]:.3f}")]
    return [order.way, str(order.sheet.states), str(order.sheet.moves), *timed, milliseconds(order.copy), f"{order.copy / order.sheet.moves:.2f}",
            WORDS[order.same]]


def line_order_table(orders):
    """Times of jobs and copies whose moves are typed in several ways."""
    return laid_out(LINE_HEADS, map(line_order_line, orders))


def footprint_line(found):
    """What the program takes on one sheet."""
    stack = f"least stack limit that does: {found.stack} KB" if found.printed else "NO report under a stack limit of 1 MB"
    return f"{found.told}: resident {found.resident} KB, {stack}"
