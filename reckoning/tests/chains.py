"""Chains for the tests, made and random, with their texts."""

from reckoning.chain import Chain, until
from reckoning.limits import HOUR, MOST_HUNDREDTHS, MOST_RATE, RATE_HOURS, most_hundredths
from reckoning.sheets import labels_text, moves_text


def row(count, rate):
    """A row of states, each moving on to the next; `dead` holds at the last, `up` at the others."""
    last = count - 1
    return Chain(count, {(s, s + 1): rate for s in range(last)},
                 {b"up": tuple(s < last for s in range(count)),
                  b"dead": tuple(s == last for s in range(count))})


def moves_of(chain):
    """The moves of a chain, rising, none twice."""
    return sorted((*pair, rate) for pair, rate in chain.rates.items())


def texts(chain):
    """The moves and the labels text of a chain."""
    return moves_text(moves_of(chain)), labels_text(chain.marks, zip(*chain.marks.values()))


def random_chain(random, states=None, greatest=None):
    """A chain of 2 to 6 states with two labels, moves to the own state among its moves; rates out of a state add to at most `greatest`."""
    n = states or random.randint(2, 6)
    greatest = greatest or random.choice((10, 5_000, RATE_HOURS, MOST_RATE))
    pairs = [(a, b) for a in range(n) for b in range(n) if random.random() < (0.5 if a != b else 0.3)]
    rates = {pair: random.randint(1, greatest // n) for pair in pairs}
    marks = {name: tuple(random.random() < share for _ in range(n))
             for name, share in ((b"up", 0.7), (b"dead", 0.3))}
    return Chain(n, rates, marks)


def without_own_moves(chain):
    """The same chain with no move to an own state."""
    return Chain(chain.states, {(a, b): rate for (a, b), rate in chain.rates.items() if a != b}, chain.marks)


def reading(chain):
    """Where `up` and where `dead` holds."""
    return chain.marks[b"up"], chain.marks[b"dead"]


def random_hundredths(random, chain):
    """Hundredths of an hour that keep q x t within the limit, 0 and a whole hour among them."""
    most = most_hundredths(chain.q)
    return random.choice((0, min(HOUR, most), random.randint(0, most), most))


def random_times(random, chain):
    """The two times of a `V` whose phases keep q x t within the limit: the first often 0, or both the same."""
    earliest = random_hundredths(random, chain)
    return earliest, min(MOST_HUNDREDTHS, earliest + random_hundredths(random, chain))


def random_pairs(random, count):
    """So many random chains, each with the hundredths of an hour of two phases; the later may have none."""
    for _ in range(count):
        chain = random_chain(random)
        earliest, latest = random_times(random, chain)
        yield chain, (max(1, earliest), latest - earliest)


def random_untils(random, count):
    """So many random chains, each with an until of `up` and `dead` as a phase."""
    for _ in range(count):
        chain = random_chain(random)
        yield chain, until(*reading(chain), random_hundredths(random, chain))
