"""Jobs for tests, made and damaged from a seeded generator. Jobs at the limits are in `edges`.

A job is a tuple of the three texts (moves, labels, formula) as bytes.
"""
from reckoning.bracket import Bounds, bracket, ceil_billionths, floor_billionths
from reckoning.chain import Chain, next_chances
from reckoning.formula import COMPARISONS, Between, Until, path_head
from reckoning.graph import EXTREMES
from reckoning.limits import BILLION, HOUR, MOST_HUNDREDTHS, MOST_LETTERS, MOST_LOAD, MOST_RATE, RATE_HUNDREDTHS, most_hundredths
from reckoning.pairs import Pair
from reckoning.sheets import labels_text, moves_text
from reckoning.tests.lines import lines_for

NAMES = [b"up", b"dead", b"power", b"gamma", b"locator", b"gun", b"wet", b"hot", b"t", b"ta", b"tta", b"s", b"stat", b"states",
         b"abcdefghijklmnopqrstuvwxyz"[:MOST_LETTERS]]
TELLING = b"0123456789,.\n aPUVX!&tx<=>z/:`{+-\x1f\r\t\x00\x8a\xff"    # bytes that mean something, and those just beside them


class Sheet:
    """A random chain with its two texts: `moves` rise and none stands twice, and the moves text has lines typed for them, in any order."""

    def __init__(self, rng, most_states=6):
        self.states = rng.randint(1, most_states)
        self.names = rng.sample(NAMES, rng.choice([1, 2, 3, 4, len(NAMES)]))
        self.rows = [[rng.randint(0, 1) for _ in self.names] for _ in range(self.states)]
        self.moves = self.random_moves(rng)
        self.chain = Chain(self.states, {(a, b): rate for a, b, rate in self.moves}, {})
        self.moves_text = moves_text(lines_for(rng, self.moves))
        self.labels_text = labels_text(self.names, self.rows)

    def random_moves(self, rng):
        """Moves of one scale; some sheets have moves to the own state, others none; in some, moves lead to neighbours alone, or none across a cut."""
        scale = rng.choice([1, 50, 1_000, 1_000_000, 8_000_000])
        dense, own, least = rng.random(), rng.choice([0, 0.5, 1]), rng.choice([1, 1, 1, scale])
        furthest, cut = rng.choice([1, self.states, self.states]), rng.choice([0, 0, rng.randrange(self.states)])
        moves = []
        for a in range(self.states):
            left = MOST_RATE
            for b in range(max(0, a - furthest), min(self.states, a + furthest + 1)):
                if (a < cut) == (b < cut) and rng.random() < (own if a == b else dense) and left:
                    rate = min(left, rng.randint(least, scale))
                    left -= rate
                    moves.append((a, b, rate))
        return moves

    def marks(self, name):
        return tuple(bool(row[self.names.index(name)]) for row in self.rows)

    def hundredths(self, rng, most_load=MOST_LOAD):
        """Hundredths of an hour whose load is at most `most_load`, often whole hours, or as few as can be."""
        most = most_hundredths(self.chain.q, most_load * RATE_HUNDREDTHS)
        return rng.choice([0, min(1, most), most, rng.randint(0, most), rng.randint(0, most // HOUR) * HOUR])

    def times(self, rng, most_load=MOST_LOAD):
        """Two times, the load up to the first and that from there to the second at most `most_load`: often the first is 0, or both are the same."""
        earliest = self.hundredths(rng, most_load)
        return earliest, min(MOST_HUNDREDTHS, earliest + self.hundredths(rng, most_load))

    def path(self, rng, letter, most_load=MOST_LOAD):
        """An until, or one between two times, without its operands."""
        if letter == "U":
            return Until(self.hundredths(rng, most_load), None, None)
        return Between(*self.times(rng, most_load), None, None)


def random_formula(rng, sheet, levels, most_load):
    """A state formula as tokens, at most so many levels deep."""
    kind = rng.choice("tlll!&UUUVVVXX") if levels > 1 else rng.choice("tlll")
    if kind == "t":
        return [b"tt"]
    if kind == "l":
        return [rng.choice(sheet.names)]
    first = random_formula(rng, sheet, levels - 1, most_load)
    if kind == "!":
        return [b"!", *first]
    if kind == "X":
        return [*random_bound(rng, next_bounds(rng, sheet, rng.choice(sheet.names))), b"X", *first]
    second = random_formula(rng, sheet, levels - 1, most_load)
    if kind == "&":
        return [b"&", *first, *second]
    path, names = sheet.path(rng, kind, most_load), (rng.choice(sheet.names), rng.choice(sheet.names))
    return [*random_bound(rng, timed_bounds(rng, sheet, path, *names)), path_head(path), *first, *second]


def random_bound(rng, bounds):
    """`P`, a comparison and a threshold: any, 0 or 1,000,000,000, or one close to some probability, so that verdicts come out undecided."""
    near = max(0, min(BILLION, bounds.down + rng.randint(-1, 2)))
    return [b"P", rng.choice(COMPARISONS), b"%d" % rng.choice([*EXTREMES, *EXTREMES, 1, rng.randint(0, BILLION), near, near])]


def timed_bounds(rng, sheet, path, first, second):
    """The two whole billionths about the probability of an until over two labels, at some state; of two phases about the quotient at their depths."""
    marks = sheet.marks(first), sheet.marks(second)
    if len(path.phases) == 1:
        return some_apart(rng, bracket(sheet.chain, *marks, *path.phases))
    return some_apart(rng, map(about, Pair(sheet.chain, *marks, path.phases, 0, 0).least))


def next_bounds(rng, sheet, name):
    """The two whole billionths about the probability that a label holds after the next move, at some state."""
    return some_apart(rng, map(about, next_chances(sheet.chain, sheet.marks(name))))


def about(chance):
    """The two whole billionths about a fraction; the same twice where it is one."""
    return Bounds(floor_billionths(chance), ceil_billionths(chance))


def some_apart(rng, bounds):
    """The bounds of some state, of one where they are apart if there is one."""
    found = list(bounds)
    return rng.choice([each for each in found if each.down < each.up] or found)


def near_formula(rng, sheet, most_load):
    """A `P` over labels whose threshold is one of the two whole billionths about its own probability at some state."""
    names = rng.choice(sheet.names), rng.choice(sheet.names)
    if rng.random() < 0.3:
        bounds, asked = next_bounds(rng, sheet, names[0]), [b"X", names[0]]
    else:
        path = sheet.path(rng, rng.choice("UV"), most_load)
        bounds, asked = timed_bounds(rng, sheet, path, *names), [path_head(path), *names]
    return [b"P", rng.choice(COMPARISONS), b"%d" % rng.choice(bounds), *asked]


def formula_about(rng, sheet, inner, most_load):
    """A `P` with this operand; most of them ask for what is possible or certain."""
    bound = [b"P", rng.choice(COMPARISONS), b"%d" % rng.choice([rng.randint(0, BILLION), *EXTREMES])]
    if rng.random() < 0.3:
        return [*bound, b"X", *inner]
    other = [rng.choice(sheet.names)]
    head = path_head(sheet.path(rng, rng.choice("UV"), most_load))
    return [*bound, head, *(inner + other if rng.random() < 0.5 else other + inner)]


def random_job(rng, most_states=6, levels=4, most_load=3):
    sheet = Sheet(rng, most_states)
    if rng.random() < 0.3:
        tokens = formula_about(rng, sheet, near_formula(rng, sheet, most_load), most_load)
    else:
        tokens = random_formula(rng, sheet, levels, most_load)
    return sheet.moves_text, sheet.labels_text, b" ".join(tokens) + b"\n"


def damaged(rng, text):
    """A text with a byte or a line changed, dropped, doubled, swapped."""
    if not text:
        return b"\n"
    at = rng.randrange(len(text))
    kind = rng.choice(["change", "drop", "double", "insert", "swap lines", "double line", "drop line", "cut"])
    if kind == "change":
        return text[:at] + bytes([rng.choice(TELLING)]) + text[at + 1:]
    if kind == "drop":
        return text[:at] + text[at + 1:]
    if kind == "double":
        return text[:at] + text[at:at + 1] + text[at:]
    if kind == "insert":
        return text[:at] + bytes([rng.choice(TELLING)]) + text[at:]
    if kind == "cut":
        return text[:at]
    lines = text.splitlines(keepends=True)
    a, b = rng.randrange(len(lines)), rng.randrange(len(lines))
    if kind == "swap lines":
        lines[a], lines[b] = lines[b], lines[a]
    elif kind == "double line":
        lines.insert(a, lines[b])
    else:
        del lines[a]
    return b"".join(lines)


def damaged_job(rng):
    job = list(random_job(rng))
    for _ in range(rng.choice([1, 1, 2])):
        which = rng.randrange(3)
        job[which] = damaged(rng, job[which])
    return tuple(job)
