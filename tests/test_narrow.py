"""How narrow the intervals are where no operand state is undecided: jobs of the bench, made jobs, hard chains, and loads of all sizes."""
import random
import tempfile
import unittest
from pathlib import Path

from bench import sheets
from reckoning.__main__ import FILES
from reckoning.formula import COMPARISONS, Between, Until, hours_text, path_head
from reckoning.limits import (BILLION, HOUR, MOST_HUNDREDTHS, MOST_RATE, MOST_RATE_HUNDREDTHS, RATE_HOURS, SPARE_STEPS,
                              most_hundredths)
from reckoning.refusal import refusal
from reckoning.report import read_report
from reckoning.sheets import labels_text, moves_text
from tests.jobs import Sheet
from tests.program import run

WIDEST = 2                  # billionths, of one phase, at every load that is not refused
WIDEST_OF_TWO = 4           # of two phases
MADE = 500
CHAINS = 500
LOADS = 1_000


class Narrow(unittest.TestCase):
    def narrow(self, jobs):
        """Every interval of every job is narrow, and there are intervals that are no point."""
        widest = self.told([width for job in jobs for width in widths_of(job)])
        self.assertLessEqual(widest, WIDEST)
        self.assertGreater(widest, 0)

    def told(self, widths):
        """The widest, with a line that says so."""
        print(f"{self.id().split('.')[-1]}: {len(widths)} intervals, the widest {max(widths)} billionths")
        return max(widths)

    def test_bench(self):
        with tempfile.TemporaryDirectory() as folder:
            self.narrow(list(bench_jobs(Path(folder))))

    def test_made_jobs(self):
        rng = random.Random(4)
        self.narrow(made_job(rng) for _ in range(MADE))

    def test_lines_and_rings(self):
        rng = random.Random(3)
        self.narrow([*map(line_job, (2, 12, 40, 160)), *(ring_job(rng) for _ in range(40))])

    def test_hard_chains(self):
        rng = random.Random(5)
        self.narrow(chain_job(rng) for _ in range(CHAINS))

    def test_next_moves(self):
        """With a decided operand the ends of `X` are at most 1 apart."""
        rng = random.Random(8)
        widths = [width for _ in range(MADE) for width in widths_of(next_job(rng))]
        self.assertEqual(set(widths), {0, 1})

    def test_between_two_times(self):
        """Of two phases, most of the jobs with a first time above 0, no interval is wider than twice that."""
        rng = random.Random(9)
        rows = [row for job in between_jobs(rng) for row in rows_of(job)]
        widest = self.told([row.upper - row.lower for row in rows])
        self.assertLessEqual(widest, WIDEST_OF_TWO)
        self.assertGreater(widest, 0)
        self.assertGreater(sum(row.depth >= 2 * SPARE_STEPS for row in rows), len(rows) // 2)

    def test_loads(self):
        rng = random.Random(6)
        whole = [(RATE_HOURS, hundredths) for hundredths in range(HOUR, most_hundredths(RATE_HOURS) + 1, HOUR)]
        self.narrow(load_job(*load) for load in whole + [random_load(rng) for _ in range(LOADS)])


def rows_of(job):
    """The rows of a report."""
    return read_report(run(job), len(job[1].split(b"\n")) - 2)


def widths_of(job):
    """The width of each interval of a report."""
    return [row.upper - row.lower for row in rows_of(job)]


def bench_jobs(folder):
    """Every job that the bench takes the time of."""
    for states, per_state in sheets.SIZES + sheets.SHAPES:
        sheets.write(folder, states, per_state)
        moves, labels = ((folder / name).read_bytes() for name in FILES[:2])
        for hours in sheets.HOURS:
            yield moves, labels, sheets.until(hours).encode() + b"\n"


def question(rng, path, first, second):
    """A path with these times over two labels, which no state leaves undecided."""
    return b"P %s %d %s %s %s\n" % (rng.choice(COMPARISONS), rng.randint(0, BILLION), path_head(path), first, second)


def made_job(rng, letter="U"):
    """A random sheet with an until over two of its labels, or with one between two times."""
    sheet = Sheet(rng, 8)
    return sheet.moves_text, sheet.labels_text, question(rng, sheet.path(rng, letter), rng.choice(sheet.names), rng.choice(sheet.names))


def next_job(rng):
    """A random sheet with an `X` over one of its labels."""
    sheet = Sheet(rng, 8)
    formula = b"P %s %d X %s\n" % (rng.choice(COMPARISONS), rng.randint(0, BILLION), rng.choice(sheet.names))
    return sheet.moves_text, sheet.labels_text, formula


def between_jobs(rng):
    """Untils between two times over labels: on made sheets, stiff chains and rows, with loads of all sizes up to the greatest in each phase."""
    yield from (made_job(rng, "V") for _ in range(MADE))
    for moves, labels, _ in (chain_job(rng) for _ in range(CHAINS)):
        most = most_hundredths(refusal(moves, labels, b"tt\n").chain.q)
        yield moves, labels, question(rng, two_times(rng.randint(1, most), rng.choice([0, most, rng.randint(0, most)])), b"first", b"second")
    for rate, hundredths in [random_load(rng) for _ in range(MADE)]:
        yield *load_job(rate, hundredths)[:2], question(rng, two_times(hundredths, hundredths), b"tt", b"last")


def two_times(earliest, rest):
    """An until between two times that are so far apart, or less far where that would be too late."""
    return Between(earliest, min(MOST_HUNDREDTHS, earliest + rest), None, None)


def line_job(states):
    """A line at full load, from its first state to its last."""
    moves = [(s, s + 1, MOST_RATE) for s in range(states - 1)]
    return moves_text(moves), ends_text(states), b"P < 500000000 U 1 tt last\n"


def ring_job(rng):
    """A ring with rates from 1 up to what the hours allow."""
    states, hundredths = rng.randint(3, 20), rng.choice([HOUR, 825, 720 * HOUR, MOST_HUNDREDTHS])
    most = min(MOST_RATE - 1, MOST_RATE_HUNDREDTHS // hundredths)
    moves = sorted((s, (s + 1) % states, rng.choice([1, 7, most // 3 + 1, most])) for s in range(states))
    return moves_text(moves), ends_text(states), b"P < 500000000 U %s tt last\n" % hours_text(hundredths)


def ends_text(states):
    """Labels whose one name marks the last state."""
    return labels_text([b"last"], [[int(s == states - 1)] for s in range(states)])


def chain_job(rng):
    """A small stiff chain of some shape: rates of 1 beside rates near the greatest, operands drawn for each state."""
    states, top = rng.randint(2, 8), rng.choice([MOST_RATE, rng.randint(2, MOST_RATE), rng.randint(2, 1_000)])
    rows = [row_of(rng, states, top) for _ in range(states)]
    exits = [sum(rate for to, rate in row if to != s) for s, row in enumerate(rows)]
    most = most_hundredths(max(exits))
    hundredths = rng.choice([min(HOUR, most), most, rng.randint(1, most)])
    marks = [rng.choice([[0, 0], [1, 0], [1, 0], [1, 0], [0, 1]]) for _ in range(states)]
    moves = sorted((s, to, rate) for s, row in enumerate(rows) for to, rate in row)
    return moves_text(moves), labels_text([b"first", b"second"], marks), question(rng, Until(hundredths, None, None), b"first", b"second")


def row_of(rng, states, top):
    """Moves out of a state, perhaps one to itself among them, their rates at most `top` together."""
    targets = rng.sample(range(states), rng.randint(0, min(4, states - 1)))
    left, row = top, []
    for to in targets:
        rate = rng.choice([1, rng.randint(1, max(1, left // 2)), max(1, left - 4)])
        row.append((to, rate))
        left -= rate
        if left < 1:
            break
    return row


def random_load(rng):
    """A rate and hundredths of an hour, the rate of any size."""
    rate = rng.choice([rng.randint(1, MOST_RATE), rng.randint(1, 64_000), 2 ** rng.randint(0, 25)])
    most = most_hundredths(rate)
    return rate, rng.choice([min(HOUR, most), most, rng.randint(1, most)])


def load_job(rate, hundredths):
    """Three states on the way to a dead one, the first left at the full rate, the others at a half and a third of it."""
    moves = [(0, 1, rate), (1, 2, rate // 2 + 1), (2, 3, rate // 3 + 1)]
    return moves_text(moves), ends_text(4), b"P < 500000000 U %s tt last\n" % hours_text(hundredths)


if __name__ == "__main__":
    unittest.main()
