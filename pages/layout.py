"""Places for the states of a graph in the cells of a grid: short lines, few that cross, none through a state where that can be had.

From each of a few fixed starts every state in turn goes to the cell that is cheapest, changing places with the state there, until none gains;
the cheapest end is taken. Nothing here is left to chance, so that a graph has the same places every time.
"""
from functools import cached_property
from itertools import combinations, product
from math import gcd, sqrt

ACROSS, DOWN = 0.36, 0.32   # half the room that a state takes in its cell, as parts of a cell
THROUGH = 12                # what a line through a state costs, in lengths of a cell
CROSSING = 2.5
UPRIGHT = 1.2               # a line down is a little dearer than one across
GAIN = 1e-6                 # less is none
STRIDES = 2                 # that are tried with few states
FEW = 15
MOST_SETTLED = 120          # lines up to which states are moved at all


def side(a, b, c):
    """On which side of the line from a to b a place lies."""
    return (b[0] - a[0]) * (c[1] - a[1]) - (b[1] - a[1]) * (c[0] - a[0])


def cross(a, b, c, d):
    """Whether the lines from a to b and from c to d meet between their ends."""
    return side(a, b, c) * side(a, b, d) < 0 and side(c, d, a) * side(c, d, b) < 0


def through(a, b, c):
    """Whether the line from a to b passes through a state in cell c."""
    wide, high = share(a[0] - c[0], b[0] - a[0], ACROSS), share(a[1] - c[1], b[1] - a[1], DOWN)
    return c not in (a, b) and max(0, wide[0], high[0]) < min(1, wide[1], high[1])


def share(begun, moved, half):
    """From which to which part of its way a number that begins here and moves so far is less than `half` from 0."""
    if moved == 0:
        return (0, 1) if abs(begun) < half else (1, 0)
    return tuple(sorted(((-half - begun) / moved, (half - begun) / moved)))


class Grid:
    """Cells, and for each line between two of them what it meets: sets are kept as the bits of a number."""

    def __init__(self, columns, rows):
        self.cells = [(column, row) for column in range(columns) for row in range(rows)]
        self.lines = list(combinations(range(len(self.cells)), 2))
        self.number = {pair: at for at, line in enumerate(self.lines) for pair in (line, line[::-1])}

    def ends(self, line):
        return [self.cells[end] for end in self.lines[line]]

    @cached_property
    def lengths(self):
        return [sqrt((a[0] - b[0]) ** 2 + UPRIGHT * (a[1] - b[1]) ** 2) for a, b in map(self.ends, range(len(self.lines)))]

    @cached_property
    def cells_on(self):
        """For each line the cells that it passes through."""
        return [sum(1 << at for at, cell in enumerate(self.cells) if through(*self.ends(line), cell)) for line in range(len(self.lines))]

    @cached_property
    def lines_over(self):
        """For each line those that cross it."""
        ends, found = list(map(self.ends, range(len(self.lines)))), [0] * len(self.lines)
        for one, other in combinations(range(len(self.lines)), 2):
            if cross(*ends[one], *ends[other]):
                found[one] |= 1 << other
                found[other] |= 1 << one
        return found

    def cost(self, pairs, places):
        """What the lines between these pairs of states cost, with the states in the cells of these numbers. Each crossing is met twice."""
        lines = [self.number[places[a], places[b]] for a, b in pairs]
        taken, drawn = sum([1 << place for place in places]), sum([1 << line for line in lines])
        cells_on, lines_over, lengths = self.cells_on, self.lines_over, self.lengths
        return sum([lengths[line] + THROUGH * (cells_on[line] & taken).bit_count() + CROSSING / 2 * (lines_over[line] & drawn).bit_count()
                    for line in lines])


def changed(places, state, cell):
    """The places with a state in another cell, and the state there in the cell that it leaves."""
    return [cell if each == state else places[state] if place == cell else place for each, place in enumerate(places)]


def moved(grid, pairs, places, state):
    """The places with one state where it costs least."""
    found = [changed(places, state, cell) for cell in range(len(grid.cells))]
    costs = [grid.cost(pairs, tried) for tried in found]
    least = min(costs)
    return found[costs.index(least)] if least < costs[places[state]] - GAIN else places


def each_moved(grid, pairs, places):
    for state in range(len(places)):
        places = moved(grid, pairs, places, state)
    return places


def settled(grid, pairs, places):
    """The places once no state gains by another cell."""
    before = None
    while places != before:
        before, places = places, each_moved(grid, pairs, places)
    return places


def by_distance(states, pairs):
    """The states in the order in which they are reached from state 0, along lines in either direction; those not reached behind."""
    found = [0]
    while len(found) < states:
        beside = {end for pair in pairs for end in pair if set(pair) & set(found)} - set(found)
        found += sorted(beside) or [min(set(range(states)) - set(found))]
    return found


def starts(states, pairs, columns, rows):
    """Ways to begin: by distance or by number, in steps of so many, to and fro, down the columns or along the rows. With many states one of them."""
    down = list(range(columns * rows))
    along = [column * rows + row for row in range(rows) for column in range(columns)]
    snake = [place if place // rows % 2 else place // rows * rows + rows - 1 - place % rows for place in down]
    strides = [stride for stride in range(1, states + 1) if gcd(stride, states) == 1][:STRIDES]
    ways = list(product((by_distance(states, pairs), range(states)), strides, (snake, down, along)))
    for order, stride, cells in ways if states <= FEW else ways[:1]:
        spread = {order[at * stride % states]: cells[at * len(cells) // states] for at in range(states)}
        yield [spread[state] for state in range(states)]


def grid_for(states):
    """Columns and rows, about as many of each, with cells to spare; with many states with fewer of these."""
    cells = states * (8 if states <= FEW else 6)
    columns = next(count for count in range(1, states + 2) if 5 * count * count >= cells)
    return columns, -(-cells // (5 * columns))


def cells_of(states, moves):
    """The cell of each state, as column and row."""
    pairs = sorted({(min(move), max(move)) for move in moves if move[0] != move[1]})
    columns, rows = grid_for(states)
    grid, found = Grid(columns, rows), list(starts(states, pairs, columns, rows))
    if len(pairs) <= MOST_SETTLED:
        found = [settled(grid, pairs, places) for places in found]
    best = min(found, key=lambda places: grid.cost(pairs, places))
    return [grid.cells[place] for place in best]
