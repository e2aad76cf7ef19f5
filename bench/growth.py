"""How a time grows with states, moves and depth: two fits by least squares; and how many steps the engine makes."""
from math import log

from reckoning.limits import LOAD_STEPS, SPARE_STEPS

PEAK = 1 << 40                          # the greatest weight of the engine
NEGLIGIBLE = 1 << 34                    # weights that are together at most this part of the total are dropped


def slope(points):
    """The slope of log y over log x for points (x, y): y grows as x to the power of it."""
    logs = [(log(x), log(y)) for x, y in points]
    mean_x = sum(x for x, _ in logs) / len(logs)
    mean_y = sum(y for _, y in logs) / len(logs)
    return sum((x - mean_x) * (y - mean_y) for x, y in logs) / sum((x - mean_x) ** 2 for x, _ in logs)


def two_terms(points):
    """The a and b for which a * x + b * z is nearest to y, for points (x, z, y), and the greatest share of y by which it misses.

    Misses count as shares of y, so that the small times weigh as much as the great ones.
    """
    shares = [(x / y, z / y) for x, z, y in points]
    xx, xz, zz = (sum(u * v for u, v in pairs) for pairs in (
        [(x, x) for x, _ in shares], [(x, z) for x, z in shares], [(z, z) for _, z in shares]))
    to_x, to_z = sum(x for x, _ in shares), sum(z for _, z in shares)
    over = xx * zz - xz * xz
    a, b = (to_x * zz - to_z * xz) / over, (to_z * xx - to_x * xz) / over
    return a, b, max(abs(a * x + b * z - 1) for x, z in shares)


def weights(load, depth):
    """The engine's weights of steps 0 to the depth for a whole load: the greatest, and from it both ways, rounded down."""
    found = {load: PEAK}
    for step in range(load, 0, -1):
        found[step - 1] = found[step] * step // load
    for step in range(load + 1, depth + 1):
        found[step] = found[step - 1] * load // step
    return [found[step] for step in range(depth + 1)]


def steps_made(depth):
    """How many steps the engine makes for a whole load of this depth: the weights of those after are together next to nothing."""
    load = (depth - SPARE_STEPS) // LOAD_STEPS
    found = weights(load, depth)
    lacking = [abs(load - step) for step in range(depth + 1)]
    most = (sum(found) + sum(lacking) + found[-1] + lacking[-1]) // NEGLIGIBLE
    step, rest = depth, found[depth]
    while step and rest <= most:
        step -= 1
        rest += found[step]
    return step
