"""The moves of a sheet as lines that may be typed for them: in any order, and the rate of a pair on several lines that are added together."""

MOST_PARTS = 4


def parts(random, rate):
    """Whole numbers from 1, one or a few, that add up to a rate."""
    cuts = sorted(random.sample(range(1, rate), min(rate - 1, random.randrange(MOST_PARTS))))
    return [after - before for before, after in zip([0, *cuts], [*cuts, rate])]


def divided(random, moves):
    """The rates of some moves on several lines, one below the other."""
    return [(source, target, part) for source, target, rate in moves for part in parts(random, rate)]


def drawn(random, moves):
    """In a drawn order."""
    return random.sample(list(moves), len(moves))


def with_foot(random, moves):
    """Some moves taken from their places and added at the foot, as engineers add them."""
    added = [random.random() < 0.3 for _ in moves]
    return [move for at_foot in (False, True) for move, foot in zip(moves, added) if foot == at_foot]


# By what they are, the ways in which moves that rise and none of which stands twice may be typed.
WAYS = {
    "rising": lambda random, moves: list(moves),
    "falling": lambda random, moves: list(moves)[::-1],
    "drawn": drawn,
    "with a foot": with_foot,
    "divided": divided,
    "divided and drawn": lambda random, moves: drawn(random, divided(random, moves)),
    "divided, with a foot": lambda random, moves: with_foot(random, divided(random, moves)),
}


def lines_for(random, moves):
    """Lines for moves in one of these ways."""
    return random.choice(list(WAYS.values()))(random, moves)
