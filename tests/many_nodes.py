"""Jobs whose formulas have many nodes, up to the most that there may be, nested in several ways: drawn ones, and some whose verdicts are known."""
from reckoning.limits import FORMULA_BYTES, MOST_LEVELS, MOST_NODES, RATE_HOURS
from reckoning.sheets import NO_MOVES, labels_text, moves_text

NAMES = [b"a", b"b", b"c", b"d"]
COUNTS = 1, 3, 16, 17, 18, 40, MOST_NODES

# Operators of one operand and of two. The bound of the `X` is undecided where a third of the rates leads to its operand.
OF_ONE = [b"!", b"!", b"P < 333333334 X"]
OF_TWO = [b"&", b"&", b"&", b"P < 400000000 U 1", b"P >= 300000000 U 0.5", b"P > 0 U 0.01", b"P <= 600000000 V 0.5 1"]

# How many nodes the first of two operands gets, of the least and the most that it can have.
LEANS = {
    "left": lambda rng, least, most: most,
    "right": lambda rng, least, most: least,
    "drawn": lambda rng, least, most: rng.randint(least, most),
}


def leans(nodes, levels):
    """The ways to nest so many nodes in so many levels: one alone where each operator has to have one operand."""
    return LEANS if nodes > levels else ["drawn"]


def levels_for(nodes):
    """Levels that so many nodes can have: as few as can be, those of operators of two operands in a row, and as many as can be."""
    return sorted({nodes.bit_length(), min(MOST_LEVELS, nodes // 2 + 1), min(MOST_LEVELS, nodes)})


def nested(rng, nodes, levels, lean):
    """A state formula of so many nodes as tokens, so many levels deep or, where it leans to neither side, at most so many."""
    if nodes == 1:
        return [rng.choice(NAMES)]
    if nodes <= levels:
        return [rng.choice(OF_ONE), *nested(rng, nodes - 1, levels - 1, lean)]
    most = 2**(levels - 1) - 1          # nodes of an operand
    first = LEANS[lean](rng, max(1, nodes - 1 - most), min(nodes - 2, most))
    return [rng.choice(OF_TWO), *nested(rng, first, levels - 1, lean), *nested(rng, nodes - 1 - first, levels - 1, lean)]


def formula(rng, nodes, levels, lean):
    """Such a formula as a text, drawn again where it has more bytes than a text may have."""
    text = b" ".join(nested(rng, nodes, levels, lean)) + b"\n"
    return text if len(text) <= FORMULA_BYTES else formula(rng, nodes, levels, lean)


def job(rng, nodes, levels, lean, states):
    """Such a formula put to a drawn sheet of so many states: moves lead on to the next state, in a ring, and some to the own one and back."""
    moves = []
    for s in range(states):
        moves += [(s, (s + 1) % states, RATE_HOURS), *[(s, s, 2 * RATE_HOURS)] * rng.randint(0, 1), *[(s, s // 2, RATE_HOURS)] * rng.randint(0, 1)]
    marks = [[rng.random() < 0.6 for _ in NAMES] for _ in range(states)]
    return moves_text(moves), labels_text(NAMES, marks), formula(rng, nodes, levels, lean)


def jobs(rng, states):
    """Jobs of few nodes and of many, for each way to nest them."""
    return [job(rng, nodes, levels, lean, states) for nodes in COUNTS for levels in levels_for(nodes) for lean in leans(nodes, levels)]


def many_nodes_job(rng):
    """A job of more nodes than most others have, over a few states."""
    nodes = rng.randint(12, MOST_NODES)
    return job(rng, nodes, rng.choice(levels_for(nodes)), rng.choice(list(LEANS)), rng.randint(1, 6))


# Operators that hold, on a sheet without moves, where both of their operands do.
BOTH = b"&", b"P > 5 V 1 2"


def every_label(count, operator, to_the_right):
    """A row of one operator over so many labels, nested to one side. Each label fails at one state alone, so that each of them is needed: the verdict
    is yes at the last state and no at the others."""
    names = [bytes([97 + at]) for at in range(count)]
    text = b" ".join(b"%s %s" % (operator, name) for name in names[:-1]) if to_the_right else b" ".join([operator] * (count - 1) + names[:-1])
    marks = [[state != at for at in range(count)] for state in range(count + 1)]
    return NO_MOVES, labels_text(names, marks), b"%s %s\n" % (text, names[-1])


def every_label_jobs():
    """For few labels and for as many as the levels allow, with the count of labels."""
    return [(count, every_label(count, operator, to_the_right))
            for count in (2, 8, 9, 10, MOST_LEVELS) for operator in BOTH for to_the_right in (False, True)]
