"""Which state of a report is the worst, and in what order the page has the states for it."""
from reckoning.formula import P
from reckoning.verdict import NO, UNDECIDED, YES

AT_MOST = (b"<", b"<=")
FROM_WORST = (NO, UNDECIDED, YES)


def most_is_worst(tree):
    """Whether the formula sets a most for something, which then is bad: the likeliest state is the worst."""
    return isinstance(tree, P) and tree.comparison in AT_MOST


def from_the_worst(tree, second):
    """The rows of the report's second listing, which has the greatest lower end first, with the worst state at the top. Of a question that is about
    no probability the ends of no and undecided begin alike, and the verdict tells."""
    if isinstance(tree, P):
        return second if most_is_worst(tree) else second[::-1]
    return sorted(second[::-1], key=lambda row: FROM_WORST.index(row.verdict))


def order_words(tree):
    if most_is_worst(tree):
        return ("The question sets a most, so the likeliest state is the worst: the rows stand as in the second listing of the report, "
                "with the greatest lower end first.")
    if isinstance(tree, P):
        return ("The question sets a least, so the least likely state is the worst: the rows stand as in the second listing of the report "
                "from its foot, with the least lower end first.")
    return "A state that says no is worse than an undecided one, and that is worse than one that says yes: so the rows stand."


def like_worst(rows):
    """How many states besides the worst have its interval."""
    return sum(row[1:3] == rows[0][1:3] for row in rows[1:])
