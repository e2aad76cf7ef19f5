"""Three verdicts, and the rules that lead to them."""

NO, YES, UNDECIDED = "no", "yes", "undecided"
WORDS = (NO, YES, UNDECIDED)

# comparison: does it negate the other one, and what is added to p so that the other one is `>=`.
# In whole billionths `> p` is `>= p + 1`.
COMPARISON = {b">=": (False, 0), b">": (False, 1), b"<": (True, 0), b"<=": (True, 1)}


def negate(verdict):
    return {NO: YES, YES: NO, UNDECIDED: UNDECIDED}[verdict]


def both(left, right):
    if NO in (left, right):
        return NO
    return YES if left == right == YES else UNDECIDED


def of_ends(comparison, threshold, lower, upper):
    """The verdict of a `P` whose ends are these."""
    negated, more = COMPARISON[comparison]
    least = threshold + more
    verdict = YES if lower >= least else NO if upper < least else UNDECIDED
    return negate(verdict) if negated else verdict
