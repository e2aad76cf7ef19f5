"""Refusal 10: the formula breaks the grammar, at its first token that cannot stand there or where it ends too soon."""
from ..formula import Broken, Wanted, read_tokens, state_formula, tokens_of
from ..texts import FORMULA_FILE, LINE_FEED, TRUE_WORD
from .formula import placed, told_token
from .numbers import BILLIONTHS, EXAMPLE, comparison_fault, hours_fault, hours_next, threshold_fault
from .operators import BEGINNINGS, left_over, path_fault, state_fault
from .prism import as_here, is_unbounded
from .saving import NO_LINE_FEED, saving_slip
from .words import counted, first, quoted, told

FAULTS = {
    Wanted.STATE_FORMULA: state_fault,
    Wanted.COMPARISON: comparison_fault,
    Wanted.THRESHOLD: threshold_fault,
    Wanted.PATH_FORMULA: path_fault,
    Wanted.HOURS: hours_fault,
    Wanted.NOTHING: left_over,
}
NEXT = {
    Wanted.COMPARISON: "a comparison comes next: <, <=, >= or >",
    Wanted.THRESHOLD: f"a threshold comes next: {BILLIONTHS}, {EXAMPLE}",
    Wanted.PATH_FORMULA: "U, V or X comes next, as in U 8.25 up dead",
}
BOUNDED = "P <= 10000000 U 8 tt dead"
TO_LETTER = 3               # how far behind its `P` the letter of a path formula stands
FOREIGN = {sign.encode(): here for sign, here in (
    ("\N{LESS-THAN OR EQUAL TO}", "<="), ("\N{GREATER-THAN OR EQUAL TO}", ">="), ("\N{NOT SIGN}", "!"), ("\N{LOGICAL AND}", "&"))}


def broken_formula(job):
    tokens = tokens_of(job.formula_text)
    try:
        read_tokens(tokens)
    except Broken as found:
        return [broken_at(job.formula_text, tokens, found.at, found.wanted)]
    return [told(NO_LINE_FEED, FORMULA_FILE, 1)]


def broken_at(text, tokens, at, wanted):
    """The sentence of a token that cannot stand where it does, or of a text that ends too soon."""
    if at == len(tokens):
        return told_token(f"the text ends too soon: {lacking(tokens, wanted)}", at + 1)
    if tokens == [b""]:
        return told("an empty line: write a formula, such as tt", FORMULA_FILE, 1)
    if LINE_FEED in tokens[at]:
        below = text.partition(LINE_FEED)[2].strip()
        return told("a formula has one line: put all of it on line 1" if below else "an empty line below the formula: take it out", FORMULA_FILE, 2)
    return told_token(token_fault(text, tokens, at, wanted), at + 1)


def lacking(tokens, wanted):
    """What is wanted where the text ends."""
    if wanted is Wanted.STATE_FORMULA:
        return wanting(tokens)
    return hours_next(tokens, len(tokens)) if wanted is Wanted.HOURS else f"after {quoted(tokens[-1])} {NEXT[wanted]}"


def wanting(tokens):
    """The operator that wants more operands where these tokens end: they are read as if `tt` went on behind them."""
    tree, _ = state_formula([*tokens, *[TRUE_WORD] * (len(tokens) + 1)], 0)
    added = [each for each in placed(tree) if each.token > len(tokens)]
    missing = [each for each in added if each.above == added[0].above]
    operator = added[0].above + (TO_LETTER if tokens[added[0].above - 1] == b"P" else 0)
    return f"{quoted(tokens[operator - 1])} (token {operator}) wants {counted(len(missing), 'more operand')}, beginning with {BEGINNINGS}"


def token_fault(text, tokens, at, wanted):
    """What is wrong with a token, whatever is wanted in its place, and else why it is not that."""
    whole = as_here(text)
    if whole:
        return f"{quoted(tokens[at])} is PRISM's notation: here the formula is {whole}"
    if is_unbounded(text):
        return f"{quoted(tokens[at])} is PRISM's notation, and has no hours: an until needs a time bound here, as in {BOUNDED}"
    return spaces(tokens, at) or first((saving_slip, tab, foreign), tokens[at]) or FAULTS[wanted](tokens, at)


def spaces(tokens, at):
    """A space too many makes an empty token."""
    if tokens[at]:
        return ""
    if at == 0:
        return "a space at the beginning of the line: take it out"
    return "two spaces, tokens are set apart by one: take one out" if any(tokens[at:]) else "a space at the end of the line: take it out"


def tab(part):
    return f"{quoted(part)} has a tab in it: tokens are set apart by one space" if b"\t" in part else ""


def foreign(part):
    found = next((here for sign, here in FOREIGN.items() if sign in part), "")
    return f"{quoted(part)} has a sign in it that is written {found} here" if found else ""
