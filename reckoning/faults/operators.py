"""What is wrong with a token that should begin a state formula or a path formula, or that is left over behind the formula."""
import re

from ..formula import COMPARISONS, TIMED, Between, Next, Until
from ..texts import is_word
from .amounts import amount, as_hours, rising
from .names import CONSTANTS, name_fault
from .numbers import ASKED, GLUED, UNITS, threshold_meant
from .words import first, quoted

# Operators of other notations, and how what they say is written here.
AND, OR, NOT, IMPLIES = "a and b is & a b", "a or b is ! & ! a ! b", "not a is ! a", "a implies b is ! & a ! b"
EVENTUALLY, ALWAYS = "a within {0} hours is U {0} tt a", "a all through {0} hours is V {0} {0} a tt"
JOINING = {b"&": AND, b"|": OR, b"||": OR, b"\\/": OR, b"->": IMPLIES, b"=>": IMPLIES, b"&&": AND, b"/\\": AND, b"^": AND, b"and": AND, b"or": OR,
           b"implies": IMPLIES}
SIGNS = {**{part: words for part, words in JOINING.items() if part != b"&" and not is_word(part)}, b"~": NOT, b"F": EVENTUALLY, b"G": ALWAYS}
WORDS = {**{part: words for part, words in JOINING.items() if is_word(part)}, b"not": NOT}
WITHIN = re.compile(rb"([FG])[<>=\[]+([0-9.]*).*")
SOME_HOURS = "8"            # in examples
NOT_HERE = re.compile(rb"(?:S|R|Pmax|Pmin)(?:[<>=\[{].*)?")
LETTER = re.compile(rb"[A-Za-z]")
BRACKETS = re.compile(rb"[\[\](){}]")
STUCK = re.compile(rb"([!&]+)((?:[A-Za-z][!-~]*)?)")
STUCK_BOUND = re.compile(rb"P(<=|>=|<|>)([^=\[\](){}][^\[\](){}]*)")
STUCK_TIMES = re.compile(rb"([UV])(?:<=?)?\[?([0-9.]+)(?:,([0-9.]+))?\]?")
LETTERS = *TIMED, Next.letter
EXAMPLE = "P >= 990000000 U 8 up dead"
BEGINNINGS = "a label, tt, !, & or P"
BEHIND_P = f"stands behind P, a comparison and a threshold, as in {EXAMPLE}"


def state_fault(tokens, at):
    """What is wrong with a token that begins no state formula."""
    if amount(tokens[at]) is not None:
        return stray_number(tokens, at)
    return first((sign, not_here, stuck_bound, bracket, stuck, path_letter, comparison, capital, no_formula), tokens[at])


def stray_number(tokens, at):
    """A number where a state formula is wanted: often a time too many."""
    part, before = tokens[at], tokens[:at]
    if before[-1:] == [Next.letter]:
        return f"{quoted(part)} is a number: X has no hours, as in P <= 10000000 X dead"
    if before[-2:-1] == [Until.letter]:
        earlier, later = rising(before[-1], part)
        cure = f"from {earlier} to {later} hours is V {earlier} {later}" if earlier and later else "V has two, as in V 2 8.25 up dead"
        return f"{quoted(part)} is a second time, U has one: {cure}"
    if before[-3:-2] == [Between.letter]:
        return f"{quoted(part)} is a third time, V has two, as in V 2 8.25 up dead"
    return f"{quoted(part)} is a number: {BEGINNINGS} is wanted"


def sign(part):
    within = WITHIN.fullmatch(part)
    words = written(within[1] if within else part, as_hours(within[2]) if within else None)
    return f"{quoted(part)} is no operator: {words}" if words else ""


def written(part, hours=None):
    """How what an operator of another notation says is written here, perhaps with its hours; nothing of other parts."""
    return SIGNS.get(part, "").format(hours or SOME_HOURS)


def not_here(part):
    """What PRISM has and this logic has not."""
    return f"{quoted(part)} cannot be asked here: there is no long run (S), no reward (R), and one chance P" if NOT_HERE.fullmatch(part) else ""


def stuck_bound(part):
    """`P`, a comparison and perhaps a threshold with no space between them."""
    found = STUCK_BOUND.fullmatch(part)
    if found:
        return f"{quoted(part)} lacks spaces: write P {found[1].decode()} {threshold_meant(found[2])}"
    if part == b"P" + ASKED:
        return f"{quoted(part)} is no operator: every report shows the probability, write P >= 0 to ask for no threshold"
    return f"{quoted(part)} lacks a space: write P {part[1:].decode()}" if part[:1] == b"P" and part[1:] in COMPARISONS else ""


def bracket(part):
    return f"{quoted(part)} has a bracket: operators stand before what they join and need none, as in & up ! dead" if BRACKETS.search(part) else ""


def stuck(part):
    """Operators with no space behind them."""
    found = STUCK.fullmatch(part)
    return f"{quoted(part)} lacks a space: write {' '.join([*found[1].decode(), found[2].decode()]).strip()}" if found else ""


def path_letter(part):
    return f"{quoted(part)} {BEHIND_P}" if part in LETTERS or STUCK_TIMES.fullmatch(part) else ""


def comparison(part):
    return f"{quoted(part)} stands behind P, as in {EXAMPLE}" if part in COMPARISONS or GLUED.fullmatch(part) else ""


def capital(part):
    return f"{quoted(part)} is no operator: there are !, &, and P with U, V or X" if len(part) == 1 and part.isupper() else ""


def no_formula(part):
    if part.lower() in CONSTANTS:
        return f"{quoted(part)} is written {CONSTANTS[part.lower()]} here"
    if b"," in part:
        return f"{quoted(part)} has a comma in it: tokens are set apart by one space"
    if b'"' in part and not is_word(part.strip(b'"')):
        return f"{quoted(part)} has a quote in it: write the formula without quotes"
    if LETTER.search(part):
        return name_fault(part)
    return f"{quoted(part)} is no operator and no label: {BEGINNINGS} is wanted"


def path_fault(tokens, at):
    """What is wrong with a token behind a threshold."""
    return first((sign, path_bracket, stuck_times, small_letter, no_path), tokens[at])


def path_bracket(part):
    return f"{quoted(part)} has a bracket: after the threshold comes U, V or X without brackets, as in {EXAMPLE}" if part[:1] in (b"[", b"(") else ""


def stuck_times(part):
    """A letter and its times with no space between them, perhaps with PRISM's signs."""
    found = STUCK_TIMES.fullmatch(part)
    times = rising(*filter(None, found.groups()[1:])) if found else []
    if not times or None in times:
        return ""
    letter = Between.letter if len(times) == 2 else found[1]
    return f"{quoted(part)} is not written so: write {' '.join([letter.decode(), *times])}"


def small_letter(part):
    return f"{quoted(part)} is a small letter: write {part.upper().decode()}" if part.upper() in LETTERS else ""


def no_path(part):
    return f"{quoted(part)} stands where U, V or X is wanted, before its hours and operands, as in {EXAMPLE}"


def left_over(tokens, at):
    """What is said of a token behind the end of the formula."""
    part, before = tokens[at], tokens[at - 1]
    if part in JOINING:
        return between(tokens, at)
    if before in WORDS:
        return f"{quoted(part)} is left over, since {quoted(before)} is taken for a label: {WORDS[before]}"
    unit = next((place for place in range(1, at) if tokens[place] in UNITS and amount(tokens[place - 1]) is not None), None)
    if unit:
        return f"{quoted(part)} is left over, since {quoted(tokens[unit])} (token {unit + 1}) is taken for a label: hours are written without a unit"
    if before == b"p" and comparison(part):
        return f"{quoted(part)} is left over, since {quoted(before)} is taken for a label: write P, a capital"
    return first((sign, path_letter, bracket), part) or (f"{quoted(part)} is left over, the formula ends with token {at}, {quoted(before)}: "
                                                   "two formulas are joined by & before both, as in & up hot")


def between(tokens, at):
    """What is said of an operator between what it joins; of two labels that are all there is, how it is written."""
    part, cure = tokens[at], JOINING[tokens[at]]
    if cure == AND and len(tokens) == 3 and all(map(is_word, tokens[::2])):
        cure = f"write & {tokens[0].decode()} {tokens[2].decode()}"
    return f"{quoted(part)} stands between what it joins, and belongs before it: {cure}"
