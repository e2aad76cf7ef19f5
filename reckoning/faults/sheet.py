"""Refusals 1, 4, 5, 6 and 9: texts of a wrong size, states, and moves."""
from collections import Counter

from ..limits import FORMULA_BYTES, MOST_MOVES, MOST_RATE, MOST_STATES, SHEET_BYTES
from ..refusal import Job, wrong_size
from ..texts import FORMULA_FILE, LABELS_FILE, LABELS_HEAD, MOVES_FILE, MOVES_HEAD
from .words import counted, told

FIRST_BELOW = 2              # of the lines below the names
RATE_FIELD = 3
BEGINNINGS = {
    MOVES_FILE: f"its first line is {MOVES_HEAD.decode()}",
    LABELS_FILE: f"its first line is {LABELS_HEAD.decode()} and the names of the labels, set apart by commas",
    FORMULA_FILE: "it has a formula on one line, such as tt",
}


def wrong_sizes(sheet):
    """A sentence for each text that is empty or over its byte limit."""
    texts = [(MOVES_FILE, sheet.moves_text, SHEET_BYTES), (LABELS_FILE, sheet.labels_text, SHEET_BYTES)]
    if isinstance(sheet, Job):
        texts.append((FORMULA_FILE, sheet.formula_text, FORMULA_BYTES))
    return [told(f"{len(text):,} bytes, the limit is {most:,}" if text else f"empty, {BEGINNINGS[file]}", file)
            for file, text, most in texts if wrong_size(text, most)]


def wrong_states(sheet):
    """The first state that is out of turn or one too many."""
    numbers = [row[0] for row in sheet.state_rows]
    if not numbers:
        return [told("no state: below the first line there is a line for each state, beginning with 0", LABELS_FILE)]
    at = next(at for at, number in enumerate(numbers) if number != at or at == MOST_STATES)
    if at == MOST_STATES:
        return [told(f"{len(numbers):,} states, there may be at most {MOST_STATES}: this is the first too many", LABELS_FILE, FIRST_BELOW + at)]
    turn = f"the next in turn is {at}" if at else "the first is 0, states are counted from 0"
    return [told(f"state {numbers[at]}, {turn}", LABELS_FILE, FIRST_BELOW + at)]


def many_moves(sheet):
    """The first line of moves beyond the limit; where pairs stand on several lines, that they can be added together."""
    pairs = len({(source, target) for source, target, _ in sheet.moves})
    cure = f"; they are of {counted(pairs, 'pair')} of states, and the rates of a pair can be added on one line" if pairs <= MOST_MOVES else ""
    words = f"{len(sheet.moves):,} moves, there may be at most {MOST_MOVES:,}: this is the first too many{cure}"
    return [told(words, MOVES_FILE, FIRST_BELOW + MOST_MOVES)]


def unknown_states(sheet):
    """The first field of moves that names no state."""
    count = len(sheet.state_rows)
    known = f"labels.txt has states 0 to {count - 1}" if count > 1 else "labels.txt has state 0 alone"
    line, field, state = next((line, field, state) for line, move in enumerate(sheet.moves, FIRST_BELOW)
                              for field, state in enumerate(move[:2], 1) if state >= count)
    return [told(f"state {state}, {known}", MOVES_FILE, line, field)]


def wrong_rates(sheet):
    """The first line whose rate is 0, or with which the rates out of a state pass their limit."""
    totals = Counter()
    for line, (source, _, rate) in enumerate(sheet.moves, FIRST_BELOW):
        totals[source] += rate
        if not rate:
            return [told("rate 0, a rate is at least 1: take the line out if this move never happens", MOVES_FILE, line, RATE_FIELD)]
        if totals[source] > MOST_RATE:
            words = f"with this line the rates out of state {source} add to {totals[source]:,}, the limit is {MOST_RATE:,}"
            whole = sheet.chain.totals[source]
            return [told(words + (f" ({whole:,} with those below)" if whole > totals[source] else ""), MOVES_FILE, line, RATE_FIELD)]
