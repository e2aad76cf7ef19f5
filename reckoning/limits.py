"""The limits, units and sizes of documents 01 and 02, each with the sentence that it renders; named as in crates/csl/specs/Limits.antt.

Whatever in Python needs such a number takes it from here, so that a request which changes it changes one line.
"""

# "A billionth is 1/1,000,000,000; thresholds and interval ends are whole billionths."
BILLION = 1_000_000_000

# "of at most 10 digits in the formula and 9 elsewhere"
FORMULA_DIGITS = 10
SHEET_DIGITS = 9

# "up to 16 label names"; "A name is 1 to 12 letters a to z"
MOST_NAMES = 16
MOST_LETTERS = 12

# "There are 1 to 512 states."; "0 to 4,096 lines of three numbers"
MOST_STATES = 512
MOST_MOVES = 4_096

# "A rate is moves per million hours, from 1."
RATE_HOURS = 1_000_000

# "The reader of hours .. hands back hundredths": an hour, in these; "The load is q × hundredths / 100,000,000"
HOUR = 100
RATE_HUNDREDTHS = RATE_HOURS * HOUR

# "The rates out of one state add to at most 64,000,000."
MOST_RATE = 64_000_000

# "One line, at most 512 bytes"; "Moves and labels have at most 61,440 bytes each."
FORMULA_BYTES = 512
SHEET_BYTES = 61_440

# "Each state formula counts as one node: at most 64, nested at most 16 deep"
MOST_NODES = 64
MOST_LEVELS = 16

# "threshold over 1,000,000,000"; "the top is 8,760 hours as before, and 14 compares q × hundredths with 6,400,000,000"
MOST_THRESHOLD = BILLION
MOST_HUNDREDTHS = 8_760 * HOUR
MOST_RATE_HUNDREDTHS = 6_400_000_000

# The greatest load that follows.
MOST_LOAD = MOST_RATE_HUNDREDTHS // RATE_HUNDREDTHS

# "The depth D is 2 × (L rounded up to a whole number) + 40."
LOAD_STEPS = 2
SPARE_STEPS = 40

# "at most 4 × D from each of them"; "the two ends differ by at most 4 × D"
WIDTH_FACTOR = 4

# Of `X`: "with a decided operand the width is at most 1, which here takes the place of 4 × D"; "depth is 0"
NEXT_WIDTH = 1
NEXT_DEPTH = 0

# "the move words lent grow to 2 × m"
MOVE_PLACES = 2

# "vector words (64 bits) of 10 × n + 512"
VECTOR_PLACES = 10
VECTOR_SPARE = 512

# "mark bytes of 17 × n, or nodes × n where that is less, shall be enough"
MOST_ROWS = 17


def most_hundredths(rate, product=MOST_RATE_HUNDREDTHS):
    """The most hundredths of an hour for which a greatest exit rate times them stays within a limit."""
    return min(MOST_HUNDREDTHS, product // rate) if rate else MOST_HUNDREDTHS
