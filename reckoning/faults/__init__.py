"""Where the fault is: after a refusal, the file, the line, and the field or token, in words for whoever fills in the sheet.

The number comes from the tests of `refusal` and `copying`; what is here only says which place earned it. One sentence names the first such place,
in moves.txt before labels.txt; of 1 there is one for each text, and of 15 one for each buffer.
"""
from ..copying import SHORT_COPY, copied
from ..refusal import SHORT, TESTS, Job, tested
from . import formula, grammar, heads, lent, lines, sheet
from .lent import Copy

FINDERS = {
    1: sheet.wrong_sizes,
    2: lines.broken_lines,
    3: heads.wrong_heads,
    4: sheet.wrong_states,
    5: sheet.many_moves,
    6: sheet.unknown_states,
    9: sheet.wrong_rates,
    10: grammar.broken_formula,
    11: formula.large_formula,
    12: formula.unknown_name,
    13: formula.large_number,
    14: formula.large_load,
    16: formula.falling_times,
    SHORT: lent.short_buffers,
    SHORT_COPY: lent.short_room,
}


def number_of(job):
    """The number that a job, or a copy, is refused with; None where it is accepted."""
    answer = tested(TESTS, job) if isinstance(job, Job) else copied(job.moves_text, job.labels_text, job.room)
    return answer if isinstance(answer, int) else None


def faults(job):
    """The sentences that say where the fault of a refused job or copy is; none where it is accepted."""
    return sentences(job, number_of(job))


def sentences(job, number):
    """The same, of a job or copy whose number is known."""
    return FINDERS[number](job) if number else []
