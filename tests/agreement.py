"""Whether what the library did with a job, or a printed answer, agrees with the second reckoning and with document 01.

Faults are told in words; none where all is as it should be. Where the second reckoning gives up, as the rules leave too many ways to back the report
or a limit is not settled, it raises what is in `CANNOT_TELL`; the number and the memory have been looked at by then.
"""
from ctypes import sizeof

from reckoning.copying import copied
from reckoning.judge import CANNOT_TELL, judge
from reckoning.limits import MOST_STATES
from reckoning.refusal import needed, refusal
from reckoning.report import Row, listing, refused, worst_first
from reckoning.verdict import WORDS
from tests.library import COPY_KINDS, GUARD, KINDS, CopyMemory, Memory

REPORT = ("lower", "upper", "verdicts", "order", "depth")   # what an accepted job leaves to be judged; the other buffers it leaves at 0
NONE = Memory(*[0] * len(Memory._fields))


def refusal_number(job, lent=None):
    """The number that the second reckoning refuses a job with; none if it accepts the job."""
    reckoned = refusal(*job, lent)
    return reckoned if isinstance(reckoned, int) else None


def tried(faults, *arguments):
    """What a function makes of an answer: its faults, or None where the second reckoning gives up."""
    try:
        return faults(*arguments)
    except CANNOT_TELL:
        return None


def library_faults(job, called, most_states=MOST_STATES):
    """The faults of a call of the library; a report of more states than this is not judged."""
    reckoned = refusal(*job, called.lent)
    number = reckoned if isinstance(reckoned, int) else 0
    if called.number != number:
        return [f"number {called.number}, should be {number}"]
    faults = memory_faults(job, called, NONE if number else Memory(*needed(reckoned), 1))
    if faults or number:
        return faults
    states = reckoned.chain.states
    faults = order_faults(called, states)
    if faults or states > most_states:
        return faults
    return judge(*job, printed(called, states), called.lent)


def memory_faults(job, called, written):
    """What is not as it should be after a call that may write so many elements of each buffer."""
    faults = [f"{name} or a guard of it is not as it should be" for name in Memory._fields
              if getattr(called.after, name) != wanted(name, called, getattr(written, name))]
    return faults + ([] if called.texts == tuple(job) else ["a text has changed"])


def wanted(name, called, count):
    """What a buffer must hold: in its first `count` elements the report, as it is, or zeros; all the rest as it was."""
    start, end = (edge * sizeof(getattr(KINDS, name)) for edge in (GUARD, GUARD + count))
    before, after = getattr(called.before, name), getattr(called.after, name)
    return before[:start] + (after[start:end] if name in REPORT else bytes(end - start)) + before[end:]


def copy_faults(sheet, called):
    """The faults of a call that copies the moves of a sheet; all that it leaves is determined, so that each byte is looked at."""
    copy = copied(*sheet, called.lent)
    number = copy if isinstance(copy, int) else 0
    if called.number != number:
        return [f"number {called.number} of a copy, should be {number}"]
    written = CopyMemory(b"", b"") if number else CopyMemory(copy, len(copy).to_bytes(sizeof(COPY_KINDS.length), "little"))
    faults = [f"{name} of a copy or a guard of it is not as it should be" for name in CopyMemory._fields
              if getattr(called.after, name) != with_front(name, called, getattr(written, name))]
    return faults + ([] if called.texts == tuple(sheet) else ["a text has changed"])


def with_front(name, called, front):
    """What a buffer must hold once these bytes were put to its front: all the rest as it was."""
    before, start = getattr(called.before, name), GUARD * sizeof(getattr(COPY_KINDS, name))
    return before[:start] + front + before[start + len(front):]


def order_faults(called, states):
    """Whether the order buffer holds the state numbers as the ends that were left put them; it is looked at however many states there are."""
    order, wanted_order = elements(called, "order", states), worst_first(rows_of(called, states))
    return [f"row {place} of the order is state {state}, should be {other}"
            for place, (state, other) in enumerate(zip(order, wanted_order), 1) if state != other][:1]


def rows_of(called, states):
    """The rows that an accepted job left; a byte that is no verdict is shown as a number."""
    lower, upper, verdicts = (elements(called, name, states) for name in ("lower", "upper", "verdicts"))
    depths = elements(called, "depth", 1) * states
    words = [WORDS[byte] if byte < len(WORDS) else byte for byte in verdicts]
    return list(map(Row, lower, upper, depths, words))


def printed(called, states):
    """What the program prints where the library did this: the second listing has the states that the order buffer holds."""
    if called.number:
        return refused(called.number)
    rows = rows_of(called, states)
    return listing(rows, range(states)) + listing(rows, elements(called, "order", states))


def elements(called, name, count):
    """The first elements of what is lent, after the call."""
    kind = getattr(KINDS, name)
    return list((kind * count).from_buffer_copy(getattr(called.after, name), GUARD * sizeof(kind)))
