"""Clean copies by the library: with buffers about as long as the copy, and what is made of a job whose moves are the copy."""
from reckoning.copying import copied
from tests.agreement import copy_faults, printed
from tests.library import COPY, MORE


def rooms(sheet):
    """Lengths of a buffer for the copy of a sheet: none, one short, just enough, one more, and enough for every copy and more."""
    copy = copied(*sheet)
    about = [] if isinstance(copy, int) else [len(copy) - 1, len(copy), len(copy) + 1]
    return [0, *about, COPY, COPY + MORE]


def sheet_faults(library, sheet):
    """The faults of copying the moves of a sheet, with the first of these buffers that there are any with."""
    return next(filter(None, (copy_faults(sheet, library.copy(sheet, room)) for room in rooms(sheet))), [])


def same_report_faults(library, job):
    """Whether a job gets what the same job with the clean copy of its moves gets, to the last byte; nothing is said where there is no copy."""
    moves, labels, formula = job
    copy = copied(moves, labels)
    if isinstance(copy, int):
        return []
    one, other = (printed(library.check(each), labels.count(b"\n") - 1) for each in (job, (copy, labels, formula)))
    return [] if one == other else ["the report on the clean copy is not that on the moves"]


def job_faults(library, job):
    """The faults of copying the moves of a job, and of what is made of the job with the copy."""
    return sheet_faults(library, job[:2]) or same_report_faults(library, job)
