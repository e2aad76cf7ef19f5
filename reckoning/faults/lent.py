"""Refusals 15 and 17: a lent buffer is too short."""
from ..copying import copied
from ..limits import MOST_ROWS, MOVE_PLACES, VECTOR_PLACES, VECTOR_SPARE
from ..refusal import Lent, Sheet, needed
from .words import counted

# For each buffer what it is made of, and how many of these it needs.
NEEDS = Lent(
    lower=("number", "one for each state"),
    upper=("number", "one for each state"),
    verdicts=("byte", "one for each state"),
    order=("number", "one for each state"),
    moves=("word", f"{MOVE_PLACES} for each line of moves"),
    vectors=("word", f"{VECTOR_PLACES} for each state, and {VECTOR_SPARE} more"),
    marks=("byte", f"for each state one for each node of the formula, at most {MOST_ROWS}"),
)


class Copy(Sheet):
    """The two texts of a sheet that is copied, and how many bytes the buffer for the copy has; None is long enough."""

    def __init__(self, moves, labels, room=None):
        super().__init__(moves, labels)
        self.room = room


def short_buffers(job):
    """A sentence for each lent buffer that is too short."""
    lent, need = Lent(*job.lent)._asdict(), needed(job)._asdict()
    return [f"lent buffer {name}: {counted(lent[name], of)}, it needs {need[name]:,}, {why}"
            for name, (of, why) in NEEDS._asdict().items() if lent[name] < need[name]]


def short_room(copy):
    need = len(copied(copy.moves_text, copy.labels_text))
    return [f"lent buffer for the copy: {counted(copy.room, 'byte')}, the copy has {need:,}"]
