"""Jobs with their answers, kept in a folder beside the repository."""

import json
from pathlib import Path

FOLDER = Path(__file__).resolve().parents[3] / "shared" / "vectors"
MISSING = None if FOLDER.is_dir() else "the vectors are not there: no folder ../shared/vectors beside the repository"


# The base's files and those of the requests that stand. The second request, "7 is never given again", leaves the lines before it alone but for
# those that have this number; the third leaves them all, since a line says nothing of listings, and the fourth, since every job keeps its answer.
# The fifth leaves them but for these: each has a `P` with the threshold 0 or 1,000,000,000 that its ends left undecided at some state, or left free
# to be so, while its operands are decided everywhere. The sixth leaves them all, since no line before it has a `V`. The seventh, "8 is never given
# again", leaves them but for those that have this number; the eighth leaves them all, since a line says nothing of lent buffers.
FILES = "refusals.jsonl", "reports.jsonl", *(f"request-{number}.jsonl" for number in range(1, 9))
NEVER_GIVEN = 7, 8
DECIDED_SINCE = {"line longer than D", "line longer than D nested", "random 32", "random 53", "random 1.9", "random 4.5"}


def stands(case):
    """Whether a line is true of what stands."""
    return case.get("refused") not in NEVER_GIVEN and case["name"] not in DECIDED_SINCE


def cases():
    """The jobs: for each a dict with the three texts as bytes, and what is answered."""
    lines = [json.loads(line) for name in FILES for line in (FOLDER / name).read_text(encoding="utf-8").splitlines()]
    found = list(filter(stands, lines))
    for case in found:
        case.update((text, case[text].encode("latin-1")) for text in ("moves", "labels", "formula"))
    return found


def texts_of(case):
    """The three texts."""
    return case["moves"], case["labels"], case["formula"]
