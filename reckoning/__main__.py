"""python3 -m reckoning judge|refusal|ends|copy DIR

judge    reads a print, both listings, from standard input: `allowed`, or its faults and status 1, or status 2
refusal  the refusal number, or `accepted`
ends     what the rules leave for the report
copy     the clean copy of the moves, or `refused` and the number; it looks at no formula
DIR holds moves.txt, labels.txt and formula.txt; a file that cannot be opened counts as empty.
"""

import sys
from pathlib import Path

from .copying import printed_copy
from .judge import CANNOT_TELL, allowed_ends, judge
from .refusal import refusal
from .texts import FILES


def read_texts(folder):
    return [read_or_empty(Path(folder) / name) for name in FILES]


def read_or_empty(path):
    try:
        return path.read_bytes()
    except OSError:
        return b""


def run_judge(texts):
    faults = judge(*texts, sys.stdin.buffer.read())
    print("\n".join(faults) if faults else "allowed")
    return 1 if faults else 0


def run_refusal(texts):
    answer = refusal(*texts)
    print(answer if isinstance(answer, int) else "accepted")
    return 0


def run_ends(texts):
    answer = refusal(*texts)
    if isinstance(answer, int):
        print(f"refused {answer}")
        return 0
    allowed = allowed_ends(*texts)
    print(f"depth {allowed.depth}, width {'free' if allowed.width is None else allowed.width}")
    for s, (lower, upper, words) in enumerate(zip(allowed.lower, allowed.upper, allowed.verdicts)):
        print("{}: lower {} to {}, upper {} to {}, ".format(s, *lower, *upper) + " or ".join(sorted(words)))
    return 0


def run_copy(texts):
    moves, labels, _ = texts
    sys.stdout.buffer.write(printed_copy(moves, labels))
    return 0


COMMANDS = {"judge": run_judge, "refusal": run_refusal, "ends": run_ends, "copy": run_copy}


def main(arguments):
    if len(arguments) != 2 or arguments[0] not in COMMANDS:
        print(__doc__, file=sys.stderr)
        return 2
    try:
        return COMMANDS[arguments[0]](read_texts(arguments[1]))
    except CANNOT_TELL as reason:
        print(f"cannot tell: {reason}")
        return 2


if __name__ == "__main__":
    sys.exit(main(sys.argv[1:]))
