"""What the states of a sheet are called: the lines of its states.txt, which the program does not read and which may hold anything."""
import re
from collections import defaultdict

STATES = "states.txt"
NUMBERED = re.compile(r"([0-9]{1,9})[:;,\t] *(.*)")
AROUND = "\N{BYTE ORDER MARK}\",;\t\r "     # what a spreadsheet puts around a cell


def printable(words):
    """Words on one line, with a mark in the place of every letter that does not print."""
    return "".join(" " if letter.isspace() else letter if letter.isprintable() else "\N{REPLACEMENT CHARACTER}" for letter in words).strip()


def state_names(sheet):
    """The names by state numbers. A line is of the state whose number and a colon it begins with, else of the one whose place it has. Where
    several are of one state they are all shown, since one of them is a slip."""
    try:
        lines = (sheet / STATES).read_bytes().decode(errors="replace").split("\n")
    except OSError:
        return {}
    numbered = [(place, line, NUMBERED.fullmatch(line.strip(AROUND))) for place, line in enumerate(lines)]
    names = defaultdict(list)
    for place, line, found in numbered:
        state, words = (int(found[1]), found[2].strip(AROUND)) if found else (place, line)
        names[state] += filter(None, [printable(words)])
    return {state: " / ".join(found) for state, found in names.items() if found}


def told_state(names, state):
    """A state by its number and, where it has one, its name."""
    return f"state {state}: {names[state]}" if state in names else f"state {state}"
