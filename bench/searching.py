"""Takes the times that tell what the search along the moves costs an until that asks for what is possible.

The library searches within a job, so that the search is not timed by itself. The same until is put to it with the threshold 0, where the moves decide
the verdicts, and with the threshold 1, where the ends do; the two formulas are equally long, and so is all else. What the first takes longer is that
of the index of incoming moves, which a job lays out once if it may need it, and of one search. A search by itself is seen in jobs with several untils
over the shortest time, where there is less beside it: what one more takes by the moves, with the index at hand. All this is little, so that the jobs
are run by turns in one process, and of the differences of all rounds the middle one is taken.

Besides the sheets of the bench, in which no state is far from a dead one, there are rows, in which the last state alone is dead: from the first state
it is as many moves away as there are states, and a search that looked at all moves again for each of these would take hundreds of times as long.
"""
import subprocess
from collections import namedtuple
from statistics import median

import sheets
from building import PLACE
from measuring import READING
from reckoning.__main__ import read_texts
from reckoning.backing import near
from reckoning.ends import Rules
from reckoning.refusal import refusal
from reckoning.verdict import WORDS

BY_MOVES, BY_ENDS = 0, 1                # thresholds
SEVERAL = 8                             # untils of the jobs over the shortest time
SHORTEST = "0.01"                       # hours
MILLISECONDS = 200                      # of turns in each round

# What a round took of a sheet: times in nanoseconds of a job that reads alone, of the until at the greatest depth by the moves and by the ends, and
# of the several short ones, all by the moves and one of them.
Turn = namedtuple("Turn", "reading long_by_moves long_by_ends short_by_moves short_but_one_by_ends")

# For a sheet: times in nanoseconds of the until at the greatest depth by its ends, of a search, and of the index and a search; the moves that the
# furthest state is away from a dead one; and whether the verdicts are right.
Search = namedtuple("Search", "sheet until search with_index furthest right")


def several(others):
    """Several untils over the shortest time: one with the threshold 0, the others with this one."""
    thresholds = [BY_MOVES] + [others] * (SEVERAL - 1)
    return " ".join(["&"] * (SEVERAL - 1) + [sheets.more_than(threshold, SHORTEST) for threshold in thresholds])


def formulas():
    """The formulas of a turn."""
    long_by_moves, long_by_ends = (sheets.more_than(threshold, sheets.HOURS[-1]) for threshold in (BY_MOVES, BY_ENDS))
    return Turn(READING, long_by_moves, long_by_ends, several(BY_MOVES), several(BY_ENDS))


def take_turns(sheet):
    """Runs the jobs of a sheet by turns: their times, and their verdicts in words."""
    command = [str(PLACE / "turns"), str(sheet.folder), str(MILLISECONDS), *formulas()]
    lines = subprocess.run(command, check=True, stdout=subprocess.PIPE, text=True).stdout.splitlines()
    times, verdicts = zip(*map(str.split, lines))
    return Turn(*map(float, times)), Turn(*([WORDS[int(digit)] for digit in line] for line in verdicts))


def measure_searches(found, rounds):
    """The searches on these sheets, all of them in every round."""
    taken = [[take_turns(sheet) for sheet in found] for _ in range(rounds)]
    return [search_of(sheet, *zip(*turns)) for sheet, *turns in zip(found, *taken)]


def search_of(sheet, turns, verdicts):
    """What was taken on one sheet."""
    sheet_texts = read_texts(sheet.folder)[:2]
    return Search(sheet, median(turn.long_by_ends - turn.reading for turn in turns),
                  median(turn.short_by_moves - turn.short_but_one_by_ends for turn in turns) / (SEVERAL - 1),
                  median(turn.long_by_moves - turn.long_by_ends for turn in turns), furthest(refusal(*sheet_texts, b"tt\n").chain), right(sheet_texts, verdicts[-1]))


def furthest(chain):
    """How many moves the state is away from a dead one that is furthest of those which come to one, found in rounds."""
    found = last = {s for s in range(chain.states) if chain.marks[b"dead"][s]}
    rounds = -1
    while last:
        last = {source for source, target in chain.rates if target in last} - found
        found, rounds = found | last, rounds + 1
    return rounds


def right(sheet_texts, verdicts):
    """Whether the verdicts that the moves decide are those of the second reckoning."""
    found = []
    for name in ("long_by_moves", "short_by_moves"):
        job = refusal(*sheet_texts, getattr(formulas(), name).encode() + b"\n")
        found.append(list(near(Rules(job.chain), job.tree)) == getattr(verdicts, name))
    return all(found)


def share(search):
    """The search as a share of its until."""
    return search.search / search.until


def share_with_index(search):
    """The index and a search as a share of the until."""
    return search.with_index / search.until


def for_each(search):
    """The search, in nanoseconds for each state and move."""
    return search.search / (search.sheet.states + search.sheet.moves)
