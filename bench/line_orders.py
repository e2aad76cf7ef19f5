"""Takes the times that tell what the order of the lines of moves costs a job, and what a clean copy takes.

The largest sheet is there with its lines rising, as document 01 described them, falling, and drawn; and drawn with pairs on two lines, as many as
there may be lines. All of them are one chain, so that their reports and copies are the same. Their jobs are run by turns in one process and the same
buffers; in each round the least times are put over that of the rising lines, and of all rounds the middle ratio is taken.
"""
import random
import subprocess
from collections import namedtuple
from statistics import median

import sheets
from building import PLACE
from measuring import READING
from reckoning.limits import MOST_MOVES

RISING, OUT_OF_ORDER, DIVIDED = "rising", ("falling", "drawn"), "drawn, pairs twice"
MILLISECONDS = 200                      # of turns in each round
SEED = 7

# What one run took of a way: times in nanoseconds of the job and of a copy, and the rest, which is the same for all ways.
Taken = namedtuple("Taken", "job copy report")

# For a way: its sheet; by formula the least time of the job in nanoseconds and the middle ratio to that with rising lines; the least time of a copy;
# and whether reports and copies are those of rising lines.
LineOrder = namedtuple("LineOrder", "way sheet times over copy same")


def formulas():
    """The longest until of the bench, the shortest, and a job that reads alone."""
    return sheets.until(sheets.HOURS[-1]), sheets.until(sheets.HOURS[0]), READING


def ways(moves):
    """The lines for moves that rise, by their ways."""
    draw = random.Random(SEED)
    some = set(draw.sample(range(len(moves)), min(len(moves), MOST_MOVES - len(moves))))
    twice = [part for at, move in enumerate(moves) for part in (halves(move) if at in some else [move])]
    return {RISING: moves, "falling": moves[::-1], "drawn": draw.sample(moves, len(moves)), DIVIDED: draw.sample(twice, len(twice))}


def halves(move):
    """A move on two lines; on one where its rate is 1."""
    source, target, rate = move
    return [(source, target, part) for part in (rate // 2, rate - rate // 2) if part]


def take_turns(found, formula):
    """What was taken of these sheets by turns."""
    command = [str(PLACE / "lines"), str(MILLISECONDS), formula, *(str(sheet.folder) for sheet in found)]
    printed = subprocess.run(command, check=True, stdout=subprocess.PIPE, text=True).stdout.splitlines()
    return [Taken(float(job), float(copy), report) for job, copy, report in (line.split(" ", 2) for line in printed)]


def measure_line_orders(sheet, rounds):
    """What was taken of each way to type the moves of a sheet, all of them in every round."""
    found = {way: sheets.retyped(sheet, lines, PLACE / "lines-of" / way.replace(", ", "-").replace(" ", "-"))
             for way, lines in ways(sheets.moves_of(sheet)).items()}
    taken = {formula: [take_turns(found.values(), formula) for _ in range(rounds)] for formula in formulas()}
    return [line_order_of(way, at, sheet, taken) for at, (way, sheet) in enumerate(found.items())]


def line_order_of(way, at, sheet, taken):
    """What was taken of one way, which stands at this place of each round."""
    times = {formula: min(turns[at].job for turns in each) for formula, each in taken.items()}
    over = {formula: median(turns[at].job / turns[0].job for turns in each) for formula, each in taken.items()}
    every = [turns for each in taken.values() for turns in each]
    return LineOrder(way, sheet, times, over, min(turns[at].copy for turns in every), all(turns[at].report == turns[0].report for turns in every))
