#!/usr/bin/env python3
"""Writes the texts of every example: moves.txt, labels.txt, formula.txt and, for people, states.txt with what each state stands for.

`python3 examples/generate.py` says which files it changed; it changes none that are already as it writes them.
"""
import sys
from collections import Counter, namedtuple
from fractions import Fraction
from itertools import product
from pathlib import Path

HERE = Path(__file__).resolve().parent
sys.path.insert(0, str(HERE.parent))

from reckoning.__main__ import FILES
from reckoning.limits import RATE_HOURS
from reckoning.sheets import FORMULA, labels_text, moves_text

# `states` are values of any kind in the order of their numbers; `moves` has a rate for each (from, to) of them, per million hours;
# `labels` has for each name the test that says where it holds; `told` puts a state into words; `foot` has the moves, as (from, to, rate), that
# were added below the others, in the order in which they were.
Sheet = namedtuple("Sheet", "states moves labels formula told foot", defaults=[()])

# A part of a tool string: the names of its states and a rate for each (from, to) of them.
Part = namedtuple("Part", "states moves")


# What sheets are made of.

def joined(parts, together=()):
    """The states and moves of independent parts: a state has one state of each part, and one part moves at a time.

    `together` has causes that strike several parts at once: what becomes of each, as a dict of part: state, and the rate.
    """
    State = namedtuple("State", parts)
    states = [State(*each) for each in product(*(part.states for part in parts.values()))]
    moves = Counter()
    for state in states:
        for name, part in parts.items():
            for (before, after), rate in part.moves.items():
                if getattr(state, name) == before:
                    moves[state, state._replace(**{name: after})] += rate
        for struck, rate in together:
            if state._replace(**struck) != state:
                moves[state, state._replace(**struck)] += rate
    return states, moves


def told_parts(state):
    return ", ".join(f"{name} {was}" for name, was in state._asdict().items())


def running(units, failing):
    """A part of so many like units, all running: each fails at the rate given, for good. Its states count the good ones."""
    return Part(range(units, -1, -1), {(good, good - 1): good * failing for good in range(units, 0, -1)})


def in_reserve(units, failing):
    """A part of so many like units, one running and the others switched off: only that one can fail."""
    return Part(range(units, -1, -1), {(good, good - 1): failing for good in range(units, 0, -1)})


def restarted(units, upset, restart):
    """A part of so many like units, all running: each is upset at the one rate, and one at a time is restarted at the other."""
    moves = dict(running(units, upset).moves)
    moves.update({(good, good + 1): restart for good in range(units)})
    return Part(range(units, -1, -1), moves)


def all_of(first, *others):
    """A formula that holds where each of these does."""
    return f"& {first} {all_of(*others)}" if others else first


def per_million_hours(rate, unit):
    """A rate per time unit of so many hours, as moves per million hours; it must come out whole."""
    scaled = Fraction(rate) * RATE_HOURS / Fraction(unit)
    if scaled.denominator != 1:
        raise ValueError(f"{rate} per {unit} hours is {scaled} per million hours")
    return scaled.numerator


# The sheets.

def small():
    """The small sheet of document 01."""
    up, dead = "up", "dead"
    return Sheet([up, dead], {(up, dead): 500}, {"up": lambda s: s == up, "dead": lambda s: s == dead},
                 FORMULA.decode().rstrip("\n"), str)


def two_gauges(formula):
    """Two pressure gauges on one cable: one of them suffices, one at a time is restarted, and a cut of the cable ends it all. Its states are how many
    gauges are good, and the cut. Surges, which take both gauges, stand at the foot, one of them beside the fault of a gauge."""
    gauges, cut = restarted(2, 400, 100_000), "cut"
    told = {2: "both gauges good", 1: "one gauge good, the other out", 0: "both gauges out", cut: "cable cut"}
    moves = {**gauges.moves, **{(good, cut): 100 for good in gauges.states}}
    labels = {
        "reading": lambda s: s in (2, 1),
        "both": lambda s: s == 2,
        "lost": lambda s: s in (0, cut),
        "cut": lambda s: s == cut,
    }
    return Sheet(list(told), moves, labels, formula, told.get, [(good, 0, 20) for good in (2, 1)])


def gun_parts():
    """The states, moves and labels of a perforating gun string: collar locator and gamma tool give the depth, and a shock can take both."""
    good, drifting, failed, up, down = "good", "drifting", "failed", "up", "down"
    parts = {
        "collar": Part((good, failed), {(good, failed): 400}),
        "gamma": Part((good, drifting, failed), {(good, drifting): 3_000, (drifting, good): 100_000,
                                                 (good, failed): 900, (drifting, failed): 20_000}),
        "power": Part((up, down), {(up, down): 150, (down, up): 500_000}),
    }
    shock = {"collar": failed, "gamma": failed}
    labels = {
        "collar": lambda s: s.collar == good,
        "gamma": lambda s: s.gamma == good,
        "power": lambda s: s.power == up,
        "lost": lambda s: s.collar == failed and s.gamma != good,
    }
    return *joined(parts, [(shock, 250)]), labels


def gun_string(formula):
    """The gun string with a question."""
    return Sheet(*gun_parts(), formula, told_parts)


def first_fault():
    """The gun string whose processor is restarted now and then while power is up, each time a move to the own state."""
    states, moves, labels = gun_parts()
    restarts = {(state, state): 1_300 for state in states if labels["power"](state)}
    return Sheet(states, {**moves, **restarts}, labels, "P <= 120000000 X ! collar", told_parts)


def after_workshop(formula):
    """The gun string after a visit to the workshop, which left two figures: a new seal of the collar locator may leak, and a locator that has failed
    can be reseated while power is up. They were added at the foot, the first to rates that stand above already."""
    states, moves, labels = gun_parts()
    leaks = [(state, state._replace(collar="failed"), 600) for state in states if labels["collar"](state)]
    reseated = [(state, state._replace(collar="good"), 500_000) for state in states if labels["power"](state) and not labels["collar"](state)]
    return Sheet(states, moves, labels, formula, told_parts, leaks + reseated)


def paired_parts():
    """The parts that a logging string has twice, and the labels that hold where one of them is good."""
    parts = {
        "supplies": running(2, 80),
        "modems": in_reserve(2, 250),
        "coils": running(2, 400),
    }
    labels = {
        "power": lambda s: s.supplies >= 1,
        "modem": lambda s: s.modems >= 1,
        "collar": lambda s: s.coils >= 1,
    }
    return parts, labels


def redundant_string(formula):
    """A logging string in which every part is there twice or three times."""
    parts, labels = paired_parts()
    parts |= {
        "detectors": restarted(3, 1_500, 200_000),
        "processors": restarted(3, 500, 200_000),
    }
    labels |= {
        "gamma": lambda s: s.detectors >= 2,
        "vote": lambda s: s.processors >= 2,
        "depth": lambda s: s.processors >= 2 and (s.coils >= 1 or s.detectors >= 2),
        "whole": lambda s: all(good == part.states[0] for good, part in zip(s, parts.values())),
    }
    return Sheet(*joined(parts), labels, formula, told_parts)


def fit_to_run(*rules):
    """A logging string in which every part is there twice, and rules that all have to hold before it is run."""
    parts, labels = paired_parts()
    parts |= {"detectors": restarted(2, 1_500, 200_000)}
    labels |= {
        "gamma": lambda s: s.detectors >= 1,
        "sparepower": lambda s: s.supplies == 2,
        "sparemodem": lambda s: s.modems == 2,
    }
    return Sheet(*joined(parts), labels, all_of(*rules), told_parts)


def tandem(capacity, formula):
    """Two queues in a row, each of so many jobs; the first server works in one phase or two. A time unit is an hour."""
    arrive, direct, second_phase, leave_second, serve = (
        per_million_hours(rate, 1) for rate in (4 * capacity, Fraction(9, 10) * 2, Fraction(1, 10) * 2, 2, 4))
    states = [(first, phase, second) for first in range(capacity + 1) for phase in ((1, 2) if first else (1,))
              for second in range(capacity + 1)]
    moves = {}
    for first, phase, second in states:
        here = first, phase, second
        if first < capacity:
            moves[here, (first + 1, phase, second)] = arrive
        if second > 0:
            moves[here, (first, phase, second - 1)] = serve
        if first > 0 and phase == 1:
            moves[here, (first, 2, second)] = second_phase
        if first > 0 and second < capacity:
            moves[here, (first - 1, 1, second + 1)] = direct if phase == 1 else leave_second
    labels = {
        "full": lambda s: s == (capacity, 2, capacity),
        "fst": lambda s: s[0] == capacity,
        "snd": lambda s: s[2] == capacity,
    }
    return Sheet(states, moves, labels, formula, lambda s: "first queue {}, phase {}, second queue {}".format(*s))


def polling(stations, unit, formula):
    """A server that goes round its stations: it polls one, serves it if it has a job, and goes on to the next."""
    generate, poll, serve = (per_million_hours(rate, unit) for rate in (Fraction(1, stations), 200, 1))
    states = [(at, serving, busy) for at in range(stations) for serving in (False, True)
              for busy in product((False, True), repeat=stations) if busy[at] or not serving]
    moves = {}
    for at, serving, busy in states:
        here, following = (at, serving, busy), (at + 1) % stations
        for station in range(stations):
            if not busy[station]:
                moves[here, (at, serving, with_job(busy, station, True))] = generate
        if serving:
            moves[here, (following, False, with_job(busy, at, False))] = serve
        elif busy[at]:
            moves[here, (at, True, busy)] = poll
        else:
            moves[here, (following, False, busy)] = poll
    labels = {}
    for station, number in enumerate(("one", "two", "three")[:stations]):
        labels["busy" + number] = lambda s, station=station: s[2][station]
        labels["poll" + number] = lambda s, station=station: s[0] == station and not s[1]
        labels["serve" + number] = lambda s, station=station: s[0] == station and s[1]
    return Sheet(states, moves, labels, formula, told_polling)


def with_job(busy, station, has):
    return busy[:station] + (has,) + busy[station + 1:]


def told_polling(state):
    at, serving, busy = state
    jobs = " and ".join(str(station + 1) for station, has in enumerate(busy) if has) or "none"
    return f"server {'serves' if serving else 'polls'} station {at + 1}, jobs at {jobs}"


def walk(depth, left, formula):
    """A walk on a line, one move an hour, explored to so many fields either way; state 0 is the start, odd states lie to the right."""
    fields = sorted(range(-depth, depth + 1), key=lambda field: (abs(field), field < 0))
    moves = {}
    for field in range(-depth + 1, depth):
        moves[field, field - 1] = per_million_hours(left, 1)
        moves[field, field + 1] = per_million_hours(1 - left, 1)
    return Sheet(fields, moves, {"far": lambda field: field >= 10}, formula, lambda field: f"field {field}")


SHEETS = {
    "small": small(),
    "two-gauges": two_gauges("P <= 10000000 U 72 tt lost"),
    "gun-string": gun_string("P <= 10000000 U 8.25 power lost"),
    "first-fault": first_fault(),
    "after-workshop": after_workshop("P <= 10000000 U 8.25 power lost"),
    "not-before-settled": gun_string("P >= 990000000 V 2 8.25 power & collar gamma"),
    "redundant-string": redundant_string("P <= 150000000 U 72 & power modem P > 2000000 U 8 & power modem ! depth"),
    "whole-again": redundant_string("P > 0 U 0.25 & power modem whole"),
    "fit-to-run": fit_to_run("P <= 10000 U 12 tt & ! collar ! gamma", "P <= 1000000 U 12 tt ! power", "P <= 5000000 U 12 tt ! modem",
                             "P <= 10000000 U 12 tt ! collar", "P <= 10000000 U 12 tt ! gamma", "! & ! sparepower ! sparemodem",
                             "P >= 999000000 V 2 12 & power modem & collar gamma"),
    "tandem-2": tandem(2, "P < 50000000 U 2 tt full"),
    "tandem-5": tandem(5, "P >= 900000000 U 2 ! full P < 7500000 U 2 tt full"),
    "polling-3": polling(3, Fraction(1000, 3), "! & busyone ! P >= 900000000 U 100 tt pollone"),
    "random-walk": walk(153, Fraction(1, 4), "P >= 50000000 U 10 tt far"),
    "random-walk-even": walk(153, Fraction(1, 2), "P < 10000000 U 10 tt far"),
}


# The texts.

def texts(sheet):
    """The files of a sheet, as name: bytes."""
    number = {state: at for at, state in enumerate(sheet.states)}
    moves = sorted((number[before], number[after], rate) for (before, after), rate in sheet.moves.items())
    moves += [(number[before], number[after], rate) for before, after, rate in sheet.foot]
    marks = [[holds(state) for holds in sheet.labels.values()] for state in sheet.states]
    told = "".join(f"{at}: {sheet.told(state)}\n" for at, state in enumerate(sheet.states))
    typed = moves_text(moves), labels_text(map(str.encode, sheet.labels), marks), sheet.formula.encode() + b"\n"
    return {**dict(zip(FILES, typed)), "states.txt": told.encode()}


def write(folder, files):
    """Writes the files that are not yet so, and answers with their paths."""
    folder.mkdir(exist_ok=True)
    changed = [folder / name for name, wanted in files.items()
               if not (folder / name).is_file() or (folder / name).read_bytes() != wanted]
    for path in changed:
        path.write_bytes(files[path.name])
    return changed


def main():
    changed = [path for name, sheet in SHEETS.items() for path in write(HERE / name, texts(sheet))]
    for path in changed:
        print(f"written: {path.relative_to(HERE.parent)}")
    print(f"{len(SHEETS)} sheets, {len(changed)} files changed")


if __name__ == "__main__":
    main()
