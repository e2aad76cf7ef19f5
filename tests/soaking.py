"""Many jobs, made and damaged from a seed, put to the static library and every so often to the program, and judged by the second reckoning.

Every so often the moves are copied too, and the copy is put to the library in their place.
"""
import random
import time
from collections import Counter, namedtuple

from reckoning.copying import printed_copy
from reckoning.limits import MOST_LOAD
from reckoning.refusal import BY_TEXTS, SHORT
from tests import copies
from tests.agreement import library_faults, printed, tried
from tests.jobs import damaged_job, random_job
from tests.library import ENOUGH
from tests.many_nodes import many_nodes_job
from tests.mutations import bent_job, mutated, some_lent
from tests.places import COPIER
from tests.possible import drawn_job
from tests.program import run

PROGRAM_EVERY = 25          # jobs
COPY_EVERY = 5              # jobs whose moves are copied
LENT_EVERY = 3              # jobs with lent lengths of their own
SAID_EVERY = 10             # seconds

# How a soak ended: what was counted, and the job, the lent lengths and the faults of the first disagreement, if there was one.
Ended = namedtuple("Ended", "counts job lent faults")


def some_job(rng):
    """A made job, small or larger or of many nodes, one that asks what is possible or certain, a damaged or a bent one, or one made of two."""
    kind = rng.randrange(13)
    if kind == 0:
        return random_job(rng, most_states=24, levels=3, most_load=MOST_LOAD)
    if kind <= 2:
        return random_job(rng)
    if kind <= 4:
        return drawn_job(rng)
    if kind <= 6:
        return damaged_job(rng)
    if kind == 7:
        return many_nodes_job(rng)
    return bent_job(rng) if kind <= 10 else mutated(rng, random_job(rng), random_job(rng))


def program_faults(job, called):
    """The faults of what the program prints, where the library was lent enough for the same job, and of what the one prints that copies."""
    said = printed(called, job[1].count(b"\n") - 1)
    if run(job) != said:
        return ["the program prints something else than the library says"]
    return [] if run(job, command=(COPIER,)) == printed_copy(*job[:2]) else ["the program that copies prints another copy or number"]


def try_job(library, job, lent, by_program, copy=True):
    """What the library did, and the faults of it, of a copy of the moves and of the programs; None where the second reckoning gives up."""
    called = library.check(job, lent)
    faults = tried(library_faults, job, called)
    if copy and not faults:
        faults = copies.job_faults(library, job) or faults
    if by_program and not faults:
        faults = program_faults(job, called) or faults
    return called, faults


def soak(count, seed, library, say=print):
    """Tries so many jobs, and stops at the first that there are faults with."""
    rng, counts, said = random.Random(seed), Counter(), time.monotonic()
    for at in range(1, count + 1):
        job, by_program, copy = some_job(rng), at % PROGRAM_EVERY == 0, at % COPY_EVERY == 0
        lent = some_lent(rng, job) if at % LENT_EVERY == 0 and not by_program else ENOUGH
        called, faults = try_job(library, job, lent, by_program, copy)
        counts.update(["jobs", called.number] + ["by the program"] * by_program + ["copied"] * copy + ["given up"] * (faults is None))
        if faults:
            return Ended(counts, job, lent, faults)
        if time.monotonic() - said >= SAID_EVERY:
            said = time.monotonic()
            say(told(counts))
    return Ended(counts, None, None, [])


def told(counts):
    """The counts in a line."""
    refused = ", ".join(f"{number}: {counts[number]}" for number in sorted({*BY_TEXTS, SHORT}) if counts[number])
    return (f"{counts['jobs']} jobs, {counts['by the program']} of them by the program too, {counts['copied']} with a copy of their moves; "
            f"{counts[0]} accepted; refused {refused or 'none'}; {counts['given up']} given up by the judge")
