"""Jobs that are changed at random, led by which blocks of the library's code they reach, and looked at one by one.

A job that reaches a block for the first time joins the corpus, from which the next jobs are made. The trying is done in a process of its own,
so that a crash ends that one only and the job is still known.
"""
import multiprocessing
import random
import signal
import time
from collections import namedtuple

from reckoning.__main__ import read_texts
from reckoning.limits import SHEET_BYTES
from reckoning.tests.vectors import MISSING, texts_of
from tests import edges
from tests.agreement import library_faults, tried
from tests.copies import sheet_faults
from tests.coverage import Covered
from tests.definitions import vectors
from tests.jobs import random_job
from tests.library import ENOUGH
from tests.mutations import mutated, some_lent
from tests.places import FOLDERS
from tests.possible import drawn_job
from tests.record import Record

MADE_SEEDS = 30
MOST_BYTES = SHEET_BYTES + 8_560        # of a text, a little over the limit
FAVOURED_BYTES = 200        # of three texts: jobs of less are chosen alike, longer ones the less the longer they are
MOST_STATES = 8             # of a report that is judged
LENT_EVERY = 4              # jobs with lent lengths of their own
SAID_EVERY = 10             # seconds
GRACE = 60                  # seconds that the other process gets beyond its time

# How far the trying has come: executions, blocks in all, those seen by the seeds and so far, the jobs of the corpus, and seconds.
Reached = namedtuple("Reached", "executions blocks by_seeds seen corpus seconds")

# How it ended: `reached` is None where the process did not live to tell; `job` and `lent` are those that there are `faults` with.
Ended = namedtuple("Ended", "reached unseen job lent faults")


def seeds(rng):
    """The jobs to begin with: the examples, the vectors where they are there, the limits, and a few small made ones."""
    jobs = [tuple(read_texts(folder)) for folder in FOLDERS]
    jobs += [] if MISSING else map(texts_of, vectors(3 * MOST_BYTES))
    jobs += [job for pair in edges.pairs().values() for job in pair]
    return jobs + [make(rng) for make in (random_job, drawn_job) for _ in range(MADE_SEEDS)]


class Fuzzer:
    """The trying itself."""

    def __init__(self, library, record, seed):
        self.library, self.record, self.rng = library, record, random.Random(seed)
        self.corpus, self.weights = [], []
        self.executions, self.seen, self.by_seeds = 0, 0, 0
        self.begun = time.monotonic()

    def reached(self):
        seconds = time.monotonic() - self.begun
        return Reached(self.executions, len(self.library.blocks), self.by_seeds, self.seen, len(self.corpus), seconds)

    def attempt(self, job, lent):
        """Tries a job, and a copy of its moves, and answers with the faults."""
        self.record.write(job, lent)
        called, copying = self.library.check(job, lent), sheet_faults(self.library, job[:2])
        self.executions += 1
        seen = self.library.seen()
        if seen > self.seen:
            self.seen = seen
            self.corpus.append(job)
            self.weights.append(1 / (FAVOURED_BYTES + sum(map(len, job))))
        return tried(library_faults, job, called, MOST_STATES) or copying

    def begin(self):
        """Tries the seeds; those that reach something new are the first corpus."""
        for job in seeds(self.rng):
            faults = self.attempt(job, ENOUGH)
            if faults:
                return faults
        self.by_seeds = self.seen
        return []

    def next_job(self):
        """A changed job of the corpus, mostly a short one, and what is lent to it."""
        changed = mutated(self.rng, *self.rng.choices(self.corpus, self.weights, k=2))
        job = tuple(text[:MOST_BYTES] for text in changed)
        return job, some_lent(self.rng, job) if self.rng.randrange(LENT_EVERY) == 0 else ENOUGH

    def run(self, seconds, say):
        """Tries the seeds and then changed jobs for so many seconds, or until something is found, and answers with the faults."""
        faults = self.begin()
        said = changing = time.monotonic()
        while not faults and time.monotonic() - changing < seconds:
            faults = self.attempt(*self.next_job())
            if time.monotonic() - said >= SAID_EVERY:
                said = time.monotonic()
                say(told(self.reached()))
        return faults or []


def told(reached):
    """How far it has come, in a line."""
    return (f"{reached.seen} of {reached.blocks} blocks seen, {reached.by_seeds} by the seeds; {reached.executions} executions, "
            f"{reached.executions / max(reached.seconds, 0.001):.0f} a second; corpus {reached.corpus}")


def in_child(shared, record, seed, seconds, say, sender):
    """The other process: tries jobs and sends how it ended."""
    fuzzer = Fuzzer(Covered(shared), record, seed)
    faults = fuzzer.run(seconds, say)
    sender.send((fuzzer.reached(), fuzzer.library.unseen(), faults))


def fuzz(shared, seconds, seed, say=print, grace=GRACE):
    """Tries jobs on a shared object, in another process, for so many seconds or until something is found."""
    forked, record = multiprocessing.get_context("fork"), Record()
    receiver, sender = forked.Pipe(duplex=False)
    child = forked.Process(target=in_child, args=(shared, record, seed, seconds, say, sender))
    child.start()
    sender.close()
    try:
        reached, unseen, faults = receiver.recv() if receiver.poll(seconds + grace) else stopped(child)
    except EOFError:
        child.join()
        reached, unseen, faults = None, [], [f"ended with {how(child.exitcode)}"]
    child.join()
    job, lent = record.read()
    return Ended(reached, unseen, job, lent, faults)


def stopped(child):
    """Ends a process that goes on with one job for too long."""
    child.kill()
    return None, [], ["the call did not end"]


def how(code):
    """How a process ended, in words."""
    return signal.Signals(-code).name if code < 0 else f"status {code}"
