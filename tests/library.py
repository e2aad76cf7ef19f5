"""The static library from Python, called with lent buffers of given lengths.

Each lent buffer, and the place of the depth or of a copy's length, is filled with a pattern and has guard elements, of the pattern too, before
and after the lent part. A call answers with all of it as it was and as it is, so that a test can say of each byte whether it may have changed.
Each text ends where the process has no more memory.
"""
import ctypes
import random
import subprocess
import sys
from collections import namedtuple

from reckoning.limits import MOST_MOVES, MOST_NODES, MOST_STATES, SHEET_BYTES
from reckoning.refusal import Lent, lengths
from tests.fenced import Fenced
from tests.places import ARCHIVE, CRATES, TARGET, is_stale

SHARED = TARGET / "library" / "libsebdyqul.so"

# All that a check writes to: the seven lent buffers, and the depth as an eighth.
Memory = namedtuple("Memory", (*Lent._fields, "depth"))
NUMBER, BYTE, STATE, WORD = ctypes.c_uint32, ctypes.c_uint8, ctypes.c_uint16, ctypes.c_uint64
KINDS = Memory(lower=NUMBER, upper=NUMBER, verdicts=BYTE, order=STATE, moves=WORD, vectors=WORD, marks=BYTE, depth=WORD)

# All that a call which copies writes to.
CopyMemory = namedtuple("CopyMemory", "copy length")
COPY_KINDS = CopyMemory(copy=BYTE, length=WORD)

ENOUGH = lengths(MOST_STATES, MOST_MOVES, MOST_NODES)           # for every job
ROOM = ENOUGH._replace(marks=MOST_NODES * MOST_STATES)          # what there is to lend: a mark byte for each node and state, more than is needed
COPY = SHEET_BYTES          # bytes that are enough for every copy
GUARD = 67                  # elements, an odd number: no lent part is aligned for more than its own type
MORE = 64                   # elements that can be lent beyond `ROOM`
PATTERN = 1 << 20           # bytes
TEXT = 1 << 20              # bytes that a text may have

# What a call did: its answer, the lent lengths (of a copy the one length), the bytes of the memory with its guards before and after, and the
# texts after.
Called = namedtuple("Called", "number lent before after texts")


def build(shared=SHARED, sources=()):
    """The library as a shared object, linked again where the archive or a source is newer; C sources may be linked with it."""
    build_archive()
    newest = max(path.stat().st_mtime for path in (ARCHIVE, *sources))
    if not shared.exists() or shared.stat().st_mtime < newest:
        shared.parent.mkdir(parents=True, exist_ok=True)
        whole = ["-Wl,--whole-archive", ARCHIVE, "-Wl,--no-whole-archive"]
        subprocess.run(["cc", "-Wall", "-Wextra", "-Werror", "-O2", "-fPIC", "-shared", "-o", shared, *sources, *whole], check=True)
    return shared


def build_archive():
    """Proves and writes the static library where it is not there or no longer that of the crates."""
    if is_stale(ARCHIVE):
        subprocess.run(["rt", "lib"], cwd=CRATES / "sebdyqul", check=True, stdout=sys.stderr)
        ARCHIVE.touch()


class Buffer:
    """Memory for one lent buffer of any length up to `most`, and its guards."""

    def __init__(self, kind, most):
        self.size, self.most = ctypes.sizeof(kind), most
        self.memory = (kind * (most + 2 * GUARD))()
        self.start = ctypes.addressof(self.memory)
        self.lent = self.start + GUARD * self.size

    def bytes_of(self, length):
        """How many bytes so many elements and the guards have."""
        if not 0 <= length <= self.most:
            raise ValueError(f"{length} elements of {self.most}")
        return (length + 2 * GUARD) * self.size

    def fill(self, part):
        """Lays down these bytes, guards first, and answers with them."""
        ctypes.memmove(self.start, part, len(part))
        return part

    def read(self, length):
        return ctypes.string_at(self.start, self.bytes_of(length))


class Library:
    """The library, loaded. Calls share the memory of their buffers, so one is made at a time."""

    def __init__(self, shared=None, seed=4):
        self.shared = ctypes.CDLL(str(shared or build()))
        self.function = self.declared("sebdyqul_check", 3 + len(ENOUGH))
        self.copying = self.declared("sebdyqul_copy", 3)
        self.texts = [Fenced(TEXT) for _ in range(3)]
        self.memory = Memory(*(Buffer(kind, most + MORE) for kind, most in zip(KINDS, (*ROOM, 0))))
        self.copy_memory = CopyMemory(*(Buffer(kind, most + MORE) for kind, most in zip(COPY_KINDS, (COPY, 0))))
        self.rng = random.Random(seed)
        self.pattern = self.rng.randbytes(PATTERN)

    def declared(self, name, slices):
        """A function of the library that takes so many slices and then a pointer."""
        function = getattr(self.shared, name)
        function.restype = ctypes.c_uint64
        function.argtypes = [ctypes.c_void_p, ctypes.c_size_t] * slices + [ctypes.c_void_p]
        return function

    def part(self, length):
        """So many bytes of the pattern, from a random place on."""
        at = self.rng.randrange(PATTERN - length)
        return self.pattern[at:at + length]

    def call(self, function, texts, memory, lent):
        """Calls a function with texts and lent lengths, the last of the memory as its pointer: the answer, that memory before and after, the texts
        after."""
        lengths = (*lent, 1)
        before = [buffer.fill(self.part(buffer.bytes_of(length))) for buffer, length in zip(memory, lengths)]
        words = [word for place, text in zip(self.texts, texts) for word in (place.put(text), len(text))]
        words += [word for buffer, length in zip(memory, lent) for word in (buffer.lent, length)]
        number = function(*words, memory[-1].lent)
        after = [buffer.read(length) for buffer, length in zip(memory, lengths)]
        return number, before, after, tuple(place.read(len(text)) for place, text in zip(self.texts, texts))

    def check(self, job, lent=ENOUGH):
        """Calls `sebdyqul_check` for a job with buffers of these lengths."""
        number, before, after, texts = self.call(self.function, job, self.memory, lent)
        return Called(number, Lent(*lent), Memory(*before), Memory(*after), texts)

    def copy(self, sheet, room=COPY):
        """Calls `sebdyqul_copy` for a moves and a labels text with a buffer of this length."""
        number, before, after, texts = self.call(self.copying, sheet, self.copy_memory, [room])
        return Called(number, room, CopyMemory(*before), CopyMemory(*after), texts)
