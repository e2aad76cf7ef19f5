"""The job that is being tried, in memory that two processes share: when the one that tries it ends by a signal, the other can still read it."""
import mmap
import struct

from reckoning.refusal import Lent

TEXTS = 3
LENGTHS = struct.Struct(f"{TEXTS + len(Lent._fields)}Q")        # of the texts, then what is lent
BYTES = 1 << 20


class Record:
    """Made before the process forks."""

    def __init__(self):
        self.memory = mmap.mmap(-1, BYTES)

    def write(self, job, lent):
        """Notes a job and its lent lengths."""
        texts = b"".join(job)
        head = LENGTHS.pack(*map(len, job), *lent)
        self.memory[:len(head) + len(texts)] = head + texts

    def read(self):
        """The job that was noted last, and its lent lengths."""
        *lengths, at = *LENGTHS.unpack_from(self.memory), LENGTHS.size
        texts = []
        for length in lengths[:TEXTS]:
            texts.append(self.memory[at:at + length])
            at += length
        return tuple(texts), Lent(*lengths[TEXTS:])
