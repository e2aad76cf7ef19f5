"""The library with breakpoints at its blocks: how many of them have run."""
import ctypes

from tests.blocks import blocks_of, functions_of
from tests.library import Library, build
from tests.places import ARCHIVE, ROOT, TARGET

SOURCE = ROOT / "tests" / "coverage.c"
SHARED = TARGET / "library" / "libcovered.so"
CALLED = "sebdyqul_check"


def build_covered():
    """The library and the breakpoints in one shared object."""
    return build(SHARED, (SOURCE,))


class Covered(Library):
    """A library that counts the blocks that have run. The trap of a breakpoint is the whole process's, so a process has one of these."""

    def __init__(self, shared, seed=4):
        super().__init__(shared, seed)
        starts, entries = blocks_of(shared, functions_of(ARCHIVE))
        moved = ctypes.cast(self.function, ctypes.c_void_p).value - entries[CALLED]
        self.blocks = {start: ctypes.c_void_p(moved + start) for start in starts}
        addresses = (ctypes.c_void_p * len(starts))(*(moved + start for start in starts))
        if self.shared.coverage_watch(addresses, ctypes.c_size_t(len(starts))) != 0:
            raise OSError("the breakpoints cannot be put into the code")

    def seen(self):
        """How many blocks have run so far."""
        return self.shared.coverage_seen()

    def unseen(self):
        """The blocks that have not run, as addresses of the shared object."""
        return [start for start, address in self.blocks.items() if not self.shared.coverage_has(address)]
