"""Memory for a text that ends where the process has none: reading one byte past the text is a crash."""
import ctypes
import mmap

NO_ACCESS = 0
C = ctypes.CDLL(None, use_errno=True)


class Fenced:
    """Room for a text of at most so many bytes, and a page after it that cannot be read."""

    def __init__(self, most):
        room = -(-most // mmap.PAGESIZE) * mmap.PAGESIZE
        self.most, self.memory = most, mmap.mmap(-1, room + mmap.PAGESIZE)
        self.end = ctypes.addressof(ctypes.c_char.from_buffer(self.memory)) + room
        if C.mprotect(ctypes.c_void_p(self.end), ctypes.c_size_t(mmap.PAGESIZE), NO_ACCESS) != 0:
            raise OSError(ctypes.get_errno(), "mprotect")

    def put(self, text):
        """Lays down a text so that it ends at the page, and answers with its address."""
        if len(text) > self.most:
            raise ValueError(f"{len(text)} bytes of {self.most}")
        ctypes.memmove(self.end - len(text), text, len(text))
        return self.end - len(text)

    def read(self, length):
        """The last bytes before the page."""
        return ctypes.string_at(self.end - length, length)
