"""The limits are the same wherever they stand: in the second reckoning, in the definitions, and in the library's header and Rust function."""
import re
import unittest

from reckoning import limits
from tests.library import COPY, ENOUGH
from tests.places import ROOT

DEFINED = re.compile(r"^(\w+) = (\d+)(?: \* (\w+))?$", re.MULTILINE)
HEADER = re.compile(r"^#define SEBDYQUL_(\w+) (\d+)$", re.MULTILINE)
RUST = re.compile(r"^pub const (\w+): usize = ([\d_]+);$", re.MULTILINE)
LENT = {"RESULTS": ENOUGH.lower, "WORDS": ENOUGH.moves, "VECTORS": ENOUGH.vectors, "MARKS": ENOUGH.marks, "COPY": COPY}


def numbers(pattern, path):
    """The numbers that a file has by names."""
    return {name: int(number) for name, number in pattern.findall((ROOT / path).read_text())}


def definitions(path):
    """The numbers that a file defines, where one is a number times another that stands before it."""
    found = {}
    for name, number, unit in DEFINED.findall((ROOT / path).read_text()):
        found[name] = int(number) * found.get(unit, 1)
    return found


def in_python(name):
    """The name of a definition as the second reckoning has it: most_rate is MOST_RATE."""
    return name.upper()


class Limits(unittest.TestCase):
    def test_definitions(self):
        """Each limit that both have under one name."""
        found = definitions("crates/csl/specs/Limits.antt")
        both = {name: number for name, number in found.items() if hasattr(limits, in_python(name))}
        self.assertGreater(len(both), 16)
        for name, number in both.items():
            with self.subTest(name):
                self.assertEqual(number, getattr(limits, in_python(name)))

    def test_lengths_of_the_library(self):
        self.assertEqual({ENOUGH.lower, ENOUGH.upper, ENOUGH.verdicts, ENOUGH.order}, {LENT["RESULTS"]})
        self.assertEqual(numbers(HEADER, "library/sebdyqul.h"), LENT)
        self.assertEqual(numbers(RUST, "library/sebdyqul.rs"), LENT)


if __name__ == "__main__":
    unittest.main()
