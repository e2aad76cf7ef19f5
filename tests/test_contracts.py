"""That no function of the crates is public without a promise, and that each function has a comment above it and stays short."""
import re
import unittest
from collections import namedtuple

from tests.places import ROOT

SOURCES = sorted((ROOT / "crates").glob("*/src/**/*.rt"))
FUNCTION = re.compile(r'^(?P<indent> *)(?P<public>pub )?(?:extern "C" )?fn (?P<name>\w+)')
LONGEST = 39                # lines of a body, with its braces

Function = namedtuple("Function", "place public head body comment")


def functions():
    """Each function of the crates: its head is all up to the brace of its body, its comment the line above it and its attributes."""
    for path in SOURCES:
        lines = path.read_text().splitlines()
        for at, line in enumerate(lines):
            found = FUNCTION.match(line)
            if found:
                body = next(k for k in range(at, len(lines)) if lines[k].endswith("{"))
                end = lines.index(found["indent"] + "}", at)
                above = [text for text in lines[:at] if not text.strip().startswith("#[")]
                yield Function(f"{path.relative_to(ROOT)}: {found['name']}", bool(found["public"]), lines[at:body + 1], lines[body:end + 1],
                               above[-1].strip() if above else "")


class Contracts(unittest.TestCase):
    def test_every_public_function_promises(self):
        public = [function for function in functions() if function.public]
        self.assertGreater(len(public), 100)
        for function in public:
            with self.subTest(function.place):
                self.assertTrue(any(line.strip().startswith("ensures") for line in function.head))

    def test_every_function_has_a_comment(self):
        for function in functions():
            with self.subTest(function.place):
                self.assertTrue(function.comment.startswith("//"))

    def test_no_body_is_long(self):
        for function in functions():
            with self.subTest(function.place):
                self.assertLessEqual(len(function.body), LONGEST)


if __name__ == "__main__":
    unittest.main()
