"""The examples in C and Rust, built with the commands of library/README.md: they print what the program prints, and need no more stack than told."""
import random
import re
import shlex
import subprocess
import tempfile
import unittest

from reckoning.__main__ import read_texts
from reckoning.copying import printed_copy
from reckoning.limits import MOST_MOVES, MOST_RATE, SHEET_BYTES
from reckoning.report import refused
from tests import edges
from tests.agreement import refusal_number
from tests.jobs import damaged_job
from tests.library import build_archive
from tests.places import FOLDERS, ROOT, TARGET
from tests.program import run

README = ROOT / "library" / "README.md"
COMMAND = re.compile(r"^    ((?:cc|rustc) .*)$", re.MULTILINE)
STRICT = ("-Werror", "-D warnings")
EXAMPLES = ((TARGET / "example-c", "."), (TARGET / "example-rs", "."))
COPYING = tuple((program, "--copy", folder) for program, folder in EXAMPLES)
RUST_TESTS = TARGET / "sebdyqul-rs-tests"
STACK = 1 << 20             # bytes that the library gets by with
DAMAGED = 15


class LibraryExamples(unittest.TestCase):
    @classmethod
    def setUpClass(cls):
        build_archive()
        TARGET.mkdir(exist_ok=True)
        cls.commands = COMMAND.findall(README.read_text())
        for command in cls.commands:
            subprocess.run(shlex.split(command), cwd=ROOT, check=True)

    def test_all_are_built_with_warnings_as_errors(self):
        self.assertEqual(len(self.commands), len(EXAMPLES) + 1)
        for command in self.commands:
            self.assertTrue(any(flag in command for flag in STRICT), command)

    def test_the_example_sheets(self):
        for folder in FOLDERS:
            wanted = run(read_texts(folder))
            for example in EXAMPLES:
                with self.subTest(folder.name, example=example[0].name):
                    self.assertEqual(run(read_texts(folder), command=example), wanted)

    def test_refused_jobs(self):
        rng = random.Random(21)
        jobs = [job for job in (damaged_job(rng) for _ in range(DAMAGED)) if refusal_number(job)]
        self.assertGreater(len(jobs), DAMAGED // 2)
        for job in jobs:
            for example in EXAMPLES:
                self.assertEqual(run(job, command=example), refused(refusal_number(job)), job)

    def test_limits_within_the_stack(self):
        for name, pair in edges.pairs().items():
            for job in pair:
                with self.subTest(name):
                    self.assertEqual(run(job, stack=STACK, command=EXAMPLES[0]), run(job))

    def test_copies(self):
        """Of the example sheets, of damaged ones, and at the limits within the stack."""
        rng = random.Random(22)
        jobs = [tuple(read_texts(folder)) for folder in FOLDERS] + [damaged_job(rng) for _ in range(DAMAGED)]
        for job in jobs + [edges.long_moves(SHEET_BYTES), edges.moves_again(MOST_MOVES), edges.rates_again(MOST_RATE + 1)]:
            for example in COPYING:
                self.assertEqual(run(job, stack=STACK, command=example), printed_copy(*job[:2]), job)

    def test_wrong_words(self):
        for program, *words in ((*EXAMPLES[0], "."), (EXAMPLES[0][0],), (*EXAMPLES[1], "."), (EXAMPLES[1][0],), (EXAMPLES[0][0], "copy", "."),
                                (EXAMPLES[1][0], "copy", ".")):
            done = subprocess.run([program, *words], capture_output=True, text=True)
            self.assertEqual((done.returncode, done.stdout), (2, ""))
            self.assertRegex(done.stderr, r"^usage: example-(c|rs) \[--copy\] FOLDER\n$")

    def test_files_that_are_not_there(self):
        with tempfile.TemporaryDirectory() as folder:
            for example in (*EXAMPLES, *COPYING):
                self.assertEqual(subprocess.run(example, cwd=folder, stdout=subprocess.PIPE, check=True).stdout, refused(1))

    def test_the_rust_function(self):
        result = subprocess.run([RUST_TESTS], stdout=subprocess.PIPE, text=True)
        self.assertEqual(result.returncode, 0, result.stdout)
        self.assertIn("7 passed; 0 failed", result.stdout)


if __name__ == "__main__":
    unittest.main()
