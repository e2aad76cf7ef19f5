"""A short run of the fuzzer; and that it finds a wrong number, a touched byte, a read past a text, a crash and a call that does not end, in a check
and in a copy."""
import subprocess
import tempfile
import unittest
from pathlib import Path
from unittest import mock

from reckoning.refusal import refusal
from tests import fuzzing
from tests.agreement import library_faults
from tests.coverage import SOURCE, build_covered
from tests.fuzzing import fuzz
from tests.places import ROOT

FUZZ = ROOT / "tests" / "fuzz"
SECONDS = 3
SEED = 31

# A library that refuses every job and every copy with 1, which is right for the empty one that it is tried with first; WRONG is what a function
# does besides.
HEAD = '#include "sebdyqul.h"\n'
BODY = """{
    WRONG
    return 1;
}
"""


def declared(name):
    """The declaration of a function, as the head of a definition."""
    text = (ROOT / "library" / "sebdyqul.h").read_text()
    return text[text.index(f"uint64_t {name}("):].partition(";")[0] + "\n"


def wrong_library(folder, wrong, wrong_copy):
    """A shared object whose functions do something wrong."""
    source, shared = Path(folder) / "wrong.c", Path(folder) / "wrong.so"
    functions = [declared(name) + BODY.replace("WRONG", does) for name, does in (("sebdyqul_check", wrong), ("sebdyqul_copy", wrong_copy))]
    source.write_text(HEAD + "\n".join(functions))
    subprocess.run(["cc", "-O1", "-fPIC", "-shared", f"-I{ROOT / 'library'}", "-o", shared, source, SOURCE], check=True)
    return shared


class Fuzz(unittest.TestCase):
    def test_short_run(self):
        ended = fuzz(build_covered(), SECONDS, SEED)
        self.assertEqual(ended.faults, [], ended)
        reached = ended.reached
        self.assertGreater(reached.seen, 0.8 * reached.blocks)
        self.assertGreater(reached.seen, reached.by_seeds)
        self.assertGreater(reached.executions, 500)
        self.assertEqual(len(ended.unseen), reached.blocks - reached.seen)

    def test_a_wrong_reckoning_is_told(self):
        """The second reckoning is made to expect 14 where it finds 13."""
        def wrong(job, called, most_states):
            return ["13 for 14"] if called.number == 13 else library_faults(job, called, most_states)
        with mock.patch.object(fuzzing, "library_faults", wrong):
            ended = fuzz(build_covered(), SECONDS, SEED)
        self.assertEqual(ended.faults, ["13 for 14"])
        self.assertEqual(refusal(*ended.job, ended.lent), 13)

    def found(self, wrong, wrong_copy="", **more):
        """What is found with a wrong library."""
        with tempfile.TemporaryDirectory() as folder, mock.patch.object(fuzzing, "seeds", lambda rng: [(b"", b"", b"")]):
            return fuzz(wrong_library(folder, wrong, wrong_copy), SECONDS, SEED, **more)

    def test_wrong_libraries(self):
        self.assertRegex(self.found("").faults[0], "^number 1(| of a copy), should be ")
        self.assertEqual(self.found("*depth = 7;").faults, ["depth or a guard of it is not as it should be"])
        self.assertEqual(self.found("marks[marks_length] ^= 1;").faults, ["marks or a guard of it is not as it should be"])
        self.assertEqual(self.found("lower[-1] ^= 1;").faults, ["lower or a guard of it is not as it should be"])
        for wrong in ("order[0] ^= 1;", "order[order_length] ^= 256;", "order[-1] ^= 1;"):
            self.assertEqual(self.found(wrong).faults, ["order or a guard of it is not as it should be"])

    def test_wrong_copies(self):
        self.assertEqual(self.found("", "return 2;").faults, ["number 2 of a copy, should be 1"])
        self.assertEqual(self.found("", "*length = 7;").faults, ["length of a copy or a guard of it is not as it should be"])
        for wrong in ("copy[0] ^= 1;", "copy[copy_length] ^= 1;", "copy[-1] ^= 1;"):
            self.assertEqual(self.found("", wrong).faults, ["copy of a copy or a guard of it is not as it should be"])
        for wrong in ("if (labels[labels_length]) return 2;", "if (moves[moves_length]) return 2;"):
            self.assertEqual(self.found("", wrong).faults, ["ended with SIGSEGV"])

    def test_crashes(self):
        ended = self.found("if (formula_length) __builtin_trap();")
        self.assertEqual((ended.reached, ended.faults), (None, ["ended with SIGILL"]))
        self.assertTrue(ended.job[2])
        self.assertEqual(self.found("if (labels[labels_length]) return 2;").faults, ["ended with SIGSEGV"])

    def test_a_call_that_does_not_end(self):
        ended = self.found("for (volatile int on = 1; on;) {}", grace=1 - SECONDS)
        self.assertEqual((ended.reached, ended.faults), (None, ["the call did not end"]))

    def test_command(self):
        run = subprocess.run([FUZZ, "0.2", "--seed", "5"], stdout=subprocess.PIPE, text=True)
        self.assertEqual(run.returncode, 0, run.stdout)
        first, told, last = run.stdout.splitlines()
        self.assertEqual((first, last), ("seed 5", "nothing found"))
        self.assertRegex(told, r"^\d+ of \d+ blocks seen, \d+ by the seeds; \d+ executions, \d+ a second; corpus \d+$")


if __name__ == "__main__":
    unittest.main()
