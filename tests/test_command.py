"""The command `./sheetcheck`: what it prints, what it says and how it ends, of a report, a copy and a new sheet."""
import os
import re
import resource
import shutil
import subprocess
import tempfile
import unittest
from pathlib import Path

from reckoning.copying import BY_SHEET, copied
from reckoning.faults import faults
from reckoning.limits import HOUR, MOST_HUNDREDTHS, MOST_LEVELS, MOST_MOVES, MOST_RATE
from reckoning.refusal import BY_TEXTS, Job, refusal
from reckoning.report import refused
from reckoning.sheets import LABELS, MOVES, REPORT, moves_text
from tests.edges import levels, load, loads, moves, small, typed
from tests.places import EXAMPLES, PROGRAM, ROOT
from tests.program import put, run

COMMAND = ROOT / "sheetcheck"
START = EXAMPLES / "two-gauges"
ANSWERED, TURNED_BACK, WRONG_USE, NOT_WHOLE = range(4)         # the status that the command ends with
SAID = re.compile(r"sheetcheck: refused, since [a-z].*\.\n")
LITTLE_STACK = 1 << 18      # bytes, which are enough for the shell and too few for the program's buffers
NOT_WRITTEN = "sheetcheck: the answer could not be written whole\n"

# For each number that three texts can be refused with, the example that document 01 gives beside it, and one for 16; 7 and 8 are never given.
REFUSED = {
    1: (MOVES, LABELS, b""),
    2: typed(b"0,1"),
    3: (MOVES, b"state,up,up\n0,1,0\n1,0,1\n", b"tt\n"),
    4: (MOVES, b"state,up\n1,0\n", b"tt\n"),
    5: moves(MOST_MOVES + 1),
    6: typed(b"0,9,5"),
    9: typed(b"0,1,0"),
    10: small(b"& up"),
    11: levels(MOST_LEVELS + 1),
    12: small(b"gas"),
    13: load(500, MOST_HUNDREDTHS + 1),
    14: load(MOST_RATE, HOUR + 1),
    16: loads(500, 8 * HOUR, HOUR),
}


def command(*words, **more):
    """What the command prints, what it says, and its status."""
    done = subprocess.run([COMMAND, *words], cwd=ROOT, stdout=more.pop("stdout", subprocess.PIPE), stderr=subprocess.PIPE, **more)
    return done.stdout, done.stderr.decode(), done.returncode


def command_on(job, *words):
    with tempfile.TemporaryDirectory() as folder:
        put(job, folder)
        return command(*words, folder)


def setUpModule():
    """The first call of each kind may build a program, and says so."""
    command("examples/small")
    command("--copy", "examples/small")


class Command(unittest.TestCase):
    def test_says_what_each_number_means(self):
        """And, by the second reckoning, where the fault is."""
        said = {}
        for number, job in REFUSED.items():
            with self.subTest(number):
                self.assertEqual(refusal(*job), number)
                printed, told, status = command_on(job)
                self.assertEqual((printed, status), (refused(number), TURNED_BACK))
                said[number], *places = told.splitlines(keepends=True)
                self.assertRegex(said[number], SAID)
                self.assertEqual(places, [place + "\n" for place in faults(Job(*job))])
        self.assertEqual(set(said), BY_TEXTS)
        self.assertEqual(len(set(said.values())), len(said))

    def test_says_nothing_of_a_report(self):
        self.assertEqual(command("examples/small"), (REPORT, "", ANSWERED))

    def test_minds_thresholds(self):
        """Those that look like a probability or a percentage; the report is what it is."""
        for formula, noted in ((b"P >= 1 U 8 up dead", "1"), (b"P <= 98 X dead", "98"), (b"! & up P < 100 U 8 up P > 5000 X dead", "100"),
                               (b"P >= 101 U 8 up dead", ""), (b"P > 0 U 1 up dead", ""), (b"P <= 10000000 U 99 up dead", "")):
            printed, said, status = command_on(small(formula))
            self.assertEqual((printed, status), (run(small(formula)), ANSWERED))
            note = f"sheetcheck: note that thresholds are billionths: {noted} is next to nothing, and 0.01 is 10000000\n"
            self.assertEqual(said, note if noted else "")

    def test_copies(self):
        """The moves of a folder, pairs rising and none twice; it needs no formula."""
        typed_moves = moves_text([(1, 1, 4), (0, 1, 60), (1, 0, 5), (0, 1, 40)])
        clean = b"from,to,rate\n0,1,100\n1,0,5\n1,1,4\n"
        for formula in (b"tt\n", b"", b"gas\n"):
            self.assertEqual(command_on((typed_moves, LABELS, formula), "--copy"), (clean, "", ANSWERED))
        self.assertEqual(command("--copy", "examples/small"), (MOVES, "", ANSWERED))

    def test_says_of_a_copy_what_each_number_means(self):
        """In the words that it has for a job."""
        for number in BY_SHEET:
            moves, labels, _ = REFUSED[number] if number > 1 else (b"", LABELS, b"tt\n")
            with self.subTest(number):
                self.assertEqual(copied(moves, labels), number)
                printed, said, status = command_on((moves, labels, b"tt\n"))
                self.assertEqual((printed, status), (refused(number), TURNED_BACK))
                self.assertEqual(command_on((moves, labels, b"tt\n"), "--copy"), (printed, said.replace("sheetcheck: ", "sheetcopy: "), status))

    def test_prints_what_the_program_prints(self):
        """And nothing that is said beside it, by whomever."""
        noisy = {**os.environ, "LD_PRELOAD": "/no/such/library.so"}
        for folder, status in (("examples/gun-string", ANSWERED), ("docs/broken-sheet", TURNED_BACK)):
            printed, said, ended = command(folder, env=noisy)
            self.assertIn("/no/such/library.so", said)
            self.assertEqual((printed, ended), (subprocess.run([PROGRAM], cwd=ROOT / folder, capture_output=True).stdout, status))

    def test_goes_by_what_the_folder_is_called(self):
        """Names that a shell takes for something else."""
        with tempfile.TemporaryDirectory() as outer:
            for name in ("-", "two words", "*", "-e"):
                put((MOVES, LABELS, b"P >= 1000000000 U 0 up dead\n"), Path(outer) / name)
                done = subprocess.run([COMMAND, name], cwd=outer, capture_output=True, env={**os.environ, "CDPATH": str(ROOT)})
                self.assertEqual((done.stdout, done.stderr, done.returncode), (REPORT, b"", ANSWERED), name)

    def test_is_found_through_a_link(self):
        with tempfile.TemporaryDirectory() as outer:
            link = Path(outer) / "check"
            link.symlink_to(COMMAND)
            done = subprocess.run([link, EXAMPLES / "small"], cwd=outer, capture_output=True)
            self.assertEqual((done.stdout, done.stderr, done.returncode, os.listdir(outer)), (REPORT, b"", ANSWERED, ["check"]))


class WrongUse(unittest.TestCase):
    def test_wants_one_folder(self):
        usage, _, status = command("--help")
        self.assertEqual(status, ANSWERED)
        self.assertTrue(usage.startswith(b"usage: ./sheetcheck FOLDER "))
        for arguments in ([], ["examples/small", "docs"], ["--copy"], ["--copy", "examples/small", "docs"], ["--clean", "examples/small"],
                          ["examples/small", "--copy"], ["--new"], ["--html"], ["--html", "--copy", "examples/small"], [""]):
            self.assertEqual(command(*arguments), (b"", usage.decode(), WRONG_USE), arguments)
        self.assertEqual(command("-h"), (usage, "", ANSWERED))

    def test_tells_at_once_of_a_folder_that_is_not_there(self):
        """Before anything is built: here nothing is, and whatever calls for a build is noted."""
        with tempfile.TemporaryDirectory() as outer:
            bare = Bare(outer)
            for words in (["nowhere"], ["--copy", "nowhere"], ["--html", "nowhere"], ["sheetcheck"]):
                self.assertEqual(bare.run(*words), (b"", f"sheetcheck: {words[-1]} is not a folder\n", WRONG_USE), words)
            self.assertFalse(bare.asked_to_build())

    def test_says_that_nothing_was_built(self):
        with tempfile.TemporaryDirectory() as outer:
            bare = Bare(outer)
            printed, said, status = bare.run("crates")
            self.assertTrue(bare.asked_to_build())
            self.assertEqual((printed, status), (b"", NOT_WHOLE))
            self.assertIn("no program was built", said)


def stand_in(outer, name, does):
    """The path to look for commands on, with one of this name before all others that does something else."""
    made = Path(outer) / "commands" / name
    made.parent.mkdir()
    made.write_text(f"#!/bin/sh\n{does}\n")
    made.chmod(0o755)
    return f"{made.parent}:{os.environ['PATH']}"


class Bare:
    """The command in a repository with nothing built, where `rt` notes that it was called and fails."""

    def __init__(self, outer):
        self.root, self.noted = Path(outer) / "bare", Path(outer) / "noted"
        (self.root / "crates" / "sheetcheck").mkdir(parents=True)
        (self.root / "crates.txt").touch()
        shutil.copy(COMMAND, self.root)
        self.path = stand_in(outer, "rt", f"touch '{self.noted}'; exit 1")

    def run(self, *words):
        done = subprocess.run(["./sheetcheck", *words], cwd=self.root, capture_output=True, env={**os.environ, "PATH": self.path})
        return done.stdout, done.stderr.decode(), done.returncode

    def asked_to_build(self):
        return self.noted.exists()


class Unwritten(unittest.TestCase):
    """An answer that cannot be written whole is told from one that was."""

    def test_full_disk(self):
        for words in (["examples/small"], ["--copy", "examples/small"], ["--html", "examples/small"], ["docs/broken-sheet"], ["--help"]):
            with open("/dev/full", "wb") as full:
                self.assertEqual(command(*words, stdout=full)[1:], (NOT_WRITTEN, NOT_WHOLE), words)

    def test_nobody_left_to_tell(self):
        """The status is the same where standard error fails too."""
        for line, status in (("examples/small > /dev/full 2>&1", NOT_WHOLE), ("docs/broken-sheet > /dev/full 2> /dev/full", NOT_WHOLE),
                             ("nowhere 2>&-", WRONG_USE), ("2> /dev/full", WRONG_USE), ("docs/broken-sheet 2> /dev/full", TURNED_BACK),
                             ("docs/broken-sheet 2>&-", TURNED_BACK), ("examples/small 2>&-", ANSWERED)):
            done = subprocess.run(["bash", "-c", f"./sheetcheck {line}"], cwd=ROOT, stdout=subprocess.DEVNULL)
            self.assertEqual(done.returncode, status, line)

    def test_page_that_is_not_made(self):
        """Whatever status the maker of pages ends with."""
        with tempfile.TemporaryDirectory() as outer:
            path = stand_in(outer, "python3", "exit 1")
            for folder in ("examples/small", "docs/broken-sheet"):
                printed, said, status = command("--html", folder, env={**os.environ, "PATH": path})
                self.assertEqual((printed, said, status), (b"", "sheetcheck: no page was made\n", NOT_WHOLE))

    def test_closed_output(self):
        done = subprocess.run(["bash", "-c", "./sheetcheck examples/small >&-"], cwd=ROOT, capture_output=True, text=True)
        self.assertEqual((done.stderr, done.returncode), (NOT_WRITTEN, NOT_WHOLE))

    def test_closed_pipe(self):
        """Whoever closes it has read enough, and is told nothing."""
        reader, writer = os.pipe()
        os.close(reader)
        for words in (["examples/small"], ["--html", "examples/small"], ["--help"]):
            self.assertEqual(command(*words, stdout=writer)[1:], ("", NOT_WHOLE))
        os.close(writer)

    def test_program_that_breaks_off(self):
        """With too little stack it is killed before it prints."""
        printed, said, status = command("examples/redundant-string", env={"PATH": os.environ["PATH"]},
                                        preexec_fn=lambda: resource.setrlimit(resource.RLIMIT_STACK, (LITTLE_STACK, LITTLE_STACK)))
        self.assertEqual((printed, status), (b"", NOT_WHOLE))
        self.assertIn("the program broke off", said)


class NewSheet(unittest.TestCase):
    def test_is_a_copy_of_the_example(self):
        with tempfile.TemporaryDirectory() as outer:
            for folder in (Path(outer) / "mine", Path(outer) / "jobs" / "two words"):
                printed, said, status = command("--new", folder)
                self.assertEqual((said, status), ("", ANSWERED))
                self.assertIn(str(folder).encode(), printed)
                self.assertEqual({path.name: path.read_bytes() for path in folder.iterdir()},
                                 {path.name: path.read_bytes() for path in START.iterdir()})
                self.assertEqual(command(folder), command(START))

    def test_overwrites_nothing(self):
        """An empty folder may be there, anything else not."""
        with tempfile.TemporaryDirectory() as outer:
            empty, full, text = (Path(outer) / name for name in ("empty", "full", "text"))
            empty.mkdir()
            self.assertEqual(command("--new", empty)[2], ANSWERED)
            put((MOVES, LABELS, b"tt\n"), full)
            text.write_text("notes")
            for taken in (empty, full, text):
                before = sorted((path.name, path.read_bytes()) for path in Path(outer).rglob("*") if path.is_file())
                printed, said, status = command("--new", taken)
                self.assertEqual((printed, status), (b"", WRONG_USE))
                self.assertIn("is there already", said)
                self.assertEqual(sorted((path.name, path.read_bytes()) for path in Path(outer).rglob("*") if path.is_file()), before)

    def test_leaves_what_it_cannot_list(self):
        with tempfile.TemporaryDirectory() as outer:
            full = Path(outer) / "full"
            put((MOVES, LABELS, b"tt\n"), full)
            path = stand_in(outer, "ls", "echo 'Permission denied' >&2; exit 2")
            self.assertEqual(command("--new", full, env={**os.environ, "PATH": path})[2], WRONG_USE)
            self.assertEqual((full / "moves.txt").read_bytes(), MOVES)


class WithoutPython(unittest.TestCase):
    """Reports and refusals need no Python; only the place of the fault is missing then, and there is no page."""

    @classmethod
    def setUpClass(cls):
        cls.outer = tempfile.TemporaryDirectory()
        cls.addClassCleanup(cls.outer.cleanup)
        for name in ("bash", "cat", "dirname", "find", "mktemp", "readlink", "rm"):
            (Path(cls.outer.name) / name).symlink_to(shutil.which(name))

    def command(self, *words):
        return command(*words, env={"PATH": self.outer.name})

    def test_report(self):
        self.assertEqual(self.command("examples/small"), (REPORT, "", ANSWERED))

    def test_refusal(self):
        printed, said, status = self.command("docs/broken-sheet")
        self.assertEqual((printed, status), (refused(2), TURNED_BACK))
        self.assertRegex(said, re.compile(SAID.pattern + r"\Z"))

    def test_page(self):
        self.assertEqual(self.command("--html", "examples/small"), (b"", "sheetcheck: --html needs Python 3\n", NOT_WHOLE))


if __name__ == "__main__":
    unittest.main()
