"""tools/fault as a command, and the places that it names: they are there, and nothing before them is refused with the same number."""
import os
import random
import re
import resource
import subprocess
import tempfile
import unittest
from pathlib import Path

from reckoning.faults import Copy, faults, number_of
from reckoning.faults.words import quoted
from reckoning.formula import Broken, read_tokens, tokens_of
from reckoning.limits import MOST_MOVES
from reckoning.refusal import Job, refusal
from reckoning.sheets import FORMULA, LABELS, MOVES, NO_MOVES
from reckoning.texts import FILES, FORMULA_FILE, LABELS_FILE, MOVES_FILE, fields, lines
from tests.edges import moves, pairs
from tests.jobs import damaged_job
from tests.mutations import bent_job, mutated
from tests.places import FOLDERS, ROOT
from tests.program import put

RANDOM = 3_000
SECONDS = 2                 # of the processor, which is ten times what the command takes
SENTENCE = re.compile(r"(moves|labels|formula)\.txt(?:, line (?P<line>\d+)(?:, field (?P<field>\d+))?|, token (?P<token>\d+))?: \S.*[^.:, ]")


def command(*words):
    """The status of the command, what it prints and what it says."""
    done = subprocess.run([ROOT / "tools" / "fault", *map(str, words)], capture_output=True, text=True)
    return done.returncode, done.stdout, done.stderr


def jobs():
    """Jobs of every kind: damaged, bent, put together from two, and about the limits."""
    rng = random.Random(20)
    for at in range(RANDOM):
        job = damaged_job(rng) if at % 3 else bent_job(rng)
        yield mutated(rng, job, damaged_job(rng)) if at % 5 == 0 else job
    yield from (job for pair in pairs().values() for job in pair)


class Places(unittest.TestCase):
    @classmethod
    def setUpClass(cls):
        """Every refused job of the many, with its number and the first of its sentences."""
        cls.refused = [(number, job, faults(Job(*job))) for job in jobs() if (number := number_of(Job(*job)))]

    def named(self):
        """The same with the file, the line, the field and the token that the first sentence names."""
        for number, job, sentences in self.refused:
            found = SENTENCE.fullmatch(sentences[0])
            line, field, token = (int(found[name]) if found[name] else None for name in ("line", "field", "token"))
            yield number, job, sentences[0].partition(".txt")[0] + ".txt", line, field, token

    def test_every_refusal_has_sentences(self):
        """One, of 1 perhaps more, all of them in ASCII and on one line; and of the many jobs each number has some."""
        for number, job, sentences in self.refused:
            with self.subTest(number, job=job):
                self.assertTrue(len(sentences) == 1 or number == 1 and len(sentences) > 1)
                for sentence in sentences:
                    self.assertRegex(sentence, f"^{SENTENCE.pattern}$")
                    self.assertTrue(sentence.isascii() and sentence.isprintable())
                    self.assertNotIn("None", sentence)
        self.assertEqual({number for number, *_ in self.refused}, {1, 2, 3, 4, 5, 6, 9, 10, 11, 12, 13, 14, 16})

    def test_what_is_named_is_there(self):
        """Behind the last token the place where the text ends may be named."""
        for number, job, file, line, field, token in self.named():
            with self.subTest(number, job=job, line=line, field=field, token=token):
                text = job[FILES.index(file)]
                self.assertEqual(file == FORMULA_FILE, number > 9 or number == 1 and file == FORMULA_FILE)
                if line:
                    self.assertIn(line, range(1, len(lines(text)) + 1))
                if field:
                    self.assertIn(field, range(1, len(fields(lines(text)[line - 1])) + 1))
                if token:
                    self.assertIn(token, range(1, len(tokens_of(text)) + 2))

    def test_nothing_before_is_refused_so(self):
        """The text cut before the named line of a sheet is not refused with this number, whatever the other text is."""
        looked_at = 0
        for number, (moves, labels, _), file, line, _, _ in self.named():
            if line and line > 2 and file != FORMULA_FILE:
                above = b"".join(each + b"\n" for each in lines(moves if file == MOVES_FILE else labels)[:line - 1])
                cut = (above, labels if number > 4 else LABELS) if file == MOVES_FILE else (NO_MOVES, above)
                self.assertNotEqual(refusal(*cut, b"tt\n"), number, (number, moves, labels))
                looked_at += 1
        self.assertGreater(looked_at, RANDOM // 10)

    def test_tokens_before_can_stand(self):
        """Of 10: the tokens before the one that is named are a formula or the beginning of one."""
        looked_at = 0
        for number, job, _, _, _, token in self.named():
            if number == 10 and token:
                tokens = tokens_of(job[2])[:token - 1]
                try:
                    read_tokens(tokens)
                except Broken as found:
                    self.assertEqual(found.at, len(tokens), job[2])
                looked_at += 1
        self.assertGreater(looked_at, RANDOM // 20)

    def test_copies(self):
        """Of a copy the sentences are those of the job with the formula `tt`."""
        for number, (moves, labels, _), _ in self.refused:
            self.assertEqual(faults(Copy(moves, labels)), faults(Job(moves, labels, b"tt\n")))


class Command(unittest.TestCase):
    def on(self, job, *words):
        with tempfile.TemporaryDirectory() as folder:
            put(job, folder)
            return command(folder, *words)

    def test_says_where(self):
        sheet = MOVES, b"state,up,dead\n0,1,0\n1,0,1,1\n", FORMULA
        for words in ((), ("2",), ("--copy",), ("--copy", "2")):
            self.assertEqual(self.on(sheet, *words), (0, "labels.txt, line 3: 4 fields, the first line has 3\n", ""))
        self.assertEqual(self.on((MOVES, LABELS, b"P < 1 U 8.50 up dead\n"), 10), (0, 'formula.txt, token 5: "8.50" ends in a zero: write 8.5\n', ""))

    def test_accepted(self):
        for folder in FOLDERS:
            self.assertEqual(command(folder), (0, "accepted\n", ""))
        self.assertEqual(self.on((MOVES, LABELS, b"&\n"), "--copy"), (0, "accepted\n", ""))

    def test_another_number(self):
        """It says so and nothing else, also where it finds no fault at all."""
        broken = MOVES, LABELS, b"& up\n"
        self.assertEqual(self.on(broken, 2), (1, "the second reckoning finds 10 in the place of 2: please report this sheet\n", ""))
        self.assertEqual(self.on(broken, "--copy", 2), (1, "the second reckoning finds no fault in the place of 2: please report this sheet\n", ""))
        self.assertEqual(self.on((MOVES, LABELS, FORMULA), 14),
                         (1, "the second reckoning finds no fault in the place of 14: please report this sheet\n", ""))

    def test_lent(self):
        sheet = MOVES, LABELS, FORMULA
        self.assertEqual(self.on(sheet, 15, "--lent", 2, 2, 1, 2, 2, 532, 6),
                         (0, "lent buffer verdicts: 1 byte, it needs 2, one for each state\n", ""))
        self.assertEqual(self.on(sheet, "--lent", 2, 2, 2, 2, 2, 532, 6), (0, "accepted\n", ""))
        self.assertEqual(self.on((MOVES, LABELS, b"gas\n"), "--lent", *[0] * 7)[1][:9], "formula.t")

    def test_room(self):
        sheet = MOVES, LABELS, FORMULA
        self.assertEqual(self.on(sheet, "--copy", "--room", 20, 17), (0, "lent buffer for the copy: 20 bytes, the copy has 21\n", ""))
        self.assertEqual(self.on(sheet, "--copy", "--room", 21), (0, "accepted\n", ""))

    def test_wrong_use(self):
        small = ROOT / "examples" / "small"
        for words in ((), (ROOT / "nowhere",), (small / MOVES_FILE,), (small, "two"), (small, "2", "3"), (small, "--room", 5), (small, "--lent", 1),
                      (small, "--copy", "--lent", *[9] * 7), (small, "--copy", "--room", -1), (small, "--copy", "--room", "x")):
            with self.subTest(words):
                status, printed, said = command(*words)
                self.assertEqual((status, printed), (2, ""))
                self.assertIn("fault: error: ", said)

    def test_quick(self):
        """Also with as many moves as there may be."""
        with tempfile.TemporaryDirectory() as folder:
            put((moves(MOST_MOVES)[0] + b"0,1,0\n0,1\n", *moves(1)[1:]), folder)
            begun = resource.getrusage(resource.RUSAGE_CHILDREN).ru_utime
            self.assertEqual(command(folder), (0, "moves.txt, line 4099: 2 fields, a move has 3\n", ""))
            self.assertLess(resource.getrusage(resource.RUSAGE_CHILDREN).ru_utime - begun, SECONDS)


class Files(unittest.TestCase):
    """What is said of files that cannot be read, which count as empty texts."""

    def setUp(self):
        made = tempfile.TemporaryDirectory()
        self.addCleanup(made.cleanup)
        self.folder = Path(made.name)
        put((MOVES, LABELS, FORMULA), self.folder)

    def says(self, *sentences, words=(1,)):
        self.assertEqual(command(self.folder, *words), (0, "".join(each + "\n" for each in sentences), ""))

    def test_missing(self):
        (self.folder / FORMULA_FILE).unlink()
        formula, labels = (f"{name}: there is no such file, which counts as an empty text" for name in (FORMULA_FILE, LABELS_FILE))
        self.says(formula)
        self.says("accepted", words=("--copy",))
        (self.folder / LABELS_FILE).unlink()
        self.says(labels, words=("--copy", 1))
        self.says(labels, formula)

    def test_no_sheet(self):
        """Of a folder that is no sheet's it is told once."""
        for name in FILES:
            (self.folder / name).unlink()
        self.says(self.no_sheet(*FILES))
        self.says(self.no_sheet(MOVES_FILE, LABELS_FILE), words=("--copy", 1))

    def no_sheet(self, *names):
        return f"{quoted(os.fsencode(self.folder))} has no sheet in it: {', '.join(names)} are not there"

    def test_another_name(self):
        for name in ("Formula.txt", "formula.txt.txt", "formula.csv", "FORMULA", "formulas.txt"):
            (self.folder / FORMULA_FILE).rename(self.folder / name)
            self.says(f'formula.txt: there is no such file, which counts as an empty text: is "{name}" meant?')
            (self.folder / name).rename(self.folder / FORMULA_FILE)

    def test_empty(self):
        (self.folder / MOVES_FILE).write_bytes(b"")
        self.says("moves.txt: empty, its first line is from,to,rate")

    def test_folder(self):
        (self.folder / MOVES_FILE).unlink()
        (self.folder / MOVES_FILE).mkdir()
        self.says("moves.txt: this is a folder and no file, which counts as an empty text")

    def test_cannot_be_read(self):
        """A link to itself cannot be opened, whoever asks."""
        (self.folder / MOVES_FILE).unlink()
        (self.folder / MOVES_FILE).symlink_to(MOVES_FILE)
        self.says("moves.txt: the file cannot be read (Too many levels of symbolic links), which counts as an empty text")


if __name__ == "__main__":
    unittest.main()
