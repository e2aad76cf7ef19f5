"""tools/page: the page is one well-formed file that needs no other, its rows are those of the proved report, and its words say what is asked."""
import re
import subprocess
import tempfile
import unittest
from functools import lru_cache
from pathlib import Path

from pages.course import hours_to_ask
from pages.decimals import chance
from pages.layout import cells_of, through
from pages.naming import state_names
from pages.words import question
from reckoning.__main__ import read_texts
from reckoning.formula import read_formula
from reckoning.limits import BILLION, FORMULA_BYTES, MOST_HUNDREDTHS, MOST_RATE
from reckoning.report import HEAD
from reckoning.sheets import LABELS, MOVES, NO_MOVES, labels_text, moves_text
from tests.pages import COMMAND, HOSTILE_FOLDER, Reader, hostile_sheet, page_of, refused_sheet
from tests.places import EXAMPLES, FOLDERS
from tests.program import put, run
from tests.tools import TOOLS

POINT = re.compile(r"(\S+) hours: lower (\d+), upper (\d+) billionths, (\w+)")
LISTED = re.compile(r"([0-9]+),([0-9]+),([0-9]+),([0-9]+),([a-z]+)")
OUTSIDE = ("script", "link", "iframe", "img", "object", "embed", "base", "form")

# Each kind of formula, and the words for it.
WORDS = {
    "P <= 10000000 U 8.25 power lost": "With probability at most 0.01: within 8.25 hours `lost` holds, and until then `power` holds.",
    "P < 50000000 U 1 tt full": "With probability less than 0.05: within 1 hour `full` holds.",
    "P > 5 U 8760 up ! dead": "With probability more than 0.000000005: within 8,760 hours `dead` does not hold, and until then `up` holds.",
    "P >= 990000000 V 2 8.25 power & collar gamma":
        "With probability at least 0.99: at some time from 2 to 8.25 hours `collar` and `gamma` hold, and until then `power` holds.",
    "P >= 990000000 V 72 72 up tt": "With probability at least 0.99: all through 72 hours `up` holds.",
    "P >= 5 V 3 3 tt a": "With probability at least 0.000000005: at 3 hours exactly `a` holds.",
    "P >= 5 V 0 3 a b": "With probability at least 0.000000005: within 3 hours `b` holds, and until then `a` holds.",
    "P >= 5 U 0 a b": "With probability at least 0.000000005: within 0 hours, which is at once, `b` holds.",
    "P <= 120000000 X ! collar": "With probability at most 0.12: the next move, whenever it comes, leads to a state where `collar` does not hold.",
    "P > 0 X tt": "It can happen at all that a next move comes.",
    "P > 0 U 8 a b": "It can happen at all that within 8 hours, as within any other time above 0, `b` holds, and until then `a` holds.",
    "P <= 0 U 8 tt b": "It cannot happen that within 8 hours, as within any other time above 0, `b` holds.",
    "P >= 1000000000 U 8 tt b": "It is certain that within 8 hours, as within any other time above 0, `b` holds.",
    "P < 1000000000 U 8 tt b": "It is not certain that within 8 hours, as within any other time above 0, `b` holds.",
    "P >= 0 X a": "With probability at least 0, which is always so: the next move, whenever it comes, leads to a state where `a` holds.",
    "P > 1000000000 X a": "With probability more than 1, which is never so: the next move, whenever it comes, leads to a state where `a` holds.",
    "tt": "`tt` holds.",
    "& up ! dead": "`up` holds and `dead` does not hold.",
    "& & a b c": "`a`, `b` and `c` hold.",
    "& ! a ! b": "Neither `a` nor `b` holds.",
    "! & ! a ! b": "`a` or `b` holds.",
    "! & ! a ! ! & ! b ! c": "`a`, `b` or `c` holds.",
    "! & a ! b": "If `a` holds then `b` holds.",
    "! & a b": "`a` and `b` do not both hold.",
    "! & & a b c": "`a`, `b` and `c` do not all hold.",
    "! & ! & a b ! c": "(`a` and `b` hold) or `c` holds.",
    "! & ! & a b ! ! d": "(`a` and `b` hold) or `d` does not hold.",
    "! & & a b ! & c ! d": "If `a` and `b` hold then `c` holds and `d` does not hold.",
    "! ! a": "`a` holds.",
    "& c ! & ! a ! b": "`c` holds and (`a` or `b` holds).",
    "P > 5 U 1 tt ! & a ! b": "With probability more than 0.000000005: within 1 hour (if `a` holds then `b` holds).",
    "! & busy ! P >= 900000000 U 100 tt poll": "If `busy` holds then with probability at least 0.9: within 100 hours `poll` holds.",
    "! P > 500000000 X a": "It is not so that with probability more than 0.5: the next move, whenever it comes, leads to a state where `a` holds.",
}
NESTED = {
    "P <= 150000000 U 72 up P > 2000000 U 8 up ! depth": [
        "With probability at most 0.15: within 72 hours (1) holds, and until then `up` holds.",
        "(1) stands for: with probability more than 0.002: within 8 hours `depth` does not hold, and until then `up` holds."],
    "& P > 0 X a ! P < 5 X P <= 0 U 1 tt b": [
        "(1) holds and (2) does not hold.",
        "(1) stands for: it can happen at all that the next move, whenever it comes, leads to a state where `a` holds.",
        "(2) stands for: with probability less than 0.000000005: the next move, whenever it comes, leads to a state where (3) holds.",
        "(3) stands for: it cannot happen that within 1 hour, as within any other time above 0, `b` holds."],
}


@lru_cache(maxsize=None)
def text_of(name):
    """The page of an example."""
    return page_of(EXAMPLES / name)[1]


@lru_cache(maxsize=None)
def example(name):
    """The same, read back."""
    return Reader(text_of(name))


def asked(*job):
    """The page of three texts."""
    with tempfile.TemporaryDirectory() as folder:
        put(job, folder)
        return page_of(folder)[1]


def second_listing(folder):
    """The rows of the second listing that the program prints, without the depth."""
    printed = run(read_texts(folder)).decode()
    rows = LISTED.findall(printed.rpartition(HEAD.decode() + "\n")[2])
    return [(*map(int, row[:3]), row[4]) for row in rows]


class Words(unittest.TestCase):
    def test_formulas(self):
        for formula, told in WORDS.items():
            with self.subTest(formula):
                self.assertEqual(question(read_formula(formula.encode() + b"\n")), [told])

    def test_nested(self):
        for formula, told in NESTED.items():
            with self.subTest(formula):
                self.assertEqual(question(read_formula(formula.encode() + b"\n")), told)

    def test_decimals(self):
        for lower, upper, told in ((0, 0, "0"), (BILLION, BILLION, "1"), (250_000_000, 250_000_000, "0.25"),
                                   (2_154_454, 2_154_455, "0.00215445\u2026"), (0, 1, "0 to 0.000000001"), (0, BILLION, "0 to 1"),
                                   (199_999_999, 200_000_000, "0.199999999 to 0.2"),
                                   (993_522_634, 993_522_636, "0.99352263\u2026"), (999_999_999, BILLION, "0.999999999 to 1")):
            with self.subTest(lower, upper=upper):
                self.assertEqual(chance(lower, upper), told)


class OneFile(unittest.TestCase):
    def looked_at(self, text):
        """A page is well-formed HTML in one file, with what a reader without eyes or a phone needs."""
        page = Reader(text)
        self.assertEqual((page.complaints, page.open), ([], []))
        self.assertTrue(text.startswith("<!DOCTYPE html>\n<html lang=\"en\">"))
        self.assertEqual([element for tag in OUTSIDE for element in page.all(tag)], [])
        self.assertIn({"name": "viewport", "content": "width=device-width, initial-scale=1"}, [meta[1] for meta in page.all("meta")])
        self.assertEqual(re.findall(r"https?:|//|url\((?!#head\))|@import", text), [])
        self.assertEqual([element for element in page.elements if any(name == "src" or name.startswith("on") for name in element[1])], [])
        names = [element[1]["id"] for element in page.elements if "id" in element[1]]
        self.assertEqual(len(set(names)), len(names))
        self.assertLessEqual({link[1]["href"] for link in page.all("a")}, {"#" + name for name in names})
        headings = [int(element[0][1]) for element in page.elements if re.fullmatch("h[1-6]", element[0])]
        self.assertEqual((headings[0], set(headings[1:])), (1, {2}))
        self.assertTrue(all(head[1]["scope"] in ("col", "row") for head in page.all("th")))
        for drawing in page.all("svg", "curve") + page.all("svg", "graph"):
            self.assertEqual(drawing[1]["role"], "img")
            self.assertLessEqual(set(drawing[1]["aria-labelledby"].split()), set(names))
        return page

    def test_examples(self):
        for name in ("gun-string", "first-fault", "small", "redundant-string"):
            with self.subTest(name):
                page = self.looked_at(text_of(name))
                self.assertEqual((page.words("h1"), page.words("title")[0]), ([name], f"{name}: report"))

    def test_refusal_and_hostile_names(self):
        with tempfile.TemporaryDirectory() as folder:
            self.looked_at(page_of(refused_sheet(folder))[1])
            status, text = page_of(hostile_sheet(folder))
        page = self.looked_at(text)
        self.assertEqual((status, page.words("h1")), (0, [HOSTILE_FOLDER]))
        names = dict(zip((row[0] for row in page.rows()), page.words("td", "name")))
        self.assertEqual(names[0], "<script>alert(1)</script>")
        self.assertEqual((names[4], names[9], names[10], names[11]), ("no number", "", "999999999999: no such state", "\ufffd\ufffd\ufffd"))
        self.assertEqual(names[6], "tabs\ufffdand\ufffdbells")
        self.assertEqual([letter for letter in text if letter != "\n" and not letter.isprintable()], [])
        self.assertLess(max(map(len, page.words("td", "name") + page.words("title"))), 200)

    def test_names_no_place(self):
        """The folder by its name alone, so that the page is the same wherever the folder is, and every time."""
        with tempfile.TemporaryDirectory() as folder:
            put((MOVES, LABELS, b"P < 5 U 8 up dead\n"), Path(folder) / "here")
            put((MOVES, LABELS, b"P < 5 U 8 up dead\n"), Path(folder) / "there" / "here")
            text = page_of(Path(folder) / "here")[1]
            self.assertEqual(text, page_of(Path(folder) / "there" / "here")[1])
            self.assertNotIn(folder, text)
        self.assertTrue(text_of("tandem-2") == page_of(EXAMPLES / "tandem-2")[1])


class Rows(unittest.TestCase):
    def test_are_those_of_the_report(self):
        """In its second listing's order where the question sets a most, else in that order from its foot."""
        for folder in FOLDERS:
            with self.subTest(folder.name):
                listed = second_listing(folder)
                falling = read_texts(folder)[2].startswith((b"P < ", b"P <= "))
                page = example(folder.name)
                self.assertEqual(page.rows(), listed if falling else listed[::-1])
                worst = page.rows()[0]
                self.assertTrue(any(f"The worst is state {worst[0]} (" in words and f": {worst[3]}." in words for words in page.words("p")))

    def test_decimals_and_names(self):
        page = example("gun-string")
        self.assertEqual(page.words("td", "number"), [chance(lower, upper) for _, lower, upper, _ in page.rows()])
        names = dict(line.split(": ") for line in (EXAMPLES / "gun-string" / "states.txt").read_text().splitlines())
        self.assertEqual(page.words("td", "name"), [names[str(row[0])] for row in page.rows()])
        self.assertIn("Its depth is 52, the number of steps that it answers for.", " ".join(page.words("p")))

    def test_summary(self):
        words = " ".join(example("gun-string").words("p"))
        for told in ("Of 12 states 7 say yes, 5 say no and none is undecided.", "3 more states have the same interval.",
                     "in state 0 (collar good, gamma good, power up), with the chance 0.00215445\u2026: yes."):
            self.assertIn(told, words)
        self.assertEqual(example("gun-string").words("li")[6:9], ["7 yes", "5 no", "0 undecided"])

    def test_not_about_one_probability(self):
        """No chance is told, and the words say that the ends only repeat the verdict."""
        page = example("polling-3")
        self.assertEqual(page.all("td", "number"), [])
        self.assertIn("the ends only repeat the verdict; the depth is 0", " ".join(page.words("p")))

    def test_no_is_worse_than_undecided(self):
        """Where the ends of both begin at 0."""
        moves, labels = moves_text([(0, 0, 2), (0, 1, 1)]), labels_text([b"dead"], [[0], [1], [0]])
        page = Reader(asked(moves, labels, b"& ! dead P >= 333333334 X dead\n"))
        self.assertEqual([(state, verdict) for state, _, _, verdict in page.rows()], [(2, "no"), (1, "no"), (0, "undecided")])

    def test_where_labels_hold(self):
        told = example("gun-string").words("p")
        self.assertIn("lost holds in states 8, 9, 10, 11.", told)
        self.assertIn("power holds in states 0, 2, 4, 6, 8, 10.", told)
        many = Reader(asked(NO_MOVES, labels_text([b"a", b"b", b"c"], [(1, 0, s == 3) for s in range(30)]), b"& a & b & c a\n")).words("p")
        self.assertIn("a holds in states " + ", ".join(map(str, range(20))) + " and 10 more.", many)
        self.assertIn("b holds in no state.", many)
        self.assertIn("c holds in state 3.", many)

    def test_names_from_a_spreadsheet(self):
        """With quotes, separators and a byte order mark around them, or the number in a column of its own; a number twice shows both names."""
        with tempfile.TemporaryDirectory() as folder:
            (Path(folder) / "states.txt").write_bytes(b'\xef\xbb\xbf"0: both, good";;\r\n1;one out\r\n2,"none"\r\n1: twice\r\n')
            self.assertEqual(state_names(Path(folder)), {0: "both, good", 1: "one out / twice", 2: "none"})

    def test_without_names(self):
        page = Reader(asked(MOVES, LABELS, b"P < 5 U 8 up dead\n"))
        self.assertEqual((page.all("td", "name"), len(page.rows())), ([], 2))


class Curve(unittest.TestCase):
    def curves(self, page):
        """The points of each curve on a page; a curve begins where the hours do not rise."""
        found = []
        for hours, *row in (point.groups() for point in map(POINT.fullmatch, page.words("title")) if point):
            if not found or float(hours) <= float(found[-1][-1][0]):
                found.append([])
            found[-1].append([hours, *row])
        return found

    def test_points_are_answers(self):
        """Of the worst state, or of the worst whose interval does not reach 0 or 1 at every time; and of state 0, where that is worth a curve."""
        for name, formula, states, last, which in (
                ("gun-string", b"P <= 10000000 U %s power lost\n", (6, 0), "16.5", "of the others"),
                ("not-before-settled", b"P >= 990000000 V 2 %s power & collar gamma\n", (2, 0), "16.5", "of the others"),
                ("polling-3", b"P >= 900000000 U %s tt pollone\n", (35,), "106.13", "state")):
            with self.subTest(name):
                curves = self.curves(example(name))
                self.assertEqual(len(curves), len(states))
                for state, points in zip(states, curves):
                    self.assertIn(len(points), (25, 26))
                    self.assertEqual(points[-1][0], last)
                    for hours, *row in points[::12] + points[-1:]:
                        printed = run((*read_texts(EXAMPLES / name)[:2], formula % hours.encode())).decode()
                        lower, upper, _, verdict = next(found[1:] for found in LISTED.findall(printed) if int(found[0]) == state)
                        self.assertEqual(row, [lower, upper, verdict])
                self.assertIn(f"Drawn is the worst {which}, state {states[0]} (", " ".join(example(name).words("p")))

    def test_long_formula(self):
        """Hours with which the formula would be longer than it may are left out of the curve."""
        always = b"P <= 1000000000 X "
        formula = b"P < 500 U 1 " + always * 14 + b"up & dead " + always * 13 + b"up\n"
        self.assertEqual(len(formula), FORMULA_BYTES - 1)
        [points] = self.curves(Reader(asked(MOVES, LABELS, formula)))
        self.assertEqual([hours for hours, *_ in points], ["0", "1", "2"])

    def test_one_hour(self):
        """A question about how things are at one hour has a curve over that hour, and an axis that begins below the least of its chances."""
        page = Reader(asked(MOVES, LABELS, b"P >= 990000000 V 8 8 tt up\n"))
        _, *last, _, verdict = LISTED.search(run((MOVES, LABELS, b"P >= 990000000 V 16 16 tt up\n")).decode()).groups()
        self.assertIn("P >= 990000000 V t t tt up", page.words("code"))
        [points] = self.curves(page)
        self.assertEqual((points[0][0], points[-1]), ("0.01", ["16", *last, verdict]))
        self.assertTrue(any(words == "probability, from 0.99 on" for words in page.words("text")), page.words("text"))

    def test_hours(self):
        """From no time, or the first of two unless they are one hour, to twice the question's, within 8,760 hours and the load limit of a phase."""
        for typed, rate, first, last in (("U 8.25", 500, 0, 1650), ("U 0", 500, 0, 200_000), ("U 1", MOST_RATE, 0, 100),
                                         ("U 8760", 1, 0, MOST_HUNDREDTHS), ("V 2 8.25", 500, 200, 1650), ("V 0 8.25", 500, 0, 1650),
                                         ("V 1 2", MOST_RATE, 100, 200),
                                         ("V 1 1", MOST_RATE, 1, 100), ("V 72 72", 5, 1, 14_400), ("V 8760 8760", 1, 1, MOST_HUNDREDTHS),
                                         ("V 0 0", 500, 0, 200_000), ("U 0", MOST_RATE, 0, 1), ("U 0.01", 5, 0, 2)):
            with self.subTest(typed, rate=rate):
                path = read_formula(f"P < 5 {typed} tt a\n".encode()).path
                hours = hours_to_ask(path, rate)
                self.assertEqual((hours[0], hours[-1]), (first, last))
                self.assertIn(path.times[-1], hours)
                self.assertLessEqual(len(hours), 26)

    def test_no_curve(self):
        for job, told in (((MOVES, LABELS, b"P < 5 X dead\n"), "has no hours"), ((MOVES, LABELS, b"& up ! dead\n"), "not about a probability"),
                          ((NO_MOVES, LABELS, b"P < 5 U 8 up dead\n"), "nothing changes with time"),
                          ((MOVES, LABELS, b"P < 5 U 8 tt ! tt\n"), "reaches 0 at every time")):
            with self.subTest(told):
                page = Reader(asked(*job))
                self.assertEqual(page.all("svg", "curve"), [])
                self.assertTrue(any("There is no curve, since " in words and told in words for words in page.words("p")))


class Graph(unittest.TestCase):
    def arrows(self, page):
        told = re.compile(r"(\d+) to (\d+): ([0-9,]+) per million hours")
        found = [told.fullmatch(words) for words in page.words("title")]
        return {(int(one[1]), int(one[2])): int(one[3].replace(",", "")) for one in found if one}

    def test_states_and_moves(self):
        """Every state once, in the colour of its verdict, and every pair of states with the sum of its rates."""
        page = example("after-workshop")
        moves = [tuple(map(int, line.split(","))) for line in read_texts(EXAMPLES / "after-workshop")[0].decode().splitlines()[1:]]
        rates = {(a, b): sum(rate for c, d, rate in moves if (a, b) == (c, d)) for a, b, _ in moves}
        self.assertEqual(self.arrows(page), rates)
        self.assertEqual(sorted(page.words("text", "rate")), sorted(f"{rate:,}" for rate in rates.values()))
        self.assertEqual(sorted(page.words("text", "state"), key=int), list(map(str, range(12))))
        verdicts = [row[3] for row in page.rows()]
        self.assertEqual({word: len(page.all("g", word)) for word in ("yes", "no")}, {word: verdicts.count(word) for word in ("yes", "no")})
        self.assertEqual((len(page.all("rect", "worst")), len(page.all("path", "begin"))), (1, 1))

    def test_own_state(self):
        page = example("first-fault")
        self.assertEqual([rate for (a, b), rate in self.arrows(page).items() if a == b], [1300] * 6)

    def test_many_states(self):
        """40 are drawn, with numbers alone, and 41 are not."""
        for states, drawn in ((40, 1), (41, 0)):
            page = Reader(asked(moves_text([(0, 1, 5)]), labels_text([b"up"], [[1]] * states), b"up\n"))
            self.assertEqual((len(page.all("svg", "graph")), len(page.all("text", "rate"))), (drawn, 0))
        self.assertIn("the sheet has 41 states and over 40 are not drawn", " ".join(page.words("p")))

    def test_no_line_through_a_state(self):
        for name in ("gun-string", "tandem-2"):
            moves = [tuple(map(int, line.split(",")))[:2] for line in read_texts(EXAMPLES / name)[0].decode().splitlines()[1:]]
            cells = cells_of(max(map(max, moves)) + 1, moves)
            self.assertEqual(len(set(cells)), len(cells))
            self.assertFalse(any(through(cells[a], cells[b], cell) for a, b in moves for cell in cells), name)

    def test_one_state(self):
        page = Reader(asked(moves_text([(0, 0, 7)]), labels_text([b"up"], [[1]]), b"P > 5 X up\n"))
        self.assertEqual(self.arrows(page), {(0, 0): 7})
        self.assertIn("Of 1 state 1 says yes, 0 say no and none is undecided.", page.words("p"))


class Command(unittest.TestCase):
    def called(self, *words, out=subprocess.PIPE):
        done = subprocess.run([TOOLS / "page", *words], stdout=out, stderr=subprocess.PIPE)
        return done.returncode, done.stdout, done.stderr.decode()

    def test_report(self):
        status, page, said = self.called(EXAMPLES / "small")
        self.assertEqual((status, page.decode(), said), (0, text_of("small"), ""))

    def test_refusal(self):
        """The number and the program's sentence for it; where the fault is, as another command says it."""
        with tempfile.TemporaryDirectory() as folder:
            status, page, said = self.called(refused_sheet(folder))
            self.assertEqual((status, said), (1, ""))
            self.assertIn("refused with 10", Reader(page.decode()).words("strong"))
            self.assertIn("Refused, since formula.txt breaks the grammar.", Reader(page.decode()).words("p"))
            fault = Path(folder) / "fault"
            fault.write_text("import sys\nprint(f'formula.txt, token 5: \"8.50\" <{sys.argv[2]}>')\n")
            self.addCleanup(setattr, COMMAND, "FAULT", COMMAND.FAULT)
            COMMAND.FAULT = fault
            self.assertEqual(Reader(page_of(Path(folder) / "wrong-hours")[1]).words("li"), ['formula.txt, token 5: "8.50" <10>'])
            COMMAND.FAULT = Path(folder) / "none"
            self.assertEqual(Reader(page_of(Path(folder) / "wrong-hours")[1]).words("li"), [])

    def test_empty_folder_is_refused(self):
        with tempfile.TemporaryDirectory() as folder:
            self.assertIn("refused with 1<", page_of(folder)[1])

    def test_wrong_use(self):
        for words in ([], [EXAMPLES / "none"], [EXAMPLES / "README.md"], [EXAMPLES / "small", EXAMPLES / "small"], ["--wrong", EXAMPLES / "small"]):
            status, page, said = self.called(*words)
            self.assertEqual((status, page), (2, b""))
            self.assertIn("usage: ", said)

    def test_broken_report(self):
        """A report that breaks off makes no page."""
        with tempfile.TemporaryDirectory() as folder:
            cut = Path(folder) / "cut"
            cut.write_text("#!/bin/sh\nprintf 'state,lower,upper,depth,verdict\\n0,0,0,40,no\\n1,1,1,40,no\\n"
                           "state,lower,upper,depth,verdict\\n1,1,1,40,no\\n'\n")
            cut.chmod(0o755)
            done = subprocess.run([TOOLS / "page", "--program", cut, EXAMPLES / "small"], capture_output=True, text=True)
            self.assertEqual((done.returncode, done.stdout), (3, ""))
            self.assertIn("not whole", done.stderr)

    def test_not_written(self):
        """No program, a program that prints no report, a full disk."""
        for program in ("/nowhere/program", "/bin/true"):
            status, page, said = self.called(EXAMPLES / "small", "--program", program)
            self.assertEqual((status, page), (3, b""))
            self.assertIn("page: ", said)
        with open("/dev/full", "wb") as full:
            self.assertEqual(self.called(EXAMPLES / "small", out=full)[0], 3)


if __name__ == "__main__":
    unittest.main()
