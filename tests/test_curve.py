"""tools/curve: the picture is well-formed and shows what was printed; no picture, and the reason, where there is none to draw."""
import io
import re
import shlex
import subprocess
import sys
import tempfile
import unittest
from contextlib import redirect_stderr, redirect_stdout
from pathlib import Path
from xml.etree import ElementTree

from reckoning.__main__ import read_texts
from reckoning.judge import judge
from reckoning.limits import BILLION, FORMULA_BYTES
from reckoning.report import read_report
from reckoning.sheets import FAST_MOVES, LABELS, MOVES, REPORT_LINE
from reckoning.tests.chains import row, texts
from tests.places import EXAMPLES, FOLDERS, ROOT
from tests.program import put
from tests.standin import answer
from tests.tools import TOOLS, loaded

STANDIN = shlex.join(["env", f"PYTHONPATH={ROOT}", sys.executable, "-m", "tests.standin"])
SVG = "{http://www.w3.org/2000/svg}"
PIXEL = 0.02                # coordinates are rounded to a hundredth
COMMAND = loaded("curve")


def curve(*arguments, run=STANDIN):
    """The status of the command, what it drew and what it said."""
    with redirect_stdout(io.StringIO()) as drawn, redirect_stderr(io.StringIO()) as said:
        try:
            status = COMMAND.main([*map(str, arguments), "--run", run])
        except SystemExit as stop:
            status = stop.code
    return status, drawn.getvalue(), said.getvalue()


class Picture:
    """A drawn picture, read back by its ticks."""

    def __init__(self, drawn):
        self.tree = ElementTree.fromstring(drawn)

    def all(self, tag, kind):
        return [part for part in self.tree.iter(SVG + tag) if part.get("class") == kind]

    def words(self):
        return [part.text for part in self.tree.iter(SVG + "text")]

    def scale(self, axis):
        """How many pixels a unit has on an axis, and where 0 lies."""
        ticks = self.all("text", axis)
        first, last = ticks[0], ticks[-1]
        below = 5 if axis == "y" else 0     # the words stand a little below their tick
        pixels = [float(tick.get(axis)) - below for tick in (first, last)]
        unit = (pixels[1] - pixels[0]) / (float(last.text) - float(first.text))
        return unit, pixels[0] - float(first.text) * unit

    def places(self, kind):
        """The places of a curve, in pixels."""
        line, = self.all("polyline", kind)
        return [tuple(map(float, pair.split(","))) for pair in line.get("points").split()]

    def marks(self):
        """The numbers told at each point: hours, lower, upper and verdict."""
        told = [part.find(SVG + "title") for part in self.tree.iter(SVG + "g")]
        pattern = re.compile(r"(\S+) hours: lower (\d+), upper (\d+) billionths, (\w+)")
        return [pattern.fullmatch(part.text).groups() for part in told if part is not None]


class Curve(unittest.TestCase):
    def drawn(self, *arguments):
        status, picture, said = curve(*arguments)
        self.assertEqual((status, said), (0, ""))
        return Picture(picture)

    def shows(self, picture, rows):
        """The picture shows these rows of reports, given by their hours."""
        (x_unit, x_zero), (y_unit, y_zero) = picture.scale("x"), picture.scale("y")
        for kind in ("lower", "upper"):
            for (x, y), (hours, row) in zip(picture.places(kind), rows.items(), strict=True):
                self.assertAlmostEqual(x, x_zero + x_unit * float(hours), delta=PIXEL)
                self.assertAlmostEqual(y, y_zero + y_unit * getattr(row, kind) / BILLION, delta=PIXEL)
        self.assertEqual(picture.marks(), [(str(hours), str(row.lower), str(row.upper), row.verdict) for hours, row in rows.items()])

    def rows(self, folder, formula, hours, state):
        """The rows of one state as the stand-in prints them; the formula has %s for the hours."""
        moves, labels, _ = read_texts(folder)
        printed = {each: answer(moves, labels, formula % str(each).encode()) for each in hours}
        states = len(labels.splitlines()) - 1
        return {each: read_report(text, states)[state] for each, text in printed.items()}

    def test_shows_the_ends(self):
        folder = EXAMPLES / "gun-string"
        picture = self.drawn(folder, "0", "8", "24", "48")
        self.shows(picture, self.rows(folder, b"P <= 10000000 U %s power lost\n", (0, 8, 24, 48), 0))
        for words in ("gun-string", "state 0: collar good, gamma good, power up", "P <= 10000000 U t power lost",
                      "hours", "probability", "lower end", "upper end", "threshold 0.01"):
            self.assertIn(words, picture.words())

    def test_quarter_hours(self):
        """As `seq` types them, with two decimals each, or however else."""
        folder = EXAMPLES / "gun-string"
        picture = self.drawn(folder, "8.00", "8.25", "8.50", "8.750", "09")
        self.shows(picture, self.rows(folder, b"P <= 10000000 U %s power lost\n", (8, "8.25", "8.5", "8.75", 9), 0))

    def test_every_state(self):
        """Each state has the row of its own number, not the one that stands at its place in the second listing."""
        folder, states = EXAMPLES / "gun-string", range(12)
        rows = [self.rows(folder, b"P <= 10000000 U %s power lost\n", (8,), state) for state in states]
        self.assertNotEqual(rows, sorted(rows, key=lambda row: -row[8].lower))
        for state in states:
            self.shows(self.drawn(folder, "8", "--state", state), rows[state])

    def test_threshold(self):
        picture = self.drawn(EXAMPLES / "gun-string", "8", "48")
        unit, zero = picture.scale("y")
        heights = {float(line.get("y1")) for line in picture.all("line", "threshold")[1:]}
        self.assertEqual({round(height, 1) for height in heights}, {round(zero + unit * 0.01, 1)})
        far = self.drawn(EXAMPLES / "gun-string", "0", "1")
        self.assertEqual(len(far.all("line", "threshold")), 1)
        self.assertIn("threshold 0.01, above this picture", far.words())

    def test_inner_hours_stay(self):
        folder = EXAMPLES / "redundant-string"
        picture = self.drawn(folder, "72", "12", "12", "--state", "32")
        formula = b"P <= 150000000 U %s & power modem P > 2000000 U 8 & power modem ! depth\n"
        self.shows(picture, self.rows(folder, formula, (12, 72), 32))

    def test_until_under_an_implication(self):
        folder = EXAMPLES / "polling-3"
        picture = self.drawn(folder, "50", "100", "--state", "17")
        self.shows(picture, self.rows(folder, b"P >= 900000000 U %s tt pollone\n", (50, 100), 17))

    def test_ends_apart(self):
        """An undecided operand drives the ends apart."""
        with tempfile.TemporaryDirectory() as folder:
            put((*texts(row(60, 20_000)), b"P >= 600000000 U 5 tt P >= 1 U 1 up dead\n"), folder)
            picture = self.drawn(folder, "100", "300", "--state", "50")
            self.shows(picture, self.rows(folder, b"P >= 600000000 U %s tt P >= 1 U 1 up dead\n", (100, 300), 50))
            self.assertIn("state 50", picture.words())

    def test_next_move_within_an_until(self):
        """Only the until's hours are replaced; restarts are among the moves."""
        folder = EXAMPLES / "first-fault"
        with tempfile.TemporaryDirectory() as copy:
            moves, labels, _ = read_texts(folder)
            put((moves, labels, b"P <= 10000000 U 8.25 power P > 300000000 X ! collar\n"), copy)
            picture = self.drawn(copy, "8", "24.5", "48")
            self.shows(picture, self.rows(folder, b"P <= 10000000 U %s power P > 300000000 X ! collar\n", (8, "24.5", 48), 0))
            self.assertIn("P <= 10000000 U t power P > 300000000 X ! collar", picture.words())

    def asking(self, formula):
        """A folder with the gun string and another formula."""
        folder = tempfile.TemporaryDirectory()
        self.addCleanup(folder.cleanup)
        put((*read_texts(EXAMPLES / "gun-string")[:2], formula), folder.name)
        return folder.name

    def test_second_time(self):
        """Of a `V` the second time is replaced, from the first on; the first stays, and so do those further in."""
        folder = self.asking(b"P <= 10000000 V 2 8.25 power lost\n")
        picture = self.drawn(folder, "8.25", "2", "2.5", "48")
        self.shows(picture, self.rows(folder, b"P <= 10000000 V 2 %s power lost\n", (2, "2.5", "8.25", 48), 0))
        self.assertIn("P <= 10000000 V 2 t power lost", picture.words())
        folder = self.asking(b"! P <= 10000000 V 0.25 9 power P > 5 V 2 3 power lost\n")
        picture = self.drawn(folder, "1", "0.25", "--state", "6")
        self.shows(picture, self.rows(folder, b"P <= 10000000 V 0.25 %s power P > 5 V 2 3 power lost\n", ("0.25", 1), 6))

    def test_first_time_0(self):
        """It is drawn as the until is, from no time on."""
        folder = self.asking(b"P <= 10000000 V 0 8.25 power lost\n")
        picture = self.drawn(folder, "0", "8", "24")
        self.shows(picture, self.rows(EXAMPLES / "gun-string", b"P <= 10000000 U %s power lost\n", (0, 8, 24), 0))

    def test_possible(self):
        """With the threshold 0 the moves decide: no with no time, yes with some, though the ends are 0 and 1 there."""
        folder = EXAMPLES / "whole-again"
        picture = self.drawn(folder, "0", "0.25", "8", "--state", "15")
        self.shows(picture, self.rows(folder, b"P > 0 U %s & power modem whole\n", (0, "0.25", 8), 15))
        self.assertEqual([mark[3] for mark in picture.marks()], ["no", "yes", "yes"])
        self.assertEqual(picture.marks()[1][1:3], ("0", "1"))
        self.assertIn("threshold 0", picture.words())

    def test_one_point_and_flat_curves(self):
        with tempfile.TemporaryDirectory() as folder:
            put((MOVES, LABELS, b"P >= 0 U 0 up dead\n"), folder)
            self.shows(self.drawn(folder, "0"), self.rows(folder, b"P >= 0 U %s up dead\n", (0,), 0))
            self.shows(self.drawn(folder, "5", "--state", "1"), self.rows(folder, b"P >= 0 U %s up dead\n", (5,), 1))

    def test_written_to_a_file(self):
        with tempfile.TemporaryDirectory() as folder:
            out = Path(folder) / "curve.svg"
            self.assertEqual(curve(EXAMPLES / "small", "1", "2", "--out", out), (0, "", ""))
            given = [TOOLS / "curve", "--run", STANDIN, EXAMPLES / "small", "2", "1"]
            self.assertEqual(out.read_bytes(), subprocess.run(given, stdout=subprocess.PIPE, check=True).stdout)


class NoPicture(unittest.TestCase):
    def refuses(self, said, *arguments, **more):
        status, picture, told = curve(*arguments, **more)
        self.assertEqual((status, picture), (1, ""))
        self.assertIn(said, told)

    def test_refusal(self):
        self.refuses("refused with 14 at 110 h", EXAMPLES / "polling-3", "100", "110")
        self.refuses("refused with 13 at 9000 h", EXAMPLES / "small", "9000")
        with tempfile.TemporaryDirectory() as folder:
            put((FAST_MOVES, LABELS, b"P >= 5 V 0.5 1 up dead\n"), folder)
            self.refuses("refused with 14 at 1.51 h", folder, "1.5", "1.51")
        with tempfile.TemporaryDirectory() as folder:
            put((MOVES, LABELS, b"P >= 5 U 2 up gas\n"), folder)
            out = Path(folder) / "curve.svg"
            self.refuses("refused with 12 at 1 h", folder, "1", "--out", out)
            self.assertFalse(out.exists())

    def test_formula(self):
        for formula, said in ((b"& up ! dead\n", "no until"), (b"", "grammar"), (b"P >=\n", "grammar"), (b"P >= 5 W 2 up dead\n", "grammar"),
                              (b"P >= 5 U 2 up\n", "grammar"), (b"P >= 5 U 2 up  dead\n", "grammar"), (b"\xff\n", "grammar"),
                              (b"P >= 5 U 2 up dead dead\n", "grammar"), (b"! " * FORMULA_BYTES + b"up\n", "byte limit")):
            with self.subTest(formula), tempfile.TemporaryDirectory() as folder:
                put((MOVES, LABELS, formula), folder)
                self.refuses(said, folder, "1")

    def test_next_move(self):
        """`X` at the outermost place has no hours: wrong use, as wrong arguments are, whatever is asked within it or under `!`."""
        for formula in (b"P <= 120000000 X ! collar\n", b"! P > 5 X power\n", b"P > 5 X P <= 10000000 U 8 power lost\n"):
            with self.subTest(formula), tempfile.TemporaryDirectory() as folder:
                moves, labels, _ = read_texts(EXAMPLES / "first-fault")
                put((moves, labels, formula), folder)
                out = Path(folder) / "curve.svg"
                status, picture, told = curve(folder, "8", "--out", out)
                self.assertEqual((status, picture), (2, ""))
                self.assertIn("`X` has no hours", told)
                self.assertFalse(out.exists())
        self.assertEqual(curve(EXAMPLES / "first-fault", "8")[0], 2)

    def test_before_the_first_time(self):
        """Hours before the first time of a `V` are wrong use, even beside others, and whatever its second time is."""
        for typed, hours in ((b"2 8.25", ("1.99",)), (b"2 8.25", ("48", "0", "2")), (b"0.02 1", ("0.01",))):
            with self.subTest(typed, hours=hours), tempfile.TemporaryDirectory() as folder:
                put((*read_texts(EXAMPLES / "gun-string")[:2], b"P <= 10000000 V %s power lost\n" % typed), folder)
                out = Path(folder) / "curve.svg"
                status, picture, told = curve(folder, *hours, "--out", out)
                self.assertEqual((status, picture), (2, ""))
                first = typed.split()[0].decode()
                self.assertIn(f"{min(hours, key=float)} h is before the first time of `P <= 10000000 V {first} t power lost`", told)
                self.assertFalse(out.exists())

    def test_sheet_and_state(self):
        self.refuses("No such file", EXAMPLES / "none", "1")
        for state in range(2, 8):
            self.refuses(f"no state {state}", EXAMPLES / "small", "1", "--state", state)

    def test_program(self):
        self.refuses("cannot run", EXAMPLES / "small", "1", run="/nowhere/program")
        self.refuses("printed no report", EXAMPLES / "small", "1", run="echo")
        self.refuses("printed no report", EXAMPLES / "small", "1", run="echo refused")
        short = shlex.join(["printf", REPORT_LINE.decode() + "0,1\n%.0s"])
        self.refuses("no state 0", EXAMPLES / "small", "1", run=short)

    def test_arguments(self):
        for given in (("x",), ("-1",), ("1e3",), ("8.125",), ("8.",), (".5",), ("1", "--state", "up"), ()):
            with self.subTest(given):
                self.assertEqual(curve(EXAMPLES / "small", *given)[0], 2)


class Standin(unittest.TestCase):
    def test_prints_what_the_rules_allow(self):
        for folder in FOLDERS:
            with self.subTest(folder.name):
                sheet = read_texts(folder)
                self.assertEqual(judge(*sheet, answer(*sheet)), [])

    def test_refuses(self):
        self.assertEqual(answer(MOVES, LABELS, b"gas\n"), b"refused\n12\n")


if __name__ == "__main__":
    unittest.main()
