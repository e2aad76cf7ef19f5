"""docs/MANUAL.md: its limits, rates, hours, formulas, answers and refusals are those of the rules and of the program."""
import re
import unittest
from fractions import Fraction
from math import exp, floor

from reckoning import limits
from reckoning.__main__ import FILES
from reckoning.copying import SHORT_COPY
from reckoning.faults import faults
from reckoning.faults.prism import as_here
from reckoning.formula import COMPARISONS, read_formula
from reckoning.refusal import BY_TEXTS, SHORT, Job, refusal
from reckoning.report import refused
from reckoning.sheets import FORMULA as SMALL_FORMULA, LABELS as SMALL_LABELS, MOVES as SMALL_MOVES, moves_text
from reckoning.verdict import NO, UNDECIDED, YES
from tests.edges import pairs
from tests.places import ROOT
from tests.program import run
from tests.tables import CODE, code, numbers, table
from tests.two_gauges import FORMULA, LABELS, MOVES, chances, recipe, rows

TEXT = (ROOT / "docs" / "MANUAL.md").read_text()
LINK = re.compile(r"\d+\. \[(.+)\]\(#(.+)\)")
HEADING = re.compile(r"^## (\d+\. .+)$", re.MULTILINE)
SAMPLE = re.compile(r"^( +)\$ \./sheetcheck my-string\n((?:\1.+\n)+)", re.MULTILINE)
RECKONED = re.compile(r"([\d,.]+(?: [-+×/] [\d,.]+)+) = ([\d,.]*\d)")
PLACE = re.compile(r"`([a-z]+\.txt)` ?(\d*)")
COUNT = re.compile(r"([\d,]+) times")
COLUMN = 20                         # how wide a column of the small sheet is shown

# Each limit as the manual names it: the number, and the job of `edges` that passes it.
LIMITS = {
    "bytes of `moves.txt`": (limits.SHEET_BYTES, "bytes of moves"),
    "bytes of `labels.txt`": (limits.SHEET_BYTES, "bytes of labels"),
    "bytes of `formula.txt`": (limits.FORMULA_BYTES, "formula bytes"),
    "states, of which there is at least one": (limits.MOST_STATES, "states"),
    "lines of moves": (limits.MOST_MOVES, "moves"),
    "labels": (limits.MOST_NAMES, "names"),
    "letters of a label": (limits.MOST_LETTERS, "letters"),
    "digits of a number in `moves.txt` or `labels.txt`": (limits.SHEET_DIGITS, "digits in moves"),
    "digits of a number in `formula.txt`, before a point": (limits.FORMULA_DIGITS, "digits in the formula"),
    "rates out of a state, to itself too, added up": (limits.MOST_RATE, "rates with a restart"),
    "threshold, in billionths": (limits.MOST_THRESHOLD, "threshold"),
    "hours": (limits.MOST_HUNDREDTHS // limits.HOUR, "hours"),
    "decimals of hours": (len(str(limits.HOUR)) - 1, "decimals"),
    "nodes of the formula": (limits.MOST_NODES, "nodes"),
    "levels of the formula": (limits.MOST_LEVELS, "levels"),
    "hours times the greatest sum of rates out of a state to others (section 6)": (limits.MOST_RATE_HUNDREDTHS // limits.HOUR, "load by one"),
}
RECIPES = "question", "PRISM", "`formula.txt`", "chance at 0", "yes at"
UNITS = {"minute": Fraction(1, 60), "hour": 1, "day": 24}           # in hours
MEANINGS = {"f": "reading", "g": "lost", "p": "10000000", "s": "24", "t": "72"}


def value(expression):
    """What an expression comes to, from left to right, as a fraction."""
    first, *others = expression.replace(",", "").split(" ")
    total = Fraction(first)
    for sign, number in zip(others[::2], map(Fraction, others[1::2])):
        total = {"+": total + number, "-": total - number, "×": total * number, "/": total / number if number else None}[sign]
    return total


def shown(number, like):
    """A number with as many decimals as another is written with, and with commas between thousands."""
    return f"{float(number):,.{len(like.partition('.')[2])}f}"


class Contents(unittest.TestCase):
    def test_links(self):
        headings = HEADING.findall(TEXT)
        self.assertEqual([f"{at}. {title}" for at, (title, _) in enumerate(LINK.findall(TEXT), 1)], headings)
        self.assertEqual([to for _, to in LINK.findall(TEXT)], [re.sub(r"[^a-z0-9 ]", "", each.lower()).replace(" ", "-") for each in headings])

    def test_names_what_is_there(self):
        for path in re.findall(r"(?:docs|examples|library|tools)/(?:[\w-]+(?:\.[a-z]+)?)?", TEXT):
            self.assertTrue((ROOT / path).exists(), path)

    def test_sample(self):
        indent, printed = SAMPLE.search(TEXT).groups()
        self.assertEqual(re.sub(f"(?m)^{indent}", "", printed).encode(), run((MOVES, LABELS, FORMULA)))


class Numbers(unittest.TestCase):
    def test_limits(self):
        found = {limit: (int(numbers(most)[0]), int(number)) for limit, most, number in table(TEXT, "limit", "most", "over it")}
        edges = pairs()
        self.assertEqual(found, {limit: (most, refusal(*edges[edge][1])) for limit, (most, edge) in LIMITS.items()})

    def test_reckonings(self):
        """Every `a / b = c` on the page, to the decimals that c is written with."""
        found = RECKONED.findall(TEXT)
        self.assertGreater(len(found), 15)
        for expression, result in found:
            with self.subTest(expression):
                self.assertEqual(shown(value(expression), result), result)

    def test_rates(self):
        """Each rate is what was reckoned, rounded up, and that of a repair rounded down."""
        checked = 0
        for known, reckoning, rate in table(TEXT, "what is known", "reckoning", "rate"):
            exact = [value(expression) for expression, _ in RECKONED.findall(reckoning)]
            whole = [floor(each) if "repair" in known else -floor(-each) for each in exact]
            typed = [int(number) for number in numbers(CODE.sub("", rate))]
            with self.subTest(known):
                self.assertEqual(typed[:len(whole)] or whole, whole)
            checked += bool(typed and whole)
        self.assertGreater(checked, 12)

    def test_exponential_times(self):
        for hours, cases in ((4, 135), (10, 7)):
            self.assertEqual(round(1_000 * exp(-hours / 2)), cases)
        self.assertIn("more than four hours in 135 of 1,000 cases, and more than ten hours in 7", TEXT)

    def test_other_units(self):
        """All rates times 100 and all hours divided by it: the same report."""
        head, *lines = MOVES.splitlines(keepends=True)
        scaled = head + b"".join(line[:-1] + b"00\n" for line in lines)
        self.assertEqual(run((scaled, LABELS, FORMULA.replace(b"U 72 ", b"U 0.72 "))), run((MOVES, LABELS, FORMULA)))
        self.assertIn("`U 0.72` asks about 72 hours", TEXT)
        self.assertIn(f"no mean stay may be under {100 * limits.RATE_HOURS / limits.MOST_RATE}", TEXT)

    def test_thresholds(self):
        found = table(TEXT, "chance", "threshold")
        self.assertGreater(len(found), 5)
        for chance, threshold in found:
            self.assertEqual(Fraction(numbers(chance)[0]) * limits.BILLION, int(code(threshold)))


class Formulas(unittest.TestCase):
    def test_forms(self):
        """Each form, with each comparison, is accepted once letters are replaced by what they stand for."""
        forms = [code(form) for form, _ in table(TEXT, "form", "holds in a state where")]
        self.assertEqual({form.split(" ")[3][0] for form in forms if form.startswith("P")}, {"U", "V", "X"})
        for form in forms:
            words = [MEANINGS.get(word, word) for word in form.split(" ")]
            for comparison in map(bytes.decode, COMPARISONS):
                self.assertIn(f"`{comparison}`", TEXT)
                typed = " ".join(words).replace("<=", comparison).encode() + b"\n"
                self.assertIsInstance(refusal(MOVES, LABELS, typed), Job, typed)

    def test_hours(self):
        for typed, good in ((b"8", True), (b"8.5", True), (b"8.25", True), (b"8.50", False)):
            self.assertIn(f"`{typed.decode()}`", TEXT)
            self.assertEqual(read_formula(b"P < 1 U %s tt tt\n" % typed) is not None, good)

    def test_recipes(self):
        found = table(TEXT, *RECIPES)
        self.assertGreater(len(found), 15)
        for question, _, *answer in found:
            with self.subTest(question):
                self.assertEqual(*recipe(question, *answer))

    def test_prism(self):
        """What is offered for PRISM's formula of a recipe has the same verdicts as the recipe, and mostly the same text."""
        found = [(as_here(code(prism).encode()), code(formula)) for _, prism, formula, *_ in table(TEXT, *RECIPES)]
        offered = [pair for pair in found if pair[0]]
        self.assertGreater(len(offered), 10)
        self.assertGreater(sum(here == formula for here, formula in offered), len(offered) / 2)
        for here, formula in offered:
            self.assertEqual([row.verdict for row in rows(here)], [row.verdict for row in rows(formula)], formula)

    def test_any_time(self):
        """Whether a thing can happen at all does not depend on the hours."""
        for hours in ("0.01", "1", "636.68"):
            self.assertEqual([row.verdict for row in rows(f"P > 0 U {hours} tt both")], [YES, YES, YES, NO])


class Load(unittest.TestCase):
    def test_hours(self):
        found = table(TEXT, "mean stay in the state left fastest", "q", "most hours")
        self.assertGreater(len(found), 5)
        for stay, q, hours in found:
            mean, unit = stay.split(" ")
            [rate], [most] = numbers(q), numbers(hours)
            with self.subTest(stay):
                self.assertEqual(shown(limits.RATE_HOURS / Fraction(rate) / UNITS[unit.rstrip("s")], mean), mean)
                self.assertEqual(limits.most_hundredths(int(rate)), Fraction(most) * limits.HOUR)

    def test_two_gauges(self):
        q = refusal(MOVES, LABELS, FORMULA).chain.q
        self.assertIn(f"q is {q:,}, out of state 1, and allows {limits.most_hundredths(q) / limits.HOUR:.2f} hours", TEXT)

    def test_moves_that_do_not_matter(self):
        without = MOVES.replace(b"2,1,100000\n", b"")
        self.assertEqual(run((without, LABELS, FORMULA)), run((MOVES, LABELS, FORMULA)))

    def test_split_time(self):
        """Half of the time and then the other half: the same where both are allowed, with `tt` and with another first operand; twice the hours."""
        without = MOVES.replace(b"2,1,100000\n", b"")
        for first, either in (("tt", "tt"), ("both", "! & ! both ! lost")):
            whole, split = chances(f"P <= 5 U 600 {first} lost", 8, without), chances(f"P <= 5 V 250 600 {either} lost", 8, without)
            self.assertEqual(split, whole)
        self.assertEqual(refusal(without, LABELS, b"P <= 5 U 1000 tt lost\n"), 14)
        self.assertEqual(chances("P <= 5 V 500 1000 tt lost", 5, without)[0], "0.11585")
        self.assertIn("`V 500 1000 tt lost` is the question `U 1000 tt lost`, which is refused: 0.11585 |", TEXT)

    def test_slower_repairs(self):
        asked = FORMULA.decode().rstrip("\n")
        slower = chances(asked, 5, MOVES.replace(b",100000\n", b",50000\n"))
        self.assertIn(f"with restarts in 20 hours (50000) {slower[0]} in the place of {chances(asked, 5)[0]}", TEXT)
        self.assertTrue(all(slow >= exact for slow, exact in zip(slower, chances(asked, 5))))

    def test_without_the_fast_state(self):
        """Moves from state 0 to where state 1 leads, each with its share of the rates out of it."""
        out = {0: 100_000, 2: 400 + 20, 3: 100}
        rates = {to: 800 * Fraction(out[to], sum(out.values())) for to in (2, 3)}
        fewer = [(0, 2, 20 - floor(-rates[2])), (0, 3, 100 - floor(-rates[3]))]
        for move in fewer:
            self.assertIn("`{},{},{}`".format(*move), TEXT)
        found = chances(FORMULA.decode().rstrip("\n"), 5, moves_text(fewer))[0]
        self.assertIn(f"then {found}, with q {sum(rate for *_, rate in fewer)}", TEXT)
        self.assertGreater(found, chances(FORMULA.decode().rstrip("\n"), 5)[0])

    def test_parts_of_the_time(self):
        """Three times the chance within 24 hours: the worst of the states where it has not happened yet is safe, that of state 0 is not."""
        whole, part = chances("P <= 5 U 72 tt lost", 5)[0], chances("P <= 5 U 24 tt lost", 5)
        for state, safe in ((1, True), (0, False)):
            product = f"{3 * float(part[state]):.5f}"
            self.assertIn(f"3 × {part[state]} = {product}", TEXT)
            self.assertEqual(product > whole, safe)


class Report(unittest.TestCase):
    def test_undecided(self):
        """The rows that the manual shows are printed, and are undecided."""
        for _, looks, _ in table(TEXT, "cause", "how it looks", "what to do"):
            formula, row = CODE.findall(looks)
            self.assertIn(row.encode(), run((MOVES, LABELS, formula.encode() + b"\n")).splitlines())
            self.assertTrue(row.endswith(UNDECIDED))

    def test_other_thresholds(self):
        self.assertIn("with 8797530 it is yes, with 8797500 no", TEXT)
        for threshold, verdict in ((8797530, YES), (8797500, NO)):
            self.assertEqual(rows(f"P <= {threshold} U 72 tt lost")[0].verdict, verdict)

    def test_by_the_moves(self):
        formula, row = re.search(r"is: `(P > 0 [^`]+)` has `([^`]+)`", TEXT).groups()
        self.assertIn(row.encode(), run((MOVES, LABELS, formula.encode() + b"\n")).splitlines())


def said(job):
    """What the command says on standard error of where the fault of a refused job is, one sentence in these examples."""
    [sentence] = faults(Job(*job))
    return sentence


def with_line(text, number, line, times):
    """A text whose line of this number is replaced, perhaps by many."""
    lines = text.splitlines(keepends=True)
    lines[number - 1:number] = times * [line + b"\n"]
    return b"".join(lines)


def changed(where, becomes):
    """The small sheet with the change of a row: lines of files that become others, or a file that becomes empty."""
    texts = dict(zip(FILES, (SMALL_MOVES, SMALL_LABELS, SMALL_FORMULA)))
    lines, count = CODE.findall(becomes), COUNT.search(becomes)
    times = int(count[1].replace(",", "")) if count else 1
    for (name, number), line in zip(PLACE.findall(where), lines or [None]):
        texts[name] = with_line(texts[name], int(number), line.encode().decode("unicode_escape").encode("latin-1"), times) if line else b""
        if "without line feed" in becomes:
            texts[name] = texts[name][:-1]
    return tuple(texts.values())


class Refusals(unittest.TestCase):
    rows = table(TEXT, "No.", "file, line", "becomes", "standard error", "cure")

    def test_every_number(self):
        found = [int(number) for number, *_ in self.rows]
        self.assertEqual((found, set(found)), (sorted(found), BY_TEXTS))
        self.assertEqual(set(range(1, 18)) - BY_TEXTS, {7, 8, SHORT, SHORT_COPY})
        self.assertRegex(TEXT, rf"(?m)^7 and 8, .* no more. {SHORT}, .* and {SHORT_COPY}, .* by the library alone")

    def test_small_sheet(self):
        """The three texts stand beside each other."""
        names, *lines = re.search(r"((?:    .+\n)+)\n\| No\. ", TEXT)[1].splitlines()
        for at, (name, text) in enumerate(zip(FILES, (SMALL_MOVES, SMALL_LABELS, SMALL_FORMULA))):
            start = 4 + at * COLUMN
            stop = start + COLUMN if at < 2 else None
            self.assertEqual(names[start:stop].strip(), name)
            self.assertEqual([line[start:stop].strip() for line in lines if line[start:stop].strip()], text.decode().splitlines())

    def test_numbers(self):
        """Each change of the small sheet earns its number, by the rules and by the program."""
        for number, where, becomes, *_ in self.rows:
            with self.subTest(becomes):
                job = changed(where, becomes)
                self.assertEqual((refusal(*job), run(job)), (int(number), refused(int(number))))

    def test_sentences(self):
        for _, where, becomes, sentence, _ in self.rows:
            with self.subTest(becomes):
                self.assertEqual(said(changed(where, becomes)), code(sentence))


if __name__ == "__main__":
    unittest.main()
