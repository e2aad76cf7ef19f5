"""The example sheets: as the generator writes them, accepted, and what the rules allow agrees with doubles and with the README files."""
import re
import subprocess
import unittest

from examples.generate import SHEETS, texts
from reckoning.__main__ import read_texts
from reckoning.backing import near_operands
from reckoning.chain import depth
from reckoning.copying import copied
from reckoning.ends import Rules, verdicts
from reckoning.formula import And, Next, P, bounds, nodes, operands, spelled
from reckoning.judge import allowed_ends, judge
from reckoning.limits import BILLION
from reckoning.refusal import Job, needed, refusal
from reckoning.report import read_report
from reckoning.verdict import UNDECIDED
from tests.floats import Floats
from tests.places import EXAMPLES, FOLDERS, ROOT
from tests.tables import code, table

COMMAND = ROOT / "sheetcheck"
CLOSE = 1e-6                # what a double may be off the ends
TABLE_LINE = re.compile(r"\| (\d+) \| [^|]+ \| ([0-9.]+) \| (yes|no) \|")
SAMPLE = re.compile(r"^    \$ (.+)\n((?:    .+\n)+)", re.MULTILINE)
INDEX_LINE = re.compile(r"\| `([a-z0-9-]+)` \| (\d+) \| (\d+) \| .*")


def printed(folder):
    """What the command prints for the sheet in a folder."""
    return subprocess.run([COMMAND, folder], stdout=subprocess.PIPE, check=True).stdout


def word(holds):
    return "yes" if holds else "no"


def ends_of(job):
    """The ends that the rules leave at each state of a job whose outermost node is a `P` over labels."""
    rules = Rules(job.chain)
    return rules.ends(job.tree.path, *near_operands(rules, job.tree))


def rules_of(tree):
    """What an `&` nested to the right joins, from the first on."""
    return [tree.left, *rules_of(tree.right)] if isinstance(tree, And) else [tree]


class Examples(unittest.TestCase):
    def test_are_as_the_generator_writes_them(self):
        self.assertEqual([folder.name for folder in FOLDERS], sorted(SHEETS))
        for folder in FOLDERS:
            with self.subTest(folder.name):
                wanted = texts(SHEETS[folder.name])
                self.assertEqual({path.name for path in folder.iterdir()}, {*wanted, "README.md"})
                for name, text in wanted.items():
                    self.assertTrue((folder / name).read_bytes() == text, f"{name} is not as generated")

    def test_are_accepted(self):
        for folder in FOLDERS:
            with self.subTest(folder.name):
                self.assertIsInstance(refusal(*read_texts(folder)), Job)

    def test_some_are_nested(self):
        trees = [refusal(*read_texts(folder)).tree for folder in FOLDERS]
        self.assertTrue(any(isinstance(below, P) for tree in trees for p in bounds(tree) for below in operands(p)))

    def test_one_asks_for_the_next_move(self):
        """The first fault of the gun string, restarts among the moves: 13/120 at state 0, and 13/94 were the restarts left out."""
        sheet = read_texts(EXAMPLES / "first-fault")
        job, allowed = refusal(*sheet), allowed_ends(*sheet)
        self.assertIsInstance(job.tree.path, Next)
        self.assertEqual((allowed.lower[0], allowed.upper[0], allowed.depth), ((108_333_333,) * 2, (108_333_334,) * 2, 0))
        self.assertEqual(job.chain.totals[0], job.chain.exits[0] + job.chain.rates[0, 0])
        without = allowed_ends(*read_texts(EXAMPLES / "gun-string")[:2], sheet[2])
        self.assertEqual((without.lower[0], without.verdicts[0]), ((138_297_872,) * 2, {"no"}))

    def test_one_asks_what_is_possible(self):
        """The redundant string is made whole again from the 16 states in which nothing is out for good; the ends of the last of them do not tell."""
        sheet, made = read_texts(EXAMPLES / "whole-again"), SHEETS["whole-again"]
        job, allowed = refusal(*sheet), allowed_ends(*sheet)
        self.assertEqual((job.tree.comparison, job.tree.threshold), (b">", 0))
        able = [state for state, told in enumerate(made.states) if (told.supplies, told.modems, told.coils) == (2, 2, 2)]
        self.assertEqual((able, allowed.verdicts), (list(range(16)), [{word(state in able)} for state in range(432)]))
        self.assertEqual((allowed.lower[15], allowed.upper[15][0], verdicts(job.tree, ends_of(job)[15])), ((0, 0), 1, {UNDECIDED}))
        longer = allowed_ends(*sheet[:2], sheet[2].replace(b"0.25", b"72"))
        self.assertEqual((longer.verdicts, longer.lower[15][1] // 1_000_000), (allowed.verdicts, 976))
        plain = read_texts(EXAMPLES / "redundant-string")
        self.assertEqual(sheet[:2], plain[:2])

    def test_one_asks_between_two_times(self):
        """Whether the guns can be fired once the string has settled, with the other times that its README names: within all of the time, and within
        that of settling, an until is 1 where both tools are good, with power down too."""
        moves, labels, formula = read_texts(EXAMPLES / "not-before-settled")
        self.assertEqual((moves, labels), tuple(read_texts(EXAMPLES / "gun-string")[:2]))
        self.assertEqual(self.depths(moves, labels, formula), [44, 48])

        def asked(path):
            allowed = allowed_ends(moves, labels, formula.replace(b"V 2 8.25", path))
            return [(f"{lower[1] / BILLION:.5f}", *words) for lower, words in zip(allowed.lower[:2], allowed.verdicts)]
        self.assertEqual(asked(b"V 2 8.25"), [("0.99352", "yes"), ("0.00000", "no")])
        for path in (b"U 8.25", b"U 2"):
            self.assertEqual(asked(path), [("1.00000", "yes")] * 2)
        for path, told in ((b"V 2 2", ("0.99120", "yes")), (b"V 3 8.25", ("0.99010", "yes")), (b"V 3.25 8.25", ("0.98923", "no"))):
            self.assertEqual(asked(path)[0], told)
            self.assertIn(told[0], (EXAMPLES / "not-before-settled" / "README.md").read_text())

    def test_one_has_moves_at_the_foot(self):
        """After the workshop: the moves of the gun string, then others in any order, six of them of pairs that stand above. Either line of such a
        pair by itself leaves the yes that both together take away; the clean copy has the same ends."""
        moves, labels, formula = read_texts(EXAMPLES / "after-workshop")
        plain = read_texts(EXAMPLES / "gun-string")
        self.assertTrue(moves.startswith(plain[0]))
        self.assertEqual((labels, formula), tuple(plain[1:]))
        pairs = [move[:2] for move in refusal(moves, labels, formula).moves]
        above, foot = pairs[:-9], pairs[-9:]
        self.assertEqual((len(above), len(set(above) & set(foot)), len(set(foot))), (len(refusal(*plain).moves), 6, 9))
        copy = copied(moves, labels)
        self.assertEqual((allowed_ends(copy, labels, formula), copied(plain[0], labels)), (allowed_ends(moves, labels, formula), plain[0]))
        for left_out, chance in ((b"4,10,600\n", "0.00534"), (b"4,10,650\n", "0.00493")):
            self.assertEqual(moves.count(left_out), 1)
            allowed = allowed_ends(moves.replace(left_out, b""), labels, formula)
            self.assertEqual((f"{allowed.lower[4][1] / BILLION:.5f}", allowed.verdicts[4]), (chance, {"yes"}))
            self.assertIn(chance, (EXAMPLES / "after-workshop" / "README.md").read_text())

    def test_one_has_many_nodes(self):
        """Fit to run: the rules of its README are the question, fail where it says so, and take 17 mark bytes for each state."""
        moves, labels, formula = read_texts(EXAMPLES / "fit-to-run")
        job, readme = refusal(moves, labels, formula), (EXAMPLES / "fit-to-run" / "README.md").read_text()
        rules = [code(typed).encode() for _, _, typed in table(readme, "rule", "what it asks", "as a formula")]
        self.assertEqual(rules, list(map(spelled, rules_of(job.tree))))
        holds = [allowed_ends(moves, labels, rule + b"\n").verdicts for rule in rules]
        failing = [[at for at, words in enumerate(column, 1) if words == {"no"}] for column in zip(*holds)]
        for state, *_, told in table(readme, "state", "stands for", "chance", "verdict", "rules that fail"):
            self.assertEqual(", ".join(map(str, failing[int(state)])) or "none", told, state)
        self.assertIn(f"Of the {len(failing)} states {failing.count([])} are fit.", readme)
        count, states, marks = len(nodes(job.tree)), job.chain.states, needed(job).marks
        self.assertIn(f"The question has {count} nodes.", readme)
        self.assertIn(f"17 × {states} = {marks:,}, and not one for each node and state, which would be {count} × {states} = {count * states:,}", readme)

    def depths(self, *sheet):
        """The depths of the phases of the outermost question."""
        job = refusal(*sheet)
        return [depth(job.chain.load(hundredths)) for hundredths in job.tree.path.phases]

    def test_restarts_change_no_until(self):
        restarts, plain = read_texts(EXAMPLES / "first-fault"), read_texts(EXAMPLES / "gun-string")
        self.assertEqual(allowed_ends(*restarts[:2], plain[2]), allowed_ends(*plain))

    def test_program_keeps_the_rules(self):
        for folder, answer in [(folder, printed(folder)) for folder in FOLDERS]:
            with self.subTest(folder.name):
                self.assertEqual(judge(*read_texts(folder), answer), [])


class Doubles(unittest.TestCase):
    def test_ends_of_the_outermost_path(self):
        for folder in FOLDERS:
            moves, labels, formula = read_texts(folder)
            floats = Floats(moves, labels, formula)
            asked = floats.outermost
            allowed = allowed_ends(moves, labels, spelled(asked) + b"\n")
            for state, (chance, lower, upper) in enumerate(zip(floats.chance(asked), allowed.lower, allowed.upper, strict=True)):
                with self.subTest(folder.name, state=state):
                    self.assertAlmostEqual(chance, lower[1] / BILLION, delta=CLOSE)
                    self.assertAlmostEqual(chance, upper[0] / BILLION, delta=CLOSE)

    def test_verdicts(self):
        """No threshold is so near a chance that the rules leave a choice."""
        for folder in FOLDERS:
            with self.subTest(folder.name):
                sheet = read_texts(folder)
                floats = Floats(*sheet)
                self.assertEqual(allowed_ends(*sheet).verdicts, [{word(each)} for each in floats.holds(floats.tree)])


class Told(unittest.TestCase):
    def test_tables(self):
        for folder in FOLDERS:
            floats = Floats(*read_texts(folder))
            chances, holds = floats.chance(floats.outermost), floats.holds(floats.tree)
            lines = TABLE_LINE.findall((folder / "README.md").read_text())
            self.assertGreaterEqual(len(lines), 2, folder.name)
            for state, chance, verdict in lines:
                with self.subTest(folder.name, state=state):
                    decimals = len(chance.partition(".")[2])
                    self.assertEqual((chance, verdict), (f"{chances[int(state)]:.{decimals}f}", word(holds[int(state)])))

    def test_samples(self):
        """What a README shows below a command is what that command prints."""
        samples = [sample for folder in FOLDERS for sample in SAMPLE.findall((folder / "README.md").read_text())]
        self.assertGreaterEqual(len(samples), 4)
        for line, shown in samples:
            with self.subTest(line):
                done = subprocess.run(["bash", "-c", line], cwd=ROOT, stdout=subprocess.PIPE, text=True)
                self.assertEqual(done.stdout, re.sub("(?m)^    ", "", shown))

    def test_worst_states_of_the_redundant_string(self):
        """300 states are on the brink, 100 have no chance to come there, and of the others four say no: those that its README names."""
        allowed = allowed_ends(*read_texts(EXAMPLES / "redundant-string"))
        certain = [state for state, lower in enumerate(allowed.lower) if lower == (BILLION, BILLION)]
        never = [state for state, upper in enumerate(allowed.upper) if upper == (0, 0)]
        self.assertEqual((len(certain), certain[:3], len(never)), (300, [1, 2, 3], 100))
        others = sorted(set(range(len(allowed.lower))) - {*certain, *never}, key=lambda state: -allowed.lower[state][0])
        self.assertEqual(others[:5], [32, 176, 80, 224, 24])
        for worse, better in zip(others[:5], others[1:6]):
            self.assertGreater(allowed.lower[worse][0], allowed.lower[better][1])
        self.assertEqual([state for state in others if allowed.verdicts[state] != {"yes"}], [32, 176, 80, 224])
        labels = SHEETS["redundant-string"].labels
        for state in never:
            told = SHEETS["redundant-string"].states[state]
            self.assertFalse(labels["power"](told) and labels["modem"](told))

    def test_ends_that_do_not_tell(self):
        """State 15 and 176 others, as the README of `whole-again` counts them: with power and a modem, something out for good, and ends about 0."""
        rows = read_report(printed(EXAMPLES / "whole-again"), 432)
        open_ = [state for state, row in enumerate(rows) if row.lower == 0 < row.upper]
        self.assertEqual((len(open_), open_[:2], {rows[state].verdict for state in open_[1:]}), (177, [15, 16], {"no"}))

    def test_formulas(self):
        for folder in FOLDERS:
            with self.subTest(folder.name):
                formula = (folder / "formula.txt").read_text().rstrip("\n")
                self.assertIn(f"`{formula}`", (folder / "README.md").read_text())

    def test_index(self):
        found = INDEX_LINE.findall((EXAMPLES / "README.md").read_text())
        jobs = [(folder.name, refusal(*read_texts(folder))) for folder in FOLDERS]
        self.assertEqual(sorted(found), [(name, str(job.chain.states), str(len(job.moves))) for name, job in jobs])

    def test_sizes_of_the_documents(self):
        """States and moves that documents 001 and 003 print."""
        sizes = {"tandem-2": (15, 33), "tandem-5": (66, 189), "polling-3": (36, 84), "random-walk": (307, 610)}
        for name, size in sizes.items():
            with self.subTest(name):
                self.assertEqual((len(SHEETS[name].states), len(SHEETS[name].moves)), size)

    def test_chances_of_document_001(self):
        """Table 1 for 10, 20 and 30 hours, to its four decimals."""
        moves, labels, _ = read_texts(EXAMPLES / "random-walk-even")
        for hours, chance in ((10, 0.0022), (20, 0.0266), (30, 0.0688)):
            with self.subTest(hours=hours):
                allowed = allowed_ends(moves, labels, b"P < 10000000 U %d tt far\n" % hours)
                self.assertEqual(round(allowed.lower[0][1] / BILLION, 4), chance)
                self.assertEqual(round(allowed.upper[0][0] / BILLION, 4), chance)


if __name__ == "__main__":
    unittest.main()
