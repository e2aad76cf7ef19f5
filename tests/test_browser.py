"""Pages of sheets in a real browser, with scripts off: they fit a desk and a phone, ask for nothing, overlap nowhere and print well.

Skipped where there is no Chromium or Chrome: CHROMIUM names one, else the usual names are looked for on the path.
"""
import re
import tempfile
import unittest
from pathlib import Path

from reckoning.limits import MOST_RATE, MOST_STATES
from reckoning.sheets import labels_text, moves_text
from tests.browser import Browser, found
from tests.pages import hostile_sheet, page_of, refused_sheet, unlikely_sheet
from tests.places import EXAMPLES
from tests.program import put

DESK, PHONE = 1280, 375
PAPER = 703, 1000           # pixels of an A4 page within its margins: across, and down with some to spare
LEAST_LETTERS = 11          # pixels, of a table on a phone
NEAR = 1.5                  # pixels by which boxes of letters may touch: they have some air around them
EXAMPLES_OPENED = ("gun-string", "not-before-settled", "first-fault", "redundant-string", "small", "tandem-2")
WORST = {"gun-string": "8", "not-before-settled": "11", "first-fault": "6", "redundant-string": "1", "small": "0", "tandem-2": "14"}

# What is laid out beyond the page, left or right; a drawing moves by itself and is looked at as one.
BEYOND = """[...document.querySelectorAll('main *:not(svg *)')].filter(each => {
    const box = each.getBoundingClientRect();
    return !(each.parentElement.closest('.drawing')) && (box.left < -0.5 || box.right > innerWidth + 0.5) && box.width > 0;
}).map(each => each.outerHTML.slice(0, 80))"""
SIZES = "[...document.querySelectorAll('table th, table td, table span')].map(each => parseFloat(getComputedStyle(each).fontSize))"
HIDDEN = """[...document.querySelectorAll('td, th')].filter(each => each.scrollWidth > each.clientWidth + 1 && each.clientWidth > 0)
    .map(each => each.textContent)"""
BOXES = """(selector => [...document.querySelectorAll(selector)].map(each => {
    const box = each.getBoundingClientRect();
    return [box.left, box.top, box.right, box.bottom, each.textContent];
}))"""
SCALE = "(name => document.querySelector(name).getBoundingClientRect().width / document.querySelector(name).viewBox.baseVal.width)"
KEPT = "[...document.querySelectorAll('#curve, #graph, figure, tr')].map(each => getComputedStyle(each).breakInside)"
HEIGHTS = "['#curve', '#graph'].map(name => document.querySelector(name).getBoundingClientRect().height)"
FIRST_ROW = "document.querySelector('tbody tr th').textContent"
HEADS = "getComputedStyle(document.querySelector('thead')).display"


def setUpModule():
    global browser
    if not found():
        raise unittest.SkipTest("no chromium or chrome on the path")
    browser = Browser(found())
    unittest.addModuleCleanup(browser.close)


class Pages(unittest.TestCase):
    @classmethod
    def setUpClass(cls):
        """Writes the pages that are opened."""
        cls.folder = tempfile.TemporaryDirectory()
        cls.addClassCleanup(cls.folder.cleanup)
        sheets = {name: EXAMPLES / name for name in EXAMPLES_OPENED}
        made = {"hostile": hostile_sheet, "refused": refused_sheet, "unlikely": unlikely_sheet}
        sheets |= {name: make(cls.folder.name) for name, make in made.items()}
        cls.files = {name: cls.written(name, sheet) for name, sheet in sheets.items()}

    @classmethod
    def written(cls, name, sheet):
        path = Path(cls.folder.name) / f"{name}.html"
        path.write_text(page_of(sheet)[1], encoding="utf-8")
        return path

    def overlapping(self, ones, others):
        """The pairs of boxes that have more than a little in common."""
        return [(one[4], other[4]) for one in ones for other in others if one is not other
                and min(one[2], other[2]) - max(one[0], other[0]) > NEAR and min(one[3], other[3]) - max(one[1], other[1]) > NEAR]

    def test_fit_and_ask_for_nothing(self):
        for name, path in self.files.items():
            for width in (DESK, PHONE):
                with self.subTest(name, width=width):
                    browser.open(path, width)
                    self.assertEqual(browser.value("innerWidth"), width)
                    self.assertLessEqual(browser.value("document.documentElement.scrollWidth"), width)
                    self.assertEqual(browser.value(BEYOND), [])
                    self.assertEqual(browser.value(HIDDEN), [])
                    self.assertEqual((browser.requests(), browser.complaints()), ([path.as_uri()], []))

    def test_table(self):
        """The worst state is in the first row, and the letters can be read on a phone."""
        for name, state in WORST.items():
            with self.subTest(name):
                browser.open(self.files[name], PHONE)
                self.assertEqual(browser.value(FIRST_ROW), state)
                self.assertGreaterEqual(min(browser.value(SIZES)), LEAST_LETTERS)

    def test_widest_rows(self):
        """As many states as there may be, the longest numbers and the longest word."""
        names = "\n".join(f"{state}: {'supply bad, ' * 4}" for state in range(MOST_STATES))
        with tempfile.TemporaryDirectory() as folder:
            put((moves_text([(0, 1, MOST_RATE)]), labels_text([b"up"], [[state % 2] for state in range(MOST_STATES)]),
                 b"P >= 500000000 U 1 tt P >= 999999999 U 1 tt & up P >= 999999999 U 1 tt up\n"), folder)
            (Path(folder) / "states.txt").write_text(names)
            path = self.written("widest", folder)
        browser.open(path, PHONE)
        self.assertEqual(browser.value("document.querySelectorAll('tbody tr').length"), MOST_STATES)
        self.assertEqual((browser.value("document.documentElement.scrollWidth"), browser.value(BEYOND), browser.value(HIDDEN)), (PHONE, [], []))

    def test_graph(self):
        """No rate over another or over a state, no state over another, and every name within its box."""
        for name in ("gun-string", "not-before-settled", "first-fault", "small", "tandem-2"):
            with self.subTest(name):
                browser.open(self.files[name], DESK)
                rates, states = browser.value(BOXES + "('.graph .rate')"), browser.value(BOXES + "('.graph g > svg')")
                self.assertEqual(self.overlapping(rates, rates), [])
                self.assertEqual(self.overlapping(rates, states), [])
                self.assertEqual(self.overlapping(states, states), [])
                words = browser.value(BOXES + "('.graph g > svg > text')")
                within = [any(box[0] <= word[0] and word[2] <= box[2] and box[1] - NEAR <= word[1] and word[3] <= box[3] + NEAR for box in states)
                          for word in words]
                self.assertTrue(all(within), [word for word, fits in zip(words, within) if not fits])

    def test_curve(self):
        """No words over others, and all of them within their drawing."""
        for name, curves in (("gun-string", 2), ("not-before-settled", 2), ("small", 1), ("unlikely", 1)):
            with self.subTest(name):
                browser.open(self.files[name], DESK)
                words, drawings = browser.value(BOXES + "('.curve text')"), browser.value(BOXES + "('svg.curve')")
                self.assertEqual(len(drawings), curves)
                self.assertGreater(len(words), 10 * curves)
                self.assertEqual(self.overlapping(words, words), [])
                within = [any(box[0] <= word[0] and word[2] <= box[2] + NEAR and box[1] <= word[1] and word[3] <= box[3] for box in drawings)
                          for word in words]
                self.assertTrue(all(within), [word for word, fits in zip(words, within) if not fits])

    def test_drawings_stay_readable(self):
        """Letters of 12 and 15 in a drawing are not made much smaller on a phone, where the drawing moves by itself."""
        for width in (DESK, PHONE):
            browser.open(self.files["gun-string"], width)
            self.assertGreater(12 * browser.value(SCALE + "('svg.graph')"), LEAST_LETTERS - 0.5)
            self.assertGreater(15 * browser.value(SCALE + "('svg.curve')"), LEAST_LETTERS)

    def test_print(self):
        """Few pages, with the heads of the table on each, and neither rows nor drawings cut."""
        for name, most in (("gun-string", 3), ("small", 2), ("tandem-2", 3), ("redundant-string", 12), ("refused", 1), ("hostile", 4)):
            with self.subTest(name):
                browser.open(self.files[name], DESK)
                self.assertIn(len(re.findall(rb"/Type /Page\b(?!s)", browser.printed())), range(1, most + 1))
                browser.on_paper(PAPER[0])
                if name != "refused":
                    self.assertEqual((browser.value(HEADS), set(browser.value(KEPT))), ("table-header-group", {"avoid"}))
                    self.assertLess(max(browser.value(HEIGHTS)), PAPER[1])
                    self.assertLessEqual(browser.value("document.documentElement.scrollWidth"), PAPER[0])


if __name__ == "__main__":
    unittest.main()
