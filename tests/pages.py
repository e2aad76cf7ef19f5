"""Pages of sheets as the tests look at them: made, read back from their HTML, and sheets that try to break one."""
import shutil
from html.parser import HTMLParser
from pathlib import Path

from reckoning.__main__ import read_texts
from reckoning.sheets import labels_text, moves_text
from tests.places import EXAMPLES
from tests.program import put
from tests.tools import loaded

COMMAND = loaded("page")
VOID = {"meta", "br", "hr", "img", "link", "input"}

# Names of states that are markup, run from right to left, do not end, do not print or are no UTF-8, and lines without a number.
HOSTILE_NAMES = "\n".join([
    "0: <script>alert(1)</script>", "1: Z\u0351\u036b\u0343algo", "2: \u202eright to left \u05d0\u05d1\u05d2 <img src=x onerror=alert(1)>",
    "3: & < > \" ' </td></table></style>", "no number", "5: " + "many words " * 60, "6:\t tabs\x00and\x07bells", "7: " + "\u6f22\u5b57" * 12,
    "8: " + "W" * 500, "", "999999999999: no such state", "11: "]).encode() + b"\xff\xfe\xfd\n"
HOSTILE_FOLDER = "<b>&amp; \"x\" '"


def hostile_sheet(folder):
    """The gun string in a folder with a name that is markup, and with names of states that are."""
    place = Path(folder) / HOSTILE_FOLDER
    shutil.copytree(EXAMPLES / "gun-string", place)
    (place / "states.txt").write_bytes(HOSTILE_NAMES)
    return place


def refused_sheet(folder):
    """The gun string with hours that end in a zero."""
    place = Path(folder) / "wrong-hours"
    put((*read_texts(EXAMPLES / "gun-string")[:2], b"P <= 10000000 U 8.50 power lost\n"), place)
    return place


def unlikely_sheet(folder):
    """Two rare faults in a row: the words at the ticks of its curve are long, and so are those on its threshold."""
    place = Path(folder) / "unlikely"
    put((moves_text([(0, 1, 300), (1, 2, 20)]), labels_text([b"bad"], [[0], [0], [1]]), b"P >= 999999999 U 8 tt bad\n"), place)
    return place


def page_of(folder):
    """The status and the text of the page of a folder."""
    return COMMAND.made(COMMAND.arguments([str(folder)]))


class Reader(HTMLParser):
    """A page, read back: its elements as (tag, attributes, words), with complaints about tags that do not match."""

    def __init__(self, text):
        super().__init__()
        self.open, self.elements, self.complaints = [], [], []
        self.feed(text)
        self.close()

    def handle_starttag(self, tag, attributes):
        element = [tag, dict(attributes), ""]
        self.elements.append(element)
        if len(dict(attributes)) < len(attributes):
            self.complaints.append(f"an attribute of {tag} twice")
        if tag not in VOID:
            self.open.append(element)

    def handle_startendtag(self, tag, attributes):
        self.elements.append([tag, dict(attributes), ""])

    def handle_endtag(self, tag):
        if not self.open or self.open[-1][0] != tag:
            self.complaints.append(f"{tag} ends inside {[element[0] for element in self.open]}")
        else:
            self.open.pop()

    def handle_data(self, data):
        for element in self.open:
            element[2] += data

    def all(self, tag, kind=None):
        return [element for element in self.elements if element[0] == tag and kind in (None, element[1].get("class"))]

    def words(self, tag, kind=None):
        """What stands in each of these elements, with single spaces."""
        return [" ".join(element[2].split()) for element in self.all(tag, kind)]

    def rows(self):
        """The rows of the table: state, ends and verdict, as the report has them."""
        numbers = [int(words) for element, words in zip(self.all("th"), self.words("th")) if element[1]["scope"] == "row"]
        ends = [tuple(map(int, words.split(" to "))) for words in self.words("td", "ends")]
        return [(state, *pair, verdict) for state, pair, verdict in zip(numbers, ends, self.words("td", "says"), strict=True)]
