"""The edits that the prover has to refuse: each is refused for a fact that no longer holds, not for a name that is gone.

This is read off what `rt ci` said of each edit, a line in target/must-fail.txt, where tests/run.py keeps it (`rt must-fail > target/must-fail.txt`
leaves the same); where an edit was not tried since, the test counts as skipped and says so.
"""
import re
import unittest

from tests.places import EDITS_SAID, ROOT

EDITS = sorted((ROOT / "crates").glob("*/must-fail/*.edit"))
SAID = re.compile(r"^rt: must-fail (\w+/\S+\.edit): (.*)$", re.MULTILINE)
REFUSED = "refused, as it must be: "        # behind it the prover's first line: else it stands in brackets why that says little, or that the edit is bad
ERROR = re.compile(r"^\S+: error: .*$|^note: \S+: it is not proved that .*$")           # a note where no proof is written out
GONE = "that can be named from here"


def told(text):
    """What was said of each edit, by the last line on it."""
    return dict(SAID.findall(text))


def first_error(said):
    """What the prover said first of an edit that it refused for a fact; none where it did not, or for a name that is gone."""
    error = said.removeprefix(REFUSED)
    return error if said.startswith(REFUSED) and ERROR.match(error) and GONE not in error else ""


def said_of(edits):
    """What was said of these edits, of each that was tried since it was made."""
    if not EDITS_SAID.exists():
        return {}
    lines, when = told(EDITS_SAID.read_text()), EDITS_SAID.stat().st_mtime
    names = {edit: f"{edit.parent.parent.name}/{edit.name}" for edit in edits}
    return {edit: lines[name] for edit, name in names.items() if name in lines and edit.stat().st_mtime <= when}


class Edits(unittest.TestCase):
    def test_each_is_refused_for_a_fact(self):
        self.assertGreater(len(EDITS), 50)
        said = said_of(EDITS)
        for edit, line in said.items():
            with self.subTest(edit.relative_to(ROOT)):
                self.assertTrue(first_error(line), line)
        if len(said) < len(EDITS):
            self.skipTest(f"{len(EDITS) - len(said)} of {len(EDITS)} edits were not tried since they were written")

    def test_what_is_a_fact(self):
        """Of lines as `rt` prints them."""
        fact = "src/lib.rt:7:1: error: `returns` .."
        note = "note: src/lib.rt:7:1: it is not proved that what the function ensures holds when it returns (`returns`)"
        for error in (fact, note):
            self.assertEqual(told(f"rt: one proved\nrt: must-fail one/two.edit: {REFUSED}{error}\n"), {"one/two.edit": REFUSED + error})
            self.assertEqual(first_error(REFUSED + error), error)
        for line in (REFUSED + "src/lib.rt:3:2: error: module `Rattle.one.specs.Two` has no `three` that can be named from here", REFUSED + "killed",
                     "refused, as it must be (only because a proof file names what the edit took away): " + fact, "refused, as it must be",
                     "BAD EDIT: an 'old:' text is in src/lib.rt 3 times, and not once", "NOT REFUSED: the crate is still proved with this edit",
                     "NOT TRIED: the kept work of a library could not be used: run this again"):
            self.assertEqual(first_error(line), "", line)


if __name__ == "__main__":
    unittest.main()
