"""That crates.txt lists what each crate names and no more, that no module is named like a crate, and that public is what another crate calls."""
import unittest
from unittest import mock

from tests import crates

# Crates made up for the rules: the last one calls the middle one, through which it reaches a value of the first.
MADE_UP = {
    "first_made": "pub enum Kind {\n    One,\n}\n\npub enum Other {\n    One,\n}\n",
    "middle_made": "mod part;\n\npub use part::helped;\n\npub struct Pair {\n    pub left: u64,\n}\n\n"
                   "impl Pair {\n    pub const NONE: u64 = 0;\n\n    pub fn sum(self) -> u64 {\n        0\n    }\n\n"
                   "    pub(crate) fn half(self) -> u64 {\n        0\n    }\n}\n\npub fn made(n: u64) -> first_made::Kind\n"
                   "    ensures { }\n{\n    n\n}\n\npub fn paired() -> Pair {\n    0\n}\n\npub const SPARE: u64 = 1;\n",
    "last_made": "pub extern \"C\" fn called() {\n    middle_made::made(1);\n    middle_made::paired().sum();\n}\n",
}


class Crates(unittest.TestCase):
    def none(self, what, lines):
        """There are no such lines; those that there are make one list."""
        if lines:
            self.fail("\n".join([f"{what}:", *lines]))

    def test_lists_what_is_named(self):
        listed, wanted = crates.listed(), crates.wanted()
        told = [f"{name}: {' '.join(wanted[name])}" for name in listed if set(listed[name]) != set(wanted[name])]
        self.none("crates.txt is to have these lines (`python3 -m tests.crates --write` puts them there)", told)

    def test_lists_all_crates(self):
        self.assertEqual(sorted(crates.listed()), sorted(path.name for path in (crates.ROOT / "crates").iterdir()))

    def test_no_module_has_the_name_of_a_crate(self):
        """`rt try` hands every crate to every other, so that such a name would have two meanings."""
        told = [f"{name}: {' '.join(sorted(same))}" for name in crates.listed() if (same := crates.modules(name) & set(crates.listed()))]
        self.none("modules that have the name of a crate", told)

    def test_public_is_what_another_crate_calls(self):
        self.assertGreater(sum(len(crates.public(name)) for name in crates.listed()), 50)
        told = [f"{name}: {' '.join(items)}" for name in crates.listed() if (items := crates.for_nobody(name))]
        self.none("public, and named by no other crate", told)

    def test_public_members_are_what_another_crate_calls(self):
        told = [f"{name}: {' '.join(items)}" for name in crates.listed() if (items := crates.members_for_nobody(name))]
        self.none("public in a public type, and named by no other crate", told)


class Rules(unittest.TestCase):
    """What the two rules make of the crates that are made up for them."""

    def setUp(self):
        def texts(crate, pattern):
            return {"src/lib.rt": MADE_UP[crate], "src/part.rt": "pub fn helped() {\n}\n\npub fn own() {\n}\n"} if pattern == "*.rt" else {}
        for name, stand_in in (("texts", texts), ("listed", lambda: {name: [] for name in MADE_UP})):
            patched = mock.patch.object(crates, name, stand_in)
            patched.start()
            self.addCleanup(patched.stop)

    def test_named(self):
        self.assertEqual(crates.wanted(), {"first_made": [], "middle_made": ["first_made"], "last_made": ["first_made", "middle_made"]})

    def test_modules(self):
        self.assertEqual([crates.modules(name) for name in MADE_UP], [set(), {"part"}, set()])

    def test_for_nobody(self):
        self.assertEqual(crates.for_nobody("first_made"), ["Other"])
        self.assertEqual(crates.for_nobody("middle_made"), ["SPARE", "helped"])
        self.assertEqual(crates.for_nobody("last_made"), [])

    def test_members_for_nobody(self):
        self.assertEqual(crates.members_for_nobody("first_made"), [])
        self.assertEqual(crates.members_for_nobody("middle_made"), ["Pair::NONE"])


if __name__ == "__main__":
    unittest.main()
