"""The README: its samples are what the command prints and says, its picture is what the command above it draws, and what it names is there."""
import re
import subprocess
import unittest

from tests.places import ROOT

SAMPLE = re.compile(r"^    \$ (\./sheetcheck .+)\n((?:    .+\n)+)", re.MULTILINE)
DRAWN = re.compile(r"^    (tools/curve .*) --out (docs/\S+\.svg)$", re.MULTILINE)
NAMED = re.compile(r"`((?:crates|docs|examples|library|bench|tests|tools|reckoning)/[^ `*]*)|\]\(([^)]+)\)")


class Readme(unittest.TestCase):
    text = (ROOT / "README.md").read_text()

    def test_samples(self):
        samples = SAMPLE.findall(self.text)
        self.assertGreaterEqual(len(samples), 3)
        for line, shown in samples:
            with self.subTest(line):
                done = subprocess.run(["bash", "-c", line], cwd=ROOT, capture_output=True, text=True)
                self.assertEqual(re.sub("(?m)^    ", "", shown), done.stdout + done.stderr)

    def test_picture(self):
        """The picture is what the command above it draws."""
        line, picture = DRAWN.search(self.text).groups()
        drawn = subprocess.run(["bash", "-c", line], cwd=ROOT, capture_output=True, text=True, check=True).stdout
        self.assertEqual(drawn, (ROOT / picture).read_text())
        self.assertIn(f"]({picture})", self.text)

    def test_names_what_is_there(self):
        """Each file, folder or command that the README names in quotes or links to is in the repository."""
        for quoted, linked in NAMED.findall(self.text):
            with self.subTest(quoted or linked):
                self.assertTrue((ROOT / (quoted or linked)).exists())


if __name__ == "__main__":
    unittest.main()
