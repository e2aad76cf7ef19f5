"""Where tests and bench find what they try, and whether that is to be built again."""
from pathlib import Path

ROOT = Path(__file__).resolve().parent.parent
CRATES = ROOT / "crates"
TARGET = ROOT / "target"
PROGRAM = CRATES / "sheetcheck" / "out" / "sheetcheck"
COPIER = CRATES / "sheetcopy" / "out" / "sheetcopy"
DEEP = CRATES / "deep_formulas" / "out" / "deep_formulas"
ARCHIVE = CRATES / "sebdyqul" / "out" / "libsebdyqul.a"
EDITS_SAID = TARGET / "must-fail.txt"           # what `rt ci` said of each edit that must fail
EXAMPLES = ROOT / "examples"
FOLDERS = sorted(path.parent for path in EXAMPLES.glob("*/moves.txt"))


def sources():
    """What the crates are made of: all below their folders but `out`, where `rt` puts what it makes."""
    for part in CRATES.glob("*/*"):
        if part.name != "out":
            yield from (part, *part.rglob("*"))


def is_stale(built):
    """Whether a file that is built from the crates is not there, or older than one of theirs."""
    return not built.exists() or any(built.stat().st_mtime < path.stat().st_mtime for path in sources())
