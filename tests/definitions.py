"""Has the checker of proofs compute the definitions on concrete jobs.

It writes a scratch crate outside the repository, with one equation by computation for each job, and checks it: that the job is turned back with
its number, or accepted with its formula, q and depth. Of rows that are given it has the order and the printed text computed too, and of moves and
labels the clean copy, or the number that it is refused with.
`python3 -m tests.definitions` tries every vector of ../shared/vectors that is small
enough (`--bytes N`: three texts of at most N bytes together, 2,000 if not given), and the clean copy of its moves.
"""
import argparse
import pathlib
import shutil
import subprocess
import sys
import tempfile

from reckoning import formula as f
from reckoning.copying import copied
from reckoning.limits import MOST_MOVES, MOST_NODES, MOST_STATES, SHEET_BYTES
from reckoning.refusal import Lent
from reckoning.report import report_text, worst_first
from reckoning.tests.vectors import MISSING, cases, texts_of
from reckoning.verdict import NO, UNDECIDED, YES
from tests.places import ROOT

HEAD = f"""-- Jobs against the definitions, by computation. Assumes nothing.
use Rattle.std.specs.Prelude.{{◌≡◌, refl, cond, ℕ, eqb, List, [], ◌∷◌, Option, Some, None}}
use Rattle.csl.specs.Text.{{bytes}}
use Rattle.csl.specs.Formula.{{always, label, negated, both, chance, until, between, next_move, Less, AtMost, AtLeast, More}}
use Rattle.csl.specs.Lent.{{Buffers, needed}}
use Rattle.csl.specs.Chain.{{top_rate}}
use Rattle.csl.specs.Verdicts.{{No, Yes, Undecided}}
use Rattle.csl.specs.Order.{{worst_first}}
use Rattle.csl.specs.Report.{{depth_of, report_text}}
use Rattle.csl.specs.Refusal.{{Job, job_chain, job_formula, refusal}}
use Rattle.csl.specs.Copy.{{copy_text, copy_refusal}}
use Rattle.csl.proofs.Laws.Computing.{{computing}}

abbrev enough : Buffers ℕ
enough = needed {MOST_STATES} {MOST_MOVES} {MOST_NODES}
"""


def quoted(text):
    """A text as a quoted literal: one character for each byte."""
    return '"' + "".join(chr(b) if 32 <= b < 127 and b not in b'"\\' else f"\\u{{{b:x}}}" for b in text) + '"'


COMPARISONS = {b"<": "Less", b"<=": "AtMost", b">=": "AtLeast", b">": "More"}


def term(tree):
    """A formula as the definitions have it."""
    if isinstance(tree, f.Tt):
        return "always"
    if isinstance(tree, f.Label):
        return f"(label (bytes {quoted(tree.name)}))"
    below = " ".join(map(term, f.operands(tree)))
    if isinstance(tree, f.P):
        return f"(chance {COMPARISONS[tree.comparison]} {tree.threshold} ({path_words(tree.path)} {below}))"
    return f"({'negated' if isinstance(tree, f.Not) else 'both'} {below})"


PATHS = {f.Until: "until", f.Between: "between", f.Next: "next_move"}


def path_words(path):
    """A path formula without its operands: its kind and its times."""
    return " ".join([PATHS[type(path)], *map(str, path.times)])


def buffers(lent):
    """The lent lengths as a record; enough for every job where none are given."""
    if lent is None:
        return "enough"
    return "(record { " + "; ".join(f"{name} = {length}" for name, length in zip(Lent._fields, lent)) + " })"


def equation(number, job):
    """The equations for one job, a dict with the three texts, `refused` or any of `q` and `depth`, and perhaps `lent`."""
    texts = "; ".join(f"{name} = bytes {quoted(job[name])}" for name in ("moves", "labels", "formula"))
    lines = [f"abbrev job{number} : Job", f"job{number} = record {{ {texts} }}", ""]

    def claim(name, statement):
        lines.extend([f"{name}{number} : {statement}", "unfolding computing", f"{name}{number} = refl", ""])

    answer = f"Some {job['refused']}" if "refused" in job else "None"
    claim("refusal-of-", f"refusal job{number} {buffers(job.get('lent'))} ≡ {answer}")
    if "refused" not in job:
        claim("formula-of-", f"job_formula job{number} ≡ {term(f.read_formula(job['formula']))}")
    if "q" in job:
        claim("rate-of-", f"top_rate (job_chain job{number}) ≡ {job['q']}")
    if "depth" in job:
        claim("depth-of-", f"depth_of (job_chain job{number}) (job_formula job{number}) ≡ {job['depth']}")
    return "\n".join(lines)


def copy_equations(number, moves, labels, room=SHEET_BYTES, answer=None):
    """The equations for a clean copy: the copy or the number that is given, by the second reckoning where none is."""
    answer = copied(moves, labels, room) if answer is None else answer
    texts = f"(bytes {quoted(moves)}) (bytes {quoted(labels)})"
    lines = [f"copy-refusal-of-{number} : copy_refusal {texts} {room} ≡ {f'Some {answer}' if isinstance(answer, int) else 'None'}",
             "unfolding computing", f"copy-refusal-of-{number} = refl", ""]
    if not isinstance(answer, int):
        lines += [f"copy-of-{number} : copy_text {texts} ≡ bytes {quoted(answer)}", "unfolding computing", f"copy-of-{number} = refl", ""]
    return "\n".join(lines)


VERDICTS = {NO: "No", YES: "Yes", UNDECIDED: "Undecided"}


def by_state(values):
    """A function of the states that has these values, the last one from there on."""
    *others, last = values
    return "(λ s. " + "".join(f"cond (eqb s {state}) {value} (" for state, value in enumerate(others)) + f"{last}" + ")" * (len(others) + 1)


def report_equations(number, rows, order=None):
    """The equations for rows in the order of the states: their order, by the second reckoning where no other is given, and their printed text."""
    lower, upper = (by_state([getattr(row, name) for row in rows]) for name in ("lower", "upper"))
    verdicts = by_state([VERDICTS[row.verdict] for row in rows])
    states = " ∷ ".join(map(str, [*(worst_first(rows) if order is None else order), "[]"]))
    return "\n".join([
        f"order-of-{number} : worst_first {lower} {upper} {len(rows)} ≡ {states}", "unfolding computing", f"order-of-{number} = refl", "",
        f"text-of-{number} : report_text {len(rows)} {lower} {upper} {rows[0].depth} {verdicts} ≡ bytes {quoted(report_text(rows))}",
        "unfolding computing", f"text-of-{number} = refl", ""])


def check(equations):
    """Whether all equations hold, and what the check printed."""
    with tempfile.TemporaryDirectory() as folder:
        scratch = pathlib.Path(folder)
        shutil.copytree(ROOT / "crates" / "csl", scratch / "crates" / "csl", ignore=shutil.ignore_patterns("must-fail", "out"))
        crate = scratch / "crates" / "jobs"
        (crate / "src").mkdir(parents=True)
        (crate / "specs").mkdir()
        (crate / "src" / "lib.rt").write_text("// Jobs against the definitions.\n")
        (crate / "specs" / "Lib.antt").write_text("pub mod Jobs\n")
        text = HEAD + "\n" + "\n".join(equations)
        (crate / "specs" / "Jobs.antt").write_text(text, encoding="utf-8")
        (scratch / "crates.txt").write_text("csl:\njobs: csl\n")
        run = subprocess.run(["rt", "check"], cwd=crate, stdout=subprocess.PIPE, stderr=subprocess.STDOUT, text=True)
        return run.returncode == 0, run.stdout


def equations_of(jobs):
    """The equations for some jobs."""
    return [equation(number, job) for number, job in enumerate(jobs)]


def vectors(most):
    """The vectors whose three texts have at most so many bytes together."""
    return [case for case in cases() if sum(map(len, texts_of(case))) <= most]


def main():
    reader = argparse.ArgumentParser()
    reader.add_argument("--bytes", type=int, default=2000)
    most = reader.parse_args().bytes
    if MISSING:
        print(MISSING)
        return 1
    jobs = vectors(most)
    good, printed = check(equations_of(jobs) + [copy_equations(number, job["moves"], job["labels"]) for number, job in enumerate(jobs)])
    print(f"{len(jobs)} vectors: " + ("all hold" if good else "NOT ALL HOLD\n" + printed))
    return 0 if good else 1


if __name__ == "__main__":
    sys.exit(main())
