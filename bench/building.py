"""Builds what the bench runs, into target/bench: the C programs, and the project's library and program where they are not built yet."""
import subprocess
import sys
from pathlib import Path

from tests.places import ARCHIVE, PROGRAM, ROOT, TARGET, is_stale

HERE = Path(__file__).resolve().parent
PLACE = TARGET / "bench"
COMPILER = ["cc", "-O3", "-std=gnu11", "-Wall", "-Wextra"]

# Where Arb may be: since FLINT 3 in its library, before that beside it. Words for the compiler.
ARB = [["-DBENCH_ARB_IN_FLINT", "-lflint"], ["-lflint-arb", "-lflint"], ["-larb", "-lflint"]]


def compile_c(name, sources, *words, quiet=False):
    """Whether the program of this name could be built from its sources. `quiet` is for a trial, whose messages are no one's concern."""
    files = [str(HERE / source) for source in sources]
    command = COMPILER + files + ["-o", str(PLACE / name), *map(str, words)]
    return subprocess.run(command, stderr=subprocess.DEVNULL if quiet else None).returncode == 0


def need(path, verb):
    """Has `rt` prove and build what is to be at the path, in its crate, where it is not there or older than the crates."""
    crate = path.parent.parent
    if is_stale(path):
        print(f"building {path.relative_to(ROOT)} by `rt {verb}` in {crate.relative_to(ROOT)}", flush=True)
        built = subprocess.run(["rt", verb], cwd=crate, stdin=subprocess.DEVNULL, stdout=sys.stderr)
        if built.returncode != 0 or not path.exists():
            sys.exit(f"bench: `rt {verb}` failed in {crate.relative_to(ROOT)}")
        path.touch()


def build_balls():
    """Whether Arb is there; the program with its balls is built then."""
    return any(compile_c("balls", ["balls.c", "sheet.c"], *words, quiet=True) for words in ARB)


def build():
    """Builds everything; answers whether Arb is there."""
    PLACE.mkdir(parents=True, exist_ok=True)
    need(ARCHIVE, "lib")
    need(PROGRAM, "run")
    built = [
        compile_c("doubles", ["doubles.c", "sheet.c"]),
        compile_c("job", ["job.c"], ARCHIVE),
        compile_c("short", ["job.c"], "-DBENCH_SHORT", ARCHIVE),
        compile_c("turns", ["turns.c"], ARCHIVE),
        compile_c("lines", ["lines.c"], ARCHIVE),
        compile_c("within", ["within.c"]),
    ]
    if not all(built):
        sys.exit("bench: the C programs cannot be built")
    return build_balls()
