"""Puts a sheet to the program, and reads what it prints."""
import re
import shlex
import subprocess
import tempfile
from collections import namedtuple
from pathlib import Path

from reckoning.__main__ import FILES
from reckoning.report import HEAD

NAMES = HEAD.decode() + "\n"
PRINTED = re.compile(NAMES + r"|refused\n[0-9]+\n")
ROW = re.compile(r"(?P<state>[0-9]+),(?P<lower>[0-9]+),(?P<upper>[0-9]+),(?P<depth>[0-9]+),(?P<verdict>[a-z]+)")
REFUSED = "refused"
ENDINGS = (0, 1)            # the statuses of an answer: a program has 0, and the command 1 for a refusal

Row = namedtuple("Row", "state lower upper depth verdict")


class Trouble(Exception):
    """No answer to show, and why."""


def ask(command, texts, inside=False):
    """What a command prints and says of three texts, put into a folder of their own: its name is the last argument, or the command is run inside."""
    with tempfile.TemporaryDirectory() as folder:
        for name, text in zip(FILES, texts):
            (Path(folder) / name).write_bytes(text)
        words, place = (command, folder) if inside else ([*command, folder], None)
        try:
            done = subprocess.run(words, cwd=place, stdout=subprocess.PIPE, stderr=subprocess.PIPE if inside else None)
        except OSError as reason:
            raise Trouble(f"cannot run {shlex.join(command)}: {reason.strerror}") from None
    printed = done.stdout.decode(errors="replace")
    if done.returncode not in ENDINGS or not PRINTED.match(printed):
        raise Trouble(f"{shlex.join(command)} printed no report (status {done.returncode})")
    return printed, (done.stderr or b"").decode(errors="replace")


def listings(printed):
    """The lines of the two listings of a report, without their lines of names; of a refusal its lines, and none."""
    first, _, second = printed.partition("\n" + NAMES)
    return first.removeprefix(NAMES).splitlines(), second.splitlines()


def rows(lines):
    """The rows that stand in the lines of a listing."""
    found = [ROW.fullmatch(line) for line in lines]
    if not found or None in found:
        raise Trouble("the report has a line that is no row")
    return [Row(int(row["state"]), int(row["lower"]), int(row["upper"]), int(row["depth"]), row["verdict"]) for row in found]
