"""A job that something was found with, kept in a folder: its three texts, and in lent.txt the seven lent lengths."""
from pathlib import Path

from reckoning.__main__ import read_texts
from reckoning.refusal import Lent
from tests.program import put

LENGTHS = "lent.txt"


def keep(folder, job, lent):
    """Writes a job and its lent lengths into a folder."""
    put(job, folder)
    (Path(folder) / LENGTHS).write_text("".join(f"{name} {length}\n" for name, length in zip(Lent._fields, lent)))


def kept(folder):
    """The job and the lent lengths of a folder."""
    lines = (Path(folder) / LENGTHS).read_text().splitlines()
    return tuple(read_texts(folder)), Lent(**{name: int(length) for name, length in map(str.split, lines)})
