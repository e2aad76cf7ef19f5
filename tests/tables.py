"""The tables of a page in Markdown, found by their heads, and what stands in their cells."""
import re
from itertools import takewhile

BAR = re.compile(r"(?<!\\)\|")              # between two cells; one with \ before it stands in a cell
CODE = re.compile(r"`([^`]*)`")
NUMBER = re.compile(r"\d{1,3}(?:,\d{3})+(?:\.\d+)?|\d+(?:\.\d+)?")


def cells(line):
    """The cells of a line of a table."""
    return [cell.strip() for cell in BAR.split(line)[1:-1]]


def table(text, *heads):
    """The rows of the table that has these heads, each a list of cells; there has to be one such table."""
    lines = text.splitlines()
    [at] = [at for at, line in enumerate(lines) if cells(line) == list(heads)]
    return [cells(line) for line in takewhile(lambda line: line.startswith("|"), lines[at + 2:])]


def code(cell):
    """What stands in quotes in a cell that has one thing in quotes."""
    [found] = CODE.findall(cell)
    return found


def numbers(cell):
    """The numbers in a cell, as they are written but without the commas between thousands."""
    return [number.replace(",", "") for number in NUMBER.findall(cell)]
