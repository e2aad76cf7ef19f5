"""Prints for the tests."""


def twice(first):
    """A print whose first listing is this; the second has its lines by falling lower end, and of equal ones the upper stays above."""
    head, *lines = first.splitlines(keepends=True)
    return first + head + b"".join(sorted(lines, key=lambda line: -int(line.split(b",")[1])))
