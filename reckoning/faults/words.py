"""How a fault is told: its place, bytes in quotes, counts and lists. All of it is ASCII, so that every terminal shows it."""

MOST_QUOTED = 40            # characters between quotes
MOST_LISTED = 8
ESCAPES = {ord(sign): escape for sign, escape in (("\t", r"\t"), ("\r", r"\r"), ("\n", r"\n"), ('"', r"\""), ("\\", r"\\"))}
PRINTED = range(ord(" "), ord("~") + 1)


def told(words, file, line=None, field=None, token=None):
    """The sentence of a fault; lines, fields and tokens count from 1."""
    places = [f"{name} {number}" for name, number in (("line", line), ("field", field), ("token", token)) if number is not None]
    return ", ".join([file, *places]) + ": " + words


def quoted(part):
    """Bytes as they stand, in double quotes: those that are not printed are shown by escapes, and long parts are cut."""
    shown = ""
    for byte in part:
        sign = ESCAPES.get(byte) or (chr(byte) if byte in PRINTED else f"\\x{byte:02x}")
        if len(shown) + len(sign) > MOST_QUOTED:
            return f'"{shown}..."'
        shown += sign
    return f'"{shown}"'


def counted(number, noun):
    """`1 field`, `4,097 fields`"""
    return f"{number:,} {noun}{'' if number == 1 else 's'}"


def listed(names):
    """`up, dead and hot`; of many names the first few."""
    shown = [name.decode() for name in names[:MOST_LISTED]]
    if len(names) > MOST_LISTED:
        return f"{', '.join(shown)} and {len(names) - MOST_LISTED} more"
    return " and ".join(filter(None, [", ".join(shown[:-1]), shown[-1]]))


def first(slips, *given):
    """What the first of these slips that there is any of says; None where there is none."""
    return next(filter(None, (slip(*given) for slip in slips)), None)
