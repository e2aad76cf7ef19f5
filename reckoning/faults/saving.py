"""Slips of saving a text: bytes that an editor or a spreadsheet puts there unasked."""
import re

from .words import quoted

BYTE_ORDER_MARK = b"\xef\xbb\xbf"
HARD_SPACE = "\N{NO-BREAK SPACE}".encode()
SEPARATORS = (re.compile(rb".*;.*"), "semicolons"), (re.compile(rb".*\t.*"), "tabs"), (re.compile(rb"\w+(?: +\w+)+"), "spaces")
NO_LINE_FEED = "the line feed at the end is missing: press Enter at the end of the line and save"


def saving_slip(part):
    """What a line, field or token shows of how its text was saved, or None."""
    if b"\0" in part:
        return "bytes 0, as files in UTF-16 have: save the file as plain text in ASCII or UTF-8"
    if part.startswith(BYTE_ORDER_MARK):
        return "a byte order mark at the beginning: save the file as UTF-8 without one (without BOM), or as ASCII"
    if b"\r" in part:
        return "a carriage return, as Windows line ends have: save the file with Unix line ends (LF, not CRLF)"
    if HARD_SPACE in part:
        return "a no-break space (\\xc2\\xa0), which looks like a space and is none: type it anew"
    return None


def separators(text):
    """What is said of a line of a sheet that has something else in the place of commas."""
    found = next((name for pattern, name in SEPARATORS if pattern.fullmatch(text)), "")
    return f"{quoted(text)} has {found}: fields are set apart by commas" if found else ""


def quotes(text):
    """What is said of a line of a sheet that has quotes."""
    return f"{quoted(text)} has quotes: write the fields without them" if b'"' in text else ""
