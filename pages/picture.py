"""A picture of two ends against time, as SVG text."""
import re
from collections import namedtuple
from decimal import ROUND_CEILING, ROUND_FLOOR, Decimal
from html import escape
from itertools import chain

from reckoning.limits import BILLION

# The two ends, in billionths, and the verdict at so many hours.
Point = namedtuple("Point", "hours lower upper verdict")

# An axis: what lies at its ends, the pixels there, and the values that have a tick.
Axis = namedtuple("Axis", "low high start end ticks")

WIDTH, HEIGHT = 860, 580
LEFT, RIGHT, TOP, BOTTOM = 110, 830, 132, 490       # of the plot
LEGEND = 106
NAME_PLACE = 26             # of the name of the upright axis, from the left
DIGIT = 9.6                 # how wide a digit at a tick is at most
HEADLESS = 84               # where a picture without its lines of words begins
MOST_TICKS = 9
OF_AN_HOUR = Decimal("0.01"), Decimal("0.05"), Decimal("0.25")      # steps of ticks below an hour
MOST_MARKS = 60             # with more points the lines go without marks
FAR = 5                     # a threshold over so many times the greatest upper end is not drawn
TITLE_LETTERS, LINE_LETTERS = 64, 90

STYLE = """
text { font-family: Helvetica, Arial, 'DejaVu Sans', sans-serif; font-size: 14px; fill: #222; }
.title { font-size: 18px; font-weight: bold; }
.formula { font-family: Menlo, Consolas, 'DejaVu Sans Mono', monospace; font-size: 13px; }
.note { font-size: 13px; fill: #555; }
.grid { stroke: #e3e3e3; }
.axis, .tick { stroke: #222; }
.between { fill: #e08a1e; fill-opacity: 0.18; stroke: none; }
.upper { fill: none; stroke: #f0a33c; stroke-width: 6; stroke-linejoin: round; }
.lower { fill: none; stroke: #123f8f; stroke-width: 2.2; stroke-linejoin: round; }
circle.upper { fill: #fff; stroke-width: 2.5; }
circle.lower { fill: #123f8f; stroke: none; }
.threshold { stroke: #b3202c; stroke-width: 1.8; stroke-dasharray: 8 5; }
"""


def style(within=""):
    """The rules of a picture, or of those in one place of a page alone, which `within` selects."""
    return re.sub(r"(?m)^(?=[a-z.])|(?<=, )(?=\.)", within, STYLE)


def draw(title, state, formula, points, threshold):
    """The picture of points in the order of their hours, with three lines of words; `threshold` is in billionths."""
    x, y = axes(points, threshold)
    parts = [
        f'<svg xmlns="http://www.w3.org/2000/svg" width="{WIDTH}" height="{HEIGHT}" viewBox="{view(y)}">',
        f"<title>{escape(title)}, {escape(state)}</title>", f"<desc>{escape(formula)}</desc>", f"<style>{style()}</style>",
        *([f'<rect x="{left(y):.0f}" width="{-left(y):.0f}" height="{HEIGHT}" fill="#fff"/>'] if left(y) else []),
        f'<rect width="{WIDTH}" height="{HEIGHT}" fill="#fff"/>',
        text(LEFT, 32, cut(title, TITLE_LETTERS), "title"), text(LEFT, 56, cut(state, LINE_LETTERS)),
        text(LEFT, 79, cut(formula, LINE_LETTERS), "formula"),
        *plot(x, y, points, threshold)]
    return "\n".join(parts) + "\n</svg>\n"


def draw_for_page(name, title, described, points, threshold, asked):
    """The same for a page that has these words elsewhere and the rules in its style, with a line at the hours that are asked about. On the page
    the picture has a name of its own."""
    x, y = axes(points, threshold)
    parts = [
        f'<svg class="curve" role="img" aria-labelledby="{name}-title {name}-desc" viewBox="{view(y, HEADLESS)}">',
        f'<title id="{name}-title">{escape(title)}</title>', f'<desc id="{name}-desc">{escape(described)}</desc>',
        *asked_line(at(x, asked), plain(asked)), *plot(x, y, points, threshold)]
    return "\n".join(parts) + "\n</svg>\n"


def plot(x, y, points, threshold):
    """All of a picture below its lines of words."""
    yield from legend(threshold, threshold <= y.high)
    yield from frame(x, y)
    yield from curves(x, y, points)
    if threshold <= y.high:
        yield line(LEFT, at(y, threshold), RIGHT, at(y, threshold), "threshold")
    yield text(RIGHT, BOTTOM + 72, apart(points), "note", "end")


def view(y, top=0):
    """What is seen of a picture."""
    return f"{left(y):.0f} {top} {WIDTH - left(y):.0f} {HEIGHT - top}"


def left(y):
    """Where a picture begins: further left where the words at the ticks are long."""
    return min(0, name_place(y) - NAME_PLACE)


def name_place(y):
    """Where the name of the upright axis stands: left of the words at its ticks."""
    return min(NAME_PLACE, LEFT - 10 - DIGIT * max(map(len, tick_words(y))) - 16)


def tick_words(y):
    """Decimals at the ticks of the upright axis, as many behind the point at each."""
    decimals = max(len(plain(value / BILLION).partition(".")[2]) for value in y.ticks)
    return [f"{value / BILLION:.{decimals}f}" if value else "0" for value in y.ticks]


def asked_line(place, hours):
    """The hours of the question, told below the plot."""
    yield line(place, TOP, place, BOTTOM, "asked")
    yield text(LEFT, BOTTOM + 72, f"the dotted line is at the hours asked about, {hours}", "note")


def apart(points):
    most = max(point.upper - point.lower for point in points)
    return f"the two ends are at most {most} billionth{'' if most == 1 else 's'} apart"


def axes(points, threshold):
    first, last = points[0].hours, points[-1].hours
    if first == last:
        first, last = Decimal(0), last or Decimal(1)
    greatest = Decimal(max(point.upper for point in points))
    if threshold <= FAR * greatest or greatest == 0:
        greatest = max(greatest, Decimal(threshold))
    return Axis(first, last, LEFT, RIGHT, ticks(first, last, tick_step(last - first, OF_AN_HOUR))), upright(points, threshold, greatest)


def upright(points, threshold, greatest):
    """The axis of probabilities, up to the greatest of them. It begins at 0, but for probabilities that are all more than half of it."""
    greatest = greatest or Decimal(BILLION)
    least = min(Decimal(threshold), *(Decimal(point.lower) for point in points))
    low = least if least < greatest < 2 * least else Decimal(0)
    step = tick_step(greatest - low)
    bottom, top = (low / step).to_integral_value(ROUND_FLOOR) * step, (greatest / step).to_integral_value(ROUND_CEILING) * step
    return Axis(bottom, top, BOTTOM, TOP, ticks(bottom, top, step))


def steps():
    """1, 2, 5, 10, 20, .."""
    power = Decimal(1)
    while True:
        yield from (power, 2 * power, 5 * power)
        power *= 10


def tick_step(span, finer=()):
    """The least of some finer steps and of 1, 2, 5, 10, 20, .. that makes few ticks."""
    return next(step for step in chain(finer, steps()) if span / step <= MOST_TICKS - 1)


def ticks(low, high, step):
    """The multiples of a step from low to high."""
    first = (low / step).to_integral_value(ROUND_CEILING)
    return [step * (first + more) for more in range(int(high / step - first) + 1)]


def at(axis, value):
    """Where a value lies, in pixels."""
    return axis.start + float((value - axis.low) / (axis.high - axis.low)) * (axis.end - axis.start)


def frame(x, y):
    """The two axes with ticks, grid lines and names."""
    for value, words in zip(y.ticks, tick_words(y)):
        height = at(y, value)
        yield line(LEFT, height, RIGHT, height, "grid")
        yield line(LEFT - 6, height, LEFT, height, "tick")
        yield text(LEFT - 10, height + 5, words, "y", "end")
    for value in x.ticks:
        place = at(x, value)
        yield line(place, BOTTOM, place, BOTTOM + 6, "tick")
        yield text(place, BOTTOM + 24, plain(value), "x", "middle")
    yield line(LEFT, BOTTOM, RIGHT, BOTTOM, "axis")
    yield line(LEFT, TOP, LEFT, BOTTOM, "axis")
    yield text((LEFT + RIGHT) / 2, BOTTOM + 48, "hours", anchor="middle")
    name = f"probability, from {plain(y.low / BILLION)} on" if y.low else "probability"
    yield f'<g transform="translate({name_place(y):.0f} {(TOP + BOTTOM) / 2}) rotate(-90)">{text(0, 0, name, anchor="middle")}</g>'


def curves(x, y, points):
    """The upper end under the lower, so that both are seen where they meet; a mark with its numbers at each point."""
    upper = [(at(x, point.hours), at(y, point.upper)) for point in points]
    lower = [(at(x, point.hours), at(y, point.lower)) for point in points]
    yield f'<polygon class="between" points="{places(upper + lower[::-1])}"/>'
    yield f'<polyline class="upper" points="{places(upper)}"/>'
    yield f'<polyline class="lower" points="{places(lower)}"/>'
    if len(points) <= MOST_MARKS:
        for point, high, low in zip(points, upper, lower):
            told = f"{plain(point.hours)} hours: lower {point.lower}, upper {point.upper} billionths, {point.verdict}"
            yield f"<g><title>{escape(told)}</title>{mark(high, 5, 'upper')}{mark(low, 3, 'lower')}</g>"


def legend(threshold, drawn):
    """A row above the plot."""
    note = "" if drawn else ", above this picture"
    words = {"upper": "upper end", "lower": "lower end", "threshold": f"threshold {plain(Decimal(threshold) / BILLION)}{note}"}
    for place, (kind, name) in zip((LEFT, LEFT + 140, LEFT + 280), words.items()):
        yield line(place, LEGEND, place + 34, LEGEND, kind) + text(place + 42, LEGEND + 5, name)


def text(x, y, words, kind=None, anchor=None):
    extra = (f' class="{kind}"' if kind else "") + (f' text-anchor="{anchor}"' if anchor else "")
    return f'<text x="{x:.2f}" y="{y:.2f}"{extra}>{escape(words)}</text>'


def line(x1, y1, x2, y2, kind):
    return f'<line class="{kind}" x1="{x1:.2f}" y1="{y1:.2f}" x2="{x2:.2f}" y2="{y2:.2f}"/>'


def mark(place, radius, kind):
    return f'<circle class="{kind}" cx="{place[0]:.2f}" cy="{place[1]:.2f}" r="{radius}"/>'


def places(pairs):
    return " ".join(f"{x:.2f},{y:.2f}" for x, y in pairs)


def plain(number):
    """A decimal without an exponent and without trailing zeros."""
    digits = f"{number:f}"
    return digits.rstrip("0").rstrip(".") if "." in digits else digits


def cut(words, most):
    return words if len(words) <= most else words[:most - 2] + " \N{HORIZONTAL ELLIPSIS}"
