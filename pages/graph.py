"""A drawing of a sheet's states and moves, as SVG text for a page: boxes in the colours of the verdicts, an arrow for each pair with its rate."""
import textwrap
from collections import namedtuple
from html import escape

from .arrows import Box, clear_curve, clear_loop, label_place, places
from .layout import FEW, cells_of
from .naming import told_state
from .picture import cut

MOST_DRAWN = 40             # states
MOST_RATES = 50             # arrows up to which their rates stand beside them
LETTER, LINE = 6.3, 14      # how wide a letter of a rate or a name is about, and how high a line of them
NAME_LETTERS, NAME_LINES = 19, 3
SECOND_LINE = 4             # how far the second line is around the worst state
MARGIN = 8
LEAST_SCALE = 0.92          # letters are not drawn smaller than this on a screen

# How far cells lie apart, and half the size of a box: with names in the boxes, or with numbers alone.
Size = namedtuple("Size", "step_right step_down across down")
NAMED = Size(212, 134, 66, 34)
NUMBERED = Size(118, 96, 23, 16)

Arrow = namedtuple("Arrow", "source target rate curve label")


def draw_graph(sheet, verdicts, worst):
    """The drawing, with the verdict of each state; `worst` is the number of a state."""
    size = NAMED if sheet.chain.states <= FEW else NUMBERED
    boxes = [state_box(size, cell, state == worst) for state, cell in enumerate(cells_of(sheet.chain.states, sheet.chain.rates))]
    arrows = curves(sheet.chain.rates, boxes)
    if has_rates(sheet):
        arrows = labelled(arrows, boxes)
    about = f"{sheet.chain.states} states and {len(arrows)} moves between them. The table of states and moves.txt say the same in words and numbers."
    return "\n".join([
        f'<svg class="graph" role="img" aria-labelledby="graph-title graph-desc" {frame(boxes, arrows)}>',
        '<title id="graph-title">The states of the sheet and its moves</title>', f'<desc id="graph-desc">{about}</desc>',
        '<defs><marker id="head" viewBox="0 0 10 10" refX="9" refY="5" markerWidth="8" markerHeight="8" orient="auto">'
        '<path d="M0 1 10 5 0 9z"/></marker></defs>',
        *map(drawn_arrow, arrows), *(drawn_label(arrow) for arrow in arrows if arrow.label),
        *(drawn_state(sheet, state, box, size, verdicts[state]) for state, box in enumerate(boxes))]) + "\n</svg>\n"


def state_box(size, cell, worst):
    """The room of a state, a little more of the worst, which has a second line around it."""
    column, row = cell
    more = SECOND_LINE if worst else 0
    return Box(column * size.step_right, row * size.step_down, size.across + more, size.down + more)


def has_rates(sheet):
    """Whether the rates stand beside the arrows."""
    return sheet.chain.states <= FEW and len(sheet.chain.rates) <= MOST_RATES


def curves(rates, boxes):
    """The arrows of all pairs, those to the own state last, for the corners that are left."""
    apart = [Arrow(a, b, rate, clear_curve(boxes[a], boxes[b], (b, a) in rates, boxes), None) for (a, b), rate in sorted(rates.items()) if a != b]
    drawn = [at for arrow in apart for at in places(arrow.curve)]
    return apart + [Arrow(a, b, rate, clear_loop(boxes[a], boxes, drawn), None) for (a, b), rate in sorted(rates.items()) if a == b]


def labelled(arrows, boxes):
    """The arrows with places for their rates. In a second round each is placed with all others in sight."""
    drawn, labels = [places(arrow.curve) for arrow in arrows], [None] * len(arrows)
    for at in [*range(len(arrows))] * 2:
        others = [label for place, label in enumerate(labels) if label and place != at]
        beside = [point for place, row in enumerate(drawn) if place != at for point in row]
        across = len(f"{arrows[at].rate:,}") * LETTER / 2 + 2
        labels[at] = label_place(arrows[at].curve, across, LINE / 2, boxes, others, beside)
    return [arrow._replace(label=label) for arrow, label in zip(arrows, labels)]


def frame(boxes, arrows):
    """The view around all that is drawn, and the width at which letters have their own size; a little less will do."""
    taken = [*boxes, *(arrow.label for arrow in arrows if arrow.label), *(Box(*at, 0, 0) for arrow in arrows for at in places(arrow.curve))]
    left, top = min(box.x - box.across for box in taken) - MARGIN, min(box.y - box.down for box in taken) - MARGIN
    width, height = max(box.x + box.across for box in taken) + MARGIN - left, max(box.y + box.down for box in taken) + MARGIN - top
    return f'viewBox="{left:.0f} {top:.0f} {width:.0f} {height:.0f}" style="width: {width:.0f}px; min-width: {width * LEAST_SCALE:.0f}px"'


def drawn_arrow(arrow):
    bend = "QC"[len(arrow.curve.pulls) - 1]
    start, *way = [f"{x:.1f} {y:.1f}" for x, y in (arrow.curve.start, *arrow.curve.pulls, arrow.curve.end)]
    return f'<path class="move" d="M{start} {bend}{" ".join(way)}" marker-end="url(#head)">{arrow_title(arrow)}</path>'


def drawn_label(arrow):
    return f'<g>{arrow_title(arrow)}<text class="rate" x="{arrow.label.x:.1f}" y="{arrow.label.y + 4:.1f}">{arrow.rate:,}</text></g>'


def arrow_title(arrow):
    """What is shown where the arrow or its rate is pointed at."""
    return f"<title>{arrow.source} to {arrow.target}: {arrow.rate:,} per million hours</title>"


def drawn_state(sheet, state, box, size, verdict):
    """A box with what is in it, which is cut at its border; a second line around the worst, a triangle in state 0."""
    inner = Box(box.x, box.y, size.across, size.down)
    lines = box_lines(sheet, state) if size == NAMED else []
    first = size.down + 5 - LINE / 2 * len(lines)
    words = [f'<text class="state" x="{size.across}" y="{first:.1f}">{state}</text>',
             *(f'<text x="{size.across}" y="{first + LINE * at:.1f}">{escape(line)}</text>' for at, line in enumerate(lines, 1))]
    begin = f'<path class="begin" d="M6 {first - 10:.1f}v10l8-5z"/>' if state == 0 else ""
    told = escape(told_state(sheet.names, state) + f" ({verdict}); labels: {' '.join(sheet.labels_at(state)) or 'none'}")
    return "".join([
        f'<g class="{verdict}"><title>{told}</title>', f'<rect class="worst" {sides(box)} rx="9"/>' if box != inner else "",
        f'<rect {sides(inner)} rx="6"/><svg {sides(inner)}>', begin, *words, "</svg></g>"])


def sides(box):
    return f'x="{box.x - box.across:.1f}" y="{box.y - box.down:.1f}" width="{2 * box.across}" height="{2 * box.down}"'


def box_lines(sheet, state):
    """The name of a state in a few short lines, at its commas where that is enough; without names the labels that hold."""
    name = sheet.names.get(state) or " ".join(sheet.labels_at(state))
    parts = name.split(", ")
    if len(parts) > NAME_LINES or max(map(len, parts)) > NAME_LETTERS:
        parts = textwrap.wrap(name, NAME_LETTERS)
    return [cut(part, NAME_LETTERS) for part in parts[:NAME_LINES] if part]
