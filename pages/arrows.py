"""Arrows between boxes: curves that keep clear of other boxes, moves there and back drawn apart, loops, and places for the words beside them."""
from collections import namedtuple
from math import sqrt

# A box by its middle and half its width and height; a label is one too.
Box = namedtuple("Box", "x y across down")

# A curve by its two ends and the places that pull at it.
Curve = namedtuple("Curve", "start pulls end")

APART = 18                  # how far the pull of an arrow with another back is to its own side
BENDS = (0, 26, 52, 84, 120, 160)
CLEAR = 5                   # between an arrow and the boxes that it passes
SAMPLES = 24                # places that are looked at along an arrow
SPOTS = (12, 11, 13, 10, 14, 9, 15, 8, 16, 7, 17, 6, 18, 5, 19)     # those among them where its label may be, the best first
HEAD = 11                   # half the room that the head of an arrow has around its tip
BESIDE = (0, 1, -1)         # on the arrow, or to either side
CORNERS = ((1, -1), (-1, -1), (1, 1), (-1, 1))
LOOP = 26                   # how far a loop goes out


def border(box, toward):
    """Where the line from the middle of a box toward a place leaves it."""
    right, down = toward[0] - box.x, toward[1] - box.y
    part = min(box.across / abs(right) if right else 1, box.down / abs(down) if down else 1)
    return box.x + right * part, box.y + down * part


def bent(a, b, bend):
    """The curve from one box to another, pulled so far to its left."""
    right, down = b.x - a.x, b.y - a.y
    length = sqrt(right * right + down * down)
    pull = (a.x + b.x) / 2 + down / length * bend, (a.y + b.y) / 2 - right / length * bend
    return Curve(border(a, pull), (pull,), border(b, pull))


def loop(box, corner):
    """A curve from a box around one of its corners and back."""
    right, down = corner
    x, y = box.x + right * box.across, box.y + down * box.down
    back, out = min(box.across, box.down, LOOP) * 0.8, LOOP * 1.3
    pulls = (x - right * back * 0.6, y + down * out), (x + right * out, y - down * back * 0.6)
    return Curve((x - right * back, y), pulls, (x, y - down * back))


def place(curve, part):
    """The place at some part of a curve, from 0 at its start to 1."""
    row = [curve.start, *curve.pulls, curve.end]
    while len(row) > 1:
        row = [(a[0] + (b[0] - a[0]) * part, a[1] + (b[1] - a[1]) * part) for a, b in zip(row, row[1:])]
    return row[0]


def places(curve):
    return [place(curve, step / SAMPLES) for step in range(SAMPLES + 1)]


def inside(box, at, clear=0):
    return abs(at[0] - box.x) < box.across + clear and abs(at[1] - box.y) < box.down + clear


def overlap(one, other):
    return abs(one.x - other.x) < one.across + other.across and abs(one.y - other.y) < one.down + other.down


def met(curve, boxes):
    """How many places of a curve lie in boxes."""
    return sum(inside(box, at, CLEAR) for at in places(curve) for box in boxes)


def clear_curve(a, b, back, boxes):
    """The least bent curve from a to b that meets no other box, else the one that meets least; with a move back it keeps to its own side."""
    others = [box for box in boxes if box not in (a, b)]
    bends = [APART + bend for bend in BENDS] if back else [side * bend for bend in BENDS for side in (1, -1)]
    tried = [bent(a, b, bend) for bend in bends]
    return next((curve for curve in tried if not met(curve, others)), None) or min(tried, key=lambda curve: met(curve, others))


def clear_loop(box, boxes, drawn):
    """The loop at the corner where it meets least of other boxes and of what is drawn."""
    others = [other for other in boxes if other != box]

    def crowd(corner):
        room = Box(*place(loop(box, corner), 0.5), LOOP, LOOP)
        return met(loop(box, corner), others), sum(inside(room, at) for at in drawn)
    return loop(box, min(CORNERS, key=crowd))


def label_box(curve, across, down, spot, beside):
    """A label of this half size along a curve, moved off it where it stands beside."""
    x, y = place(curve, spot / SAMPLES)
    before, after = place(curve, (spot - 1) / SAMPLES), place(curve, (spot + 1) / SAMPLES)
    right, under = after[0] - before[0], after[1] - before[1]
    length = sqrt(right * right + under * under) or 1
    off = beside * (across * abs(under) / length + down * abs(right) / length + 2)
    return Box(x + under / length * off, y - right / length * off, across, down)


def around(boxes):
    """The box around some boxes of one size."""
    left, right = min(box.x for box in boxes), max(box.x for box in boxes)
    top, bottom = min(box.y for box in boxes), max(box.y for box in boxes)
    return Box((left + right) / 2, (top + bottom) / 2, (right - left) / 2 + boxes[0].across, (bottom - top) / 2 + boxes[0].down)


def label_place(curve, across, down, boxes, labels, drawn):
    """Where a label is least in the way: of boxes, other labels and the arrow's own head first, then of other arrows. One of a loop stands off it."""
    tried = [label_box(curve, across, down, spot, beside) for beside in BESIDE for spot in SPOTS]
    room = around(tried)
    blocking = [box for box in (*boxes, *labels, Box(*curve.end, HEAD, HEAD)) if overlap(room, box)]
    passing = [at for at in drawn + (places(curve) if len(curve.pulls) > 1 else []) if inside(room, at)]

    def trouble(label):
        return sum(overlap(label, other) for other in blocking), sum(inside(label, at) for at in passing)
    return min(tried, key=trouble)
