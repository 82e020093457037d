"""Where the labels of a map stand, so that none covers another."""
from html import escape

from farm_ground import bounds, grown
from farm_measure import turn
from farm_svg import group, short, tag, wide

PILL, LEADING = 18, 13  # how high a label of one line is, and each line more
OVERHANG = 26  # by how much a label may be wider than its block
BOLD, PLAIN = 6.8, 6.0  # about how wide a letter is drawn


class Labels:
    """Labels, none of which covers another; and the outlines of all blocks, which a label outside its own does not cover."""

    def __init__(self, map_, outlines):
        (x0, y1), (x1, y0) = map_.point(map_.window[:2]), map_.point(map_.window[2:])
        self.frame = x0 + 2, y0 + 2, x1 - 2, y1 - 2
        self.taken, self.outlines = [], [grown(bounds(outline), 2) for outline in outlines]

    def free(self, x, y, w, h, clear=False):
        """Whether a label with its middle at x, y covers no other, and if it shall be clear, no block."""
        box, frame = around(x, y, w, h), self.frame
        inside = box[0] >= frame[0] and box[1] >= frame[1] and box[2] <= frame[2] and box[3] <= frame[3]
        return inside and not any(cover(box, other) for other in self.taken + (self.outlines if clear else []))

    def take(self, x, y, w, h):
        self.taken.append(grown(around(x, y, w, h), 1))


def around(x, y, w, h):
    return x - w / 2, y - h / 2, x + w / 2, y + h / 2


def cover(a, b):
    return a[0] < b[2] and b[0] < a[2] and a[1] < b[3] and b[1] < a[3]


def within(polygon, x, y):
    """Whether a point of the drawing lies in an outline, which runs clockwise there."""
    return len(polygon) > 2 and all(turn(p, q, (x, y)) <= 0 for p, q in zip(polygon, polygon[1:] + polygon[:1]))


def middle(points):
    x0, y0, x1, y1 = bounds(points)
    return (x0 + x1) / 2, (y0 + y1) / 2


def spots(polygon):
    """Places in the box around an outline, those in its middle first."""
    x0, y0, x1, y1 = bounds(polygon)
    cx, cy = middle(polygon)
    grid = [(x0 + (x1 - x0) * i / 16, y0 + (y1 - y0) * j / 16) for i in range(1, 16) for j in range(1, 16)]
    return sorted([(cx, cy), *grid], key=lambda p: (round(abs(p[0] - cx) + abs(p[1] - cy), 1), p))


def beside(polygon, w, h):
    """Places of a label right outside the box around an outline."""
    x0, y0, x1, y1 = bounds(polygon)
    steps = [part / 8 for part in (4, 3, 5, 2, 6, 1, 7, 0, 8)]
    sides = [(x, y0 + (y1 - y0) * step) for x in (x1 + w / 2 + 5, x0 - w / 2 - 5) for step in steps]
    return sides + [(x0 + (x1 - x0) * step, y) for y in (y0 - h / 2 - 5, y1 + h / 2 + 5) for step in steps]


def ring(polygon):
    """Places further and further from the middle of an outline."""
    cx, cy = middle(polygon)
    return [(cx + step * i, cy + step * j) for step in range(16, 400, 8) for i in (-1, 0, 1) for j in (-1, 0, 1)]


class Label:
    """The words of a block, in one line or two, and the room that they take; twice as large where the drawing is shown small."""

    def __init__(self, *lines, size=1):
        self.lines, self.size = lines, size
        self.w = size * (max(wide(line, BOLD if not place else PLAIN) for place, line in enumerate(lines)) + 9)
        self.h = size * (PILL + LEADING * (len(lines) - 1))

    def inside(self, polygon, x, y):
        x0, y0, x1, y1 = around(x, y, self.w, self.h)
        return all(within(polygon, *corner) for corner in ((x0, y0), (x1, y0), (x1, y1), (x0, y1)))

    def draw(self, x, y, kind, home):
        """On its pill, with a line to its block where it stands away from it."""
        leader = [tag("path", class_="leader", d=f"M{short(x)} {short(y)}L{short(home[0])} {short(home[1])}")] if home else []
        pill = tag("rect", class_="pill", x=x - self.w / 2, y=y - self.h / 2, width=self.w, height=self.h, rx=5 * self.size)
        first = y + 4.2 * self.size - LEADING * (len(self.lines) - 1) / 2
        words = [tag("text", escape(line), x=x, y=first + LEADING * place, **({"class_": "second"} if place else {}))
                 for place, line in enumerate(self.lines)]
        return group([*leader, pill, *words], class_=f"label {kind}{' large' if self.size > 1 else ''}")


def placed(labels, polygon, number, name, size):
    """The label of a block and its middle. Number and name stand in the outline, or over it, or beside it; the number alone if there is no
    room for both."""
    x0, y0, x1, y1 = bounds(polygon)
    inner, alone = spots(polygon), Label(number, size=size)
    full = [Label(f"{number} {name}"), Label(number, name)] if name else [alone]
    over = [label for label in full if min(x1 - x0, y1 - y0) > PILL and label.w < x1 - x0 + OVERHANG and label.h < y1 - y0 + OVERHANG]
    tries = [(label, x, y, False) for label in full for x, y in inner if label.inside(polygon, x, y)]
    tries += [(label, x, y, False) for label in over for x, y in inner[:1]]
    tries += [(label, x, y, True) for label in full for x, y in beside(polygon, label.w, label.h)]
    tries += [(alone, x, y, False) for x, y in [*inner, *ring(polygon)]]
    for label, x, y, clear in tries:
        if labels.free(x, y, label.w, label.h, clear):
            return label, x, y
    return alone, *middle(polygon)
