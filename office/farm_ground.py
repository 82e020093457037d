"""The part of the ground that a map shows, and how it is scaled."""
from farm_measure import clipped, ground_height, mast
from farm_svg import short

WIDE, HIGHEST, LOWEST, EDGE = 720, 620, 300, 6


def bounds(points):
    xs, ys = [p[0] for p in points], [p[1] for p in points]
    return min(xs), min(ys), max(xs), max(ys)


def grown(window, by):
    x0, y0, x1, y1 = window
    return x0 - by, y0 - by, x1 + by, y1 + by


def square(window):
    x0, y0, x1, y1 = window
    return [(x0, y0), (x1, y0), (x1, y1), (x0, y1)]


def size(window):
    return max(window[2] - window[0], window[3] - window[1], 100.0)


class Map:
    """The part of the ground that is drawn, and the scale at which it is."""

    def __init__(self, blocks, planes, rays):
        self.height = ground_height(blocks)
        self.mast = mast(rays)
        self.halves = {plane.place: plane.at_ground(self.height) for plane in planes}
        self.camera = [self.halves[plane.place] for plane in planes if not plane.screen and self.halves[plane.place]]
        self.window = self.framed(blocks)
        x0, y0, x1, y1 = self.window
        self.scale = min((WIDE - 2 * EDGE) / (x1 - x0), HIGHEST / (y1 - y0))
        self.left = (WIDE - self.scale * (x1 - x0)) / 2
        self.bottom = EDGE + self.scale * (y1 - y0)

    def framed(self, blocks):
        """A window around the blocks, the mast, and as much of the ground in view as lies near them."""
        points = [p for block in blocks for p in block.outline] + ([self.mast[:2]] if self.mast else [])
        around = bounds(points or square((0.0, 0.0, 4000.0, 3000.0)))
        ground = self.in_view(grown(around, size(around) / 2))
        around = bounds([*square(around), *ground])
        x0, y0, x1, y1 = grown(around, size(around) / 20)
        more = max(0.0, (y1 - y0) / 2 - (x1 - x0)) / 2, max(0.0, (x1 - x0) * LOWEST / WIDE - (y1 - y0)) / 2
        return x0 - more[0], y0 - more[1], x1 + more[0], y1 + more[1]

    def in_view(self, window):
        """The ground of a window that satisfies the camera's planes."""
        ground = square(window)
        for half in self.camera:
            ground = clipped(ground, half) if ground else ground
        return ground

    def point(self, p):
        return self.left + (p[0] - self.window[0]) * self.scale, self.bottom - (p[1] - self.window[1]) * self.scale

    def path(self, points):
        """A closed way through points of the ground."""
        drawn = [self.point(p) for p in points]
        return "M" + "L".join(f"{short(x)} {short(y)}" for x, y in drawn) + "Z" if drawn else ""

    def crossing(self, half):
        """The ends of the line at which a plane meets the ground of the window, or none."""
        if half is None or half[:2] == (0.0, 0.0):
            return None
        a, b, c = half
        ends = [p for p in clipped(square(self.window), half) if abs(a * p[0] + b * p[1] - c) * self.scale < 0.01]
        found = sorted(set(ends))
        return (found[0], found[-1]) if len(found) > 1 else None
