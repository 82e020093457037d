"""Planes and blocks as they lie on a farm: corners, outlines from above, and how far a corner is from a plane.

All of it is measured, in floating point and in the units of the farm file, to be drawn and told beside a verdict. No verdict comes from it.
"""
import math
from itertools import product

ON = 1e-6  # so near, a corner is told to lie on a plane
BEYOND = 1e8  # a block that reaches further is not drawn
FLAT = 1e-13  # a matrix whose determinant is no larger has no inverse
CAMERA = ["left", "right", "bottom", "top", "near", "far"]


def dot(a, b):
    return sum(p * q for p, q in zip(a, b))


class Plane:
    """A plane of the view, by its place in the list."""

    def __init__(self, place, numbers):
        self.place, self.normal, self.distance = place, numbers[:3], numbers[3]
        self.length = math.hypot(*self.normal)
        self.screen = place >= len(CAMERA)
        self.side = None if self.screen else CAMERA[place]

    def past(self, point):
        """How far the point is in front of the plane; below 0 it is behind."""
        raw = dot(self.normal, point) - self.distance
        return raw / self.length if self.length else raw

    def level(self):
        """Whether the plane has no height in its normal, so that a corner's height does not matter to it."""
        return self.normal[2] == 0

    def at_ground(self, height):
        """The half of the ground that satisfies the plane, as a, b and c of a·x + b·y ≥ c, with a and b of unit length if they are not
        both 0; None where the numbers are too large or too small to draw."""
        a, b, c = self.normal[0], self.normal[1], self.distance - self.normal[2] * height
        size = math.hypot(a, b) or 1.0
        half = a / size, b / size, c / size
        return half if all(math.isfinite(number) for number in half) else None


def determinant(rows):
    """Of a square matrix, along its first row."""
    if len(rows) == 1:
        return rows[0][0]
    return sum((-1) ** place * entry * determinant([row[:place] + row[place + 1:] for row in rows[1:]])
               for place, entry in enumerate(rows[0]))


def moved(point, rows):
    """A point under a matrix, by its w unless that is 0."""
    x, y, z, w = (dot([*point, 1.0], column) for column in zip(*rows))
    return tuple(v / (w or 1.0) for v in (x, y, z))


class Block:
    """A block as it is placed: its eight corners, and its outline from above."""

    def __init__(self, number, name, record):
        self.number, self.name = number, name
        rows = [record[6 + 4 * row:10 + 4 * row] for row in range(4)]
        self.flattened = not abs(determinant(rows)) > FLAT
        ends = list(product(*zip(record[0:3], record[3:6])))
        self.corners = ends if self.flattened else [moved(end, rows) for end in ends]
        self.drawable = all(abs(v) <= BEYOND for corner in self.corners for v in corner)
        self.outline = hull([corner[:2] for corner in self.corners]) if self.drawable else []

    def furthest(self, plane):
        """The corner furthest along the plane's normal, the least of several, and how far it is in front."""
        return self.corner(plane, max)

    def hindmost(self, plane):
        """The corner furthest against the plane's normal, and how far it is in front."""
        return self.corner(plane, min)

    def corner(self, plane, extreme):
        far = extreme(plane.past(corner) for corner in self.corners)
        alike = [corner for corner in self.corners if not abs(plane.past(corner) - far) > ON]
        return min(alike), far


def hull(points):
    """The corners of the smallest convex outline, counter-clockwise."""
    points = sorted(set(points))
    if len(points) < 3:
        return points

    def half(points):
        side = []
        for p in points:
            while len(side) > 1 and turn(side[-2], side[-1], p) <= 0:
                side.pop()
            side.append(p)
        return side[:-1]

    return half(points) + half(points[::-1])


def turn(a, b, c):
    """Above 0 where the way from a over b to c turns left."""
    return (b[0] - a[0]) * (c[1] - a[1]) - (b[1] - a[1]) * (c[0] - a[0])


def clipped(polygon, half):
    """The part of a polygon with a·x + b·y ≥ c."""
    a, b, c = half
    kept = []
    for p, q in zip(polygon, polygon[1:] + polygon[:1]):
        here, there = (a * v[0] + b * v[1] - c for v in (p, q))
        if here >= 0:
            kept.append(p)
        if (here < 0) != (there < 0):
            part = here / (here - there)
            kept.append(tuple(u + (v - u) * part for u, v in zip(p, q)))
    return kept


def other_side(half):
    return tuple(-number for number in half)


def mast(rays):
    """Where the lines of sight meet: where they all start, or the one point that they come from; None if there is no such point."""
    starts = {ray[:3] for ray in rays}
    start = starts.pop() if len(starts) == 1 else meeting(rays)
    return start if start and all(abs(v) <= BEYOND for v in start) else None


def meeting(rays):
    """The point that all lines pass within a thousandth of their starts' distance from it; None for lines that are parallel, or that part."""
    (p, u), (q, v) = ((ray[:3], ray[3:]) for ray in (rays[0], rays[2]))
    across = dot(u, u) * dot(v, v) - dot(u, v) ** 2
    if not across > FLAT:
        return None
    apart = [b - a for a, b in zip(p, q)]
    along = (dot(apart, u) * dot(v, v) - dot(apart, v) * dot(u, v)) / across
    met = tuple(a + along * b for a, b in zip(p, u))
    return met if all(beside(met, ray) <= 1e-3 * math.dist(met, ray[:3]) for ray in rays) else None


def beside(point, ray):
    """How far a point is from a ray's line."""
    away = [a - b for a, b in zip(point, ray[:3])]
    along = dot(away, ray[3:]) / (dot(ray[3:], ray[3:]) or 1.0)
    return math.hypot(*(a - along * b for a, b in zip(away, ray[3:])))


def ground_height(blocks):
    """The height at which most blocks begin, the least of several."""
    feet = [min(corner[2] for corner in block.corners) for block in blocks]
    return min(feet, key=lambda foot: (-feet.count(foot), foot), default=0.0)
