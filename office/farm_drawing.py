"""The farm from above, as SVG: the ground in view, what screens hide of it, and each block in the colour of its class.

The colours are names in the style sheet; PALETTE gives them for a light page, and DARK for a dark one.
"""
import math
from html import escape

from farm_ground import EDGE, WIDE, Map, bounds, square
from farm_labels import BOLD, PLAIN, Labels, around, cover, middle, placed
from farm_measure import clipped, other_side, turn
from farm_svg import group, short, tag, wide

PALETTE = {
    "paper": "#ffffff", "ink": "#1d2125", "quiet": "#545c64", "land": "#e9e7e1", "view": "#fffefa", "edge": "#7a6a35",
    "screen": "#4a4f55", "yes": "#00558f", "no": "#a63a00", "mark": "#ffb000", "line": "#d5d8dc", "row": "#fff6d6",
}
DARK = {
    "paper": "#15181c", "ink": "#e8eaed", "quiet": "#a9b1ba", "land": "#1b2025", "view": "#343d47", "edge": "#c9b870",
    "screen": "#aeb6bf", "yes": "#7cc4ff", "no": "#ffa066", "mark": "#ffd34d", "line": "#3a4149", "row": "#2f2c1a",
}
STYLE = """\
text { font: 12px Helvetica, Arial, sans-serif; fill: var(--ink); }
.land { fill: var(--land); }
.view { fill: var(--view); stroke: var(--edge); stroke-width: 1.2; }
.hatch { stroke: var(--screen); stroke-width: 1.2; stroke-opacity: 0.6; }
.line { fill: none; stroke: var(--edge); stroke-width: 1; stroke-dasharray: 2 4; }
.screen .line { stroke: var(--screen); stroke-width: 2.5; stroke-dasharray: none; }
.halo { fill: none; stroke: var(--mark); stroke-width: 9; stroke-linejoin: round; opacity: 0; }
.shape { stroke-width: 2; stroke-linejoin: round; }
.block path { stroke-linecap: round; }
.yes .shape { stroke: var(--yes); fill: var(--yes); fill-opacity: 0.22; }
.no .shape { stroke: var(--no); fill: var(--no); fill-opacity: 0.08; stroke-dasharray: 6 4; }
.apart .shape { stroke-width: 5; }
.core { fill: none; stroke: var(--land); stroke-width: 1.6; stroke-linejoin: round; }
.pill { stroke-width: 1.4; }
.yes .pill { fill: var(--yes); stroke: var(--paper); }
.no .pill { fill: var(--paper); stroke: var(--no); }
.label, .name { pointer-events: none; }
.label text { font-weight: bold; text-anchor: middle; }
.label .second { font-size: 11px; font-weight: normal; }
.yes.label text { fill: var(--paper); }
.no.label text { fill: var(--no); }
.north { font-weight: bold; text-anchor: end; }
.leader { stroke: var(--quiet); stroke-width: 1; }
.name { font-size: 11px; text-anchor: middle; fill: var(--quiet); stroke: var(--paper); stroke-width: 3; stroke-linejoin: round; paint-order: stroke; }
.name.screen { fill: var(--ink); font-weight: bold; }
.large text, .name.large { font-size: 24px; }
.large .pill { stroke-width: 2.5; }
.frame { fill: none; stroke: var(--line); }
.sign { fill: var(--ink); stroke: var(--ink); }
.bar { fill: none; stroke: var(--ink); stroke-width: 2; }
"""
BAND = 14  # how wide a screen's line is hatched outside the view
CLASSES = [("yes", "watched"), ("no", "not watched"), ("yes apart", "! rated watched, no point in view"),
           ("no apart", "! rated not watched, a point in view")]


def label_blocks(shown, blocks, reasons, labels, large=False):
    """A label for each block, the smallest block first, since it has the least room. Large ones have the number alone."""
    parts = []
    for block in blocks:
        reason, polygon = reasons[block.number], [shown.point(p) for p in block.outline]
        number = f"{block.number}{' !' if reason.apart else ''}"
        label, x, y = placed(labels, polygon, number, "" if large else block.name, 2 if large else 1)
        labels.take(x, y, label.w, label.h)
        near = cover(around(x, y, label.w + 12, label.h + 12), bounds(polygon))
        parts.append(label.draw(x, y, kind(reason), None if near else middle(polygon)))
    return parts


def kind(reason):
    """The style of a block's class."""
    return ("yes" if reason.watched else "no") + (" apart" if reason.apart else "")


def draw_block(shown, block, reason, link):
    d = shown.path(block.outline)
    parts = [tag("path", class_="halo", d=d), tag("path", class_="shape", d=d)]
    parts += [tag("path", class_="core", d=d)] if reason.apart else []
    drawn = group(parts, id=f"b{block.number}", class_=f"block {kind(reason)}")
    return tag("a", drawn, href=f"#r{block.number}", tabindex="-1") if link else drawn


def draw_screens(shown, planes):
    """What each screen hides of the ground in view, and a band along its line, hatched."""
    ground, parts = shown.in_view(shown.window), []
    for plane in planes:
        half = shown.halves[plane.place]
        if not plane.screen or half is None:
            continue
        a, b, c = half
        band = clipped(square(shown.window), other_side(half)) if shown.crossing(half) else []
        band = clipped(band, (a, b, c - BAND / shown.scale)) if band else []
        for hatched in (band, hidden_part(ground, half)):
            if len(hatched) > 2:
                parts.append(tag("path", d=shown.path(hatched), fill=f"url(#h{plane.place})"))
    return parts


def hidden_part(ground, half):
    """What a plane hides of the ground: a side of its line, or all or nothing where it has none."""
    if half[:2] == (0.0, 0.0):
        return ground if half[2] > 0 else []
    return clipped(ground, other_side(half)) if ground else []


def draw_planes(shown, planes):
    """The line at which each plane meets the ground."""
    parts = []
    for plane in planes:
        ends = shown.crossing(shown.halves[plane.place])
        if ends:
            d = shown.path(ends)[:-1]
            parts.append(group([tag("path", class_="halo", d=d), tag("path", class_="line", d=d)],
                               id=f"p{plane.place}", class_="plane screen" if plane.screen else "plane"))
    return parts


def name_planes(shown, planes, labels, large):
    """A name at the line of each plane: clear of the blocks if there is room, along the ground in view if the plane bounds it. Large names are
    the places of the screens."""
    parts = []
    for plane in [plane for plane in planes if plane.screen or not large]:
        ends = shown.crossing(shown.halves[plane.place])
        words = str(plane.place) if large else f"plane {plane.place}, a screen" if plane.screen else f"{plane.place} {plane.side}"
        room = wide(words, BOLD if plane.screen else PLAIN) * (2 if large else 1), 28 if large else 14
        spot = free_spot(shown, labels, [bounding(shown, plane), ends], *room) if ends else None
        if spot:
            labels.take(*spot, *room)
            style = "name" + (" screen" if plane.screen else "") + (" large" if large else "")
            parts.append(tag("text", words, class_=style, x=spot[0], y=spot[1] + (8 if large else 4)))
    return parts


def free_spot(shown, labels, lines, w, h):
    """The first free place for a label along one of the lines."""
    for clear in (True, False):
        for p, q in ([shown.point(end) for end in line] for line in lines if line):
            for part in (0.5 + side * step / 40 for step in range(20) for side in (1, -1)):
                spot = p[0] + (q[0] - p[0]) * part, p[1] + (q[1] - p[1]) * part
                if labels.free(*spot, w, h, clear):
                    return spot
    return None


def bounding(shown, plane):
    """The part of a plane's line that bounds the ground in view."""
    a, b, c = shown.halves[plane.place]
    ends = sorted({p for p in shown.in_view(shown.window) if abs(a * p[0] + b * p[1] - c) * shown.scale < 0.01})
    return (ends[0], ends[-1]) if len(ends) > 1 else None


def draw_mast(shown, labels, large):
    """Where the lines of sight start."""
    if not shown.mast:
        return []
    (x, y), size = shown.point(shown.mast), 2 if large else 1
    side = 1 if x + 45 * size < WIDE else -1
    labels.take(x, y, 18 * size, 18 * size)
    labels.take(x + side * 26 * size, y, 32 * size, 14 * size)
    d = f"M{short(x)} {short(y - 8 * size)}L{short(x + 7 * size)} {short(y + 5 * size)}H{short(x - 7 * size)}Z"
    name = tag("text", "mast", class_="name screen large" if large else "name screen", x=x + side * 26 * size, y=y + 4 * size)
    return [tag("path", class_="sign", d=d), name]


def nice(length):
    """The largest of 1, 2 and 5 times a power of ten that is not above a length."""
    power = 1.0
    while power * 10 <= length:
        power *= 10
    while power > length:
        power /= 10
    return max(step * power for step in (1, 2, 5) if step * power <= length)


def measure_of(length):
    """A length in centimetres, as a scale bar names it."""
    return f"{length / 100:g} m" if length >= 100 else f"{length:g} cm"


def draw_scale(shown, top):
    """The scale bar, and north."""
    length = nice((WIDE / 4) / shown.scale)
    end = EDGE + length * shown.scale
    d = f"M{WIDE - 16} {short(top)}L{WIDE - 9} {short(top + 22)}L{WIDE - 16} {short(top + 17)}L{WIDE - 23} {short(top + 22)}Z"
    return [tag("path", class_="bar", d=f"M{EDGE} {short(top + 6)}V{short(top + 14)}H{short(end)}V{short(top + 6)}"),
            tag("text", measure_of(length), class_="sized", x=end + 7, y=top + 16),
            tag("text", "N", class_="sized north", x=WIDE - 28, y=top + 16), tag("path", class_="sign", d=d)]


def legend(shown, kinds, screens):
    """What each outline, the shading and the hatching mean: swatches and words."""
    items = []
    for name, words in CLASSES:
        if name in kinds:
            box = [tag("rect", class_=part, x=3, y=2, width=22, height=11) for part in (["shape", "core"] if "apart" in name else ["shape"])]
            items.append((group(box, class_=name), words))
    if shown.in_view(shown.window):
        items.append((tag("rect", class_="view", x=3, y=2, width=22, height=11), "ground in the camera’s view"))
    if screens:
        items.append((tag("rect", x=2, y=1, width=24, height=13, fill=f"url(#h{screens[0].place})"), "hidden by a screen"))
    return items, f"Seen from above: the ground at height {shown.height:g} cm. North is up, along y."


def legend_rows(items, words, top):
    """The legend as a part of the drawing, in rows, and where it ends."""
    parts, x, y = [], EDGE, top
    for swatch, meaning in items:
        w = 32 + wide(meaning, PLAIN) + 14
        if x + w > WIDE and x > EDGE:
            x, y = EDGE, y + 22
        parts.append(group([swatch, tag("text", meaning, x=32, y=12)], transform=f"translate({short(x - 3)} {short(y)})"))
        x += w
    return parts + [tag("text", words, x=EDGE, y=y + 35)], y + 46


def slant(plane):
    """By how many degrees the hatching of a screen is turned."""
    return round(math.degrees(math.atan2(plane.normal[0], plane.normal[1]))) + 50 + 5 * (plane.place % 3)


def patterns(screens):
    """The hatching of each screen, aslant to its line."""
    return tag("defs", "".join(
        tag("pattern", tag("path", class_="hatch", d="M4 0V8"), id=f"h{plane.place}", width=8, height=8, patternUnits="userSpaceOnUse",
            patternTransform=f"rotate({slant(plane)})") for plane in screens))


def area(block):
    """Of its outline, doubled."""
    x = block.outline
    return sum(turn(x[0], p, q) for p, q in zip(x[1:], x[2:]))


class Drawing:
    """The farm from above. Blocks are those that are not empty and can be drawn; reasons are by a block's number."""

    def __init__(self, title, blocks, reasons, planes, rays):
        self.title, self.reasons, self.planes = title, reasons, planes
        self.blocks = sorted(blocks, key=lambda block: (-area(block), block.number))
        self.map = Map(blocks, planes, rays)
        self.screens = [plane for plane in planes if plane.screen]
        self.legend, self.words = legend(self.map, {kind(reasons[block.number]) for block in blocks}, self.screens)

    def labels(self, large):
        """The mast and all labels."""
        labels = Labels(self.map, [[self.map.point(p) for p in block.outline] for block in self.blocks])
        parts = draw_mast(self.map, labels, large)
        blocks = label_blocks(self.map, self.blocks[::-1], self.reasons, labels, large)
        return parts + name_planes(self.map, self.planes, labels, large) + blocks

    def parts(self, links):
        """All but what names the blocks."""
        shown, ground = self.map, self.map.in_view(self.map.window)
        (x0, y1), (x1, y0) = shown.point(shown.window[:2]), shown.point(shown.window[2:])
        frame = {"x": x0, "y": y0, "width": x1 - x0, "height": y1 - y0}
        return [tag("title", escape(self.title)), patterns(self.screens), tag("rect", class_="land", **frame),
                *([tag("path", class_="view", d=shown.path(ground))] if ground else []),
                *draw_screens(shown, self.planes), *draw_planes(shown, self.planes),
                *(draw_block(shown, block, self.reasons[block.number], links) for block in self.blocks),
                tag("rect", class_="frame", **frame), *draw_scale(shown, shown.bottom + 8)]

    def inline(self):
        """The drawing as an element of a page, with labels for a wide window and for a narrow one. The legend is the page's."""
        labels = [group(self.labels(False), class_="wide"), group(self.labels(True), class_="narrow")]
        return element(self.map.bottom + 34, self.parts(True) + labels)

    def alone(self):
        """The drawing as a file of its own, with its legend, in the colours of a light page."""
        style = STYLE
        for name, colour in PALETTE.items():
            style = style.replace(f"var(--{name})", colour)
        key, high = legend_rows(self.legend, self.words, self.map.bottom + 40)
        paper = tag("rect", width=WIDE, height=high, fill=PALETTE["paper"])
        title, *others = self.parts(False)
        return element(high, [title, f"<style>\n{style}</style>", paper, *others, *self.labels(False), *key], width=WIDE, height=high) + "\n"


def element(high, parts, **more):
    return tag("svg", "\n" + "\n".join(parts) + "\n", xmlns="http://www.w3.org/2000/svg", viewBox=f"0 0 {WIDE} {short(high)}", role="img", **more)
