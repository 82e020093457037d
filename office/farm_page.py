"""The page of a farm: the drawing, beside it a row for each block with the reason for its class, and at the foot where each word comes from.

The page needs no script and loads nothing. Hovering or focusing a row marks its block and the planes that it names, by the style sheet.
"""
import math
import re
import unicodedata
from html import escape

import farm_drawing
import farm_words

STYLE = """\
* { box-sizing: border-box; }
body { margin: 0 auto; padding: 1rem 1.25rem; max-width: 92rem; background: var(--paper); color: var(--ink);
  font: 15px/1.4 Helvetica, Arial, sans-serif; overflow-wrap: anywhere; }
h1 { font-size: 1.3rem; margin: 0 0 0.2rem; }
header p, footer p { margin: 0 0 0.4rem; }
main { display: grid; grid-template-columns: minmax(0, 3fr) minmax(0, 2fr); gap: 1.25rem; align-items: start; margin: 0.8rem 0; }
figure { margin: 0; position: sticky; top: 0.5rem; }
figure > svg { display: block; width: 100%; height: auto; max-height: 84vh; }
figcaption { margin-top: 0.3rem; font-size: 0.87rem; }
.key { display: inline-block; margin-right: 1rem; white-space: nowrap; }
.key svg { width: 2em; height: 1.1em; vertical-align: -0.15em; }
figcaption .said { display: block; }
.narrow { display: none; }
ol { list-style: none; margin: 0; padding: 0; }
li { display: flex; gap: 0.6rem; padding: 0.35rem 0.5rem; border-bottom: 1px solid var(--line); border-left: 4px solid transparent;
  scroll-margin: 1rem; }
li p { margin: 0; }
li:focus { outline: none; }
li:hover, li:focus, li:target { background: var(--row); border-left-color: var(--mark); }
li:focus-visible { outline: 2px solid var(--ink); outline-offset: -2px; }
.tag { flex: none; min-width: 2.2rem; height: 1.45rem; padding: 0 0.3rem; border: 2px solid; border-radius: 5px; text-align: center;
  font-weight: bold; line-height: 1.2rem; print-color-adjust: exact; -webkit-print-color-adjust: exact; }
.yes .tag { background: var(--yes); border-color: var(--yes); color: var(--paper); }
.no .tag { border-color: var(--no); border-style: dashed; color: var(--no); }
.yes strong { color: var(--yes); }
.no strong { color: var(--no); }
.measured { color: var(--quiet); font-style: italic; }
footer { border-top: 1px solid var(--line); padding-top: 0.6rem; font-size: 0.87rem; }
"""
NARROW = """\
@media screen and (max-width: 60rem) {
  main { grid-template-columns: minmax(0, 1fr); }
  figure { position: static; }
  figure > svg { max-height: none; }
}
@media screen and (max-width: 36rem) {
  .wide { display: none; }
  .narrow { display: inline; }
  .sized { font-size: 24px; }
  body { padding: 0.7rem; }
}
"""
PRINT = """\
@media print {
  @page { size: A4 portrait; margin: 10mm; }
  body { padding: 0; max-width: none; font-size: %(size)spt; line-height: 1.25; }
  h1 { font-size: 12pt; }
  main { display: block; margin: 1mm 0; }
  figure { position: static; }
  figure > svg { max-height: %(high)smm; margin: 0 auto; }
  ol { columns: %(columns)s; column-gap: 5mm; margin-top: 2mm; }
  li { break-inside: avoid; padding: 0.25em 0; border-left: 0; gap: 0.5em; }
  li:hover, li:focus, li:target { background: none; }
  .halo { opacity: 0 !important; }
  .block { opacity: 1 !important; }
  .tag { min-width: 2em; height: 1.5em; line-height: 1.3em; border-width: 0.1em; }
  header, figcaption, footer { font-size: 7.5pt; }
  footer { padding-top: 1mm; }
  header p, footer p, figcaption { margin: 0; }
}
"""
SHEET = 260_000  # letters at a size of one point that the rows have room for
LEAD = "A block is watched unless all of it is behind one plane of the view."
FOOT = """\
<p>Each class on this page, and each plane that a block is said to be behind, is read from the program <b>explain</b>. \
This page’s script decides nothing.</p>
<p><span class="measured">What is set like this is measured</span> by the script, in floating point and in centimetres: corners, distances, and \
what a watched block touches or what cuts it. The drawing is of the ground; blocks and planes have heights that it does not show. \
Planes 0 to 5 are the camera’s left, right, bottom, top, near and far; those from 6 on are sheds and screens.</p>
"""


def colours(palette):
    return ":root { " + " ".join(f"--{name}: {colour};" for name, colour in palette.items()) + " }"


def marks(said):
    """For each row: while it is hovered, focused or gone to, its block and its planes stand out. Without :has() nothing is marked."""
    rules = ["main:has(li:is(:hover, :focus)) .block { opacity: 0.45; }"]
    for number, told in said.items():
        named = ", ".join([f"#b{number}", *(f"#p{place}" for place in told.places)])
        marked = f"main:has(#r{number}:is(:hover, :focus, :target), #b{number}:hover) :is({named})"
        rules.append(f"{marked}, {marked} > .halo {{ opacity: 1; }}")
        rules.append(f"main:has(#b{number}:hover) #r{number} {{ background: var(--row); border-left-color: var(--mark); }}")
    return "\n".join(rules)


def printed(rows):
    """The style for paper: the more words, the smaller, so that all of it is one sheet."""
    letters = sum(len(re.sub("<[^>]*>", "", row)) + 45 for row in rows)
    size = max(3.5, min(9, math.sqrt(SHEET / letters)))
    return PRINT % {"size": f"{size:.1f}", "high": 122 if size > 8.5 else 100, "columns": 2 if size > 7 else 3}


def plain(words):
    """Words without the control characters that a page cannot hold."""
    return "".join("\ufffd" if unicodedata.category(c) == "Cc" or c in "\ufffe\uffff" else c for c in words)


def row(block, reason, told, drawn):
    """What is said of a block, as a row that can be focused."""
    name = f"<b><bdi>{escape(block.name)}</bdi></b>: " if block.name else ""
    why = ""
    for part, then in farm_words.joined(told.parts):
        words = escape(part.words, quote=False)
        why += (f'<span class="measured">{words}</span>' if part.measured else words) + then
    missing = "" if drawn or reason.empty else " It lies too far away to be drawn."
    number = f"{block.number}{' !' if reason.apart else ''}"
    return (f'<li id="r{block.number}" class="{farm_drawing.kind(reason)}" tabindex="0"><span class="tag">{number}</span> '
            f"<p>{name}<strong>{told.verdict}.</strong> {why}{missing}</p></li>")


def whole(title, styles, body):
    """A page of its own."""
    style = "\n".join([colours(farm_drawing.PALETTE), f"@media screen and (prefers-color-scheme: dark) {{ {colours(farm_drawing.DARK)} }}", *styles])
    return f"""\
<!DOCTYPE html>
<html lang="en">
<head>
<meta charset="utf-8">
<meta name="viewport" content="width=device-width, initial-scale=1">
<meta name="color-scheme" content="light dark">
<title>{title}</title>
<style>
{style}
</style>
</head>
<body>
{body}
</body>
</html>
"""


def caption(drawing):
    """The legend of the drawing."""
    keys = "\n".join(f'<span class="key"><svg viewBox="0 0 28 15" aria-hidden="true">{swatch}</svg> {meaning}</span>'
                     for swatch, meaning in drawing.legend)
    return f'<figcaption>\n{keys}\n<span class="said">{drawing.words}</span>\n</figcaption>'


def page(source, drawing, blocks, reasons, said):
    """The page of a farm. Reasons and what is said are by a block's number."""
    title = escape(plain(source))
    drawn = {block.number for block in drawing.blocks}
    rows = [row(block, reasons[block.number], said[block.number], block.number in drawn) for block in blocks]
    listed = "\n".join(rows)
    counts = escape(farm_words.counted(list(reasons.values())))
    body = f"""\
<header>
<h1>{title}</h1>
<p>{counts} {LEAD}</p>
</header>
<main>
<figure>
{drawing.inline()}
{caption(drawing)}
</figure>
<ol>
{listed}
</ol>
</main>
<footer>
{FOOT}</footer>"""
    return whole(f"{title}: farm map", [STYLE, farm_drawing.STYLE, NARROW, marks(said), printed(rows)], body)


def refused(source, number):
    """The page of a file that is refused."""
    title = escape(plain(source))
    body = f"""\
<header>
<h1>{title}</h1>
<p><strong>The farm file is refused, with {number}. No block has a class.</strong></p>
<p>{escape(farm_words.refusal(number))}</p>
</header>
<footer>
<p>The number is read from the program <b>explain</b>. This page’s script decides nothing.</p>
</footer>"""
    return whole(f"{title}: refused", [STYLE], body)
