"""Elements of a drawing, as text."""
import unicodedata


def short(number):
    """A coordinate of the drawing, to a tenth."""
    rounded = round(number, 1)
    return str(int(rounded)) if rounded == int(rounded) else f"{rounded:.1f}"


def tag(name, inside=None, **given):
    """An element. An underscore at the end of a name is dropped, one inside stands for a hyphen."""
    words = "".join(f' {key.rstrip("_").replace("_", "-")}="{v if isinstance(v, str) else short(v)}"' for key, v in given.items())
    return f"<{name}{words}/>" if inside is None else f"<{name}{words}>{inside}</{name}>"


def group(parts, **given):
    return tag("g", "".join(parts), **given)


def wide(words, letter):
    """About how wide words are drawn."""
    return sum(letter * (2 if unicodedata.east_asian_width(c) in "WF" else 1) for c in words)
