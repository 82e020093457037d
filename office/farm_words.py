"""The reason for a block's class, in words, and what a refusal of a farm file means.

A reason is a list of parts. Each part is read from explain or measured, and says which.
"""
import math
from collections import namedtuple

from farm_measure import ON

Part = namedtuple("Part", "words measured")
Said = namedtuple("Said", "verdict parts places")  # the class, why, and the places of the planes that are named

REFUSALS = {
    1: "It has more than 65,536 bytes.",
    3: "The flag of a block is neither 0 nor 1.",
    9: "Its directory does not say where its sections lie, or it was cut off on its way. Make the file anew.",
    10: "A section is not as long as its record: 200 bytes and 32 for each plane for the view, 184 for a block.",
    12: "The view's count of planes is not a whole number from 6 to 14.",
    13: "A number of the view or of a block is missing. Send the survey back to be filled in.",
}


def refusal(number):
    """A refusal in words."""
    return REFUSALS.get(number, "docs/FARM_FILE.md says what this number means.")


def amount(number):
    """A coordinate or a distance: whole from 10 on, with up to two places below."""
    places = 0 if abs(number) >= 10 or number == round(number) else 1 if abs(number) >= 1 else 2
    words = f"{number:.{places}f}" if abs(number) < 1e9 else f"{number:.3g}"
    return words.replace("-", "−") if float(words) else "0"


def at(corner, plane):
    """A corner's x and y, and its height where the plane asks for it."""
    return ", ".join(amount(number) for number in (corner[:2] if plane.level() else corner))


def row(words):
    """Words one after another: a, b and c."""
    return words[0] if len(words) == 1 else f"{', '.join(words[:-1])} and {words[-1]}"


def named(planes):
    """Planes by their places, and what they are."""
    names = [f"plane {plane.place}, the view’s {plane.side}" for plane in planes if not plane.screen]
    screens = [str(plane.place) for plane in planes if plane.screen]
    if screens:
        names.append(f"plane {screens[0]}, a screen" if len(screens) == 1 else f"planes {row(screens)}, screens")
    return names[0] if len(names) == 1 else f"{', '.join(names[:-1])}, and {names[-1]}"


def shortfall(block, planes):
    """How the block's nearest corner lies to each plane that all of it is behind, where that can be measured."""
    found = [(plane, *block.furthest(plane)) for plane in planes]
    if not all(plane.length and -math.inf < past <= ON for plane, _, past in found):
        return []
    if len(found) > 1:
        return [Part(f"its nearest corners fall short by {row([amount(-past) for _, _, past in found])} cm", True)]
    plane, corner, past = found[0]
    how = "lies on that plane" if past >= -ON else f"falls short by {amount(-past)} cm"
    return [Part(f"its nearest corner, {at(corner, plane)}, {how}", True)]


def hidden(block, reason, planes):
    """Why a block is not watched: the planes that explain names, and by how much it falls short of each."""
    behind = [planes[place] for place in reason.behind]
    parts = [Part(f"All of it {'counts as' if reason.apart else 'is'} behind {named(behind)}", False), *shortfall(block, behind)]
    return parts + ([Part("The test for the class rounds", False)] if reason.apart else []), reason.behind


def seen(block, reason, planes):
    """Why a block is watched: no plane has all of it behind it. What it touches and what cuts it is measured."""
    touched = [plane for plane in planes if abs(block.furthest(plane)[1]) <= ON]
    cut = [plane for plane in planes if block.hindmost(plane)[1] < -ON and block.furthest(plane)[1] > ON]
    parts = [Part("No plane alone has all of it behind it, which is what the class goes by", False)] if reason.apart else []
    if touched:
        parts.append(Part(f"It touches {named(touched)}", True))
    if cut:
        parts.append(Part(f"Part of it is behind {named(cut)}", True))
    if not touched and not reason.apart:
        parts += in_front(block, cut)
    return parts, sorted(plane.place for plane in touched + cut)


def in_front(block, cut):
    """How far a block that touches no plane reaches past those that cut it: told of a single one."""
    if not cut:
        return [Part("All of it is in view", True)]
    corner, past = block.furthest(cut[0])
    told = len(cut) == 1 and past < math.inf
    return [Part(f"its corner {at(corner, cut[0])} is in front by {amount(past)} cm", True)] if told else []


def verdict(reason):
    """The class, and whether the exact verdict is another."""
    if reason.empty:
        return "empty"
    if not reason.apart:
        return "watched" if reason.watched else "not watched"
    return "rated watched, though no point of it is in view" if reason.watched else "rated not watched, though some point of it is in view"


def said(block, reason, planes):
    """What is said of a block."""
    if reason.empty:
        return Said(verdict(reason), [Part("There is nothing of it to see, so it is not watched", False)], [])
    parts, places = (seen if reason.watched else hidden)(block, reason, planes)
    if block.flattened:
        parts.append(Part("Its matrix has no inverse, so it is taken to stand where its range says", True))
    return Said(verdict(reason), parts, places)


def joined(parts):
    """The parts with what stands between them: a part that goes on in small letters follows a semicolon."""
    for part, following in zip(parts, [*parts[1:], None]):
        goes_on = following is not None and following.words[0].islower()
        yield part, "; " if goes_on else ". " if following else "."


def counted(reasons):
    """How many blocks have which class."""
    watched = sum(reason.watched for reason in reasons)
    blocks = f"{len(reasons)} block{'s' if len(reasons) > 1 else ''}"
    empty, apart = sum(reason.empty for reason in reasons), sum(reason.apart for reason in reasons)
    words = f"{blocks}: {watched} watched, {len(reasons) - watched} not watched"
    words += f", {empty} of these empty" if empty else ""
    return words + (f". Of {apart}, marked !, the exact verdict is another." if apart else ".")
