"""A farm's readable text: what it says of the view and of each block, their names, and the farm file that it makes.

docs/FARM_FILE.md has the form of the text and of the farm file. What is wrong in a text is raised as Wrong, with its line. The
office's tools share this module; it uses the standard library alone.
"""
import math
import struct
import sys
from pathlib import Path

import farm_camera

FEWEST_PLANES, MOST_PLANES, RAYS, BLOCKS, BYTES = 6, 14, 4, 63, 65_536
IDENTITY = [1.0, 0.0, 0.0, 0.0, 0.0, 1.0, 0.0, 0.0, 0.0, 0.0, 1.0, 0.0, 0.0, 0.0, 0.0, 1.0]
# How many numbers follow each word of the view, and of a block.
VIEW = {"camera": farm_camera.NUMBERS, "plane": 4, "ray": 6}
BLOCK = {"range": 6, "matrix": 16, "flag": 1}


class Wrong(Exception):
    """What is wrong, and in which line."""

    def __init__(self, line, why):
        super().__init__(f"line {line}: {why}")


class Item:
    """A word of the text with what follows it."""

    def __init__(self, line, word, rest):
        self.line, self.word, self.rest = line, word, rest

    def numbers(self, count):
        try:
            numbers = [float(word) for word in self.rest]
        except ValueError as problem:
            raise Wrong(self.line, f"{self.word}: {problem}") from None
        if len(numbers) != count:
            raise Wrong(self.line, f"{self.word} has {count} numbers, not {len(numbers)}")
        for word, number in zip(self.rest, numbers):
            if not math.isfinite(number):
                raise Wrong(self.line, f"{self.word}: {word} is not a finite number")
        return numbers


def is_number(word):
    try:
        float(word)
    except ValueError:
        return False
    return True


def items(text):
    """The items of a text. A line that begins with a number goes on with the line before it."""
    found = []
    for line, words in enumerate((line.split("#")[0].split() for line in text.splitlines()), 1):
        if not words:
            continue
        if not is_number(words[0]):
            found.append(Item(line, words[0], words[1:]))
        elif found and found[-1].word in VIEW | BLOCK:
            found[-1].rest += words
        else:
            raise Wrong(line, "numbers that follow no word")
    return found


def joined(planes, rays=()):
    """The count of some planes, their numbers, and those of rays."""
    return sum((item.numbers(VIEW[item.word]) for item in [*planes, *rays]), [float(len(planes))])


class Section:
    """The view or a block: its items by their word, and the text of the gap in front of it."""

    def __init__(self, item, name, note):
        self.line, self.name, self.note, self.items = item.line, name, note, []

    def record(self):
        return self.volume() if self.name is None else self.block()

    def volume(self):
        camera, planes, rays = ([item for item in self.items if item.word == word] for word in VIEW)
        if camera:
            return self.seen(camera, planes, rays)
        if not FEWEST_PLANES <= len(planes) <= MOST_PLANES:
            raise Wrong(self.line, f"a view has {FEWEST_PLANES} to {MOST_PLANES} planes, not {len(planes)}")
        if len(rays) != RAYS:
            raise Wrong(self.line, f"a view has {RAYS} rays, not {len(rays)}")
        return joined(planes, rays)

    def seen(self, camera, screens, rays):
        """The view of a camera, and the screens that stand behind it."""
        if len(camera) > 1:
            raise Wrong(camera[1].line, "a view has one camera")
        if self.items[0] is not camera[0]:
            raise Wrong(camera[0].line, "the camera stands before the planes, which are screens then")
        if rays:
            raise Wrong(rays[0].line, "a view with a camera has its rays from the camera")
        most = MOST_PLANES - FEWEST_PLANES
        if len(screens) > most:
            raise Wrong(screens[most].line, f"a camera has at most {most} screens")
        try:
            _, *numbers = farm_camera.volume(camera[0].numbers(VIEW["camera"]))
        except farm_camera.Refused as why:
            raise Wrong(camera[0].line, f"camera: {why}") from None
        at = FEWEST_PLANES * VIEW["plane"]
        return [float(FEWEST_PLANES + len(screens))] + numbers[:at] + joined(screens)[1:] + numbers[at:]

    def block(self):
        given = {}
        for item in self.items:
            if item.word in given:
                raise Wrong(item.line, f"block {self.name} has more than one {item.word}")
            given[item.word] = item.numbers(BLOCK[item.word])
            if item.word == "flag" and given["flag"][0] not in (0, 1):
                raise Wrong(item.line, "a flag is 0 or 1")
        if "range" not in given:
            raise Wrong(self.line, f"block {self.name} has no range")
        return given["range"] + given.get("matrix", IDENTITY) + given.get("flag", [0.0])


def sections(text):
    """The view and the blocks of a text, and the text of the gap at the end."""
    found, note = [], ""
    for item in items(text):
        if item.word == "note":
            note += " ".join(item.rest)
        elif item.word == "view":
            if found:
                raise Wrong(item.line, "the view stands once, before the blocks")
            if item.rest:
                raise Wrong(item.line, "nothing follows the word view")
            found.append(Section(item, None, note))
            note = ""
        elif item.word == "block":
            if not found:
                raise Wrong(item.line, "the view stands before the blocks")
            name = " ".join(item.rest)
            if not name or name in [section.name for section in found]:
                raise Wrong(item.line, "a block has a name of its own")
            if len(found) > BLOCKS:
                raise Wrong(item.line, f"a farm file has at most {BLOCKS} blocks")
            found.append(Section(item, name, note))
            note = ""
        elif not found or item.word not in (VIEW if found[-1].name is None else BLOCK):
            raise Wrong(item.line, f"{item.word} does not belong here")
        else:
            found[-1].items.append(item)
    if len(found) < 2:
        raise Wrong(max(1, len(text.splitlines())), "a farm file has a view and at least one block")
    return found, note


def farm_file(text):
    """The bytes of a farm file: the count, the directory, then each section after the text of its gap."""
    found, last_note = sections(text)
    at = 4 + 8 * len(found)
    directory, body = struct.pack("<I", len(found)), b""
    for section in found:
        record = section.record()
        body += section.note.encode()
        directory += struct.pack("<II", at + len(body), 8 * len(record))
        body += struct.pack(f"<{len(record)}d", *record)
    whole = directory + body + last_note.encode()
    if len(whole) > BYTES:
        raise Wrong(len(text.splitlines()), f"the file has {len(whole)} bytes, more than {BYTES}: shorten the notes")
    return whole


def names(text):
    """The number of each block, as the programs print it, and its name."""
    return [(number, section.name) for number, section in enumerate(sections(text)[0][1:], 1)]


def read(source):
    """The text of a file, or of standard input where the source is -."""
    return sys.stdin.read() if source == "-" else Path(source).read_text(encoding="utf-8")
