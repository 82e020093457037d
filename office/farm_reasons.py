"""What the program explain says of a farm file: for each block its class and the reason, or that the file is refused.

Every verdict of the office's pages comes from here, and here it comes from explain; docs/FARM_FILE.md has the form of its lines.
"""
import re

import farm_programs

LINE = re.compile(r"(\d+) (?:(yes)(?: (exact-no))?|no(?: (empty)|((?: \d+)+)(?: (exact-yes))?))")


class Unexplained(Exception):
    """Why there are no lines: explain prints something else."""


class Refused(Exception):
    """The file is refused, with this number."""

    def __init__(self, number):
        super().__init__(f"refused {number}")
        self.number = number


class Reason:
    """A line of explain: whether the block is watched, the places of the planes that it is behind, whether it is empty, and whether
    the exact verdict is another than the line's."""

    def __init__(self, watched, empty, behind, apart):
        self.watched, self.empty, self.behind, self.apart = watched, empty, behind, apart


def run(file):
    """The explain that is run, and the lines that it prints for the bytes of a farm file."""
    name, printed = farm_programs.answer("explain", file)
    try:
        return name, printed.decode("ascii").splitlines()
    except UnicodeDecodeError:
        raise Unexplained(f"{name} does not explain farm files") from None


def reason(line, number):
    """The reason for a block, or None if the line is not one for the block of this number."""
    found = LINE.fullmatch(line)
    if not found or int(found[1]) != number:
        return None
    yes, exact_no, empty, places, exact_yes = found.groups()[1:]
    behind = [int(place) for place in (places or "").split()]
    if behind != sorted(set(behind)):
        return None
    return Reason(yes is not None, empty is not None, behind, exact_no is not None or exact_yes is not None)


def reasons(file):
    """The reason for each block, in their order."""
    name, lines = run(file)
    refused = re.fullmatch(r"refused (\d+)", lines[0]) if len(lines) == 1 else None
    if refused:
        raise Refused(int(refused[1]))
    found = [reason(line, number) for number, line in enumerate(lines, 1)]
    if not found or None in found:
        wrong = lines[found.index(None)] if found else "nothing"
        raise Unexplained(f"{name} prints {wrong[:60]!r}, which explains no block")
    return found
