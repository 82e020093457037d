"""The view of a camera that is given as a view and a projection matrix, from the program camera_view.

Every number of such a view comes from there; docs/FARM_FILE.md has the form of the matrices.
"""
import re
import struct

import farm_programs

NUMBERS = 32  # the view matrix, and then the projection matrix
VOLUME = 49  # a count of planes, six planes and four rays
WHY = {
    4: "the two matrices give no view: their product has no inverse. Are both written row by row, the view matrix first?",
    8: "the two matrices give no view: a number of it is too large. Is a number of the matrices mistyped?",
}


class Refused(Exception):
    """Why the matrices give no view."""


def volume(numbers):
    """The numbers of the volume that a view matrix and a projection matrix give."""
    program, answer = farm_programs.answer("camera_view", struct.pack(f"<{NUMBERS}d", *numbers))
    if len(answer) == 8 * VOLUME:
        return list(struct.unpack(f"<{VOLUME}d", answer))
    refused = re.fullmatch(rb"refused (\d+)\n", answer)
    if refused and int(refused[1]) in WHY:
        raise Refused(f"{WHY[int(refused[1])]} (refused {int(refused[1])})")
    raise farm_programs.Unanswered(f"{program} prints {answer[:60]!r}, which is no view")
