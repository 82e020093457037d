"""The numbers of a farm file: the planes and the rays of its view, and its boxes.

docs/FARM_FILE.md has the form of the bytes. The file is one that the program explain did not refuse; whether it is well formed is decided
there, and nothing is checked here.
"""
import struct

FRONT = 1  # the volume's first number, its count of planes
PLANE, RAY = 4, 6


def records(file):
    """The numbers of each section, the volume's first."""
    (count,) = struct.unpack_from("<I", file)
    for place in range(count):
        offset, length = struct.unpack_from("<II", file, 4 + 8 * place)
        yield struct.unpack_from(f"<{length // 8}d", file, offset)


def parted(numbers, size):
    """Records of one size that stand one after another."""
    return [numbers[start:start + size] for start in range(0, len(numbers), size)]


def read(file):
    """The planes of the view, its rays, and the boxes, in their order."""
    volume, *boxes = records(file)
    rays = FRONT + PLANE * int(volume[0])
    return parted(volume[FRONT:rays], PLANE), parted(volume[rays:], RAY), boxes
