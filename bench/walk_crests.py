#!/usr/bin/env python3
"""Writes the crests and points that bench/walk measures, one file each, into a folder: night, long, centre.

usage: walk_crests.py FOLDER
A file: the crest file's length, u32, and its bytes; how many points follow, u32, and x, y of each, i32. Little-endian.
night: 300 m, 20 elements of 15 m, points within 3 m of it. long: 30 km, 60 elements of 500 m, points within 3 m.
centre: an arc of 90 m, and its centre of curvature, from which every station lies as far as the rounding lets it.
"""

import pathlib
import random
import struct
import sys

sys.path.insert(0, str(pathlib.Path(__file__).resolve().parent.parent / "reference"))
import crest  # noqa: E402
import random_crests  # noqa: E402
from crest import ARC, ENTRY, EXIT, GRAINS, LINE, LONGEST_ELEMENT, MOST_RECORDS, ONE  # noqa: E402


def chained(kinds, length, radii, start):
    """Elements joined end to end from a start, heading along x."""
    place, heading, elements = start, (ONE, 0), []
    for kind, radius in zip(kinds, radii):
        element = crest.Element(kind, length, 0, 0, ONE, 0, 0 if kind == LINE else radius)
        c, s = random_crests.unit(*random_crests.direction_fitting(element, heading))
        element = random_crests.anchored(element._replace(c=c, s=s), place)
        elements.append(element)
        place, heading = crest.position(element, length), crest.direction(element, length)
    return elements


def points_beside(rng, alignment, count, reach):
    return [
        random_crests.beside(alignment, rng.randint(0, alignment.total), 0, rng.randint(-reach, reach))
        for _ in range(count)
    ]


def main(folder):
    rng = random.Random(20_261_115)
    folder = pathlib.Path(folder)
    night = chained([LINE, ENTRY, ARC, EXIT] * 5, 15_000, ([60_000] * 4 + [-60_000] * 4) * 3, (0, 0))
    most, longest = MOST_RECORDS, LONGEST_ELEMENT
    far = chained([ENTRY, ARC, EXIT] * (most // 3), longest, [2 * longest] * most, (0, -150_000_000))
    radius = 190_000
    arc = [crest.Element(ARC, 90_000, 0, 0, ONE, 0, radius)]
    for name, elements, count in (("night", night, 100), ("long", far, 4), ("centre", arc, 1)):
        file = crest.file_made(b"".join(map(crest.record_of, elements)))
        alignment = crest.check(file)
        assert isinstance(alignment, crest.Alignment), (name, alignment)
        centre = [(0, radius * GRAINS)]
        points = centre if name == "centre" else points_beside(rng, alignment, count, 3_000 * GRAINS)
        data = struct.pack("<I", len(file)) + file + struct.pack("<I", len(points))
        (folder / name).write_bytes(data + b"".join(struct.pack("<ii", *point) for point in points))


if __name__ == "__main__":
    if len(sys.argv) != 2:
        sys.exit(__doc__)
    main(sys.argv[1])
