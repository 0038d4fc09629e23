#!/usr/bin/env python3
"""Writes the crests and points of the longest calls into a folder, for bench/longest: longest, even, answered. Files as walk_crests.py has them.

usage: longest_crests.py FOLDER
Each crest is 60 arcs on one circle round (0, 0), which it follows more than once, and the point is its centre: every station lies almost as
far from it as the nearest one, so that the walk leaves none out.
longest: arcs of 500 m with a radius of 1.9 km, as long as a crest can be; the point is too far. The first arc lies 90 grains closer: so at all
other stations the walk has to take the root of the distance, though it leaves nothing out.
even: the same with no arc closer: no root has to be taken.
answered: as longest, with arcs of 100 m and a radius of 200 m: the point is just near enough.
"""

import math
import pathlib
import struct
import sys

sys.path.insert(0, str(pathlib.Path(__file__).resolve().parent.parent / "reference"))
import crest  # noqa: E402
from crest import ARC, LONGEST_ELEMENT, MOST_RECORDS, ONE  # noqa: E402

POINT = (0, 0)


def ring(length, radius, distance, closer):
    """Arcs to the left, each from its true point of the circle, the first one moved towards the centre; mm, but the last two in grains."""
    arcs = []
    for i in range(MOST_RECORDS):
        angle = i * length / radius
        c, s = math.cos(angle), math.sin(angle)
        arcs.append(crest.Element(ARC, length, round(distance * c), round(distance * s), round(-ONE * s), round(ONE * c), radius))
    return [arcs[0]._replace(x=arcs[0].x - closer), *arcs[1:]]


def main(folder):
    rings = {
        "longest": ring(LONGEST_ELEMENT, 1_900_000, 190_000_000, 90),
        "even": ring(LONGEST_ELEMENT, 1_900_000, 190_000_000, 0),
        "answered": ring(100_000, 200_000, 20_000_080, 90),
    }
    for name, arcs in rings.items():
        file = crest.file_made(b"".join(map(crest.record_of, arcs)))
        checked = crest.check(file)
        assert isinstance(checked, crest.Alignment), (name, checked)
        pathlib.Path(folder, name).write_bytes(struct.pack("<I", len(file)) + file + struct.pack("<Iii", 1, *POINT))


if __name__ == "__main__":
    if len(sys.argv) != 2:
        sys.exit(__doc__)
    main(sys.argv[1])
