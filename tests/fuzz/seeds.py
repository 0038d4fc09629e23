#!/usr/bin/env python3
"""Writes the inputs that fuzzing begins with: examples/k.crest and crests of the reference, each with calls of every function.

usage: seeds.py FOLDER
The layout of an input is at the head of target.rs. The same inputs each time.
"""

import pathlib
import random
import struct
import sys

ROOT = pathlib.Path(__file__).resolve().parents[2]
sys.path.insert(0, str(ROOT / "reference"))
import crest  # noqa: E402
from crest import MOST_COUNTED, MOST_RECORDS, PER_BLOCK, RUN_SIZE, WIDEST_OFFSET  # noqa: E402
from random_crests import AXES, Wish, random_file, random_point, random_station, random_unit  # noqa: E402
from random_sightings import random_sighting, random_target  # noqa: E402

COUNTS = (1, 2, 3, 7, *(PER_BLOCK * full + by for full, by in ((1, 0), (1, 1), (2, 0), (2, 1), (3, 1))), MOST_RECORDS)
CHECK, WRITE, PLANE, LINE, ACKNOWLEDGE, RUN, STAKE_OUT = 0, 1, 2, 4, 6, 7, 8
POSITION, LOCATE, INVERSE, SIGHTING, SIGHTING_STAKE_OUT = 10, 11, 12, 13, 15


def damage(rng, file):
    """A few bytes changed, and which blocks' sums are made right."""
    changes = [struct.pack("<HB", rng.randrange(len(file)), rng.randrange(256)) for _ in range(rng.randrange(4))]
    return bytes([len(changes)]) + b"".join(changes) + bytes([rng.choice((0, 15))])


def calls(rng, alignment):
    """A call of every function, in any order."""
    shift, place, room = rng.randrange(16), rng.randrange(3), bytes([2, rng.randrange(256)])
    lent = bytes([shift, place])
    point, station = random_point(rng, alignment), random_station(rng, alignment)
    offset = rng.choice((0, rng.randint(-300, 300), WIDEST_OFFSET, -WIDEST_OFFSET - 1))
    heading = rng.choice((*AXES, random_unit(rng)))
    sighting = random_sighting(rng, alignment)
    made = [
        struct.pack("<BB", CHECK, place),
        struct.pack("<BBBB", WRITE, 0, 0, rng.randrange(256)) + lent,
        struct.pack("<Bdd", PLANE, *map(float, point)) + lent,
        struct.pack("<Bdd", LINE, float(station), float(offset)) + lent,
        struct.pack("<Bdd", LINE, station + 0.5, float(offset)) + lent,
        struct.pack("<BB", ACKNOWLEDGE, shift),
        struct.pack("<B6i", STAKE_OUT, *point, *random_point(rng, alignment), *heading) + room + lent[:1],
        struct.pack("<BBI", POSITION, 1, station) + room + lent,
        struct.pack("<BBii", LOCATE, 1, *point) + room + lent,
        struct.pack("<BBIBi", INVERSE, 1, station, 1, offset) + room + lent,
        struct.pack("<B7i", SIGHTING, *sighting) + lent,
        struct.pack("<B9i", SIGHTING_STAKE_OUT, *sighting, *random_target(rng, sighting)) + room + lent[:1],
    ]
    rng.shuffle(made)
    counts = 0, 1, MOST_COUNTED // 2, MOST_COUNTED - 1
    begin = struct.pack("<BB", RUN, 1)
    begin += b"".join(struct.pack("<H", rng.choice(counts)) for _ in range(RUN_SIZE // 2))
    return (begin if rng.randrange(3) == 0 else b"") + b"".join(made)


def seeds(rng):
    example = (ROOT / "examples" / "k.crest").read_bytes()
    crests = [(example, crest.check(example))]
    crests += [random_file(rng, Wish(count, longest=longest)) for count in COUNTS for longest in (20, 600)]
    for file, alignment in crests:
        records = crest.used_records(crest.blocks_of(file))
        for form in (
            b"\0" + struct.pack("<H", len(file)) + file,
            b"\1" + struct.pack("<H", len(records)) + records,
            b"\2" + struct.pack("<H", len(records)) + records + damage(rng, file),
        ):
            yield form + calls(rng, alignment)
    for form in range(3, 7):  # crests made of the choices that follow
        for _ in range(4):
            yield bytes([form]) + rng.randbytes(rng.randrange(100, 500))


def main(folder):
    folder = pathlib.Path(folder)
    folder.mkdir(parents=True, exist_ok=True)
    for number, seed in enumerate(seeds(random.Random(1))):
        (folder / f"seed-{number:03}").write_bytes(seed)


if __name__ == "__main__":
    if len(sys.argv) != 2:
        sys.exit(__doc__)
    main(sys.argv[1])
