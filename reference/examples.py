"""The fourteen marked examples of document 01 and the program's printed example.

One line per example; exit status 1 on any difference.
"""

import struct
import sys

import crest

ONE = crest.ONE


def file_of(*elements):
    """A real file made by the writer."""
    records = b"".join(map(crest.record_of, elements))
    refusal, room = crest.write(records, bytes(crest.BLOCK_SIZE * crest.blocks_needed(len(elements))))
    assert refusal is None, refusal
    return room


def single(kind, length, radius):
    """One element, "anchor and direction as K"."""
    return file_of(crest.Element(kind, length, 0, 0, ONE, 0, radius))


K = single(crest.LINE, 10_000, 0)
ARC = single(crest.ARC, 200_000, 1_000_000)
ENTRY = single(crest.ENTRY, 200_000, 1_000_000)
EXIT = single(crest.EXIT, 200_000, 1_000_000)
THREE = single(crest.LINE, 3, 0)

PRINTED = """reading station offset residual
1 5 300 12
2 refused 13
answered 1 refused 1 first 2 13
"""


def plane(x, y):
    """(station, offset, residual), or the refusal number."""
    answer = crest.station_and_offset(K, x, y)
    return answer.number or answer[2:5]


def answered(x, y):
    return crest.station_and_offset(K, x, y).number == 0


def position(file, station):
    answer = crest.position_and_direction(file, station)
    return answer.number or answer[2:4]


def visits(file, point):
    """Both passes' visits and the count."""
    alignment = crest.check(file)
    walked = crest.walk(alignment, lambda s: crest.squared_distance(alignment, point, s))
    return walked.first, walked.second, crest.station_and_offset(file, *point).count


def example_rows():
    """(name, found, given in document 01)."""
    readings = struct.pack("<4d", 512, 300, -101, 0)
    return [
        ("1 point (512, 300)", plane(512, 300), (5, 300, 12)),
        ("2 point (550, 300)", plane(550, 300), (5, 300, 50)),
        ("3 point (-100, 0)", plane(-100, 0), (0, 0, -100)),
        ("4 point (-101, 0)", plane(-101, 0), 13),
        ("5 point (1000100, 0)", plane(1_000_100, 0), (10_000, 0, 100)),
        ("6 point (1000101, 0)", plane(1_000_101, 0), 14),
        ("7 point (500000, 20000000)", answered(500_000, 20_000_000), True),
        ("8 point (500000, 20000001)", plane(500_000, 20_000_001), 12),
        ("9 inverse of 5, 300", crest.inverse(K, 5, 300)[2:], (500, 300)),
        ("10 arc at 100,000", position(ARC, 100_000), (9_983_342, 499_583)),
        ("11 entry spiral at 200,000", position(ENTRY, 200_000), (19_980_009, 666_191)),
        ("12 exit spiral at 0", position(EXIT, 0), (-19_980_009, 666_191)),
        ("13 stake-out", crest.stake_out((0, 0), (100, 200), (0, ONE)), (0, 0, 200, -100)),
        ("14 visits on 3 mm", visits(THREE, (0, 0)), ([0, 3], [0, 1, 2], 5)),
        ("program", crest.program_text(K, readings), PRINTED),
    ]


def main():
    differences = 0
    for name, found, given in example_rows():
        same = found == given
        differences += not same
        print(f"example {name}: " + ("same" if same else f"DIFFERENT, found {found}, given {given}"))
    print(f"differences {differences}")
    return 1 if differences else 0


if __name__ == "__main__":
    sys.exit(main())
