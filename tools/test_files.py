#!/usr/bin/env python3
"""Writes the files of tools/test into a folder: accepted crests of 1 to 60 records, each with its text and readings, and with named
points as CSV, in metres, also with an origin added; the same points as readings, and the names alone;
refused crests; and the list `damaged`, a line for each refused crest: its name, and what a tool has to say of it before the sentence.

usage: test_files.py FOLDER
"""

import csv
import pathlib
import random
import struct
import sys

sys.path.insert(0, str(pathlib.Path(__file__).resolve().parent.parent / "reference"))
import crest  # noqa: E402
import plain_files  # noqa: E402
import random_crests  # noqa: E402

COUNTS = (1, 2, 14, 15, 16, 30, 31, 45, 46, 59, 60)
ORIGIN = (500_000 * 100_000, 4_100_000 * 100_000)  # in grains
NAMES = ("MB01", "Pfeiler süd", "a, b", 'the "old" one', "<b> & c", "", "7;8", "√", "x" * 40, "'", "12", "-")
ODD_READINGS = ((float("nan"), 0.0), (float("inf"), 0.0), (0.5, 0.0), (2e8, 2e8), (-1e300, 7.0))


def readings(rng, alignment):
    points = [random_crests.random_point(rng, alignment) for _ in range(12)]
    return points, packed((*points, *ODD_READINGS))


def packed(points):
    return b"".join(struct.pack("<dd", *point) for point in points)


def write_points(path, points, origin=(0, 0)):
    """Named points as CSV, in metres, an origin in grains added."""
    with open(path, "w", encoding="utf-8", newline="") as file:
        writer = csv.writer(file)
        writer.writerow(("name", "x_m", "y_m"))
        for name, point in zip(NAMES, points):
            writer.writerow((name, *(f"{(number + more) / 100_000:.5f}" for number, more in zip(point, origin))))


def text_of(elements):
    """The elements as crest make reads them, a blank between words."""
    names = {crest.LINE: "line", crest.ARC: "arc", crest.ENTRY: "entry", crest.EXIT: "exit"}
    rows = ((names[kind], *numbers, *([] if kind == crest.LINE else [radius])) for kind, *numbers, radius in elements)
    return "".join(" ".join(map(str, row)) + "\n" for row in rows)


def kinked(count, at):
    """Lines along x, one of them turned a little beyond the limit."""
    elements = plain_files.lines(count)
    c, s = random_crests.unit(crest.ONE, 1_500_000)
    elements[at] = elements[at]._replace(c=c, s=s)
    return elements


def damaged():
    """Name, bytes, and what is said of them."""
    file = plain_files.raw_file(plain_files.lines(17))
    lines = plain_files.lines(17)
    yield "empty", b"", "refused 1"
    yield "short", file[:-1], "refused 1"
    yield "long", file + bytes(4096), "refused 1"
    yield "sums", plain_files.patched(file, 512 + 7, b"\1"), "block 1: refused 2"
    yield "edition", plain_files.altered(file, 484, b"\2"), "block 0: refused 3"
    yield "reserved", plain_files.altered(file, 32 * 3 + 1, b"\1"), "record 3: refused 4"
    yield "later", plain_files.altered(file, 512 + 32, b"\5"), "record 16: refused 5"
    yield "range", plain_files.raw_file([line._replace(radius=int(i == 2)) for i, line in enumerate(lines)]), "record 2: refused 6"
    yield "unit", plain_files.raw_file([line._replace(s=100_000 * (i == 4)) for i, line in enumerate(lines)]), "record 4: refused 7"
    yield "gap", plain_files.raw_file([line._replace(y=101 * (i > 15)) for i, line in enumerate(lines)]), "records 15 and 16: refused 8"
    yield "kink", plain_files.raw_file(kinked(17, 0)), "records 0 and 1: refused 9"


def main(folder):
    folder = pathlib.Path(folder)
    rng = random.Random(20_261_116)
    for count in COUNTS:
        file, alignment = random_crests.random_file(rng, random_crests.Wish(count=count))
        (folder / f"{count}.crest").write_bytes(file)
        (folder / f"{count}.elements").write_text(text_of(alignment.elements))
        points, data = readings(rng, alignment)
        (folder / f"{count}.readings").write_bytes(data)
        write_points(folder / f"{count}.csv", points)
        write_points(folder / f"{count}.far.csv", points, ORIGIN)
        (folder / f"{count}.points").write_bytes(packed(points))
        names = (name or f"(line {line})" for line, name in enumerate(NAMES, 2))
        (folder / f"{count}.names").write_text("\n".join(names), encoding="utf-8")
    with open(folder / "damaged", "w") as told:
        for name, file, said in damaged():
            number, place = plain_files.file_refusal(file)
            assert said.endswith(f"refused {number}"), (name, number, place)
            (folder / name).write_bytes(file)
            print(name, said, file=told)


if __name__ == "__main__":
    if len(sys.argv) != 2:
        sys.exit(__doc__)
    main(sys.argv[1])
