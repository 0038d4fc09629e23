#!/usr/bin/env python3
"""Writes the files that the program crestline is run on, and what it must print.

usage: program_cases.py ROOT
Below ROOT: examples/k.crest and examples/k.readings are document 01's printed example; crates/crestline has the same as a
run with two files, and crates/crestline_night a crest of 20 elements with 240 readings on standard input, some of them
refused, and a shorter tail. The same files each time.
"""

import random
import struct
import sys
from pathlib import Path

import crest
import examples
from crest import FRAME, PAST_END
from random_crests import FAR, Wish, beside, random_file, random_point

INFINITE = float("inf")
NAN = float("nan")


def reading_bytes(points):
    return b"".join(struct.pack("<dd", *point) for point in points)


def refused_points(alignment):
    """Readings with 10 to 14, and the limits beside them."""
    yield from ((0.5, 0.0), (0.0, -0.25), (NAN, 0.0), (0.0, INFINITE), (-INFINITE, NAN), (5e-324, 0.0))  # 10
    yield from ((FRAME + 1, 0), (0, -FRAME - 1), (1e300, 0.0), (-(2.0**62), 7.0), (-0.0, -(2.0**63)))  # 11
    yield from ((FRAME, FRAME), (-FRAME, -FRAME))
    for left in (0, 1_000, -25_000):  # 13 and 14
        past = PAST_END - 1, PAST_END, PAST_END + 1, PAST_END + 2, 5_000
        for along in past:
            yield beside(alignment, 0, -along, left)
        for along in past:
            yield beside(alignment, alignment.total, along, left)
    for left in (FAR - 10, FAR + 10, -FAR - 10, 3 * FAR):  # 12
        yield beside(alignment, alignment.total // 2, 0, left)


def night():
    """A crest file, readings with a tail of 7 bytes."""
    rng = random.Random(20)
    file, alignment = random_file(rng, Wish(count=20, shortest=500, longest=9_000, middle=(0, 0)))
    points = list(refused_points(alignment))
    points += [random_point(rng, alignment) for _ in range(240 - len(points))]
    rng.shuffle(points)
    return file, reading_bytes(points) + bytes(range(7))


def example_files():
    readings = reading_bytes([(512, 300), (-101, 0)])
    text = crest.program_text(examples.K, readings)
    assert text == examples.PRINTED
    yield "examples/k.crest", examples.K
    yield "examples/k.readings", readings
    yield "crates/crestline/data/k.crest", examples.K
    yield "crates/crestline/data/k.readings", readings
    yield "crates/crestline/args", b"k.crest\nk.readings\n"
    yield "crates/crestline/stdout", text.encode()


def night_files():
    file, readings = night()
    yield "crates/crestline_night/data/night.crest", file
    yield "crates/crestline_night/stdin", readings
    yield "crates/crestline_night/args", b"night.crest\n-\n"
    yield "crates/crestline_night/stdout", crest.program_text(file, readings).encode()


def main(arguments):
    if len(arguments) != 1:
        sys.exit("usage: program_cases.py ROOT")
    for name, data in (*example_files(), *night_files()):
        path = Path(arguments[0], name)
        path.parent.mkdir(parents=True, exist_ok=True)
        path.write_bytes(data)


if __name__ == "__main__":
    main(sys.argv[1:])
