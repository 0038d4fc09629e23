"""Vectors for the program comparisons: positions and directions on elements, at 8 stations of each."""

import random

import crest
import random_crests
from crest import ARC, ENTRY, EXIT, FRAME, LINE, LONGEST_ELEMENT, ONE, WIDEST, Element, least_radius
from rows import ELEMENT

ELEMENTS = 2_600
LENGTHS = (1, 2, 3, 10, 999, 100_001, LONGEST_ELEMENT - 1, LONGEST_ELEMENT)


def edge_directions():
    """The axes, and the longest and the shortest pairs of the unit test in each quadrant, both ways round."""
    longest, _, shortest, _ = random_crests.unit_limit_pairs()
    for c, s in longest, shortest, (ONE, 0):
        for pair in (c, s), (s, c):
            for signs in (1, 1), (1, -1), (-1, 1), (-1, -1):
                yield pair[0] * signs[0], pair[1] * signs[1]


def edge_shapes():
    """Kind, length and radius with both at their limits and one within."""
    for length in LENGTHS:
        yield LINE, length, 0
        for kind in ARC, ENTRY, EXIT:
            least = least_radius(kind, length)
            for size in sorted({least, least + 1, (least + WIDEST) // 2, WIDEST - 1, WIDEST}):
                if least <= size <= WIDEST:
                    yield kind, length, size
                    yield kind, length, -size


def half_shapes():
    """Spirals of lengths and radii that are powers of two, on which the angle t can be an exact half."""
    for length in 2**16, 2**18:
        for kind in ENTRY, EXIT:
            yield kind, length, 2**22
            yield kind, length, -(2**22)


def half_stations(kind, length):
    """Stations at which ONE·l² / (2·R·L) is a whole number and a half."""
    unit = 16 if length == 2**16 else 32
    lengths = [unit * odd for odd in range(1, 16, 2)]
    return [length - l if kind == EXIT else l for l in lengths]


def random_shape(rng):
    kind = rng.choice((LINE, ARC, ENTRY, EXIT, ARC, ENTRY, EXIT))
    length = round(LONGEST_ELEMENT ** rng.random()) if rng.random() < 0.5 else rng.randint(1, LONGEST_ELEMENT)
    if kind == LINE:
        return kind, length, 0
    least = least_radius(kind, length)
    size = round(least * (WIDEST / least) ** rng.random())
    return kind, length, rng.choice((-1, 1)) * min(max(size, least), WIDEST)


def stations(rng, length):
    """Both ends, the stations next to them, the middle and three others."""
    wanted = [0, length, min(1, length), max(length - 1, 0), length // 2]
    return wanted + [rng.randint(0, length) for _ in range(3)]


def elements(rng):
    edges = list(edge_directions())
    corners = [(x, y) for x in (-FRAME, FRAME) for y in (-FRAME, FRAME)]
    shapes = list(half_shapes()) + list(edge_shapes())
    for i in range(ELEMENTS):
        shape = shapes[i // 2] if i < 2 * len(shapes) else random_shape(rng)
        direction = edges[i // 2 % len(edges)] if i % 2 == 0 else random_crests.random_unit(rng)
        place = rng.choice(corners) if i % 5 == 0 else (rng.randint(-FRAME, FRAME), rng.randint(-FRAME, FRAME))
        kind, length, radius = shape
        yield Element(kind, length, *place, *direction, radius)


def add_rows(rows):
    rng = random.Random(4)
    for element in elements(rng):
        record = crest.record_of(element)
        assert crest.record_fault(record) == 0, element
        part = rows.lay(record)
        halves = (element.kind, element.length, element.radius) in set(half_shapes())
        wanted = half_stations(element.kind, element.length) if halves else stations(rng, element.length)
        for s in wanted:
            rows.add(ELEMENT, part, s, *crest.position(element, s), *crest.direction(element, s))
