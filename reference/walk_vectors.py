"""Vectors for the program comparisons: points on accepted crests, and what each comes to."""

import random

import crest
import random_crests
from crest import (
    ARC, ENTRY, EXIT, FIRST_STEP, FRAME, GRAINS, LINE, LONGEST_ELEMENT, MOST_RECORDS, ONE, PAST_END, PER_BLOCK,
    WIDEST_KINK,
)  # fmt: skip
from plain_files import line, raw_file
from random_crests import AXES, FAR, Wish, beside, random_file, random_point
from rows import POINT


# ---------------------------------------------------------------------------
# Points


def outside(rng):
    """Points just outside the frame, and far outside."""
    edge = FRAME + 1
    points = [(edge, 0), (-edge, 5), (0, edge), (7, -edge), (edge, edge), (-edge, FRAME), (FRAME, -edge)]
    points += [(2**31, 0), (0, -(2**31)), (2**32, 2**32), (2**63 - 1, 0), (-(2**63), -(2**63)), (0, 2**63 - 1)]
    return rng.sample(points, 2)


def past_the_ends(alignment, left):
    """Points whose residual at an end is exactly on the limit of 13 or 14, and one beyond, that far to the left."""
    for station, limits in ((0, (-PAST_END, -PAST_END - 1)), (alignment.total, (PAST_END, PAST_END + 1))):
        for limit in limits:
            x, y = beside(alignment, station, limit, left)
            near = [(x + i, y + j) for i in (0, 1, -1, 2, -2) for j in (0, 1, -1, 2, -2)]
            found = [p for p in near if crest.residual_and_offset(alignment, p, station)[0] == limit]
            yield found[0] if found else (x, y)


def on_joins(rng, alignment):
    """Both sides of a join with a gap, the middle between them, and a point beside it."""
    if len(alignment.elements) == 1:
        return []
    number = rng.randrange(1, len(alignment.elements))
    earlier, later = alignment.elements[number - 1 : number + 1]
    one, two = crest.position(earlier, earlier.length), crest.position(later, 0)
    middle = (one[0] + two[0]) // 2, (one[1] + two[1]) // 2
    return [one, two, middle, beside(alignment, alignment.starts[number], 0, rng.choice((-1, 1)) * 40_000)]


def in_frame(points):
    return [random_crests.clamp_pair(point) for point in points]


def mixed_points(rng, alignment, count):
    """Random points, the ends' limits, a join, points outside."""
    left = rng.choice((0, rng.randint(-500, 500), rng.randint(-100_000, 100_000)))
    points = list(past_the_ends(alignment, left)) + on_joins(rng, alignment)
    points += [random_point(rng, alignment) for _ in range(max(2, count - len(points)))]
    points = in_frame(points)
    return points + outside(rng)[: rng.randrange(3)]


# ---------------------------------------------------------------------------
# Groups: a crest file and points


def marked_line(rng):
    """The line of the marked examples: they, and the limits along it."""
    file = raw_file([line(length=10_000)])
    points = [(512, 300), (550, 300), (-100, 0), (-101, 0), (1_000_100, 0), (1_000_101, 0), (500_000, FAR)]
    points += [(500_000, FAR + 1), (0, 0), (1_000_000, 0), (500_000, -FAR), (500_000, -FAR - 1), (-1, FAR), (-1, -FAR)]
    three, four = FAR * 3 // 5, FAR * 4 // 5  # FAR lies between them
    points += [(-FAR, 0), (-FAR - 1, 0), (-three, four), (-three, four + 1), (0, FAR), (0, FAR + 1)]
    end = 1_000_000
    points += [(end + 1, FAR), (end + three, four), (end + three + 1, four), (end + FAR, 0), (end + FAR + 1, 0)]
    points += [(x, 0) for x in range(49, 153, 17)] + [(x, -7) for x in range(999_900, 1_000_104, 51)]
    yield file, points + [(x, y) for x in (-FRAME, FRAME) for y in (-FRAME, FRAME)] + outside(rng)
    yield raw_file([line(length=3)]), [(0, 0), (150, 0), (300, 0), (301, 5), (400, 5), (401, 5)]


def axis_lines(rng):
    """Single lines along each axis with T at and next to multiples of FIRST_STEP: ends, ties, least D on its limit."""
    steps = [step + by for step in (FIRST_STEP, 2 * FIRST_STEP) for by in (-1, 0, 1)]
    half, past = GRAINS // 2, PAST_END + 1
    seven, many = FAR * 7 // 25, FAR * 24 // 25  # FAR lies between them
    for c, s in AXES:
        for length in (1, 2, 3, *steps, 2_500):
            x, y = rng.randint(-FRAME // 2, FRAME // 2), rng.randint(-FRAME // 2, FRAME // 2)
            file = raw_file([line(x=x, y=y, length=length, c=c, s=s)])
            c1, s1 = c // ONE, s // ONE
            end, points = GRAINS * length, []
            for along, left in (
                (0, FAR), (0, -FAR), (-1, FAR), (0, FAR + 1), (end, -FAR), (end + 1, FAR),
                (half, 9), (GRAINS + half, -9), (half * length, 777), (end - half, 3), (-PAST_END, 5), (-past, 5),
                (end + PAST_END, -5), (end + past, -5), (rng.randint(0, end), FAR - 1),
                (-seven, many), (-seven, many + 1),
            ):  # fmt: skip
                points.append((x + along * c1 - left * s1, y + along * s1 + left * c1))
            yield file, points


def halves(rng):
    """Lines with a component of the direction exactly a half: residuals and offsets that are halves, at the ends too."""
    for c, s in random_crests.half_directions():
        x, y = rng.randint(-FRAME // 2, FRAME // 2), rng.randint(-FRAME // 2, FRAME // 2)
        file = raw_file([line(x=x, y=y, length=rng.randint(20, 2_000), c=c, s=s)])
        alignment = crest.check(file)
        points = []
        for _ in range(10):
            x, y = crest.position_at(alignment, rng.randint(0, alignment.total))
            by = 2 * rng.randint(-24, 23) + 1
            points += [(x + by, y), (x, y + by)]
        total, twice = alignment.total, 2 * PAST_END
        for station, by in ((0, twice + 1), (0, twice + 3), (total, twice - 1), (total, twice + 1)):
            x, y = crest.position_at(alignment, station)
            by = by if (station == 0) == (min(c, s, key=abs) < 0) else -by
            points.append((x + by, y) if abs(c) < abs(s) else (x, y + by))
        yield file, points


def every_count(rng):
    """Random alignments of every count."""
    for count in range(1, MOST_RECORDS + 1):
        for turn in range(3):
            longest = rng.choice((5, 60, 1_500 // count + 2, 4_000 // count + 2))
            file, alignment = random_file(rng, Wish(count, longest=longest, at_limit=rng.choice((5, 50))))
            yield file, mixed_points(rng, alignment, 8)


def few_elements(rng):
    """Random alignments of few elements, some with long ones."""
    for number in range(70):
        file, alignment = random_file(rng, Wish(rng.randint(1, 7), longest=rng.choice((20, 300, 900, 6_000))))
        yield file, mixed_points(rng, alignment, 10)


def millimetres(rng):
    """Elements of 1 mm or 1 and 2 mm."""
    most = MOST_RECORDS
    for count in (1, 2, PER_BLOCK, PER_BLOCK + 1, 2 * PER_BLOCK, 3 * PER_BLOCK, most - 1, most, most, most):
        file, alignment = random_file(rng, Wish(count, longest=rng.choice((1, 2)), kink=WIDEST_KINK))
        yield file, mixed_points(rng, alignment, 12)


def corners(rng):
    """Alignments that begin in a corner of the frame or at its edge."""
    for number in range(16):
        x, y = rng.choice((-FRAME, FRAME)), rng.choice((-FRAME, FRAME, rng.randint(-FRAME, FRAME)))
        towards = random_crests.unit(-x, -y)
        file, alignment = random_file(rng, Wish(rng.randint(1, 9), longest=200, middle=(x, y), heading=towards))
        points = [(x, y), (x - x // abs(x), y), (FRAME, FRAME), (-FRAME, FRAME), (x, -y)]
        points += [(x + 1, y), (x - 1, y), (x, y + 1), (x, y - 1)]
        yield file, points + mixed_points(rng, alignment, 6)


def traced(rng, shapes, start=(0, 0), tangent=(ONE, 0)):
    """The file and alignment of kinds, lengths and radii laid end to end without gap or kink."""
    elements = []
    end = start
    for kind, length, radius in shapes:
        element = random_crests.next_element(rng, Wish(), kind, length, radius, end, tangent, True)
        elements.append(element)
        end, tangent = crest.position(element, length), crest.direction(element, length)
    file = raw_file(elements)
    alignment = crest.check(file)
    assert not isinstance(alignment, crest.Refusal), alignment
    return file, alignment


def hairpins(rng):
    """There and back: a far element is nearer, or as near, while the walk passes a local minimum."""
    for number in range(16):
        turn = rng.choice((-1, 1))
        length = rng.choice((10, 20, 40, 100))
        straight = rng.choice((200, 500, 1_200))
        # 6.28 times half a radian is a half circle; radius twice the length
        arcs = [(ARC, length, turn * 2 * length)] * 6 + [(ARC, max(1, length * 28 // 100), turn * 2 * length)]
        legs = 1 + number % 3
        shapes = [(LINE, straight, 0)] + (arcs + [(LINE, straight, 0)]) * legs
        if number % 4 == 3:
            shapes = [(ENTRY, length, turn * length), (ARC, length, turn * 2 * length)] * 6 + [(LINE, straight, 0)]
        x, y = rng.randint(-FRAME // 2, FRAME // 2), rng.randint(-FRAME // 2, FRAME // 2)
        file, alignment = traced(rng, shapes, (x, y), random_crests.random_unit(rng))
        width = 4 * length * GRAINS
        points = []
        for _ in range(12):
            station = rng.randrange(min(straight, alignment.total))
            left = turn * (width // 2 + rng.choice((0, 1, -1, 7, rng.randint(-width, width))))
            points.append(beside(alignment, station, 0, left))
        yield file, points + mixed_points(rng, alignment, 8)


def closed_rings(rng):
    """Arcs that come round to where they began, once or twice; their centre is as far from every station."""
    for length, radius, turn in ((10, 20, 1), (25, 50, -1), (100, 300, 1), (100, 200, -1), (7, 14, -1), (50, 150, 1)):
        count = min(MOST_RECORDS, 63 * radius // (10 * length) + 1)
        file, alignment = traced(rng, [(ARC, length, turn * radius)] * count, (rng.randint(-(10**7), 10**7), 5))
        centre = beside(alignment, 0, 0, turn * GRAINS * radius)
        points = [centre, (centre[0] + 1, centre[1]), (centre[0], centre[1] - 2)]
        points += [beside(alignment, rng.randint(0, alignment.total), 0, rng.randint(-300, 300)) for _ in range(8)]
        yield file, points + mixed_points(rng, alignment, 6)


def long_ones(rng):
    """As many of the longest elements as there may be, 30 km in all, and some of a few kilometres."""
    most, long = MOST_RECORDS, LONGEST_ELEMENT
    for count, shortest, longest, points in (
        (most, long, long, 6), (most, long - 1_000, long, 5), (23, 1, 300_000, 8), (5, 400_000, long, 8),
    ):  # fmt: skip
        file, alignment = random_file(rng, Wish(count, shortest=shortest, longest=longest, at_limit=10))
        rows = list(past_the_ends(alignment, rng.randint(-1_000, 1_000)))[:: 2 if count == most else 1]
        rows += on_joins(rng, alignment)[2:]
        while len(rows) < points:
            reach = rng.choice((0, 10, 3_000, 100_000))
            rows.append(beside(alignment, rng.randint(0, alignment.total), 0, rng.randint(-reach, reach)))
        yield file, in_frame(rows)
    # the centre of a long arc: nearly every station is visited
    file, alignment = traced(rng, [(ARC, 90_000, 180_000)])
    yield file, [beside(alignment, 45_000, 0, 180_000 * GRAINS)]
    for kind, length, radius in ((ARC, 60_000, -150_000), (ENTRY, 60_000, 60_000), (EXIT, 70_000, -70_000)):
        file, alignment = traced(rng, [(kind, length, radius)])
        yield file, mixed_points(rng, alignment, 8)


CHAPTERS = (
    marked_line, axis_lines, halves, every_count, few_elements, millimetres, corners, hairpins, closed_rings,
    long_ones,
)  # fmt: skip

# ---------------------------------------------------------------------------
# The vectors


def add_rows(rows):
    rng = random.Random(6)
    met = set()
    for chapter in CHAPTERS:
        for file, points in chapter(rng):
            alignment = crest.check(file)
            assert not isinstance(alignment, crest.Refusal), alignment
            part = rows.lay(file)
            for point in points:
                answer = crest.plane_answer(alignment, *point)
                met.add(answer.number)
                values = answer.offset, answer.residual, answer.number, answer.station, answer.count
                rows.add(POINT, part, *point, *values)
    assert met == {0, 11, 12, 13, 14}, met
