"""Random sightings and targets of moves, from a given random.Random; whole numbers of i32 throughout.

A sighting is made from the point that it is to come to: pairs and distance are chosen, and the instrument is put where they
lead to that point, to the grain.
"""

from math import isqrt

import crest
from crest import FRAME, LONGEST_SIGHT, ONE, UNIT_SLACK, UNIT_SQUARE, Sighting
from random_crests import AXES, half_directions, random_point, random_unit, unit_limit_pairs

LEAST, GREATEST = -(2**31), 2**31 - 1  # of i32
LONGEST_UNIT, SHORTEST_UNIT = UNIT_SQUARE + UNIT_SLACK, UNIT_SQUARE - UNIT_SLACK  # limits of c² + s²
HALVES = tuple(half_directions())
SHORT = ONE - 1  # (SHORT, 0) is a unit; half of it is no whole number
EDGES = (LEAST, -FRAME - 1, -FRAME, FRAME, FRAME + 1, GREATEST)

# ---------------------------------------------------------------------------
# Pairs, distances, places


def limit_pairs(limit):
    """Pairs with c² + s² just below a limit, and just above: the closest of some hundred, for each of some directions."""
    below, above = [], []
    for start in range(ONE // 64, ONE * 3 // 4, ONE // 64):
        pairs = [(c, isqrt(limit - c * c)) for c in range(start, start + 300)]
        below.append(max(pairs, key=lambda pair: pair[0] ** 2 + pair[1] ** 2))
        pairs = [(c, s + 1) for c, s in pairs]
        above.append(min(pairs, key=lambda pair: pair[0] ** 2 + pair[1] ** 2))
    return below, above


UP_TO_LONGEST, PAST_LONGEST = limit_pairs(LONGEST_UNIT)
TOO_SHORT, FROM_SHORTEST = limit_pairs(SHORTEST_UNIT)
for pairs, pair in zip((UP_TO_LONGEST, PAST_LONGEST, FROM_SHORTEST, TOO_SHORT), unit_limit_pairs()):
    pairs.append(pair)  # close to an axis


def mirrored(rng, pair):
    """The pair in any of the eight octants."""
    one, two = pair if rng.randrange(2) else pair[::-1]
    return rng.choice((-one, one)), rng.choice((-two, two))


def edge_pair(rng, inside):
    """A pair at the limits of a unit, on this side of them."""
    pairs = (UP_TO_LONGEST, FROM_SHORTEST) if inside else (PAST_LONGEST, TOO_SHORT)
    return mirrored(rng, rng.choice(rng.choice(pairs)))


def unit_pair(rng):
    """An axis, a component of exactly a half, a unit next to its limits, or any."""
    choice = rng.randrange(8)
    if choice == 0:
        return rng.choice(AXES)
    if choice == 1:
        return rng.choice(HALVES)
    return edge_pair(rng, True) if choice == 2 else random_unit(rng)


def no_unit(rng):
    """Next to the limits, far from them, or at the limits of i32."""
    choice = rng.randrange(6)
    if choice == 0:
        return rng.choice(((0, 0), (ONE, ONE), (ONE + 1, 0), (0, -ONE - 1), (ONE - 2, 0), (5, -7)))
    if choice == 1:
        return rng.choice((LEAST, GREATEST, 0)), rng.choice((LEAST, GREATEST))
    return edge_pair(rng, False)


def sight(rng):
    """A distance that is taken: its limits, or any of some size."""
    reach = rng.choice((10, 1_000, 100_000, 10_000_000, LONGEST_SIGHT))
    return rng.choice((0, 1, LONGEST_SIGHT - 1, LONGEST_SIGHT) + (rng.randint(0, reach),) * 6)


def no_sight(rng):
    """A distance that is not: one beyond a limit, a limit of i32, or any."""
    any_one = rng.choice((rng.randint(LEAST, -1), rng.randint(LONGEST_SIGHT + 1, GREATEST)))
    return rng.choice((-1, LONGEST_SIGHT + 1, LONGEST_SIGHT + 1, LEAST, GREATEST, any_one))


def anywhere(rng):
    return rng.randint(-FRAME, FRAME), rng.randint(-FRAME, FRAME)


def on_the_rim(rng, point, by):
    """The point moved to an edge of the frame and so many grains past it, in one coordinate."""
    edge = rng.choice((-1, 1)) * (FRAME + by)
    return (edge, point[1]) if rng.randrange(2) else (point[0], edge)


def outside(rng, point):
    """The point moved out of the frame in one coordinate: by one grain, to a limit of i32, or anywhere."""
    far = rng.choice((LEAST, GREATEST, rng.randint(LEAST, -FRAME - 1), rng.randint(FRAME + 1, GREATEST)))
    far = (far, point[1]) if rng.randrange(2) else (point[0], far)
    return rng.choice((on_the_rim(rng, point, 1), on_the_rim(rng, point, 1), far))


def at_an_edge(rng, point):
    """A corner of the frame, the point moved to an edge of it, or either one grain farther."""
    corner = rng.choice((-FRAME, FRAME)), rng.choice((-FRAME, FRAME))
    return rng.choice((corner, on_the_rim(rng, corner, 1), on_the_rim(rng, point, 0), on_the_rim(rng, point, 1)))


# ---------------------------------------------------------------------------
# Sightings


def sighting_of(point, backsight, angle, distance):
    """The sighting with these pairs and this distance that comes to a point."""
    along_x, along_y = crest.sighted_point(Sighting(0, 0, *backsight, *angle, distance))
    return Sighting(point[0] - along_x, point[1] - along_y, *backsight, *angle, distance)


def with_backsight(sighting, pair):
    return sighting._replace(backsight_c=pair[0], backsight_s=pair[1])


def with_angle(sighting, pair):
    return sighting._replace(angle_c=pair[0], angle_s=pair[1])


def from_inside(rng, point, pair=unit_pair, distance=sight):
    """A sighting of a point with such pairs and such a distance, from a place in the frame where one is soon found."""
    for _ in range(12):
        sighting = sighting_of(point, pair(rng), pair(rng), distance(rng))
        if crest.in_frame(sighting.x, sighting.y):
            break
    return sighting


def at_unit_limits(rng, point):
    """Both pairs next to their limits: the turned pair is often no unit."""
    return from_inside(rng, point, lambda rng: edge_pair(rng, True))


def beyond_unit_limits(rng, point):
    """One pair or both no unit."""
    sighting = from_inside(rng, point)
    which = rng.randrange(3)
    if which != 1:
        sighting = with_backsight(sighting, no_unit(rng))
    return sighting if which == 0 else with_angle(sighting, no_unit(rng))


def along_axes(rng, point):
    """Exact units."""
    return from_inside(rng, point, lambda rng: rng.choice(AXES))


def at_distance_limits(rng, point):
    return from_inside(rng, point, distance=lambda rng: rng.choice((0, 1, LONGEST_SIGHT - 1, LONGEST_SIGHT)))


def beyond_distance_limits(rng, point):
    """No distance; the point stays in the frame where the distance is one beyond a limit."""
    distance = no_sight(rng)
    if distance in (-1, LONGEST_SIGHT + 1):
        return from_inside(rng, point, distance=lambda rng: distance)
    return from_inside(rng, point)._replace(distance=distance)


def from_an_edge(rng, point):
    """From a corner or an edge of the frame, or one grain outside, in any direction or towards the middle."""
    x, y = at_an_edge(rng, point)
    sighting = Sighting(x, y, *unit_pair(rng), *unit_pair(rng), sight(rng))
    if rng.randrange(2):
        pair = (-ONE if x > 0 else ONE, 0) if abs(x) >= FRAME else (0, -ONE if y > 0 else ONE)
        sighting = with_angle(with_backsight(sighting, pair), (ONE, 0))
    return sighting


def from_outside(rng, point):
    """A point in the frame, close to an edge, from a place outside where one is soon found."""
    point = on_the_rim(rng, point, -rng.choice((0, 1, 1_000)))
    for _ in range(12):
        sighting = sighting_of(point, unit_pair(rng), unit_pair(rng), sight(rng))
        if not crest.in_frame(sighting.x, sighting.y):
            break
    return sighting


def to_the_rim(rng, point):
    """The point just inside or just outside the frame in one coordinate."""
    return from_inside(rng, on_the_rim(rng, point, rng.choice((-1, 0, 0, 1, 1, 2))))


def halves(rng, point):
    """The turned direction, or a coordinate of the point, at a whole number and a half."""
    distance = rng.choice((1, 3, rng.randrange(1, 1_000, 2), rng.randrange(1, 10**7, 2), LONGEST_SIGHT - 1))
    size = rng.choice((ONE, SHORT, SHORT))
    pairs = [rng.choice(HALVES), mirrored(rng, (size, 0))]
    rng.shuffle(pairs)
    return sighting_of(point, *pairs, distance)


def with_faults(rng, point):
    """Several at once or none: the point outside, no distance, the place outside, a pair no unit."""
    sighting = from_inside(rng, on_the_rim(rng, point, 1) if rng.randrange(2) else point)
    if rng.randrange(2):
        sighting = sighting._replace(distance=no_sight(rng))
    if rng.randrange(2):
        x, y = outside(rng, (sighting.x, sighting.y))
        sighting = sighting._replace(x=x, y=y)
    if rng.randrange(4) == 0:
        sighting = with_backsight(sighting, no_unit(rng))
    return with_angle(sighting, no_unit(rng)) if rng.randrange(4) == 0 else sighting


def any_numbers(rng, point):
    """Any numbers of i32, and its limits; the pairs now and then units."""
    numbers = [rng.choice((LEAST, GREATEST, rng.randint(LEAST, GREATEST))) for _ in range(7)]
    sighting = Sighting(*numbers)
    return sighting if rng.randrange(2) else with_angle(with_backsight(sighting, unit_pair(rng)), unit_pair(rng))


# how often each comes
FAMILIES = {
    from_inside: 30, at_unit_limits: 12, beyond_unit_limits: 8, along_axes: 8, at_distance_limits: 8,
    beyond_distance_limits: 6, from_an_edge: 8, from_outside: 4, to_the_rim: 6, halves: 8, with_faults: 8,
    any_numbers: 2,
}  # fmt: skip


def random_sighting(rng, alignment=None):
    """A sighting of a point that an alignment has to answer, or of any point."""
    point = random_point(rng, alignment) if alignment else anywhere(rng)
    family = rng.choices(tuple(FAMILIES), tuple(FAMILIES.values()))[0]
    return family(rng, point)


def random_target(rng, sighting):
    """A target for a sighting's move: its point, the instrument, close by, anywhere, at the edges and outside."""
    x, y = crest.sighted_point(sighting)
    choice = rng.randrange(10)
    if choice == 0 and crest.in_frame(x, y):
        return x, y
    if choice == 1:
        return sighting.x, sighting.y
    if choice == 2:
        return at_an_edge(rng, anywhere(rng))
    if choice == 3:
        return rng.choice(EDGES), rng.choice(EDGES)
    if choice < 7 and crest.in_frame(x, y):
        reach = rng.choice((1, 9, 1_000, 1_000_000))
        return x + rng.randint(-reach, reach), y + rng.randint(-reach, reach)
    return anywhere(rng)
