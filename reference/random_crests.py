"""Random accepted alignments and points, from a given random.Random; whole numbers throughout.

random_elements builds one element after the other so that every join fits: the next element's
direction is solved from the tangent wanted at its start, then its anchor from the position wanted
there. Both are exact to the grain, so gaps and kinks can lie exactly on their limits.
"""

from math import isqrt
from typing import NamedTuple

import crest
from crest import ARC, ENTRY, EXIT, FRAME, GRAINS, LINE, ONE, PAST_END, UNIT_SLACK, UNIT_SQUARE, WIDEST, Element

AXES = ((ONE, 0), (0, ONE), (-ONE, 0), (0, -ONE))
FAR = isqrt(crest.FARTHEST)  # grains: the farthest distance answered


class Wish(NamedTuple):
    """What the alignments should be like."""

    count: int = 5
    shortest: int = 1
    longest: int = 500
    kinds: tuple = (LINE, ARC, ENTRY, EXIT)
    gap: int = crest.WIDEST_GAP  # greatest gap in grains
    kink: int = crest.WIDEST_KINK  # greatest kink
    at_limit: int = 20  # of 100 choices, how many lie exactly on a limit
    tight: int = 50  # of 100 radii, how many lie near the least one
    turn: int = 0  # sign of every radius, 0 for both
    middle: tuple = None  # where the alignment begins; random in the frame if None
    heading: tuple = None  # direction at the beginning; random if None


# ---------------------------------------------------------------------------
# Directions


def unit(a, b):
    """The pair (a, b) brought to length ONE; it passes the unit test."""
    size = isqrt((a * a + b * b) * ONE * ONE)  # the length times ONE
    return crest.near(a * ONE * ONE, size), crest.near(b * ONE * ONE, size)


def random_unit(rng):
    """A random direction; now and then an axis or close to one."""
    choice = rng.randrange(10)
    if choice == 0:
        return rng.choice(AXES)
    if choice == 1:
        c, s = rng.choice(AXES)
        return unit((c << 20) + rng.randint(-(2**24), 2**24), (s << 20) + rng.randint(-(2**24), 2**24))
    while True:
        a, b = rng.randint(-ONE, ONE), rng.randint(-ONE, ONE)
        if ONE * ONE // 64 < a * a + b * b <= ONE * ONE:
            return unit(a, b)


def unit_limit_pairs(tries=20_000):
    """The longest passing pair, the shortest above it that fails, the shortest passing, the longest below it
    that fails, all near (ONE, 0).

    No pair of whole numbers has c² + s² exactly 2^31 from 2^60, so these are the closest found.
    """
    top, bottom = UNIT_SQUARE + UNIT_SLACK, UNIT_SQUARE - UNIT_SLACK
    above_in = above_out = below_in = below_out = None

    def closer(old, pair, edge):
        distance = abs(pair[0] ** 2 + pair[1] ** 2 - edge)
        return pair if old is None or distance < abs(old[0] ** 2 + old[1] ** 2 - edge) else old

    for step in range(tries):
        c = ONE - step
        s = isqrt(top - c * c)
        above_in = closer(above_in, (c, s), top)
        above_out = closer(above_out, (c, s + 1), top)
        if c * c <= bottom:
            s = isqrt(bottom - c * c)
            below_out = closer(below_out, (c, s), bottom)
            below_in = closer(below_in, (c, s + 1), bottom)
        else:
            below_in = closer(below_in, (c, 0), bottom)
    return above_in, above_out, below_in, below_out


def half_directions():
    """Directions with one component exactly half of ONE: a product with an odd number is a whole number and a half."""
    other = isqrt(3 * ONE * ONE // 4) + 1
    for pair in (ONE // 2, other), (other, ONE // 2):
        for signs in (1, 1), (1, -1), (-1, 1), (-1, -1):
            yield pair[0] * signs[0], pair[1] * signs[1]


def direction_fitting(element, wanted):
    """The record direction with which the element's first direction comes to the wanted one."""
    du, dv = crest.own_direction(element, 0)
    a, b = wanted
    return unit(a * du + b * dv, b * du - a * dv)


def anchored(element, start):
    """The element with its anchor moved so that its first position is start."""
    moved = element._replace(x=0, y=0)
    x, y = crest.position(moved, 0)
    return moved._replace(x=start[0] - x, y=start[1] - y)


def kinked(rng, tangent, kink, at_limit):
    """A direction within kink of the tangent in both components, the steeper one on the limit if asked."""
    if kink == 0:
        return tangent
    c, s = unit(*tangent)
    by = rng.choice((-kink, kink)) if at_limit else rng.randint(-kink, kink)
    if abs(c) >= abs(s):
        other = tangent[1] + by
        return (1 if c > 0 else -1) * isqrt(max(0, UNIT_SQUARE - other * other)), other
    other = tangent[0] + by
    return other, (1 if s > 0 else -1) * isqrt(max(0, UNIT_SQUARE - other * other))


# ---------------------------------------------------------------------------
# Elements


def random_length(rng, wish):
    choice = rng.randrange(100)
    if choice < wish.at_limit:
        return rng.choice((wish.shortest, wish.longest))
    if choice < 60:
        return rng.randint(wish.shortest, wish.longest)
    # short ones as often as long ones
    span = max(1, wish.longest // max(1, wish.shortest))
    top = min(wish.longest, wish.shortest << rng.randrange(span.bit_length()))
    return rng.randint(wish.shortest, top)


def random_radius(rng, wish, kind, length):
    if kind == LINE:
        return 0
    least = crest.least_radius(kind, length)
    if rng.randrange(100) < wish.at_limit:
        size = rng.choice((least, least, WIDEST))
    elif rng.randrange(100) < wish.tight:
        size = rng.randint(least, min(WIDEST, least + least // 4 + 1))
    else:
        size = min(WIDEST, least * rng.choice((1, 3, 10, 100, 1000)) + rng.randint(0, least))
    return size * (wish.turn or rng.choice((-1, 1)))


def random_gap(rng, wish):
    if wish.gap == 0:
        return 0
    if rng.randrange(100) < wish.at_limit:
        return rng.choice((-wish.gap, wish.gap))
    return rng.choice((0, rng.randint(-wish.gap, wish.gap)))


def escape_sign(place, tangent, radius):
    """The side on which a full circle of that radius in mm stays in the frame, or 0."""
    size = GRAINS * radius
    for sign in (1, -1):
        x = place[0] - sign * crest.near(size * tangent[1], ONE)
        y = place[1] + sign * crest.near(size * tangent[0], ONE)
        if abs(x) + size + 10_000 <= FRAME and abs(y) + size + 10_000 <= FRAME:
            return sign
    return 0


def next_element(rng, wish, kind, length, radius, end, tangent, gentle):
    """An element joined to an end position and tangent, or None where record or join does not fit."""
    gap = (0, 0) if gentle else (random_gap(rng, wish), random_gap(rng, wish))
    kink = 0 if gentle or rng.randrange(2) else wish.kink
    on_limit = rng.randrange(100) < wish.at_limit
    wanted = aim = kinked(rng, tangent, kink, on_limit)
    element = Element(kind, length, 0, 0, ONE, 0, radius)
    for _ in range(4):  # rounding of the solved direction is made good here
        c, s = direction_fitting(element, aim)
        element = element._replace(c=c, s=s)
        found = crest.direction(element, 0)
        if found == wanted:
            break
        aim = aim[0] + wanted[0] - found[0], aim[1] + wanted[1] - found[1]
    element = anchored(element, (end[0] + gap[0], end[1] + gap[1]))
    if not fits_record(element) or crest.record_fault(crest.record_of(element)):
        return None
    return element


def fits_record(element):
    """All numbers fit their i32."""
    return all(-(2**31) <= n < 2**31 for n in element[2:])


def joined(earlier, later):
    return crest.join_fault(earlier, later) == 0


def begin(rng, wish):
    """Where the alignment begins: position and tangent."""
    while True:
        place = wish.middle or (
            rng.randint(-FRAME, FRAME),
            rng.randint(-FRAME, FRAME),
        )
        tangent = wish.heading or random_unit(rng)
        if wish.middle or wish.count == 1 or escape_sign(place, tangent, 2 * wish.longest):
            return place, tangent


def random_elements(rng, wish):
    """A random list of elements that check accepts, count of them.

    After each element a full circle of the least arc radius must fit into the frame, so that an
    alignment of any length can go on; such an arc is the last resort where other choices fail.
    Where the wish says the beginning, only the records and joins themselves must fit.
    """
    circle = 2 * wish.longest
    while True:
        end, tangent = begin(rng, wish)
        elements = []
        while len(elements) < wish.count:
            for attempt in range(30):
                kind = rng.choice(wish.kinds)
                length = random_length(rng, wish)
                radius = random_radius(rng, wish, kind, length)
                if attempt >= 25:
                    side = escape_sign(end, tangent, circle)
                    kind, radius = ARC, (side or 1) * circle
                element = next_element(rng, wish, kind, length, radius, end, tangent, attempt >= 20)
                if element is None or elements and not joined(elements[-1], element):
                    continue
                after = crest.position(element, length), crest.direction(element, length)
                last = len(elements) + 1 == wish.count
                if last or wish.middle or escape_sign(*after, circle):
                    break
            else:
                break  # no way on from here: begin again
            elements.append(element)
            end, tangent = after
        if len(elements) == wish.count:
            return elements


def random_file(rng, wish):
    """(file made by the writer, its alignment); the writer's and the checker's acceptance are asserted."""
    records = b"".join(map(crest.record_of, random_elements(rng, wish)))
    refusal, file = crest.write(records, bytes(crest.BLOCK_SIZE * crest.blocks_needed(wish.count)))
    assert refusal is None, refusal
    alignment = crest.check(file)
    assert not isinstance(alignment, crest.Refusal), alignment
    return file, alignment


def ended(elements, total):
    """The elements with the last ones cut or a last line lengthened so that T is total, or None."""
    spare = sum(element.length for element in elements) - total
    elements = list(elements)
    while elements and spare >= elements[-1].length:
        spare -= elements.pop().length
    if not elements:
        return None
    last = elements[-1]
    if spare < 0 and last.kind != LINE or last.length - spare > crest.LONGEST_ELEMENT:
        return None
    if spare and last.kind in (ENTRY, EXIT):
        return None  # a spiral's length is part of its shape
    elements[-1] = last._replace(length=last.length - spare)
    return elements


# ---------------------------------------------------------------------------
# Points


def clamp(number):
    return max(-FRAME, min(FRAME, number))


def beside(alignment, station, along, left):
    """The point that lies along and left of the position at a station, in grains, held in the frame."""
    x, y = crest.position_at(alignment, station)
    tx, ty = crest.direction_at(alignment, station)
    return (
        clamp(x + crest.near(along * tx - left * ty, ONE)),
        clamp(y + crest.near(along * ty + left * tx, ONE)),
    )


def centre_of_curvature(alignment, station):
    """The centre of curvature at a station, or None where the element is straight there."""
    number, s = crest.element_at(alignment, station)
    element = alignment.elements[number]
    l = crest.distance_from_anchor(element, s)
    if element.kind == LINE or element.kind != ARC and l == 0:
        return None
    radius = GRAINS * element.radius
    if element.kind != ARC:
        size = crest.near(abs(radius) * element.length, l)
        radius = size if radius > 0 else -size
    return beside(alignment, station, 0, radius)


def random_station(rng, alignment):
    """Any station; now and then a join, a station beside one, or an end."""
    choice = rng.randrange(6)
    if choice == 0:
        return rng.choice((0, alignment.total))
    if choice == 1:
        near_join = rng.choice(alignment.starts) + rng.randint(-1, 1)
        return max(0, min(alignment.total, near_join))
    return rng.randint(0, alignment.total)


def random_point(rng, alignment):
    """A point in the frame: on, close to, far from the alignment, at a centre, past an end, in a corner."""
    choice = rng.randrange(10)
    station = random_station(rng, alignment)
    if choice == 0:
        return clamp_pair(crest.position_at(alignment, station))
    if choice == 1:  # half way between neighbours, where ties are
        one = crest.position_at(alignment, station)
        two = crest.position_at(alignment, min(alignment.total, station + 1))
        return clamp_pair(((one[0] + two[0]) // 2, (one[1] + two[1]) // 2))
    if choice == 2:
        centre = centre_of_curvature(alignment, station)
        if centre is not None:
            return clamp(centre[0] + rng.randint(-2, 2)), clamp(centre[1] + rng.randint(-2, 2))
    if choice == 3:  # past the ends, on each side of the limit
        past = rng.choice((0, 50, PAST_END - 1, PAST_END, PAST_END + 1, PAST_END + 2, 150))
        left = rng.choice((0, 0, rng.randint(-300, 300), rng.randint(-100_000, 100_000)))
        if rng.randrange(2):
            return beside(alignment, 0, -past, left)
        return beside(alignment, alignment.total, past, left)
    if choice == 4:
        return rng.choice((-1, 1)) * FRAME, rng.choice((-1, 1)) * FRAME
    if choice == 5:
        return rng.randint(-FRAME, FRAME), rng.randint(-FRAME, FRAME)
    if choice == 6:  # on each side of the farthest distance answered
        left = rng.choice((-1, 1)) * (FAR + rng.randint(-3, 3))
        return beside(alignment, station, 0, left)
    reach = rng.choice((100, 1_000, 10_000, 100_000, 1_000_000, FAR))
    return beside(alignment, station, rng.randint(-GRAINS, GRAINS), rng.randint(-reach, reach))


def clamp_pair(pair):
    return clamp(pair[0]), clamp(pair[1])
