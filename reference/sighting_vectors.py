"""Vectors for the program comparisons: sightings on crests, among readings and acknowledgements on one run, and their moves.

Wrong rows come before right ones that tell a false rule from the right one. A false rule is a function from a sighting to what
it makes of it, and each has wrong rows of its own.
"""

import random
from collections import Counter
from functools import partial
from itertools import product
from typing import NamedTuple

import crest
from crest import (
    FRAME, LONGEST_SIGHT, ONE, LinePlace, MoveAnswer, PlanePoint, Sighting, f64_bits, forward_and_left, in_frame,
    is_unit, near, sighted_point, turned_direction,
)  # fmt: skip
from random_sightings import GREATEST, LEAST, LONGEST_UNIT, SHORTEST_UNIT, random_sighting, random_target
from reading_vectors import SEED, SIGHTED, Plan, add_plan, laid_crests
from rows import CALL, DISPLAY, HEAD, LAYOUT, LENT, MOVE, NOTE, NOWHERE

MOVES = 2_400
FEWEST_SIGHTINGS, FEWEST_MOVES = 4_000, 2_000
OF_A_FALSE_RULE = {CALL: 20, NOTE: 5, LENT: 5, DISPLAY: 3, MOVE: 20}  # wrong rows at the most
FEWEST_TOLD = 10  # calls, and moves, that tell a false rule from the right one
FEWEST_AT_A_LIMIT = 5
DISTANCES = LEAST, -1, 0, 1, LONGEST_SIGHT, LONGEST_SIGHT + 1, GREATEST
CLOSE = 2**25  # to a limit of c² + s²

# ---------------------------------------------------------------------------
# False rules


class Seen(NamedTuple):
    """What a rule makes of a sighting: the number of its own refusal or 0, the point, the heading of the move."""

    number: int
    point: tuple
    heading: tuple


def seen(sighting):
    """By the right rules."""
    e, f = turned_direction(sighting)
    return Seen(crest.sighting_fault(sighting), sighted_point(sighting), (-e, -f))


def taken_for(sighting, **numbers):
    """By the right rules with other numbers."""
    return seen(sighting._replace(**numbers))


def turned_fully(sighting):
    """Components of the turned direction, with ONE·ONE for 1."""
    _, _, b, g, a, h, _ = sighting
    return b * a - g * h, g * a + b * h


def unrounded(sighting):
    """The turned direction is not rounded."""
    x, y = (near(sighting.distance * n, ONE * ONE) for n in turned_fully(sighting))
    return seen(sighting)._replace(point=(sighting.x + x, sighting.y + y))


def down(n):
    """near(n, ONE), but for a half, which goes down."""
    return -near(-n, ONE)


def gone_along(sighting, e, f, rounded):
    """By a turned direction, with each coordinate rounded so."""
    point = sighting.x + rounded(sighting.distance * e), sighting.y + rounded(sighting.distance * f)
    return seen(sighting)._replace(point=point, heading=(-e, -f))


def direction_halves_down(sighting):
    return gone_along(sighting, *map(down, turned_fully(sighting)), lambda n: near(n, ONE))


def point_halves_down(sighting):
    return gone_along(sighting, *turned_direction(sighting), down)


def turned_pair_tested(sighting):
    found = seen(sighting)
    return found if found.number or is_unit(*turned_direction(sighting)) else found._replace(number=7)


def heading_kept(sighting):
    """The move faces from instrument to prism."""
    return seen(sighting)._replace(heading=turned_direction(sighting))


def with_order(sighting, *order):
    """The refusals in another order, or only some of them."""
    x, y, b, g, a, h, d = sighting
    found = seen(sighting)
    faults = {
        "backsight": (7, not is_unit(b, g)),
        "angle": (7, not is_unit(a, h)),
        "place": (11, not in_frame(x, y)),
        "distance": (15, not 0 <= d <= LONGEST_SIGHT),
        "point": (11, not in_frame(*found.point)),
    }
    return found._replace(number=next((faults[name][0] for name in order if faults[name][1]), 0))


FALSE_RULES = {
    "angle turned to the right": lambda s: taken_for(s, angle_s=-s.angle_s),
    "along the backsight": lambda s: taken_for(s, angle_c=ONE, angle_s=0),
    "angle from x": lambda s: taken_for(s, backsight_c=ONE, backsight_s=0),
    "from the point to the place": lambda s: taken_for(s, backsight_c=-s.backsight_c, backsight_s=-s.backsight_s),
    "x for y": lambda s: taken_for(s, x=s.y, y=s.x),
    "one grain farther": lambda s: taken_for(s, distance=s.distance + 1),
    "turned direction not rounded": unrounded,
    "its halves going down": direction_halves_down,
    "the point's halves going down": point_halves_down,
    "turned pair tested": turned_pair_tested,
    "heading kept": heading_kept,
    "backsight not tested": lambda s: with_order(s, "angle", "place", "distance"),
    "angle not tested": lambda s: with_order(s, "backsight", "place", "distance"),
    "place not tested": lambda s: with_order(s, "backsight", "angle", "distance"),
    "distance not tested": lambda s: with_order(s, "backsight", "angle", "place"),
    "place before the pairs": lambda s: with_order(s, "place", "backsight", "angle", "distance"),
    "distance before the place": lambda s: with_order(s, "backsight", "angle", "distance", "place"),
    "point before the distance": lambda s: with_order(s, "backsight", "angle", "place", "point", "distance"),
}
OF_MOVES = {"heading kept"}  # what no crest tells

# What comes to this refusal on every crest
REFUSED = {
    7: Sighting(0, 0, 0, 0, 0, 0, 0),
    11: PlanePoint(f64_bits(FRAME + 1.0), 0),
    15: LinePlace(f64_bits(-1.0), 0),
}


def observation_of(found):
    """What comes to the same on every crest."""
    return REFUSED[found.number] if found.number else PlanePoint(*(f64_bits(float(n)) for n in found.point))


class FalseRows:
    """Wrong rows before right ones: by the rule, among those that the row tells, that has the fewest so far."""

    def __init__(self):
        self.made = Counter()

    def add(self, rows, sort, part, sighting, right, values_of):
        """values_of gives a row's values by what a rule makes of the sighting."""
        found = seen(sighting)
        for name in sorted(FALSE_RULES, key=lambda name: self.made[sort, name]):
            if self.made[sort, name] == OF_A_FALSE_RULE[sort]:
                return
            other = FALSE_RULES[name](sighting)
            if other == found:
                continue
            values = values_of(other)
            if values != right:
                rows.add_false(sort, part, *values)
                self.made[sort, name] += 1
                return

    def before(self, rows, sort, part, observation, right, values_of):
        """The same on a crest, of a sighting only."""
        if isinstance(observation, Sighting):
            self.add(rows, sort, part, observation, right, lambda found: values_of(observation_of(found)))

    def hold(self):
        for name in FALSE_RULES:
            assert self.made[MOVE, name] >= FEWEST_TOLD, (name, self.made)
            assert name in OF_MOVES or self.made[CALL, name] >= FEWEST_TOLD, (name, self.made)


# ---------------------------------------------------------------------------
# Moves


def move_of(found, target):
    """The move by what a rule makes of a sighting."""
    if found.number:
        return MoveAnswer(found.number, 0)
    if not (in_frame(*found.point) and in_frame(*target)):
        return MoveAnswer(11, 0)
    return MoveAnswer(0, 0, *forward_and_left(found.point, target, found.heading))


def move_values(sighting, target, answer):
    return answer.number, answer.forward, answer.left, *sighting, *target


def add_moves(rows, rng, false):
    for _ in range(MOVES):
        sighting = random_sighting(rng)
        target = random_target(rng, sighting)
        values_of = partial(move_values, sighting, target)
        right = values_of(crest.sighting_stake_out(sighting, target))
        false.add(rows, MOVE, NOWHERE, sighting, right, lambda found: values_of(move_of(found, target)))
        rows.add(MOVE, NOWHERE, *right)


# ---------------------------------------------------------------------------
# What the rows have


def limits_of(sighting):
    """What a sighting is at the limit of."""
    x, y, b, g, a, h, d = sighting
    for pair, c, s in (("backsight", b, g), ("angle", a, h)):
        for limit in (LONGEST_UNIT, SHORTEST_UNIT):
            if abs(c * c + s * s - limit) < CLOSE:
                yield pair, limit, is_unit(c, s)
    if d in DISTANCES:
        yield "distance", d
    if abs(x) == abs(y) == FRAME:
        yield "corner", x, y
    places = [("place", sighting[:2])]
    if not crest.sighting_fault(sighting):
        places.append(("point", sighted_point(sighting)))
        if not is_unit(*turned_direction(sighting)):
            yield "turned pair no unit"
    for name, place in places:
        for axis, number in zip("xy", place):
            if abs(number) in (FRAME, FRAME + 1):
                yield name, axis, number


EVERY_LIMIT = {
    *product(("backsight", "angle"), (LONGEST_UNIT, SHORTEST_UNIT), (False, True)),
    *product(("distance",), DISTANCES),
    *product(("corner",), (-FRAME, FRAME), (-FRAME, FRAME)),
    *product(("place", "point"), "xy", (-FRAME - 1, -FRAME, FRAME, FRAME + 1)),
    "turned pair no unit",
}


def right_rows(rows, sort):
    """The values of the right rows of a sort that are sightings."""
    found = []
    for row in rows.rows:
        of, wrong, _, _ = HEAD.unpack_from(row)
        if of == sort and not wrong and (sort == MOVE or row[HEAD.size] == SIGHTED):
            found.append(LAYOUT[sort].unpack_from(row, HEAD.size))
    return found


def hold(rows):
    """There are enough sightings and moves, with every refusal that they can have and at every limit."""
    found = {sort: right_rows(rows, sort) for sort in (CALL, NOTE, LENT, DISPLAY, MOVE)}
    on_a_run = {*range(10), *range(11, 17)}
    for sort, at, wanted, fewest in (
        (CALL, 2, on_a_run | {18}, 20), (NOTE, 2, on_a_run, 1), (LENT, 2, on_a_run, 1), (MOVE, 0, {0, 7, 11, 15}, 100),
    ):  # fmt: skip
        numbers = Counter(values[at] % crest.PLACE_UNIT for values in found[sort])
        assert set(numbers) == wanted and min(numbers.values()) >= fewest, numbers
    for sort, at in ((CALL, 6), (MOVE, 3)):
        limits = Counter(limit for values in found[sort] for limit in limits_of(Sighting(*values[at : at + 7])))
        assert set(limits) == EVERY_LIMIT and min(limits.values()) >= FEWEST_AT_A_LIMIT, limits
    calls, *others, moves = map(len, found.values())
    assert calls > sum(others), (calls, others)
    assert calls + sum(others) >= FEWEST_SIGHTINGS, (calls, others)
    assert moves >= FEWEST_MOVES, moves


# ---------------------------------------------------------------------------
# The vectors


def add_rows(rows):
    files, parts = laid_crests(rows, random.Random(SEED))
    rng = random.Random(9)
    false = FalseRows()
    mix = 14, 8, 8, 70
    displays = (SIGHTED,) * 10
    add_plan(rows, rng, Plan(files, parts, mix, 280, 80, displays, to_an_odd_run=3, before=false.before))
    add_moves(rows, rng, false)
    false.hold()
    hold(rows)
