"""Elements by themselves and where they meet, as the library has them: ends, joins, elements that go on, snapping; and what a crest came
to."""

import math
from fractions import Fraction
from typing import NamedTuple

from . import library, units
from .elements import ENTRY, EXIT, field_text, place_text, unit_name
from .files import Trouble, plural
from .library import Refusal

LEAST_TURN = 0.05  # seconds of arc: a direction's rounding is below it


def crest_of(elements):
    """The crest file of some elements, or the refusal."""
    return library.write(b"".join(element.record for element in elements))


def start_and_end(element):
    """Position and direction at the start and at the end of an element, (x, y, c, s) each; None where the library refuses it."""
    crest = crest_of([element])
    if isinstance(crest, Refusal):
        return None
    return library.position(crest, 0), library.position(crest, element.length)


def unit_of(c, s):
    """The pair of a direction's angle."""
    return units.pair(units.turns(c, s))


def starting_at(element, x, y, c, s):
    """The element with the anchor by which it starts at a point, in a direction; None where the library refuses it. Of an exit spiral
    the anchor is the far end: it is turned by what its start is off, of some turns the best, and then moved."""
    wanted = units.turns(c, s)
    angle, best = wanted, None
    for _ in range(4):
        turned = element.at(0, 0, *units.pair(angle))
        ends = start_and_end(turned)
        if ends is None:
            return None
        off = (wanted - units.turns(*ends[0][2:]) + Fraction(1, 2)) % 1 - Fraction(1, 2)
        if best is None or abs(off) < best[0]:
            best = abs(off), turned, ends[0]
        angle += off
    _, turned, start = best
    moved = turned._replace(x=x - start[0], y=y - start[1])
    return moved if library.fits(moved.x, "x") and library.fits(moved.y, "y") else None


class Join(NamedTuple):
    """What lies between the end of one element and the start of the next."""

    end: tuple
    start: tuple

    @property
    def gap(self):
        return self.start[0] - self.end[0], self.start[1] - self.end[1]

    @property
    def distance(self):
        return math.hypot(*self.gap)

    @property
    def seconds(self):
        return units.seconds_between(self.end[2:], self.start[2:])


def join_of(first, second):
    """The join of two elements; None where the library refuses one of them."""
    ends, next_ends = start_and_end(first), start_and_end(second)
    return Join(ends[1], next_ends[0]) if ends and next_ends else None


def joined(first, second):
    """Two places as one: "lines 1 and 2"."""
    (word, _, number), (other, _, next_number) = first.partition(" "), second.partition(" ")
    if word == other and number.isdigit() and next_number.isdigit():
        return f"{word}s {number} and {next_number}"
    return f"{first} and {second}"


# ---- going on, and snapping


def lined_up(elements, name, most_mm=None, most_seconds=None):
    """Elements that go on get the anchor by which they start where the one before ends; others are moved and turned there, where their
    start lies within the tolerances. And what was moved or turned, in words. After an element that the library refuses, those that go on
    get some anchor: the crest is refused, and they can be looked at by themselves."""
    done, said = [], []
    for element in elements:
        if element.x is None:
            element = going_on(done[-1] if done else None, element, name)
        elif done:
            element, words = snapped(done[-1], element, most_mm, most_seconds)
            said += [f"{element.where}: {words}"] if words else []
        done.append(element)
    return done, said


def going_on(before, element, name):
    if before is None:
        raise Trouble(f"{name}: {element.where}: the first element has no point and direction to go on from")
    ends = start_and_end(before)
    if ends is None:
        return element.at(0, 0, units.ONE, 0)
    x, y, c, s = ends[1]
    found = starting_at(element, x, y, c, s)
    return found or element.at(x, y, *unit_of(c, s))  # a refused one, which the library says later


def snapped(before, element, most_mm, most_seconds):
    """An element turned at its anchor and then moved, so that it starts where the one before ends; and what was done, in words."""
    words = []
    join = join_of(before, element)
    if join and most_seconds is not None and LEAST_TURN < abs(join.seconds) <= most_seconds:
        ought = starting_at(element, *join.end)
        if ought:
            words.append(f"is turned by {units.turn_text(-join.seconds)}")
            element = element._replace(c=ought.c, s=ought.s)
            join = join_of(before, element)
    if join and most_mm is not None and 0 < join.distance <= most_mm * units.GRAINS_PER_MM:
        away = f"(x {units.mm(-join.gap[0])}, y {units.mm(-join.gap[1])} mm)"
        words.append(f"is moved by {units.distance_text(join.distance)} {away}")
        element = element._replace(x=element.x - join.gap[0], y=element.y - join.gap[1])
    return element, " and ".join(words)


# ---- what a crest came to


def worst(joins):
    """The largest gap and the largest kink of some joins, and where."""
    gap, at_gap = max(((join.distance, where) for join, where in joins), key=lambda one: one[0])
    kink, at_kink = max(((join.seconds, where) for join, where in joins), key=lambda one: abs(one[0]))
    gap_text = units.distance_text(gap) + (f" ({at_gap})" if gap else "")
    kink_text = units.turn_text(kink) + (f" ({at_kink})" if abs(kink) > LEAST_TURN else "")
    return f"largest gap {gap_text}, largest kink {kink_text}"


def summary(elements, setting, going=0):
    """What a crest came to, in lines: its length and how far it turns, where it ends, and the largest gap and kink that are left at its
    joins; `going` is how many elements went on."""
    unit = setting.units or "grains"
    total = sum(element.length for element in elements)
    both = [start_and_end(element) for element in elements]
    turn = sum(units.seconds_between(start[2:], end[2:]) for start, end in both) / 3600
    side = f", turning {abs(turn):.4f} degrees to the {'left' if turn > 0 else 'right'}" if abs(turn) >= 0.00005 else ""
    on = f" ({going} where the one before ends)" if going else ""
    yield f"{plural(len(elements), 'element')}{on}, {units.length(total, unit)} {units.LENGTH_UNIT[unit]}{side}"
    x, y, c, s = both[-1][1]
    yield f"ends at {place_text(x, y, *unit_of(c, s), setting)}"
    joins = [(join_of(first, second), joined(first.where, second.where)) for first, second in zip(elements, elements[1:])]
    if joins:
        yield worst(joins)


def jumps(elements, setting):
    """Where a spiral meets an element of another curvature, in words. Nothing is asked of it, but it is most often a slip."""

    def text(radius):
        return f"radius {field_text('radius', radius, setting)} {unit_name('radius', setting)}" if radius else "straight"

    for first, second in zip(elements, elements[1:]):
        before, after = (0 if first.kind == EXIT else first.radius), (0 if second.kind == ENTRY else second.radius)
        if before != after and {first.kind, second.kind} & {ENTRY, EXIT}:
            yield f"{joined(first.where, second.where)}: the curvature jumps at a spiral, from {text(before)} to {text(after)}"
