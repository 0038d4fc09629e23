"""The walk against a search over all stations, on random small alignments.

For each alignment (made by the writer, accepted by the check) and each point: the walk's station and
least D, the refusal or answer, the stations the second pass leaves out, and the visit count.
Prints the numbers of alignments, points and differences; exit status 1 on any difference.
"""

import random
import sys
from math import isqrt

import crest
from crest import ARC, BLOCK_SIZE, ENTRY, EXIT, FIRST_STEP, FRAME, LINE, ONE, PAST_END, ROOT_SLACK, STEP_DIVISOR
from random_crests import (
    Wish,
    beside,
    centre_of_curvature,
    ended,
    random_elements,
    random_file,
    random_point,
    unit,
)

SEED = 20_240_501


# ---------------------------------------------------------------------------
# Alignments


def families(rng):
    """(name, how many, a function that gives a Wish)."""
    return [
        ("mixed", 400, lambda: Wish(rng.randint(1, 10), longest=rng.choice((20, 60, 200)))),
        ("one element", 80, lambda: Wish(1, longest=rng.choice((1, 3, FIRST_STEP, 1500)))),
        ("single millimetres", 120, lambda: Wish(rng.randint(2, crest.MOST_RECORDS), longest=rng.randint(1, 3))),
        ("limits", 120, lambda: Wish(rng.randint(2, 8), longest=rng.choice((1, 50, 150)), at_limit=100)),
        ("loops", 100, lambda: loop(rng)),
        ("there and back", 60, lambda: Wish(rng.randint(8, 16), longest=120, kinds=(ARC, ENTRY, EXIT), tight=90)),
        ("corners", 80, lambda: corner(rng)),
        ("long", 30, lambda: Wish(rng.randint(1, 6), shortest=200, longest=1500)),
        ("very long", 3, lambda: Wish(rng.randint(2, 4), shortest=5_000, longest=12_000)),
    ]


def loop(rng):
    """Tight turns of one sign: the alignment comes back near itself."""
    size = rng.randint(2, 90)
    kinds = rng.choice(((ARC,), (ARC, ENTRY, EXIT)))
    return Wish(
        rng.randint(13, 30), shortest=size, longest=size, kinds=kinds, turn=rng.choice((-1, 1)), tight=100
    )


def corner(rng):
    """Beginning close to a corner of the frame, going inwards."""
    x, y = rng.choice((-1, 1)), rng.choice((-1, 1))
    away = rng.choice((0, 0, 1, 30_000))
    return Wish(
        rng.randint(1, 6),
        longest=rng.choice((5, 100)),
        kinds=(LINE, ARC, ENTRY),
        kink=rng.choice((0, 1000)),
        gap=0 if away == 0 else crest.WIDEST_GAP,
        middle=(x * (FRAME - away), y * (FRAME - away)),
        heading=unit(-x * rng.randint(5, 9), -y * rng.randint(5, 9)),
    )


def round_totals(rng):
    """Alignments whose T is a multiple of the first pass's step."""
    made = 0
    while made < 80:
        total = rng.choice((FIRST_STEP, FIRST_STEP, 2 * FIRST_STEP))
        wish = Wish(rng.randint(2, 14), shortest=50, longest=400, kinds=(LINE, ARC, ARC, ENTRY, EXIT))
        elements = ended(random_elements(rng, wish), total)
        if elements is None:
            continue
        records = b"".join(map(crest.record_of, elements))
        refusal, file = crest.write(records, bytes(BLOCK_SIZE * crest.blocks_needed(len(elements))))
        if refusal is not None:
            continue
        alignment = crest.check(file)
        assert alignment.total == total
        made += 1
        yield file, alignment


def all_alignments(rng):
    """(family, file, alignment)."""
    for name, many, wish in families(rng):
        for _ in range(many):
            yield name, *random_file(rng, wish())
    for file, alignment in round_totals(rng):
        yield "round totals", file, alignment


# ---------------------------------------------------------------------------
# Points


def points_for(rng, alignment):
    """Both ends on each side of the limit of 13 and 14, a centre, a corner, and random points."""
    total = alignment.total
    limits = PAST_END - 1, PAST_END, PAST_END + 1, PAST_END + 2
    points = [beside(alignment, 0, -past, 0) for past in rng.sample(limits, 2)]
    points += [beside(alignment, total, past, 0) for past in rng.sample(limits, 2)]
    curved = [s for s in (rng.randint(0, total) for _ in range(6)) if centre_of_curvature(alignment, s)]
    if curved:
        points.append(centre_of_curvature(alignment, curved[0]))
    points.append((rng.choice((-FRAME, FRAME)), rng.choice((-FRAME, FRAME))))
    points += [random_point(rng, alignment) for _ in range(8)]
    return points


# ---------------------------------------------------------------------------
# Comparison


def is_near(whole, n):
    """whole = near(n, ONE), told by the inequality."""
    return -ONE <= 2 * n - 2 * ONE * whole < ONE


def expected(alignment, positions, point, distances, stations_visited):
    """The outcome by searching all stations, written apart from crest.plane_answer."""
    least = min(distances)
    station = distances.index(least)
    tx, ty = crest.direction_at(alignment, station)
    dx, dy = point[0] - positions[station][0], point[1] - positions[station][1]
    residual = (2 * (tx * dx + ty * dy) + ONE) // (2 * ONE)
    offset = (2 * (tx * dy - ty * dx) + ONE) // (2 * ONE)
    assert is_near(residual, tx * dx + ty * dy) and is_near(offset, tx * dy - ty * dx)
    if least > crest.FARTHEST:
        return station, (12, 0, 0, 0, 0, 0)
    if station == 0 and residual < -PAST_END:
        return station, (13, 0, 0, 0, 0, 0)
    if station == alignment.total and residual > PAST_END:
        return station, (14, 0, 0, 0, 0, 0)
    return station, (0, 0, station, offset, residual, stations_visited)


def visits_again(alignment, distances):
    """Both visit lists of the walk once more, element by element over its own stations."""
    total = alignment.total
    first = [s for s in range(total + 1) if s % FIRST_STEP == 0 or s == total]
    best = min(distances[s] for s in first)
    second = []
    for start, element in zip(alignment.starts, alignment.elements):
        last_own = start + element.length - 1
        if last_own == total - 1:
            last_own = total
        s = start
        while s <= last_own:
            second.append(s)
            if distances[s] < best:
                best = distances[s]
            a, b = isqrt(distances[s]), isqrt(best)
            s = s + 1 if a - b < ROOT_SLACK else s + 1 + (a - b - ROOT_SLACK) // STEP_DIVISOR
    return first, second


def compare(alignment, positions, point, whole_answer):
    """(differences found, outcome number, ties, stations left out)."""
    px, py = point
    distances = [(px - x) ** 2 + (py - y) ** 2 for x, y in positions]
    walked = crest.walk(alignment, distances.__getitem__)
    found = []
    station, outcome = expected(
        alignment, positions, point, distances, len(walked.first) + len(walked.second)
    )
    if walked.station != station or walked.least != distances[station]:
        found.append("station judged")
    if walked.count != len(walked.first) + len(walked.second):
        found.append("count")
    if (walked.first, walked.second) != visits_again(alignment, distances):
        found.append("visits")
    if walked.second[0] != 0 or any(a >= b for a, b in zip(walked.second, walked.second[1:])):
        found.append("second pass does not rise from 0")
    if not set(alignment.starts) <= set(walked.second):
        found.append("an element's first station is left out")
    left_out = set(range(alignment.total + 1)).difference(walked.second)
    if any(distances[s] <= distances[station] for s in left_out):
        found.append("a station left out is as near as the one judged")
    residual, offset = crest.residual_and_offset(alignment, point, walked.station)
    number = crest.plane_decision(alignment.total, walked.station, walked.least, residual)
    answer = (number, 0, 0, 0, 0, 0) if number else (0, 0, walked.station, offset, residual, walked.count)
    if answer != outcome:
        found.append("outcome")
    if whole_answer is not None and tuple(whole_answer) != outcome:
        found.append("whole answer")
    ties = distances.count(distances[station]) > 1
    return found, number, ties, len(left_out)


def main():
    rng = random.Random(SEED)
    alignments = points = differences = ties = left_out = 0
    outcomes = {}
    per_family = {}
    for family, file, alignment in all_alignments(rng):
        alignments += 1
        per_family[family] = per_family.get(family, 0) + 1
        positions = [crest.position_at(alignment, s) for s in range(alignment.total + 1)]
        for number, point in enumerate(points_for(rng, alignment)):
            # the whole entry, from the file's bytes, on some points of each alignment
            whole = crest.station_and_offset(file, *point) if number % 5 == alignments % 5 else None
            found, outcome, tie, out = compare(alignment, positions, point, whole)
            points += 1
            ties += tie
            left_out += out
            outcomes[outcome] = outcomes.get(outcome, 0) + 1
            for what in found:
                differences += 1
                print(f"difference: {what}; {family}; point {point}; {alignment.elements}")
    print("alignments by family: " + ", ".join(f"{name} {n}" for name, n in per_family.items()))
    print("outcomes: " + ", ".join(f"{number or 'answered'} {n}" for number, n in sorted(outcomes.items())))
    print(f"points with ties {ties}, stations left out {left_out}")
    print(f"alignments {alignments}, points {points}, differences {differences}")
    return 1 if differences else 0


if __name__ == "__main__":
    sys.exit(main())
