"""Vectors for the program comparisons: crest files, accepted and damaged, with the number and place that each comes to.

No file is longer than 2,600 bytes.
"""

import random
import struct
from math import isqrt

import crest
import random_crests
from crest import (
    ARC, BLOCK_SIZE, BLOCK_ZEROS, C_AT, EDITION, EDITION_AT, ENTRY, EXIT, FIELDS_AT, FILE_SIZES, FIRST_ZEROS_AT, FRAME,
    GRAINS, KIND_AT, LAST_ZEROS_AT, LINE, LONGEST_ELEMENT, MOST_BLOCKS, MOST_RECORDS, ONE, PER_BLOCK, RADIUS_AT,
    RECORD_LENGTH_AT, RECORD_SIZE, RECORDS_END, RESERVED, S_AT, SUM_B_AT, SUM_MODULUS, SUMS_AT, UNIT_SLACK, UNIT_SQUARE,
    USED_AT, WIDEST, WIDEST_GAP, WIDEST_KINK, X_AT, Y_AT, Element, least_radius, record_start,
)  # fmt: skip
from plain_files import altered, file_refusal, line, lines, patched, raw_file, records_of, sealed
from random_crests import AXES, Wish, random_elements, random_file
from rows import FILE

ROOM = 2_600
KINDS = (LINE, ARC, ENTRY, EXIT)
CURVES = (ARC, ENTRY, EXIT)
STARTS = range(PER_BLOCK, MOST_RECORDS, PER_BLOCK)  # the first records of the later blocks
# joins at the start, inside blocks, at the boundaries of blocks and on both sides of them, at the end
JOINS = (0, 1, 7, *(start + by for start in STARTS for by in (-2, -1, 0)), MOST_RECORDS - 3, MOST_RECORDS - 2)
BOUNDARIES = (0, *(start - 1 for start in STARTS))
PLACES = (0, 1, *(start + by for start in STARTS for by in (-1, 0)), MOST_RECORDS - 1)
# a record's fields and reserved bytes: their places, with their sizes
BYTES, NUMBERS = (KIND_AT, *RESERVED), (RECORD_LENGTH_AT, X_AT, Y_AT, C_AT, S_AT, RADIUS_AT)
FIELDS = {at: 1 if at in BYTES else 4 for at in sorted(BYTES + NUMBERS)}


def u16(number):
    return struct.pack("<H", number)


def u32(number):
    return struct.pack("<I", number)


def i32(number):
    return struct.pack("<i", number)


# ---------------------------------------------------------------------------
# Cases: a file and what is expected of it, a number, or None for whatever the check says


def accepted_of_every_count(rng):
    """Two random alignments of each count, one of them with all gaps, kinks, lengths and radii at their limits."""
    for count in range(1, MOST_RECORDS + 1):
        for wish in Wish(count, longest=rng.choice((3, 50, 2_000))), Wish(count, longest=500, at_limit=100):
            file, _ = random_file(rng, wish)
            yield file, 0


def every_byte(rng):
    """Each byte of a block changed: in a full file with the sums left, in a full and in a short one with them right."""
    used = 7  # records of the short file's second and last block
    full, _ = random_file(rng, Wish(MOST_RECORDS, longest=100, at_limit=0))
    short, _ = random_file(rng, Wish(PER_BLOCK + used, longest=100, at_limit=0))
    changes = []
    for at in range(BLOCK_SIZE):
        place = BLOCK_SIZE * (at % MOST_BLOCKS) + at
        changes.append((patched(full, place, [changed(rng, full[place])]), 2))
    for at in range(SUMS_AT):
        place = BLOCK_SIZE * ((at + at // RECORD_SIZE) % MOST_BLOCKS) + at
        changes.append((altered(full, place, [changed(rng, full[place])]), None))
    yield from changes
    second = [BLOCK_SIZE + at for at in range(SUMS_AT, BLOCK_SIZE)]
    changes = [(patched(short, place, [changed(rng, short[place])]), 2) for place in second]
    for at in range(SUMS_AT):
        place = BLOCK_SIZE * (at // RECORD_SIZE % 2 if at < RECORDS_END else at % 2) + at
        changes.append((altered(short, place, [changed(rng, short[place])]), None))
    for at in [*range(used * RECORD_SIZE, RECORDS_END), *BLOCK_ZEROS]:
        changes.append((altered(short, BLOCK_SIZE + at, [rng.choice((1, 128, 255))]), 3))
    yield from changes


def changed(rng, byte):
    """Another byte: a bit of it, its complement or any other."""
    return rng.choice((byte ^ 1, byte ^ 128, byte ^ 255, (byte + rng.randint(1, 255)) % 256))


def field_damage(rng):
    """Each field of records of all kinds overwritten with extreme and random bytes, at several places."""
    file, alignment = random_file(rng, Wish(MOST_RECORDS, longest=200, at_limit=0, gap=20))
    assert {element.kind for element in alignment.elements} == set(KINDS)
    cases = []
    for record in PLACES + (rng.randint(2, MOST_RECORDS - 2), rng.randint(2, MOST_RECORDS - 2)):
        for offset, size in FIELDS.items():
            for data in (bytes(size), bytes([255]) * size, rng.randbytes(size)):
                cases.append((altered(file, record_start(record) + offset, data), None))
    yield from cases


def wrong_lengths(rng):
    """Byte counts that are not 1 to 4 blocks, and those that are; with good and with damaged bytes."""
    full = raw_file(lines(MOST_RECORDS))
    beyond = full + bytes(ROOM - len(full))
    counts = {0, 1, 2, RECORD_SIZE - 1, RECORD_SIZE, 255, 256, 257, RECORDS_END, SUMS_AT}
    counts |= {2_303, 2_400, ROOM - 1, ROOM}
    ends = [BLOCK_SIZE * blocks for blocks in range(1, MOST_BLOCKS + 2)]
    counts |= {end + by for end in ends for by in (-2, -1, 0, 1, 2, RECORD_SIZE) if end + by <= ROOM}
    counts |= {rng.randint(3, ROOM) for _ in range(20)}
    cases = []
    for count in sorted(counts):
        good = count in FILE_SIZES
        cases.append((beyond[:count], 0 if good else 1))
        if count:
            damaged = patched(beyond, rng.randrange(count), [170])
            cases.append((damaged[:count], None if good else 1))
    yield from cases
    for count in sorted(counts):
        yield bytes(count), 3 if count in FILE_SIZES else 1
    for count in (FILE_SIZES[0], FILE_SIZES[-1]):
        yield sealed(bytes([255]) * count), 3


def block_fields(rng):
    """Block number, use count, edition and the zero bytes of every block of files of 1 to 4 blocks."""
    two, three = 2 * PER_BLOCK, 3 * PER_BLOCK
    for count in (1, PER_BLOCK, PER_BLOCK + 2, two, two + 8, three, three + 1, MOST_RECORDS):
        file = raw_file(lines(count))
        blocks = len(file) // BLOCK_SIZE
        cases = []
        for block in range(blocks):
            at = BLOCK_SIZE * block
            for number in (0, 1, 2, 3, 4, 255, 256, 257, 65_535):
                cases.append((altered(file, at + FIELDS_AT, u16(number)), 0 if number == block else 3))
            used = crest.u16_at(file, at + USED_AT)
            full = PER_BLOCK - 1, PER_BLOCK, PER_BLOCK + 1, PER_BLOCK + 2
            for number in (0, 1, 2, 7, *full, 255, 256, 257, 65_535):
                # one more in a last block is in use and zero: 4
                wanted = 0 if number == used else 4 if block == blocks - 1 and used < number <= PER_BLOCK else 3
                cases.append((altered(file, at + USED_AT, u16(number)), wanted))
            for number in (0, 1, 2, 3, 255, 256, 257, 65_536, 65_537, 2**24 + 1, 2**31, 2**31 + 1, 2**32 - 1):
                cases.append((altered(file, at + EDITION_AT, u32(number)), 0 if number == EDITION else 3))
            for zero in rng.sample(BLOCK_ZEROS, 5):
                cases.append((altered(file, at + zero, [rng.randint(1, 255)]), 3))
            cases.append((patched(file, at + USED_AT, u16(PER_BLOCK + 1)), 2))
        yield from cases
    # a block that is not the last with fewer records, its other ones zero
    for start in STARTS:
        row = lines(start + 1)
        file = raw_file(row)
        for block in range(start // PER_BLOCK):
            for used in (0, 1, PER_BLOCK - 1):
                first = PER_BLOCK * block
                short = crest.block_made(records_of(row[first : first + used]), block)
                yield patched(file, BLOCK_SIZE * block, short), 3


def sums(rng):
    """Changes that leave A, leave B, or leave both as they were; A and B exchanged; sums past their modulus."""
    file, _ = random_file(rng, Wish(PER_BLOCK + 3, longest=100))
    cases = []
    for block in range(2):
        at = BLOCK_SIZE * block
        a, b = file[at + SUMS_AT : at + SUM_B_AT], file[at + SUM_B_AT : at + BLOCK_SIZE]
        cases.append((patched(file, at + SUMS_AT, b + a), 2))
        for by in (1, 255, 256, SUM_MODULUS - 1):
            for place in (SUMS_AT, SUM_B_AT):
                wrong = (crest.u16_at(file, at + place) + by) % SUM_MODULUS
                cases.append((patched(file, at + place, u16(wrong)), 2))
        for _ in range(10):
            i = rng.randrange(at, at + SUMS_AT - 1)
            cases.append((patched(file, i, [file[i + 1], file[i]]), 2 if file[i] != file[i + 1] else 0))
    for _ in range(200):
        i = rng.randrange(1, RECORDS_END - 1)
        # −1, +2, −1 side by side change neither sum; +2 at weight w and −1 at weight 2w change only A
        if min(file[i - 1], file[i + 1]) > 0 and file[i] < 254:
            both = patched(file, i - 1, [file[i - 1] - 1, file[i] + 2, file[i + 1] - 1])
            assert crest.sums(both) == crest.sums(file)
            cases.append((both, None))
        j = SUMS_AT - 2 * (SUMS_AT - i)
        if 0 <= j and file[j] > 0 and file[i] < 254:
            only = patched(patched(file, i, [file[i] + 2]), j, [file[j] - 1])
            assert crest.sums(only)[1] == crest.sums(file)[1]
            cases.append((only, 2))
    yield from cases
    high = Element(ARC, 458_751, -1, -1, -ONE + 1, -20_000, -9_961_473)  # bytes of 255 where they can be
    c, s = random_crests.unit(high.c, high.s)
    row = [high._replace(c=c, s=s)] * PER_BLOCK
    yield raw_file(row), None
    yield altered(raw_file(row), 0, bytes([255]) * SUMS_AT), 3


def ranges(rng):
    """Length, radius, x and y of a single record of each kind at their limits, within them and beyond."""
    cases = []

    def case(element, wanted):
        cases.append((raw_file([element]), wanted))

    for kind in KINDS:
        limits = LONGEST_ELEMENT - 1, LONGEST_ELEMENT, LONGEST_ELEMENT + 1
        for length in (0, 1, 2, *limits, 2**24, 2**31 - 1, 2**31, 2**32 - 1):
            radius = 0 if kind == LINE else min(max(1, least_radius(kind, length)), WIDEST)
            for sign in (1, -1):
                case(Element(kind, length, 0, 0, ONE, 0, sign * radius), 0 if 1 <= length <= LONGEST_ELEMENT else 6)
        radius = 0 if kind == LINE else 1_000
        for edge in (FRAME - 1, FRAME, FRAME + 1, 2**30, 2**31 - 1):
            for sign in (1, -1):
                wanted = 0 if edge <= FRAME else 6
                case(Element(kind, 100, sign * edge, 7, ONE, 0, radius), wanted)
                case(Element(kind, 100, -7, sign * edge, ONE, 0, radius), wanted)
                case(Element(kind, 100, sign * edge, -sign * edge, ONE, 0, radius), wanted)
        case(Element(kind, 100, -(2**31), 0, ONE, 0, radius), 6)
        case(Element(kind, 100, 0, -(2**31), ONE, 0, radius), 6)
    for radius in (0, 1, 2, 100, WIDEST, WIDEST + 1, 2**31 - 1):
        for sign in (1, -1):
            case(Element(LINE, 50, 0, 0, ONE, 0, sign * radius), 6 if radius else 0)
    case(Element(LINE, 50, 0, 0, ONE, 0, -(2**31)), 6)
    for kind in CURVES:
        for length in (1, 2, 77, 32_768, LONGEST_ELEMENT - 1, LONGEST_ELEMENT):
            least = least_radius(kind, length)
            for size in (0, length - 1, length, length + 1, 2 * length - 1, 2 * length, 2 * length + 1):
                for sign in (1, -1):
                    case(Element(kind, length, 0, 0, ONE, 0, sign * size), 0 if least <= size else 6)
            for size in (WIDEST - 1, WIDEST, WIDEST + 1, 2**31 - 1):
                for sign in (1, -1):
                    case(Element(kind, length, 0, 0, ONE, 0, sign * size), 0 if size <= WIDEST else 6)
            case(Element(kind, length, 0, 0, ONE, 0, -(2**31)), 6)
    yield from cases


def later_ranges(rng):
    """The same limits in later records: beyond them anywhere, on them in the last record."""
    for count in (2, PER_BLOCK, *(start + 1 for start in STARTS), MOST_RECORDS):
        elements = random_elements(rng, Wish(count, longest=40, gap=0, kink=0, middle=(0, 0)))
        file = raw_file(elements)
        cases = []
        for record in sorted({0, count // 2, count - 1}):
            at = record_start(record)
            for length in (0, LONGEST_ELEMENT + 1):
                cases.append((altered(file, at + RECORD_LENGTH_AT, u32(length)), 6))
            for edge in (FRAME + 1, -FRAME - 1):
                cases.append((altered(file, at + X_AT, i32(edge)), 6))
                cases.append((altered(file, at + Y_AT, i32(edge)), 6))
            element = elements[record]
            wrong = least_radius(element.kind, element.length) - 1 if element.kind != LINE else 1
            for sign in (1, -1):
                cases.append((altered(file, at + RADIUS_AT, i32(sign * wrong)), 6))
        end = crest.position(elements[-2], elements[-2].length)
        tangent = crest.direction(elements[-2], elements[-2].length)
        longest = LONGEST_ELEMENT
        for kind, length, radius in (
            (LINE, 1, 0), (LINE, longest, 0), (ARC, 1, 2), (ARC, longest, -2 * longest), (ENTRY, 1, -1),
            (ENTRY, longest, longest), (EXIT, 1, 1), (ARC, 9, WIDEST), (ENTRY, 9, -WIDEST), (EXIT, 9, WIDEST),
        ):  # fmt: skip
            last = random_crests.next_element(rng, Wish(), kind, length, radius, end, tangent, True)
            if last is not None and crest.join_fault(elements[-2], last) == 0:
                cases.append((raw_file(elements[:-1] + [last]), 0))
        yield from cases


def units(rng):
    """The closest pairs on both sides of the unit test's limits, in all quadrants; pairs far from it."""
    inside_top, outside_top, inside_bottom, outside_bottom = random_crests.unit_limit_pairs()
    pairs = [(inside_top, 0), (outside_top, 7), (inside_bottom, 0), (outside_bottom, 7)]
    pairs += [((ONE, 0), 0), ((ONE - 1, 0), 0), ((ONE + 1, 0), 7), ((ONE - 2, 0), 7)]
    pairs += [((0, 0), 7), ((1, 1), 7), ((2**31 - 1, 0), 7), ((2**31 - 1, 2**31 - 1), 7), ((ONE, ONE), 7)]
    for _ in range(20):  # one unit of one component across the limit, in any direction
        c, s = random_crests.random_unit(rng)
        for limit in (UNIT_SQUARE + UNIT_SLACK, UNIT_SQUARE - UNIT_SLACK):
            if c * c < limit:
                edge = isqrt(limit - c * c)
                top = limit > UNIT_SQUARE
                pairs += [((c, edge), 0 if top else 7), ((c, edge + 1), 7 if top else 0)]
    cases = []
    for (c, s), wanted in pairs:
        for pair in dict.fromkeys(((c, s), (s, c), (-c, s), (c, -s), (-s, -c))):
            cases.append((raw_file([line(c=pair[0], s=pair[1])]), wanted))
    for c, s in ((-(2**31), 0), (0, -(2**31)), (-(2**31), -(2**31)), (-(2**31), 2**31 - 1), (-(2**31), ONE)):
        cases.append((raw_file([line(c=c, s=s)]), 7))
    yield from cases
    file = raw_file(lines(MOST_RECORDS))
    cases = []
    for record in PLACES:
        at = record_start(record)
        cases += [(altered(file, at + C_AT, i32(c) + i32(0)), wanted) for c, wanted in ((ONE + 1, 7), (ONE - 1, 0))]
        cases += [(altered(file, at + C_AT, i32(0) + i32(s)), 7) for s in (0, 1)]
    yield from cases


def kinds(rng):
    """Every kind byte in the first record; damaged and later kinds and reserved bytes at other places."""
    file = raw_file(lines(MOST_RECORDS))

    def number(kind):
        return 0 if kind == LINE else 6 if kind in CURVES else 5 if 5 <= kind <= 15 else 4

    for kind in range(256):
        yield altered(file, 0, [kind]), number(kind)
    cases = []
    for record in PLACES[1:]:
        at = record_start(record)
        cases += [(altered(file, at, [kind]), number(kind)) for kind in (0, 2, 3, 4, 5, 10, 15, 16, 17, 128, 255)]
    for record in PLACES:
        at = record_start(record)
        for byte in RESERVED:
            cases.append((altered(file, at + byte, [rng.choice((1, 2, 128, 255))]), 4))
        # the kind is decided first, then the reserved bytes
        cases.append((altered(file, at, [rng.randint(5, 15), 1, 1, 1]), 5))
        cases.append((altered(file, at, [2, 0, 1]), 4))
    yield from cases


def straight_joins(rng):
    """A line out of its place or direction by exactly the limit and by one more, along each axis."""
    for along, joins in zip(AXES, (JOINS, BOUNDARIES, BOUNDARIES, BOUNDARIES)):
        c, s = along
        step = 10 * GRAINS  # lines of 10 mm
        row = [line(x=step * i * c // ONE, y=step * i * s // ONE, c=c, s=s) for i in range(MOST_RECORDS)]
        file = raw_file(row)
        cases = []
        for join in joins:
            at = record_start(join + 1)
            x, y = row[join + 1].x, row[join + 1].y
            for dx, dy in corners(WIDEST_GAP):
                cases.append((altered(file, at + X_AT, i32(x + dx) + i32(y + dy)), gap_number(dx, dy)))
            for size in (WIDEST_KINK, WIDEST_KINK + 1):
                for sign in (1, -1):
                    other = isqrt(UNIT_SQUARE - size * size)
                    if s == 0:
                        bent = (c // ONE * other, sign * size)
                    else:
                        bent = (sign * size, s // ONE * other)
                    wanted = 9 if size > WIDEST_KINK else 0
                    cases.append((altered(file, at + C_AT, i32(bent[0]) + i32(bent[1])), wanted))
            bent = (c // ONE * other, 2 * size) if s == 0 else (2 * size, s // ONE * other)
            # both: 8 before 9; a kink at an earlier join before a gap at a later one
            away = i32(x + WIDEST_GAP + 1) + i32(y)
            cases.append((altered(file, at + X_AT, away + i32(bent[0]) + i32(bent[1])), None))
        yield from cases


def corners(limit):
    """Differences at the limit and one beyond it, in both coordinates and signs."""
    for by in (limit, limit + 1):
        yield from ((by, 0), (-by, 0), (0, by), (0, -by), (by, limit), (-limit, by), (limit, -by), (-by, -limit))


def gap_number(dx, dy):
    return 8 if max(abs(dx), abs(dy)) > WIDEST_GAP else 0


def curved_joins(rng):
    """The same after and before curves of all kinds, at the last join, at the boundaries of blocks too."""
    for count in (2, 3, 8, *(start + 1 for start in STARTS for _ in range(2)), MOST_RECORDS):
        elements = random_elements(rng, Wish(count, longest=60, gap=0, kink=0, middle=(0, 0)))
        file = raw_file(elements)
        earlier, last = elements[-2:]
        end, tangent = crest.position(earlier, earlier.length), crest.direction(earlier, earlier.length)
        cases = []
        for dx, dy in corners(WIDEST_GAP):
            moved = last._replace(x=last.x + dx, y=last.y + dy)
            cases.append((raw_file(elements[:-1] + [moved]), gap_number(dx, dy)))
        for size in (WIDEST_KINK, WIDEST_KINK + 1):
            for by in (size, -size):
                bent = kinked_exactly(last, tangent, by)
                if bent is not None:
                    bent = random_crests.anchored(bent, end)
                    cases.append((raw_file(elements[:-1] + [bent]), 9 if size > WIDEST_KINK else 0))
                    away = bent._replace(x=bent.x + WIDEST_GAP + 1)
                    cases.append((raw_file(elements[:-1] + [away]), 8))
        yield from cases


def kinked_exactly(element, tangent, by):
    """The element turned so that one component of its first direction is off by exactly that, or None."""
    across = 1 if abs(tangent[0]) >= abs(tangent[1]) else 0
    wanted = [0, 0]
    wanted[across] = tangent[across] + by
    sign = 1 if tangent[1 - across] > 0 else -1
    wanted[1 - across] = sign * isqrt(UNIT_SQUARE - wanted[across] ** 2)
    aim = tuple(wanted)
    for _ in range(30):
        c, s = random_crests.direction_fitting(element, aim)
        turned = element._replace(c=c, s=s)
        found = crest.direction(turned, 0)
        if found[across] == wanted[across] and crest.is_unit(c, s):
            return turned if abs(found[1 - across] - tangent[1 - across]) <= WIDEST_KINK else None
        aim = tuple(a + w - f for a, w, f in zip(aim, wanted, found))
    return None


# ---------------------------------------------------------------------------
# Two faults at once


def faults(rng, file, number, record):
    """(changes to be sealed, changes after that, length) that make a fault of that number at a record or its block."""
    block = record // PER_BLOCK
    at, head = record_start(record), BLOCK_SIZE * block
    later = record_start(record + 1)
    if number == 1:
        more = BLOCK_SIZE if len(file) == FILE_SIZES[-1] else RECORD_SIZE - 1
        return [], [], len(file) + rng.choice((-1, 1, -BLOCK_SIZE * 3 - 1, more))
    if number == 2:
        i = head + rng.randrange(BLOCK_SIZE)
        return [], [(i, [changed(rng, file[i])])], None
    if number == 3:
        place, data = rng.choice((
            (FIELDS_AT, u16(block + 1)), (USED_AT, u16(PER_BLOCK + 1)), (EDITION_AT, u32(EDITION + 1)),
            (rng.choice(BLOCK_ZEROS), [1]), (USED_AT, u16(0)),
        ))  # fmt: skip
        return [(head + place, data)], [], None
    if number == 4:
        place, data = rng.choice((
            (KIND_AT, [0]), (KIND_AT, [rng.randint(16, 255)]),
            (rng.choice(range(FIRST_ZEROS_AT, RECORD_LENGTH_AT)), [9]), (LAST_ZEROS_AT, [1]),
        ))  # fmt: skip
        return [(at + place, data)], [], None
    if number == 5:
        return [(at, [rng.randint(5, 15)])], [], None
    if number == 6:
        lengths = (RECORD_LENGTH_AT, u32(0)), (RECORD_LENGTH_AT, u32(LONGEST_ELEMENT + 1))
        places = (X_AT, i32(-FRAME - 1)), (Y_AT, i32(FRAME + 1))
        place, data = rng.choice((*lengths, *places, (RADIUS_AT, i32(1))))
        return [(at + place, data)], [], None
    if number == 7:
        place, number = rng.choice(((C_AT, 5), (C_AT, ONE + 1), (S_AT, 50_000), (S_AT, -ONE)))
        return [(at + place, i32(number))], [], None
    if number == 8:
        return [(later + Y_AT, i32(rng.choice((WIDEST_GAP + 1, -WIDEST_GAP - 1, 150_000))))], [], None
    kink = WIDEST_KINK + 1
    return [(later + C_AT, i32(isqrt(UNIT_SQUARE - kink**2)) + i32(rng.choice((kink, -kink))))], [], None


def overlap(changes):
    touched = [at + i for at, data in changes for i in range(len(data))]
    return len(touched) != len(set(touched))


def two_faults(rng):
    """Every two numbers, the first before, after and at the place of the second.

    1 to 3 come before all that follow, and the records' 4 to 7 before the joins' 8 and 9, wherever they are.
    """
    last, first = PER_BLOCK - 1, PER_BLOCK  # on both sides of a boundary of blocks
    for count in (MOST_RECORDS, 48):
        file = raw_file(lines(count))
        cases = []
        for one in range(1, 10):
            for two in range(one, 10):
                for places in (
                    (3, 20), (20, 3), (17, 17), (last, first), (first, last), (29, 46), (46, 29), (8, 9), (9, 8),
                ):  # fmt: skip
                    damaged = with_both(rng, file, (one, two), places)
                    # c and s of one record, both wrong, can be a unit again
                    same = one == two and (one != 7 or places[0] != places[1])
                    if damaged is not None:
                        cases.append((damaged, one if one <= 3 or one <= 7 < two or same else None))
        yield from cases


def with_both(rng, file, numbers, places):
    for _ in range(10):
        parts = [faults(rng, file, number, place) for number, place in zip(numbers, places)]
        inner = parts[0][0] + parts[1][0]
        if overlap(inner):
            continue
        damaged = file
        for at, data in inner:
            damaged = patched(damaged, at, data)
        damaged = sealed(damaged)
        for at, data in parts[0][1] + parts[1][1]:
            damaged = patched(damaged, at, data)
        length = parts[0][2] or parts[1][2] or len(file)
        return (damaged + bytes(ROOM))[:length]
    return None


# ---------------------------------------------------------------------------
# Any damage


def random_damage(rng):
    """One to four bytes anywhere, with the sums right again or not."""
    for count in (5, 19, 33, MOST_RECORDS):
        file, _ = random_file(rng, Wish(count, longest=300))
        cases = []
        for number in range(60):
            damaged = file
            for _ in range(rng.randint(1, 4)):
                at = rng.randrange(len(file))
                damaged = patched(damaged, at, [changed(rng, damaged[at])])
            cases.append((sealed(damaged) if number % 3 else damaged, None))
        yield from cases


# ---------------------------------------------------------------------------
# The corpus

CHAPTERS = (
    accepted_of_every_count, every_byte, field_damage, wrong_lengths, block_fields, sums, ranges, later_ranges, units,
    kinds, straight_joins, curved_joins, two_faults, random_damage,
)  # fmt: skip


def add_rows(rows):
    rng = random.Random(5)
    for chapter in CHAPTERS:
        for file, wanted in chapter(rng):
            number, place = file_refusal(file)
            assert wanted is None or number == wanted, (wanted, number, place)
            rows.add(FILE, rows.lay(file), number, place)
