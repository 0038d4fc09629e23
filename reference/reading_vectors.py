"""Vectors for the program comparisons: f64 numbers as whole numbers, run records after histories of calls, and display pairs.

sighting_vectors.py has its histories and display pairs made here too.
"""

import random
from functools import cache, partial
from math import isqrt
from typing import NamedTuple

import crest
from crest import (
    ARC, BLOCK_SIZE, DISPLAY_GRAINS, EDITION, EDITION_AT, ENTRY, EXIT, FRAME, LAST_NUMBER, LONGEST_ALIGNMENT,
    LONGEST_ELEMENT, MOST_COUNTED, MOST_RECORDS, ONE, ONE_AT, PER_BLOCK, RUN_FIELDS, RUN_SIZE, UNIT_SQUARE, WIDEST_GAP,
    WIDEST_KINK, WIDEST_OFFSET, Element, LinePlace, PlanePoint, Sighting, f64_bits, with_fields,
)  # fmt: skip
from plain_files import altered, file_refusal, line, lines, patched, raw_file
from random_crests import Wish, half_directions, random_file, random_point
from random_sightings import random_sighting
from rows import CALL, DISPLAY, LENT, NOTE, NOWHERE, NUMBER, STORE

LARGE = 2**62
NOT_WHOLE = 2**63 - 1
SIGN = 1 << 63
INFINITE = 0x7FF << 52
NANS = (INFINITE + 1, INFINITE + 2**51, INFINITE + 2**52 - 1, INFINITE + 2**51 - 1, INFINITE + 2**51 + 12_345)
ODD = (0.5, -0.5, 1.5, 5e-324, 2.2250738585072014e-308, 1e300, -1e300, 2.0**53, 2.0**62, 2.0**63, -(2.0**63), 2.0**64)

CRESTS = 32
SLOT = STORE // CRESTS
SEED = 8
ROOM = 32
OTHER_SIZES = 0, 1, RUN_SIZE - 2, RUN_SIZE - 1, RUN_SIZE + 1, RUN_SIZE + 2, ROOM - 1, ROOM
SORTS = PLANE, LINE_PLACE, ACKNOWLEDGE, SIGHTED = range(4)
NO_NUMBERS = 0, 0
NO_SIGHTING = (0,) * len(Sighting._fields)
NO_ANSWER, PLANE_POINT, PLACE, REFUSED = range(4)

# ---------------------------------------------------------------------------
# Numbers


def each_exponent(rng):
    """Every exponent, both signs; fractions 0, 1, all ones and any."""
    for high in range(4_096):
        for fraction in (0, 1, 2**52 - 1, rng.getrandbits(52)):
            yield high << 52 | fraction


def last_places(rng):
    """Where the exponent leaves places after the point: whole, a half, the last place, and both neighbours of them."""
    for power in range(64):
        places = max(0, 52 - power)
        for fraction in (1 << places, (1 << places) >> 1, (1 << places) - 1, rng.getrandbits(52) >> places << places):
            for by in (-1, 0, 1):
                bits = (1023 + power << 52 | fraction % 2**52) + by
                yield bits
                yield bits | SIGN


def with_neighbours(number):
    for by in range(-2, 3):
        bits = f64_bits(number) + by
        if 0 <= bits < 2**64:
            yield bits
            yield bits ^ SIGN


def known_numbers(rng):
    """Zeros, small whole numbers and halves, the rules' limits, powers of two, subnormals, infinities and nans."""
    for number in range(65):
        yield from (f64_bits(number / 2.0), f64_bits(number / 2.0) ^ SIGN)
    limits = (
        1.0, DISPLAY_GRAINS, float(MOST_COUNTED), float(FRAME), FRAME + 1.0, float(WIDEST_OFFSET), WIDEST_OFFSET + 1.0,
        float(LONGEST_ELEMENT), float(LONGEST_ALIGNMENT),
    )  # fmt: skip
    for number in limits + tuple(2.0**power for power in (20, 31, 32, 51, 52, 53, 54, 61, 62, 63, 64, 1023)):
        yield from with_neighbours(number)
    for power in range(53):
        yield from (1 << power >> 1, (1 << power) - 1, SIGN | 1 << power >> 1)
    for bits in (INFINITE, INFINITE - 1, *NANS):
        yield from (bits, bits | SIGN)


def any_numbers(rng):
    """Any bits; whole numbers of any size; halves."""
    for _ in range(1_500):
        yield rng.getrandbits(64)
    for _ in range(2_500):
        yield f64_bits(float(rng.choice((-1, 1)) * rng.getrandbits(rng.randint(1, 70))))
    for _ in range(400):
        yield f64_bits((2 * rng.getrandbits(rng.randint(1, 51)) + 1) / rng.choice((2.0, -2.0, 4.0)))


def whole_code(bits):
    number = crest.whole_of_f64(bits)
    if number is None:
        return NOT_WHOLE
    return number if abs(number) < LARGE else LARGE if number > 0 else -LARGE


def add_numbers(rows):
    rng = random.Random(7)
    for chapter in (each_exponent, last_places, known_numbers, any_numbers):
        for bits in chapter(rng):
            rows.add(NUMBER, NOWHERE, bits, whole_code(bits))


# ---------------------------------------------------------------------------
# Crests


def crests(rng):
    """Accepted crests, some at the frame's edge, and one with each refusal; the later blocks' places among them."""
    row = lines(MOST_RECORDS)
    four = raw_file(row)
    yield raw_file([line(length=10_000)])
    yield raw_file([line(length=3)])
    for kind, radius in ((ARC, -500), (ENTRY, 300), (EXIT, -250)):
        yield raw_file([Element(kind, 250, 4_000, -70_000, ONE, 0, radius)])
    yield raw_file([line(x=FRAME - 500, y=FRAME - 300)])
    yield raw_file([line(x=-FRAME, y=-FRAME, c=0, s=-ONE)])
    for c, s in list(half_directions())[::3]:
        yield raw_file([line(x=77, y=-5, length=400, c=c, s=s)])
    one, two, three = PER_BLOCK, 2 * PER_BLOCK, 3 * PER_BLOCK
    for count in (1, 2, 5, one - 1, one, one + 1, two, two + 1, two + 3, three + 1, MOST_RECORDS):
        yield random_file(rng, Wish(count, longest=90))[0]
    yield four[:-1]
    yield b""
    yield bytes(BLOCK_SIZE)
    yield patched(four, 2 * BLOCK_SIZE + 77, [200])
    yield altered(four, BLOCK_SIZE + EDITION_AT, [EDITION + 1])
    kink = WIDEST_KINK + 1
    for record, change in (
        (37, dict(kind=0)), (20, dict(kind=7)), (MOST_RECORDS - 1, dict(length=0)), (3, dict(c=5)),
        (three, dict(y=WIDEST_GAP + 1)), (two, dict(c=isqrt(UNIT_SQUARE - kink**2), s=kink)),
    ):  # fmt: skip
        yield raw_file(row[:record] + [row[record]._replace(**change)] + row[record + 1 :])


def laid_crests(rows, rng):
    """The crests, and the parts of the store in which they lie."""
    crest.check = cache(crest.check)  # the same few crests throughout
    files = list(crests(rng))
    found = [file_refusal(file)[0] for file in files]
    assert set(found) == set(range(10)), found
    assert len(files) == CRESTS
    return files, [rows.lay(file, SLOT * number) for number, file in enumerate(files)]


def accepted(file):
    """The alignment of a file, or None where the file is refused."""
    found = crest.check(file)
    return None if isinstance(found, crest.Refusal) else found


# ---------------------------------------------------------------------------
# What is asked, and the run before it


def odd_number(rng):
    choice = rng.randrange(8)
    if choice == 0:
        return rng.choice(NANS) | rng.choice((0, SIGN))
    if choice == 1:
        return INFINITE | rng.choice((0, SIGN))
    if choice == 2:
        return SIGN  # minus zero
    if choice == 3:
        return rng.getrandbits(64)
    return f64_bits(rng.choice(ODD))


def plane_numbers(rng, alignment):
    """x and y: a point of the crest's, the frame's edge or beyond it; now and then a number that is not whole."""
    x, y = random_point(rng, alignment) if alignment else (rng.randint(-FRAME, FRAME), rng.randint(-1_000, 1_000))
    if rng.randrange(12) == 0:
        x, y = rng.choice(((FRAME + 1, y), (x, -FRAME - 1), (-FRAME, y), (x, FRAME), (2**40, y)))
    return odd_instead(rng, f64_bits(float(x)), f64_bits(float(y)))


def line_numbers(rng, alignment):
    """Station and offset: on the crest, at the ends and limits and one beyond; now and then not whole."""
    total = alignment.total if alignment else 1_000
    station = rng.choice((0, total, total + 1, -1, rng.randint(0, total), rng.randint(0, total), rng.randint(0, total)))
    reach = rng.choice((0, 500, 100_000, WIDEST_OFFSET))
    edges = WIDEST_OFFSET, -WIDEST_OFFSET, WIDEST_OFFSET + 1, -WIDEST_OFFSET - 1
    offset = rng.choice((rng.randint(-reach, reach),) * 5 + edges)
    return odd_instead(rng, f64_bits(float(station)), f64_bits(float(offset)))


def odd_instead(rng, one, two):
    choice = rng.randrange(10)
    return (odd_number(rng) if choice == 0 else one), (odd_number(rng) if choice == 1 else two)


def beginning(rng):
    """The bytes in which the run lies: fresh, nearly full, full, past that, or any; those after it are any."""
    choice = rng.randrange(20)
    spare = rng.choice((0, 0, rng.randrange(2**16)))
    if choice < 11:
        run = crest.bytes_of_run(crest.Run(spare=spare))
    elif choice < 15:
        readings = MOST_COUNTED - rng.choice((0, 1, 2, 3, 7, 20))
        answered = rng.choice((0, readings, rng.randint(0, readings)))
        first = rng.choice((0, rng.randint(1, LAST_NUMBER)))
        reading = rng.choice((0, rng.randint(1, readings)))
        counts = answered, readings - answered, rng.randint(0, LAST_NUMBER), first, reading, spare
        run = with_fields(bytes(ONE_AT) + rng.randbytes(RUN_SIZE - ONE_AT), RUN_FIELDS[:6], counts)
    else:
        run = rng.randbytes(RUN_SIZE)
        if choice > 17:  # counts that leave room
            run = with_fields(run, RUN_FIELDS[:2], (rng.randrange(30_000), rng.randrange(30_000)))
    return run + rng.randbytes(ROOM - len(run))


def observed(rng, sort, alignment):
    """A reading or a sighting, or None for an acknowledgement."""
    if sort == ACKNOWLEDGE:
        return None
    if sort == SIGHTED:
        return random_sighting(rng, alignment)
    return PlanePoint(*plane_numbers(rng, alignment)) if sort == PLANE else LinePlace(*line_numbers(rng, alignment))


def asked(observation):
    """The bits of both f64 numbers, and the sighting."""
    if isinstance(observation, Sighting):
        return NO_NUMBERS, observation
    return observation or NO_NUMBERS, NO_SIGHTING


# ---------------------------------------------------------------------------
# A row's values. It asks for an observation and says what the one that is taken comes to; a right row takes the same.


def call_values(file, sort, lent, state, observation, taken):
    """A call on the run in these bytes, of which so many are lent."""
    if sort == ACKNOWLEDGE:
        value, run = crest.crest_acknowledge(state[:lent])
    else:
        value, run = crest.c_reading(file, taken, state[:lent])
    assert len(run) == lent
    numbers, sighting = asked(observation)
    return sort, lent, value, *numbers, run + state[lent:], *sighting


def bits_of_pair(pair):
    return tuple(map(f64_bits, pair))


def note_values(file, sort, run, observation, taken):
    """A call on this run by value."""
    if sort == ACKNOWLEDGE:
        case, answer, run = NO_ANSWER, crest.ReadingAnswer(0, 0), crest.acknowledged(run)
    else:
        answer, run = crest.take_reading(run, crest.check(file), taken)
        case = REFUSED if answer.number else PLACE if sort == LINE_PLACE else PLANE_POINT
    numbers, sighting = asked(observation)
    head = sort, case, answer.number, answer.place, *numbers, *answer.three, answer.count, crest.bytes_of_run(run)
    return *head, *bits_of_pair(answer.display), *sighting


def lent_values(file, sort, run, observation, taken):
    """The same without the display pair."""
    values = note_values(file, sort, run, observation, taken)
    return values[:11] + values[13:]


def display_values(file, sort, observation, taken):
    answer = crest.reading_answer(crest.check(file), taken)
    numbers, sighting = asked(observation)
    return sort, *numbers, *bits_of_pair(answer.display), *sighting


# ---------------------------------------------------------------------------
# Histories and display pairs


class Plan(NamedTuple):
    """How histories and display pairs are made."""

    files: list  # the crests
    parts: list  # where they lie
    mix: tuple  # how often each sort of call comes
    histories: int  # of calls
    by_value: int  # of calls by value, and again in place
    displays: tuple  # sorts of the display pairs on each crest
    to_an_odd_run: int = 1  # histories to one whose run need not be fresh at first
    before: object = None  # called before the row of an observation is added

    def beginning(self, rng, number):
        """The run's bytes at the beginning of a history."""
        return beginning(rng) if number % self.to_an_odd_run == 0 else bytes(RUN_SIZE) + rng.randbytes(ROOM - RUN_SIZE)

    def few(self, rng):
        """Numbers of crests for a history."""
        return rng.sample(range(len(self.files)), rng.randint(1, 6))

    def drawn(self, rng, few):
        """The sort of a call, and its crest's number."""
        sort = rng.choices(SORTS, self.mix)[0]
        number = rng.choice(few)
        return sort, 0 if sort == ACKNOWLEDGE else number

    def add(self, rows, sort, number, observation, values_of):
        """The right row, whose values are given."""
        values = values_of(observation)
        if self.before:
            self.before(rows, sort, self.parts[number], observation, values, values_of)
        rows.add(sort, self.parts[number], *values)
        return values


def add_histories(rows, rng, plan):
    for number in range(plan.histories):
        state = plan.beginning(rng, number)
        rows.begin(state)
        few = plan.few(rng)
        for _ in range(1 + number % 40):
            sort, chosen = plan.drawn(rng, few)
            lent = RUN_SIZE if rng.randrange(16) else rng.choice(OTHER_SIZES)
            file = plan.files[chosen]
            observation = observed(rng, sort, accepted(file))
            values_of = partial(call_values, file, sort, lent, state, observation)
            state = plan.add(rows, CALL, chosen, observation, values_of)[5]


def add_histories_by_value(rows, rng, plan):
    """Each history on a run by value, and again on one that is lent."""
    met = set()
    for number in range(plan.by_value):
        state = plan.beginning(rng, number)
        run = crest.run_of(state[:RUN_SIZE])._replace(spare=0)
        few = plan.few(rng)
        history = []
        rows.begin(state)
        for _ in range(1 + number % 25):
            sort, chosen = plan.drawn(rng, few)
            file = plan.files[chosen]
            observation = observed(rng, sort, accepted(file))
            values = plan.add(rows, NOTE, chosen, observation, partial(note_values, file, sort, run, observation))
            history.append((chosen, observation, partial(lent_values, file, sort, run, observation)))
            met.add(values[2])
            run = crest.run_of(values[10])
        rows.begin(state)
        for chosen, observation, values_of in history:
            plan.add(rows, LENT, chosen, observation, values_of)
    assert met == set(range(17)), met


def add_displays(rows, rng, plan):
    for number, file in enumerate(plan.files):
        for sort in plan.displays:
            observation = observed(rng, sort, accepted(file))
            plan.add(rows, DISPLAY, number, observation, partial(display_values, file, sort, observation))


def add_plan(rows, rng, plan):
    for add in (add_histories, add_histories_by_value, add_displays):
        add(rows, rng, plan)


def add_rows(rows):
    add_numbers(rows)
    rng = random.Random(SEED)
    files, parts = laid_crests(rows, rng)
    mix = 45, 38, 17, 0
    displays = (LINE_PLACE, PLANE, PLANE, PLANE) * 5
    add_plan(rows, rng, Plan(files, parts, mix, histories=500, by_value=100, displays=displays))
