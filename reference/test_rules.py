"""Tests of the reference against documents 01 and 02: every refusal at its limit and one beyond, places, orders,
rounding, f64 cases, sightings, run histories, round trips, the 2-grain bound.
"""

import random
import struct
import unittest
from fractions import Fraction
from math import floor, isqrt

import crest
from crest import (
    ARC, BLOCK_SIZE, BLOCK_ZEROS, EDITION, EDITION_AT, ENTRY, EXIT, FIELDS_AT, FILE_SIZES, FIRST_STEP, FRAME, GRAINS,
    KIND_AT, LINE, LONGEST_ALIGNMENT, LONGEST_ELEMENT, LONGEST_SIGHT, MOST_COUNTED, MOST_RECORDS, MOVE_SIZE, ONE,
    PAST_END, PER_BLOCK, PLACE_UNIT, READING_SIZE, RECORD_LENGTH_AT, RECORD_SIZE, RECORDS_END, RESERVED, RUN_FIELDS,
    RUN_SIZE, STEP_DIVISOR, SUM_B_AT, SUM_MODULUS, SUMS_AT, UNIT_SLACK, UNIT_SQUARE, USED_AT, WIDEST, WIDEST_GAP,
    WIDEST_KINK, WIDEST_OFFSET, ZEROS_AT, Element, Sighting, blocks_needed, f64_bits, least_radius, near, with_fields,
)  # fmt: skip
from examples import K, file_of
from plain_files import altered, file_refusal, line, lines, patched, raw_file, records_of, refusal
from random_crests import FAR, Wish, random_file, random_point, random_unit, unit_limit_pairs
from random_sightings import GREATEST, LEAST, random_sighting, random_target

NAN = 0x7FF8000000000000
INFINITE = 0x7FF0000000000000
MINUS = 1 << 63
FULL = range(PER_BLOCK, MOST_RECORDS + 1, PER_BLOCK)  # how many records fill blocks


class Rounding(unittest.TestCase):
    def test_near_at_halves(self):
        rows = [(1, 2, 1), (-1, 2, 0), (3, 2, 2), (-3, 2, -1), (5, 10, 1), (-5, 10, 0), (-15, 10, -1)]
        rows += [(0, 7, 0), (3, 7, 0), (4, 7, 1), (-3, 7, 0), (-4, 7, -1), (7, 1, 7), (-7, 1, -7)]
        rows += [(ONE // 2, ONE, 1), (ONE // 2 - 1, ONE, 0), (-ONE // 2, ONE, 0), (-ONE // 2 - 1, ONE, -1)]
        for n, d, wanted in rows:
            self.assertEqual(near(n, d), wanted, (n, d))

    def test_near_is_the_definition(self):
        rng = random.Random(1)
        for _ in range(2000):
            n, d = rng.randint(-(10**30), 10**30), rng.randint(1, 10 ** rng.randint(1, 30))
            q = near(n, d)
            self.assertTrue(-d <= 2 * (n - q * d) < d)

    def test_near_wants_a_positive_divisor(self):
        for d in (0, -1):
            with self.assertRaises(AssertionError):
                near(1, d)


class Blocks(unittest.TestCase):
    def setUp(self):
        self.two = file_of(*lines(PER_BLOCK + 2))
        self.four = file_of(*lines(MOST_RECORDS))

    def test_accepted(self):
        for count in (1, *(full + by for full in FULL for by in (-1, 0, 1) if full + by <= MOST_RECORDS)):
            file = raw_file(lines(count))
            self.assertEqual(len(file), BLOCK_SIZE * blocks_needed(count))
            self.assertEqual(len(crest.check(file).elements), count)

    def test_1(self):
        for length in (0, 1, *(size + by for size in FILE_SIZES for by in (-1, 1)), FILE_SIZES[-1] + BLOCK_SIZE):
            self.assertEqual(file_refusal(bytes(length)), (1, 0))
        self.assertEqual(file_refusal(self.four + self.four[:BLOCK_SIZE]), (1, 0))

    def test_2_for_every_byte(self):
        for at in range(len(self.two)):
            changed = patched(self.two, at, [self.two[at] ^ 1])
            self.assertEqual(file_refusal(changed), (2, at // BLOCK_SIZE))

    def test_2_for_a_swap_that_keeps_a(self):
        at = RECORD_LENGTH_AT
        swapped = patched(K, at, [K[at + 1], K[at]])
        self.assertEqual(crest.sums(swapped)[0], crest.sums(K)[0])
        self.assertEqual(file_refusal(swapped), (2, 0))

    def test_the_sums_modulus(self):
        block = bytes([255] * SUMS_AT)
        self.assertEqual(crest.sums(block)[0], 255 * SUMS_AT % SUM_MODULUS)
        self.assertEqual(crest.sums(block)[1], 255 * SUMS_AT * (SUMS_AT + 1) // 2 % SUM_MODULUS)

    def test_2_for_all_blocks_before_3(self):
        bad_edition = altered(self.two, EDITION_AT, [EDITION + 1])
        self.assertEqual(file_refusal(bad_edition), (3, 0))
        self.assertEqual(file_refusal(patched(bad_edition, BLOCK_SIZE + SUM_B_AT, [0, 0])), (2, 1))

    def test_3_block_number(self):
        for block in range(4):
            for wrong in {0, 1, 2, 3, 4, 256, 65_535} - {block}:
                at = BLOCK_SIZE * block + FIELDS_AT
                self.assertEqual(file_refusal(altered(self.four, at, struct.pack("<H", wrong))), (3, block))

    def test_3_use_count(self):
        for wrong in (0, 3, PER_BLOCK - 1, PER_BLOCK + 1, PER_BLOCK + 2, 256, 65_535):
            found = file_refusal(altered(self.four, USED_AT, struct.pack("<H", wrong)))
            self.assertEqual(found, (3, 0))
        for wrong in (0, PER_BLOCK + 1, 65_535, 1):  # 1: the second record is not zero any more
            found = file_refusal(altered(self.two, BLOCK_SIZE + USED_AT, struct.pack("<H", wrong)))
            self.assertEqual(found, (3, 1))
        # one record more than there is: a used record with kind 0
        self.assertEqual(file_refusal(altered(self.two, BLOCK_SIZE + USED_AT, [3])), (4, PER_BLOCK + 2))

    def test_3_short_block_before_the_last(self):
        short = file_of(*lines(PER_BLOCK - 1)) + crest.block_made(records_of(lines(PER_BLOCK + 1)[PER_BLOCK:]), 1)
        self.assertEqual(file_refusal(short), (3, 0))

    def test_3_edition(self):
        for wrong in (0, EDITION + 1, EDITION + 2, 256, 2**31, 2**32 - 1):
            self.assertEqual(file_refusal(altered(K, EDITION_AT, struct.pack("<I", wrong))), (3, 0))
        self.assertEqual(file_refusal(altered(self.two, BLOCK_SIZE + EDITION_AT + 3, [1])), (3, 1))

    def test_3_zero_bytes(self):
        for at in [*range(RECORD_SIZE, RECORDS_END), *BLOCK_ZEROS]:
            self.assertEqual(file_refusal(altered(K, at, [1])), (3, 0), at)
        for at in (BLOCK_ZEROS[0], BLOCK_ZEROS[-1], 2 * RECORD_SIZE, RECORDS_END - 1):
            self.assertEqual(file_refusal(altered(self.two, BLOCK_SIZE + at, [255])), (3, 1))

    def test_3_for_all_before_4_and_least_block_first(self):
        bad_kind = altered(self.two, KIND_AT, [0])
        self.assertEqual(file_refusal(bad_kind), (4, 0))
        self.assertEqual(file_refusal(altered(bad_kind, BLOCK_SIZE + ZEROS_AT, [1])), (3, 1))
        both = altered(altered(self.two, BLOCK_SIZE + ZEROS_AT, [1]), ZEROS_AT + 2, [1])
        self.assertEqual(file_refusal(both), (3, 0))


class Records(unittest.TestCase):
    def test_4_and_5_kinds(self):
        for place in (0, PER_BLOCK + 1, MOST_RECORDS - 1):
            file = file_of(*lines(MOST_RECORDS))
            at = crest.read_record(file, place).start
            for kind in range(256):
                number = 0 if kind == 1 else 6 if kind in (2, 3, 4) else 5 if 5 <= kind <= 15 else 4
                wanted = (number, place) if number else (0, 0)
                self.assertEqual(file_refusal(altered(file, at, [kind])), wanted)

    def test_4_reserved_bytes(self):
        for at in RESERVED:
            for byte in (1, 128, 255):
                self.assertEqual(file_refusal(altered(K, at, [byte])), (4, 0))

    def test_kind_before_reserved_before_6_before_7(self):
        later = altered(altered(K, KIND_AT, [7]), RESERVED[1], [1])
        self.assertEqual(file_refusal(later), (5, 0))
        self.assertEqual(file_refusal(altered(later, RESERVED[-1], [9])), (5, 0))
        reserved = altered(altered(K, RESERVED[-2], [1]), RECORD_LENGTH_AT, struct.pack("<I", 0))
        self.assertEqual(file_refusal(reserved), (4, 0))
        self.assertEqual(refusal([line(length=0, c=5)]), (6, 0))
        self.assertEqual(refusal([line(c=5)]), (7, 0))

    def test_records_in_order_and_before_joins(self):
        row = lines(20)
        row[3] = row[3]._replace(c=5)
        row[17] = row[17]._replace(kind=0)
        self.assertEqual(refusal(row), (7, 3))
        row[3] = row[3]._replace(c=ONE, x=0)
        self.assertEqual(refusal(row), (4, 17))
        row[17] = row[17]._replace(kind=LINE)
        self.assertEqual(refusal(row), (8, 2))

    def test_6_length(self):
        limits = (LONGEST_ELEMENT, 0), (LONGEST_ELEMENT + 1, 6)
        for length, wanted in ((0, 6), (1, 0), *limits, (2**31, 6), (2**32 - 1, 6)):
            self.assertEqual(refusal([line(length=length)])[0], wanted)

    def test_6_anchor(self):
        for size, wanted in ((FRAME, 0), (FRAME + 1, 6), (2**31 - 1, 6)):
            for sign in (1, -1):
                self.assertEqual(refusal([line(x=sign * size)])[0], wanted)
                self.assertEqual(refusal([line(y=sign * size)])[0], wanted)
        self.assertEqual(refusal([line(x=-(2**31))]), (6, 0))

    def test_6_radius(self):
        def number(kind, length, radius):
            return refusal([Element(kind, length, 0, 0, ONE, 0, radius)])[0]

        for radius in (-1, 1, WIDEST, -(2**31)):
            self.assertEqual(number(LINE, 10, radius), 6)
        for sign in (1, -1):
            for length in (1, 77, LONGEST_ELEMENT):
                self.assertEqual(number(ARC, length, sign * 2 * length), 0)
                self.assertEqual(number(ARC, length, sign * (2 * length - 1)), 6)
                for kind in (ENTRY, EXIT):
                    self.assertEqual(number(kind, length, sign * length), 0)
                    self.assertEqual(number(kind, length, sign * (length - 1)), 6)
                for kind in (ARC, ENTRY, EXIT):
                    self.assertEqual(number(kind, length, sign * WIDEST), 0)
                    self.assertEqual(number(kind, length, sign * (WIDEST + 1)), 6)
                    self.assertEqual(number(kind, length, 0), 6)
        self.assertEqual(number(ARC, 1, -(2**31)), 6)

    def test_7_unit(self):
        above_in, above_out, below_in, below_out = unit_limit_pairs()
        for (c, s), wanted in ((above_in, 0), (below_in, 0), (above_out, 7), (below_out, 7)):
            for pair in ((c, s), (s, c), (-c, s), (c, -s), (-s, -c)):
                self.assertEqual(refusal([line(c=pair[0], s=pair[1])])[0], wanted)
                self.assertEqual(crest.stake_out((0, 0), (0, 0), pair).number, wanted)
        self.assertEqual((ONE + 1) ** 2 - UNIT_SQUARE, UNIT_SLACK + 1)
        self.assertEqual(refusal([line(c=ONE + 1)])[0], 7)
        self.assertEqual(refusal([line(c=ONE - 1)])[0], 0)
        self.assertEqual(refusal([line(c=-(2**31), s=-(2**31))])[0], 7)

    def test_8_gap(self):
        gap, more = WIDEST_GAP, WIDEST_GAP + 1
        for place in (0, PER_BLOCK - 1, MOST_RECORDS - 2):
            for dx, dy, wanted in (
                (gap, gap, 0), (-gap, -gap, 0), (gap, -gap, 0), (more, 0, 8), (-more, 0, 8), (0, more, 8), (0, -more, 8)
            ):
                row = lines(MOST_RECORDS)
                row = row[: place + 1] + [e._replace(x=e.x + dx, y=e.y + dy) for e in row[place + 1 :]]
                self.assertEqual(refusal(row), (wanted, place if wanted else 0))

    def test_9_kink(self):
        for size, wanted in ((WIDEST_KINK, 0), (WIDEST_KINK + 1, 9)):
            for sign in (1, -1):
                other = isqrt(UNIT_SQUARE - size * size)
                row = [line(), line(x=1000, c=other, s=sign * size)]
                self.assertEqual(refusal(row), (wanted, 0))
                row = [line(c=0, s=ONE), line(y=1000, c=sign * size, s=other)]
                self.assertEqual(refusal(row), (wanted, 0))

    def test_9_after_a_curve(self):
        # the last direction of a curve is the plane tangent at s = L, as it is
        length = LONGEST_ELEMENT
        arc = Element(ARC, length, 0, 0, ONE, 0, 2 * length)
        end, tangent = crest.position(arc, length), crest.direction(arc, length)
        self.assertNotEqual(tangent[0] ** 2 + tangent[1] ** 2, UNIT_SQUARE)
        for size, wanted in ((WIDEST_KINK, 0), (WIDEST_KINK + 1, 9)):
            s = tangent[1] + size
            row = [arc, line(*end, c=isqrt(UNIT_SQUARE - s * s), s=s)]
            self.assertEqual(refusal(row), (wanted, 0))

    def test_8_before_9_join_by_join(self):
        kink = 2 * WIDEST_KINK
        bent = dict(c=isqrt(UNIT_SQUARE - kink**2), s=kink)
        self.assertEqual(refusal([line(), line(x=1000 + WIDEST_GAP + 1, **bent)]), (8, 0))
        self.assertEqual(refusal([line(), line(x=1000, **bent), line(x=9000, **bent)]), (9, 0))
        self.assertEqual(refusal([line(), line(x=1000), line(x=9000), line(x=9000)]), (8, 1))

    def test_join_of_all_kinds(self):
        # entry spiral, arc, exit spiral: each starts where the one before ends
        rng = random.Random(5)
        file, alignment = random_file(rng, Wish(40, longest=300, gap=0, kink=0))
        self.assertEqual({e.kind for e in alignment.elements}, {LINE, ARC, ENTRY, EXIT})
        for earlier, later in zip(alignment.elements, alignment.elements[1:]):
            self.assertEqual(crest.position(earlier, earlier.length), crest.position(later, 0))


class ReaderAndWriter(unittest.TestCase):
    def test_parts(self):
        row = lines(MOST_RECORDS)
        file = file_of(*row)
        for number in range(MOST_RECORDS):
            part = crest.read_record(file, number)
            self.assertEqual(part[:2], (0, 0))
            self.assertEqual(file[part.start : part.end], crest.record_of(row[number]))
        self.assertEqual(crest.read_record(file, PER_BLOCK).start, BLOCK_SIZE)

    def test_15_record_number(self):
        for number, wanted in ((0, 0), (1, 15), (PER_BLOCK - 1, 15), (MOST_RECORDS, 15), (2**32, 15)):
            self.assertEqual(crest.read_record(K, number).number, wanted)
        self.assertEqual(crest.read_record(K, 1), (15, 0, 0, 0))
        self.assertEqual(crest.read_record(K, -1), (15, 0, 0, 0))

    def test_file_refused_before_15(self):
        row = lines(20)
        row[18] = row[18]._replace(c=0)
        self.assertEqual(crest.read_record(raw_file(row), 99), (7, 18, 0, 0))
        self.assertEqual(crest.read_record(b"", 0), (1, 0, 0, 0))

    def test_17(self):
        room = bytes(range(256)) * 8
        good = records_of(lines(MOST_RECORDS))
        size = RECORD_SIZE
        for records in (b"", good[: size - 1], good[: size + 1], good + good[:size], good[:-1], good + b"\0"):
            self.assertEqual(crest.write(records, room), (crest.Refusal(17), room))
        self.assertEqual(crest.write(good[:size], room)[0], None)
        self.assertEqual(crest.write(good, room)[0], None)

    def test_writer_order_17_then_4_to_9_then_18(self):
        row = lines(PER_BLOCK + 1)
        row[PER_BLOCK] = row[PER_BLOCK]._replace(x=0)
        records = records_of(row)
        self.assertEqual(crest.write(records + b"\0", b"")[0], (17, 0))
        self.assertEqual(crest.write(records, b"")[0], (8, PER_BLOCK - 1))
        kink = WIDEST_KINK + 1
        for number, change in (
            (4, dict(kind=0)), (5, dict(kind=9)), (6, dict(length=0)), (7, dict(c=1)), (8, dict(y=WIDEST_GAP + 1)),
            (9, dict(c=isqrt(UNIT_SQUARE - kink**2), s=kink)),
        ):
            row = lines(PER_BLOCK + 1)
            row[9] = row[9]._replace(**change)
            place = 8 if number in (8, 9) else 9
            room = bytes([7]) * 100
            self.assertEqual(crest.write(records_of(row), room), (crest.Refusal(number, place), room))

    def test_18_and_the_rest_of_the_room(self):
        for count in (1, PER_BLOCK, PER_BLOCK + 1, MOST_RECORDS):
            records = records_of(lines(count))
            need = BLOCK_SIZE * blocks_needed(count)
            for size in (0, need - 1):
                room = bytes([171]) * size
                self.assertEqual(crest.write(records, room), (crest.Refusal(18), room))
            for more in (0, 1, 700, 2048):
                found, after = crest.write(records, bytes([171]) * (need + more))
                self.assertIsNone(found)
                self.assertEqual(after[:need], raw_file(lines(count)))
                self.assertEqual(after[need:], bytes([171]) * more)

    def test_round_trips(self):
        rng = random.Random(6)
        for count in (1, 2, PER_BLOCK, PER_BLOCK + 1, 2 * PER_BLOCK + 1, MOST_RECORDS):
            file, alignment = random_file(rng, Wish(count, longest=1000))
            parts = [crest.read_record(file, n) for n in range(count)]
            records = b"".join(file[p.start : p.end] for p in parts)
            self.assertEqual(records, records_of(alignment.elements))
            self.assertEqual(crest.write(records, bytes(len(file))), (None, file))

    def test_example_file(self):
        # the layout in figures
        wanted = bytearray(512)
        wanted[0:28] = struct.pack("<B3xIiiiii", 1, 10_000, 0, 0, ONE, 0, 0)
        wanted[482] = wanted[484] = 1
        total = weighted = 0
        for i in range(508):
            total += wanted[i]
            weighted += (508 - i) * wanted[i]
        wanted[508:512] = struct.pack("<HH", total % 65_536, weighted % 65_536)
        self.assertEqual(K, bytes(wanted))
        # bytes 1 (kind), 16 and 39 (10,000), 64 (ONE), 1 and 1 by hand
        self.assertEqual(total, 1 + 16 + 39 + 64 + 1 + 1)
        self.assertEqual(weighted, 508 + 504 * 16 + 503 * 39 + 489 * 64 + 26 + 24)


class Stations(unittest.TestCase):
    def setUp(self):
        self.second = 1000 + WIDEST_GAP
        self.file = file_of(line(), line(x=self.second, length=5), line(x=self.second + 500, length=1))

    def test_join_belongs_to_the_later(self):
        alignment = crest.check(self.file)
        self.assertEqual(alignment.total, 16)
        found = [crest.element_at(alignment, s) for s in (0, 9, 10, 14, 15, 16)]
        self.assertEqual(found, [(0, 0), (0, 9), (1, 0), (1, 4), (2, 0), (2, 1)])
        self.assertEqual(crest.position_and_direction(self.file, 10), (0, 0, self.second, 0, ONE, 0))

    def test_15_station(self):
        for station, wanted in ((-1, 15), (0, 0), (16, 0), (17, 15), (2**70, 15)):
            self.assertEqual(crest.position_and_direction(self.file, station).number, wanted)
            self.assertEqual(crest.inverse(self.file, station, 0).number, wanted)
        self.assertEqual(crest.position_and_direction(self.file, 17), (15, 0, 0, 0, 0, 0))

    def test_position_outside_the_frame_is_given(self):
        file = file_of(line(x=FRAME))
        self.assertEqual(crest.position_and_direction(file, 10), (0, 0, FRAME + 1000, 0, ONE, 0))
        self.assertEqual(crest.inverse(file, 0, 0), (0, 0, FRAME, 0))
        self.assertEqual(crest.inverse(file, 1, 0), (11, 0, 0, 0))

    def test_inverse_limits(self):
        for sign in (1, -1):
            self.assertEqual(crest.inverse(K, 5, sign * WIDEST_OFFSET).number, 0)
            self.assertEqual(crest.inverse(K, 5, sign * (WIDEST_OFFSET + 1)).number, 15)
        high = file_of(line(y=FRAME - 300))
        self.assertEqual(crest.inverse(high, 5, 300), (0, 0, 500, FRAME))
        self.assertEqual(crest.inverse(high, 5, 301), (11, 0, 0, 0))
        self.assertEqual(crest.inverse(high, 11, 301), (15, 0, 0, 0))
        low = file_of(line(y=-FRAME, c=-ONE))
        self.assertEqual(crest.inverse(low, 5, 0), (0, 0, -500, -FRAME))
        self.assertEqual(crest.inverse(low, 5, 1), (11, 0, 0, 0))

    def test_signs_left_and_right(self):
        north = file_of(line(c=0, s=ONE))
        self.assertEqual(crest.inverse(north, 5, 300), (0, 0, -300, 500))
        self.assertEqual(crest.station_and_offset(north, -300, 512)[2:5], (5, 300, 12))
        left = Element(ARC, 100, 0, 0, ONE, 0, 1000)
        self.assertGreater(crest.position(left, 100)[1], 0)
        self.assertLess(crest.position(left._replace(radius=-1000), 100)[1], 0)

    def test_exit_spiral_is_the_entry_spiral_walked_back(self):
        for radius in (1000, -1000):
            entry = Element(ENTRY, 700, 0, 0, ONE, 0, radius)
            leave = entry._replace(kind=EXIT)
            for s in (0, 1, 350, 699, 700):
                x, y = crest.position(entry, s)
                self.assertEqual(crest.position(leave, 700 - s), (-x, y))
                tx, ty = crest.direction(entry, s)
                self.assertEqual(crest.direction(leave, 700 - s), (tx, -ty))
            # left turns bend the direction towards y from a start below it
            self.assertEqual(crest.direction(leave, 0)[1] < 0, radius > 0)


class Points(unittest.TestCase):
    def number(self, x, y, file=K):
        return crest.station_and_offset(file, x, y).number

    def test_11(self):
        file = file_of(line(x=FRAME, y=FRAME, c=-ONE))
        self.assertEqual(self.number(FRAME, FRAME, file), 0)
        for point in ((FRAME + 1, FRAME), (FRAME, FRAME + 1), (-FRAME - 1, 0), (0, -FRAME - 1), (2**70, 0)):
            self.assertEqual(crest.station_and_offset(file, *point), (11, 0, 0, 0, 0, 0))

    def test_12_before_13_and_14(self):
        end = 1_000_000  # of K
        self.assertEqual(self.number(-FAR, 0), 13)
        self.assertEqual(self.number(-FAR - 1, 0), 12)
        self.assertEqual(self.number(end + FAR, 0), 14)
        self.assertEqual(self.number(end + FAR + 1, 0), 12)
        self.assertEqual(self.number(end // 2, -FAR), 0)
        self.assertEqual(self.number(end // 2, -FAR - 1), 12)
        three, four = FAR * 3 // 5, FAR * 4 // 5  # FAR lies between them
        self.assertEqual(self.number(-three, four), 13)
        self.assertEqual(self.number(-three, four + 1), 12)

    def test_13_and_14_at_the_limit(self):
        end, past = 1_000_000, PAST_END + 1  # the end of K
        for x, wanted in ((-PAST_END, 0), (-past, 13), (end + PAST_END, 0), (end + past, 14)):
            self.assertEqual(self.number(x, 7), wanted)
        self.assertEqual(crest.station_and_offset(K, -101, 0), (13, 0, 0, 0, 0, 0))

    def test_residual_inside_is_only_reported(self):
        # neighbours 2 mm apart at a join with a gap: residual above PAST_END away from the ends
        file = file_of(line(), line(x=1000 + WIDEST_GAP, y=WIDEST_GAP))
        answer = crest.station_and_offset(file, 1040, -400)
        self.assertEqual(answer[:5], (0, 0, 9, -400, 140))

    def test_least_station_of_a_tie_over_elements(self):
        # the gap goes back by 1 mm: stations 1 and 2 have the same position
        file = file_of(line(length=2), line(x=100, length=2))
        answer = crest.station_and_offset(file, 100, 50)
        self.assertEqual(answer[2:5], (1, 50, 0))

    def test_long_tangent_far_off(self):
        # least D within its limit, yet the offset passes 20,000,000 and has no inverse
        file = file_of(Element(ARC, 500_000, 0, 0, ONE, 0, -1_000_000))
        answer = crest.station_and_offset(file, 57_531_056, 5_309_976)
        self.assertEqual(answer[:5], (0, 0, 499_986, 20_000_384, 1_679))
        self.assertEqual(crest.inverse(file, answer.station, answer.offset).number, 15)

    def test_count(self):
        step = FIRST_STEP
        rows = [(1, 2), (step - 1, 2), (step, 2), (step + 1, 3), (2 * step, 3), (10 * step, 11), (10 * step + 1, 12)]
        for length, first in rows:
            alignment = crest.check(file_of(line(length=length)))
            self.assertEqual(len(crest.first_visits(alignment.total)), first)
        # far off, the second pass leaves out much; refused, so no count
        self.assertEqual(crest.station_and_offset(K, 500_000, FAR + 1).count, 0)

    def test_walk_by_hand(self):
        # two lines of 4 and 3 mm, point on station 0: 0, 1, 2, then beyond 3 to the join at 4, then out
        alignment = crest.check(file_of(line(length=4), line(x=400, length=3)))
        walked = crest.walk(alignment, lambda s: crest.squared_distance(alignment, (0, 0), s))
        # at 2: 200 − 31 = 169, one left out: 4 = join; at 4: 400 − 31 = 369 div 150 = 2: 7 = T
        self.assertEqual(walked, ([0, 7], [0, 1, 2, 4, 7], 0, 0))

    def test_walk_equals_search_on_entries(self):
        rng = random.Random(9)
        for _ in range(25):
            file, alignment = random_file(rng, Wish(rng.randint(1, 6), longest=100))
            for _ in range(4):
                point = random_point(rng, alignment)
                judged = crest.station_judged(alignment, point)
                walked = crest.walk(alignment, lambda s: crest.squared_distance(alignment, point, s))
                self.assertEqual(walked.station, judged)

    def test_every_entry_checks(self):
        row = lines(5)
        row[3] = row[3]._replace(s=ONE)
        bad = raw_file(row)
        self.assertEqual(crest.station_and_offset(bad, 2**80, 0), (7, 3, 0, 0, 0, 0))
        self.assertEqual(crest.inverse(bad, -1, 0), (7, 3, 0, 0))
        self.assertEqual(crest.position_and_direction(bad, -1), (7, 3, 0, 0, 0, 0))


class StakeOut(unittest.TestCase):
    def test_orders(self):
        bad = (ONE, ONE)
        self.assertEqual(crest.stake_out((FRAME + 1, 0), (0, 0), bad), (11, 0, 0, 0))
        self.assertEqual(crest.stake_out((0, 0), (0, -FRAME - 1), bad), (11, 0, 0, 0))
        self.assertEqual(crest.stake_out((FRAME, FRAME), (-FRAME, -FRAME), bad), (7, 0, 0, 0))

    def test_c_call(self):
        room = bytes(range(MOVE_SIZE))
        self.assertEqual(crest.crest_stake_out(0, 0, 100, 200, 0, ONE, room), (0, struct.pack("<ii", 200, -100)))
        for size in (0, MOVE_SIZE - 1, MOVE_SIZE + 1, RUN_SIZE):
            found = crest.crest_stake_out(FRAME + 1, 0, 0, 0, 0, 0, bytes([9]) * size)
            self.assertEqual(found, (18, bytes([9]) * size))
        self.assertEqual(crest.crest_stake_out(0, FRAME + 1, 0, 0, 0, 0, room), (11, room))
        self.assertEqual(crest.crest_stake_out(0, 0, 0, 0, 0, 0, room), (7, room))

    def test_corner_to_corner_fits_i32(self):
        rng = random.Random(3)
        for _ in range(300):
            c, s = random_unit(rng)
            answer = crest.stake_out((-FRAME, -FRAME), (FRAME, FRAME), (c, s))
            self.assertLess(max(map(abs, answer)), 2**31)

    def test_halves_go_up(self):
        c, s = 644_245_094, 858_993_459  # 3/5 and 4/5
        self.assertTrue(crest.is_unit(c, s))
        answer = crest.stake_out((1, 0), (0, 0), (ONE, 0))
        self.assertEqual(answer[2:], (-1, 0))
        self.assertEqual(crest.stake_out((0, 0), (5, 0), (c, s))[2:], (3, -4))


class Readings(unittest.TestCase):
    def test_whole_of_f64(self):
        rows = [
            (0.0, 0), (-0.0, 0), (1.0, 1), (-1.0, -1), (0.5, None), (-0.5, None), (1.5, None), (3.0, 3),
            (2.0**52 + 0.5, 2**52), (2.0**52 - 0.5, None), (2.0**53, 2**53), (2.0**53 - 1, 2**53 - 1),
            (2.0**63, 2**63), (-(2.0**63), -(2**63)), (2.0**64, 2**64), (1e300, int(1e300)), (5e-324, None),
            (2.0**-1022, None), (-5e-324, None), (200_000_000.5, None), (0.1, None), (1e22, 10**22),
        ]
        for number, wanted in rows:
            self.assertEqual(crest.whole_of_f64(f64_bits(number)), wanted, number)
        for bits in (NAN, NAN | MINUS, 0x7FF0000000000001, INFINITE, INFINITE | MINUS, 2**64 - 1):
            self.assertIsNone(crest.whole_of_f64(bits))
        self.assertIsNone(crest.whole_of_f64((1 << 52) - 1))  # the largest subnormal
        self.assertEqual(crest.whole_of_f64(0x7FEFFFFFFFFFFFFF), (2**53 - 1) << 971)

    def test_whole_of_random_bits(self):
        rng = random.Random(4)
        for _ in range(20_000):
            bits = rng.getrandbits(64)
            if rng.randrange(2):
                bits = bits & ~(0x7FF << 52) | rng.randint(1010, 1090) << 52
                bits &= ~((1 << rng.randrange(53)) - 1)
            number = struct.unpack("<d", bits.to_bytes(8, "little"))[0]
            whole = number == number and abs(number) != float("inf") and number.is_integer()
            self.assertEqual(crest.whole_of_f64(bits), int(number) if whole else None)

    def answer(self, sort, first, second, file=K):
        pair = [n if isinstance(n, int) else f64_bits(n) for n in (first, second)]
        return crest.reading_answer(crest.check(file), sort(*pair))

    def test_orders(self):
        plane, place = crest.PlanePoint, crest.LinePlace
        for sort, far in ((plane, 11), (place, 15)):
            for bad in (NAN, INFINITE, f64_bits(0.5), f64_bits(5e-324)):
                self.assertEqual(self.answer(sort, bad, 1e300), (10, 0, (0, 0, 0), 0, (0.0, 0.0)))
                self.assertEqual(self.answer(sort, 1e300, bad).number, 10)
                self.assertEqual(self.answer(sort, bad, 1.0, b"").number, 1)
            self.assertEqual(self.answer(sort, 1e300, 0.0).number, far)
            self.assertEqual(self.answer(sort, 0.0, -1e300).number, far)
            self.assertEqual(self.answer(sort, 2.0**64, 0.0).number, far)  # not taken modulo 2^64
            self.assertEqual(self.answer(sort, -0.0, -0.0).number, 0)
        self.assertEqual(self.answer(place, 10_000.0, float(WIDEST_OFFSET)).number, 0)
        self.assertEqual(self.answer(place, 10_001.0, 0.0).number, 15)
        self.assertEqual(self.answer(place, -1.0, 0.0).number, 15)

    def test_answers_and_display(self):
        zero = (0.0, 0.0)
        plane = self.answer(crest.PlanePoint, 512.0, 300.0)
        self.assertEqual(plane, (0, 0, (5, 300, 12), crest.station_and_offset(K, 512, 300).count, (5.0, 3.0)))
        self.assertEqual(self.answer(crest.LinePlace, 5.0, 300.0), (0, 0, (500, 300, 0), 0, zero))
        self.assertEqual(self.answer(crest.PlanePoint, -101.0, 0.0), (13, 0, (0, 0, 0), 0, zero))
        self.assertEqual(crest.display_pair(LONGEST_ALIGNMENT, -1), (float(LONGEST_ALIGNMENT), -0.01))
        self.assertEqual(f64_bits(crest.display_pair(0, 0)[1]), 0)
        self.assertEqual(f64_bits(crest.display_pair(0, 7)[1]), f64_bits(0.07))


EAST, NORTH, WEST, SOUTH = (ONE, 0), (0, ONE), (-ONE, 0), (0, -ONE)
STRAIGHT, LEFT, BACK, RIGHT = EAST, NORTH, WEST, SOUTH  # angles
HALF, REST = ONE // 2, 929_887_697  # a unit: a half, and the root of three quarters
SHORT = (ONE - 1, 0)  # the shortest unit along x


def sighted(place, backsight, angle, distance):
    return Sighting(*place, *backsight, *angle, distance)


def bad_crest():
    """(file, number, place)"""
    row = lines(20)
    row[18] = row[18]._replace(length=0)
    return raw_file(row), 6, 18


class Sightings(unittest.TestCase):
    def test_turned_direction_and_point(self):
        three, four = 644_245_094, 858_993_459  # 3/5 and 4/5 of ONE, less 0.4 and 0.2
        rows = [
            ((EAST, LEFT, 300), NORTH, (1000, 2300)),
            ((NORTH, LEFT, 300), WEST, (700, 2000)),
            ((WEST, RIGHT, 300), NORTH, (1000, 2300)),
            ((SOUTH, BACK, 300), NORTH, (1000, 2300)),
            ((SOUTH, RIGHT, 300), WEST, (700, 2000)),
            # c² − s² and 2cs: −7/25 and 24/25 of ONE, −300,647,710.72 and 1,030,792,151.04, less 0.16 and 0.88
            (((three, four), (three, four), 25), (-300_647_711, 1_030_792_150), (993, 2024)),
            # and turned back: c² + s² is ONE·(ONE − 0.8)
            (((three, four), (three, -four), LONGEST_SIGHT), SHORT, (1000 + LONGEST_SIGHT, 2000)),
        ]
        for (backsight, angle, distance), direction, point in rows:
            sighting = sighted((1000, 2000), backsight, angle, distance)
            self.assertEqual(crest.turned_direction(sighting), direction)
            self.assertEqual(crest.sighted_point(sighting), point)

    def test_straight_along_the_backsight(self):
        rng = random.Random(12)
        for _ in range(200):
            b, g = random_unit(rng)
            distance = rng.randint(0, LONGEST_SIGHT)
            sighting = sighted((-7, 5), (b, g), STRAIGHT, distance)
            self.assertEqual(crest.turned_direction(sighting), (b, g))
            self.assertEqual(crest.sighted_point(sighting), (-7 + near(distance * b, ONE), 5 + near(distance * g, ONE)))

    def test_is_the_definition(self):
        def rounded(fraction):
            return floor(fraction + Fraction(1, 2))

        rng = random.Random(13)
        for _ in range(500):
            x, y, b, g, a, h, d = sighting = random_sighting(rng)
            e, f = rounded(Fraction(b * a - g * h, ONE)), rounded(Fraction(g * a + b * h, ONE))
            self.assertEqual(crest.turned_direction(sighting), (e, f))
            point = x + rounded(Fraction(d * e, ONE)), y + rounded(Fraction(d * f, ONE))
            self.assertEqual(crest.sighted_point(sighting), point)

    def test_halves_go_up(self):
        self.assertTrue(crest.is_unit(HALF, REST))
        # of the turned direction: HALF·(ONE − 1) is ONE·(HALF − 1/2)
        for c, wanted in ((HALF, HALF), (-HALF, -HALF + 1)):
            self.assertEqual(crest.turned_direction(sighted((0, 0), (c, REST), SHORT, 0)), (wanted, REST - 1))
            self.assertEqual(crest.turned_direction(sighted((0, 0), SHORT, (c, REST), 0)), (wanted, REST - 1))
            self.assertEqual(crest.turned_direction(sighted((0, 0), (REST, c), SHORT, 0)), (REST - 1, wanted))
        # of the point
        for c, distance, wanted in ((HALF, 1, 1), (HALF, 3, 2), (-HALF, 1, 0), (-HALF, 3, -1), (-HALF, 5, -2)):
            x, y = crest.sighted_point(sighted((0, 0), (c, REST), STRAIGHT, distance))
            self.assertEqual((x, y), (wanted, near(distance * REST, ONE)))
        # of both: without the first rounding the point would lie just short of the half
        for distance in (1, 3, 777, LONGEST_SIGHT - 1):
            sighting = sighted((0, 0), (HALF, REST), SHORT, distance)
            self.assertEqual(crest.sighted_point(sighting)[0], (distance + 1) // 2)
            self.assertEqual(near(distance * HALF * SHORT[0], ONE * ONE), (distance - 1) // 2)

    def number(self, place=(0, 300), backsight=EAST, angle=STRAIGHT, distance=500, file=K):
        return crest.sighting_answer(crest.check(file), sighted(place, backsight, angle, distance)).number

    def test_7_for_either_pair(self):
        above_in, above_out, below_in, below_out = unit_limit_pairs()
        for (c, s), wanted in ((above_in, 0), (below_in, 0), (above_out, 7), (below_out, 7)):
            for pair in ((c, s), (s, c), (-c, s), (c, -s), (-s, -c)):
                self.assertEqual(self.number((500, 300), pair, distance=5), wanted)
                self.assertEqual(self.number((500, 300), angle=pair, distance=5), wanted)
                self.assertEqual(crest.sighting_stake_out(sighted((0, 0), pair, LEFT, 5), (0, 0)).number, wanted)
                self.assertEqual(crest.sighting_stake_out(sighted((0, 0), LEFT, pair, 5), (0, 0)).number, wanted)
        for pair in ((0, 0), (ONE + 1, 0), (0, -ONE - 1), (ONE, ONE), (LEAST, LEAST), (2**80, 0)):
            self.assertEqual(self.number(backsight=pair), 7)
            self.assertEqual(self.number(angle=pair), 7)

    def test_turned_pair_is_not_tested(self):
        above_in, _, below_in, _ = unit_limit_pairs()
        self.assertEqual((above_in, below_in), ((1_073_741_763, 364_889), SHORT))
        for pair, direction in ((above_in, (1_073_741_578, 729_778)), (SHORT, (ONE - 2, 0))):
            self.assertTrue(crest.is_unit(*pair))
            self.assertFalse(crest.is_unit(*direction))
            sighting = sighted((100, 300), pair, pair, 400)
            self.assertEqual(crest.turned_direction(sighting), direction)
            self.assertEqual(crest.sighting_answer(crest.check(K), sighting)[:3], (0, 0, (5, 300, 0)))
            self.assertEqual(crest.stake_out((500, 300), (100, 300), direction).number, 7)
            self.assertEqual(crest.sighting_stake_out(sighting, (100, 300)), (0, 0, 400, 0))
        # 400,000,000 · (ONE − 2) / ONE is 399,999,999.25
        own = sighted((FRAME, 0), SHORT, SHORT, 0)
        self.assertEqual(crest.sighting_stake_out(own, (-FRAME, 0)), (0, 0, 2 * FRAME - 1, 0))

    def test_15_for_the_distance(self):
        longest = LONGEST_SIGHT
        for distance, wanted in ((-1, 15), (0, 0), (1, 0), (longest - 1, 0), (longest, 0), (longest + 1, 15)):
            # to (500, 300), where a distance that is not taken leads too
            self.assertEqual(self.number((500 - distance, 300), distance=distance), wanted)
            move = crest.sighting_stake_out(sighted((0, 0), WEST, BACK, distance), (0, 0))
            self.assertEqual(move, (15, 0, 0, 0) if wanted else (0, 0, distance, 0))
        for distance in (LEAST, GREATEST, -longest, 2**70):
            self.assertEqual(self.number(distance=distance), 15)

    def test_11_for_place_and_point(self):
        file = file_of(line(x=FRAME - 500, y=FRAME))
        for sign in (1, -1):
            self.assertEqual(self.number((sign * FRAME, 0), distance=0), 12)
            self.assertEqual(self.number((0, sign * FRAME), distance=0), 12)
            self.assertEqual(self.number((sign * (FRAME + 1), 0), distance=0), 11)
            self.assertEqual(self.number((0, sign * (FRAME + 1)), distance=0), 11)
        # the place, though the point lies in the frame
        self.assertEqual(self.number((FRAME, FRAME), WEST, distance=1, file=file), 0)
        self.assertEqual(self.number((FRAME + 1, FRAME), WEST, distance=1, file=file), 11)
        self.assertEqual(self.number((FRAME, FRAME + 1), SOUTH, distance=1, file=file), 11)
        # the point, in each coordinate
        for backsight, wanted in ((EAST, 11), (NORTH, 11), (WEST, 0), (SOUTH, 0)):
            self.assertEqual(self.number((FRAME, FRAME), backsight, distance=1, file=file), wanted)
        self.assertEqual(self.number((-FRAME, 0), WEST, distance=1), 11)
        self.assertEqual(self.number((0, -FRAME), SOUTH, distance=1), 11)
        # and by rounding: half a grain goes up, and out only towards rising coordinates
        self.assertEqual(self.number((FRAME, 0), (HALF, REST), distance=1), 11)
        self.assertEqual(self.number((-FRAME, 0), (-HALF, REST), distance=1), 12)

    def test_order(self):
        sighting = Sighting(FRAME + 1, 0, 0, 0, 0, 0, -1)
        file, number, place = bad_crest()
        rows = [
            (dict(), 7),
            (dict(backsight_c=ONE), 7),
            (dict(angle_c=ONE), 11),  # the place
            (dict(x=FRAME), 15),
            (dict(distance=1), 11),  # the point
            (dict(angle_c=-ONE), 12),
            (dict(x=-PAST_END, y=7), 13),
            (dict(x=1_000_002 + PAST_END), 14),
            (dict(x=500), 0),
        ]
        for change, wanted in rows:
            sighting = sighting._replace(**change)
            answer = crest.sighting_answer(crest.check(K), sighting)
            self.assertEqual(answer[:2], (wanted, 0))
            if wanted:
                self.assertEqual(answer[2:], ((0, 0, 0), 0, (0.0, 0.0)))
            # the crest's own come first, whatever the sighting
            self.assertEqual(crest.sighting_answer(crest.check(file), sighting)[:2], (number, place))
            self.assertEqual(crest.sighting_answer(crest.check(b""), sighting)[:2], (1, 0))
        self.assertEqual(answer[2], (5, 7, -1))
        # either pair before the place, with the other one good
        for pair in (dict(backsight_c=1), dict(angle_s=1 - ONE)):
            self.assertEqual(crest.sighting_fault(sighting._replace(x=FRAME + 1, **pair)), 7)

    def test_answer_is_that_of_the_point(self):
        rng = random.Random(14)
        met = set()
        for _ in range(12):
            _, alignment = random_file(rng, Wish(rng.randint(1, 5), longest=100))
            for _ in range(40):
                sighting = random_sighting(rng, alignment)
                number = crest.sighting_fault(sighting)
                x, y = (f64_bits(float(n)) for n in crest.sighted_point(sighting))
                wanted = crest.reading_answer(alignment, crest.PlanePoint(x, y))
                if number:
                    wanted = (number, 0, (0, 0, 0), 0, (0.0, 0.0))
                self.assertEqual(crest.sighting_answer(alignment, sighting), wanted)
                self.assertEqual(crest.reading_answer(alignment, sighting), wanted)
                met.add(wanted[0])
        self.assertEqual(met, {0, 7, 11, 12, 13, 14, 15})

    def test_display_and_count(self):
        # to (512, 300) from (512, 1300)
        answer = crest.sighting_answer(crest.check(K), sighted((512, 1300), EAST, RIGHT, 1000))
        self.assertEqual(answer, (0, 0, (5, 300, 12), crest.station_and_offset(K, 512, 300).count, (5.0, 3.0)))


class SightedMoves(unittest.TestCase):
    def test_by_hand(self):
        # prism at (0, 1000), facing south: left is east
        sighting = sighted((0, 0), EAST, LEFT, 1000)
        rows = [((100, 700), (300, 100)), ((0, 0), (1000, 0)), ((-5, 1001), (-1, -5)), ((0, 1000), (0, 0))]
        for target, move in rows:
            self.assertEqual(crest.sighting_stake_out(sighting, target), (0, 0, *move))
        # prism at (−1000, 0), facing east
        sighting = sighted((0, 0), NORTH, LEFT, 1000)
        self.assertEqual(crest.sighting_stake_out(sighting, (100, 700)), (0, 0, 1100, 700))

    def test_heading_is_that_of_the_stake_out(self):
        rng = random.Random(15)
        met = set()
        for _ in range(600):
            sighting = random_sighting(rng)
            target = random_target(rng, sighting)
            answer = crest.sighting_stake_out(sighting, target)
            met.add(answer.number)
            e, f = crest.turned_direction(sighting)
            if crest.sighting_fault(sighting):
                self.assertEqual(answer, (crest.sighting_fault(sighting), 0, 0, 0))
            elif crest.is_unit(e, f):
                self.assertEqual(answer, crest.stake_out(crest.sighted_point(sighting), target, (-e, -f)))
        self.assertEqual(met, {0, 7, 11, 15})

    def test_halves_go_up_after_the_heading_is_negated(self):
        own = sighted((0, 0), (HALF, REST), STRAIGHT, 0)
        for dx, move in ((1, (0, 1)), (-1, (1, -1)), (3, (-1, 3)), (-3, (2, -3))):
            self.assertEqual(crest.sighting_stake_out(own, (dx, 0)), (0, 0, *move))

    def test_order(self):
        sighting = Sighting(FRAME + 1, 0, 0, 0, 0, 0, -1)
        target = (0, FRAME + 1)
        room = bytes(range(MOVE_SIZE))
        rows = [
            (dict(), 7),
            (dict(backsight_c=ONE), 7),
            (dict(angle_c=ONE), 11),  # the place
            (dict(x=FRAME), 15),
            (dict(distance=1), 11),  # the point
            (dict(angle_c=-ONE), 11),  # the target
        ]
        for change, wanted in rows:
            sighting = sighting._replace(**change)
            self.assertEqual(crest.sighting_stake_out(sighting, target), (wanted, 0, 0, 0))
            # a refused move leaves the room, and 18 for the room comes first
            self.assertEqual(crest.crest_sighting_stake_out(*sighting, *target, room), (wanted, room))
            for size in (0, MOVE_SIZE - 1, MOVE_SIZE + 1, RUN_SIZE):
                other = bytes([9]) * size
                self.assertEqual(crest.crest_sighting_stake_out(*sighting, *target, other), (18, other))
        found = crest.crest_sighting_stake_out(*sighting, 0, FRAME, room)
        self.assertEqual(found, (0, struct.pack("<ii", 1 - FRAME, FRAME)))
        self.assertEqual(crest.crest_sighting_stake_out(*sighting, 0, FRAME, room[1:]), (18, room[1:]))

    def test_11_for_point_and_target(self):
        # the target lies in the frame, the point does not
        self.assertEqual(crest.sighting_stake_out(sighted((FRAME, 0), EAST, STRAIGHT, 1), (0, 0)), (11, 0, 0, 0))
        own = sighted((0, 0), EAST, STRAIGHT, 1)
        for x, y in ((FRAME, 0), (-FRAME, 0), (0, FRAME), (0, -FRAME), (FRAME, -FRAME)):
            self.assertEqual(crest.sighting_stake_out(own, (x, y)), (0, 0, 1 - x, -y))
        for target in ((FRAME + 1, 0), (-FRAME - 1, 0), (0, FRAME + 1), (0, -FRAME - 1), (LEAST, GREATEST)):
            self.assertEqual(crest.sighting_stake_out(own, target), (11, 0, 0, 0))

    def test_corner_to_corner_fits_i32(self):
        rng = random.Random(16)
        longest = unit_limit_pairs()[0]
        pairs = [(longest, longest)] + [(random_unit(rng), random_unit(rng)) for _ in range(300)]
        for backsight, angle in pairs:
            answer = crest.sighting_stake_out(sighted((-FRAME, -FRAME), backsight, angle, 0), (FRAME, FRAME))
            self.assertEqual(answer.number, 0)
            self.assertLess(max(map(abs, answer)), 2**31)


class Runs(unittest.TestCase):
    answered = crest.ReadingAnswer(0, 0, (1, -2, 3))

    def refused(self, number):
        return crest.ReadingAnswer(number, 5)

    def test_history(self):
        run = crest.FRESH
        self.assertEqual(crest.bytes_of_run(run), bytes(RUN_SIZE))
        run = crest.run_after(run, self.answered)
        self.assertEqual(run, (1, 0, 0, 0, 0, 0, (1, -2, 3)))
        run = crest.run_after(run, self.refused(13))
        self.assertEqual(run, (1, 1, 13, 13, 2, 0, (0, 0, 0)))
        run = crest.run_after(run, self.refused(10))
        self.assertEqual(run, (1, 2, 10, 13, 2, 0, (0, 0, 0)))
        run = crest.run_after(run, self.answered)
        self.assertEqual(run, (2, 2, 0, 13, 2, 0, (1, -2, 3)))
        run = crest.acknowledged(run)
        self.assertEqual(run, (2, 2, 0, 0, 0, 0, (1, -2, 3)))
        run = crest.run_after(run, self.refused(12))
        self.assertEqual(run, (2, 3, 12, 12, 5, 0, (0, 0, 0)))

    def test_c_history(self):
        value, run = crest.crest_plane_reading(K, f64_bits(512.0), f64_bits(300.0), bytes(RUN_SIZE))
        self.assertEqual((value, struct.unpack("<6H3i", run)), (0, (1, 0, 0, 0, 0, 0, 5, 300, 12)))
        value, run = crest.crest_plane_reading(K, f64_bits(-101.0), 0, run)
        self.assertEqual((value, struct.unpack("<6H3i", run)), (13, (1, 1, 13, 13, 2, 0, 0, 0, 0)))
        value, run = crest.crest_line_reading(K, f64_bits(5.0), f64_bits(300.0), run)
        self.assertEqual((value, struct.unpack("<6H3i", run)), (0, (2, 1, 0, 13, 2, 0, 500, 300, 0)))
        row = lines(20)
        row[18] = row[18]._replace(c=0)
        value, run = crest.crest_line_reading(raw_file(row), NAN, NAN, run)
        self.assertEqual((value, struct.unpack("<6H3i", run)), (7 + PLACE_UNIT * 18, (2, 2, 7, 13, 2, 0, 0, 0, 0)))
        value, run = crest.crest_acknowledge(run)
        self.assertEqual((value, struct.unpack("<6H3i", run)), (0, (2, 2, 7, 0, 0, 0, 0, 0, 0)))
        value, run = crest.crest_plane_reading(K, f64_bits(0.5), NAN, run)
        self.assertEqual((value, struct.unpack("<6H3i", run)), (10, (2, 3, 10, 10, 5, 0, 0, 0, 0)))

    def test_c_history_with_sightings(self):
        def after(run, sighting, file=K):
            value, run = crest.crest_sighting_reading(file, *sighting, run)
            return value, struct.unpack("<6H3i", run), run

        # to (512, 300)
        value, fields, run = after(bytes(RUN_SIZE), sighted((512, 1300), EAST, RIGHT, 1000))
        self.assertEqual((value, fields), (0, (1, 0, 0, 0, 0, 0, 5, 300, 12)))
        value, run = crest.crest_line_reading(K, f64_bits(5.0), f64_bits(-7.0), run)
        self.assertEqual((value, struct.unpack("<6H3i", run)), (0, (2, 0, 0, 0, 0, 0, 500, -7, 0)))
        # to (−101, 0)
        value, fields, run = after(run, sighted((0, 0), NORTH, LEFT, 101))
        self.assertEqual((value, fields), (13, (2, 1, 13, 13, 3, 0, 0, 0, 0)))
        value, fields, run = after(run, sighted((0, 0), NORTH, LEFT, -1))
        self.assertEqual((value, fields), (15, (2, 2, 15, 13, 3, 0, 0, 0, 0)))
        value, run = crest.crest_acknowledge(run)
        self.assertEqual((value, struct.unpack("<6H3i", run)), (0, (2, 2, 15, 0, 0, 0, 0, 0, 0)))
        value, run = crest.crest_plane_reading(K, f64_bits(1.0), f64_bits(2.0), run)
        self.assertEqual((value, struct.unpack("<6H3i", run)), (0, (3, 2, 0, 0, 0, 0, 0, 2, 1)))
        file, number, place = bad_crest()
        value, fields, run = after(run, sighted((0, 0), (0, 0), LEFT, 1), file)
        self.assertEqual((value, fields), (number + PLACE_UNIT * place, (3, 3, number, number, 6, 0, 0, 0, 0)))
        value, fields, run = after(run, sighted((0, 0), (0, 0), LEFT, 1))
        self.assertEqual((value, fields), (7, (3, 4, 7, number, 6, 0, 0, 0, 0)))
        value, fields, run = after(run, sighted((0, 300), EAST, STRAIGHT, 0))
        self.assertEqual((value, fields), (0, (4, 4, 0, number, 6, 0, 0, 300, 0)))

    def test_mixed_history_by_value(self):
        rng = random.Random(17)
        crests = [crest.check(K), crest.check(file_of(line(length=7))), crest.Refusal(8, 3)]
        run = crest.FRESH
        answered = refused = first = first_reading = 0
        met = set()
        for _ in range(400):
            alignment = rng.choice(crests)
            if rng.randrange(5) == 0:
                run, first, first_reading = crest.acknowledged(run), 0, 0
            kind = rng.randrange(4)
            if kind == 0:
                observation = crest.PlanePoint(f64_bits(rng.choice((1.0, -101.0, 0.5))), 0)
            elif kind == 1:
                observation = crest.LinePlace(f64_bits(rng.choice((3.0, -1.0))), 0)
            else:
                observation = random_sighting(rng, None if isinstance(alignment, crest.Refusal) else alignment)
            outcome, run = crest.take_reading(run, alignment, observation)
            self.assertEqual(outcome, crest.reading_answer(alignment, observation))
            met.add(outcome.number)
            answered, refused = answered + (outcome.number == 0), refused + (outcome.number != 0)
            if outcome.number and not first:
                first, first_reading = outcome.number, answered + refused
            self.assertEqual(run, (answered, refused, outcome.number, first, first_reading, 0, outcome.three))
        self.assertEqual(met, {0, 7, 8, 10, 11, 12, 13, 14, 15})

    def test_18_and_16_before_all_of_a_sighting(self):
        file, _, _ = bad_crest()
        bad = Sighting(FRAME + 1, 0, 0, 0, 0, 0, -1)
        good = sighted((0, 300), EAST, STRAIGHT, 0)
        full = MOST_COUNTED
        for sighting in (bad, good):
            for crest_bytes in (K, file, b""):
                for size in (0, RUN_SIZE - 1, RUN_SIZE + 1, 2 * RUN_SIZE):
                    run = bytes([255]) * size
                    self.assertEqual(crest.crest_sighting_reading(crest_bytes, *sighting, run), (18, run))
                for answered, refused in ((full, 0), (0, full), (1, full - 1), (full, full)):
                    run = struct.pack("<6H3i", answered, refused, 3, 0, 9, 77, -1, 2, -3)
                    self.assertEqual(crest.crest_sighting_reading(crest_bytes, *sighting, run), (16, run))
                    state = crest.run_of(run)
                    outcome, after = crest.take_reading(state, crest.check(crest_bytes), sighting)
                    self.assertEqual((outcome[:2], after), ((16, 0), state))
        # the last one that is counted
        run = struct.pack("<6H3i", full - 1, 0, 3, 0, 9, 77, -1, 2, -3)
        value, after = crest.crest_sighting_reading(K, *bad, run)
        self.assertEqual((value, struct.unpack("<6H3i", after)), (7, (full - 1, 1, 7, 7, full, 77, 0, 0, 0)))
        value, after = crest.crest_sighting_reading(K, *good, run)
        self.assertEqual((value, struct.unpack("<6H3i", after)), (0, (full, 0, 0, 0, 9, 77, 0, 300, 0)))
        self.assertEqual(crest.crest_sighting_reading(K, *good, after), (16, after))

    def test_18(self):
        for size in (0, RUN_SIZE - 1, RUN_SIZE + 1, 2 * RUN_SIZE):
            run = bytes([200]) * size
            self.assertEqual(crest.crest_plane_reading(b"", NAN, NAN, run), (18, run))
            self.assertEqual(crest.crest_line_reading(b"", NAN, NAN, run), (18, run))
            self.assertEqual(crest.crest_acknowledge(run), (18, run))

    def test_16_at_the_limit(self):
        full, less = MOST_COUNTED, MOST_COUNTED - 1
        for answered, refused in ((full, 0), (0, full), (1, less), (full, full), (full, 1)):
            run = struct.pack("<6H3i", answered, refused, 3, 0, 9, 77, -1, 2, -3)
            self.assertEqual(crest.crest_plane_reading(b"", NAN, 0, run), (16, run))
            self.assertEqual(crest.crest_line_reading(K, 0, 0, run), (16, run))
        run = struct.pack("<6H3i", less, 0, 3, 0, 9, 77, -1, 2, -3)
        value, after = crest.crest_plane_reading(K, NAN, 0, run)
        self.assertEqual((value, struct.unpack("<6H3i", after)), (10, (less, 1, 10, 10, full, 77, 0, 0, 0)))
        value, after = crest.crest_line_reading(K, 0, 0, run)
        self.assertEqual((value, struct.unpack("<6H3i", after)), (0, (full, 0, 0, 0, 9, 77, 0, 0, 0)))
        self.assertEqual(crest.crest_line_reading(K, 0, 0, after), (16, after))
        # a full run can be acknowledged
        run = struct.pack("<6H3i", full, full, 3, 8, 9, 77, -1, 2, -3)
        self.assertEqual(crest.crest_acknowledge(run), (0, struct.pack("<6H3i", full, full, 3, 0, 0, 77, -1, 2, -3)))

    def test_other_bytes_are_taken_as_they_spell(self):
        rng = random.Random(8)
        for _ in range(500):
            run = rng.randbytes(RUN_SIZE)
            if rng.randrange(2):  # counts that leave room
                run = with_fields(run, RUN_FIELDS[:2], (rng.randrange(30_000), rng.randrange(30_000)))
            if rng.randrange(2):  # no first refusal
                run = with_fields(run, RUN_FIELDS[3:4], (0,))
            self.assertEqual(crest.bytes_of_run(crest.run_of(run)), run)
            value, after = crest.crest_plane_reading(K, f64_bits(-101.0), 0, run)
            self.assertEqual(after[10:12], run[10:12])
            answered, refused, _, first, reading, spare = struct.unpack("<6H", run[:12])
            if answered + refused >= MOST_COUNTED:
                self.assertEqual((value, after), (16, run))
                continue
            if first == 0:
                first, reading = 13, answered + refused + 1
            wanted = struct.pack("<6H3i", answered, refused + 1, 13, first, reading, spare, 0, 0, 0)
            self.assertEqual((value, after), (13, wanted))
            after = crest.crest_acknowledge(run)[1]
            self.assertEqual((after[:6], after[6:10], after[10:]), (run[:6], bytes(4), run[10:]))

    def test_counting_to_the_full_run(self):
        run = crest.FRESH
        for number in range(MOST_COUNTED):
            outcome, run = crest.take_reading(run, crest.Refusal(1), crest.PlanePoint(0, 0))
        self.assertEqual(run, (0, MOST_COUNTED, 1, 1, 1, 0, (0, 0, 0)))
        outcome, after = crest.take_reading(run, crest.check(K), crest.PlanePoint(0, 0))
        self.assertEqual((outcome, after), ((16, 0, (0, 0, 0), 0, (0.0, 0.0)), run))


class CValues(unittest.TestCase):
    def test_check(self):
        self.assertEqual(crest.crest_check(K), 0)
        self.assertEqual(crest.crest_check(b""), 1)
        four = file_of(*lines(MOST_RECORDS))
        self.assertEqual(crest.crest_check(patched(four, 3 * BLOCK_SIZE, [9])), 2 + PLACE_UNIT * 3)
        row = lines(MOST_RECORDS)
        row[-1] = row[-1]._replace(x=0)
        self.assertEqual(crest.crest_check(raw_file(row)), 8 + PLACE_UNIT * (MOST_RECORDS - 2))

    def test_write(self):
        record, room = K[:RECORD_SIZE], bytes([5]) * (BLOCK_SIZE + 88)
        small = room[: BLOCK_SIZE - 1]
        self.assertEqual(crest.crest_write(record, room), (0, K + room[BLOCK_SIZE:]))
        self.assertEqual(crest.crest_write(record, small), (18, small))
        self.assertEqual(crest.crest_write(record[:-1], room), (17, room))
        row = lines(3)
        row[2] = row[2]._replace(kind=15)
        self.assertEqual(crest.crest_write(records_of(row), room), (5 + PLACE_UNIT * 2, room))


class Program(unittest.TestCase):
    def test_no_readings(self):
        for tail in (b"", bytes(READING_SIZE - 1)):
            wanted = "reading station offset residual\nanswered 0 refused 0 first none\n"
            self.assertEqual(crest.program_text(K, tail), wanted)

    def test_no_refusal_and_a_tail(self):
        readings = struct.pack("<4d", 512, 300, -0.0, -7) + bytes(9)
        wanted = "reading station offset residual\n1 5 300 12\n2 0 -7 0\nanswered 2 refused 0 first none\n"
        self.assertEqual(crest.program_text(K, readings), wanted)

    def test_refused_crest(self):
        wanted = "reading station offset residual\n1 refused 1\n2 refused 1\nanswered 0 refused 2 first 1 1\n"
        self.assertEqual(crest.program_text(b"", struct.pack("<4d", 0, 0, 0.5, 0)), wanted)

    def test_full_run(self):
        full = MOST_COUNTED
        text = crest.program_text(b"", bytes(READING_SIZE * (full + 2))).splitlines()
        self.assertEqual(text[full:], [
            f"{full} refused 1", f"{full + 1} refused 16", f"{full + 2} refused 16",
            f"answered 0 refused {full} first 1 1",
        ])


class Series(unittest.TestCase):
    """The 2-grain bound against the exact three-term sums, and the spacing of stations."""

    @staticmethod
    def exact(element, s):
        """u and v (U and V on a spiral) as fractions."""
        length, radius = element.length, element.radius
        if element.kind == ARC:
            q = Fraction(s, radius) ** 2
            return (
                GRAINS * s * (1 - q / 6 + q * q / 120),
                GRAINS // 2 * s * Fraction(s, radius) * (1 - q / 12 + q * q / 360),
            )
        l = length - s if element.kind == EXIT else s
        tau = Fraction(l * l, 2 * radius * length)
        q = tau * tau
        return (
            GRAINS * l * (1 - q / 10 + q * q / 216),
            GRAINS * l * tau * (1 - q / 14 + q * q / 440) / 3,
        )

    @staticmethod
    def samples():
        rng = random.Random(7)
        for kind in (ARC, ENTRY, EXIT):
            for sign in (1, -1):
                for length in (1, 2, 3, 999, 123_457, LONGEST_ELEMENT - 1, LONGEST_ELEMENT):
                    least = least_radius(kind, length)
                    for size in {least, least + 1, 3 * least, WIDEST}:
                        element = Element(kind, length, 0, 0, ONE, 0, sign * min(size, WIDEST))
                        for s in {0, 1, length // 3, length // 2, length - 1, length}:
                            yield element, s
                for _ in range(700):
                    length = rng.randint(1, rng.choice((50, 5_000, LONGEST_ELEMENT)))
                    least = least_radius(kind, length)
                    size = rng.randint(least, rng.choice((2 * least, WIDEST)))
                    element = Element(kind, length, 0, 0, ONE, 0, sign * min(size, WIDEST))
                    yield element, rng.randint(0, length)

    def test_two_grains(self):
        seen = 0
        worst = 0
        for element, s in self.samples():
            u, v = crest.own_position(element, s)
            if element.kind == EXIT:
                u = -u
            exact_u, exact_v = self.exact(element, s)
            seen += 1
            worst = max(worst, abs(u - exact_u), abs(v - exact_v))
        self.assertGreater(seen, 4000)
        self.assertLessEqual(worst, 2)

    def test_neighbours_lie_within_the_step(self):
        rng = random.Random(2)
        for element, s in self.samples():
            if s == element.length:
                continue
            c, sine = random_unit(rng)
            element = element._replace(c=c, s=sine)
            (x, y), (x2, y2) = crest.position(element, s), crest.position(element, s + 1)
            self.assertLess((x - x2) ** 2 + (y - y2) ** 2, STEP_DIVISOR**2)


if __name__ == "__main__":
    unittest.main()
