"""The rows that the program comparisons reads, and what its store holds after them.

The program has a store of 65,536 bytes and 32 bytes in which a run lies, all zero at first. Its input is how many rows
follow, u32, and the rows. A row has its sort, u8, whether it is wrong, u8 (0 or 1), and the start and length of a part of the
store, u16 each, and then

    ELEMENT  for the record in that part: a station s from the element's start, u32, and X, Y, Tx, Ty there, i64
    FILE     for the crest file in that part: refusal number (0 where it is accepted) and place, u16
    POINT    for the crest file in that part: x, y, offset, residual, i64; refusal number (0 for an answer), station,
             visits, u32
    NUMBER   the bits of an f64, u64; the whole number that it is, i64, where its size is below 2^62, else 2^62 with its
             sign for a larger one, and 2^63 − 1 where it is not finite or not whole
    CALL     for the crest file in that part: sort of the call, u8 (0 plane reading, 1 line reading, 2 acknowledgement, 3
             sighting); how many of the run's bytes are lent, u8; two zeros; the returned value, u32; the bits of both f64
             numbers, u64, zeros where there are none; the run's bytes afterwards; the sighting's seven numbers, i32, zeros
             where there is none
    NOTE     for the crest file in that part and the run by value: sort of the call, u8, as above; case of the answer, u8 (0
             none, 1 plane point, also of a sighting, 2 line place, 3 refused); refusal number and place, u16; two zeros; the
             bits of both f64 numbers, u64; station, offset, residual and visits, or X, Y and zeros, or zeros, i64; the run's
             24 bytes afterwards; the bits of the display pair, u64; the sighting
    LENT     the same on the run lent in place, with zeros for the display pair
    DISPLAY  for the crest file in that part: sort of the reading, u8, as above; seven zeros; the bits of both f64 numbers
             and of the display pair, u64; the sighting
    MOVE     of a sighting: refusal number, u32 (0 for a move); four zeros; forward and left, i64, zeros where refused; the
             sighting; the target's x and y, i32
    BYTES    what that part is to hold from now on
    RUN      what the run's bytes are to be from now on; the run by value is what the first 24 spell

All little-endian. The part is empty where a row has no use for one.

A wrong row is a right one with one bit changed in what it says, so that a comparison that does not look there is found out: some
of the right rows come after such a copy of themselves. The bits are taken in turn, and each of a sort is changed at least once.
Other wrong rows ask what a right one asks and say what a false rule comes to.
"""

from collections import Counter
from struct import Struct

ELEMENT, FILE, POINT, NUMBER, CALL, NOTE, LENT, DISPLAY, MOVE, BYTES, RUN = range(1, 12)
COUNT = Struct("<I")
HEAD = Struct("<BBHH")
LAYOUT = {
    ELEMENT: Struct("<Iqqqq"),
    FILE: Struct("<HH"),
    POINT: Struct("<qqqqIII"),
    NUMBER: Struct("<Qq"),
    CALL: Struct("<BBxxIQQ32s7i"),
    NOTE: Struct("<BBHHxxQQqqqq24sQQ7i"),
    LENT: Struct("<BBHHxxQQqqqq24s16x7i"),
    DISPLAY: Struct("<BxxxxxxxQQQQ7i"),
    MOVE: Struct("<Ixxxxqq7iii"),
    RUN: Struct("<32s"),
}
STORE = 65_536
NOWHERE = 0, 0
NAMES = {
    ELEMENT: "element rows",
    FILE: "crest files",
    POINT: "points",
    NUMBER: "numbers",
    CALL: "calls",
    NOTE: "calls by value",
    LENT: "calls in place",
    DISPLAY: "display pairs",
    MOVE: "sighted moves",
}

# What a row says, and not what it asks, by the starts and ends of its bytes; and how many right rows there are to a wrong one.
SAID = {
    ELEMENT: ((4, 36),),
    FILE: ((0, 4),),
    POINT: ((16, 44),),
    NUMBER: ((8, 16),),
    CALL: ((4, 8), (24, 56)),
    NOTE: ((1, 6), (24, 96)),
    LENT: ((1, 6), (24, 80)),
    DISPLAY: ((24, 40),),
    MOVE: ((0, 4), (8, 24)),
}
TO_A_WRONG_ONE = {ELEMENT: 20, FILE: 20, POINT: 8, NUMBER: 50, CALL: 20, NOTE: 2, LENT: 2, DISPLAY: 5, MOVE: 8}
RUN_AFTER = {CALL: (24, 56), NOTE: (56, 80), LENT: (56, 80)}


def bits_said(sort):
    """The byte and the bit of each bit that a row says."""
    return [(at, bit) for start, end in SAID[sort] for at in range(start, end) for bit in range(8)]


def differences(old, new):
    """Start and end of each stretch of bytes that differs; two no farther apart than a head is long are one."""
    found = []
    for at in range(len(new)):
        if old[at] != new[at]:
            start = found.pop()[0] if found and at - found[-1][1] <= HEAD.size else at
            found.append((start, at + 1))
    return found


class Rows:
    """The rows so far, what the store and the run hold after them, and how many are right and wrong of each sort."""

    def __init__(self):
        self.rows = []
        self.store = bytearray(STORE)
        self.run = bytes(LAYOUT[RUN].size)
        self.right = Counter()
        self.wrong = Counter()
        self.changed = Counter()  # the wrong ones with a bit changed

    def put(self, sort, part, row, wrong=False):
        self.rows.append(HEAD.pack(sort, wrong, *part) + row)

    def lay(self, data, at=0):
        """Has the store hold these bytes from there on; the part in which they lie."""
        for start, end in differences(self.store[at : at + len(data)], data):
            self.put(BYTES, (at + start, end - start), data[start:end])
        self.store[at : at + len(data)] = data
        assert len(self.store) == STORE
        return at, len(data)

    def begin(self, run):
        """Has the run be these bytes."""
        self.put(RUN, NOWHERE, LAYOUT[RUN].pack(run))
        self.run = run

    def put_wrong(self, sort, part, row):
        """A wrong row, after which the run is what it was."""
        self.put(sort, part, row, wrong=True)
        self.wrong[sort] += 1
        if sort in RUN_AFTER:
            self.begin(self.run)

    def add_changed(self, sort, part, row):
        """The row with the next bit changed."""
        bits = bits_said(sort)
        at, bit = bits[self.changed[sort] % len(bits)]
        self.put_wrong(sort, part, row[:at] + bytes([row[at] ^ 1 << bit]) + row[at + 1 :])
        self.changed[sort] += 1

    def add_false(self, sort, part, *values):
        """A row of these values, which a false rule comes to."""
        self.put_wrong(sort, part, LAYOUT[sort].pack(*values))

    def add(self, sort, part, *values):
        row = LAYOUT[sort].pack(*values)
        if self.right[sort] % TO_A_WRONG_ONE[sort] == 0:
            self.add_changed(sort, part, row)
        self.put(sort, part, row)
        self.right[sort] += 1
        if sort in RUN_AFTER:
            start, end = RUN_AFTER[sort]
            self.run = row[start:end] + self.run[end - start :]

    def written(self):
        for sort in SAID:
            assert self.changed[sort] >= len(bits_said(sort)), NAMES[sort]
        return COUNT.pack(len(self.rows)) + b"".join(self.rows)

    def told(self):
        """What the program has to print: no right row differs, and every wrong one."""
        counts = [(NAMES[sort], self.right[sort], self.wrong[sort]) for sort in SAID]
        return "".join(f"{name} {right} differ 0, wrong {wrong} differ {wrong}\n" for name, right, wrong in counts)
