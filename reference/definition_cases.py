"""The definitions of crates/model against the reference, on random and extreme cases computed by the checker.

For each chapter of the definitions cases are made with a fixed seed: a definition applied to an input, and
what the reference gives for it. They are written as tables whose equality is proved by `refl`, into a copy
of the repository's crates in a temporary folder, and checked there. Then a false table for each table
is checked, made by exchanging two expected values, and of sightings further ones, whose values false rules give;
each has to be refused.

definition_cases.py [--part] [FOLDER] uses FOLDER, which must not exist yet, and keeps it. With --part only a
part of the cases is checked, always the same: of each table whose cases are dear, every third; and all false
tables. Exit status 1 where the checker refuses a table, or accepts a false one.
"""

import math
import random
import re
import shutil
import struct
import subprocess
import sys
import tempfile
import time
from collections import Counter
from fractions import Fraction
from itertools import combinations, cycle
from pathlib import Path
from typing import Callable, NamedTuple

sys.dont_write_bytecode = True

import crest
import random_crests
import random_sightings
import sighting_vectors
from crest import (
    ARC, BLOCK_SIZE, BLOCK_ZEROS, C_AT, EDITION, EDITION_AT, ENTRY, EXIT, FIELDS_AT, FILE_SIZES, FIRST_STEP, FRAME,
    GRAINS, KIND_AT, LAST_NUMBER, LINE, LONGEST_ALIGNMENT, LONGEST_ELEMENT, LONGEST_SIGHT, MOST_BLOCKS, MOST_COUNTED,
    MOST_RECORDS, MOVE_SIZE, ONE, PAST_END, PER_BLOCK, PLACE_UNIT, RADIUS_AT, READING_SIZE, RECORD_LENGTH_AT,
    RECORD_SIZE, RECORDS_END, RESERVED, ROOT_SLACK, RUN_SIZE, STEP_DIVISOR, SUMS_AT, UNIT_SQUARE, USED_AT, WIDEST,
    WIDEST_GAP, WIDEST_KINK, WIDEST_OFFSET, X_AT, Y_AT, Element, Refusal, Sighting, blocks_needed, least_radius,
)  # fmt: skip
from random_crests import FAR, Wish
from random_sightings import (
    GREATEST, LEAST, anywhere, from_inside, no_sight, no_unit, on_the_rim, outside, random_sighting, random_target,
    sight, sighting_of, unit_pair,
)  # fmt: skip

SEED = 20_01
FEWEST = 200  # cases for each chapter
DEAR = 10  # a table with so few cases in a declaration takes long
ROOT = Path(__file__).resolve().parent.parent
CRATE = "model"

# ---------------------------------------------------------------------------
# Numbers, bytes and the model's types as text

KINDS = {LINE: "Line", ARC: "Arc", ENTRY: "EntrySpiral", EXIT: "ExitSpiral"}
SHAPES = {LINE: "Straight", ARC: "Circular", ENTRY: "Clothoid", EXIT: "Clothoid"}
I32 = (-(2**31), -(2**31) + 1, -1, 0, 1, 2**31 - 2, 2**31 - 1)
U16 = 2**16 - 1
MOST_OFFSET = FAR + 424  # grains: at the tight end of a curve an answered offset passes FAR


def whole(n):
    """A number of ℤ as an argument."""
    return f"(pos {n})" if n >= 0 else f"(negsuc {-n - 1})"


def truth(flag):
    return "true" if flag else "false"


def listed(texts):
    return "(" + " ∷ ".join([*texts, "[]"]) + ")"


def naturals(numbers):
    return listed(map(str, numbers))


def spelt(data):
    """Bytes as an argument: their count, and the number that they are the little-endian digits of."""
    return f"(bytes {len(data)} {int.from_bytes(data, 'little'):#x})"


def point_text(point):
    return f"(point {whole(point[0])} {whole(point[1])})"


def element_text(element):
    numbers = " ".join(map(whole, element[2:]))
    return f"(element {KINDS[element.kind]} {element.length} {numbers})"


def elements_text(elements):
    return listed(map(element_text, elements))


def refusal_text(number, place=0):
    return f"(refused {number} {place})"


def outcome_text(refusal):
    return f"Refused {refusal_text(*refusal)}" if refusal else "Done"


def float_text(bits):
    return f"(float {bits:#x})"


def file_crest(file):
    """The crest of a file's bytes, as an argument."""
    return f"(file_crest {spelt(file)})"


def paper_text(number, place, *values):
    """The number, the place and all the values of an answer; a refusal of the reference has zeros for them."""
    return f"(paper {number} {place} {listed(map(whole, values))})"


def asked_paper(question, held):
    """The same by the definitions, of a question put to a crest."""
    return f"asked_paper ({question}) {held}"


# ---------------------------------------------------------------------------
# Tables and chapters


class Case(NamedTuple):
    """What is asked, and what is due: two texts of one type."""

    asked: str
    due: str


class Table(NamedTuple):
    """Cases of one type, the definitions that compute them, and how many go into one declaration."""

    name: str
    type: str
    unfolding: str
    cases: list
    size: int = 50


class Chapter(NamedTuple):
    """A chapter: the names that its tables use, by module, declarations before them, and the tables."""

    number: int
    name: str
    uses: tuple
    tables: list
    before: tuple = ()
    after: tuple = ()  # further declarations, each of one case
    false: tuple = ()  # further false tables, of one case each

    @property
    def module(self):
        return f"Cases{self.name}"

    @property
    def count(self):
        return sum(len(table.cases) for table in self.tables) + len(self.after)


SPECS = "Rattle.model.specs"
FORMS = "CasesForms"

# What every module of cases uses.
FORMS_TEXT = f"""-- How the tables of cases write bytes, elements, points and answers.
use Rattle.std.specs.Prelude.{{ℕ, zero, suc, ◌/◌, ◌%◌, List, [], ◌∷◌, map, ℤ, Float}}
use Rattle.std.specs.Float.{{binary64}}
use Rattle.std.specs.Float.Ieee.{{of_bits}}
use {SPECS}.declared.Kind.{{Kind}}
use {SPECS}.declared.Element.{{Element}}
use {SPECS}.declared.Point.{{Point}}
use {SPECS}.declared.Refusal.{{Refusal}}
use {SPECS}.declared.Run.{{Run}}

-- the left and the right column of a table
abbrev pub asked : {{A : Type 0}} → List (A × A) → List A
asked {{A}} table = map (λ (row : A × A). row.0) table

abbrev pub due : {{A : Type 0}} → List (A × A) → List A
due {{A}} table = map (λ (row : A × A). row.1) table

-- the first k digits of n in base 256, the lowest first
abbrev pub bytes : ℕ → ℕ → List ℕ
bytes zero n = []
bytes (suc k) n = n % 256 ∷ bytes k (n / 256)

abbrev pub point : ℤ → ℤ → Point
point x y = record {{ x = x; y = y }}

abbrev pub element : Kind → ℕ → ℤ → ℤ → ℤ → ℤ → ℤ → Element
element k l x y c s r = record {{ kind = k; length = l; x = x; y = y; c = c; s = s; radius = r }}

abbrev pub refused : ℕ → ℕ → Refusal
refused number place = record {{ number = number; place = place }}

-- in the order of the bytes
abbrev pub run : ℕ → ℕ → ℕ → ℕ → ℕ → ℤ → ℤ → ℤ → Run
run a r l f n i j k =
    record {{ answered = a; refused = r; latest = l; first = f; reading = n; one = i; two = j; three = k }}

abbrev pub float : ℕ → Float
float bits = of_bits binary64 bits
"""

COMMON_USES = (
    "Rattle.std.specs.Prelude.{ℕ, ◌*◌, ◌≡◌, Bool, true, false, List, [], ◌∷◌, ◌++◌, ℤ, pos, negsuc}",
    "Rattle.std.proofs.Common.{refl}",
    "Rattle.model.proofs.CasesForms.{asked, due, bytes, point, element, refused, run, float}",
)
KIND_USES = (
    "declared.Kind.{Kind}",
    "declared.Kind.TheVariants.{Line, Arc, EntrySpiral, ExitSpiral}",
)
SHAPE_USES = ("declared.Shape.{Shape}", "declared.Shape.TheVariants.{Straight, Circular, Clothoid}")
ELEMENT_USES = (*KIND_USES, "declared.Element.{Element}", "declared.Point.{Point}")
OUTCOME_USES = ("declared.Outcome.{Outcome}", "declared.Outcome.TheVariants.{Done, Refused}")
FILE_CREST_USES = ("Acceptance.{crest_rules, crest_elements}", "Crest.{file_crest}")
FILE_CREST = "crest_rules crest_elements"  # what a file's crest is computed by

PAPER_FORM = """-- the paper's number, place and values
abbrev paper : ℕ → ℕ → List ℤ → PaperAnswer
paper n p v = record { number = n; place = p; values = v }
"""


def declarations(table):
    """(name, cases) of each declaration of a table."""
    for start in range(0, len(table.cases), table.size):
        yield f"{table.name}-{start // table.size + 1}", table.cases[start : start + table.size]


def declaration_text(table, name, cases):
    rows = "\n    ∷ ".join([*(f"({case.asked}, {case.due})" for case in cases), "[]"])
    return (
        f"abbrev table-{name} : List (({table.type}) × ({table.type}))\n"
        f"table-{name} =\n    {rows}\n\n"
        f"{name} : asked table-{name} ≡ due table-{name}\n"
        f"unfolding {table.unfolding}\n"
        f"{name} = refl\n"
    )


def module_text(chapter, tables, after=()):
    """A module of some tables of a chapter."""
    own = (use if use.startswith(("Prim.", "Rattle")) else f"{SPECS}.{use}" for use in chapter.uses)
    lines = [f"-- Cases of {chapter.name}, computed.", *(f"use {use}" for use in (*COMMON_USES, *own)), ""]
    lines += chapter.before
    lines += [
        declaration_text(table, name, cases) for table in tables for name, cases in declarations(table)
    ]
    lines += [text for _, text in after]
    return "\n".join(lines)


# ---------------------------------------------------------------------------
# Random pieces


def spread(rng, top):
    """A number from 0 to top, of any size as often as of any other."""
    return min(top, rng.randrange(1 << rng.randint(0, top.bit_length())))


def signed(rng, top):
    return rng.choice((-1, 1)) * spread(rng, top)


def random_bytes(rng, count):
    fill = rng.randrange(4)
    if fill == 0:
        return bytes([rng.choice((0, 255))]) * count
    if fill == 1:
        return bytes(rng.choice((0, 0, 0, 1, 127, 128, 255)) for _ in range(count))
    return rng.randbytes(count)


def records_of(elements):
    return b"".join(map(crest.record_of, elements))


def crest_file(rng, count, **wishes):
    return random_crests.random_file(rng, Wish(count=count, **wishes))


def outcome_of(crest_or_refusal):
    return crest_or_refusal if isinstance(crest_or_refusal, Refusal) else None


# ---------------------------------------------------------------------------
# 1 Rounding


def rounding(rng):
    def near(n, d):
        due = crest.near(n, d)
        assert due == math.floor(Fraction(n, d) + Fraction(1, 2))
        return Case(f"near {whole(n)} {d}", whole(due))

    halves = []
    for d in (2, 4, 6, 2 * ONE, 6 * ONE, 10**20, 2**100):
        for q in (-3, -2, -1, 0, 1, 2, rng.randint(-(10**12), 10**12)):
            halves += [near(q * d + d // 2 + by, d) for by in (-1, 0, 1)]
    small = [near(n, d) for d in range(1, 6) for n in range(-7, 8)]
    large = [near(signed(rng, 2**200), 1 + spread(rng, 2**200)) for _ in range(80)]
    divisors = (ONE, 2 * ONE, 3 * ONE, 14 * ONE, 20, 30, 108, 220)
    usual = [near(signed(rng, 2**90), rng.choice(divisors)) for _ in range(80)]
    tables = [
        Table("near-halves", "ℤ", "near", halves),
        Table("near-small", "ℤ", "near", small),
        Table("near-large", "ℤ", "near", large),
        Table("near-usual", "ℤ", "near", usual),
    ]
    return Chapter(1, "Rounding", ("Rounding.{near}",), tables)


# ---------------------------------------------------------------------------
# 2 Records

# The numbers that the definitions name, by module; the reference has them under the same names.
NAMED_NUMBERS = {
    "Records": """
        block_size record_size per_block records_end most_records fields_at used_at edition_at edition zeros_at zero_count
        sums_at sum_b_at sum_modulus kind_at first_zeros_at first_zero_count record_length_at x_at y_at c_at s_at radius_at last_zeros_at
        last_zero_count""",
    "Acceptance": "longest_element frame widest unit_slack widest_gap widest_kink",
    "Answers": "farthest past_end widest_offset",
    "Sightings": "longest_sight",
    "Run": """
        most_counted run_size answered_at refused_at latest_at first_at first_reading_at one_at two_at three_at""",
    "Calls": "move_size forward_at left_at",
    "Refusals": "last_number",
}


def number_named(name):
    """The reference's number of the definitions' name: WIDEST_GAP of widest_gap."""
    return getattr(crest, name.upper())


def records(rng):
    def field(name, size, value):
        cases = []
        for _ in range(60):
            data = random_bytes(rng, rng.randint(size, 40))
            at = rng.choice((0, len(data) - size, rng.randint(0, len(data) - size)))
            cases.append(Case(f"{name} {spelt(data)} {at}", value(data[at : at + size])))
        return cases

    def unsigned(part):
        return str(int.from_bytes(part, "little"))

    def twos_complement(part):
        return whole(int.from_bytes(part, "little", signed=True))

    blocks = [bytes(BLOCK_SIZE), bytes([255]) * BLOCK_SIZE, bytes([255]) * SUMS_AT + bytes(BLOCK_SIZE - SUMS_AT)]
    blocks += [random_bytes(rng, BLOCK_SIZE) for _ in range(57)]
    for _ in range(20):
        held = rng.randbytes(RECORD_SIZE * rng.randint(1, PER_BLOCK))
        blocks.append(crest.block_made(held, rng.randrange(MOST_BLOCKS)))
    parts, puts = [], []
    for _ in range(40):
        data = rng.randbytes(rng.randint(0, 60))
        at, count = rng.randint(0, 64), rng.randint(0, 64)
        parts.append(Case(f"part {spelt(data)} {at} {count}", spelt(data[at : at + count])))
        after, fields = data, []
        for _ in range(rng.randint(0, 3)):
            at, new = rng.randint(0, len(data)), rng.randbytes(rng.choice((0, 1, 2, 4)))
            after = after[:at] + new + after[at + len(new) :]
            fields.append(f"field {at} {spelt(new)}")
        puts.append(Case(f"put_all {spelt(data)} {listed(fields)}", spelt(after)))
    zeros = []
    for _ in range(30):
        data = bytearray(rng.randint(0, 40))
        if data and rng.randrange(2):
            data[rng.choice((0, len(data) - 1, rng.randrange(len(data))))] = rng.randint(1, 255)
        zeros.append(Case(f"all_zero {spelt(data)}", truth(not any(data))))
    used = []
    for number in range(32):
        count = number % MOST_BLOCKS + 1
        file = b""
        for _ in range(count):
            data = rng.randbytes(BLOCK_SIZE)
            used_here = rng.choice((0, 1, PER_BLOCK - 1, PER_BLOCK, rng.randint(0, PER_BLOCK)))
            file += data[:USED_AT] + struct.pack("<H", used_here) + data[USED_AT + 2 :]
        used.append(Case(f"record_bytes {spelt(file)}", spelt(crest.used_records(crest.blocks_of(file)))))
    file, _ = crest_file(rng, MOST_RECORDS)
    starts = [Case(f"record_start {r}", str(crest.read_record(file, r).start)) for r in range(MOST_RECORDS)]
    u16s = [0, 1, 255, 256, 65_280, U16, *(spread(rng, U16) for _ in range(34))]
    u32s = [0, 1, 255, 256, 65_536, 2**31 - 1, 2**31, 2**32 - 1, *(spread(rng, 2**32 - 1) for _ in range(52))]
    i32s = [*I32, -(2**24), -65_536, -256, -255, 255, 256, *(signed(rng, 2**31 - 1) for _ in range(40))]
    u16_out = [Case(f"u16_bytes {n}", naturals(struct.pack("<H", n))) for n in u16s]
    u32_out = [Case(f"u32_bytes {n}", naturals(struct.pack("<I", n))) for n in u32s]
    i32_out = [Case(f"i32_bytes {whole(n)}", naturals(struct.pack("<i", n))) for n in i32s]
    sizes = 0, 1, 2, 3, RUN_SIZE, RECORD_SIZE, RECORD_SIZE + 1, BLOCK_SIZE
    plain = [random_bytes(rng, count) for count in sizes]
    named = [Case(name, str(number_named(name))) for names in NAMED_NUMBERS.values() for name in names.split()]
    tables = [
        Table("bytes-spelt", "List ℕ", "part", [Case(spelt(data), naturals(data)) for data in plain]),
        Table("u16-read", "ℕ", "part", field("u16_at", 2, unsigned)),
        Table("u32-read", "ℕ", "part", field("u32_at", 4, unsigned)),
        Table("i32-read", "ℤ", "part", field("i32_at", 4, twos_complement)),
        Table("u16-written", "List ℕ", "part", u16_out),
        Table("u32-written", "List ℕ", "part", u32_out),
        Table("i32-written", "List ℕ", "part", i32_out),
        Table("parts", "List ℕ", "part", parts),
        Table("zeros", "Bool", "all_zero", zeros),
        Table("puts", "List ℕ", "put_all", puts),
        Table("sums-A", "ℕ", "sum_a", [Case(f"sum_a {spelt(b)}", str(crest.sums(b)[0])) for b in blocks], 20),
        Table("sums-B", "ℕ", "sum_b", [Case(f"sum_b {spelt(b)}", str(crest.sums(b)[1])) for b in blocks], 20),
        Table("record-bytes", "List ℕ", "record_bytes", used, 4),
        Table("record-starts", "ℕ", "part", starts),
        Table("named-numbers", "ℕ", "part", named),
    ]
    fields = "u16_at, u32_at, i32_at, u16_bytes, u32_bytes, i32_bytes, part, field, put_all"
    uses = (
        f"Records.{{{fields}, all_zero, sum_a, sum_b, record_bytes, record_start}}",
        *(f"{module}.{{{', '.join(names.split())}}}" for module, names in NAMED_NUMBERS.items()),
    )
    return Chapter(2, "Records", uses, tables)


# ---------------------------------------------------------------------------
# 3 Acceptance


def changed(file, at, data):
    """The file with other bytes at a place, and right sums again in that block."""
    file = bytearray(file)
    file[at : at + len(data)] = data
    start = at // BLOCK_SIZE * BLOCK_SIZE
    file[start : start + BLOCK_SIZE] = crest.with_sums(file[start : start + BLOCK_SIZE])
    return bytes(file)


def record_at(file, record):
    part = crest.record_start(record)
    return part, crest.element_of(file[part : part + RECORD_SIZE])


def record_count(file):
    return sum(map(crest.used_in, crest.blocks_of(file)))


def some_record(rng, file):
    return rng.choice((0, record_count(file) - 1, rng.randrange(record_count(file))))


def some_block(rng, file):
    return rng.randrange(len(file) // BLOCK_SIZE)


def wrong_length(rng, file):
    beside = [size + by for size in FILE_SIZES for by in (-1, 1)]
    wrong = 0, 1, RECORD_SIZE, 256, SUMS_AT, *beside[:2], 767, *beside[2:], FILE_SIZES[-1] + BLOCK_SIZE
    return (file * 5)[: rng.choice(wrong)]


def wrong_sum(rng, file):
    """One byte, two bytes that keep A, two bytes that keep B, or a stored sum."""
    file = bytearray(file)
    start = BLOCK_SIZE * some_block(rng, file)
    block = file[start : start + BLOCK_SIZE]
    choice = rng.randrange(5)
    if choice == 0:
        at = rng.randrange(SUMS_AT)
        block[at] = (block[at] + rng.randint(1, 255)) % 256
    elif choice == 1:
        at = rng.choice([i for i in range(SUMS_AT - 1) if block[i] < 255 and block[i + 1] != block[i] + 1])
        block[at], block[at + 1] = block[at + 1], block[at]
        if block[at] == block[at + 1]:
            block[at], block[at + 1] = block[at] + 1, (block[at + 1] - 1) % 256
    elif choice == 2:  # weights 2n and n: one down, two up
        end = SUMS_AT
        free = [i for i in range(0, end - 2, 2) if block[i] > 0 and block[end - (end - i) // 2] < 254]
        at = rng.choice(free)
        block[at] -= 1
        block[end - (end - at) // 2] += 2
    else:
        at = rng.choice(range(SUMS_AT, BLOCK_SIZE))
        block[at] ^= 1 << rng.randrange(8)
    file[start : start + BLOCK_SIZE] = block
    return bytes(file)


def wrong_field(rng, file):
    number = some_block(rng, file)
    start = BLOCK_SIZE * number
    last = start + BLOCK_SIZE == len(file)
    used = crest.u16_at(file, start + USED_AT)
    choice = rng.randrange(6)
    if choice == 0:
        return changed(file, start + FIELDS_AT, struct.pack("<H", rng.choice((number + 1, number + 256, U16))))
    if choice == 1:
        wrong = (0, PER_BLOCK + 1, 256, U16) if last else (0, 1, PER_BLOCK - 1, PER_BLOCK + 1)
        return changed(file, start + USED_AT, struct.pack("<H", rng.choice(wrong)))
    if choice == 2:
        wrong = 0, EDITION + 1, EDITION + 256, EDITION + 2**24, 2**32 - 1
        return changed(file, start + EDITION_AT, struct.pack("<I", rng.choice(wrong)))
    if choice == 3 and used < PER_BLOCK:
        return changed(file, start + rng.choice((RECORD_SIZE * used, RECORDS_END - 1)), b"\x01")
    if choice == 4 and used > 1 and last:  # a use count one too small
        return changed(file, start + USED_AT, struct.pack("<H", used - 1))
    zero = rng.choice((BLOCK_ZEROS[0], BLOCK_ZEROS[-1], rng.choice(BLOCK_ZEROS)))
    return changed(file, start + zero, bytes([rng.randint(1, 255)]))


def damaged_record(rng, file):
    at, _ = record_at(file, some_record(rng, file))
    if rng.randrange(2):
        return changed(file, at + KIND_AT, bytes([rng.choice((0, 16, 17, 128, 255, rng.randint(16, 255)))]))
    return changed(file, at + rng.choice(RESERVED), bytes([rng.randint(1, 255)]))


def later_kind(rng, file):
    at, _ = record_at(file, some_record(rng, file))
    return changed(file, at + KIND_AT, bytes([rng.randint(5, 15)]))


def out_of_range(rng, file):
    at, element = record_at(file, some_record(rng, file))
    choice = rng.randrange(4)
    if choice == 0:
        wrong = 0, LONGEST_ELEMENT + 1, 2**31, 2**32 - 1
        return changed(file, at + RECORD_LENGTH_AT, struct.pack("<I", rng.choice(wrong)))
    if choice == 1:
        far = rng.choice((-1, 1)) * rng.choice((FRAME + 1, 2**31 - 1))
        return changed(file, at + rng.choice((X_AT, Y_AT)), struct.pack("<i", far))
    if choice == 2:
        return changed(file, at + rng.choice((X_AT, Y_AT)), struct.pack("<i", -(2**31)))
    least = least_radius(element.kind, element.length)
    size = 1 if element.kind == LINE else rng.choice((0, least - 1, WIDEST + 1, 2**31 - 1))
    return changed(file, at + RADIUS_AT, struct.pack("<i", rng.choice((-size, size))))


def not_unit(rng, file):
    at, element = record_at(file, some_record(rng, file))
    _, above, _, below = UNIT_LIMITS
    slip = element.c, element.s ^ 4096
    pair = rng.choice((above, below, (0, 0), (ONE, ONE), (2**31 - 1, -(2**31)), slip))
    return changed(file, at + C_AT, struct.pack("<ii", *pair))


def moved_join(rng, file):
    record = rng.randrange(max(1, record_count(file) - 1))
    at, element = record_at(file, record)
    limits = WIDEST_GAP, WIDEST_GAP + 1, WIDEST_GAP + 2, 2 * WIDEST_GAP + 1
    by = rng.choice((-1, 1)) * rng.choice((*limits, 100_000))
    field, n = rng.choice(((X_AT, element.x), (Y_AT, element.y)))
    return changed(file, at + field, struct.pack("<i", max(-(2**31), min(2**31 - 1, n + by))))


def bent_join(rng, file):
    """A record that starts where the one before it ends, turned by about the limit or by more; mostly the last."""
    count = record_count(file)
    record = rng.choice((count - 1, count - 1, rng.randrange(count)))
    at, element = record_at(file, record)
    limits = WIDEST_KINK - 1_000, WIDEST_KINK + 1_000, 3 * WIDEST_KINK, 10 * WIDEST_KINK
    by = rng.choice((-1, 1)) * rng.choice(limits)
    c, s = random_crests.unit(element.c - element.s * by // ONE, element.s + element.c * by // ONE)
    bent = element._replace(c=c, s=s)
    if record > 0:
        _, earlier = record_at(file, record - 1)
        bent = random_crests.anchored(bent, crest.position(earlier, earlier.length))
    return changed(file, at, crest.record_of(bent)) if random_crests.fits_record(bent) else file


DAMAGES = (
    wrong_length,
    wrong_sum,
    wrong_field,
    damaged_record,
    later_kind,
    out_of_range,
    not_unit,
    moved_join,
    bent_join,
)
UNIT_LIMITS = random_crests.unit_limit_pairs()


def limit_records():
    """Files of one record, with one of its numbers on a limit or one beyond."""
    elements = []
    for kind, least in ((LINE, 0), (ARC, 2), (ENTRY, 1), (EXIT, 1)):
        base = Element(kind, 1_000, 0, 0, ONE, 0, 5_000_000 if least else 0)
        elements += [base._replace(length=length) for length in (0, 1, LONGEST_ELEMENT, LONGEST_ELEMENT + 1)]
        sizes = (least * 1_000, least * 1_000 - 1, WIDEST, WIDEST + 1) if least else (0, 1)
        elements += [base._replace(radius=sign * size) for size in sizes for sign in (-1, 1)]
        for n in (FRAME, FRAME + 1, -FRAME, -FRAME - 1):
            elements += [base._replace(x=n), base._replace(y=n)]
        elements += [base._replace(c=sign * c, s=s) for c, s in UNIT_LIMITS for sign in (-1, 1)]
    return [crest.file_made(crest.record_of(element)) for element in elements]


def limit_joins(rng, count):
    """Two lines whose gap and kink lie on their limits, or one beyond."""
    files = []
    for _ in range(count):
        gap, more = WIDEST_GAP, WIDEST_GAP + 1
        x, y = (rng.choice((0, gap, -gap, rng.choice((-more, more)))) for _ in range(2))
        bend = rng.choice((0, 1, -1)) * rng.choice((WIDEST_KINK, WIDEST_KINK, WIDEST_KINK + 1))
        length = rng.randint(1, LONGEST_ELEMENT)
        first = Element(LINE, length, 0, 0, ONE, 0, 0)
        second = Element(LINE, length, GRAINS * length + x, y, math.isqrt(UNIT_SQUARE - bend**2), bend, 0)
        files.append(crest.file_made(records_of((first, second))))
    return files


def damaged_files(rng, each):
    """Files with one damage, `each` of each sort, and as many again with two."""
    files = []
    for damage in DAMAGES:
        for number in range(each):
            # the last two of each sort lie in more than one block
            large = PER_BLOCK + 1, PER_BLOCK + 2, 2 * PER_BLOCK + 1, 3 * PER_BLOCK + 1
            count = rng.randint(2, 4) if number < each - 2 else rng.choice(large)
            file, _ = crest_file(rng, count, at_limit=5)
            files.append(damage(rng, file))
    for _ in range(each * 5):
        file, _ = crest_file(rng, rng.choice((2, 3, 4, 2, 3, 4, PER_BLOCK + 1)), at_limit=5)
        first, second = sorted(rng.choices(range(1, len(DAMAGES)), k=2), reverse=True)
        # the sums are the last to be spoiled
        files.append(DAMAGES[second](rng, DAMAGES[first](rng, file)))
    return files


def acceptance(rng):
    one, two, three = PER_BLOCK, 2 * PER_BLOCK, 3 * PER_BLOCK
    counts = [1] * 20 + [2] * 20 + [3] * 20 + [4, 5, 6, one - 1, one, one, one + 1]
    counts += [two - 1, two, two + 1, three, three + 1, MOST_RECORDS - 1, MOST_RECORDS]
    accepted = []
    for count in counts:
        longest = rng.choice((3, 500, 50_000)) if count > 6 else rng.choice((1, 60, 5_000, LONGEST_ELEMENT))
        accepted.append(crest_file(rng, count, longest=longest))
    damaged = damaged_files(rng, 16) + limit_records() + limit_joins(rng, 60)
    verdicts = [outcome_of(crest.check(file)) for file in damaged]
    for number in range(1, 10):
        given = sum(bool(verdict) and verdict.number == number for verdict in verdicts)
        assert given >= 12, (number, given)
    # the small files apart from the large ones, so that no declaration grows too large
    small, large = [], []
    for file, verdict in [*((file, None) for file, _ in accepted), *zip(damaged, verdicts)]:
        case = Case(f"check_of {file_crest(file)}", outcome_text(verdict))
        (small if len(file) <= BLOCK_SIZE else large).append(case)
    elements = [Case(f"crest_elements {spelt(file)}", elements_text(found.elements)) for file, found in accepted]
    kinds = []
    for byte in range(256):
        fault = crest.kind_fault(byte)
        kinds.append(Case(f"decide {byte}", {0: f"Known {KINDS.get(byte)}", 4: "Damaged", 5: "Later"}[fault]))
    made = [element for _, found in accepted[::3] for element in found.elements[:2]]
    records = [Case(f"element_bytes {element_text(element)}", spelt(crest.record_of(element))) for element in made]
    asked = [(file, 0) for file in damaged[::16]]
    for file, found in accepted[17:23] + accepted[45:48] + accepted[-3:-2]:
        count = len(found.elements)
        asked += [(file, record) for record in (0, count - 1, count, count + 1, 2**32 - 1)]
    outcomes, spans, parts = [], [], []
    for file, record in asked:
        number, place, start, end = crest.read_record(file, record)
        due = outcome_text(Refusal(number, place) if number else None)
        outcomes.append(Case(f"reader_outcome {spelt(file)} {record}", due))
        span = f"record {{ start = {start}; count = {end - start} }}"
        spans.append(Case(f"reader_span {spelt(file)} {record}", span))
        parts.append(Case(f"reader_part {spelt(file)} {record}", spelt(file[start:end])))
    tables = [
        Table("kinds", "KindByte", "decide", kinds, 64),
        Table("files", "Outcome", f"verdict {FILE_CREST}", small, 10),
        Table("large-files", "Outcome", f"verdict {FILE_CREST}", large, 2),
        Table("elements", "List Element", "crest_elements", elements, 8),
        Table("records", "List ℕ", "element_bytes", records),
        Table("reader", "Outcome", "reader_outcome", outcomes[::2], 8),
        Table("reader-spans", "Span", "reader_span", spans[1::2], 8),
        Table("reader-parts", "List ℕ", "reader_part", parts, 8),
    ]
    uses = (
        *ELEMENT_USES,
        *OUTCOME_USES,
        "declared.KindByte.{KindByte}",
        "declared.KindByte.TheVariants.{Damaged, Known, Later}",
        "Kinds.{decide}",
        "Acceptance.{element_bytes}",
        *FILE_CREST_USES,
        "Refusals.{verdict}",
        "Crest.{check_of}",
        "Answers.{Span, reader_outcome, reader_span, reader_part}",
    )
    return Chapter(3, "Acceptance", uses, tables)


# ---------------------------------------------------------------------------
# 4 Writer


def writer(rng):
    asked = []
    for _ in range(60):
        count = rng.choice((1, 1, 2, 2, 3, 4, 5))
        good = records_of(random_crests.random_elements(rng, Wish(count=count)))
        rooms = 0, 1, BLOCK_SIZE - 1, BLOCK_SIZE, BLOCK_SIZE + 1, BLOCK_SIZE + 88, 2 * BLOCK_SIZE
        asked += [(good, room) for room in rng.sample(rooms, 2)]
    for count in (PER_BLOCK, PER_BLOCK + 1, 2 * PER_BLOCK, 2 * PER_BLOCK + 1, 3 * PER_BLOCK, MOST_RECORDS):
        good = records_of(random_crests.random_elements(rng, Wish(count=count)))
        needed = BLOCK_SIZE * blocks_needed(count)
        asked += [(good, room) for room in (needed - 1, needed, needed + rng.randint(1, 90))]
    size, most = RECORD_SIZE, MOST_RECORDS * RECORD_SIZE
    for length in (0, 1, size - 1, size + 1, 2 * size - 1, 2 * size + 1, 100, most + size, most + 1, most + 2 * size):
        asked += [(random_bytes(rng, length), room) for room in (0, BLOCK_SIZE)]
    few = 5 * size  # the larger ones are in tables of their own
    for file in damaged_files(rng, 7):  # 4 to 9, with and without room
        bad = crest.used_records(crest.blocks_of(file)[:1])
        if 0 < len(bad) <= few and len(bad) % size == 0:
            asked.append((bad, rng.choice((0, BLOCK_SIZE - 1, BLOCK_SIZE, BLOCK_SIZE, 700))))
    outcomes, rooms, calls, files = [], [], [], []
    for data, length in asked:
        room = random_bytes(rng, length)
        refusal, after = crest.write(data, room)
        outcomes.append((len(data), Case(f"writer_outcome {spelt(data)} {length}", outcome_text(refusal))))
        rooms.append((len(data), Case(f"written {spelt(data)} {spelt(room)}", spelt(after))))
        value = crest.c_value(*refusal) if refusal else 0
        calls.append((len(data), Case(f"write_call {spelt(data)} {spelt(room)}", f"({value}, {spelt(after)})")))
        if not refusal:
            needed = BLOCK_SIZE * blocks_needed(len(data) // size)
            files.append((len(data), Case(f"file_of {spelt(data)}", spelt(after[:needed]))))
    numbers = {int(case.due.split()[2]) for _, case in outcomes if case.due != "Done"}
    assert numbers == {4, 5, 6, 7, 8, 9, 17, 18}, numbers

    def split(name, kind, unfolding, sized, size):
        """The few large ones apart."""
        small = [case for length, case in sized if length <= few]
        large = [case for length, case in sized if length > few]
        return [Table(name, kind, unfolding, small, size), Table(f"large-{name}", kind, unfolding, large, 2)]

    tables = [
        *split("outcomes", "Outcome", "writer_outcome", outcomes, 15),
        *split("rooms", "List ℕ", "written", rooms, 10),
        *split("files", "List ℕ", "file_of", files, 10),
        *split("calls", "ℕ × List ℕ", "write_call", rng.sample(calls, 40), 5),
    ]
    uses = (*OUTCOME_USES, "Writer.{writer_outcome, written, file_of}", "Calls.{write_call}")
    return Chapter(4, "Writer", uses, tables)


# ---------------------------------------------------------------------------
# 5 Series


def sample_elements(rng, count):
    """Elements of every kind, sign, extreme and random lengths and radii, not joined to anything."""
    elements = []
    longest = LONGEST_ELEMENT
    lengths = (1, 2, 3, 999, 250_000, longest - 1, longest)
    for number in range(count):
        kind = (LINE, ARC, ENTRY, EXIT)[number % 4]
        length = rng.choice((rng.choice(lengths), rng.randint(1, longest), 1 + spread(rng, longest - 1)))
        least = least_radius(kind, length)
        size = rng.choice((least, least, WIDEST, min(WIDEST, least + spread(rng, WIDEST))))
        radius = 0 if kind == LINE else rng.choice((-1, 1)) * size
        corner = rng.choice((-1, 1)) * FRAME, rng.choice((-1, 1)) * FRAME
        x, y = rng.choice((corner, (0, 0), (signed(rng, FRAME), signed(rng, FRAME))))
        c, s = rng.choice((*(random_crests.random_unit(rng) for _ in range(3)), UNIT_LIMITS[0], UNIT_LIMITS[2]))
        element = Element(kind, length, x, y, c, s, radius)
        assert crest.record_fault(crest.record_of(element)) == 0
        elements.append(element)
    return elements


def places_on(rng, element):
    """0, L, and some between."""
    length = element.length
    return sorted({0, length, length // 2, rng.randint(0, length), spread(rng, length)})


def local_text(pair):
    return f"record {{ along = {whole(pair[0])}; aside = {whole(pair[1])} }}"


def series(rng):
    positions, tangents, lengths, angles, unsigned, locals_, directions = [], [], [], [], [], [], []
    for element in sample_elements(rng, 80):
        text = element_text(element)
        for s in places_on(rng, element):
            u, v = crest.own_position(element, s)
            lengths.append(Case(f"length_at {text} {s}", str(crest.distance_from_anchor(element, s))))
            unsigned.append(Case(f"unsigned_at {text} {s}", local_text((-u if element.kind == EXIT else u, v))))
            positions.append(Case(f"position_on {text} {s}", point_text(crest.position(element, s))))
            tangents.append(Case(f"tangent_on {text} {s}", point_text(crest.direction(element, s))))
            turned = 0 if element.kind == LINE else crest.turned(element, s)
            angles.append(Case(f"angle_at {text} {s}", whole(turned)))
            locals_.append(Case(f"local_at {text} {s}", local_text((u, v))))
            directions.append(Case(f"direction_at {text} {s}", local_text(crest.own_direction(element, s))))
    tables = [
        Table("positions", "Point", "position_on", positions),
        Table("tangents", "Point", "tangent_on", tangents),
        Table("lengths", "ℕ", "length_at", lengths[::4]),
        Table("angles", "ℤ", "angle_at", angles[::2]),
        Table("unsigned", "Local", "unsigned_at", unsigned[::4]),
        Table("locals", "Local", "local_at", locals_[::2]),
        Table("directions", "Local", "direction_at", directions[::2]),
    ]
    uses = (*ELEMENT_USES, "Series.{Local, position_on, tangent_on, length_at, angle_at, unsigned_at, local_at, direction_at}")
    return Chapter(5, "Series", uses, tables)


# ---------------------------------------------------------------------------
# 6 Bound


BOUND_UNFOLDING = "exact_along exact_aside turn_of one"


def turn_of(element, l):
    """φ or τ."""
    if element.kind == LINE:
        return Fraction(0)
    if element.kind == ARC:
        return Fraction(l, element.radius)
    return Fraction(l * l, 2 * element.radius * element.length)


def exact(element, l):
    """The three-term sums of document 01's bound as fractions: (u or U, v or V)."""
    turn = turn_of(element, l)
    if element.kind == LINE:
        return Fraction(GRAINS * l), Fraction(0)
    if element.kind == ARC:
        return (
            GRAINS * l * (1 - turn**2 / 6 + turn**4 / 120),
            GRAINS // 2 * l * turn * (1 - turn**2 / 12 + turn**4 / 360),
        )
    return (
        GRAINS * l * (1 - turn**2 / 10 + turn**4 / 216),
        GRAINS * l * turn * (1 - turn**2 / 14 + turn**4 / 440) / 3,
    )


def same_fraction(text, value):
    """A fraction of the definitions is the reduced one given."""
    return Case(
        f"{text}.numerator *ℤ pos {value.denominator}",
        f"{whole(value.numerator)} *ℤ pos {text}.denominator",
    )


def single_statements(name, statements, proof):
    """A declaration for each statement, with one proof for all."""
    for number, statement in enumerate(statements, 1):
        full = f"{name}-{number}"
        line = f"unfolding Within2 unsigned_at exact_along_at exact_aside_at {BOUND_UNFOLDING}"
        yield full, f"{full} : {statement}\n{line}\n{full} = {proof}\n"


def bound(rng):
    """Equal fractions by cross products, and the bound of 2 grains on both sides of its limit."""
    turns, sums, positive, tests, bounded, beyond = [], [], [], [], [], []
    for number, element in enumerate(sample_elements(rng, 72)):
        for s in places_on(rng, element):
            l = crest.distance_from_anchor(element, s)
            u, v = crest.own_position(element, s)
            u = -u if element.kind == EXIT else u
            shape = SHAPES[element.kind]
            turn = f"(turn_of {shape} {whole(element.radius)} {element.length} {l})"
            turns.append(same_fraction(turn, turn_of(element, l)))
            for name, value, found in zip(("exact_along", "exact_aside"), exact(element, l), (u, v)):
                text = f"({name} {shape} {l} {turn})"
                sums.append(same_fraction(text, value))
                positive.append(Case(f"ltb 0 {text}.denominator", "true"))
                low, high = math.ceil(value - 2), math.floor(value + 2)
                assert low <= found <= high
                for grains in {found, rng.choice((low, high)), rng.choice((low - 1, high + 1))}:
                    apart = f"nat_abs (pos {text}.denominator *ℤ {whole(grains)} -ℤ {text}.numerator)"
                    tests.append(Case(f"leb ({apart}) (2 * {text}.denominator)", truth(low <= grains <= high)))
                if s == element.length // 2 and number < 24:
                    beyond.append(f"Within2 {whole(rng.choice((low - 1, high + 1)))} {text} → ⊥")
            bounded.append(f"Bounded {element_text(element)} {s}")
    holds = "record { along = leb→le _ _ tt; aside = leb→le _ _ tt }"
    after = [
        *single_statements("bounded", rng.sample(bounded, 60), holds),
        *single_statements("beyond", beyond, "λ within. le→leb _ _ within"),
    ]
    tables = [
        Table("turns", "ℤ", BOUND_UNFOLDING, rng.sample(turns, 100)),
        Table("sums", "ℤ", BOUND_UNFOLDING, rng.sample(sums, 300)),
        Table("denominators", "Bool", BOUND_UNFOLDING, rng.sample(positive, 100)),
        Table("within-2", "Bool", BOUND_UNFOLDING, rng.sample(tests, 300)),
    ]
    uses = (
        *ELEMENT_USES,
        "Rattle.std.specs.Prelude.{nat_abs, ◌*ℤ◌, ◌-ℤ◌, leb, ltb}",
        "Rattle.std.proofs.Common.{leb→le, le→leb}",
        "Rattle.std.proofs.Math.IntN.{one}",
        *SHAPE_USES,
        "Series.{turn_of, unsigned_at}",
        "Bound.{Within2, Bounded, exact_along, exact_aside, exact_along_at, exact_aside_at}",
    )
    return Chapter(6, "Bound", uses, tables, after=tuple(after))


# ---------------------------------------------------------------------------
# 7 to 10: alignments, each named once in its module


class Named(NamedTuple):
    """An alignment under a name, one for each element and one for the list."""

    name: str
    alignment: crest.Alignment

    def element(self, number):
        return f"{self.name}-{number}"

    @property
    def text(self):
        lines = []
        for number, element in enumerate(self.alignment.elements):
            name = self.element(number)
            lines.append(f"abbrev {name} : Element\n{name} = {element_text(element)[1:-1]}\n")
        names = listed(map(self.element, range(len(self.alignment.elements))))[1:-1]
        lines.append(f"abbrev {self.name} : List Element\n{self.name} = {names}\n")
        return "\n".join(lines)


def named_alignments(rng, wishes):
    return [
        Named(f"crest-{number}", crest.Alignment(random_crests.random_elements(rng, wish)))
        for number, wish in enumerate(wishes, 1)
    ]


def shown(named):
    return tuple(alignment.text for alignment in named)


def stations_of(rng, alignment):
    """0, T, every join with its neighbours, some others."""
    found = {0, alignment.total, *(rng.randint(0, alignment.total) for _ in range(3))}
    for start in alignment.starts:
        found |= {start - 1, start, start + 1}
    return sorted(s for s in found if 0 <= s <= alignment.total)


def stations(rng):
    wishes = [Wish(count=count) for count in (1, 1, 2, 3, 4, 5, 8)]
    sizes = ((3, LONGEST_ELEMENT), (5, 1), (MOST_RECORDS, 40), (12, 100_000))
    wishes += [Wish(count=count, longest=longest) for count, longest in sizes]
    elements, numbers, positions, tangents, distances, totals, allowed = [], [], [], [], [], [], []
    named = named_alignments(rng, wishes)
    for one in named:
        alignment = one.alignment
        totals.append(Case(f"total {one.name}", str(alignment.total)))
        for s in (-(2**40), -1, 0, 1, alignment.total - 1, alignment.total, alignment.total + 1):
            allowed.append(Case(f"is_station {one.name} {whole(s)}", truth(0 <= s <= alignment.total)))
        tested = stations_of(rng, alignment)
        for s in tested:
            number, _ = crest.element_at(alignment, s)
            numbers.append(Case(f"(at_station {one.name} {s}).number", str(number)))
        for s in rng.sample(tested, min(30, len(tested))):
            number, along = crest.element_at(alignment, s)
            due = f"record {{ number = {number}; element = {one.element(number)}; s = {along} }}"
            elements.append(Case(f"at_station {one.name} {s}", due))
            positions.append(Case(f"position_at {one.name} {s}", point_text(crest.position_at(alignment, s))))
            tangents.append(Case(f"tangent_at {one.name} {s}", point_text(crest.direction_at(alignment, s))))
            p = random_crests.random_point(rng, alignment)
            d = crest.squared_distance(alignment, p, s)
            distances.append(Case(f"D {one.name} {point_text(p)} {s}", str(d)))
    tables = [
        Table("totals", "ℕ", "total", totals),
        Table("allowed", "Bool", "is_station", allowed),
        Table("elements", "AtElement", "at_station", elements),
        Table("element-numbers", "ℕ", "at_station", numbers),
        Table("positions", "Point", "position_at", positions),
        Table("tangents", "Point", "tangent_at", tangents),
        Table("distances", "ℕ", "D", distances),
    ]
    uses = (*ELEMENT_USES, "Stations.{AtElement, total, is_station, at_station, position_at, tangent_at, D}")
    return Chapter(7, "Stations", uses, tables, shown(named))


def located_text(answer):
    if answer.number:
        return f"LocatedRefused {refusal_text(answer.number, answer.place)}"
    return f"LocatedAt {answer.station} {whole(answer.offset)} {whole(answer.residual)} {answer.count}"


LOCATED_USES = (
    "declared.Located.{Located}",
    "declared.Located.TheVariants.{At as LocatedAt, Refused as LocatedRefused}",
)


def short_wish(rng, longest=60):
    """An alignment of at most that many mm."""
    count = rng.choice((1, 1, 2, 3, 4))
    return Wish(count=count, longest=longest // count)


def points_for(rng, alignment, count):
    """Points of every sort, some outside the frame."""
    points = [random_crests.random_point(rng, alignment) for _ in range(count)]
    if rng.randrange(3) == 0:
        points[0] = rng.choice(((FRAME + 1, 0), (0, -FRAME - 1), (-(2**40), 2**40), (FRAME, FRAME + 1)))
    return points


STRAIGHT = Named("straight", crest.Alignment([Element(LINE, 40, 0, 0, ONE, 0, 0)]))
END = 40 * GRAINS
PAST = PAST_END - 1, PAST_END, PAST_END + 1
# Points beside STRAIGHT on the limits of 11 to 14, or one beyond.
LIMIT_POINTS = [
    *((x, sign * y) for x in (0, 1_700, 1_701, 1_750, END) for y in (FAR, FAR + 1) for sign in (-1, 1)),
    *((x, y) for x in (*(-past for past in PAST), *(END + past for past in PAST)) for y in (0, 7, -3_000)),
    *((x, y) for x in (FRAME, FRAME + 1, -FRAME, -FRAME - 1) for y in (0, FRAME, FRAME + 1)),
]


def judged(rng):
    stations_, residuals, offsets, answers, file_answers = [], [], [], [], []
    named = [STRAIGHT, *named_alignments(rng, [short_wish(rng) for _ in range(45)])]
    seen = set()
    for one in named:
        alignment = one.alignment
        for p in LIMIT_POINTS if one is STRAIGHT else points_for(rng, alignment, 5):
            s = crest.station_judged(alignment, p)
            stations_.append(Case(f"judged {one.name} {point_text(p)}", str(s)))
            at = rng.choice((s, s, random_crests.random_station(rng, alignment)))
            residual, offset = crest.residual_and_offset(alignment, p, at)
            residuals.append(Case(f"residual_at {one.name} {point_text(p)} {at}", whole(residual)))
            offsets.append(Case(f"offset_at {one.name} {point_text(p)} {at}", whole(offset)))
            answer = crest.plane_answer(alignment, *p)
            assert answer.number or answer.station == s
            seen.add(answer.number)
            answers.append(Case(f"located_on {one.name} {point_text(p)}", located_text(answer)))
    assert seen == {0, 11, 12, 13, 14}, seen
    for _ in range(20):
        file, alignment = random_crests.random_file(rng, short_wish(rng, 30))
        if rng.randrange(3) == 0:
            file = rng.choice(DAMAGES)(rng, file)
        (p,) = points_for(rng, alignment, 1)
        answer = crest.station_and_offset(file, *p)
        file_answers.append(Case(f"located {file_crest(file)} {point_text(p)}", located_text(answer)))
    tables = [
        Table("stations", "ℕ", "judged", stations_, 20),
        Table("residuals", "ℤ", "residual_at", residuals),
        Table("offsets", "ℤ", "offset_at", offsets),
        Table("answers", "Located", "answer_after point_question", answers, 10),
        Table("file-answers", "Located", f"answer_after point_question {FILE_CREST}", file_answers, 4),
    ]
    uses = (
        *ELEMENT_USES,
        *LOCATED_USES,
        *FILE_CREST_USES,
        "Judged.{judged, residual_at, offset_at}",
        "Answers.{answer_after, point_question, located_on, located}",
    )
    return Chapter(8, "Judged", uses, tables, shown(named))


# ---------------------------------------------------------------------------
# 9 Walk


def walk(rng):
    step = FIRST_STEP
    totals = [1, 2, 3, step - 1, step, step + 1, 2 * step - 1, 2 * step, 60 * step]
    totals += [spread(rng, 40_000) + 1 for _ in range(41)]
    first = [Case(f"first_visits {t}", naturals(crest.first_visits(t))) for t in totals]
    roots, skips = [], []
    for _ in range(50):
        n = spread(rng, 10**18)
        root = math.isqrt(n)
        n = rng.choice((n, root * root, max(0, root * root - 1), root * root + 2 * root))
        roots.append(Case(f"root {n}", str(math.isqrt(n))))
        best = spread(rng, crest.FARTHEST)
        slack, one = ROOT_SLACK, ROOT_SLACK + STEP_DIVISOR
        limits = slack - 2, slack - 1, slack, slack + 1, one - 1, one, one + 1
        further = math.isqrt(best) + rng.choice((0, *limits, spread(rng, 10**8)))
        d = further**2 + rng.randint(0, 2 * further)
        skips.append(Case(f"skipped {d} {best}", str(crest.skipped(d, best))))
    second, counts, both = [], [], []
    wishes = [short_wish(rng, 120) for _ in range(24)]
    longest = 500, 5_000, 30_000, LONGEST_ELEMENT
    wishes += [Wish(count=rng.randint(1, 4), longest=rng.choice(longest)) for _ in range(40)]
    wishes += [Wish(count=MOST_RECORDS, longest=20), Wish(count=25, longest=4_000)]
    named = named_alignments(rng, wishes)
    skipped = 0
    for one in named:
        alignment = one.alignment
        kept = 0
        for p in points_for(rng, alignment, 12):
            walked = crest.walk(alignment, lambda s: crest.squared_distance(alignment, p, s))
            if walked.count > 250 or kept == 4:
                continue
            kept += 1
            skipped += walked.second[-1] - len(walked.second) + 1 > 0
            second.append(Case(f"second_visits {one.name} {point_text(p)}", naturals(walked.second)))
            counts.append(Case(f"visit_count {one.name} {point_text(p)}", str(walked.count)))
            both.append(Case(f"visits {one.name} {point_text(p)}", naturals(walked.first + walked.second)))
    assert skipped >= 50, skipped
    tables = [
        Table("first", "List ℕ", "first_visits", first, 25),
        Table("roots", "ℕ", "root", roots),
        Table("skips", "ℕ", "skipped", skips),
        Table("second", "List ℕ", "second_visits", second, 10),
        Table("counts", "ℕ", "visit_count", counts[::2], 10),
        Table("both", "List ℕ", "visits", both[::4], 10),
    ]
    uses = (
        *ELEMENT_USES,
        "Rattle.integers.specs.Root.{root}",
        "Walk.{first_visits, skipped, second_visits, visits, visit_count}",
    )
    return Chapter(9, "Walk", uses, tables, shown(named))


# ---------------------------------------------------------------------------
# 10 Answers

INVERSE_USES = (
    "declared.Inverse.{Inverse}",
    "declared.Inverse.TheVariants.{At as InverseAt, Refused as InverseRefused}",
)
PLACED_USES = (
    "declared.Placed.{Placed}",
    "declared.Placed.TheVariants.{At as PlacedAt, Refused as PlacedRefused}",
)


def inverse_text(answer):
    if answer.number:
        return f"InverseRefused {refusal_text(answer.number, answer.place)}"
    return f"InverseAt {whole(answer.x)} {whole(answer.y)}"


def placed_text(answer):
    if answer.number:
        return f"PlacedRefused {refusal_text(answer.number, answer.place)}"
    return f"PlacedAt {whole(answer.x)} {whole(answer.y)} {whole(answer.tx)} {whole(answer.ty)}"


def move_text(answer):
    if answer.number:
        return f"MoveRefused {refusal_text(answer.number, answer.place)}"
    return f"By {whole(answer.forward)} {whole(answer.left)}"


def some_place(rng, total):
    """A station and an offset, now and then just out of range."""
    station = rng.choice((0, total, rng.randint(0, total), rng.randint(0, total), -1, total + 1, -(2**40)))
    limit = WIDEST_OFFSET
    offset = rng.choice((0, limit, -limit, limit + 1, -limit - 1, signed(rng, limit), signed(rng, limit)))
    return station, offset


def some_move(rng):
    """Own point, target and heading, now and then out of the frame or no unit."""

    def place():
        near_edge = rng.choice((-1, 1)) * (FRAME + rng.choice((-1, 0, 1)))
        return rng.choice((signed(rng, FRAME), signed(rng, FRAME), signed(rng, FRAME), near_edge))

    turn = rng.choice((-1, 1))
    limits = [(turn * c, s) for c, s in UNIT_LIMITS]
    units = [random_crests.random_unit(rng) for _ in range(3)]
    heading = rng.choice((*units, rng.choice(limits), (0, 0)))
    return (place(), place()), (place(), place()), heading


def placed_answer(held, s):
    """Position and direction at a station of what a check said; the reference asks a file."""
    if isinstance(held, Refusal):
        return crest.StationAnswer(*held)
    return crest.position_and_direction(crest.file_made(records_of(held.elements)), s)


def answers(rng):
    inverses, file_inverses, on_elements, placed, moves, calls = [], [], [], [], [], []
    placed_papers, located_papers, inverse_papers, move_papers, papers = [], [], [], [], []
    seen = set()
    edge = Wish(count=2, middle=(FRAME, -FRAME + 5), heading=(0, ONE), kinds=(LINE,), gap=0)
    sizes = [(n, m) for n in (1, 2, 5, 20) for m in (60, LONGEST_ELEMENT)]
    named = named_alignments(rng, [edge, *(Wish(count=n, longest=m) for n, m in sizes)])
    for one in named:
        for _ in range(20):
            s, w = some_place(rng, one.alignment.total)
            answer = crest.line_answer(one.alignment, s, w)
            seen.add(answer.number)
            inverses.append(Case(f"inverse_on {one.name} {whole(s)} {whole(w)}", inverse_text(answer)))
            papers.append(Case(f"paper_of_inverse ({inverse_text(answer)})", paper_text(*answer)))
            s, _ = some_place(rng, one.alignment.total)
            answer = placed_answer(one.alignment, s)
            on_elements.append(Case(f"placed_on {one.name} {whole(s)}", placed_text(answer)))
            papers.append(Case(f"paper_of_placed ({placed_text(answer)})", paper_text(*answer)))
    assert seen == {0, 11, 15}, seen
    for _ in range(40):
        file, alignment = crest_file(rng, rng.choice((1, 2, 3)), longest=rng.choice((50, LONGEST_ELEMENT)))
        total = alignment.total
        if rng.randrange(4) == 0:
            file = rng.choice(DAMAGES)(rng, file)
        s, w = some_place(rng, total)
        answer = crest.inverse(file, s, w)
        file_inverses.append(Case(f"inverse {file_crest(file)} {whole(s)} {whole(w)}", inverse_text(answer)))
        asked = asked_paper(f"place_question {whole(s)} {whole(w)}", file_crest(file))
        inverse_papers.append(Case(asked, paper_text(*answer)))
        s, _ = some_place(rng, total)
        answer = crest.position_and_direction(file, s)
        placed.append(Case(f"placed {file_crest(file)} {whole(s)}", placed_text(answer)))
        asked = asked_paper(f"station_question {whole(s)}", file_crest(file))
        placed_papers.append(Case(asked, paper_text(*answer)))
    seen = set()
    located = [(crest.file_made(records_of(STRAIGHT.alignment.elements)), p) for p in LIMIT_POINTS[::4]]
    for _ in range(30):
        file, alignment = short_crest(rng)
        located += [(file, p) for p in points_for(rng, alignment, 1)]
    for file, p in located:
        answer = crest.station_and_offset(file, *p)
        seen.add(answer.number)
        asked = asked_paper(f"point_question {point_text(p)}", file_crest(file))
        located_papers.append(Case(asked, paper_text(*answer)))
        papers.append(Case(f"paper_of_located ({located_text(answer)})", paper_text(*answer)))
    assert {0, 11, 12, 13, 14} <= seen, seen
    seen = set()
    for _ in range(120):
        own, target, (c, s) = some_move(rng)
        answer = crest.stake_out(own, target, (c, s))
        seen.add(answer.number)
        text = f"{point_text(own)} {point_text(target)} {whole(c)} {whole(s)}"
        moves.append(Case(f"stake_out {text}", move_text(answer)))
        move_papers.append(Case(f"paper_after [] (move_question {text})", paper_text(*answer)))
        papers.append(Case(f"paper_of_move ({move_text(answer)})", paper_text(*answer)))
        sizes = *[MOVE_SIZE] * 4, 0, MOVE_SIZE - 1, MOVE_SIZE + 1, RUN_SIZE
        room = random_bytes(rng, rng.choice(sizes))
        value, after = crest.crest_stake_out(*own, *target, c, s, room)
        calls.append(Case(f"stake_out_call {text} {spelt(room)}", f"({value}, {spelt(after)})"))
    assert seen == {0, 7, 11}, seen
    tables = [
        Table("inverses", "Inverse", "answer_after place_question", inverses, 30),
        Table("file-inverses", "Inverse", f"answer_after place_question {FILE_CREST}", file_inverses, 8),
        Table("placed-on", "Placed", "answer_after station_question", on_elements, 30),
        Table("placed", "Placed", f"answer_after station_question {FILE_CREST}", placed, 8),
        Table("moves", "Move", "answer_after move_question", moves),
        Table("move-calls", "ℕ × List ℕ", "stake_out_call", calls),
        Table("papers", "PaperAnswer", "paper_of_placed paper_of_located paper_of_inverse paper_of_move", papers),
        Table("placed-papers", "PaperAnswer", f"paper_after station_question {FILE_CREST}", placed_papers, 8),
        Table("located-papers", "PaperAnswer", f"paper_after point_question {FILE_CREST}", located_papers, 5),
        Table("inverse-papers", "PaperAnswer", f"paper_after place_question {FILE_CREST}", inverse_papers, 8),
        Table("move-papers", "PaperAnswer", "paper_after move_question", move_papers),
    ]
    uses = (
        *ELEMENT_USES,
        *PLACED_USES,
        *LOCATED_USES,
        *INVERSE_USES,
        *FILE_CREST_USES,
        "declared.Move.{Move}",
        "declared.Move.TheVariants.{By, Refused as MoveRefused}",
        "Answers.{inverse_on, inverse, placed_on, placed, stake_out}",
        "Answers.{PaperAnswer, paper_of_placed, paper_of_located, paper_of_inverse, paper_of_move}",
        "Answers.{answer_after, paper_after, asked_paper}",
        "Answers.{station_question, point_question, place_question, move_question}",
        "Calls.{stake_out_call}",
    )
    return Chapter(10, "Answers", uses, tables, (PAPER_FORM, *shown(named)))


# ---------------------------------------------------------------------------
# 11 Readings

INFINITY = 0x7FF << 52
MINUS = 1 << 63
ODD_FLOATS = (
    *(0, 1, 2, (1 << 52) - 1, 1 << 52),  # zero, the smallest numbers
    *(INFINITY - 1, INFINITY, INFINITY + 1, INFINITY + (1 << 51), MINUS - 1),  # the largest, infinity, no numbers
    *((1023 << 52) - 1, 1023 << 52, (1023 << 52) + 1, 1022 << 52, (1024 << 52) + (1 << 51)),  # 1, a half, 3
    *((1075 << 52) - 1, (1075 << 52) - 2, 1075 << 52, (1075 << 52) + 1, (1074 << 52) + 1),  # around 2^52
    *((1076 << 52) - 1, 1076 << 52, (1076 << 52) + 1, 1086 << 52, 1139 << 52),  # 2^53, 2^63, 2^116
)
ANSWER_NAMES = "PlanePoint as AnswerPoint, LinePlace as AnswerPlace, Refused as AnswerRefused"
ANSWER_USES = (
    "declared.ReadingAnswer.{ReadingAnswer}",
    f"declared.ReadingAnswer.TheVariants.{{{ANSWER_NAMES}}}",
)
READING_USES = ("declared.Reading.{Reading}", "declared.Reading.TheVariants.{PlanePoint, LinePlace}")
# What a reading on a crest file is computed by, and the paper's number, place and values of it.
ASKED = f"answer_after reading_question of_bits {FILE_CREST}"
PAPER_ASKED = f"paper_after reading_question of_bits {FILE_CREST}"


def answer_text(reading, answer):
    if answer.number:
        return f"AnswerRefused {refusal_text(answer.number, answer.place)}"
    a, b, c = answer.three
    if isinstance(reading, crest.LinePlace):
        return f"AnswerPlace {whole(a)} {whole(b)}"
    return f"AnswerPoint {a} {whole(b)} {whole(c)} {answer.count}"


def display_text(pair):
    station, offset = (float_text(crest.f64_bits(number)) for number in pair)
    return f"record {{ station = {station}; offset = {offset} }}"


def reading_text(reading):
    sort = "PlanePoint" if isinstance(reading, crest.PlanePoint) else "LinePlace"
    return f"({sort} {float_text(reading[0])} {float_text(reading[1])})"


def values_of(reading, answer):
    """The values that a reading or a sighting asks for: station, offset, residual, visits; or X, Y."""
    return answer.three[:2] if isinstance(reading, crest.LinePlace) else (*answer.three, answer.count)


def reading_paper(reading, answer):
    return paper_text(answer.number, answer.place, *values_of(reading, answer))


def odd_bits(rng):
    bits = rng.choice((rng.choice(ODD_FLOATS), rng.getrandbits(63)))
    return bits | rng.choice((0, MINUS))


def some_reading(rng, alignment):
    """A reading close to an alignment; now and then one number is not whole, not finite or very large."""
    if rng.randrange(2):
        numbers = random_crests.random_point(rng, alignment)
        sort = crest.PlanePoint
    else:
        numbers = some_place(rng, alignment.total)
        sort = crest.LinePlace
    bits = [crest.f64_bits(float(n)) for n in numbers]
    if rng.randrange(4) == 0:
        bits[rng.randrange(2)] = odd_bits(rng)
    if rng.randrange(6) == 0:
        bits = [b | MINUS if b == 0 else b for b in bits]
    return sort(*bits)


def short_crest(rng):
    """(file, alignment) of a short crest; the file is now and then damaged."""
    file, alignment = random_crests.random_file(rng, short_wish(rng, 24))
    if rng.randrange(5) == 0:
        file = rng.choice(DAMAGES)(rng, file)
    return file, alignment


def readings(rng):
    patterns = [bits | sign for bits in ODD_FLOATS for sign in (0, MINUS)]
    patterns += [crest.f64_bits(float(signed(rng, 2**60))) for _ in range(40)]
    patterns += [crest.f64_bits(signed(rng, 2**40) / 2 ** rng.randint(1, 30)) for _ in range(30)]
    patterns += [rng.getrandbits(64) for _ in range(20)]
    for _ in range(60):  # from 1/8 to 2^57, with any number of low digits zero
        digits = rng.getrandbits(52) << rng.randint(0, 52) & (1 << 52) - 1
        patterns.append(rng.randint(1020, 1080) << 52 | digits)
    wholes = []
    for bits in patterns:
        found = crest.whole_of_f64(bits)
        due = "none" if found is None else f"whole {whole(found)}"
        wholes.append(Case(f"whole_of {float_text(bits)}", due))
    answered, papers, of_answers, seen = [], [], [], set()
    for _ in range(90):
        file, alignment = short_crest(rng)
        reading = some_reading(rng, alignment)
        answer = crest.reading_answer(crest.check(file), reading)
        seen.add(answer.number)
        asked, due = f"{file_crest(file)} {reading_text(reading)}", reading_paper(reading, answer)
        answered.append(Case(f"answer_to {asked}", answer_text(reading, answer)))
        papers.append(Case(asked_paper(f"reading_question {reading_text(reading)}", file_crest(file)), due))
        of_answers.append(Case(f"paper_of_reading (value_count {reading_text(reading)}) (answer_to {asked})", due))
    assert {0, 10, 11, 13, 14, 15} <= seen <= {0, *OF_READINGS}, seen
    counts, of_any = [], []
    for _ in range(80):
        reading, answer = random_answer(rng)
        text, due = answer_text(reading, answer), reading_paper(reading, answer)
        counts.append(Case(f"value_count {reading_text(reading)}", str(len(values_of(reading, answer)))))
        of_any.append(Case(f"paper_of_reading (value_count {reading_text(reading)}) ({text})", due))
        n = rng.choice((0, 2, 4, spread(rng, 9)))
        if answer.number:  # as many zeros as are asked for; an answer has its own values
            due = paper_text(answer.number, answer.place, *[0] * n)
        of_any.append(Case(f"paper_of_reading {n} ({text})", due))
    pairs = [(0, 0), (LONGEST_ALIGNMENT, MOST_OFFSET), (1, -1), (5, 300), (7, -50)]
    pairs += [(2**53 + 1, 2**53 + 1), (2**64 - 1, -(2**63))]
    pairs += [(spread(rng, LONGEST_ALIGNMENT), signed(rng, MOST_OFFSET)) for _ in range(60)]
    pairs += [(spread(rng, 2**64 - 1), signed(rng, 2**63 - 1)) for _ in range(40)]
    displays = []
    for station, offset in pairs:
        answer = f"(AnswerPoint {station} {whole(offset)} {whole(signed(rng, 200))} {spread(rng, 10**6)})"
        displays.append(Case(f"display_of {answer}", display_text(crest.display_pair(station, offset))))
    nothing = display_text((0.0, 0.0))
    for number in range(1, 16):
        place = f"(AnswerPlace {whole(signed(rng, FRAME))} {whole(signed(rng, FRAME))})"
        displays.append(Case(f"display_of {place}", nothing))
        displays.append(Case(f"display_of (AnswerRefused {refusal_text(number, spread(rng, 60))})", nothing))
    tables = [
        Table("wholes", "Whole", "whole_of of_bits", wholes),
        Table("answers", "ReadingAnswer", ASKED, answered, 5),
        Table("papers", "PaperAnswer", PAPER_ASKED, papers[::2], 5),
        Table("papers-of", "PaperAnswer", f"paper_of_reading value_count {ASKED}", of_answers[1::2], 5),
        Table("papers-of-any", "PaperAnswer", "paper_of_reading value_count of_bits", of_any),
        Table("value-counts", "ℕ", "value_count of_bits", counts),
        Table("displays", "Display", "display_of of_int div of_bits", displays, 25),
    ]
    uses = (
        *READING_USES,
        *ANSWER_USES,
        *FILE_CREST_USES,
        "declared.Display.{Display}",
        "Rattle.std.specs.Float.Ieee.{of_bits, of_int, div}",
        "Answers.{PaperAnswer, answer_after, paper_after, asked_paper}",
        "Readings.{Whole, whole, none, whole_of, reading_question, answer_to, value_count, paper_of_reading, display_of}",
    )
    return Chapter(11, "Readings", uses, tables, (PAPER_FORM,))


# ---------------------------------------------------------------------------
# 12 Run


def run_text(state):
    counts = " ".join(map(str, state[:5]))
    return f"(run {counts} {' '.join(map(whole, state.three))})"


def random_run(rng, full=False):
    """A state that 24 bytes can spell."""

    def u16():
        return rng.choice((0, 1, U16 - 1, U16, spread(rng, U16), rng.randint(0, U16)))

    while True:
        answered, refused = u16(), u16()
        if full or answered + refused < MOST_COUNTED:
            break
    three = tuple(rng.choice((rng.choice(I32), signed(rng, 2**31 - 1))) for _ in range(3))
    first, reading = rng.choice(((0, 0), (0, u16()), (u16(), u16())))
    return crest.Run(answered, refused, u16(), first, reading, u16(), three)


def shown_text(outcome):
    one, two, three = map(whole, outcome.three)
    return f"(shown {outcome.number} {one} {two} {three})"


SHOWN_FORM = """-- the number and the three values of an outcome
abbrev shown : ℕ → ℤ → ℤ → ℤ → Shown
shown n i j k = record { number = n; one = i; two = j; three = k }
"""


def random_answer(rng):
    """(a reading of any numbers, an outcome that its sort has)."""
    choice = rng.randrange(3)
    if choice == 0:
        sort = rng.choice((crest.PlanePoint, crest.LinePlace))
        outcome = crest.ReadingAnswer(rng.randint(1, 15), rng.choice((0, 0, 3, MOST_RECORDS - 1)))
    elif choice == 1:
        sort = crest.LinePlace
        outcome = crest.ReadingAnswer(0, 0, (signed(rng, FRAME), signed(rng, FRAME), 0))
    else:
        sort = crest.PlanePoint
        three = spread(rng, LONGEST_ALIGNMENT), signed(rng, MOST_OFFSET), signed(rng, 200)
        outcome = crest.ReadingAnswer(0, 0, three, spread(rng, 10**6))
    return sort(odd_bits(rng), odd_bits(rng)), outcome


def run_record(rng):
    """The run by value and as bytes, from states of every sort."""
    shown_, counted, acknowledged, read, written, full = [], [], [], [], [], []
    for number in range(1, LAST_NUMBER + 1):
        for place in (0, MOST_RECORDS - 1):
            answer = crest.ReadingAnswer(number, place)
            shown_.append(Case(f"shown_of (AnswerRefused {refusal_text(number, place)})", shown_text(answer)))
    for _ in range(60):
        state, (reading, outcome) = random_run(rng), random_answer(rng)
        shown_.append(Case(f"shown_of ({answer_text(reading, outcome)})", shown_text(outcome)))
        due = run_text(crest.run_after(state, outcome))
        counted.append(Case(f"counted {shown_text(outcome)} {run_text(state)}", due))
        state = random_run(rng, full=True)
        acknowledged.append(Case(f"acknowledged {run_text(state)}", run_text(crest.acknowledged(state))))
        full.append(Case(f"is_full {run_text(state)}", truth(crest.run_is_full(state))))
        data = random_bytes(rng, RUN_SIZE)
        read.append(Case(f"run_at {spelt(data)}", run_text(crest.run_of(data))))
        old = random_bytes(rng, RUN_SIZE)
        due = crest.bytes_of_run(state._replace(spare=crest.run_of(old).spare))
        written.append(Case(f"run_bytes {run_text(state)} {spelt(old)}", spelt(due)))
    return [
        Table("shown", "Shown", "shown_of", shown_),
        Table("counted", "Run", "counted", counted),
        Table("acknowledged", "Run", "acknowledged", acknowledged),
        Table("full", "Bool", "is_full", full),
        Table("read", "Run", "run_at", read),
        Table("written", "List ℕ", "run_bytes", written),
    ]


def reading_told(state, outcome, limit=MOST_COUNTED):
    """(outcome, run afterwards) of a reading that comes to an outcome, on a run that counts up to a limit."""
    if state.answered + state.refused >= limit:
        return crest.ReadingAnswer(16, 0), state
    return outcome, crest.run_after(state, outcome)


def run_answers(rng):
    """A reading on a run, by value and as a C call, by what it came to, whatever crest it was."""
    noted, papers, calls, seen = [], [], [], set()
    for number in range(80):
        reading, came = random_answer(rng)
        state = random_run(rng, full=number % 4 == 0)
        if number % 8 == 0:
            state = state._replace(answered=30_000, refused=MOST_COUNTED - 30_000 - rng.randrange(2))
        text = f"({answer_text(reading, came)})"
        outcome, after = reading_told(state, came)
        seen.add((type(reading), came.number > 0, outcome.number == 16))
        due = f"record {{ answer = {answer_text(reading, outcome)}; run = {run_text(after)} }}"
        noted.append(Case(f"noted {text} {run_text(state)}", due))
        asked = f"noted_paper {reading_paper(reading, came)} {run_text(state)}"
        papers.append(Case(asked, reading_paper(reading, outcome)))
        data, left = crest.bytes_of_run(state), crest.bytes_of_run(after)
        if number % 5 == 0:
            data = left = random_bytes(rng, rng.choice((0, 8, RUN_SIZE - 1, RUN_SIZE + 1)))
            outcome = crest.ReadingAnswer(18, 0)
        value = crest.c_value(outcome.number, outcome.place)
        calls.append(Case(f"reading_call {text} {spelt(data)}", f"({value}, {spelt(left)})"))
    assert len(seen) == 8, seen  # answered and refused ones of both sorts, on full and other runs
    return [
        Table("noted-answers", "Noted", "noted", noted),
        Table("noted-papers", "PaperAnswer", "noted_paper", papers),
        Table("answer-calls", "ℕ × List ℕ", "reading_call", calls),
    ]


def run_calls(rng):
    """The C calls on any bytes, and readings of a crest file on a run by value."""
    acknowledgements, read_calls, noted, shown_, papers, checks = [], [], [], [], [], []
    for number in range(60):
        others = 0, 1, 8, RUN_SIZE - 1, RUN_SIZE + 1, 2 * RUN_SIZE, BLOCK_SIZE
        data = random_bytes(rng, RUN_SIZE if number % 3 else rng.choice(others))
        value, after = crest.crest_acknowledge(data)
        acknowledgements.append(Case(f"acknowledge_call {spelt(data)}", f"({value}, {spelt(after)})"))
    returned = set()
    for number in range(90):
        file, alignment = short_crest(rng)
        reading = some_reading(rng, alignment)
        state = random_run(rng, full=number % 10 == 0)
        sizes = 0, 1, RUN_SIZE - 1, RUN_SIZE + 1, RUN_SIZE
        data = crest.bytes_of_run(state) if number % 8 else random_bytes(rng, rng.choice(sizes))
        value, after = crest.c_reading(file, reading, data)
        returned.add(value % PLACE_UNIT)
        asked = f"{file_crest(file)} {reading_text(reading)}"
        read_calls.append(Case(f"reading_call (answer_to {asked}) {spelt(data)}", f"({value}, {spelt(after)})"))
        outcome = shown_text(crest.reading_answer(crest.check(file), reading))
        shown_.append(Case(f"shown_of (answer_to {asked})", outcome))
        answer, after = crest.take_reading(state, crest.check(file), reading)
        due = f"record {{ answer = {answer_text(reading, answer)}; run = {run_text(after)} }}"
        noted.append(Case(f"noted (answer_to {asked}) {run_text(state)}", due))
        asked = asked_paper(f"reading_question {reading_text(reading)}", file_crest(file))
        papers.append(Case(f"noted_paper ({asked}) {run_text(state)}", reading_paper(reading, answer)))
        checks.append(Case(f"check_call {file_crest(file)}", str(crest.crest_check(file))))
    assert {0, 10, 16, 18} <= returned, returned
    return [
        Table("acknowledge-calls", "ℕ × List ℕ", "acknowledge_call", acknowledgements),
        Table("reading-calls", "ℕ × List ℕ", f"reading_call {ASKED}", read_calls, 5),
        Table("shown-of-readings", "Shown", f"shown_of {ASKED}", shown_[1::3], 5),
        Table("noted", "Noted", f"noted {ASKED}", noted[::2], 5),
        Table("papers", "PaperAnswer", f"noted_paper {PAPER_ASKED}", papers[::5], 5),
        Table("check-calls", "ℕ", f"check_call {FILE_CREST}", checks[::3], 5),
    ]


class Call(NamedTuple):
    """A reading's outcome, or None for an acknowledgement, with the call's text."""

    outcome: crest.ReadingAnswer
    text: str


ACKNOWLEDGE = Call(None, "acknowledge")


def crest_calls(rng):
    """Calls with readings on one short crest, which is now and then damaged."""
    file, alignment = random_crests.random_file(rng, short_wish(rng, 8))
    if rng.randrange(8) == 0:
        file = rng.choice(DAMAGES)(rng, file)
    calls = []
    for _ in range(rng.randint(0, 5)):
        reading = some_reading(rng, alignment)
        outcome = crest.reading_answer(crest.check(file), reading)
        call = Call(outcome, f"read (answer_to {file_crest(file)} {reading_text(reading)})")
        calls.append(ACKNOWLEDGE if rng.randrange(4) == 0 else call)
    return calls


def any_calls(rng):
    """Calls with any outcomes, and acknowledgements more or less often."""
    often = rng.choice((2, 4, 8, 1000))
    calls = []
    for _ in range(rng.choice((0, 1, 2, 3, 5, 8, 13, 40))):
        reading, outcome = random_answer(rng)
        call = Call(outcome, f"read ({answer_text(reading, outcome)})")
        calls.append(ACKNOWLEDGE if rng.randrange(often) == 0 else call)
    return calls


def run_told(state, outcomes, limit=MOST_COUNTED):
    """The run after outcomes, None for an acknowledgement, that counts up to a limit of readings."""
    for outcome in outcomes:
        if outcome is None:
            state = crest.acknowledged(state)
        else:
            _, state = reading_told(state, outcome, limit)
    return state


def event_text(outcome):
    return "acknowledgement" if outcome is None else f"came {shown_text(outcome)}"


def history_tables(rng, name, made, unfolding, size):
    """What calls do to a run, and what demand 1 says that it then shows: both against the reference."""
    after, bytes_after, demanded, events, nearly_full = [], [], [], [], []
    for calls in made:
        text, outcomes = listed(call.text for call in calls), [call.outcome for call in calls]
        state = run_told(crest.FRESH, outcomes)
        after.append(Case(f"after_calls {text} fresh", run_text(state)))
        bytes_after.append(Case(f"bytes_after_calls {text} fresh_bytes", spelt(crest.bytes_of_run(state))))
        demanded.append(Case(f"demanded {text}", run_text(state)))
        events += [Case(f"event_of ({call.text})", event_text(call.outcome)) for call in calls[:2]]
        left = rng.randint(0, 3)
        state = random_run(rng)._replace(answered=30_000, refused=MOST_COUNTED - 30_000 - left)
        nearly_full.append(Case(f"after_calls {text} {run_text(state)}", run_text(run_told(state, outcomes))))
    return [
        Table(f"after-{name}", "Run", f"after_calls {unfolding}", after, size),
        Table(f"bytes-after-{name}", "List ℕ", f"bytes_after_calls {unfolding}", bytes_after, size),
        Table(f"demanded-{name}", "Run", f"demanded {unfolding}", demanded, size),
        Table(f"nearly-full-{name}", "Run", f"after_calls {unfolding}", nearly_full, size),
        Table(f"events-{name}", "Event", f"event_of {unfolding}", events, 8),
    ]


def histories(rng):
    cut = []
    for _ in range(80):
        limit = rng.choice((0, 1, 2, 3, 10, MOST_COUNTED, MOST_COUNTED))
        outcomes = [call.outcome for call in any_calls(rng)]
        asked = f"shown_after (counted_of {limit} {listed(map(event_text, outcomes))})"
        cut.append(Case(asked, run_text(run_told(crest.FRESH, outcomes, limit))))
    return [
        *history_tables(rng, "readings", [crest_calls(rng) for _ in range(16)], ASKED, 3),
        *history_tables(rng, "answers", [any_calls(rng) for _ in range(24)], "", 8),
        Table("demanded-of-events", "Run", "shown_after counted_of", cut, 20),
    ]


def run(rng):
    tables = [*run_record(rng), *run_answers(rng), *run_calls(rng), *histories(rng)]
    uses = (
        *READING_USES,
        *ANSWER_USES,
        *FILE_CREST_USES,
        "declared.Run.{Run}",
        "Rattle.std.specs.Float.Ieee.{of_bits}",
        "declared.Noted.{Noted}",
        "Answers.{PaperAnswer, answer_after, paper_after, asked_paper}",
        "Readings.{reading_question, answer_to}",
        "Run.{Shown, fresh, is_full, shown_of, counted, acknowledged, noted, noted_paper, run_at, run_bytes}",
        "Calls.{reading_call, acknowledge_call, check_call}",
        "Histories.{Call, read, acknowledge, after_calls, bytes_after_calls, fresh_bytes, demanded}",
        "Histories.{Event, came, acknowledgement, event_of, counted_of, shown_after}",
    )
    return Chapter(12, "Run", uses, tables, (SHOWN_FORM, PAPER_FORM))


# ---------------------------------------------------------------------------
# 13 Refusals

# The names of the reasons, with the words of document 01's table, in its order.
TABLE = (
    ("byte_count", "byte count not 512, 1024, 1536 or 2048"),
    ("checksum", "a block's A or B is wrong"),
    ("block_field", "block number, use count, edition, or a byte that must be zero outside used records"),
    ("damaged_record", "damaged kind, or a nonzero byte 1 to 3 or 28 to 31 of a used record"),
    ("later_kind", "kind 5 to 15"),
    ("field_out_of_range", "length, radius, x or y out of range"),
    ("not_unit", "direction not a unit (record or heading)"),
    ("gap", "gap, kink at a join"),
    ("kink", "gap, kink at a join"),
    ("not_whole", "a reading's number not finite or not whole"),
    ("outside_frame", "plane point outside the frame, given or resulting"),
    ("too_far", "least D above 400,000,000,000,000"),
    ("before_start", "station judged 0 with residual below −100"),
    ("after_end", "station judged T with residual above 100"),
    ("asked_out_of_range", "station, offset or record number out of range"),
    ("run_full", "run full"),
    ("record_count", "writer's record bytes not 32 times 1 to 60"),
    ("wrong_room", "room below the blocks needed, a run's bytes not 24, or a C move's not 8"),
)
REASONS = [why for why, _ in TABLE]
OWN = range(1, 10)  # "no refusal of its own bytes applies, here 1 to 9"
OF_READINGS = range(1, 16)  # a crest's own; "then 10; 11 or 15; .. 12; 13; 14; 11 for a resulting point"


def random_rules(rng, numbers):
    """(rules as an argument, the refusal of the first that does not hold, or None)."""
    rules = [(rng.choice(numbers), spread(rng, 60), rng.randrange(5) > 0) for _ in range(rng.randint(0, 9))]
    first = next((Refusal(number, place) for number, place, holds in rules if not holds), None)
    texts = (f"rule {REASONS[number - 1]} {place} {truth(holds)}" for number, place, holds in rules)
    return listed(texts), first


def refusals(rng):
    numbers = [Case(f"number {why}", str(number)) for number, why in enumerate(REASONS, 1)]
    sentences = [Case(f"sentence {why}", f'"{words}"') for why, words in TABLE]
    given = []
    for number, why in enumerate(REASONS, 1):
        for place in (0, 1, MOST_RECORDS - 1, spread(rng, 2**32)):
            given.append(Case(f"refusal {why} {place}", refusal_text(number, place)))
    verdicts = []
    for _ in range(120):
        text, first = random_rules(rng, range(1, LAST_NUMBER + 1))
        verdicts.append(Case(f"verdict {text}", outcome_text(first)))
    tested = [*range(31), 255, 256, 257, 65_535, 2**32, 2**64, *(spread(rng, 2**40) for _ in range(10))]
    own = [Case(f"is_own {n}", truth(n in OWN)) for n in tested]
    of_readings = [Case(f"refuses_reading {n}", truth(n in OF_READINGS)) for n in tested]
    codes = [Case("code (paper_of_outcome Done)", "0")]
    for number in range(1, LAST_NUMBER + 1):
        for place in (0, rng.randint(1, MOST_RECORDS - 1)):
            outcome = f"(Refused {refusal_text(number, place)})"
            codes.append(Case(f"code (paper_of_outcome {outcome})", str(crest.c_value(number, place))))
    tables = [
        Table("numbers", "ℕ", "number", numbers),
        Table("sentences", "String", "sentence", sentences),
        Table("given", "Refusal", "refusal", given),
        Table("verdicts", "Outcome", "verdict", verdicts),
        Table("codes", "ℕ", "code paper_of_outcome", codes),
        Table("own", "Bool", "is_own", own),
        Table("of-readings", "Bool", "refuses_reading", of_readings),
    ]
    uses = (
        *OUTCOME_USES,
        "declared.Refusal.{Refusal}",
        "Prim.Native.String.{String}",
        f"Refusals.{{Reason, number, sentence, refusal, rule, verdict, {', '.join(REASONS)}}}",
        "Answers.{code, paper_of_outcome}",
        "Crest.{is_own}",
        "Readings.{refuses_reading}",
    )
    return Chapter(13, "Refusals", uses, tables)


# ---------------------------------------------------------------------------
# 14 Program


def program_line(number, outcome):
    """A reading's line, from the reference's text of one reading."""
    words = (number, "refused", outcome.number) if outcome.number else (number, *outcome.three)
    return " ".join(map(str, words)) + "\n"


def last_line(state):
    first = f"{state.first_reading} {state.first}" if state.first else "none"
    return f"answered {state.answered} refused {state.refused} first {first}\n"


def program(rng):
    numbers = [0, 9, 10, 11, 99, 100, 101, MOST_COUNTED, MOST_COUNTED + 1, LONGEST_ALIGNMENT, 2**64]
    numbers += [spread(rng, 10**9) for _ in range(40)]
    decimals = [Case(f"decimal {n}", spelt(str(n).encode())) for n in numbers]
    signs = [Case(f"signed {whole(n)}", spelt(str(n).encode())) for n in (0, -1, 1, -9, -10, -100, -(2**31))]
    signs += [Case(f"signed {whole(n)}", spelt(str(n).encode())) for n in (signed(rng, MOST_OFFSET) for _ in range(30))]
    lines, lasts = [], []
    for _ in range(40):
        _, outcome = random_answer(rng)
        number = rng.choice((1, 9, 10, MOST_COUNTED + 1, spread(rng, 70_000)))
        lines.append(Case(f"reading_line {number} {shown_text(outcome)}", spelt(program_line(number, outcome).encode())))
        state = random_run(rng)
        if rng.randrange(3) == 0:
            state = state._replace(first=0)
        lasts.append(Case(f"last_line {run_text(state)}", spelt(last_line(state).encode())))
    read, printed = [], []
    for _ in range(40):
        file, alignment = short_crest(rng)
        data = b""
        for _ in range(rng.randint(0, 3)):
            reading = some_reading(rng, alignment)
            data += b"".join(bits.to_bytes(8, "little") for bits in reading)
        data += rng.randbytes(rng.choice((0, 0, 1, 8, READING_SIZE - 1)))
        found = listed(map(reading_text, crest.plane_readings(data)))
        read.append(Case(f"readings_of {spelt(data)}", found))
        printed.append(Case(f"printed {spelt(file)} {spelt(data)}", spelt(crest.program_text(file, data).encode())))
    full, first_number = [], MOST_COUNTED - 1
    for _ in range(20):
        # a run that fills while it is read: the numbers in the input go on
        file, alignment = short_crest(rng)
        start = crest.Run(MOST_COUNTED - rng.randint(0, 2), 0)
        found = [some_reading(rng, alignment) for _ in range(3)]
        found = [crest.PlanePoint(*reading) for reading in found]
        state, text, held = start, "", crest.check(file)
        for number, reading in enumerate(found, first_number):
            outcome, state = crest.take_reading(state, held, reading)
            text += program_line(number, outcome)
        asked = f"print_from {file_crest(file)} {first_number} {run_text(start)} {listed(map(reading_text, found))}"
        full.append(Case(asked, spelt((text + last_line(state)).encode())))
    tables = [
        Table("decimals", "List ℕ", "decimal", decimals),
        Table("signs", "List ℕ", "signed", signs),
        Table("reading-lines", "List ℕ", "reading_line", lines),
        Table("last-lines", "List ℕ", "last_line", lasts),
        Table("readings-of", "List Reading", "readings_of", read, 20),
        Table("printed", "List ℕ", f"printed {ASKED}", printed, 5),
        Table("full", "List ℕ", f"print_from {ASKED}", full, 5),
    ]
    uses = (
        *READING_USES,
        *FILE_CREST_USES,
        "declared.Run.{Run}",
        "Rattle.std.specs.Float.Ieee.{of_bits}",
        "Answers.{answer_after}",
        "Readings.{reading_question}",
        "Run.{Shown}",
        "Program.{decimal, signed, reading_line, last_line, readings_of, print_from, printed}",
    )
    return Chapter(14, "Program", uses, tables, (SHOWN_FORM,))


# ---------------------------------------------------------------------------
# 15 Crest

CREST_FORM = """-- a crest of any source
abbrev crest : List Rule → List Element → Crest
crest rules elements = record { rules = rules; elements = elements }
"""


def any_crest(rng):
    """Questions to a crest of any rules and elements, whose own refusals come first."""
    checks, placed, located, inverses, readings_, on_elements, papers = [], [], [], [], [], [], []
    named = named_alignments(rng, [short_wish(rng, 24) for _ in range(30)])
    seen = set()
    for one in named:
        for _ in range(2):
            rules, refusal = random_rules(rng, OWN)
            text, held = f"(crest {rules} {one.name})", refusal or one.alignment
            checks.append(Case(f"check_of {text}", outcome_text(refusal)))
            s, _ = some_place(rng, one.alignment.total)
            answer = placed_answer(held, s)
            placed.append(Case(f"placed {text} {whole(s)}", placed_text(answer)))
            papers.append(Case(asked_paper(f"station_question {whole(s)}", text), paper_text(*answer)))
            (p,) = points_for(rng, one.alignment, 1)
            answer = crest.plane_answer(held, *p)
            located.append(Case(f"located {text} {point_text(p)}", located_text(answer)))
            papers.append(Case(asked_paper(f"point_question {point_text(p)}", text), paper_text(*answer)))
            s, w = some_place(rng, one.alignment.total)
            answer = crest.line_answer(held, s, w)
            inverses.append(Case(f"inverse {text} {whole(s)} {whole(w)}", inverse_text(answer)))
            papers.append(Case(asked_paper(f"place_question {whole(s)} {whole(w)}", text), paper_text(*answer)))
            reading = some_reading(rng, one.alignment)
            answer = crest.reading_answer(held, reading)
            seen.add(answer.number)
            readings_.append(Case(f"answer_to {text} {reading_text(reading)}", answer_text(reading, answer)))
            asked = asked_paper(f"reading_question {reading_text(reading)}", text)
            papers.append(Case(asked, reading_paper(reading, answer)))
            answer = crest.reading_answer(one.alignment, reading)
            on_elements.append(Case(f"answer_on {one.name} {reading_text(reading)}", answer_text(reading, answer)))
    assert {0, 10, 15} <= seen and seen & set(OWN), seen
    for _ in range(20):
        file, _ = short_crest(rng)
        checks.append(Case(f"check_of {file_crest(file)}", outcome_text(outcome_of(crest.check(file)))))
    questions = "station_question point_question place_question reading_question"
    tables = [
        Table("checks", "Outcome", f"verdict {FILE_CREST}", checks, 10),
        Table("placed", "Placed", "answer_after station_question", placed, 20),
        Table("located", "Located", "answer_after point_question", located, 10),
        Table("inverses", "Inverse", "answer_after place_question", inverses, 20),
        Table("readings", "ReadingAnswer", "answer_after reading_question of_bits", readings_, 10),
        Table("answers-on", "ReadingAnswer", "answer_after reading_question of_bits", on_elements, 10),
        Table("papers", "PaperAnswer", f"paper_after {questions} of_bits", papers, 10),
    ]
    uses = (
        *ELEMENT_USES,
        *OUTCOME_USES,
        *PLACED_USES,
        *LOCATED_USES,
        *INVERSE_USES,
        *READING_USES,
        *ANSWER_USES,
        *FILE_CREST_USES,
        "Rattle.std.specs.Float.Ieee.{of_bits}",
        f"Refusals.{{Rule, rule, verdict, {', '.join(REASONS[: len(OWN)])}}}",
        "Crest.{Crest, check_of}",
        "Answers.{PaperAnswer, answer_after, paper_after, asked_paper, placed, located, inverse}",
        "Answers.{station_question, point_question, place_question}",
        "Readings.{reading_question, answer_on, answer_to}",
    )
    return Chapter(15, "Crest", uses, tables, (PAPER_FORM, CREST_FORM, *shown(named)))


# ---------------------------------------------------------------------------
# 16 Sightings

FAULTS = "backsight", "angle", "place", "distance", "point"  # in the order of their refusals
FAULT_SETS = [some for count in range(len(FAULTS) + 1) for some in combinations(FAULTS, count)]
OF_SIGHTINGS = {*OWN, 11, 12, 13, 14, 15}  # "after the crest's own, 7 .., 11 .., 15 .., 11 ..; then 12 to 14"
OF_SIGHTED_MOVES = {7, 11, 15}
SIGHTING_FIELDS = "x", "y", "«backsight_c»", "«backsight_s»", "«angle_c»", "«angle_s»", "distance"
# What a sighting on a crest is computed by, and a reading or a sighting.
SIGHTED = "answer_after sighting_question"
OBSERVED = "answer_after observed_question of_bits"
BRIEF = Named("brief", crest.Alignment([Element(LINE, 3, 0, 0, ONE, 0, 0)]))


def sighting_text(sighting):
    """As an argument, its numbers in the order of the calls."""
    return f"(sighting_of {' '.join(map(whole, sighting))})"


def observation_text(reading):
    """A reading or a sighting as an argument."""
    if isinstance(reading, Sighting):
        return f"(Sighted {sighting_text(reading)})"
    return f"(Read {reading_text(reading)})"


def is_sight(distance):
    return 0 <= distance <= LONGEST_SIGHT


def faults_of(sighting):
    """What of a sighting is refused, whatever crest or target it has."""
    x, y, b, g, a, h, d = sighting
    point = crest.sighted_point(sighting)
    pairs = crest.is_unit(b, g), crest.is_unit(a, h)
    holds = *pairs, crest.in_frame(x, y), is_sight(d), crest.in_frame(*point)
    return tuple(fault for fault, held in zip(FAULTS, holds) if not held)


def faulty(rng, faults):
    """A sighting with these faults and no others, of a point close to an edge of the frame."""
    while True:
        pairs = [no_unit(rng) if pair in faults else unit_pair(rng) for pair in FAULTS[:2]]
        distance = no_sight(rng) if "distance" in faults else sight(rng)
        point = on_the_rim(rng, anywhere(rng), rng.choice((-1_000, -1, 0, 1)))
        sighting = sighting_of(point, *pairs, distance)
        if faults_of(sighting) == faults and all(LEAST <= n <= GREATEST for n in sighting):
            return sighting


def sightings_alone(rng):
    """Direction and point, a sighting's own refusals, and the question of both."""
    drawn = [faulty(rng, faults) for faults in FAULT_SETS]
    drawn += [random_sightings.halves(rng, anywhere(rng)) for _ in range(12)]
    drawn += [random_sighting(rng) for _ in range(60)]
    spelt_out, turned, points, rules, found, answered, papers = [], [], [], [], [], [], []
    units = []
    for sighting in drawn:
        text, fault = sighting_text(sighting), crest.sighting_fault(sighting)
        fields = "; ".join(f"{name} = {whole(n)}" for name, n in zip(SIGHTING_FIELDS, sighting))
        spelt_out.append(Case(text, f"record {{ {fields} }}"))
        direction, point = crest.turned_direction(sighting), crest.sighted_point(sighting)
        turned.append(Case(f"turned_of {text}", point_text(direction)))
        points.append(Case(f"sighted_of {text}", point_text(point)))
        rules.append(Case(f"verdict (sight_rules {text})", outcome_text(Refusal(fault, 0) if fault else None)))
        answer = crest.StationAnswer(0, 0, *point, *direction)
        found.append(Case(f"(sight_question {text}).answer", placed_text(answer)))
        if fault:
            answer = crest.StationAnswer(fault, 0)
        else:
            units.append(crest.is_unit(*direction))
        answered.append(Case(f"answer_of (sight_question {text})", placed_text(answer)))
        papers.append(Case(f"paper_after [] (sight_question {text})", paper_text(*answer)))
    assert min(units.count(True), units.count(False)) >= 8, units  # "The turned pair isn't tested again as a unit."
    distances = [n + by for n in (0, LONGEST_SIGHT) for by in (-2, -1, 0, 1, 2)]
    distances += [*I32, -LONGEST_SIGHT, -(2**40), 2**40, *(sighting.distance for sighting in drawn[::4])]
    return [
        Table("spelt", "Sighting", "turned_of", spelt_out[::8]),
        Table("turned", "Point", "turned_of", turned),
        Table("points", "Point", "sighted_of", points),
        Table("sights", "Bool", "is_sight", [Case(f"is_sight {whole(d)}", truth(is_sight(d))) for d in distances]),
        Table("own-refusals", "Outcome", "verdict sight_rules", rules),
        Table("questions", "Placed", "sight_question", found[1::2]),
        Table("question-answers", "Placed", "answer_after sight_question", answered),
        Table("question-papers", "PaperAnswer", "paper_after sight_question", papers[::2]),
    ]


def sighted_moves(rng):
    """Moves by value and as a C call on rooms of some sizes; each set of faults with a target inside and outside."""
    asked = []
    for faults in FAULT_SETS:
        asked += [(faulty(rng, faults), target) for target in (anywhere(rng), outside(rng, anywhere(rng)))]
    for _ in range(60):
        sighting = random_sighting(rng)
        asked.append((sighting, random_target(rng, sighting)))
    moves, papers, calls = [], [], []
    sizes = MOVE_SIZE, MOVE_SIZE - 1, MOVE_SIZE, MOVE_SIZE + 1, MOVE_SIZE, 0
    rooms = {number: cycle(sizes) for number in (0, *OF_SIGHTED_MOVES)}
    for sighting, target in asked:
        answer = crest.sighting_stake_out(sighting, target)
        text = f"{sighting_text(sighting)} {point_text(target)}"
        moves.append(Case(f"sighted_move {text}", move_text(answer)))
        papers.append(Case(f"paper_after [] (sighted_move_question {text})", paper_text(*answer)))
        room = random_bytes(rng, next(rooms[answer.number]))
        value, after = crest.crest_sighting_stake_out(*sighting, *target, room)
        calls.append(Case(f"sighting_stake_out_call {text} {spelt(room)}", f"({value}, {spelt(after)})"))
    for number in rooms:
        assert sum(case.due.startswith(f"(paper {number} ") for case in papers) >= len(sizes), number
    return [
        Table("moves", "Move", "answer_after sighted_move_question", moves),
        Table("move-papers", "PaperAnswer", "paper_after sighted_move_question", papers[1::3]),
        Table("move-calls", "ℕ × List ℕ", "sighting_stake_out_call", calls),
    ]


class Held(NamedTuple):
    """A crest as an argument, and what a check says of it."""

    text: str
    said: object


def sound(named):
    """The crest of an alignment, with no rules to pass."""
    return Held(f"(crest [] {named.name})", named.alignment)


def any_rules(rng, named):
    """The crest of an alignment with any rules, or with none."""
    rules, refusal = random_rules(rng, OWN)
    return rng.choice((sound(named), Held(f"(crest {rules} {named.name})", refusal or named.alignment)))


def run_data(rng, number):
    """A run's bytes: of four the second has another length, the last is full, and the others count."""
    if number % 4 == 1:
        return random_bytes(rng, rng.choice((0, MOVE_SIZE, RUN_SIZE - 1, RUN_SIZE + 1)))
    state = random_run(rng)
    if number % 4 == 3:
        state = state._replace(answered=30_000, refused=MOST_COUNTED - 30_000)
    return crest.bytes_of_run(state)


def call_told(came, data):
    """(returned value, run's bytes afterwards) of a call with an observation that comes to an outcome."""
    if len(data) != RUN_SIZE:
        return crest.c_value(18), data
    outcome, after = reading_told(crest.run_of(data), came)
    return crest.c_value(outcome.number, outcome.place), crest.bytes_of_run(after)


def sightings_on_crests(rng, named):
    """(crest, sighting): points on the limits of 11 to 14, each set of faults, also after the crest's own, and any."""
    straight, *others = named
    asked = [(sound(straight), from_inside(rng, point)) for point in LIMIT_POINTS[::3]]
    asked += [(sound(rng.choice(others)), faulty(rng, faults)) for faults in FAULT_SETS]
    asked += [(any_rules(rng, straight), faulty(rng, faults)) for faults in FAULT_SETS[::2]]
    asked += [(any_rules(rng, one), random_sighting(rng, one.alignment)) for one in others * 3]
    rng.shuffle(asked)
    return asked


def sighted_answers(rng, named):
    """The answer of a sighting on a crest, its paper, its display pair, and calls with it."""
    answered, papers, displays, calls, met, returned = [], [], [], [], Counter(), set()
    for held, sighting in sightings_on_crests(rng, named):
        answer = crest.sighting_answer(held.said, sighting)
        text, asked = sighting_text(sighting), f"sighted_to {held.text} {sighting_text(sighting)}"
        answered.append(Case(asked, answer_text(sighting, answer)))
        turn = met[answer.number]
        met[answer.number] += 1
        if turn % 2 == 0:
            data = run_data(rng, turn // 2)
            value, after = call_told(answer, data)
            returned.add((value % PLACE_UNIT, answer.number > 0))
            calls.append(Case(f"reading_call ({asked}) {spelt(data)}", f"({value}, {spelt(after)})"))
        elif turn % 4 == 1:
            papers.append(Case(asked_paper(f"sighting_question {text}", held.text), reading_paper(sighting, answer)))
        else:
            displays.append(Case(f"display_of ({asked})", display_text(answer.display)))
    counted = {(0, False), *((number, True) for number in OF_SIGHTINGS)}
    assert returned == counted | {(number, refused) for number in (16, 18) for refused in (False, True)}, returned
    return [
        Table("answers", "ReadingAnswer", SIGHTED, answered, 20),
        Table("papers", "PaperAnswer", "paper_after sighting_question", papers, 10),
        Table("displays", "Display", f"display_of of_int div of_bits {SIGHTED}", displays, 10),
        Table("answer-calls", "ℕ × List ℕ", f"reading_call {SIGHTED}", calls, 20),
    ]


def observed_answers(rng, named):
    """A reading or a sighting, on elements and on a crest."""
    sighted_on, observed_on, observed, papers, counts = [], [], [], [], []
    for number in range(60):
        one = named[number % len(named)]
        reading = rng.choice((some_reading, random_sighting))(rng, one.alignment)
        text, answer = observation_text(reading), crest.reading_answer(one.alignment, reading)
        asked = f"answer_of (observed_question {text} {one.name})"
        observed_on.append(Case(asked, answer_text(reading, answer)))
        counts.append(Case(f"observed_count {text}", str(len(values_of(reading, answer)))))
        if isinstance(reading, Sighting):
            asked = f"sighted_on {one.name} {sighting_text(reading)}"
            sighted_on.append(Case(asked, answer_text(reading, answer)))
        held = any_rules(rng, one)
        answer = crest.reading_answer(held.said, reading)
        observed.append(Case(f"observed_to {held.text} {text}", answer_text(reading, answer)))
        asked = asked_paper(f"observed_question {text}", held.text)
        papers.append(Case(asked, reading_paper(reading, answer)))
    tables = [
        Table("observed", "ReadingAnswer", OBSERVED, observed, 10),
        Table("observed-on", "ReadingAnswer", OBSERVED, observed_on[::2], 10),
        Table("observed-papers", "PaperAnswer", "paper_after observed_question of_bits", papers[1::2], 10),
        Table("observed-counts", "ℕ", "observed_count of_bits", counts[::2]),
    ]
    for table in tables:  # both sorts, also where every third is left
        sorts = Counter("Sighted" in case.asked for case in table.cases[::3])
        assert min(sorts[True], sorts[False]) >= 2, (table.name, sorts)
    return [Table("answers-on", "ReadingAnswer", SIGHTED, sighted_on, 10), *tables]


def sightings_on_files(rng):
    """Answers on crest files, and calls as the reference has them."""
    answered, calls = [], []
    for number in range(16):
        file, alignment = short_crest(rng)
        sighting = random_sighting(rng, alignment)
        asked = f"sighted_to {file_crest(file)} {sighting_text(sighting)}"
        answered.append(Case(asked, answer_text(sighting, crest.sighting_answer(crest.check(file), sighting))))
        data = run_data(rng, number // 2)
        value, after = crest.crest_sighting_reading(file, *sighting, data)
        calls.append(Case(f"reading_call ({asked}) {spelt(data)}", f"({value}, {spelt(after)})"))
    return [
        Table("file-answers", "ReadingAnswer", f"{SIGHTED} {FILE_CREST}", answered[::2], 5),
        Table("file-calls", "ℕ × List ℕ", f"reading_call {SIGHTED} {FILE_CREST}", calls[1::2], 5),
    ]


def sighted_calls(rng, named):
    """Calls with sightings and readings on one crest."""
    held, calls = sound(named), []
    for _ in range(rng.randint(1, 5)):
        reading = rng.choice((random_sighting, random_sighting, some_reading))(rng, named.alignment)
        text = f"read (observed_to {held.text} {observation_text(reading)})"
        call = Call(crest.reading_answer(held.said, reading), text)
        calls.append(ACKNOWLEDGE if rng.randrange(4) == 0 else call)
    return calls


class Told(NamedTuple):
    """A definition that tells false rules from the right ones: what is asked of a sighting and a target, and what is
    due by what a rule makes of the sighting."""

    name: str
    type: str
    unfolding: str
    asked: Callable
    due: Callable


def answer_by(found):
    """The answer on BRIEF by what a rule makes of a sighting."""
    observation = sighting_vectors.observation_of(found)
    return answer_text(observation, crest.reading_answer(BRIEF.alignment, observation))


TOLD = (
    Told(
        *("turned", "Point", "turned_of"),
        lambda sighting, target: f"turned_of {sighting_text(sighting)}",
        lambda found, target: point_text([-n for n in found.heading]),
    ),
    Told(
        *("points", "Point", "sighted_of"),
        lambda sighting, target: f"sighted_of {sighting_text(sighting)}",
        lambda found, target: point_text(found.point),
    ),
    Told(
        *("own-refusals", "Outcome", "verdict sight_rules"),
        lambda sighting, target: f"verdict (sight_rules {sighting_text(sighting)})",
        lambda found, target: outcome_text(Refusal(found.number, 0) if found.number else None),
    ),
    Told(
        *("moves", "Move", "answer_after sighted_move_question"),
        lambda sighting, target: f"sighted_move {sighting_text(sighting)} {point_text(target)}",
        lambda found, target: move_text(sighting_vectors.move_of(found, target)),
    ),
    Told(
        *("answers", "ReadingAnswer", SIGHTED),
        lambda sighting, target: f"sighted_to {sound(BRIEF).text} {sighting_text(sighting)}",
        lambda found, target: answer_by(found),
    ),
)


def by_false_rules(rng):
    """Of each false rule and each definition that tells it from the right ones, the first sighting that does."""
    drawn = [random_sighting(rng, BRIEF.alignment) for _ in range(600)]
    drawn = [(sighting, random_target(rng, sighting)) for sighting in drawn]
    tables, telling = [], set()
    for rule, made_of in sighting_vectors.FALSE_RULES.items():
        words = rule.replace(" ", "-").replace("'", "")
        for told in TOLD:
            for sighting, target in drawn:
                right, wrong = sighting_vectors.seen(sighting), made_of(sighting)
                if wrong != right and told.due(wrong, target) != told.due(right, target):
                    case = Case(told.asked(sighting, target), told.due(wrong, target))
                    tables.append(Table(f"{told.name}-{words}", told.type, told.unfolding, [case]))
                    telling.add((rule, told.name))
                    break
    for rule in sighting_vectors.FALSE_RULES:
        assert (rule, "moves") in telling, rule
        assert rule in sighting_vectors.OF_MOVES or (rule, "answers") in telling, rule
    return tables


def moved(sighting, target, room):
    """The room with a sighting's move, whether it is refused or not."""
    e, f = crest.turned_direction(sighting)
    values = crest.forward_and_left(crest.sighted_point(sighting), target, (-e, -f))
    return crest.with_fields(room, crest.MOVE_FIELDS, values)


def false_moves(rng):
    """Refused moves that change the room, and 18 not given or given too late."""
    tables = []

    def add(name, sighting, target, room, value, after):
        assert crest.crest_sighting_stake_out(*sighting, *target, room) != (value, after), name
        asked = f"sighting_stake_out_call {sighting_text(sighting)} {point_text(target)} {spelt(room)}"
        case = Case(asked, f"({value}, {spelt(after)})")
        tables.append(Table(f"move-calls-{name}", "ℕ × List ℕ", "sighting_stake_out_call", [case]))

    def some_room(size):
        return bytes(rng.randint(1, 255) for _ in range(size))

    for fault in (*FAULTS, "target"):
        of_target = fault == "target"
        sighting = faulty(rng, () if of_target else (fault,))
        target = on_the_rim(rng, anywhere(rng), 1 if of_target else 0)
        room = some_room(MOVE_SIZE)
        number = crest.sighting_stake_out(sighting, target).number
        add(f"{fault}-refused-with-zeros", sighting, target, room, number, bytes(MOVE_SIZE))
        if fault not in FAULTS[:2]:  # with a pair that is no unit a move may not fit i32
            add(f"{fault}-refused-but-written", sighting, target, room, number, moved(sighting, target, room))
    for size in (MOVE_SIZE - 1, MOVE_SIZE + 1, 0):
        target, room = anywhere(rng), some_room(size)
        sighting = faulty(rng, ())
        written = moved(sighting, target, room.ljust(MOVE_SIZE, b"\0"))[:size]
        add(f"room-of-{size}-written", sighting, target, room, 0, written)
        add(f"room-of-{size}-after-11", faulty(rng, ("place",)), target, room, 11, room)
    return tables


def false_readings(rng):
    """On runs: 18 and 16 not given or given too late, and sightings that are not counted."""
    tables = []

    def add(name, point, data, value, after):
        sighting = from_inside(rng, point)
        came = crest.sighting_answer(BRIEF.alignment, sighting)
        assert call_told(came, data) != (value, after), name
        asked = f"reading_call (sighted_to {sound(BRIEF).text} {sighting_text(sighting)}) {spelt(data)}"
        case = Case(asked, f"({value}, {spelt(after)})")
        tables.append(Table(f"answer-calls-{name}", "ℕ × List ℕ", f"reading_call {SIGHTED}", [case]))

    near, far = (GRAINS, 700), (GRAINS, FAR + 1)
    answer, refusal = (crest.plane_outcome(BRIEF.alignment, *point) for point in (near, far))
    assert (answer.number, refusal.number) == (0, 12)
    full = crest.Run(answered=30_000, refused=MOST_COUNTED - 30_000)
    fresh_bytes, full_bytes = map(crest.bytes_of_run, (crest.FRESH, full))
    short, long = fresh_bytes[:-1], fresh_bytes + b"\0"
    counted, counted_12 = (crest.bytes_of_run(crest.run_after(crest.FRESH, came)) for came in (answer, refusal))
    three = crest.ONE_AT  # where the latest three begin
    add("full-run-counts", near, full_bytes, 0, crest.bytes_of_run(crest.run_after(full, answer)))
    add("full-run-written", near, full_bytes, 16, crest.bytes_of_run(full._replace(latest=16)))
    add("full-run-after-12", far, full_bytes, 12, full_bytes)
    add("short-run-counts", near, short, 0, counted[:-1])
    add("short-run-after-12", far, short, 12, short)
    add("long-run-counts", near, long, 0, counted + b"\0")
    add("answer-not-counted", near, fresh_bytes, 0, fresh_bytes)
    add("refusal-not-counted", far, fresh_bytes, 12, fresh_bytes)
    add("refusal-with-numbers", far, fresh_bytes, 12, counted_12[:three] + counted[three:])
    return tables


def sightings(rng):
    named = [STRAIGHT, *named_alignments(rng, [short_wish(rng, 24) for _ in range(16)])]
    shortest = sorted(named, key=lambda one: one.alignment.total)[:6]
    tables = [
        *sightings_alone(rng),
        *sighted_moves(rng),
        *sighted_answers(rng, named),
        *observed_answers(rng, named),
        *sightings_on_files(rng),
        *history_tables(rng, "sightings", [sighted_calls(rng, one) for one in shortest], OBSERVED, 3),
    ]
    uses = (
        *ELEMENT_USES,
        *OUTCOME_USES,
        *PLACED_USES,
        *READING_USES,
        *ANSWER_USES,
        *FILE_CREST_USES,
        "declared.Move.{Move}",
        "declared.Move.TheVariants.{By, Refused as MoveRefused}",
        "declared.Display.{Display}",
        "declared.Run.{Run}",
        "declared.Sighting.{Sighting}",
        "declared.Observation.TheVariants.{Read, Sighted}",
        "Rattle.std.specs.Float.Ieee.{of_bits, of_int, div}",
        f"Refusals.{{Rule, rule, verdict, {', '.join(REASONS[: len(OWN)])}}}",
        "Crest.{Crest}",
        "Answers.{PaperAnswer, answer_of, answer_after, paper_after, asked_paper}",
        "Readings.{display_of}",
        "Sightings.{turned_of, sighted_of, is_sight, sight_rules, sight_question, sighting_question, sighted_on, sighted_to}",
        "Sightings.{observed_question, observed_to, observed_count, sighted_move_question, sighted_move}",
        "Run.{Shown, fresh}",
        "Calls.{sighting_of, sighting_stake_out_call, reading_call}",
        "Histories.{Call, read, acknowledge, after_calls, bytes_after_calls, fresh_bytes, demanded}",
        "Histories.{Event, came, acknowledgement, event_of}",
    )
    before = PAPER_FORM, SHOWN_FORM, CREST_FORM, *shown([BRIEF, *named])
    false = *by_false_rules(rng), *false_moves(rng), *false_readings(rng)
    return Chapter(16, "Sightings", uses, tables, before, false=false)


MAKERS = (
    rounding,
    records,
    acceptance,
    writer,
    series,
    bound,
    stations,
    judged,
    walk,
    answers,
    readings,
    run,
    refusals,
    program,
    any_crest,
    sightings,
)


def chapters():
    made = [maker(random.Random(SEED + number)) for number, maker in enumerate(MAKERS, 1)]
    for chapter in made:
        assert chapter.count >= FEWEST, (chapter.name, chapter.count)
    return made


def part_of(chapter):
    """Every table of a chapter, with a third of its cases where they are dear."""
    tables = [table._replace(cases=table.cases[:: 3 if table.size <= DEAR else 1]) for table in chapter.tables]
    return chapter._replace(tables=tables)


# ---------------------------------------------------------------------------
# The copy, and the checker


def needed_crates():
    """The lines of crates.txt for the crate and what it depends on, by name."""
    lines = {}
    for line in (ROOT / "crates.txt").read_text(encoding="utf-8").splitlines():
        name, colon, others = line.split("#")[0].partition(":")
        if colon:
            lines[name.strip()] = others.split()
    wanted, found = [CRATE], {}
    while wanted:
        name = wanted.pop()
        if name in lines and name not in found:
            found[name] = lines[name]
            wanted += lines[name]
    return found


def make_copy(folder):
    crates = needed_crates()
    (folder / "crates").mkdir(parents=True)
    lines = (f"{name}: {' '.join(others)}\n" for name, others in crates.items())
    (folder / "crates.txt").write_text("".join(lines), encoding="utf-8")
    for name in crates:
        shutil.copytree(ROOT / "crates" / name, folder / "crates" / name, ignore=shutil.ignore_patterns("out"))


def put_modules(folder, modules):
    """The modules of cases, and no others, in the copy's proofs."""
    proofs = folder / "crates" / CRATE / "proofs"
    for old in proofs.glob("Cases*.antt"):
        old.unlink()
    library = (ROOT / "crates" / CRATE / "proofs" / "Lib.antt").read_text(encoding="utf-8")
    library += "".join(f"pub mod {name}\n" for name in (FORMS, *modules))
    (proofs / "Lib.antt").write_text(library, encoding="utf-8")
    (proofs / f"{FORMS}.antt").write_text(FORMS_TEXT, encoding="utf-8")
    for name, text in modules.items():
        (proofs / f"{name}.antt").write_text(text, encoding="utf-8")


class Verdict(NamedTuple):
    """What the checker said: accepted, the refused (module, declaration) pairs, and all its text."""

    accepted: bool
    refused: list
    text: str


def ask_checker(folder):
    place = folder / "crates" / CRATE
    done = subprocess.run(["rt", "check"], cwd=place, stdout=subprocess.PIPE, stderr=subprocess.STDOUT, encoding="utf-8")
    found = re.findall(r"proofs/(\w+)\.antt:\d+:\d+: error: (?:`([^`]+)`)?", done.stdout)
    return Verdict(done.returncode == 0, found, done.stdout)


def errors_in(text, most=12):
    lines = [line[:400] for line in text.splitlines() if "error" in line]
    return "\n".join(lines[:most]) or text[-2000:]


def false_tables(chapter):
    """The chapter's own, and two cases of each table with their expected values exchanged; a table that expects one
    value only has none."""
    found = [table._replace(name=f"false-{table.name}") for table in chapter.false]
    for table in chapter.tables:
        one = table.cases[0]
        other = next((case for case in table.cases if case.due != one.due), None)
        if other:
            cases = [Case(one.asked, other.due), Case(other.asked, one.due)]
            found.append(table._replace(name=f"false-{table.name}", cases=cases))
    assert found, chapter.name
    return found


def single_cases(chapter, refused):
    """The refused declarations of a chapter again, a declaration for each case."""
    tables, cases = [], {}
    for table in chapter.tables:
        for name, some in declarations(table):
            if name in refused:
                tables.append(table._replace(name=f"{name}-case", cases=some, size=1))
                cases |= {f"{name}-case-{number}": case for number, case in enumerate(some, 1)}
    return tables, cases


def show_refused(folder, made, verdict):
    """Each refused case by itself: what is asked, and what the reference gives."""
    modules, cases = {}, {}
    for chapter in made:
        refused = {name for module, name in verdict.refused if module == chapter.module}
        tables, some = single_cases(chapter, refused)
        if tables:
            modules[chapter.module] = module_text(chapter, tables)
            cases |= {(chapter.module, name): case for name, case in some.items()}
    print(errors_in(verdict.text))
    if not modules:
        return
    put_modules(folder, modules)
    for place in dict.fromkeys(ask_checker(folder).refused):
        if place in cases:
            print(f"refused: {cases[place].asked}\n  reference: {cases[place].due}")


def report(made, verdict):
    """A line for each chapter."""
    refused = {module for module, _ in verdict.refused}
    for chapter in made:
        parts = sum(1 for table in chapter.tables for _ in declarations(table)) + len(chapter.after)
        word = "accepted"
        if not verdict.accepted:
            word = "REFUSED" if chapter.module in refused else "no error here, but the check failed"
        print(f"{chapter.number:2} {chapter.name:10} {chapter.count:5} cases, {parts:3} declarations: {word}")


def check_all(folder, part):
    """0 if the checker accepts every table, or its part, and refuses every false one."""
    start = time.monotonic()
    make_copy(folder)
    whole_ones = chapters()
    made = list(map(part_of, whole_ones)) if part else whole_ones
    put_modules(folder, {chapter.module: module_text(chapter, chapter.tables, chapter.after) for chapter in made})
    written = time.monotonic()
    verdict = ask_checker(folder)
    checked = time.monotonic()
    report(made, verdict)
    print(f"made in {written - start:.0f} s, checked in {checked - written:.0f} s")
    if not verdict.accepted:
        show_refused(folder, made, verdict)
        return 1
    false = {chapter.module: false_tables(chapter) for chapter in whole_ones}
    put_modules(folder, {chapter.module: module_text(chapter, false[chapter.module]) for chapter in made})
    verdict = ask_checker(folder)
    places = {(module, name) for module, some in false.items() for table in some for name, _ in declarations(table)}
    taken = sorted(places - set(verdict.refused))
    print(f"false tables: {len(places) - len(taken)} of {len(places)} refused, in {time.monotonic() - checked:.0f} s")
    if taken:
        print(f"NOT REFUSED: {', '.join(map(' '.join, taken))}\n{errors_in(verdict.text)}")
        return 1
    count, most = (sum(chapter.count for chapter in some) for some in (made, whole_ones))
    print(f"definition cases: {count}{f', a part of {most},' if part else ''} accepted, in {time.monotonic() - start:.0f} s")
    return 0


def main(arguments):
    sys.stdout.reconfigure(encoding="utf-8")
    part = arguments[:1] == ["--part"]
    folders = arguments[part:]
    if len(folders) > 1 or folders and folders[0].startswith("-"):
        sys.exit("usage: definition_cases.py [--part] [FOLDER]")
    if folders:
        folder = Path(folders[0]).resolve()
        folder.mkdir(parents=True)
        return check_all(folder, part)
    with tempfile.TemporaryDirectory(prefix="definition-cases-") as folder:
        return check_all(Path(folder), part)


if __name__ == "__main__":
    sys.exit(main(sys.argv[1:]))
