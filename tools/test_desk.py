#!/usr/bin/env python3
"""Tests of tools/crest: round trips, answers against reference/crest.py, runs, ranges, units, messages, slips, bad input, files, options and
usage. The commands are called in this process, in a folder of their own; what is wanted stands here in full, or comes from the reference. The last
line says how many cases there were and how many failed; fails on any. CREST_SHARED as in tools/desk/library.py.

usage: test_desk.py [SECTION ..]
"""

import ast
import csv
import io
import itertools
import json
import math
import os
import pathlib
import random
import re
import struct
import subprocess
import sys
import tempfile
import threading
import traceback
from decimal import Decimal
from fractions import Fraction
from typing import NamedTuple

sys.dont_write_bytecode = True
HERE = pathlib.Path(__file__).resolve().parent
ROOT = HERE.parent
sys.path[:0] = [str(HERE), str(ROOT / "reference")]
import crest as rules  # noqa: E402
import plain_files  # noqa: E402
import random_crests  # noqa: E402
import test_files  # noqa: E402
from desk import commands, library, units  # noqa: E402
from desk.words import parsers  # noqa: E402
from test_cases import Cases  # noqa: E402

ONE = 2**30
SENTENCES = re.findall(r'^ *"(.*)",$', (ROOT / "include" / "crest_text.h").read_text(), re.MULTILINE)
NAMES = {rules.LINE: "line", rules.ARC: "arc", rules.ENTRY: "entry", rules.EXIT: "exit"}
ANGLES = ("pair", "degrees", "gon", "bearing", "bearing-gon")
TURN = {"degrees": 360, "gon": 400, "bearing": 360, "bearing-gon": 400}
DIGITS = {"m": (5, 3), "mm": (2, 0), "grains": (0, 0)}  # after the point: of grains, of mm
K = ROOT / "examples" / "k.crest"
CASES = Cases("desk")
case, same = CASES.case, CASES.same


# ---- commands


class Said(NamedTuple):
    status: int  # or the traceback of a command that did not end well
    out: str
    err: str
    data: bytes  # of standard output


def crest(*words, given=b""):
    """A command in this process: what it said."""
    outs = [io.TextIOWrapper(io.BytesIO(), encoding="utf-8", write_through=True) for _ in range(2)]
    kept = sys.stdin, sys.stdout, sys.stderr
    sys.stdin, sys.stdout, sys.stderr = io.TextIOWrapper(io.BytesIO(given)), *outs
    try:
        status = commands.run([str(word) for word in words])
    except SystemExit as left:
        status = left.code
    except Exception:
        status = traceback.format_exc()
    finally:
        sys.stdin, sys.stdout, sys.stderr = kept
    data, err = (room.buffer.getvalue() for room in outs)
    return Said(status, data.decode("utf-8", "replace"), err.decode("utf-8", "replace"), data)


def write(name, data):
    pathlib.Path(name).write_bytes(data.encode("utf-8") if isinstance(data, str) else data)
    return name


def refusal(number):
    return f"refused {number}: {SENTENCES[number]}"


def said_is(what, said, status, err, out=""):
    return same(what, (said.status, said.err, said.out), (status, err, out))


def refuses(wanted, *words, status=1, output="none", given=b""):
    """A command that fails: the whole of its message, nothing on standard output, and the output file and the folder as they were."""
    write(output, b"old")
    before = sorted(os.listdir())
    said = crest(*words, given=given)
    wanted = "".join(line + "\n" if line.startswith("    ") else f"crest: {line}\n" for line in wanted.split("\n"))
    kept = pathlib.Path(output).read_bytes() == b"old" and sorted(os.listdir()) == before
    what = " ".join(map(str, words))
    if said_is(f"{what} refuses", said, status, wanted):
        case(f"{what} leaves files alone", kept, sorted(set(os.listdir()) ^ set(before)))


def misused(wanted, *words, command=None):
    """Bad usage that a command itself finds."""
    said = crest(*words)
    said_is(" ".join(map(str, words)), said, 2, f"crest: {wanted}\ncrest help {command or words[0]} says how it is used\n")


# ---- numbers as the tool shows them, a second time


def shown(value, digits):
    text = f"{Decimal(value).scaleb(-digits):.{digits}f}"
    return "0" + text[2:] if re.fullmatch(r"-0\.?0*", text) and value == 0 else text


def grains_text(value, unit, origin=0):
    return shown(value + origin, DIGITS[unit][0])


def mm_text(value, unit):
    return shown(value, DIGITS[unit][1])


def length_unit(unit):
    return "m" if unit == "m" else "mm"


def true_angle(c, s, angle):
    """The angle of a pair in floating point, from 0 to a turn."""
    turns = math.atan2(s, c) / math.tau
    return ((0.25 - turns if angle.startswith("bearing") else turns) % 1) * TURN[angle]


def apart(first, second, turn):
    """How far two angles of a turn lie apart."""
    off = abs(first - second) % turn
    return min(off, turn - off)


def pair_of(turns):
    """The pair of a part of a turn, by floating point: to within 1 of the tool's."""
    return ONE * math.cos(math.tau * float(turns)), ONE * math.sin(math.tau * float(turns))


# ---- round trips

ORIGINS = ((), ("--origin", "500000.12345", "-4100000.5"))
ORIGIN_GRAINS = {(): (0, 0), ORIGINS[1]: (50_000_012_345, -410_000_050_000)}


def crests():
    """Name, bytes and elements of accepted crests: those of tools/test_files.py, and one of each kind."""
    for name in ("k", *test_files.COUNTS):
        data = K.read_bytes() if name == "k" else pathlib.Path(f"{name}.crest").read_bytes()
        yield str(name), data, rules.check(data).elements
    rng = random.Random(7)
    for kind in NAMES:
        data, alignment = random_crests.random_file(rng, random_crests.Wish(count=3, kinds=(kind,), longest=400_000))
        yield NAMES[kind], data, alignment.elements
    elements = [beside_circle(rng, element) for element in random_crests.random_elements(rng, random_crests.Wish(count=40, gap=50, kink=1000))]
    yield "beside the circle", plain_files.raw_file(elements), elements


def beside_circle(rng, element):
    """An element whose direction is a unit, and may be the pair of no angle."""
    moved = element._replace(c=element.c + rng.randint(-1, 1), s=element.s + rng.randint(-1, 1))
    return moved if rules.is_unit(moved.c, moved.s) else element


def round_trips():
    test_files.main(".")
    changed = [0, 0]  # directions that came back, and those that are the pair of no angle
    for number, (name, data, elements) in enumerate(crests()):
        write("in.crest", data)
        plain_trip(name, data, elements)
        for at, (unit, angle) in enumerate(itertools.product(("m", "mm", "grains"), ANGLES)):
            if (unit, angle) == ("grains", "pair"):
                continue
            for way, (form, origin) in enumerate(itertools.product(("text", "csv"), ORIGINS)):
                if len(elements) <= 16 or way == (at + number) % 4:
                    trip(name, data, elements, unit, angle, origin, form, changed)
        json_trip(name, elements, ("m", "mm", "grains")[number % 3], ANGLES[number % 5], ORIGINS[number % 2])
    case("directions that came back", changed[0] > 2000, changed)
    case("directions that are the pair of no angle", changed[1] > 20, changed)
    same("k.elements", crest("show", K).out, (ROOT / "examples" / "k.elements").read_text())


def plain_trip(name, data, elements):
    """In grains and pairs: text and CSV, byte for byte, and each word as it stands in the record."""
    said = crest("show", "in.crest")
    said_is(f"{name} shown", said, 0, "", said.out)
    words = [line.split() for line in said.out.splitlines() if not line.startswith("#")]
    same(f"{name}: words", words, [line.split() for line in test_files.text_of(elements).splitlines()])
    made(f"{name}: text", said.data, data, elements)
    made(f"{name}: words alone", test_files.text_of(elements), data, elements)
    said = crest("show", "in.crest", "--csv")
    rows = [[NAMES[kind], *map(str, numbers), str(radius) if kind != rules.LINE else ""] for kind, *numbers, radius in elements]
    same(f"{name}: CSV", list(csv.reader(said.out.splitlines())), [["kind", "length_mm", "x_grains", "y_grains", "c", "s", "radius_mm"], *rows])
    made(f"{name}: CSV", said.data, data, elements)


def made(what, text, data, elements, *options):
    pathlib.Path("made").unlink(missing_ok=True)
    write("elements", text)
    said = crest("make", "elements", "made", *options)
    same(f"{what}: made", (said.status, but_jumps(said.err), pathlib.Path("made").exists()), (0, "", True))
    case(f"{what}: the same bytes", pathlib.Path("made").read_bytes() == data)


def but_jumps(err):
    """What is said but for jumps of the curvature, which most of these crests have."""
    return "".join(line for line in err.splitlines(True) if ": the curvature jumps at a spiral, from " not in line)


def trip(name, data, elements, unit, angle, origin, form, changed):
    what = f"{name} in {unit}, {angle}, {form} {' '.join(origin)}"
    options = ("--units", unit, "--angle", angle, *origin)
    said = crest("show", "in.crest", *options, *(["--csv"] if form == "csv" else []))
    write("shown", said.data)
    rows = [line.split() for line in said.out.splitlines()
            if not line.startswith("#")] if form == "text" else list(csv.reader(said.out.splitlines()))[1:]
    east, north = ORIGIN_GRAINS[origin]
    for row, element in zip(rows, elements):
        wanted = [NAMES[element.kind], mm_text(element.length, unit), grains_text(element.x, unit, east), grains_text(element.y, unit, north)]
        if row[:4] != wanted:
            same(f"{what}: numbers", row[:4], wanted)
        if angle != "pair" and apart(float(row[4]), true_angle(element.c, element.s, angle), TURN[angle]) > 2e-7:
            same(f"{what}: the angle of {element.c}, {element.s}", row[4], true_angle(element.c, element.s, angle))
    pathlib.Path("made").unlink(missing_ok=True)
    again = crest("make", "shown", "made", *(options if form == "text" else origin))
    if not same(f"{what}: made", (said.status, again.status, but_jumps(again.err), len(rows)), (0, 0, "", len(elements))):
        return
    back = rules.check(pathlib.Path("made").read_bytes()).elements
    differ = [(at, one, two) for at, (one, two) in enumerate(zip(elements, back), 1) if one != two]
    notes = [f"crest: in.crest: element {at}: c {one.c}, s {one.s} is the pair of no angle; make gives c {two.c}, s {two.s} for it"
             for at, one, two in differ]
    close = all(one._replace(c=0, s=0) == two._replace(c=0, s=0) and abs(one.c - two.c) <= 1 and abs(one.s - two.s) <= 1 for _, one, two in differ)
    same(f"{what}: differences said", said.err.splitlines(), notes)
    case(f"{what}: differ by 1 at the most", close and (differ or pathlib.Path("made").read_bytes() == data), differ)
    if angle != "pair":
        changed[0] += len(elements) - len(differ)
        changed[1] += len(differ)


def json_trip(name, elements, unit, angle, origin):
    words = ("show", "in.crest", "--units", unit, "--angle", angle, *origin)
    said, rows = crest(*words, "--json"), list(csv.reader(crest(*words, "--csv").out.splitlines()))
    found = json.loads(said.out, parse_float=Decimal, parse_int=Decimal)
    same(f"{name}: JSON, what it is in", (found["units"], found["angle"]), (unit, angle))
    same(f"{name}: JSON, origin", found["origin_m"], [Decimal(part).scaleb(-5) for part in ORIGIN_GRAINS[origin]])
    wanted = [{"kind": row[0], **{title: Decimal(cell or "0") for title, cell in zip(rows[0][1:], row[1:])}} for row in rows[1:]]
    same(f"{name}: JSON as CSV in {unit}, {angle}", found["elements"], wanted)
    same(f"{name}: JSON, how many", len(found["elements"]), len(elements))


# ---- answers


def some_crest(rng):
    wish = random_crests.Wish(count=rng.choice((1, 2, 5, 9)), longest=rng.choice((300, 3000)))
    return random_crests.random_file(rng, wish)


def forms(what, words, status):
    """The rows of a command as CSV, after finding that JSON and the table have the same."""
    as_csv, as_json, as_table = (crest(*words, *option) for option in (["--csv"], ["--json"], []))
    same(f"{what}: status of CSV, JSON and table", [said.status for said in (as_csv, as_json, as_table)], [status] * 3)
    titles, *rows = csv.reader(as_csv.out.splitlines())
    found = json.loads(as_json.out, parse_float=Decimal, parse_int=Decimal)["rows"]
    wanted = [json_row(titles, row) for row in rows]
    same(f"{what}: JSON as CSV", found, wanted)
    table = [line.split() for line in as_table.out.splitlines()]
    wanted = [titles[:-2], *([*(cell for cell in row[:-2] if cell), *(f"refused {row[-2]}: {row[-1]}".split() if row[-2] else [])] for row in rows)]
    same(f"{what}: table as CSV", table[: len(wanted)], wanted)
    return titles, rows, as_table.out.splitlines()[len(wanted) :]


def json_row(titles, row):
    values = {title: (None if cell in ("", "-") else cell if title == "name" else Decimal(cell)) for title, cell in zip(titles[:-2], row)}
    return {**values, "refused": {"number": Decimal(row[-2]), "sentence": row[-1]} if row[-2] else None}


def refused_cells(number):
    return [str(number), SENTENCES[number]] if number else ["", ""]


def answers():
    rng = random.Random(20_261_117)
    for number in range(18):
        data, alignment = some_crest(rng)
        write("in.crest", data)
        unit, origin = ("m", "mm", "grains")[number % 3], ORIGINS[number // 3 % 2]
        located(rng, data, alignment, unit, origin)
        placed(rng, data, alignment, unit, origin, ANGLES[number % 5])
        staked(rng, data, alignment, unit, origin, ANGLES[number % 5])
    examples()


def located(rng, data, alignment, unit, origin):
    east, north = ORIGIN_GRAINS[origin]
    points = [random_crests.random_point(rng, alignment) for _ in range(25)] + [(rules.FRAME + 1, 0), (2**31, -(2**31))]
    rows = "".join(f"P{at},{grains_text(x, unit, east)},{grains_text(y, unit, north)}\n" for at, (x, y) in enumerate(points))
    write("points.csv", f"name,x,y\n{rows}")
    wanted = [["name", f"station_{length_unit(unit)}", *(f"{name}_{unit}" for name in ("offset", "residual", "foot_x", "foot_y")), "refused",
               "sentence"]]
    for at, point in enumerate(points):
        found = rules.plane_answer(alignment, *point)
        row = [""] * 5
        if not found.number:
            x, y = rules.position_at(alignment, found.station)
            row = [mm_text(found.station, unit), grains_text(found.offset, unit), grains_text(found.residual, unit), grains_text(x, unit, east),
                   grains_text(y, unit, north)]
        wanted.append([f"P{at}", *row, *refused_cells(found.number)])
    titles, rows, below = forms("locate", ("locate", "in.crest", "points.csv", "--units", unit, *origin), 1)
    same(f"locate in {unit}", [titles, *rows], wanted)
    same("nothing below the table", below, [])
    answered = [point for point, row in zip(points, rows) if not row[-1]]
    write("points.csv", "x_grains,y_grains\n" + "".join(f"{x},{y}\n" for x, y in answered))
    same("locate, nothing refused", crest("locate", "in.crest", "points.csv").status, 0)


def placed(rng, data, alignment, unit, origin, angle):
    east, north = ORIGIN_GRAINS[origin]
    places = [(random_crests.random_station(rng, alignment), rng.randint(-(10**6), 10**6)) for _ in range(8)]
    places += [(alignment.total + 1, 0), (-1, 0), (0, rules.WIDEST_OFFSET + 1), (0, -rules.WIDEST_OFFSET)]
    rows = "".join(f"{mm_text(station, unit)};{grains_text(offset, unit)}\n" for station, offset in places)
    write("places.csv", f"station;offset\n{rows}")
    words = ("place", "in.crest", "places.csv", "--units", unit, "--angle", angle, *origin)
    titles, rows, _ = forms("place", words, 1)
    same("place: titles", titles[:5], ["name", f"station_{length_unit(unit)}", f"offset_{unit}", f"x_{unit}", f"y_{unit}"])
    same("place: how many", len(rows), len(places))
    for at, ((station, offset), row) in enumerate(zip(places, rows), 1):
        found = rules.line_answer(alignment, station, offset)
        wanted = [str(at), mm_text(station, unit), grains_text(offset, unit)]
        wanted += ["", ""] if found.number else [grains_text(found.x, unit, east), grains_text(found.y, unit, north)]
        same(f"place in {unit}", row[:5] + row[-2:], wanted + refused_cells(found.number))
        if not found.number:
            tangent = rules.direction_at(alignment, station)
            if angle == "pair":
                good = [int(word) for word in row[5:7]] == list(tangent)
            else:
                good = apart(float(row[5]), true_angle(*tangent, angle), TURN[angle]) < 1e-7
            case(f"place: direction as {angle}", good, row, tangent)
    joins = [0, *itertools.accumulate(element.length for element in alignment.elements)]
    step = max(1, alignment.total // 5)
    for option, stations in ((["--joins"], joins), (["--every", mm_text(step, unit)], [*range(0, alignment.total, step), alignment.total])):
        said = crest("place", "in.crest", *option, "--offset", grains_text(-7, unit), "--units", unit, "--csv")
        wanted = [(mm_text(station, unit), grains_text(-7, unit), grains_text(*rules.line_answer(alignment, station, -7)[2:3], unit))
                  for station in stations]
        same(f"place {option[0]}", [tuple(row[1:4]) for row in csv.reader(said.out.splitlines())][1:], wanted)
    single = [word for place in places[:3] for word in ("--at", mm_text(place[0], unit), grains_text(place[1], unit))]
    said = crest("place", "in.crest", *single, "--units", unit, "--angle", angle, *origin, "--csv")
    same("place --at", list(csv.reader(said.out.splitlines())), [titles, *rows[:3]])


def staked(rng, data, alignment, unit, origin, angle):
    east, north = ORIGIN_GRAINS[origin]
    frame = rules.FRAME
    points = [tuple(rng.randint(-frame, frame) for _ in range(4)) for _ in range(8)] + [(frame + 1, 0, 0, 0), (0, 0, 0, -frame - 1)]
    pairs = [random_crests.random_unit(rng) for _ in points]
    cells = [[f"S{at}", *own_texts(point[:2], unit, origin), *own_texts(point[2:], unit, origin), *map(str, pair)]
             for at, (point, pair) in enumerate(zip(points, pairs))]
    rows = "".join(",".join(row) + "\n" for row in cells)
    write("stakes.csv", f"point,x,y,target_x,target_y,c,s\n{rows}bad,{grains_text(0, unit, east)},{grains_text(0, unit, north)},"
          f"{grains_text(5, unit, east)},{grains_text(5, unit, north)},1073741824,100000\n")
    titles, rows, _ = forms("stake", ("stake", "stakes.csv", "--units", unit, *origin), 1)
    same("stake: titles", titles, ["name", f"forward_{unit}", f"left_{unit}", f"target_x_{unit}", f"target_y_{unit}", "refused", "sentence"])
    same("stake: how many", len(rows), len(points) + 1)
    for at, (point, pair, row) in enumerate(zip([*points, (0, 0, 5, 5)], [*pairs, (ONE, 100_000)], rows)):
        found = rules.stake_out(point[:2], point[2:], pair)
        move = ["", ""] if found.number else [grains_text(found.forward, unit), grains_text(found.left, unit)]
        wanted = [f"S{at}" if at < len(points) else "bad", *move, grains_text(point[2], unit, east), grains_text(point[3], unit, north),
                  *refused_cells(found.number)]
        same(f"stake in {unit}", row, wanted)
    staked_on_crest(rng, alignment, unit, origin)
    own, target, (c, s) = points[0][:2], points[0][2:], pairs[0]
    heading = ["--heading=" + (f"{c},{s}" if angle == "pair" else units.angle_text(c, s, angle)), "--angle", angle]
    c, s = (c, s) if angle == "pair" else units.direction(units.angle_text(c, s, angle), angle)
    found = rules.stake_out(own, target, (c, s))
    words = ["--own", *own_texts(own, unit, origin), "--target", *own_texts(target, unit, origin)]
    said = crest("stake", *words, *heading, "--units", unit, *origin, "--json")
    same("stake --own --target", list(json.loads(said.out, parse_float=Decimal, parse_int=Decimal)["rows"][0].values())[1:3],
         [Decimal(grains_text(found.forward, unit)), Decimal(grains_text(found.left, unit))])


def own_texts(point, unit, origin):
    return [grains_text(number, unit, part) for number, part in zip(point, ORIGIN_GRAINS[origin])]


def staked_on_crest(rng, alignment, unit, origin):
    """A target on the crest, under the crest's direction brought to unit length; forward and left to a grain."""
    places = [(random_crests.random_station(rng, alignment), rng.randint(-1000, 1000)) for _ in range(4)] + [(alignment.total + 1, 0)]
    own = [random_crests.random_point(rng, alignment) for _ in places]
    cells = [[*own_texts(point, unit, origin), mm_text(place[0], unit), grains_text(place[1], unit)] for point, place in zip(own, places)]
    rows = "".join(",".join(row) + "\n" for row in cells)
    write("stakes.csv", f"x,y,station,offset\n{rows}")
    said = crest("stake", "stakes.csv", "--crest", "in.crest", "--units", unit, *origin, "--csv")
    rows = list(csv.reader(said.out.splitlines()))[1:]
    same("stake on a crest: how many", len(rows), len(places))
    for point, place, row in zip(own, places, rows):
        found = rules.line_answer(alignment, *place)
        if found.number:
            same("stake on a crest, refused", row[1:], ["", "", "", "", *refused_cells(found.number)])
            continue
        tx, ty = rules.direction_at(alignment, place[0])
        move = rules.stake_out(point, (found.x, found.y), random_crests.unit(tx, ty))
        off = [abs(round(float(cell) * 10 ** DIGITS[unit][0]) - number) for cell, number in zip(row[1:3], (move.forward, move.left))]
        case("stake on a crest", max(off) <= 1 and row[3:5] == own_texts((found.x, found.y), unit, origin), row, move)
    same("stake on a crest: status", said.status, 1)


def examples():
    """The examples of docs/RULES.md, by hand."""
    write("points.csv", "name,x_grains,y_grains\n1,512,300\n2,550,300\n3,-100,0\n4,-101,0\n5,1000100,0\n6,1000101,0\n"
          "7,500000,20000000\n8,500000,20000001\n")
    said = crest("locate", K, "points.csv", "--csv")
    said_is("examples 1 to 8", said, 1, "", "name,station_mm,offset_grains,residual_grains,foot_x_grains,foot_y_grains,refused,sentence\n"
            "1,5,300,12,500,0,,\n2,5,300,50,500,0,,\n3,0,0,-100,0,0,,\n"
            f"4,,,,,,13,{SENTENCES[13]}\n5,10000,0,100,1000000,0,,\n6,,,,,,14,{SENTENCES[14]}\n7,5000,20000000,0,500000,0,,\n"
            f"8,,,,,,12,\"{SENTENCES[12]}\"\n")
    said = crest("locate", K, "points.csv", "--units", "m")
    said_is("examples 1 to 8 as a table", said, 1, "",
            "name  station_m   offset_m  residual_m  foot_x_m  foot_y_m\n"
            "1         0.005    0.00300     0.00012   0.00500   0.00000\n"
            "2         0.005    0.00300     0.00050   0.00500   0.00000\n"
            "3         0.000    0.00000    -0.00100   0.00000   0.00000\n"
            f"4     {refusal(13)}\n"
            "5        10.000    0.00000     0.00100  10.00000   0.00000\n"
            f"6     {refusal(14)}\n"
            "7         5.000  200.00000     0.00000   5.00000   0.00000\n"
            f"8     {refusal(12)}\n")
    said_is("example 9", crest("place", K, "--at", "5", "300", "--units", "grains", "--csv"), 0, "",
            "name,station_mm,offset_grains,x_grains,y_grains,c,s,refused,sentence\n1,5,300,500,300,1073741824,0,,\n")
    curve = "200000 0 0 1073741824 0 1000000"
    for number, kind, place in ((10, "arc", "100000 9983342 499583"), (11, "entry", "200000 19980009 666191"), (12, "exit", "0 -19980009 666191")):
        station, x, y = place.split()
        crest("make", write("elements", f"{kind} {curve}"), "one.crest")
        said = crest("place", "one.crest", "--at", station, "0", "--units", "grains", "--csv")
        same(f"example {number}", said.out.splitlines()[1].split(",")[1:5], [station, "0", x, y])
    said = crest("stake", "--own", "0", "0", "--target", "100", "200", "--heading", "0,1073741824", "--units", "grains", "--csv")
    said_is("example 13", said, 0, "", "name,forward_grains,left_grains,target_x_grains,target_y_grains,refused,sentence\n1,200,-100,100,200,,\n")
    said = crest("stake", "--own", "0", "0", "--target", "1", "2", "--heading", "0", "--angle", "bearing", "--units", "m")
    said_is("example 13 in metres", said, 0, "",
            "name  forward_m    left_m  target_x_m  target_y_m\n1       2.00000  -1.00000     1.00000     2.00000\n")


# ---- runs


def runs():
    rng = random.Random(5)
    for number in range(10):
        mixed_run(rng, number)
    full_run()
    odd_runs(rng)
    run_messages()
    run_kept()
    together()


def readings_of(rng, alignment, line):
    if line:
        found = [(random_crests.random_station(rng, alignment), rng.randint(-1000, 1000)) for _ in range(rng.randint(1, 4))]
        odd = [(-1, 0), (0.5, 0), (0, float("nan")), (0, rules.WIDEST_OFFSET + 1)]
    else:
        found = [random_crests.random_point(rng, alignment) for _ in range(rng.randint(1, 5))]
        odd = list(test_files.ODD_READINGS)
    return [tuple(map(float, pair)) for pair in found + rng.sample(odd, rng.choice((0, 0, 1, 2)))]


def packed(readings):
    return b"".join(struct.pack("<dd", *pair) for pair in readings)


def mixed_run(rng, number):
    """Nights, acknowledgements and looks in any order, against the reference's run."""
    data, alignment = some_crest(rng)
    broken = plain_files.patched(data, 40, b"\7")
    state, unit = rules.FRESH, ("m", "mm", "grains")[number % 3]
    pathlib.Path("run").unlink(missing_ok=True)
    for step in range(12):
        what = "night" if step == 0 else rng.choice(("night", "night", "night", "acknowledge", "run"))
        if what == "night":
            state = one_night(rng, data if rng.randrange(5) else broken, alignment, state, unit, step == 0)
        elif what == "acknowledge":
            done = f"reading {state.first_reading}, and every refusal after it:\n    {refusal(state.first)}\nacknowledged\n"
            wanted = done if state.first else "there was no refusal to acknowledge\n"
            said_is("acknowledge", crest("acknowledge", "run"), 0, "", wanted)
            state = rules.acknowledged(state)
        else:
            said_is("run", crest("run", "run"), int(state.first > 0), "", run_words(state))
            said = crest("run", "run", "--json")
            same("run --json", (said.status, json.loads(said.out)), (int(state.first > 0), {**run_json(state), "full": False}))
        same(f"the run's bytes after {what}", pathlib.Path("run").read_bytes(), rules.bytes_of_run(state))


def run_words(state):
    first = f"first refusal since the last acknowledgement: reading {state.first_reading}\n    {refusal(state.first)}\n"
    return f"answered {state.answered}, refused {state.refused}\n" + (first if state.first else "no refusal since the last acknowledgement\n")


def run_json(state):
    first = {"number": state.first, "reading": state.first_reading, "sentence": SENTENCES[state.first]} if state.first else None
    return {"answered": state.answered, "refused": state.refused, "latest_number": state.latest, "first_refusal": first}


def one_night(rng, data, alignment, state, unit, new):
    line = rng.randrange(3) == 0
    readings = readings_of(rng, alignment, line)
    write("in.crest", data)
    write("readings", packed(readings))
    found = rules.check(data)
    wanted, before, refused = [], state, False
    for at, pair in enumerate(readings, 1):
        reading = (rules.LinePlace if line else rules.PlanePoint)(*map(rules.f64_bits, pair))
        outcome, state = rules.take_reading(state, found, reading)
        number = str(state.answered + state.refused)
        cells = [""] * (2 if line else 3)
        if not outcome.number:
            first, second, third = outcome.three
            cells = [grains_text(first, unit), grains_text(second, unit), grains_text(third, unit)][: 2 if line else 3]
            cells = cells if line else [mm_text(first, unit), *cells[1:]]
        wanted.append([number, str(at), *cells, *refused_cells(outcome.number)])
        refused = refused or outcome.number > 0
    titles = ["reading", "name", *([f"x_{unit}", f"y_{unit}"] if line else [f"station_{length_unit(unit)}", f"offset_{unit}", f"residual_{unit}"]),
              "refused", "sentence"]
    kept = pathlib.Path("run").read_bytes() if not new else None
    words = ("night", "in.crest", "readings", "run", "--units", unit, *(["--line"] if line else []), *(["--new"] if new else []))
    status = int(refused or state.first > 0)
    for option in rng.sample((["--csv"], ["--json"], []), 3):
        pathlib.Path("run").unlink() if kept is None and pathlib.Path("run").exists() else kept is not None and write("run", kept)
        said = crest(*words, *option)
        same("night: status", (said.status, said.err), (status, ""))
        if option == ["--csv"]:
            same("night as CSV", list(csv.reader(said.out.splitlines())), [titles, *wanted])
        elif option == ["--json"]:
            got = json.loads(said.out, parse_float=Decimal)
            same("night as JSON: the run", (got["run"], got["not_counted"]), (run_json(state), 0))
            same("night as JSON: rows", json.loads(json.dumps(got["rows"], default=float)),
                 json.loads(json.dumps([json_row(titles, row) for row in wanted], default=float)))
        else:
            case("night as a table: below it", said.out.endswith("\n" + run_words(state)), said.out)
            same("night as a table: rows", [line.split()[:2] for line in said.out.splitlines()[1 : len(wanted) + 1]], [row[:2] for row in wanted])
    assert before.answered + before.refused + len(readings) == state.answered + state.refused
    return state


def full_run():
    """Two readings before it is full, and two that are not counted; then the acknowledgement."""
    state = rules.FRESH._replace(answered=65_530, refused=3)
    write("run", rules.bytes_of_run(state))
    write("readings", packed([(512, 300), (0.5, 0), (512, 300), (0, 0)]))
    said = crest("night", K, "readings", "run", "--units", "grains")
    said_is("a run that becomes full", said, 1, "",
            "reading  name  station_mm  offset_grains  residual_grains\n"
            "65534    1              5            300               12\n"
            f"65535    2     {refusal(10)}\n"
            f"-        3     {refusal(16)}\n"
            f"-        4     {refusal(16)}\n"
            f"answered 65531, refused 4\nfirst refusal since the last acknowledgement: reading 65535\n    {refusal(10)}\n"
            "not counted: 2 readings\n")
    same("its bytes", pathlib.Path("run").read_bytes(),
         rules.bytes_of_run(state._replace(answered=65_531, refused=4, latest=10, first=10, first_reading=65_535)))
    said = json.loads(crest("night", K, "readings", "run", "--units", "grains", "--json").out)
    same("a full run as JSON", (said["not_counted"], [row["reading"] for row in said["rows"]], said["rows"][0]["refused"]["number"]),
         (4, [None] * 4, 16))
    said_is("a full run acknowledged", crest("acknowledge", "run"), 0, "",
            f"reading 65535, and every refusal after it:\n    {refusal(10)}\nacknowledged\n")
    said_is("a full run with nothing to acknowledge", crest("run", "run"), 1, "",
            f"answered 65531, refused 4\nno refusal since the last acknowledgement\nfull: {refusal(16)}, and no reading is counted\n")
    case("a full run as JSON, looked at", json.loads(crest("run", "run", "--json").out)["full"])
    same("a night on a full run", crest("night", K, "readings", "run", "--units", "m").status, 1)


def odd_runs(rng):
    """Any 24 bytes are a run; bytes 10 and 11 stay."""
    for _ in range(20):
        data = rng.randbytes(24)
        write("run", data)
        write("readings", packed([(512, 300), (-1, 0)]))
        crest("night", K, "readings", "run", "--units", "grains")
        wanted = data
        for reading in rules.plane_readings(packed([(512, 300), (-1, 0)])):
            _, wanted = rules.c_reading(K.read_bytes(), reading, wanted)
        same("a run of any bytes", pathlib.Path("run").read_bytes(), wanted)
        crest("acknowledge", "run")
        same("and acknowledged", pathlib.Path("run").read_bytes(), rules.crest_acknowledge(wanted)[1])


def run_messages():
    write("readings", packed([(512, 300)]))
    night = ("night", K, "readings")
    for size in (0, 23, 25, 48):
        write("run", bytes(size))
        for words in ((*night, "run", "--units", "m"), ("run", "run"), ("acknowledge", "run")):
            said_is(f"a run of {size} bytes, {words[0]}", crest(*words), 1, "crest: run: is no run of 24 bytes\n")
        same("it stays as it was", pathlib.Path("run").read_bytes(), bytes(size))
    for words, hint in (((*night, "absent", "--units", "m"), "; --new begins a run"), (("run", "absent"), ""), (("acknowledge", "absent"), "")):
        said_is(f"no run, {words[0]}", crest(*words), 1, f"crest: absent: No such file or directory{hint}\n")
    case("none was made", not pathlib.Path("absent").exists())
    write("run", bytes(24))
    said_is("--new over a run", crest(*night, "run", "--new", "--units", "m"), 1, "crest: run: is there already; without --new its run goes on\n")
    same("it stays", pathlib.Path("run").read_bytes(), bytes(24))
    os.makedirs("folder", exist_ok=True)
    said_is("a folder for a run", crest(*night, "folder", "--units", "m"), 1, "crest: folder: Is a directory\n")
    said_is("a run in no folder", crest(*night, "absent/run", "--new", "--units", "m"), 1, "crest: absent/run: No such file or directory\n")
    said_is("no readings", crest("night", K, "absent", "run", "--units", "m"), 1, "crest: absent: No such file or directory\n")
    said_is("no crest", crest("night", "absent", "readings", "run", "--units", "m"), 1, "crest: absent: No such file or directory\n")
    write("tail", packed([(512, 300)]) + b"\1\2\3")
    said_is("a tail", crest("night", K, "tail", "run", "--units", "m"), 1,
            "crest: tail: 1 reading of 16 bytes, and 3 bytes more: a part is missing\n")
    said_is("an empty night", crest("night", K, write("empty", b""), "run", "--units", "m"), 1, "crest: empty: is empty: there are no readings\n")
    said_is("a night of no rows", crest("night", K, write("empty.csv", "x_m,y_m\n"), "run", "--units", "m"), 1, "crest: empty.csv: has no rows\n")
    write("text", "x_m,y_m\n0,0\n")
    wanted = "crest: text: is text and no readings of 16 bytes; a CSV file's name ends with .csv\n"
    said_is("text for readings", crest("night", K, "text", "run", "--units", "m"), 1, wanted)
    write("half.csv", "x_m,y_m\n0.00512,0.003\n0,\n")
    said_is("a cell that is missing", crest("night", K, "half.csv", "run", "--units", "m"), 1, "crest: half.csv: line 3: y_m is missing\n")
    misused("give --units m, mm or grains", "night", K, "readings", "run")
    same("nothing was counted", pathlib.Path("run").read_bytes(), bytes(24))
    write("night.CSV", "point;east_m;north_m\nstöne 1;0.00512;0.003\n")
    said = crest("night", K, "night.CSV", "run", "--units", "mm")
    said_is("a night from CSV", said, 0, "",
            "reading  name     station_mm  offset_mm  residual_mm\n1        stöne 1           5       3.00         0.12\n"
            "answered 1, refused 0\nno refusal since the last acknowledgement\n")
    write("broken", plain_files.patched(K.read_bytes(), 7, b"\1"))
    said = crest("night", "broken", "readings", "run", "--units", "m", "--csv")
    said_is("a damaged crest refuses each reading", said, 1, "",
            f"reading,name,station_m,offset_m,residual_m,refused,sentence\n2,1,,,,2,{SENTENCES[2]}\n")
    same("and is counted so", rules.run_of(pathlib.Path("run").read_bytes())[:5], (1, 1, 2, 2, 2))
    said = crest("acknowledge", "run", "--json")
    got = json.loads(said.out)
    same("acknowledge --json", (said.status, got["before"]["first_refusal"]["reading"], got["after"]["first_refusal"]), (0, 2, None))


def run_kept():
    """Where what a command says can't be written, the run is as it was, or it is said that the night was counted; and an output is never
    the run, the readings or the crest."""
    write("readings", packed([(512, 300), (-101, 0)]))
    state = rules.bytes_of_run(rules.FRESH._replace(refused=1, latest=13, first=13, first_reading=1))
    for output, name in (("/dev/full", "/dev/full: No space left on device"), ("absent/out", "absent/out: No such file or directory"),
                         ("folder", "folder: Is a directory")):
        for words in (("night", K, "readings", "run", "--units", "m"), ("acknowledge", "run")):
            write("run", state)
            counted = words[0] == "night" and output == "/dev/full"  # a device is written to after the run
            more = "; the night was counted, and its listing is not whole" if counted else ""
            said_is(f"{words[0]} -o {output}", crest(*words, "-o", output), 1, f"crest: {name}{more}\n")
            same(f"{words[0]} -o {output}: the run stays or is counted", pathlib.Path("run").read_bytes() == state, not counted)
    write("in.crest", K.read_bytes())
    os.path.lexists("run-link") or os.symlink("run", "run-link")
    for words, names in ((("night", "in.crest", "readings", "run", "--units", "m"), ("run", "readings", "in.crest", "run-link")),
                         (("run", "run"), ("run",)), (("acknowledge", "run"), ("run",))):
        for name in names:
            write("run", state)
            kept = pathlib.Path(name).read_bytes()
            said = crest(*words, "-o", name)
            same(f"{words[0]} -o {name}", (said.status, said.err), (1, f"crest: {name}: is read by the same command; nothing was written\n"))
            same(f"{words[0]} -o {name}: it stays, and the run", (pathlib.Path(name).read_bytes(), pathlib.Path("run").read_bytes()), (kept, state))
            write("in.crest", K.read_bytes())
            write("readings", packed([(512, 300), (-101, 0)]))


def program(*words, **more):
    """A command as a process of its own."""
    return subprocess.run([sys.executable, str(HERE / "crest"), *map(str, words)], capture_output=True, **more)


def together():
    """Four processes at the same time on one run: nothing is lost."""
    write("run", bytes(24))
    write("readings", packed([(512, 300), (-101, 0), (0, 0)]))
    command = f'for i in 1 2 3 4; do "{sys.executable}" "{HERE / "crest"}" night "{K}" readings run --units m > /dev/null; [ $? = 1 ] || exit 9; done'
    started = [subprocess.Popen(["bash", "-c", command]) for _ in range(4)]
    same("processes at the same time: status", [process.wait() for process in started], [0] * 4)
    found = rules.run_of(pathlib.Path("run").read_bytes())
    same("processes at the same time: the sum", (found.answered, found.refused, found.first, found.first_reading), (32, 16, 13, 2))


# ---- ranges


def limits():
    """The limits of docs/RULES.md by name."""
    rows = re.findall(r"^\| `(\w+)` \| ([\d,^]+)", (ROOT / "docs" / "RULES.md").read_text(), re.MULTILINE)
    return {name: int(value.replace(",", "")) if "^" not in value else 2 ** int(value.partition("^")[2]) for name, value in rows}


def ranges():
    found = limits()
    same("the limits of docs/RULES.md", (len(found), found["unit_square"]), (17, 2**60))
    longest, widest, frame = found["longest_element"], found["widest"], found["frame"]
    for (kind, word), unit, origin in itertools.product(NAMES.items(), ("m", "mm", "grains"), ORIGINS):
        ranges_of(kind, word, unit, origin, longest, widest, frame)
    own_numbers(found)
    sizes()


def sizes():
    """The sizes of lent bytes are those of the headers."""
    text = "".join((ROOT / "include" / name).read_text() for name in ("crest.h", "probes.h"))
    defined = {name: int(size) for name, size in re.findall(r"^#define (\w+_BYTES\w*) (\d+)u$", text, re.MULTILINE)}
    same("sizes of include/crest.h", {f"CREST_{name}": getattr(library, name) for name in
                                      ("BLOCK_BYTES", "RECORD_BYTES", "FILE_BYTES_MAX", "RUN_BYTES", "MOVE_BYTES")},
         {name: size for name, size in defined.items() if name.startswith("CREST_")})
    same("sizes of include/probes.h", (library.POSITION_BYTES, library.RECORD_BYTES),
         (defined["PROBE_POSITION_BYTES"], defined["PROBE_RECORD_BYTES"]))
    same("bytes of a record and a run", (library.RECORD.size, library.RUN.size), (defined["CREST_RECORD_BYTES"], defined["CREST_RUN_BYTES"]))


def ranges_of(kind, word, unit, origin, longest, widest, frame):
    options = ("--units", unit, "--angle", "pair", *origin)
    east, north = ORIGIN_GRAINS[origin]
    a, per = ("a" if kind == rules.LINE else "an"), length_unit(unit)
    spoken = word + " spiral" * (kind in (rules.ENTRY, rules.EXIT))
    radius = 0 if kind == rules.LINE else widest
    hint = "" if unit == "grains" else "; --origin E N moves the frame"

    def element(length=1000, x=0, y=0, radius=radius):
        return f"{word} {mm_text(length, unit)} {grains_text(x, unit, east)} {grains_text(y, unit, north)} {ONE} 0 {mm_text(radius, unit)}"

    def refused(text, *details):
        refuses(f"elements: line 1: {refusal(6)}\n" + "\n".join(f"    {detail}" for detail in details), "make", write("elements", text), "none",
                *options)

    for length in (0, longest + 1):
        refused(element(length), f"length {mm_text(length, unit)} {per}: allowed are {mm_text(1, unit)} to {mm_text(longest, unit)} {per}")
    x_range = f"allowed are {grains_text(-frame, unit, east)} to {grains_text(frame, unit, east)} {unit}{hint}"
    y_range = f"allowed are {grains_text(-frame, unit, north)} to {grains_text(frame, unit, north)} {unit}{hint}"
    refused(element(x=frame + 1), f"x {grains_text(frame + 1, unit, east)} {unit}: {x_range}")
    refused(element(y=-frame - 1), f"y {grains_text(-frame - 1, unit, north)} {unit}: {y_range}")
    refused(element(longest + 1, -frame - 1, frame + 1),
            f"length {mm_text(longest + 1, unit)} {per}: allowed are {mm_text(1, unit)} to {mm_text(longest, unit)} {per}",
            f"x {grains_text(-frame - 1, unit, east)} {unit}: {x_range}", f"y {grains_text(frame + 1, unit, north)} {unit}: {y_range}")
    if kind == rules.LINE:
        for radius in (5, -5):
            refused(element(radius=radius), f"radius {mm_text(radius, unit)} {per}: a line has the radius 0")
        lengths = (1, longest)
    else:
        for length in (1, 1000, longest):
            least = length * (2 if kind == rules.ARC else 1)
            for radius in (0, least - 1, 1 - least, widest + 1, -widest - 1):
                refused(element(length, radius=radius), f"radius {mm_text(radius, unit)} {per}: for {a} {spoken} of {mm_text(length, unit)} {per} "
                        f"allowed are {mm_text(least, unit)} to {mm_text(widest, unit)} {per}, or the negative of that to the right")
        lengths = (1, longest)
    for length, x, y in ((lengths[0], frame, -frame), (lengths[1], -frame, frame)):
        write("elements", element(length, x, y))
        said = crest("make", "elements", "made", *options)
        same(f"{word} at the ends of its range in {unit}", (said.status, said.err), (0, ""))


def own_numbers(found):
    """No number of a rule stands in the tool: neither among its numbers nor in its texts."""
    numbers = {value for value in found.values() if value >= 65_535 and value != 2**31} | {30_030_002, 65_536, 60_000_000}
    for path in sorted((HERE / "desk").glob("*.py")):
        there = [(line, value) for line, value in numbers_in(path.read_text()) if value in numbers]
        same(f"numbers of rules in {path.name}", there, [])
    text = "\"65535\"\nx = 5 + 500_000 * 2 ** 60\ny = f'up to {x} or 20,000,000'\n# 65535\n"
    same("the scan finds them", {value for _, value in numbers_in(text)}, {5, 500_000, 2, 60, 2**60, 20_000_000})


def numbers_in(text):
    """Numbers of a program but for those in comments and docstrings, powers of 2 computed too, with their lines."""
    tree = ast.parse(text)
    docstrings = {id(node.value) for node in ast.walk(tree) if isinstance(node, ast.Expr) and isinstance(node.value, ast.Constant)}
    for node in ast.walk(tree):
        if isinstance(node, ast.BinOp) and isinstance(node.op, ast.Pow) and all(isinstance(side, ast.Constant) for side in (node.left, node.right)):
            if node.left.value == 2:
                yield node.lineno, 2**node.right.value
        elif isinstance(node, ast.Constant) and isinstance(node.value, (int, float)):
            yield node.lineno, node.value
        elif isinstance(node, ast.Constant) and isinstance(node.value, str) and id(node) not in docstrings:
            for word in re.findall(r"\d[\d,_]*", re.sub(r"--origin \d+ \d+", "", node.value)):
                yield node.lineno, int(re.sub("[,_]", "", word))


# ---- units


def unit_cases():
    for word, wanted in {"0": 0, "-0": 0, "+7": 7, "12.": 12, ".5": Fraction(1, 2), "-.25": Fraction(-1, 4), "1e3": 1000, "1.5E-2": Fraction(3, 200),
                         "-2e+1": -20, "007.50": Fraction(15, 2)}.items():
        same(f"number {word}", units.number(word), wanted)
    for word in ("", "-", "+", ".", "e5", "1e", "1e100", "1_000", "0x10", "nan", "inf", "-inf", "1 2", "--1", "1.2.3", "１２", "1'000", "1/2", "5m",
                 "9" * 61):
        try:
            case(f"'{word}' is no number", False, units.number(word))
        except units.Unreadable as error:
            wanted = f"'{word}' is not a number" if len(word) <= 60 else f"'{word[:60]}..' has more than 60 characters"
            same(f"what is said of '{word}'", str(error), wanted)
    for word in ("1,5", "-0,25", ",5", "1,000.5", "1.000,5"):
        try:
            case(f"'{word}' is no number", False, units.number(word))
        except units.Unreadable as error:
            same(f"what is said of '{word}'", str(error), f"'{word}' has a comma: the decimal point is a point, and thousands have no mark")
    for value, wanted in (("0.5", 1), ("-0.5", -1), ("1.5", 2), ("2.5", 3), ("-2.5", -3), ("0.4999999999999999999", 0), ("7", 7),
                          ("-0.4999999999999999999", 0)):
        same(f"{value} rounded", units.rounded(Fraction(value)), wanted)
    for value, digits, wanted in ((0, 5, "0.00000"), (-1, 5, "-0.00001"), (123456, 5, "1.23456"), (-100000, 5, "-1.00000"), (7, 0, "7"),
                                  (-7, 0, "-7"), (5, 2, "0.05")):
        same(f"{value} with {digits} digits", units.decimal(value, digits), wanted)
    rounding_said()
    angles()


def rounding_said():
    """What is rounded is said, with its line; and what is not, is not."""
    for x, grains, said in (("0.000005", 1, ".00500"), ("-0.000005", -1, ".00500"), ("0.0000049", 0, ".00490"), ("1e-5", 1, None),
                            ("-1.50000", -150000, None),
                            ("1.500004", 150000, ".00400"), ("+.25", 25000, None), ("0.2e1", 200000, None), ("12.123450000", 1212345, None)):
        write("points.csv", f"x_m,y_m\n\n{x},0\n")
        wanted = f"crest: points.csv: 1 number rounded to a grain (0.01 mm), by 0{said} mm at the most (line 3)\n" if said else ""
        said_is(f"x {x}", crest("readings", "make", "points.csv", "out"), 0, wanted, "out: 1 reading\n")
        same(f"x {x} as a reading", struct.unpack("<dd", pathlib.Path("out").read_bytes()), (float(grains), 0.0))
    write("points.csv", "station_m,offset_mm\n1.0004,0.004\n1.0005,-0.005\n2,0.01\n2.00049,-7.123\n")
    said = crest("readings", "make", "points.csv", "out", "--line")
    said_is("several rounded", said, 0, "crest: points.csv: 3 numbers rounded to a grain (0.01 mm), by 0.00500 mm at the most (line 3)\n"
            "crest: points.csv: 3 numbers rounded to a mm, by 0.50000 mm at the most (line 3)\n", "out: 4 readings\n")
    wanted = ((1000.0, 0.0), (1001.0, -1.0), (2000.0, 1.0), (2000.0, -712.0))
    same("several rounded: readings", tuple(struct.iter_unpack("<dd", pathlib.Path("out").read_bytes())), wanted)
    said = crest("readings", "show", "out", "--line", "--units", "m")
    said_is("shown again", said, 0, "", "name,station_m,offset_m\n1,1.000,0.00000\n2,1.001,-0.00001\n3,2.000,0.00001\n4,2.000,-0.00712\n")
    write("out", packed([(0.5, float("nan")), (float("inf"), -1e300), (-0.0, 2.0**60), (1234567.0, -1.0)]))
    said = crest("readings", "show", "out", "--units", "grains")
    said_is("odd readings shown", said, 0, "", "name,x_grains,y_grains\n1,0.5,nan\n2,inf,-1e+300 grains\n3,0,1152921504606846976\n4,1234567,-1\n")
    found = json.loads(crest("readings", "show", "out", "--units", "mm", "--json").out)
    same("readings as JSON", (found["units"], found["rows"][3]), ("mm", {"name": "4", "x_mm": 12345.67, "y_mm": -0.01}))
    same("odd readings as JSON", found["rows"][0], {"name": "1", "x_mm": 0.005, "y_mm": "nan"})
    said = crest("readings", "show", "out", "--units", "m", "--origin", "500", "-7")
    case("odd readings with an origin", said.out.splitlines()[-1] == "4,512.34567,-7.00001", said.out)
    rng = random.Random(3)
    for unit, origin in itertools.product(("m", "mm", "grains"), ORIGINS):
        data = packed([(rng.randint(-(10**9), 10**9), rng.randint(-(10**9), 10**9)) for _ in range(50)])
        write("readings", data)
        for line in ([], ["--line"]):
            write("shown.csv", crest("readings", "show", "readings", "--units", unit, *line, *origin).data)
            said_is("readings from what is shown", crest("readings", "make", "shown.csv", "back", *line, *origin), 0, "", "back: 50 readings\n")
            same(f"readings in {unit}, and back", pathlib.Path("back").read_bytes(), data)


def angles():
    quarters = {0: (ONE, 0), 1: (0, ONE), 2: (-ONE, 0), 3: (0, -ONE)}
    for quarter in range(-4, 5):
        for angle in TURN:
            turns = 1 - quarter if angle.startswith("bearing") else quarter
            same(f"{quarter} quarters as {angle}", units.direction(str(quarter * TURN[angle] // 4), angle), quarters[turns % 4])
        same(f"pair of {quarter} quarters", units.pair(Fraction(quarter, 4)), quarters[quarter % 4])
    for word, angle in (("360.0000001", "degrees"), ("-361", "bearing"), ("400.1", "gon"), ("1e9", "bearing-gon")):
        try:
            case(f"{word} is no {angle}", False, units.direction(word, angle))
        except units.Unreadable as error:
            same(f"what is said of {word}", str(error), f"'{word}' is more than a turn of {TURN[angle]}")
    for word in ("53:07:48.4", "53d07m48.4s", "53°07'48.4\"", "53°07′48.4″", "53°7'48.4''"):
        same(f"degrees {word}", units.degrees(word), Fraction(191268_4, 36000))
    for word, wanted in (("-0:30:00", Fraction(-1, 2)), ("0:00:00", 0), ("359:59:59.999999", Fraction(1295999_999999, 3600_000000)),
                         ("12°30'", Fraction(25, 2)), ("12d30m", Fraction(25, 2)), ("53:30", Fraction(107, 2)), ("12°", 12),
                         ("-12.5", Fraction(-25, 2))):
        same(f"degrees {word}", units.degrees(word), wanted)
    for word in ("12:60:00", "12:00:60", "12:00:60.5"):
        try:
            case(f"{word} is no angle", False, units.degrees(word))
        except units.Unreadable as error:
            same(f"what is said of {word}", str(error), f"'{word}' has 60 minutes or seconds, or more")
    for word in ("12:3a:00", "1234:00:00", "12:00:00:00", "N 12 E"):
        try:
            case(f"{word} is no angle", False, units.degrees(word))
        except units.Unreadable as error:
            same(f"what is said of {word}", str(error), f"'{word}' is not an angle: 53.5, 53:30:00 or 53°30'00\"")
    same("60 degrees", units.direction("60", "degrees"), (ONE // 2, 929887697))  # 2^30 times the root of 3/4 is 929887696.7..
    same("30 degrees as gon, negative", units.direction("-33.333333333333333333333", "gon"), (929887697, -ONE // 2))
    same("a bearing of 53.5", units.pair(Fraction(1, 4) - Fraction(107, 720)), units.direction("53:30:00", "bearing"))
    random_angles()


def random_angles():
    rng = random.Random(11)
    off = same_pair = none = 0
    for _ in range(3000):
        turns = Fraction(rng.randrange(10**12), 10**12)
        found = units.pair(turns)
        off = max(off, *(abs(one - two) for one, two in zip(found, pair_of(turns))))
        angle = rng.choice(list(TURN))
        same_pair += units.direction(units.angle_text(*found, angle), angle) == found
        c, s = random_crests.random_unit(rng)
        again = units.direction(units.angle_text(c, s, angle), angle)
        none += again != (c, s)
        if max(abs(again[0] - c), abs(again[1] - s)) > 1:
            same(f"the angle of {c}, {s}", again, (c, s))
    case("pairs are cosine and sine", off <= 0.5 + 1e-5, off)
    same("angles of pairs lead back", same_pair, 3000)
    case("few pairs are those of no angle", none < 1500, none)


# ---- messages

LINE = "line 10000 0 0 1073741824 0"
KINDS = "    kind {}: the kinds are line (1), arc (2), entry (3), exit (4)"
BEARING = ("--units", "m", "--angle", "bearing")


def text_refused(text, wanted, *options, status=1):
    refuses("\n".join(line if line.startswith("    ") else f"elements: {line}" for line in wanted.split("\n")), "make", write("elements", text),
            "none", *options, status=status)


def messages():
    text_messages()
    metre_messages()
    join_messages()
    snap_messages()
    going_on()
    csv_messages()
    point_messages()
    stake_messages()
    damaged()


def text_messages():
    text_refused("# a comment\n\n0 10000 0 0 1073741824 0 0\n", f"line 3: {refusal(4)}\n{KINDS.format(0)}")
    text_refused(f"{LINE}\n16 10000 1000000 0 1073741824 0 0\n", f"line 2: {refusal(4)}\n{KINDS.format(16)}")
    text_refused(f"{LINE}\n\n5 10000 1000000 0 1073741824 0 0\n", f"line 3: {refusal(5)}\n{KINDS.format(5)}")
    text_refused(f"{LINE}\r\nentry 10000 1000000 0 1073741824 100000 50000\r\n", f"line 2: {refusal(7)}\n"
                 "    c 1073741824, s 100000: its length is 1.000000004 of 2^30; the unit in its direction is c 1073741819, s 100000")
    text_refused("line 10 0 0 0 0", f"line 1: {refusal(7)}\n    c 0, s 0: it has no direction")
    text_refused("line 0 0 0 1073741824 0\n5 1 0 0 0 0 0\narc 1 0 0 1073741824 0 1",
                 f"line 1: {refusal(6)}\n    length 0 mm: allowed are 1 to 500000 mm\n"
                 f"line 2: {refusal(5)}\n{KINDS.format(5)}\nline 3: {refusal(6)}\n"
                 "    radius 1 mm: for an arc of 1 mm allowed are 2 to 10000000 mm, or the negative of that to the right")
    many = "".join(f"line {n}: {refusal(6)}\n    length 0 mm: allowed are 1 to 500000 mm\n" for n in range(1, 21))
    text_refused("line 0 0 0 1073741824 0\n" * 25, many + "and 5 more")
    for text, n in (("", 0), ("# nothing\n\n", 0), (f"{LINE}\n" * 61, 61), (f"{LINE}\n" * 65, 65), (f"{LINE}\n" * 66, 66),
                    (f"{LINE}\n" * 1000, 1000), ("kind,length_m,x_m,y_m,bearing_deg\n" + "line,1,0,0,0\n" * 1000, 1000)):
        text_refused(text, f"{n} elements: {refusal(17)}")
    text_refused(f"{LINE}\n" * 65 + "line 1\n" * 9, f"74 elements: {refusal(17)}")
    for text, wanted in (
        (f"{LINE}\n\n\nline 99999999999 0 0 1073741824 0", "line 4: length 99999999999 mm does not fit a record: allowed are 1 to 500000 mm"),
        ("line -1 0 0 1073741824 0", "line 1: length -1 mm does not fit a record: allowed are 1 to 500000 mm"),
        ("line 1 2147483648 0 1073741824 0", "line 1: x 2147483648 grains does not fit a record: allowed are -200000000 to 200000000 grains"),
        ("line 1 0 -2147483649 1073741824 0", "line 1: y -2147483649 grains does not fit a record: allowed are -200000000 to 200000000 grains"),
        ("line 1 0 0 -2147483649 0", "line 1: c -2147483649 does not fit a record: the field holds -2147483648 to 2147483647"),
        ("line 1 0 0 0 2147483648", "line 1: s 2147483648 does not fit a record: the field holds -2147483648 to 2147483647"),
        ("arc 1 0 0 0 0 2147483648", "line 1: radius 2147483648 mm does not fit a record: for an arc of 1 mm allowed are 2 to 10000000 mm, "
         "or the negative of that to the right"),
        (f"line 1 0 0 {'0' * 61} 0", f"line 1: c '{'0' * 60}..' has too many digits"),
        ("line 1 0 0 1073741824.0 0", "line 1: c '1073741824.0' is not a whole number"),
        ("line 1 0 0 1073741824 - # no number", "line 1: s '-' is not a whole number"),
        ("line 1 0 0 1073741824 １", "line 1: s '１' is not a whole number"),
        ("line 1.5 0 0 1073741824 0", "line 1: length '1.5' is not a whole number of mm: is it in metres? then give --units m"),
        ("line 1 -0.5 0 1073741824 0", "line 1: x '-0.5' is not a whole number of grains: is it in metres? then give --units m"),
        ("line 1 0 1,5 1073741824 0", "line 1: y '1,5' is not a whole number of grains"),
        ("line 1 0 0 a b", "line 1: c 'a' is not a whole number"),
        ("arc 1 0 0 1073741824 0", "line 1: radius is missing"),
        ("exit 1 on", "line 1: radius is missing"),
        ("line 1 0 0 1073741824 #0", "line 1: s is missing"),
        ("line 1 0 0", "line 1: c is missing"),
        ("line 1 0", "line 1: y is missing"),
        ("line 1", "line 1: x is missing"),
        ("line", "line 1: length is missing"),
        (f"{LINE} 0 0", "line 1: '0' is more than an element has"),
        ("line 1 on 0 5", "line 1: '5' is more than an element has"),
        (f"{LINE}\n\tbow 1 2 3", "line 2: 'bow' is no element: line, arc, entry or exit"),
        ("Line 1 2 3", "line 1: 'Line' is no element: line, arc, entry or exit"),
        ("-1 1 2 3", "line 1: '-1' is no element: line, arc, entry or exit"),
        ("a" * 90_000, f"line 1: '{'a' * 60}..' is no element: line, arc, entry or exit"),
        ("a" * 200_000, "line 1: is longer than 100000 bytes: no text or CSV"),
    ):
        text_refused(text, wanted)
    misfit = "line {}: length -1 mm does not fit a record: allowed are 1 to 500000 mm\n"
    text_refused("line -1 0 0 1073741824 0\n" * 25, "".join(misfit.format(n) for n in range(1, 21)) + "and 5 more")
    text_refused(f"line 0 0 0 0 0\nline -1 300000000 2147483648 {ONE} 0", misfit.format(2) +
                 "line 2: y 2147483648 grains does not fit a record: allowed are -200000000 to 200000000 grains")
    said = crest("make", write("elements", "256 1 0 0 1073741824 0 0"), "none")
    case("kind 256", said.status == 1 and said.out == "" and said.err.startswith("crest: elements: line 1: kind 256"), said)
    refuses("standard input: line 1: length is missing", "make", "-", "none", given=b"line")


def metre_messages():
    for text, wanted in (
        ("line 1 0,5 0 90", "line 1: x '0,5' has a comma: the decimal point is a point, and thousands have no mark"),
        ("line 1 0 0 9,5", "line 1: bearing '9,5' has a comma: the decimal point is a point, and thousands have no mark"),
        ("line 1 0 0 361", "line 1: bearing '361' is more than a turn of 360"),
        ("line 1 0 0 12:60:00", "line 1: bearing '12:60:00' has 60 minutes or seconds, or more"),
        ("line 1 0 0 N45E", "line 1: bearing 'N45E' is not an angle: 53.5, 53:30:00 or 53°30'00\""),
        ("line 1m 0 0 90", "line 1: length '1m' is not a number"),
        ("line 1 0 0", "line 1: bearing is missing"),
        ("line 1 21474.836475 0 90",
         "line 1: x 21474.83648 m does not fit a record: allowed are -2000.00000 to 2000.00000 m; --origin E N moves the frame"),
        ("arc 1 0 0 90 1e9", "line 1: radius 1000000000.000 m does not fit a record: for an arc of 1.000 m allowed are 2.000 to 10000.000 m, "
         "or the negative of that to the right"),
        ("line -0.0005 0 0 90", "line 1: length -0.001 m does not fit a record: allowed are 0.001 to 500.000 m"),
    ):
        text_refused(text, wanted, *BEARING)
    text_refused("line 1 500000 0 90", "line 1: x 500000.00000 m does not fit a record: allowed are 98000.00000 to 102000.00000 m; "
                 "--origin E N moves the frame", *BEARING, "--origin", "100000", "0")
    text_refused("line 1 0 0 gon", "line 1: direction 'gon' is not a number", "--units", "mm", "--angle", "gon")
    text_refused("line 1 0 0 53:30:00", "line 1: direction '53:30:00' is not a number", "--units", "mm", "--angle", "gon")
    write("elements", "line 1 0 0 90")
    misused("--units m needs --angle, which says how directions are written", "make", "elements", "none", "--units", "m")
    misused("--origin: E 'x' is not a number", "make", "elements", "none", "--origin", "x", "0")
    misused("--origin: N '1,5' has a comma: the decimal point is a point, and thousands have no mark", "make", "elements", "none", "--origin", "0",
            "1,5")
    misused("--origin: N 0.000001 has more than 5 digits after the point", "make", "elements", "none", "--origin", "0", "0.000001")


def join_messages():
    text_refused(f"{LINE}\n# between\n{LINE}\n", f"lines 1 and 3: {refusal(8)}\n"
                 "    line 1 ends at x 1000000, y 0 grains, c 1073741824, s 0: there line 3 ought to start\n"
                 "    it starts at x 0, y 0 grains, c 1073741824, s 0\n"
                 "    the gap is 10.000 m (x -10000.00, y +0.00 mm), the kink 0.0 seconds of arc")
    text_refused(f"#\n{LINE}\n\n\nline 10000 1000000 0 1073740776 1500000", f"lines 2 and 5: {refusal(9)}\n"  # 1500000 / 2^30 is 288.15 seconds
                 "    line 2 ends at x 1000000, y 0 grains, c 1073741824, s 0: there line 5 ought to start\n"
                 "    it starts at x 1000000, y 0 grains, c 1073740776, s 1500000\n"
                 "    the gap is 0.00 mm (x +0.00, y +0.00 mm), the kink +288.1 seconds of arc")
    text_refused("line 10 500000 4100000 90\nline 10 500010.003 4099999.996 89.9\nline 1 500020 4100000 91\n", f"lines 1 and 2: {refusal(8)}\n"
                 "    line 1 ends at x 500010.00000, y 4100000.00000 m, bearing 90.0000000 deg: there line 2 ought to start\n"
                 "    it starts at x 500010.00300, y 4099999.99600 m, bearing 89.9000000 deg\n"
                 "    the gap is 5.00 mm (x +3.00, y -4.00 mm), the kink +360.0 seconds of arc\n"
                 f"lines 2 and 3: {refusal(8)}\n"
                 "    line 2 ends at x 500020.00298, y 4100000.01345 m, bearing 89.9000000 deg: there line 3 ought to start\n"
                 "    it starts at x 500020.00000, y 4100000.00000 m, bearing 91.0000000 deg\n"
                 "    the gap is 13.78 mm (x -2.98, y -13.45 mm), the kink -1.1000 degrees\n"
                 "    a wrong element upsets both its joins: mend the first, and try again", *BEARING, "--origin", "500000", "4100000")
    # an exit spiral of 10 m to a radius of 100 m turns by 10 / 200 of the radius, 2.8648 degrees, and comes 10^2 / 300 to the left
    text_refused("line 10 0 0 0\nexit 10 20 0 0 100\n", f"lines 1 and 2: {refusal(8)}\n"
                 "    line 1 ends at x 10.00000, y 0.00000 m, direction 0.0000000 gon: there line 2 ought to start\n"
                 "    it starts at x 10.00250, y 0.16664 m, direction 396.81690116 gon\n"
                 "    the gap is 166.66 mm (x +2.50, y +166.64 mm), the kink -2.8648 degrees\n"
                 "    x, y and direction are those of its far end: for that start they are x 19.99333, y 0.33323 m, direction 3.18309884 gon\n"
                 "    lines 1 and 2: the curvature jumps at a spiral, from straight to radius 100.000 m", "--units", "m", "--angle", "gon")
    write("elements.csv", "kind,length_m,x_m,y_m,c,s\nline,10,0,0,1073741824,0\n\nline,10,0,0,1073741824,0\n")
    refuses(f"elements.csv: lines 2 and 4: {refusal(8)}\n"
            "    line 2 ends at x 10.00000, y 0.00000 m, c 1073741824, s 0: there line 4 ought to start\n"
            "    it starts at x 0.00000, y 0.00000 m, c 1073741824, s 0\n"
            "    the gap is 10.000 m (x -10000.00, y +0.00 mm), the kink 0.0 seconds of arc", "make", "elements.csv", "none")


def snapped(text, options, err, out):
    write("elements", text)
    said = crest("make", "elements", "made", *BEARING, *options)
    found = rules.check(pathlib.Path("made").read_bytes()).elements
    what, last = f"snap {' '.join(options)}", found[-1]
    same(what, (said.status, but_jumps(said.err)), (0, "".join(f"crest: elements: {line}\n" for line in err)))
    x, y = (grains_text(number, "m") for number in rules.position(last, last.length))
    first, ends, joins = said.out.splitlines()
    going = sum(" on" in line.partition("#")[0] for line in text.splitlines())
    case(f"{what}: how many go on", f" ({going} where the one before ends)" in first if going else "(" not in first, first)
    first = re.sub(r" .\d+ where the one before ends.|, turning \S+ degrees to the (left|right)", "", first)
    same(f"{what}: the summary", [f"{first}; {re.sub(r' .lines [^)]*[)]', '', joins.strip())}", ends[: ends.index(" bearing")]],
         [f"made: {out}", f"    ends at x {x}, y {y} m,"])
    bearing = true_angle(*rules.direction(last, last.length), "bearing")
    case(f"{what}: the direction at the end", apart(float(ends.split()[-2]), bearing, 360) < 1e-6, ends, bearing)
    return found


def snap_messages():
    text = "line 10 0 0 90\nline 10 10.0003 0.0004 90.001\n"
    move, turn = "is moved by 0.50 mm (x -0.30, y -0.40 mm)", "is turned by +3.6 seconds of arc"
    ends = "2 elements, 20.000 m; largest gap {} mm, largest kink {} seconds of arc"
    snapped(text, [], [], ends.format("0.50", "-3.6"))
    snapped(text, ["--snap", "0.49"], [], ends.format("0.50", "-3.6"))
    snapped(text, ["--snap", "0.5"], [f"line 2: {move}"], ends.format("0.00", "-3.6"))
    snapped(text, ["--snap-angle", "3.5"], [], ends.format("0.50", "-3.6"))
    found = snapped(text, ["--snap-angle", "3.7"], [f"line 2: {turn}"], ends.format("0.50", "0.0"))
    same("turned, and not moved", found[1][2:6], (1000030, 40, ONE, 0))
    found = snapped(text, ["--snap", "0.5", "--snap-angle", "3.7"], [f"line 2: {turn} and {move}"], ends.format("0.00", "0.0"))
    same("moved and turned", found[1][2:6], (1000000, 0, ONE, 0))
    found = snapped("line 10 0 0 90\nline 10 10 0 90\n", ["--snap", "5", "--snap-angle", "5"], [], ends.format("0.00", "0.0"))
    # the far end that the message of a gap names: 3 mm beside it, and 36 seconds
    exit_text = "line 10 0 0 90\nexit 10 19.99333 0.33623 87.1452110 100\nline 5 19.9935 0.3331 87.135\n"
    wanted = ["line 2: is turned by +36.0 seconds of arc and is moved by 3.00 mm (x +0.00, y -3.00 mm)",
              "line 3: is turned by -0.8 seconds of arc and is moved by 0.21 mm (x -0.17, y +0.13 mm)"]
    found = snapped(exit_text, ["--snap", "20", "--snap-angle", "40"], wanted,
                    "3 elements, 25.000 m; largest gap 0.00 mm, largest kink 0.0 seconds of arc")
    same("an exit spiral's far end", found[1][2:4], (1999333, 33323))
    same("no gap after a snap", joins_of(found), [(0, 0), (0, 0)])
    text_refused("line 10 0 0 90\nline 10 10.003 0.004 90\n", f"lines 1 and 2: {refusal(8)}\n"
                 "    line 1 ends at x 10.00000, y 0.00000 m, bearing 90.0000000 deg: there line 2 ought to start\n"
                 "    it starts at x 10.00300, y 0.00400 m, bearing 90.0000000 deg\n"
                 "    the gap is 5.00 mm (x +3.00, y +4.00 mm), the kink 0.0 seconds of arc", *BEARING, "--snap", "4.99")
    for option, word, wanted in (("--snap", "-1", "'-1' is less than 0"), ("--snap", "a", "'a' is not a number"),
                                 ("--snap-angle", "1,5", "'1,5' has a comma: the decimal point is a point, and thousands have no mark")):
        said = crest("make", "elements", "none", f"{option}={word}")
        case(f"{option} {word}", said.status == 2 and said.out == "" and said.err.endswith(f"crest make: error: argument {option}: {wanted}\n"), said)


def joins_of(elements):
    """The gaps of a crest by the reference."""
    ends = [(rules.position(one, one.length), rules.position(two, 0)) for one, two in zip(elements, elements[1:])]
    return [(start[0] - end[0], start[1] - end[1]) for end, start in ends]


def going_on():
    """Elements that go on, of all kinds after all kinds: no gap is left, and the directions agree."""
    bodies = {"line": ("10", ""), "arc": ("5", "100"), "entry": ("10", "-80"), "exit": ("10", "60")}
    for first, second, third in itertools.product(bodies, repeat=3):
        rows = [(first, "7 -3 12.5"), (second, "on"), (third, "on")]
        text = "".join(f"{kind} {bodies[kind][0]} {anchor} {bodies[kind][1]}\n" for kind, anchor in rows)
        total = sum(int(bodies[kind][0]) for kind, _ in rows)
        found = snapped(text, [], [], f"3 elements, {total}.000 m; largest gap 0.00 mm, largest kink 0.0 seconds of arc")
        same(f"{first}, {second}, {third}: gaps", joins_of(found), [(0, 0), (0, 0)])
        kinks = [abs(a - b) for one, two in zip(found, found[1:]) for a, b in zip(rules.direction(one, one.length), rules.direction(two, 0))]
        case(f"{first}, {second}, {third}: kinks", max(kinks) <= 20_000, kinks)
        cells = [[kind, bodies[kind][0], *(anchor.split() if anchor != "on" else ["", "", ""]), bodies[kind][1]] for kind, anchor in rows]
        write("elements.csv", "kind,length_m,x_m,y_m,bearing_deg,radius_m\n" + "".join(",".join(row) + "\n" for row in cells))
        kept = pathlib.Path("made").read_bytes()
        crest("make", "elements.csv", "made.csv")
        same(f"{first}, {second}, {third} as CSV", pathlib.Path("made.csv").read_bytes(), kept)
    jumps = "crest: elements: lines 2 and 3: the curvature jumps at a spiral, from radius 100.000 m to radius 200.000 m\n"
    for radius, wanted in (("200", jumps), ("100", "")):
        write("elements", f"line 10 0 0 90\nentry 10 on 100\narc 5 on {radius}\n")
        same(f"a spiral to 100 m before an arc of {radius} m", crest("make", "elements", "made", *BEARING).err, wanted)
    text_refused("line 10 on", "line 1: the first element has no point and direction to go on from")
    text_refused("line 0 0 0 1073741824 0\nline 10 on", f"line 1: {refusal(6)}\n    length 0 mm: allowed are 1 to 500000 mm")
    text_refused(f"{LINE}\narc 10 on 19", f"line 2: {refusal(6)}\n"
                 "    radius 19 mm: for an arc of 10 mm allowed are 20 to 10000000 mm, or the negative of that to the right")
    found = snapped("line 500 0 0 45\n" + "exit 10 on 50\nentry 12 on 70\n" * 29 + "line 3 on\n", [], [],
                    "60 elements, 1141.000 m; largest gap 0.00 mm, largest kink 0.0 seconds of arc")
    same("60 elements that go on", set(joins_of(found)), {(0, 0)})


HEAD = "kind,length_m,x_m,y_m,bearing_deg,radius_m\n"


def csv_refused(text, wanted, *options):
    refuses(f"e.csv: {wanted}", "make", write("e.csv", text), "none", *options)


def csv_messages():
    row = "line,10,0,0,90,\n"
    for text, wanted in (
        ("", f"0 elements: {refusal(17)}"),
        (HEAD, f"0 elements: {refusal(17)}"),
        ("kind,length_m,x_m,bearing_deg\nline,1,0,0\n", "line 1: no column y (north or northing); the columns are kind, length_m, x_m, bearing_deg"),
        ("length_m,x_m,y_m,bearing_deg\n1,0,0,0\n", "line 1: no column kind (element); the columns are length_m, x_m, y_m, bearing_deg"),
        ("kind,x_m,y_m,bearing_deg\nline,0,0,0\n", "line 1: no column length; the columns are kind, x_m, y_m, bearing_deg"),
        ("kind,length_m,x_m,y_m,radius_m\n" + row,
         "line 1: no column for the direction: bearing, direction, or c and s; used are kind, length_m, x_m, y_m, radius_m"),
        ("kind,length_m,x_m,East_mm,y_m,bearing_deg\n", "line 1: columns x_m and East_mm are both x"),
        ("kind,length_ft,x_m,y_m,bearing_deg\n", "line 1: column length_ft: the unit is m or mm, not ft"),
        ("kind,length_grains,x_m,y_m,bearing_deg\n", "line 1: column length_grains: the unit is m or mm, not grains"),
        ("\n\nkind,length_m,x_km,y_m,bearing_deg\n", "line 3: column x_km: the unit is m or mm or grains, not km"),
        ("kind,length_m,x_m,y_m,bearing_rad\n", "line 1: column bearing_rad: the unit is deg or gon, not rad"),
        (HEAD + row + "bow,1,0,0,0,\n", "line 3: 'bow' is no element: line, arc, entry or exit"),
        (HEAD + ",1,0,0,0,\n", "line 2: kind is missing"),
        (HEAD + "line,,0,0,0,\n", "line 2: length_m is missing"),
        (HEAD + "arc,10,0,0,0,\n", "line 2: radius_m is missing"),
        ("kind,length_m,x_m,y_m,bearing_deg\narc,10,0,0,0\n", "line 2: needs a column radius, and there is none"),
        (HEAD + row + "line,1,,0,0,\n", "line 3: x_m is missing; x, y and direction are left out together, or not at all"),
        (HEAD + row + "line,1,0,,0,\n", "line 3: y_m is missing; x, y and direction are left out together, or not at all"),
        (HEAD + row + "line,1,0,0,,\n", "line 3: the direction is missing; x, y and direction are left out together, or not at all"),
        (HEAD + "line,1,,,,\n", "line 2: the first element has no point and direction to go on from"),
        (HEAD + "line,10,0,0,90,,7\n", "line 2: 7 cells, but the heading has 6: is there a decimal comma?"),
        (HEAD + "line,10,zero,0,90,\n", "line 2: x_m 'zero' is not a number"),
        (HEAD.replace(",", ";") + "line;10,5;0;0;90;\n",
         "line 2: length_m '10,5' has a comma: the decimal point is a point, and thousands have no mark"),
        (HEAD.replace(",", ";") + "line;10;0;0;90;;7\n", "line 2: 7 cells, but the heading has 6"),
        (HEAD.replace(",", "\t") + "line\t10\t0\t0\t9,0\t\n",
         "line 2: bearing_deg '9,0' has a comma: the decimal point is a point, and thousands have no mark"),
        ("kind,length_m,x_m,y_m,bearing_deg,c,s\nline,1,0,0,90,1,0\n", "line 2: has more than one direction"),
        ("kind,length_m,x_m,y_m,c,s\nline,1,0,0,1073741824,\n", "line 2: s is missing"),
        ("kind,length_m,x_m,y_m,c\nline,1,0,0,1073741824\n", "line 2: needs a column s, and there is none"),
        ("kind,length_m,x_m,y_m,c,s\nline,1,0,0,1.0,0\n", "line 2: c '1.0' is not a whole number"),
        ("kind,length_m,x_grains,y_m,c,s\nline,1,1.5,0,1,0\n",
         "line 2: x_grains '1.5' is not a whole number of grains: is it in metres? then give --units m"),
        (HEAD + "line,10,99999,0,90,\n",
         "line 2: x 99999.00000 m does not fit a record: allowed are -2000.00000 to 2000.00000 m; --origin E N moves the frame"),
    ):
        csv_refused(text, wanted)
    csv_refused(HEAD + "line,10,3000,0,90,\n", f"line 2: {refusal(6)}\n"
                "    x 3000.00000 m: allowed are -2000.00000 to 2000.00000 m; --origin E N moves the frame")
    csv_refused("kind,length_mm,x_mm,y_mm,direction_gon\nline,0,0,0,90\n", f"line 2: {refusal(6)}\n    length 0 mm: allowed are 1 to 500000 mm")
    write("e.csv", "kind,length,x_m,y_m,bearing_deg\nline,10,0,0,90\n")
    misused("e.csv: column length has no unit: give --units, or name it length_m or length_mm", "make", "e.csv", "none")
    write("e.csv", "kind,length_m,x,y_m,bearing_deg\nline,10,0,0,90\n")
    misused("e.csv: column x has no unit: give --units, or name it x_m or x_mm or x_grains", "make", "e.csv", "none")
    write("e.csv", "kind,length_m,x_m,y_m,Azimuth\nline,10,0,0,90\n")
    misused("e.csv: column Azimuth has no unit: give --angle, or name it Azimuth_deg or Azimuth_gon", "make", "e.csv", "none")
    misused("e.csv: column Azimuth, but --angle degrees", "make", "e.csv", "none", "--angle", "degrees")
    case("no file is made of those", not pathlib.Path("none").exists() or pathlib.Path("none").read_bytes() == b"old")
    csv_taken()


def csv_taken():
    """CSV files that are all the same crest: K, and a line that goes on."""
    wanted = rules.file_made(plain_files.records_of([plain_files.line(length=10_000), plain_files.line(x=1_000_000, length=5_000)]))
    unused = "crest: e.csv: columns not used: {}\n"
    for what, text, options, err in (
        ("commas", HEAD + "line,10,0,0,90,\nline,5,,,,\n", (), ""),
        ("semicolons", "Kind; Length [m] ;Easting (m);Northing (m);Bearing (deg);Radius_m\nLINE;10;0;0;90;\nline;5;10;0;90;0\n", (), ""),
        ("tabs", HEAD.replace(",", "\t") + "line\t10.000\t0\t0\t90\nLine\t5\t\t\t\n", (), ""),
        ("columns in another order, and others", 'note,y_mm,direction_gon,x_mm,"who, when",length_mm,kind\n"a, ""b""",0,0,0,,10000,1\n,,,,,5000,1\n',
         (), unused.format("note, who, when")),
        ("units by options", "kind,length,x,y,bearing,radius\nline,10,0,0,90\nline,5,10,0,90,0\n", BEARING, ""),
        ("grains", "kind,length,x,y,c,s\nline,10000,0,0,1073741824,0\nline,5000,1000000,0,1073741824,0\n", ("--units", "grains"), ""),
        ("an origin", HEAD + "line,10,500000,4100000,90,\nline,5,500010,4100000,90,\n", ("--origin", "500000", "4100000"), ""),
        ("CRLF, and blank rows", HEAD.replace("\n", "\r\n") + "\r\nline,10,0,0,90,\r\n,,,,,\r\nline,5,,,,\r\n\r\n , ,\r\n", (), ""),
        ("a BOM", "\ufeff" + HEAD + "line,10,0,0,90,\nline,5,,,,\n", (), ""),
        ("no line feed at the end", HEAD + "line,10,0,0,90,\nline,5,,,", (), ""),
        ("two sorts of direction", "kind,length_m,x_m,y_m,bearing_deg,c,s\nline,10,0,0,90,,\nline,5,10,0,,1073741824,0\n", (), ""),
        ("more blank cells than the heading has", HEAD + "line,10,0,0,90,,,,\nline,5,,,,,,\n", (), ""),
    ):
        pathlib.Path("made").unlink(missing_ok=True)
        said = crest("make", write("e.csv", text), "made", *options)
        same(f"CSV, {what}", (said.status, said.err), (0, err))
        case(f"CSV, {what}: the same bytes", pathlib.Path("made").exists() and pathlib.Path("made").read_bytes() == wanted)
    for what, text in (("tabs", "line\t10\t0\t0\t90\t# first\n\nline  5   on   \n"), ("numbers", "1 10 0 0 90 0\n1 5 on 0\n"),
                       ("BOM and CRLF", "\ufeff# a\r\nline 10 0 0 90\r\nline 5 on\r\n")):
        said = crest("make", write("e", text), "made", *BEARING)
        same(f"text, {what}", (said.status, pathlib.Path("made").read_bytes()), (0, wanted))


def point_messages():
    def refused(text, wanted, *options, line=()):
        write("p.csv", text)
        for words in (("readings", "make", "p.csv", "none", *line), ("place" if line else "locate", K, "p.csv", "-o", "none")):
            refuses(f"p.csv: {wanted}", *words, *options)

    refused("", "line 1: no column x (east or easting); the columns are none: the file is empty")
    refused("\n\n \n", "line 1: no column x (east or easting); the columns are none: the file is empty")
    refused("name,x_m\nA,1\n", "line 1: no column y (north or northing); the columns are name, x_m")
    refused("\n\nx_m;z_m\n1;1\n", "line 3: no column y (north or northing); the columns are x_m, z_m")
    refused("A,1,2\nB,3,4\n", "line 1: no column x (east or easting); the columns are A, 1, 2")
    refused("station_m,name\n1,A\n", "line 1: no column offset; the columns are station_m, name", line=("--line",))
    refused("offset_m,name\n1,A\n", "line 1: no column station (chainage); the columns are offset_m, name", line=("--line",))
    refused("name,x_m,y_m\nA,1,1\nB,,1\n", "line 3: x_m is missing")
    refused("name,x_m,y_m\nA,1\n", "line 2: y_m is missing")
    refused("name,x_m,y_m\nA,1,5,2,5\n", "line 2: 5 cells, but the heading has 3: is there a decimal comma?")
    refused("name;x_m;y_m\nA;1,5;2\n", "line 2: x_m '1,5' has a comma: the decimal point is a point, and thousands have no mark")
    refused("name\tx_m\ty_m\nA\t1\t-2,25\n", "line 2: y_m '-2,25' has a comma: the decimal point is a point, and thousands have no mark")
    refused('name,x_m,y_m\nA,"1,5","2,5"\n', "line 2: x_m '1,5' has a comma: the decimal point is a point, and thousands have no mark")
    refused("name,x_m,y_m\nA,1,NaN\n", "line 2: y_m 'NaN' is not a number")
    refused("x_m,east_m,y_m\n1,1,1\n", "line 1: columns x_m and east_m are both x")
    refused("x_cm,y_m\n1,1\n", "line 1: column x_cm: the unit is m or mm or grains, not cm")
    refused("station_grains,offset_m\n1,1\n", "line 1: column station_grains: the unit is m or mm, not grains", line=("--line",))
    refused("x,y\n1.5,1\n", "line 2: x '1.5' is not a whole number of grains: is it in metres? then give --units m", "--units", "grains")
    refused("station,offset\n1.5,1\n", "line 2: station '1.5' is not a whole number of mm: is it in metres? then give --units m", "--units",
            "grains", line=("--line",))
    write("p.csv", "x,y\n1,1\n")
    misused("p.csv: column x has no unit: give --units, or name it x_m or x_mm or x_grains", "locate", K, "p.csv")
    misused("p.csv: column x has no unit: give --units, or name it x_m or x_mm or x_grains", "readings", "make", "p.csv", "none",
            command="readings make")
    misused("give --units m, mm or grains", "readings", "show", "readings", command="readings show")
    write("p.csv", "Point;remark;x_mm;y_mm\n1;a;0;0\n;b;5000;0\n;c;0;1\n")
    said = crest("locate", K, "p.csv")
    said_is("names, and columns not used", said, 0, "crest: p.csv: columns not used: remark\n",
            "name      station_mm  offset_mm  residual_mm  foot_x_mm  foot_y_mm\n"
            "1                  0       0.00         0.00       0.00       0.00\n"
            "(line 3)        5000       0.00         0.00    5000.00       0.00\n"
            "(line 4)           0       1.00         0.00       0.00       0.00\n")
    write("p.csv", "name,x_m,y_m\nA,500001,4100000\nB,500002,4100000\n")
    outside = ("crest: p.csv: every point lies outside the frame, which is x from -2000.00000 to 2000.00000 and y from -2000.00000 to 2000.00000 m; "
               "--origin E N moves the frame\n")
    said = crest("locate", K, "p.csv")
    same("points that all lie outside the frame", (said.status, said.err, said.out.count(refusal(11))), (1, outside, 2))
    said = crest("locate", K, "p.csv", "--origin", "500000", "4100000", "--csv")
    same("the same with an origin", (said.status, said.err, said.out.splitlines()[1]),
         (0, "", "A,1.000,0.00000,0.00000,500001.00000,4100000.00000,,"))
    said = crest("place", K, "--at", "1.0004", "-0.000006", "--units", "m", "--csv")
    said_is("words that are rounded", said, 0,
            "crest: the command's words: 1 number rounded to a grain (0.01 mm), by 0.00400 mm at the most (--at)\n"
            "crest: the command's words: 1 number rounded to a mm, by 0.40000 mm at the most (--at)\n",
            "name,station_m,offset_m,x_m,y_m,bearing_deg,refused,sentence\n1,1.000,-0.00001,1.00000,-0.00001,90.0000000,,\n")
    write("p.csv", "name;x_m;y_m;a\tb\nA;0;0;1\n")
    same("semicolons before tabs", crest("locate", K, "p.csv").err, "crest: p.csv: columns not used: a\tb\n")
    for words, wanted in ((("--at", "1,5", "0"), "--at '1,5' has a comma: the decimal point is a point, and thousands have no mark"),
                          (("--at", "1", "x"), "--at 'x' is not a number"), (("--every", "0"), "--every: a step is 1 mm or more"),
                          (("--every", "0.0004"), "--every: a step is 1 mm or more"), (("--every", "-1"), "--every: a step is 1 mm or more"),
                          (("--joins", "--offset", "a"), "--offset 'a' is not a number"),
                          (("--at", "1", "1", "--offset", "1"), "--offset goes with --every and --joins")):
        misused(wanted, "place", K, *words, "--units", "m")
    one_way = "give one of PLACES.csv, --at STATION OFFSET, --every STEP and --joins"
    for words in ((), ("p.csv", "--joins"), ("--joins", "--every", "1"), ("--at", "1", "1", "--every", "1"), ("p.csv", "--at", "1", "1")):
        misused(one_way, "place", K, *words, "--units", "m")
    misused("give --units m, mm or grains", "place", K, "--joins")


def stake_messages():
    stakes = "give STAKES.csv, or --own X Y and one of --target X Y and --at STATION OFFSET"
    unit = ("--units", "m")
    for wanted, words in (
        (stakes, ()),
        (stakes, ("--own", "0", "0")),
        (stakes, ("--target", "0", "0")),
        (stakes, ("--own", "0", "0", "--target", "0", "0", "--at", "0", "0", "--crest", K)),
        ("give STAKES.csv, or --own and --target or --at", ("s.csv", "--own", "0", "0")),
        ("give STAKES.csv, or --own and --target or --at", ("s.csv", "--at", "0", "0")),
        ("--at and --crest go together", ("--own", "0", "0", "--at", "0", "0")),
        ("--at and --crest go together", ("--own", "0", "0", "--target", "0", "0", "--crest", K)),
        ("give --heading, or a crest by --crest and --at", ("--own", "0", "0", "--target", "0", "0")),
        ("--heading needs --angle, which says how directions are written", ("--own", "0", "0", "--target", "0", "0", "--heading", "90")),
        ("--heading: a pair is C,S", ("--own", "0", "0", "--target", "0", "0", "--heading", "90", "--angle", "pair")),
        ("--heading 'a' is not a number", ("--own", "0", "0", "--target", "0", "0", "--heading", "a", "--angle", "gon")),
        ("--heading '1.0' is not a whole number", ("--own", "0", "0", "--target", "0", "0", "--heading", "1.0,0")),
        ("--own '0,5' has a comma: the decimal point is a point, and thousands have no mark",
         ("--own", "0,5", "0", "--target", "0", "0", "--heading", "1,0")),
        ("--target 'x' is not a number", ("--own", "0", "0", "--target", "x", "0", "--heading", "1,0")),
    ):
        misused(wanted, "stake", *words, *unit)
    misused("give --units m, mm or grains", "stake", "--own", "0", "0", "--target", "0", "0", "--heading", "1,0")
    write("s.csv", "x_m,y_m,target_x_m,target_y_m\n0,0,1,1\n")
    refuses("s.csv: line 2: no heading: give --heading, a column for it, or a crest", "stake", "s.csv", "-o", "none")
    write("s.csv", "x_m,y_m\n0,0\n")
    refuses("s.csv: line 1: no column target_x (target_east); the columns are x_m, y_m", "stake", "s.csv", "-o", "none")
    refuses("s.csv: line 1: no column station (chainage); the columns are x_m, y_m", "stake", "s.csv", "--crest", K, "-o", "none")
    write("s.csv", "x_m,y_m,target_x_m,target_y_m,bearing_deg\n0,0,1,1,90\n0,0,21474.83648,1,90\n")
    far = ("s.csv: line 3: its target, x 21474.83648, y 1.00000 m, lies far outside the frame\n"
           "    the frame is x from -2000.00000 to 2000.00000 and y from -2000.00000 to 2000.00000 m; --origin E N moves the frame")
    refuses(far, "stake", "s.csv", "-o", "none", "--units", "m")
    refuses(far, "stake", "s.csv", "-o", "none")
    refuses("the stake: the heading's c or s does not fit 32 bits",
            "stake", "--own", "0", "0", "--target", "0", "0", "--heading", "99999999999,0", "--units", "m", "-o", "none")
    for heading in ("-1073741824,0", "-90:00:00"):
        said = crest("stake", "--own", "0", "0", "--target", "1", "0", "--units", "m", "--heading", heading,
                     *([] if "," in heading else ["--angle", "degrees"]))
        same(f"--heading {heading}", (said.status, said.err), (0, ""))


def damaged():
    """Damaged crests, by the place that is named: in every command that takes one."""
    write("p.csv", "x_m,y_m\n0,0\n")
    for line in pathlib.Path("damaged").read_text().splitlines():
        name, wanted = line.split(" ", 1)
        head, number = wanted.rsplit(" ", 1)
        wanted = f"{name}: {head} {number}: {SENTENCES[int(number)]}"
        for words in (("check", name), ("show", name), ("locate", name, "p.csv"), ("place", name, "--joins", "--units", "m"), ("draw", name),
                      ("stake", "--crest", name, "--own", "0", "0", "--at", "0", "0", "--units", "m")):
            refuses(wanted, *words, "-o", "none")
        found = json.loads(crest("check", name, "--json").out)
        place = re.search(r"(?:block|records?) (\d+)", head)
        wanted = {"number": int(number), "place": int(place[1]) if place else 0, "sentence": SENTENCES[int(number)]}
        same(f"check {name} --json", found, {"crest": name, "accepted": False, "refused": wanted})
    said_is("check", crest("check", K), 0, "", f"{K}: accepted: 1 element, 10.000 m\n    ends at x 10.00000, y 0.00000 m, bearing 90.0000000 deg\n")
    same("check --json", json.loads(crest("check", K, "--json").out), {"crest": str(K), "accepted": True, "refused": None})


# ---- bad input


def bad_input():
    crest_file, png = K.read_bytes(), b"\x89PNG\r\n\x1a\n\0\0\0\rIHDR"
    noise = bytes([200]) + random.Random(2).randbytes(5000)
    for what, data, wanted in (
        ("a crest file", crest_file, "line 1: byte 511 (0x8f) is no UTF-8: save the file as UTF-8, or is it no text?"),
        ("a PNG", png, "line 1: byte 1 (0x89) is no UTF-8: save the file as UTF-8, or is it no text?"),
        ("random bytes", noise, "line 1: byte 1 (0xc8) is no UTF-8: save the file as UTF-8, or is it no text?"),
        ("UTF-16", "x_m,y_m\n1,2\n".encode("utf-16"), "line 1: is UTF-16: save it as UTF-8"),
        ("UTF-16, the other way", b"\xfe\xff" + "x_m,y_m\n1,2\n".encode("utf-16-be"), "line 1: is UTF-16: save it as UTF-8"),
        ("UTF-16 without a BOM", "x_m,y_m\n1,2\n".encode("utf-16-le"), "line 1: character 2 (0x00) is a control character: no text or CSV"),
        ("Latin-1", "name,x_m,y_m\nA,1,1\nHöhe,1,2\n".encode("latin-1"),
         "line 3: byte 2 (0xf6) is no UTF-8: save the file as UTF-8, or is it no text?"),
        ("NUL bytes", b"x_m,y_m\n1,2\n1\0,2\n", "line 3: character 2 (0x00) is a control character: no text or CSV"),
        ("CR alone", b"x_m,y_m\r1,2\r3,4\r", "line 1: has a carriage return inside: lines end with LF or CRLF"),
        ("a CR inside", b"x_m,y_m\n1,\r2\n", "line 2: has a carriage return inside: lines end with LF or CRLF"),
        ("a form feed", b"x_m,y_m\n1,2\n\f3,4\n", "line 3: character 1 (0x0c) is a control character: no text or CSV"),
        ("a heading alone", b"name,x_m,y_m\n\n,,\n", "has no rows"),
        ("200,000 letters", b"x_m,y_m\n" + b"7" * 200_000, "line 2: is longer than 100000 bytes: no text or CSV"),
        ("a quote inside", b'name,x_m,y_m\n"A"b,1,1\n', "line 2: is no CSV: ',' expected after '\"'"),
        ("an unclosed quote in the heading", b'name,"x_m,y_m\nA,1,1\n', "line 1: is no CSV: unexpected end of data"),
    ):
        write("b.csv", data)
        refuses(f"b.csv: {wanted}", "readings", "make", "b.csv", "none")
        refuses(f"b.csv: {wanted}", "locate", K, "b.csv", "-o", "none")
        if what in ("a crest file", "a PNG", "random bytes", "UTF-16", "UTF-16, the other way", "UTF-16 without a BOM"):
            refuses(f"b.csv: {wanted}", "make", "b.csv", "none")
    for what, text, found in (
        ("empty lines", "\n\r\n   \n\nname,x_m,y_m\n\n\nA,0.00512,0.003\n\n\n", [["A", "0.005"]]),
        ("lines of separators", "name,x_m,y_m\n,,\nA,0.00512,0.003\n,,,,\n ; \n".replace(" ; \n", " , \n"), [["A", "0.005"]]),
        ("CRLF", "name,x_m,y_m\r\nA,0.00512,0.003\r\n", [["A", "0.005"]]),
        ("a BOM", "\ufeffname,x_m,y_m\nA,0.00512,0.003\n", [["A", "0.005"]]),
        ("a BOM before a quote", '\ufeff"name","x_m","y_m"\n"A","0.00512","0.003"\n', [["A", "0.005"]]),
        ("tabs", "name\tx_m\ty_m\nA b\t0.00512\t 0.003 \n", [["A b", "0.005"]]),
        ("quoted cells", 'name,x_m,y_m\n"A, ""left"" side",0.00512,0.003\nÄöü €,1,0\n', [['A, "left" side', "0.005"], ["Äöü €", "1.000"]]),
        ("no line feed at the end", "name,x_m,y_m\nA,0.00512,0.003", [["A", "0.005"]]),
        ("names twice, and none", "name,x_m,y_m\nA,0,0\nA,0,0\n,0,0\n", [["A", "0.000"], ["A", "0.000"], ["(line 4)", "0.000"]]),
    ):
        said = crest("locate", K, write("b.csv", text), "--csv")
        same(f"{what}: taken", (said.status, said.err, [row[:2] for row in csv.reader(io.StringIO(said.out))][1:]), (0, "", found))
    for text, wanted in (
        ('name,x_m,y_m\nc,0,0\n"a\nb",0,0\n', "line 3: a cell in quotes goes on in the next line"),
        ('x_m,y_m,remark\n0.005,0.003,wet\n0.006,0.002,"\n99,0.001,"\n0.007,0.002,dry\n', "line 3: a cell in quotes goes on in the next line"),
        ("x_m,y_m,,\n1,5,0,25\n", "line 2: cell 3 has no title in the heading: is there a decimal comma?"),
        ("x_m,y_m\n1\u00a0000,0\n", "line 2: x_m '1\u00a0000' is not a number"),
    ):
        write("b.csv", text)
        refuses(f"b.csv: {wanted}", "locate", K, "b.csv", "-o", "none")
    write("b.csv", HEAD + "line,10,0,0,90,\nline,7\n")
    refuses("b.csv: line 3: has 2 cells: x, y and direction of an element that goes on are blank cells", "make", "b.csv", "none")
    write("b.csv", "line 10\u00a0000 0 0 1073741824 0\n")
    refuses("b.csv: line 1: length '10\u00a0000' is not a whole number of mm", "make", "b.csv", "none")
    said = crest("locate", K, write("b.csv", 'name,x_m,y_m\nA,1,1\n"B,2,2\nC,3,3\n' + "D,4,4\n" * 50_000))
    case("an unclosed quote: where it opens", said.status == 1 and said.err.startswith("crest: b.csv: line 3: is no CSV: "), said)
    said = crest("locate", K, write("b.csv", ",,,\n;;\n"))
    case("separators alone", said.status == 1 and said.err.startswith("crest: b.csv: line 1: no column x (east or easting); the columns are "), said)
    write("b.csv", "# a comment\n" + HEAD + "line,10,0,0,90,\n")
    same("a comment before a CSV heading", crest("make", "b.csv", "made")[:1], (0,))
    many_rows()


def many_rows():
    """A million rows, the last of which has a bad cell; and fewer that are good."""
    good = "".join(f"P{n},{n % 1000}.{n % 100:02},{n % 7}.5\n" for n in range(50_000))
    write("many.csv", "name,x_m,y_m\n" + good)
    said_is("50,000 rows", crest("readings", "make", "many.csv", "many"), 0, "", "many: 50000 readings\n")
    wanted = packed([((n % 1000) * 100_000 + n % 100 * 1000, n % 7 * 100_000 + 50_000) for n in range(50_000)])
    case("50,000 rows: their readings", pathlib.Path("many").read_bytes() == wanted)
    with open("many.csv", "w") as file:
        file.write("name,x_m,y_m\n")
        for _ in range(20):
            file.write(good)
        file.write("last,1,2,5\n")
    refuses("many.csv: line 1000002: 4 cells, but the heading has 3: is there a decimal comma?", "readings", "make", "many.csv", "none")
    os.unlink("many.csv")


# ---- files


def file_cases():
    write("in.crest", K.read_bytes())
    write("elements", LINE)
    write("p.csv", "x_m,y_m\n0,0\n")
    write("readings", packed([(512, 300)]))
    os.makedirs("folder", exist_ok=True)
    os.path.lexists("p-link") or os.symlink("p.csv", "p-link")
    for name, words in (("elements", ("make", "elements", "elements")), ("p.csv", ("readings", "make", "p.csv", "p.csv")),
                        ("in.crest", ("show", "in.crest", "-o", "in.crest")),
                        ("in.crest", ("check", "in.crest", "-o", "in.crest")),
                        ("readings", ("readings", "show", "readings", "--units", "m", "-o", "readings")),
                        ("p.csv", ("locate", "in.crest", "p.csv", "-o", "./p.csv")), ("p.csv", ("locate", "in.crest", "p.csv", "-o", "p-link")),
                        ("in.crest", ("locate", "in.crest", "p.csv", "-o", "in.crest")),
                        ("in.crest", ("place", "in.crest", "--joins", "--units", "m", "-o", "in.crest")),
                        ("in.crest", ("draw", "in.crest", "-o", "in.crest")),
                        ("readings", ("draw", "in.crest", "readings", "-o", "readings"))):
        kept = pathlib.Path(name).read_bytes()
        said_is(f"{' '.join(words)}: an output that is an input", crest(*words), 1,
                f"crest: {words[-1]}: is read by the same command; nothing was written\n")
        same(f"{' '.join(words)}: it stays", pathlib.Path(name).read_bytes(), kept)
        write(name, kept)
    outputs = (("make", "elements"), ("readings", "make", "p.csv"), ("show", "in.crest", "-o"), ("check", "in.crest", "-o"),
               ("locate", "in.crest", "p.csv", "-o"), ("draw", "in.crest", "-o"))
    for words in outputs:
        for output, wanted in (("absent/out", "absent/out: No such file or directory"), ("folder", "folder: Is a directory"),
                               ("/dev/full", "/dev/full: No space left on device")):
            refuses(wanted, *words, output)
        write("mode", b"old")
        os.chmod("mode", 0o640)
        os.path.lexists("mode-link") or os.symlink("mode", "mode-link")
        crest(*words, "mode-link")
        case(f"{words[0]}: through a link, the mode kept", os.path.islink("mode-link") and os.stat("mode").st_mode & 0o777 == 0o640
             and pathlib.Path("mode").read_bytes() != b"old")
        os.unlink("mode")
        crest(*words, "mode")
        same(f"{words[0]}: the mode of a new file", os.stat("mode").st_mode & 0o777, 0o666 & ~mask())
    for words in (("make", "absent", "none"), ("show", "absent"), ("check", "absent"), ("locate", "absent", "p.csv"), ("locate", K, "absent"),
                  ("place", K, "absent"), ("stake", "absent"),
                  ("readings", "make", "absent", "none"), ("readings", "show", "absent", "--units", "m"), ("draw", "absent"), ("draw", K, "absent"),
                  ("run", "absent")):
        refuses("absent: No such file or directory", *words)
    for words in (("make", "folder", "none"), ("show", "folder"), ("locate", K, "folder"), ("readings", "show", "folder", "--units", "m"),
                  ("run", "folder")):
        refuses("folder: Is a directory", *words)
    streams()
    word_files()
    leftovers = [name for name in os.listdir() if name.startswith(".crest-")]
    same("nothing is left over", leftovers, [])


def mask():
    now = os.umask(0)
    os.umask(now)
    return now


def streams():
    """Standard input and output by -, pipes, and outputs that can't be written."""
    said = crest("make", "-", "-", given=LINE.encode())
    same("make - -", (said.status, said.data, said.err),
         (0, K.read_bytes(), "standard output: 1 element, 10000 mm\n    ends at x 1000000, y 0 grains, c 1073741824, s 0\n"))
    same("show -", crest("show", "-", given=K.read_bytes()).out, (ROOT / "examples" / "k.elements").read_text())
    said = crest("readings", "make", "-", "-", given=b"x_m,y_m\n0.00512,0.003\n")
    same("readings make - -", (said.status, said.data, said.err), (0, packed([(512, 300)]), "standard output: 1 reading\n"))
    same("readings show -", crest("readings", "show", "-", "--units", "grains", given=packed([(512, 300)])).out,
         "name,x_grains,y_grains\n1,512,300\n")
    same("locate with points from -", crest("locate", K, "-", "--csv", given=b"x_m,y_m\n0.00512,0.003\n").out.splitlines()[1],
         "1,0.005,0.00300,0.00012,0.00500,0.00000,,")
    same("locate with a crest from -", crest("locate", "-", "p.csv", given=K.read_bytes()).status, 0)
    said = crest("locate", "-", "-", given=K.read_bytes())
    case("standard input for two files", said.status in (1, 2) and said.out == "" and said.err.startswith("crest: "), said.status, said.err)
    said_is("a damaged crest from -", crest("check", "-", given=b"x"), 1, f"crest: standard input: {refusal(1)}\n")
    said_is("a bad point from -", crest("locate", K, "-", given=b"x_m,y_m\n1\n"), 1, "crest: standard input: line 2: y_m is missing\n")
    os.path.exists("pipe") or os.mkfifo("pipe")
    for words, data, wanted in ((("make", "pipe", "made"), LINE.encode(), 0), (("show", "pipe"), K.read_bytes(), 0),
                                (("locate", K, "pipe"), b"x_m,y_m\n0,0\n", 0), (("show", "pipe"), b"x", 1)):
        writer = threading.Thread(target=lambda data=data: write("pipe", data))
        writer.start()
        same(f"{words[0]} from a pipe", crest(*words).status, wanted)
        writer.join()
    full = "crest: standard output: No space left on device\n"
    shell = 'crest() { "$PYTHON" "$CREST" "$@"; }; '
    environment = {**os.environ, "PYTHON": sys.executable, "CREST": str(HERE / "crest"), "K": str(K)}
    for command in ('show "$K"', "make elements made", "readings make p.csv made", "--version", "help", "help make"):
        found = subprocess.run(["bash", "-c", f"{shell} crest {command} > /dev/full"], capture_output=True, env=environment)
        wanted = full.replace("crest: ", "crest: made: was written; ") if command.endswith("made") else full
        same(f"{command} > /dev/full", (found.returncode, found.stderr.decode()), (1, wanted))
    found = subprocess.run(["bash", "-c", f'{shell} crest place "$K" 2> /dev/full'], capture_output=True, env=environment)
    same("usage where standard error is full", found.returncode, 2)
    write("run", bytes(24))
    found = subprocess.run(["bash", "-c", f'{shell} crest night "$K" readings run --units m > /dev/full'], capture_output=True, env=environment)
    counted = full[:-1] + "; the night was counted, and its listing is not whole\n"
    same("night > /dev/full", (found.returncode, found.stderr.decode()), (1, counted))
    same("night > /dev/full: the run has it", rules.run_of(pathlib.Path("run").read_bytes())[:2], (1, 0))
    found = subprocess.run(["bash", "-c", shell + 'crest locate <(cat "$K") <(printf "x_m,y_m\\n0,0\\n") --csv | tail -1'], capture_output=True,
                           env=environment)
    same("process substitution", (found.stdout, found.stderr), (b"1,0.000,0.00000,0.00000,0.00000,0.00000,,\n", b""))
    found = subprocess.run(["bash", "-c", shell + 'crest place "$K" --every 0.001 --units m | head -1'], capture_output=True, env=environment)
    same("a reader that leaves", (found.stdout.split()[:1], found.stderr), ([b"name"], b"crest: standard output: Broken pipe\n"))
    unbuffered = {**environment, "PYTHONUNBUFFERED": "1"}
    slow = shell + 'crest place "$K" --every 0.001 --units m | (sleep 0.5; wc -l)'
    found = subprocess.run(["bash", "-c", slow], capture_output=True, env=unbuffered)
    same("an output without a buffer is whole", found.stdout.strip(), b"10002")
    for command, wanted in ((f'show "$K" >&-', "standard output: is closed"), ("show - <&-", "standard input: is closed")):
        found = subprocess.run(["bash", "-c", f"{shell} crest {command}"], capture_output=True, env=environment)
        same(command, (found.returncode, found.stderr.decode()), (1, f"crest: {wanted}\n"))
    found = program("check", K)
    same("a process of its own", (found.returncode, found.stdout.decode(), found.stderr),
         (0, f"{K}: accepted: 1 element, 10.000 m\n    ends at x 10.00000, y 0.00000 m, bearing 90.0000000 deg\n", b""))


def word_files():
    """@FILE stands for the words in it."""
    write("site", "# the site's own\n--units m   # metres\n--origin 500000 4100000\n\n--angle bearing\n")
    write("elements", "line 10 500000 4100000 90\n")
    said_is("make with @FILE", crest("make", "elements", "made", "@site"), 0, "",
            "made: 1 element, 10.000 m\n    ends at x 500010.00000, y 4100000.00000 m, bearing 90.0000000 deg\n")
    same("make with @FILE: K", pathlib.Path("made").read_bytes(), K.read_bytes())
    for what, data in (("that is no UTF-8", b"--units\xff m\n"), ("that names itself", b"@site\n")):
        write("site", data)
        said = crest("make", "elements", "made", "@site")
        case(f"@FILE {what}", said.status == 2 and said.out == "" and said.err, str(said.status).strip().splitlines()[-1])
    said = crest("make", "elements", "made", "@absent")
    case("no @FILE", said.status == 2 and said.out == "" and "absent" in said.err and "No such file or directory" in said.err, said)


# ---- usage


def usage():
    words_of = {
        "make": "ELEMENTS CREST --units --angle --origin --snap --snap-angle", "show": "CREST --units --angle --origin --csv --json -o",
        "check": "CREST --json -o",
        "import": "FILE.xml ELEMENTS --alignment --origin --split --snap --snap-angle", "readings": "make show",
        "readings make": "POINTS.csv READINGS --line --units --origin",
        "readings show": "READINGS --line --units --origin --json -o", "locate": "CREST POINTS.csv --units --origin --csv --json -o",
        "place": "CREST PLACES.csv --at --every --joins --offset --units --angle --origin --csv --json -o",
        "stake": "STAKES.csv --crest --own --target --at --heading --units --angle --origin --csv --json -o",
        "night": "CREST READINGS RUNFILE --new --line --units --origin --csv --json -o",
        "run": "RUNFILE --json -o", "acknowledge": "RUNFILE --json -o", "draw": "CREST READINGS --paper --title --origin -o", "help": "COMMAND",
    }
    status = "Exit status: 0 done, 1 refused or a file could not be read or written, 2 bad usage."
    top = crest("help")
    same("help: status", (top.status, top.err), (0, ""))
    case("help: exit status", status in top.out, top.out)
    for name, words in words_of.items():
        said = crest("help", *name.split())
        same(f"help {name}: status", (said.status, said.err), (0, ""))
        case(f"help {name}: exit status", status in said.out, said.out)
        for word in words.split():
            case(f"help {name} names {word}", re.search(rf"(?<![\w-]){re.escape(word)}(?![\w-])", said.out), said.out)
        case(f"help names {name}", f"\n    {name.split()[0]} " in top.out)
        case(f"help {name}: no line is too long", max(map(len, said.out.splitlines())) <= 140, max(said.out.splitlines(), key=len))
        if name != "help":
            same(f"{name} --help", crest(*name.split(), "--help")[:3], said[:3])
    commands_there = re.findall(r"^    (\w+) ", top.out, re.MULTILINE)
    same("commands of the help", commands_there, [name for name in words_of if " " not in name])
    numbers = ["100 to 1 mm", "1 m is 100,000 grains", "a half away from zero"]
    directions = ["1073741824 (2^30) to 1", "90 less the bearing", "100 less the bearing", "400 to a turn"]
    for name in ("make", "show", "locate", "place", "stake", "night", "readings make"):
        said = crest("help", *name.split()).out
        wanted = numbers + (directions if "--angle" in words_of[name] else [])
        same(f"help {name} says the conversions", [words for words in wanted if words not in said], [])
    bad_words()


def bad_words():
    version = re.search(r'CREST_VERSION_TEXT "(.*)"', (ROOT / "include" / "crest.h").read_text())[1]
    said_is("--version", crest("--version"), 0, "", f"crest {version}\n")
    said = crest()
    same("no command", (said.status, said.out, said.err), (2, "", crest("help").out))
    said = crest("help", "bogus")
    same("help of no command", (said.status, said.out, said.err.splitlines()[0]), (2, "", "crest: 'bogus' is no command"))
    required = "the following arguments are required: "
    for words, wanted in (
        (("bogus",), "crest: error: argument COMMAND: invalid choice: 'bogus'"),
        (("make",), f"crest make: error: {required}ELEMENTS, CREST\n"),
        (("make", "a"), f"crest make: error: {required}CREST\n"),
        (("show",), f"crest show: error: {required}CREST\n"),
        (("check",), f"crest check: error: {required}CREST\n"),
        (("import", "a"), f"crest import: error: {required}ELEMENTS\n"),
        (("readings",), f"crest readings: error: {required}make|show\n"),
        (("readings", "make", "a"), f"crest readings make: error: {required}READINGS\n"),
        (("readings", "show"), f"crest readings show: error: {required}READINGS\n"),
        (("locate", "a"), f"crest locate: error: {required}POINTS.csv\n"),
        (("place",), f"crest place: error: {required}CREST\n"),
        (("night", "a", "b"), f"crest night: error: {required}RUNFILE\n"),
        (("run",), f"crest run: error: {required}RUNFILE\n"),
        (("acknowledge",), f"crest acknowledge: error: {required}RUNFILE\n"),
        (("draw",), f"crest draw: error: {required}CREST\n"),
        (("show", K, "--units", "km"), "crest show: error: argument --units: invalid choice: 'km' (choose from 'm', 'mm', 'grains')\n"),
        (("show", K, "--angle", "radian"), "crest show: error: argument --angle: invalid choice: 'radian' "
         "(choose from 'pair', 'degrees', 'gon', 'bearing', 'bearing-gon')\n"),
        (("show", K, "--csv", "--json"), "crest show: error: argument --json: not allowed with argument --csv\n"),
        (("show", K, "--origin", "1"), "crest show: error: argument --origin: expected 2 arguments\n"),
        (("show", K, "--unit", "m"), "crest: error: unrecognized arguments: --unit m\n"),
        (("check", K, "more"), "crest: error: unrecognized arguments: more\n"),
        (("draw", K, "--paper", "a0"), "crest draw: error: argument --paper: invalid choice: 'a0'"),
        (("make", "a", "b", "--snap"), "crest make: error: argument --snap: expected one argument\n"),
    ):
        said = crest(*words)
        good = said.status == 2 and said.out == "" and wanted in said.err and said.err.startswith("usage: crest ")
        case(f"usage of {' '.join(map(str, words))}", good, said.status, said.out, said.err)
    for words in (("show", K), ("locate", K, "p.csv"), ("place", K, "--joins", "--units", "m"), ("draw", K)):
        misused("--origin: E 'east' is not a number", *words, "--origin", "east", "0")


# ---- anything at all


def anything(seed=99):
    """Files and words at random, made of pieces that mean something: each command ends with 0, 1 or 2, and with what it ought to say then."""
    rng = random.Random(seed)
    write("in.crest", pathlib.Path("16.crest").read_bytes())
    pieces = {"text": TEXT_PIECES, "csv": CSV_PIECES}
    seen = set()
    for _ in range(500):
        name = rng.choice(("a.csv", "b"))
        sort = rng.choice(("text", "csv"))
        data = "".join(rng.choice(pieces[sort]) for _ in range(rng.randint(0, 30))).encode("utf-8")
        if rng.randrange(3) == 0:
            data = (CSV_HEADS if sort == "csv" else TEXT_HEADS)[rng.randrange(4)].encode("utf-8") + data
        if rng.randrange(6) == 0:
            data = rng.randbytes(rng.choice((0, 1, 16, 24, 40, 512)))
        write(name, data)
        write("run", rng.choice((bytes(24), rng.randbytes(24), b"", b"x")))
        words = [*rng.choice(COMMANDS)(name), *itertools.chain(*rng.sample(OPTIONS, rng.randint(0, 3)))]
        before = sorted(os.listdir())
        said = crest(*words)
        good = said.status in (0, 1, 2) and (said.status != 0 or said.err == "" or said.err.startswith("crest: ")) and (said.status != 2
            or said.out == "" and said.err)
        good = good and (said.status != 1 or said.err.startswith("crest: ") or said.out
                         or "-o" in words) and not set(os.listdir()) - set(before) - {"out", "made"}
        case(f"any words: {' '.join(map(str, words))} of {data[:300]!r}", good, said)
        seen.add((words[0], said.status))
    case("any words: each command is done, and refused, at times", len(seen) >= 24, sorted(map(str, seen)))


TEXT_PIECES = ("line", "arc", "entry ", "exit ", "on", " on ", " ", " ", "\n", "\n", "0", "10", "10000", "1073741824", "-5", "90", "1.5", "1e5", "#",
               ",", "\t", "é", "53:30:00", "99999999999", "5 ")
CSV_PIECES = (",", ",", ";", "\n", "\n", "\r\n", '"', "0", "1", "10", "2.5", "-7", "line", "arc", "exit", "90", "1e9", "1e-9", " ", "A", "é", "1,5",
              "\t", "\0", "\r", "99999999999999999999", "nan")
TEXT_HEADS = ("line 10000 0 0 1073741824 0\n", "line 10 0 0 90\narc 5 on 100\n", "exit 10 0 0 90 100\nline 10 ", "# a\n\n1 5 0 0 0 0 0\n2 ")
CSV_HEADS = ("name,x_m,y_m\n", "x,y,station,offset\n1,2,3,4\n", "kind,length_m,x_m,y_m,bearing_deg,radius_m\nline,10,0,0,90,\n",
             "x_m;y_m;target_x_m;target_y_m;bearing_deg;station_m;offset_m\n0;0;1;1;90;1;1\n")
COMMANDS = (
    lambda name: ("make", name, "made"), lambda name: ("show", name), lambda name: ("check", name), lambda name: ("import", name, "made"),
    lambda name: ("readings", "make", name, "made"),
    lambda name: ("readings", "show", name), lambda name: ("locate", "in.crest", name), lambda name: ("place", "in.crest", name),
    lambda name: ("place", "in.crest"),
    lambda name: ("stake", name), lambda name: ("stake", name, "--crest", "in.crest"), lambda name: ("night", "in.crest", name, "run"),
    lambda name: ("night", name, name, "run"),
    lambda name: ("run", "run"), lambda name: ("acknowledge", "run"), lambda name: ("draw", "in.crest", name), lambda name: ("draw", name),
)
OPTIONS = (
    ("--units", "m"), ("--units", "mm"), ("--units", "grains"), ("--units", "m"), ("--units", "m"), ("--angle", "bearing"), ("--angle", "pair"),
    ("--angle", "gon"), ("--origin", "500000", "-7"), ("--json",), ("--csv",),
    ("-o", "out"), ("--snap", "5"), ("--snap-angle", "1e9"), ("--joins",), ("--every", "1"), ("--at", "1", "1"), ("--at", "-1", "1e30"),
    ("--offset", "1e9"), ("--line",), ("--own", "0", "1e5"), ("--target", "1", "1"),
    ("--heading", "90"), ("--heading", "0,1073741824"), ("--new",), ("--paper", "a4"), ("--title", "<é>"), ("--split",),
)


# ---- slips that would pass for something else


def slips():
    write("p.csv", "x_m,y_m\n3000,0\n")
    write("run", bytes(24))
    frame = "every point lies outside the frame, which is x from -2000.00000 to 2000.00000 and y from -2000.00000 to 2000.00000 m"
    misused(f"p.csv: {frame}; --origin E N moves the frame: with --origin, be it 0 0, they are counted", "night", K, "p.csv", "run")
    same("a night without its origin: the run stays", pathlib.Path("run").read_bytes(), bytes(24))
    said = crest("night", K, "p.csv", "run", "--origin", "0", "0", "--csv")
    same("with it, it is counted", (said.status, rules.run_of(pathlib.Path("run").read_bytes())[:5]), (1, (0, 1, 11, 11, 1)))
    write("p.csv", "x_m,y_m\n4100000,500000\n")
    said = crest("locate", K, "p.csv", "--origin", "500000", "4100000")
    case("x and y exchanged", said.err.endswith("y from 4098000.00000 to 4102000.00000 m; are x and y exchanged?\n"), said.err)

    write("readings", packed([(500000.0000000001, 1e-320), (500000.0, 300.00000000000006), (134196921.99999999, 2.5)]))
    for unit in ("m", "mm", "grains"):
        rows = list(csv.reader(io.StringIO(crest("readings", "show", "readings", "--units", unit).out)))[1:]
        per = {"m": 100_000, "mm": 100, "grains": 1}[unit]
        same(f"readings that are not whole, in {unit}", [[Fraction(cell) * per for cell in row[1:]] for row in rows[1:]],
             [[500000, Fraction(300.00000000000006)], [Fraction(134196921.99999999), Fraction(2.5)]])
        same(f"a tiny one, in {unit}", (Fraction(rows[0][1]) * per, rows[0][2]), (Fraction(500000.0000000001), "1e-320 grains"))
    write("readings", packed([(349525.3333333333, 2.0**60)]))
    row = json.loads(crest("readings", "show", "readings", "--units", "m", "--json").out)["rows"][0]
    same("JSON cuts no number", (Fraction(row["x_m"]) * 100_000, row["y_m"]), (Fraction(349525.3333333333), "11529215046068.46976"))
    write("elements", "300 99999999999 99999999999 0 1073741824 0 99999999999\n")
    case("a kind and numbers that do not fit", crest("make", "elements", "none").err.count("does not fit a record") == 4)
    write("readings", packed([(1e-10, 1e22)]))
    same("such readings as JSON", crest("readings", "show", "readings", "--units", "m", "--json").status, 0)
    write("p.csv", "x_grains,y_grains\n9007199254740993,0\n")
    refuses("p.csv: 1: a number is too large for a reading", "readings", "make", "p.csv", "none")

    for word, seconds in {"74 05 30": 266_730, "74-05-30": 266_730, "74° 05' 30\"": 266_730, "74°": 266_400, "74:30": 268_200,
                          "74d30m": 268_200}.items():
        same(f"the angle {word}", units.degrees(word), Fraction(seconds, 3600))
    for word in ("74 5", "74-5", "74 5 3", "74-05 30", "74 05", "7 4.5", "74::30", "74°5°3"):
        write("elements", f"kind;length_m;x_m;y_m;bearing_deg\nline;10;0;0;{word}\n")
        refuses(f"elements: line 2: bearing_deg '{word}' is not an angle: 53.5, 53:30:00 or 53°30'00\"", "make", "elements", "none")

    misused("--at '' is not a number", "place", K, "--units", "m", "--at", "", "0")
    misused("--every '' is not a number", "place", K, "--units", "m", "--every", "")
    misused("--own '' is not a number", "stake", "--units", "m", "--own", "", "0", "--target", "0", "0", "--heading", "1073741824,0")
    write("p.csv", "name,x_m,y_m,station_m,offset_m,target_x_m,target_y_m\nS,0,0,5,0,1,1\n")
    said = crest("stake", "p.csv", "--crest", K, "--csv")
    same("a stake with two targets", said.err, "crest: p.csv: columns not used: target_x_m, target_y_m\n")
    write("readings", packed([(512, 300)]))
    pathlib.Path("none.run").unlink(missing_ok=True)
    said_is("a new run that is the listing too", crest("night", K, "readings", "none.run", "--new", "--units", "m", "-o", "./none.run"), 1,
            "crest: ./none.run: is read by the same command; nothing was written\n")
    case("it is not there", not os.path.exists("none.run"))
    write("p.csv", "x_mm,y_mm\n0,0\n" + " " * 10)
    said_is("a run that is the readings too", crest("night", K, "p.csv", "p.csv", "--units", "m"), 1,
            "crest: p.csv: is read by the same command; nothing was written\n")


# ---- options, and import as a command


def options():
    """Every option of a command stands in its help, in the manual page, and the other way round."""
    _, found = parsers()
    page = (HERE / "man" / "crest.1").read_text().replace("\\-", "-")
    readme = (HERE / "README.md").read_text()
    everywhere = set()
    for name, parser in found.items():
        has = {text for action in parser._actions for text in action.option_strings} - {"-h", "--help"}
        told = set(re.findall(r"(?<![\w-])--?[a-z][a-z-]*", crest("help", *name.split()).out)) - {"-h", "--help"}
        case(f"options of {name} in its help", has <= told, has - told)
        everywhere |= has
    same("options in crest.1 that there are not", set(re.findall(r"(?<![\w-])--[a-z][a-z-]*", page)) - everywhere, {"--version"})
    case("options that crest.1 lacks", all(re.search(rf"(?<![\w-]){text}(?![\w-])", page) for text in everywhere),
         [text for text in everywhere if text not in page])
    same("options in README.md that there are not", set(re.findall(r"(?<![\w-])--[a-z][a-z-]*", readme)) - everywhere, {"--cflags", "--libs"})
    for name in ("check", "run", "acknowledge"):
        case(f"{name} takes the words of a site", {"--units", "--angle", "--origin"} <= set(found[name]._option_string_actions))


def imports():
    """The words of `import`; what it reads is tested in tools/test_landxml.py."""
    good, long, two, utm = (str(HERE / "landxml" / f"{name}.xml") for name in ("dam", "long", "two", "utm"))
    said = crest("import", long, "none")
    hint = "\n    --split makes several elements of one that is too long or too tight\n"
    case("too long for one element", said.status == 1 and said.err.endswith(hint), said.err)
    case("nothing is written then", not os.path.exists("out.elements"))
    same("import --split", crest("import", long, "out.elements", "--split").status, 0)
    same("what it makes", (crest("make", "out.elements", "made").status, len(rules.check(pathlib.Path("made").read_bytes()).elements)), (0, 7))
    case("one of two", "choose one by --alignment NAME" in crest("import", two, "none").err)
    same("import --alignment", crest("import", two, "out.elements", "--alignment", "Saddle dam").status, 0)
    made = {}
    for name, options in {"grains": (), "m": ("--units", "m"), "mm": ("--units", "mm", "--angle", "gon"),
                          "own": ("--origin", "499000", "4099000")}.items():
        said = crest("import", utm, "out.elements", *options)
        read = [] if name in ("grains", "own") else ["--units", name, "--angle", "bearing" if name == "m" else "gon", "--origin", "500000", "4100000"]
        same(f"import {' '.join(options)}", (said.status, crest("make", "out.elements", "made", *read).status), (0, 0))
        made[name] = pathlib.Path("made").read_bytes()
        origin = "origin E 499000 N 4099000, in metres, " if name == "own" else "origin E 500000 N 4100000, in metres, "
        more = "goes with every command" if name in ("m", "mm") else "is subtracted here, so that make takes none; it goes with other commands"
        case(f"the origin of import {' '.join(options)}", f": {origin}{more}\n" in said.err, said.err)
    same("the same crest in every unit", (made["m"], made["mm"]), (made["grains"], made["grains"]))
    first, second = (rules.check(made[name]).elements[0] for name in ("grains", "own"))
    same("another origin", (second.x - first.x, second.y - first.y), (10**8, 10**8))
    said = crest("import", good, "out.elements", "--snap", "1", "--snap-angle", "60")
    case("import --snap", said.status == 0 and "largest gap 0.00 mm, largest kink 0.0 seconds of arc" in said.err, said.err)


def turning():
    """The side to which a crest turns, and the curvature where a join is refused."""
    for sign, side in (("", "left"), ("-", "right")):
        write("elements", f"line 10 0 0 90\narc 20 on {sign}100\n")
        said = crest("make", "elements", "made", "--units", "m", "--angle", "bearing")
        same(f"a crest that turns to the {side}", said.out.splitlines()[0],
             f"made: 2 elements (1 where the one before ends), 30.000 m, turning 11.4592 degrees to the {side}")
    write("elements", "entry 20 0 0 90 100\narc 20 20.1 0.665 84.27 -100\narc 20 39 6 70 100\n")
    said = crest("make", "elements", "none", "--units", "m", "--angle", "bearing")
    case("the curvature where joins are refused", said.err.endswith(
        "    lines 1 and 2: the curvature jumps at a spiral, from radius 100.000 m to radius -100.000 m\n"
        "    a wrong element upsets both its joins: mend the first, and try again\n"), said.err)
    for unit, wanted in (("mm", "are they in metres?"), ("m", "--origin E N moves the frame")):
        write("elements", "line 10 1000 5000 90\n" if unit == "m" else "line 10 500010 4100010 90\n")
        origin = () if unit == "m" else ("--origin", "500000", "4100000")
        case(f"a hint to {wanted}", f"; {wanted}\n" in crest("make", "elements", "none", "--units", unit, "--angle", "bearing", *origin).err)
    write("p.csv", "x_m,y_m\n3000,0\n")
    misused("p.csv: every point lies outside the frame, which is x from -2000.00000 to 2000.00000 and y from -2000.00000 to 2000.00000 m; "
            "--origin E N moves the frame: with --origin, be it 0 0, they are drawn", "draw", K, "p.csv")
    same("drawn all the same", crest("draw", K, "p.csv", "--origin", "0", "0").status, 0)
    write("readings", "\ufeffname;x;y\nMühle;1;2\n")
    refuses("readings: is text and no readings of 16 bytes; a CSV file's name ends with .csv", "night", K, "readings", "run", "--units", "m")
    write("site", "\ufeff--units m\r\n--angle bearing # words\r\n")
    same("a file of words with a BOM", crest("check", "@site", K).status, 0)


def offsets():
    """--offsets, and hints that go with refusals."""
    write("p.csv", "name,x_m,y_m\nA,0.00512,0.003\n")
    said_is("locate --offsets", crest("locate", K, "p.csv", "--offsets", "mm", "--csv"), 0, "",
            "name,station_m,offset_mm,residual_mm,foot_x_m,foot_y_m,refused,sentence\nA,0.005,3.00,0.12,0.00500,0.00000,,\n")
    write("run", bytes(24))
    said_is("night --offsets", crest("night", K, "p.csv", "run", "--offsets", "grains", "--csv"), 0, "",
            "reading,name,station_m,offset_grains,residual_grains,refused,sentence\n1,A,0.005,300,12,,\n")
    said = crest("place", K, "--units", "m", "--at", "11", "0")
    same("the ranges of places", said.err, f"crest: {K}: stations are 0 to 10.000 m, and offsets -200.00000 to 200.00000 m\n")
    refuses("elements: line 1: radius 2147483.648 m does not fit a record: its length is out of range too", "make",
            write("elements", "arc 501 0 0 90 2147483.648\n"), "none", "--units", "m", "--angle", "bearing")


SECTIONS = {
    "trips": round_trips,
    "answers": answers,
    "runs": runs,
    "ranges": ranges,
    "units": unit_cases,
    "messages": messages,
    "slips": slips,
    "offsets": offsets,
    "turning": turning,
    "imports": imports,
    "input": bad_input,
    "files": file_cases,
    "options": options,
    "usage": usage,
    "anything": anything,
}


def main(names):
    with tempfile.TemporaryDirectory() as folder:
        os.chdir(folder)
        test_files.main(folder)
        for name in names or SECTIONS:
            try:
                SECTIONS[name]()
            except Exception:
                case(f"section {name} to its end", False, traceback.format_exc())
        os.chdir("/")
    return CASES.end()


if __name__ == "__main__":
    if set(sys.argv[1:]) - set(SECTIONS):
        sys.exit(__doc__)
    sys.exit(main(sys.argv[1:]))
