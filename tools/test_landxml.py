#!/usr/bin/env python3
"""Tests of tools/desk/landxml.py over the files of tools/landxml and damaged variants of them. Elements are compared with values that are
computed here from the file in floating point. The last line says how many cases there were and how many failed; fails on any.

usage: test_landxml.py
"""

import decimal
import math
import pathlib
import random
import re
import sys
import tempfile
import xml.etree.ElementTree as ElementTree
from fractions import Fraction

sys.dont_write_bytecode = True
HERE = pathlib.Path(__file__).resolve().parent
sys.path.insert(0, str(HERE))
from desk import landxml, library, units  # noqa: E402
from desk.elements import ARC, ENTRY, EXIT, LINE, Element  # noqa: E402
from desk.files import Trouble  # noqa: E402
from test_cases import Cases  # noqa: E402

FILES = HERE / "landxml"
GRAINS, ONE = 100_000, 2**30  # to 1 m, to 1
CASES = Cases("landxml")
case, same = CASES.case, CASES.same


def text_of(name):
    return (FILES / f"{name}.xml").read_text(encoding="utf-8")


def changed(name, *pairs):
    """The text of a file with words exchanged, each of which it has to have."""
    text = text_of(name)
    for old, new in pairs:
        assert old in text, (name, old)
        text = text.replace(old, new)
    return text


class Saved:
    """A text or bytes as a file that is deleted afterwards."""

    def __init__(self, data):
        self.data = data.encode("utf-8") if isinstance(data, str) else data

    def __enter__(self):
        self.folder = tempfile.TemporaryDirectory()
        path = pathlib.Path(self.folder.name) / "it.xml"
        path.write_bytes(self.data)
        return str(path)

    def __exit__(self, *_):
        self.folder.cleanup()


def of_data(data, **words):
    with Saved(data) as path:
        return landxml.imported(path, **words)


def message(path, **words):
    """What is said of a file that can't be had, without its name; None where it can."""
    try:
        landxml.imported(path, **words)
    except Trouble as trouble:
        lines = str(trouble).split("\n")
        return [line[len(path) + 2 :] if line.startswith(f"{path}: ") else f"no file is named: {line}" for line in lines]
    return None


def refused(what, data, *wanted, **words):
    with Saved(data) as path:
        same(what, message(path, **words), list(wanted))


def attempt(function):
    """Runs some cases; a Trouble or a fault of the code there is a failed case and not the end."""
    try:
        function()
    except Exception as error:
        case(function.__name__, False, f"{type(error).__name__}: {error}")


# ---- what the elements of a file have to be, in floating point


def point(node, references):
    words = (node.text or "").split() or references[node.get("pntRef")]
    return float(words[1]), float(words[0])


def expected(path, at=0, metres=1.0, origin=(0, 0)):
    """Kind, length, x, y, c, s and radius of each element, not rounded."""
    root = ElementTree.parse(path).getroot()
    for node in root.iter():
        node.tag = node.tag.rpartition("}")[2]
    references = {node.get("name"): node.text.split() for node in root.iter("CgPoint")}
    for node in list(root.iter("CoordGeom"))[at]:
        if node.tag != "Feature":
            points = {child.tag: point(child, references) for child in node}
            kind, length, (x, y), angle, radius = {"Line": line, "Curve": curve, "Spiral": spiral}[node.tag](node, points)
            anchor = (x * metres * GRAINS - origin[0], y * metres * GRAINS - origin[1])
            yield (kind, length * metres * 1000, *anchor, ONE * math.cos(angle), ONE * math.sin(angle), radius * metres * 1000)


def angle_of(first, second):
    return math.atan2(second[1] - first[1], second[0] - first[0])


def line(_, points):
    return LINE, math.dist(points["Start"], points["End"]), points["Start"], angle_of(points["Start"], points["End"]), 0


def curve(node, points):
    side = {"cw": -1, "ccw": 1}[node.get("rot")]
    start, center, end = (points[name] for name in ("Start", "Center", "End"))
    radius = float(node.get("radius", math.dist(start, center)))
    turned = side * (angle_of(center, end) - angle_of(center, start)) % math.tau
    return ARC, float(node.get("length", turned * radius)), start, angle_of(center, start) + side * math.pi / 2, side * radius


def spiral(node, points):
    side = {"cw": -1, "ccw": 1}[node.get("rot")]
    length = float(node.get("length"))
    if node.get("radiusStart") == "INF":
        return ENTRY, length, points["Start"], angle_of(points["Start"], points["PI"]), side * float(node.get("radiusEnd"))
    return EXIT, length, points["End"], angle_of(points["PI"], points["End"]), side * float(node.get("radiusStart"))


def near(element, wanted):
    """Rounded to the nearest, but for what floating point leaves open."""
    slack = (0, 0.501, 0.501, 0.501, 2, 2, 0.501)
    return all(abs(value - float(exact)) <= most for value, exact, most in zip(element[:7], wanted, slack))


def agree(what, found, wanted):
    wanted = list(wanted)
    same(f"{what}: how many elements", len(found), len(wanted))
    for element, numbers in zip(found, wanted):
        case(f"{what}: {element.where}", near(element, numbers), f"{element[:7]} instead of {numbers}")


def crest_of(elements):
    return library.write(b"".join(library.RECORD.pack(*element[:7]) for element in elements))


def leads_to(what, elements, end):
    """The library accepts the elements, and has the last station within 1 mm of a point."""
    crest = crest_of(elements)
    case(f"{what}: accepted", isinstance(crest, bytes), crest)
    if isinstance(crest, bytes):
        x, y = library.position(crest, sum(element.length for element in elements))[:2]
        case(f"{what}: its end", math.dist((x, y), end) <= 100, (x, y))


# ---- good files


def dam():
    path = str(FILES / "dam.xml")
    same("dam: names", landxml.alignment_names(path), ["Crest axis"])
    found = landxml.imported(path)
    same("dam: name", found.name, "Crest axis")
    agree("dam", found.elements, expected(path))
    same("dam: kinds, lengths, radii", [(one.kind, one.length, one.radius) for one in found.elements],
         [(LINE, 60_000, 0), (ENTRY, 30_000, 200_000), (ARC, 40_000, 200_000), (EXIT, 30_000, 200_000), (LINE, 50_000, 0)])
    same("dam: first line", found.elements[0], Element(LINE, 60_000, 1_000_000, 2_000_000, 858_993_459, 644_245_094, 0, "Line 1, line 9"))
    same("dam: places", [one.where for one in found.elements], [f"{name} {at}, line {row}" for name, at, row in (
        ("Line", 1, 9), ("Spiral", 2, 13), ("Curve", 3, 18), ("Spiral", 4, 23), ("Line", 5, 28))])
    same("dam: origin", found.origin, (0, 0))
    same("dam: sentences", found.sentences, ["1 number rounded to a mm, by 0.01932 mm at the most (line 28)"])
    leads_to("dam", found.elements, (15_310_360, 17_035_790))
    same("dam: by name", landxml.imported(path, "Crest  axis "), found)
    same("dam: nothing to split", landxml.imported(path, split=True), found)


def utm():
    path = str(FILES / "utm.xml")
    found = landxml.imported(path)
    same("utm: origin", found.origin, (500_000 * GRAINS, 4_100_000 * GRAINS))
    agree("utm", found.elements, expected(path, origin=found.origin))
    same("utm: radii", [one.radius for one in found.elements], [0, -300_000, -300_000, -300_000, 0])
    same("utm: sentences", found.sentences, [
        "the alignment's stations begin at 1000.000 m in the file; a crest's begin at 0",
        "the alignment has station equations (line 9), which are left out: a crest's stations run on",
        "the origin was chosen, since points lie outside the frame",
        "3 numbers rounded to a mm, by 0.04867 mm at the most (line 30)",
    ])
    leads_to("utm", found.elements, (-14_976_660, -636_780))
    origin = (49_990_000_001, 410_000_100_000)
    moved = landxml.imported(path, origin=origin)
    same("utm: origin given", moved.origin, origin)
    agree("utm: origin given", moved.elements, expected(path, origin=origin))
    case("utm: nothing is said of an origin given", not any("origin" in sentence for sentence in moved.sentences), moved.sentences)
    wanted = "Line 1, line 11: x 500123.45670 m from the origin does not fit a record"
    same("utm: origin 0", (message(path, origin=(0, 0)) or [])[:1], [wanted])
    mirrored = of_data(changed("utm", (" 4999", " -4999"), (" 500", " -500"), (" 4998", " -4998"), (">410", ">-410"), (">4099", ">-4099")))
    opposite = [one._replace(x=-one.x, y=-one.y, c=-one.c, s=-one.s) for one in found.elements]
    same("utm: half a turn on", mirrored.elements, opposite)
    same("utm: half a turn on, origin", mirrored.origin, (-500_000 * GRAINS, -4_100_000 * GRAINS))


def feet():
    path = str(FILES / "feet.xml")
    found = landxml.imported(path)
    agree("feet", found.elements, expected(path, metres=1200 / 3937, origin=found.origin))
    same("feet: origin", found.origin, (610_000 * GRAINS, 213_000 * GRAINS))
    same("feet: sentences", found.sentences, [
        "coordinates, lengths and radii are in USSurveyFoot in the file, 1200/3937 m each",
        "the origin was chosen, since points lie outside the frame",
        "6 numbers rounded to a grain (0.01 mm), by 0.00277 mm at the most (line 14)",
        "4 numbers rounded to a mm, by 0.39040 mm at the most (line 14)",
    ])
    end = (2000361.1027, 700265.9104)
    leads_to("feet", found.elements, [value * 1200 / 3937 * GRAINS - less for value, less in zip(end, found.origin)])
    same("feet: the unit of staStart", of_data(changed("feet", ('"Levee"', '"Levee" staStart="100"'))).sentences[1],
         "the alignment's stations begin at 30.480 m in the file; a crest's begin at 0")


def every_unit():
    children = '<Line><Start>1.2 -3.4</Start><End>4 5</End></Line><Curve rot="cw" radius="5.5" length="2.25">'
    children += "<Start>4 5</Start><Center>-1.5 5</Center><End>3.549 7.184</End></Curve>"
    for system, unit, metres in (
        ("Metric", "millimeter", 0.001), ("Metric", "centimeter", 0.01), ("Metric", "kilometer", 1000), ("Metric", "METER", 1),
        ("Imperial", "foot", 0.3048), ("Imperial", "USSurveyFoot", 1200 / 3937), ("Imperial", "inch", 0.0254), ("Imperial", "mile", 1609.344),
    ):
        with Saved(file_of(children, f'<Units><{system} linearUnit="{unit}"/></Units>')) as path:
            found = landxml.imported(path)
            agree(unit, found.elements, expected(path, metres=metres, origin=found.origin))
            each = "1200/3937" if unit == "USSurveyFoot" else metres
            said = f"coordinates, lengths and radii are in {unit} in the file, {each} m each"
            same(f"{unit}: said", said in found.sentences, unit != "METER")


def two():
    path = str(FILES / "two.xml")
    same("two: names", landxml.alignment_names(path), ["Main dam", "Saddle dam"])
    main = landxml.imported(path, "Main dam")
    same("two: the first", main.name, "Main dam")
    agree("two: the first", main.elements, expected(path, 0))
    same("two: sentences", main.sentences, ["the file names no units: metres are assumed"])
    agree("two: the second", landxml.imported(path, "Saddle dam").elements, expected(path, 1))
    same("two: none chosen", message(path), ["has 2 alignments: Main dam and Saddle dam: choose one by --alignment NAME"])
    same("two: not there", message(path, alignment="Spillway"), ["has no alignment 'Spillway', but Main dam and Saddle dam"])
    refused("two: the same name", changed("two", ("Saddle dam", "Main dam")), "has 2 alignments 'Main dam', in lines 9 and 24", alignment="Main dam")
    refused("two: no name", changed("two", (' name="Saddle dam"', "")),
            "has 2 alignments: Main dam and one without a name (line 24): choose one by --alignment NAME")


# ---- parts


def parts_on_circle(what, parts, whole, center):
    """Parts of an arc: their lengths, and each anchor on the circle where the length before it leads; center in grains."""
    lengths = [part.length for part in parts]
    case(f"{what}: lengths", sum(lengths) == whole.length and max(lengths) - min(lengths) <= 1, lengths)
    radius = whole.radius * 100
    angle = math.atan2(whole.y - center[1], whole.x - center[0])
    before = 0
    for i, part in enumerate(parts):
        at = angle + before * 100 / radius
        wanted = (center[0] + abs(radius) * math.cos(at), center[1] + abs(radius) * math.sin(at))
        heading = at + math.copysign(math.pi / 2, radius)
        good = near(part, (ARC, part.length, *wanted, ONE * math.cos(heading), ONE * math.sin(heading), whole.radius))
        case(f"{what}: part {i + 1}", good, part, wanted)
        before += part.length
    same(f"{what}: places", [part.where for part in parts], [f"{whole.where}, part {i + 1} of {len(parts)}" for i in range(len(parts))])
    fewer = whole._replace(length=-(-whole.length // (len(parts) - 1)))
    same(f"{what}: no fewer parts", crest_of([fewer]), library.Refusal(6, 0))


def split():
    path = str(FILES / "long.xml")
    whole, parts = landxml.imported(path), landxml.imported(path, split=True)
    agree("long: whole", whole.elements, expected(path))
    same("long: refused whole", crest_of(whole.elements), library.Refusal(6, 0))
    halves = [Element(LINE, 400_000, 0, 40_000_000 * i, 0, ONE, 0, f"Line 1, line 10, part {i + 1} of 2") for i in range(2)]
    same("long: the line", parts.elements[:2], halves)
    parts_on_circle("long: the curve", parts.elements[2:6], whole.elements[1], (50_000_000, 80_000_000))
    same("long: the rest", parts.elements[6:], whole.elements[2:])
    same("long: sentences", parts.sentences, [
        "Line 1, line 10: split into 2 parts of 400.000 m",
        "Curve 2, line 14: split into 4 parts of 196.350 m or 1 mm less",
        "1 number rounded to a mm, by 0.20000 mm at the most (line 14)",
    ])
    leads_to("long", parts.elements, (60_000_000, 130_000_000))

    left = changed("long", ('"cw"', '"ccw"'), (" 500.0000", " -500.0000"), (" 600.0000", " -600.0000"))
    turned = of_data(left, split=True).elements
    parts_on_circle("to the left", turned[2:6], of_data(left).elements[1], (-50_000_000, 80_000_000))
    leads_to("to the left", turned, (-60_000_000, 130_000_000))

    slanted = of_data(line_file("0 0", "900 1200.0004"), split=True).elements
    same("slanted: lengths", [part.length for part in slanted], [500_000, 500_000, 500_000])
    c, s = (part / math.hypot(900, 1200.0004) for part in (1200.0004, 900))
    agree("slanted", slanted, [(LINE, 500_000, 50_000_000 * i * c, 50_000_000 * i * s, ONE * c, ONE * s, 0) for i in range(3)])

    tight = curve_file('rot="ccw" radius="20" length="122.1730"', "0 20", "0 0", "-3.47296 19.69616")
    found = of_data(tight, split=True)
    same("tight: how many", len(found.elements), 13)
    parts_on_circle("tight", found.elements, of_data(tight).elements[0], (0, 0))
    leads_to("tight", found.elements, (1_969_616, -347_296))

    wide = curve_file('rot="cw" radius="20000" length="10"', "0 0", "0 20000", "10 0.0025")
    found = of_data(wide, split=True)
    same("wide: left whole", found.elements, of_data(wide).elements)
    case("wide: said", "Curve 1, line 1: can't be split into parts that the library accepts" in found.sentences, found.sentences)
    same("length 0", len(of_data(curve_file('rot="cw" length="0"', "0 0", "0 200", "0 0"), split=True).elements), 1)
    refused("a radius beyond its field", curve_file('rot="cw" radius="3e6" length="10"', "0 0", "0 3e6", "10 0"),
            "Curve 1, line 1: radius -3000000.000 m does not fit a record", origin=(0, 0), split=True)
    far = of_data(line_file("0 0", "0 5000"), origin=(0, 0), split=True)
    same("out of the frame: left whole", [one.length for one in far.elements], [5_000_000])
    refused("too long for its field", line_file("0 0", "0 4294967.296"), "Line 1, line 1: length 4294967.296 m does not fit a record", origin=(0, 0))
    same("the longest of its field", of_data(line_file("0 0", "0 4294967.295"), origin=(0, 0)).elements[0].length, 2**32 - 1)
    spirals = changed("dam", ('length="30.0000"', 'length="300.0000"'))
    same("spirals are never split", of_data(spirals, split=True), of_data(spirals))
    origin = (700, -1300)
    moved = [part._replace(x=part.x - origin[0], y=part.y - origin[1]) for part in parts.elements]
    same("long: with an origin", landxml.imported(path, origin=origin, split=True).elements, moved)
    joins = of_data(curve_file('rot="ccw" radius="900" length="850"', "0 0", "900 0", "0 0"), split=True).elements
    case("parts whose joins are refused are made shorter", isinstance(crest_of(joins), bytes) and len(joins) >= 2, crest_of(joins))


def file_of(children, units_of_it='<Units><Metric linearUnit="meter"/></Units>'):
    return f'<LandXML>{units_of_it}<Alignments><Alignment name="A"><CoordGeom>{children}</CoordGeom></Alignment></Alignments></LandXML>'


def line_file(start, end, attributes=""):
    return file_of(f"<Line {attributes}><Start>{start}</Start><End>{end}</End></Line>")


def curve_file(attributes, start, center, end):
    return file_of(f"<Curve {attributes}><Start>{start}</Start><Center>{center}</Center><End>{end}</End></Curve>")


# ---- what there is to say


def told(what, data, *wanted):
    sentences = of_data(data).sentences
    same(what, [sentence for sentence in sentences if "rounded" not in sentence], list(wanted))


def sentences():
    told("a line's length, 1 mm off", line_file("0 0", "0 10", 'length="10.001"'))
    told("a line's length, more than 1 mm off", line_file("0 0", "0 10", 'length="10.00101"'),
         "Line 1, line 1: its length is 10.00101 m, but from Start to End it is 10.00000 m, which is taken")
    same("a line's length is that of its points", of_data(line_file("0 0", "0 10", 'length="11"')).elements[0].length, 10_000)
    quarter = math.pi * 50
    ended = ("0 100", "0 0", "100 0")
    told("a curve that agrees", curve_file(f'rot="ccw" radius="100" length="{quarter:.4f}"', *ended))
    told("a curve's End, 0.9 mm off", curve_file(f'rot="ccw" radius="100" length="{quarter + 0.0009:.4f}"', *ended))
    told("a curve's End, 2.5 mm off", curve_file(f'rot="ccw" radius="100" length="{quarter + 0.0025:.6f}"', *ended),
         "Curve 1, line 1: its End lies 2.50 mm from where radius and length lead")
    told("a curve turned the other way", curve_file(f'rot="cw" radius="100" length="{quarter:.4f}"', *ended),
         "Curve 1, line 1: its End lies 200000.00 mm from where radius and length lead")
    told("a curve's radius, 2 mm off", curve_file(f'rot="ccw" radius="100.002" length="{quarter:.4f}"', *ended),
         "Curve 1, line 1: its radius is 100.00200 m, which is taken, but its Center lies 100.00000 m from Start",
         "Curve 1, line 1: its End lies 2.32 mm from where radius and length lead")
    told("a curve's radius, 0.5 mm off", curve_file(f'rot="ccw" radius="100.0005" length="{quarter:.4f}"', *ended))
    for rot, wanted in (("ccw", quarter), ("cw", 3 * quarter)):
        found = of_data(curve_file(f'rot="{rot}"', *ended)).elements[0]
        same(f"a curve without length and radius, {rot}", (found.length, abs(found.radius)), (round(wanted * 1000), 100_000))
    for where, end, mm, old, new in (
        ("Spiral 2, line 13", "End", 10, "<End>74.5896 81.5367</End>\n        </Spiral>", "<End>74.5996 81.5367</End>\n        </Spiral>"),
        ("Spiral 4, line 23", "Start", 20, '"INF">\n          <Start>103.7459 108.8238', '"INF">\n          <Start>103.7459 108.8038'),
    ):
        found = of_data(changed("dam", (old, new))).sentences[0]
        pattern = f"{where}: its {end} lies ([0-9.]+) mm from where the library has it"
        parts = re.fullmatch(pattern, found)
        case(f"{where}: its other end", parts and abs(float(parts[1]) - mm) < 0.15, found)
    told("staStart 0", changed("dam", ('staStart="0.0000"', 'staStart="-0.0"')))
    told("staStart below 0", changed("dam", ('staStart="0.0000"', 'staStart="-12.5"')),
         "the alignment's stations begin at -12.500 m in the file; a crest's begin at 0")
    told("no Units", changed("dam", ("Units", "Other")), "the file names no units: metres are assumed")
    same("origin: the edge of the frame", of_data(line_file("0 0", "2000.00000 -2000")).origin, (0, 0))
    same("origin: past the edge of the frame", of_data(line_file("0 0", "2000.00001 0")).origin, (0, 1000 * GRAINS))
    told("origin: the middle is 0", line_file("-3000 0", "3000 0"))
    same("origin: the middle", of_data(line_file("-3501 7000", "-8000 9000")).origin, (8000 * GRAINS, -6000 * GRAINS))


def roundings():
    found = of_data(line_file("10.000005 -10.000005", "10.000005 0.000005"))
    same("a half away from zero", (found.elements[0].x, found.elements[0].y), (-1_000_001, 1_000_001))
    same("said", found.sentences, ["2 numbers rounded to a grain (0.01 mm), by 0.00500 mm at the most (line 1)",
                                   "1 number rounded to a mm, by 0.01000 mm at the most (line 1)"])
    found = of_data(line_file("10.00000499999999999999999 0", "10.00000499999999999999999 5"))
    same("just below a half", found.elements[0].y, 1_000_000)
    found = of_data(line_file("1.5e+002 -2E1", "1.5e+002 0"))
    same("exponents", (found.elements[0].x, found.elements[0].y, found.elements[0].length), (-2_000_000, 15_000_000, 20_000))
    same("exponents are exact", found.sentences, [])
    # a direction of two points that are near to each other and far from 0
    found = of_data(line_file("4100000.00000 500000.00000", "4100000.00003 500000.00004")).elements[0]
    same("a direction of exact coordinates", (found.c, found.s), (858_993_459, 644_245_094))
    found = of_data(line_file("0.000001 0.000001", "0.000004 0.000005")).elements[0]
    same("a direction below a grain", (found.c, found.s), (858_993_459, 644_245_094))


def precise_pair(way):
    size = decimal.Decimal(way[0] ** 2 + way[1] ** 2).sqrt()
    return tuple(int((part * ONE / size).to_integral_value(decimal.ROUND_HALF_UP)) for part in way)


def computed():
    """Directions against decimal numbers of 80 digits, points of arcs and lines against floating point."""
    rng = random.Random(7)
    decimal.getcontext().prec = 80
    ways = [tuple(rng.randint(1, 10 ** rng.randint(1, 20)) * rng.choice((-1, 1)) for _ in "xy") for _ in range(200)]
    for _ in range(50):  # next to a half, below and above
        odd = rng.randrange(1, 2 * ONE, 2)
        other = math.isqrt(((2 * ONE) ** 2 - odd**2) * 10**40)
        ways += [(odd * 10**20, other), (odd * 10**20, other + 1)]
    same("directions", [way for way in ways if landxml.pair_of([Fraction(part, 1000) for part in way]) != precise_pair(way)], [])
    wrong = []
    for _ in range(100):
        angle, radius, length = rng.uniform(-4, 4), rng.choice((-1, 1)) * rng.uniform(5, 10_000), rng.uniform(0, 500)
        heading = (Fraction(math.cos(angle)), Fraction(math.sin(angle)))
        piece = landxml.Piece(ARC, None, (Fraction(3), Fraction(-4)), heading, Fraction(radius), None, None, "", 1, [])
        turned = angle + length / radius
        wanted = (3 + radius * (math.sin(turned) - math.sin(angle)), -4 - radius * (math.cos(turned) - math.cos(angle)))
        at, onward = landxml.along(piece, Fraction(length))
        if math.dist(map(float, at), wanted) * GRAINS > 0.005 or math.dist(map(float, onward), (math.cos(turned), math.sin(turned))) > 1e-12:
            wrong.append((angle, radius, length))
    same("points of arcs", wrong, [])
    same("a root that is a fraction", landxml.square_root(Fraction(49, 10**20)), Fraction(7, 10**10))
    case("a root that is none", abs(landxml.square_root(2) ** 2 - 2) < Fraction(4, 2**units.BITS))


# ---- what can't be read or had

FAULTS = {
    "Lines": [
        "line 13: staStart 'km 1' is not a number",
        "IrregularLine 1, line 15: can't be had: only Line, Curve and Spiral are read",
        "Chain 2, line 16: can't be had: only Line, Curve and Spiral are read",
        "Line 3, line 17: End is missing",
        "Line 4, line 18: End is there 2 times",
        "Line 5, line 19: Start: easting 'x' is not a number",
        "Line 5, line 19: End: northing '0,5' has a comma: the decimal point is a point, and thousands have no mark",
        "Line 6, line 20: Start '3' is not northing, easting and perhaps an elevation",
        "Line 6, line 20: End: pntRef '104' is no point of CgPoints",
        "Line 7, line 21: Start: pntRef 'twice' is a name of several points of CgPoints",
        "Line 7, line 21: End: pntRef 'blank': that point has no coordinates of its own",
        "Line 8, line 22: length 'ten' is not a number",
        "Line 8, line 22: Start and End are the same point: it has no direction",
        "Line 9, line 23: Start '4 4 1 1' is not northing, easting and perhaps an elevation",
        "Line 9, line 23: End has no coordinates",
        "Line 9, line 23: length -2 is below 0",
    ],
    "Curves": [
        "Curve 1, line 28: rot 'left' is not cw or ccw",
        "Curve 1, line 28: radius is 0",
        "Curve 1, line 28: a curve of crvType 'chord' can't be had: only arc is read",
        "Curve 1, line 28: Start and Center are the same point: it has no direction",
        "Curve 2, line 29: radius -5 is below 0",
        "Curve 2, line 29: Start and End are the same point, and length is missing",
        "Curve 3, line 30: Center is missing",
        "Curve 3, line 30: rot is missing",
        "Curve 3, line 30: length is missing",
        "Curve 3, line 30: radius 'INF' is not a number",
    ],
    "Spirals": [
        "Spiral 1, line 35: a spiral of spiType 'bloss' can't be had: only clothoid is read",
        "Spiral 2, line 36: a spiral between two radii can't be had yet: radiusStart is 200 and radiusEnd 100, and neither INF",
        "Spiral 3, line 37: a spiral with INF for both radii can't be had",
        "Spiral 4, line 38: length is missing",
        "Spiral 4, line 38: radiusEnd is 0",
        "Spiral 4, line 38: Start and PI are the same point: it has no direction",
        "Spiral 5, line 39: End and PI are the same point: it has no direction",
        "Spiral 6, line 40: spiType is missing",
        "Spiral 6, line 40: PI is missing",
        "Spiral 6, line 40: rot is missing",
        "Spiral 6, line 40: radiusStart is missing",
    ],
    "Nothing": ["line 43: alignment 'Nothing' has no CoordGeom"],
    "Empty": ["line 45: the CoordGeom of alignment 'Empty' has no elements"],
    "Two": ["line 47: alignment 'Two' has 2 CoordGeom: one can be read"],
}


def faults():
    path = str(FILES / "faults.xml")
    same("faults: names", landxml.alignment_names(path), list(FAULTS))
    for name, wanted in FAULTS.items():
        found = message(path, alignment=name) or []
        same(f"faults: {name}, how many", len(found), len(wanted))
        for one, other in zip(found, wanted):
            same(f"faults: {name}", one, other)
    refused("20 faults", file_of("<Chain/>" * 20), *(f"Chain {i}, line 1: can't be had: only Line, Curve and Spiral are read" for i in range(1, 21)))
    with Saved(file_of("<Chain/>" * 25)) as path:
        found = message(path) or []
        same("25 faults", (len(found), found[-1:]), (21, ["and 5 more"]))


def unit_faults():
    refused("an unknown unit", changed("dam", ('"meter"', '"league"')),
            "Metric, line 4: linearUnit 'league' is not known: meter, millimeter, centimeter or kilometer")
    refused("a unit of the other system", changed("feet", ("USSurveyFoot", "meter")),
            "Imperial, line 5: linearUnit 'meter' is not known: foot, USSurveyFoot, inch or mile")
    refused("no linearUnit", changed("dam", (' linearUnit="meter"', "")),
            "Metric, line 4: linearUnit is missing: meter, millimeter, centimeter or kilometer")
    refused("an unknown system", changed("dam", ("<Metric", "<Natural")), "line 4: units 'Natural' are not known: Metric or Imperial")
    told("units without any", changed("long", ('<Metric linearUnit="meter"/>', "<Feature/>")), "the file names no units: metres are assumed")
    refused("two units", changed("long", ("</Units>", '<Imperial linearUnit="foot"/></Units>')), "line 6: units for a second time, after line 5")
    refused("a unit and an element", changed("dam", ('"meter"', '"league"'), ("<Line length", "<Line longer"), ('<Curve rot="ccw"', "<Curve")),
            "Metric, line 4: linearUnit 'league' is not known: meter, millimeter, centimeter or kilometer", "Curve 3, line 18: rot is missing")


def files():
    """Files that are no LandXML, or no file."""
    refused("an empty file", b"", "is empty")
    refused("blanks", b" \n \n", "line 3: is no XML: no element found")
    refused("a text", b"line 60000 1 2 3 4\n", "line 1: is no XML: syntax error")
    refused("a binary file", b"\x89PNG\r\n\x1a\n\0\0\0\rIHDR", "is no XML: a binary file")
    refused("cut off", text_of("dam").partition("<Curve")[0], "line 18: is no XML: no element found")
    refused("not closed", changed("dam", ("</Curve>", "")), "line 32: is no XML: mismatched tag")
    refused("two roots", text_of("dam") + "<LandXML/>", "line 39: is no XML: junk after document element")
    refused("another root", "<?xml version='1.0'?>\n<svg xmlns='http://www.w3.org/2000/svg'/>", "line 2: is XML, but no LandXML: its root is 'svg'")
    refused("a DOCTYPE", '<?xml version="1.0"?>\n<!DOCTYPE LandXML [<!ENTITY a "b">]>\n<LandXML/>',
            "line 2: has a DOCTYPE, which is not read: delete it")
    refused("an entity", changed("dam", ("56.0000", "&a;")), "line 11: is no XML: undefined entity")
    refused("no alignments", "<LandXML/>", "has no alignment")
    refused("no alignment", "<LandXML><Alignments/></LandXML>", "has no alignment")
    refused("none of a name", "<LandXML><Alignments/></LandXML>", "has no alignment", alignment="A")
    with Saved(b"") as path:
        with open(path, "wb") as file:
            file.truncate(landxml.MOST_BYTES + 1)
        same("a long file", message(path), ["is longer than 50 MB"])
        same("no file", message(path + ".none"), ["No such file or directory"])
        folder = str(pathlib.Path(path).parent)
        same("a folder", message(folder), ["Is a directory"])
    with Saved(text_of("two")) as path:
        same("a file is named in the message of names", names_told(path + ".none"), f"{path}.none: No such file or directory")


def names_told(path):
    try:
        return landxml.alignment_names(path)
    except Trouble as trouble:
        return str(trouble)


def encodings():
    wanted = landxml.imported(str(FILES / "dam.xml"))
    text = text_of("dam")
    same("UTF-8 with a mark", of_data(b"\xef\xbb\xbf" + text.encode()), wanted)
    same("UTF-16", of_data(text.replace("UTF-8", "UTF-16").encode("utf-16")), wanted)
    same("CRLF", of_data(text.replace("\n", "\r\n")), wanted)
    named = text.replace("Crest axis", "Höhe")
    for name in ("UTF-8", "ISO-8859-1", "windows-1252"):
        same(f"{name}", of_data(named.replace("UTF-8", name).encode(name)).name, "Höhe")
    refused("ISO-8859-1 that is not named", named.encode("iso-8859-1"), "line 7: is no XML: byte 0xf6 is no UTF-8, and no other encoding is named")
    refused("a fault in UTF-16", text.replace("UTF-8", "UTF-16").replace("<Curve", "<<").encode("utf-16"),
            "line 18: is no XML: not well-formed (invalid token)")
    refused("a wrong encoding", text.replace("UTF-8", "UTF-16").encode(), "line 1: is no XML: encoding specified in XML declaration is incorrect")
    with Saved(text.replace("UTF-8", "klingon").encode()) as path:
        found = message(path) or [""]
        case("an unknown encoding", found[0].startswith("line 1: ") and "encoding" in found[0], found)
    with Saved(text.replace("UTF-8", "shift_jis").encode()) as path:
        found = message(path) or [""]
        case("an encoding of more than one byte", found[0].startswith("line 1: ") and "encoding" in found[0], found)


def shape():
    """What may stand in a file beside what is read."""
    wanted = landxml.imported(str(FILES / "dam.xml"))
    same("comments within a point", of_data(changed("dam", (">56.0000 58.0000<", ">56.<!-- a -->0000 <![CDATA[58.0000]]><"))), wanted)
    surfaces, sections = "<Surfaces><Line/></Surfaces>", '<CrossSects><Alignment name="no"/></CrossSects>'
    other = changed("dam", ("</CoordGeom>", f"</CoordGeom>{sections}"), ("<Alignments", f"{surfaces}<Alignments"))
    same("other parts of a file", of_data(other), wanted)
    cases = changed("dam", ('"ccw"', '" CCW"'), ('"INF"', '"inf"'), ('"clothoid"', '"Clothoid"'), ('"arc"', '"Arc"'))
    same("words of any case", of_data(cases), wanted)
    same("INF in full", of_data(changed("dam", ('Start="INF"', 'Start="+INF"'), ('End="INF"', 'End="Infinity"'))), wanted)
    same("a name with a line's end", of_data(changed("dam", ("Crest axis", " Crest&#10;axis"))).name, "Crest axis")
    feature = of_data(changed("dam", ("<Curve", "<Feature/><Curve")))
    same("Feature is not counted", feature, wanted)
    deep = "<a>" * 20_000 + "</a>" * 20_000
    same("a deep file", of_data(changed("dam", ("<Curve", f"<Feature>{deep}</Feature><Curve"))), wanted)


def main():
    for cases in (dam, utm, feet, every_unit, two, split, sentences, roundings, computed, faults, unit_faults, files, encodings, shape):
        attempt(cases)
    return CASES.end()


if __name__ == "__main__":
    sys.exit(main())
