"""An alignment of a LandXML file as elements of a crest: Line, Curve and Spiral of its CoordGeom.

A point is "northing easting [elevation]"; x is easting, y northing. Numbers are taken exactly, lines and circles are computed from them
over whole numbers, and each result is rounded once. What a length, a radius or a place may be is asked of the library. All faults of a file
are told at once, each with its place."""

import math
import re
from fractions import Fraction
from typing import NamedTuple
from xml.parsers import expat

from . import library, units
from .elements import ARC, ENTRY, EXIT, LINE, Element
from .files import Trouble, input_name, read
from .joins import crest_of
from .tables import COORDINATE, LENGTH, Rounding

MOST_BYTES = 50 * 10**6  # of a file
MOST_LISTED = 20  # faults of a message, and names
MOST_PARTS = library.FILE_BYTES_MAX // library.RECORD_BYTES  # no crest file has room for more records
GRAINS_PER_M, MM_PER_M = units.COORDINATE["m"][0], units.LENGTH["m"][0]
ORIGIN_STEP = 1000 * GRAINS_PER_M
TOLERATED = Fraction(1, MM_PER_M)  # numbers of a file that differ by more, in m, are told
METRES = {  # in a unit of the file
    "Metric": {"meter": "1", "millimeter": "0.001", "centimeter": "0.01", "kilometer": "1000"},
    "Imperial": {"foot": "0.3048", "USSurveyFoot": "1200/3937", "inch": "0.0254", "mile": "1609.344"},
}


class Imported(NamedTuple):
    name: str  # of the alignment
    elements: list  # `where` is the place in the file: "Curve 2, line 27"
    origin: tuple  # (x, y) in grains, subtracted from easting and northing
    sentences: list  # what there is to say, without full stops


def alignment_names(path):
    return [name_of(node) for node in alignments_of(tree(path))]


def imported(path, alignment=None, origin=None, split=False):
    """An alignment of a file, which may have more than one if it is named. Without an origin, one is chosen where it is needed."""
    root, faults = tree(path), Faults(path)
    node = chosen(alignments_of(root), alignment, faults.name)
    survey = Survey(root, faults)
    sentences = survey.sentences + stations_told(node, survey)
    pieces = [piece_of(item) for item in items_of(node, survey)]
    faults.tell()
    if origin is None:
        origin, told = origin_of(pieces)
        sentences += told
    rounding, elements = Rounding(), []
    for piece in pieces:
        whole = element_of(piece, origin, rounding)
        sentences += disagreements(piece, whole, origin)
        parts, told = parts_of(piece, whole, origin) if split else ([whole], [])
        elements += parts
        sentences += told
    tell_misfits(elements, faults)
    return Imported(name_of(node), elements, origin, sentences + list(rounding.sentences()))


# ---- faults


class Faults:
    """What can't be read or had in a file, gathered until there is no more to find."""

    def __init__(self, path):
        self.name = input_name(path)
        self.found = []

    def add(self, where, words):
        self.found.append(f"{self.name}: {where}: {words}")

    def tell(self):
        """All of them as one Trouble, where there are any."""
        more = len(self.found) - MOST_LISTED
        if self.found:
            raise Trouble("\n".join(self.found[:MOST_LISTED] + ([f"{self.name}: and {more} more"] if more > 0 else [])))


def shown(word):
    """A word of the file for a message."""
    word = "".join(letter if letter.isprintable() else "?" for letter in word[: units.MOST_LETTERS + 1])
    return word if len(word) <= units.MOST_LETTERS else word[: units.MOST_LETTERS] + ".."


def listed(words, joint="and"):
    """A, B and C."""
    words = list(words)
    if len(words) > MOST_LISTED:
        words = words[:MOST_LISTED] + [f"{len(words) - MOST_LISTED} more"]
    return f" {joint} ".join(filter(None, (", ".join(words[:-1]), words[-1])))


# ---- XML


class Node:
    """An element of XML: its name without a prefix, and the line where it begins."""

    __slots__ = ("name", "attributes", "line", "children", "texts")

    def __init__(self, name, attributes, line):
        self.name, self.attributes, self.line = name, attributes, line
        self.children, self.texts = [], []

    def all(self, *names):
        return [child for child in self.children if child.name in names]

    @property
    def text(self):
        return "".join(self.texts)


# what is kept of these; surfaces and profiles can be large
KEPT = {"LandXML": ("Units", "CgPoints", "Alignments"), "Alignments": ("Alignment",), "Alignment": ("CoordGeom", "StaEquation")}


class Builder:
    """The tree of a file, from what the parser finds."""

    def __init__(self, name, parser):
        self.name, self.parser = name, parser
        self.root, self.open = None, []  # None for an element that is not kept
        parser.buffer_text = True
        parser.StartElementHandler, parser.EndElementHandler, parser.CharacterDataHandler = self.start, self.end, self.text
        parser.StartDoctypeDeclHandler = self.doctype

    def start(self, prefixed, attributes):
        name, line = prefixed.rpartition(":")[2], self.parser.CurrentLineNumber
        if not self.open:
            if name != "LandXML":
                raise Trouble(f"{self.name}: line {line}: is XML, but no LandXML: its root is '{shown(prefixed)}'")
            self.root = Node(name, attributes, line)
            self.open.append(self.root)
            return
        parent = self.open[-1]
        kept = parent and name in KEPT.get(parent.name, (name,))
        node = Node(name, attributes, line) if kept else None
        if kept:
            parent.children.append(node)
        self.open.append(node)

    def end(self, _):
        self.open.pop()

    def text(self, text):
        if self.open[-1]:
            self.open[-1].texts.append(text)

    def doctype(self, *_):
        raise Trouble(f"{self.name}: line {self.parser.CurrentLineNumber}: has a DOCTYPE, which is not read: delete it")


def tree(path):
    name, data = input_name(path), read(path, MOST_BYTES + 1)
    if not data:
        raise Trouble(f"{name}: is empty")
    if len(data) > MOST_BYTES:
        raise Trouble(f"{name}: is longer than {MOST_BYTES // 10**6} MB")
    if b"\0" in data[:4096] and not data.startswith((b"\xff\xfe", b"\xfe\xff", b"<\0", b"\0<")):  # UTF-16 has zero bytes
        raise Trouble(f"{name}: is no XML: a binary file")
    parser = expat.ParserCreate()
    builder = Builder(name, parser)
    try:
        parser.Parse(data, True)
    except expat.ExpatError as error:
        raise malformed(name, data, error) from None
    except (LookupError, ValueError) as error:
        raise Trouble(f"{name}: line 1: its encoding can't be read: {error}: save it as UTF-8") from None
    return builder.root


def malformed(name, data, error):
    """Why a file is no XML. Most often it is a letter of an encoding that is not named."""
    if error.code == expat.errors.codes[expat.errors.XML_ERROR_INVALID_TOKEN] and is_utf8_by_its_head(data[:200]):
        try:
            data.decode("utf-8")
        except UnicodeDecodeError as wrong:
            line = data.count(b"\n", 0, wrong.start) + 1
            return Trouble(f"{name}: line {line}: is no XML: byte 0x{data[wrong.start]:02x} is no UTF-8, and no other encoding is named")
    return Trouble(f"{name}: line {error.lineno}: is no XML: {expat.ErrorString(error.code)}")


def is_utf8_by_its_head(head):
    return b"\0" not in head and not re.search(rb"encoding\s*=\s*.(?!utf-?8)", head.partition(b">")[0], re.IGNORECASE)


# ---- alignments


def alignments_of(root):
    return [node for group in root.all("Alignments") for node in group.all("Alignment")]


def name_of(node):
    return " ".join(node.attributes.get("name", "").split())


def chosen(nodes, name, file):
    """The alignment of a name, or the only one."""
    if not nodes:
        raise Trouble(f"{file}: has no alignment")
    found = nodes if name is None else [node for node in nodes if name_of(node) == " ".join(name.split())]
    if len(found) == 1:
        return found[0]
    names = listed(shown(name_of(node)) or f"one without a name (line {node.line})" for node in nodes)
    if name is None:
        raise Trouble(f"{file}: has {len(nodes)} alignments: {names}: choose one by --alignment NAME")
    if not found:
        raise Trouble(f"{file}: has no alignment '{shown(name)}', but {names}")
    raise Trouble(f"{file}: has {len(found)} alignments '{shown(name)}', in lines {listed(str(node.line) for node in found)}")


def stations_told(node, survey):
    told, word = [], node.attributes.get("staStart", "0").strip()
    try:
        start = units.rounded(number(word) * survey.metres * MM_PER_M)
        if start:
            told.append(f"the alignment's stations begin at {units.length(start, 'm')} m in the file; a crest's begin at 0")
    except units.Unreadable as error:
        survey.faults.add(f"line {node.line}", f"staStart {error}")
    lines = [str(child.line) for child in node.all("StaEquation")]
    if lines:
        told.append(f"the alignment has station equations (line {listed(lines)}), which are left out: a crest's stations run on")
    return told


# ---- what all elements of a file share

ZEROS_OF_EXPONENT = re.compile(r"([eE][+-]?)0+(?=\d)")


def number(word):
    """A decimal number, exactly; an exponent may have zeros in front, as in 1.5e+005."""
    return units.number(ZEROS_OF_EXPONENT.sub(r"\1", word))


class Survey:
    """The unit of a file, and its points by their names."""

    def __init__(self, root, faults):
        self.faults, self.sentences = faults, []
        self.metres = self.unit(root)
        self.points = {}
        for group in root.all("CgPoints"):
            for node in group.all("CgPoint"):
                self.points.setdefault(node.attributes.get("name", "").strip(), []).append(node)

    def unit(self, root):
        """How many metres the file's unit has; 1 after a fault."""
        systems = [system for node in root.all("Units") for system in node.children if system.name != "Feature"]
        if not systems:
            self.sentences.append("the file names no units: metres are assumed")
            return 1
        if len(systems) > 1:
            self.faults.add(f"line {systems[1].line}", f"units for a second time, after line {systems[0].line}")
            return 1
        system, known = systems[0], METRES.get(systems[0].name)
        if known is None:
            self.faults.add(f"line {system.line}", f"units '{shown(system.name)}' are not known: {listed(METRES, 'or')}")
            return 1
        word = system.attributes.get("linearUnit", "").strip()
        unit = next((name for name in known if name.lower() == word.lower()), None)
        if unit is None:
            what = f"linearUnit '{shown(word)}' is not known" if word else "linearUnit is missing"
            self.faults.add(f"{system.name}, line {system.line}", f"{what}: {listed(known, 'or')}")
            return 1
        if known[unit] != "1":
            self.sentences.append(f"coordinates, lengths and radii are in {unit} in the file, {known[unit]} m each")
        return Fraction(known[unit])


class Item:
    """A child of the CoordGeom with its place. What can't be read of it is a fault, and None here."""

    def __init__(self, node, count, survey):
        self.node, self.survey = node, survey
        self.where = f"{shown(node.name)} {count}, line {node.line}"
        self.faulty = False

    def fault(self, words):
        self.survey.faults.add(self.where, words)
        self.faulty = True

    def word(self, name):
        """An attribute that has to be there."""
        word = self.node.attributes.get(name, "").strip()
        if not word:
            self.fault(f"{name} is missing")
        return word or None

    def one_of(self, name, meanings):
        word = self.word(name)
        if word and word.lower() not in meanings:
            self.fault(f"{name} '{shown(word)}' is not {listed(meanings, 'or')}")
        return meanings.get(word.lower()) if word else None

    def metres(self, name, word=None):
        """A length in metres, not below 0."""
        word = word or self.word(name)
        value = word and self.value(name, word)
        if value is not None and value < 0:
            self.fault(f"{name} {shown(word)} is below 0")
            return None
        return value

    def metres_if_there(self, name):
        return self.metres(name) if name in self.node.attributes else None

    def value(self, name, word):
        try:
            return number(word) * self.survey.metres
        except units.Unreadable as error:
            self.fault(f"{name} {error}")
            return None

    def radius(self, name, word=None):
        value = self.metres(name, word)
        if value == 0:
            self.fault(f"{name} is 0")
        return value

    def point(self, name):
        """Easting and northing in metres, of the child of a name."""
        found = self.node.all(name)
        if len(found) != 1:
            self.fault(f"{name} is there {len(found)} times" if found else f"{name} is missing")
            return None
        words = found[0].text.split() or self.words_of_reference(name, found[0])
        if words is None:
            return None
        if len(words) not in (2, 3):
            self.fault(f"{name} '{shown(' '.join(words[:4]))}' is not northing, easting and perhaps an elevation")
            return None
        northing, easting = (self.value(f"{name}: {axis}", word) for axis, word in zip(("northing", "easting"), words))
        return None if northing is None or easting is None else (easting, northing)

    def words_of_reference(self, name, node):
        """The words of the point of CgPoints that a pntRef names."""
        reference = node.attributes.get("pntRef", "").strip()
        if not reference:
            self.fault(f"{name} has no coordinates")
            return None
        texts = [point.text.split() for point in self.survey.points.get(reference, [])]
        if not texts or any(text != texts[0] for text in texts):
            self.fault(f"{name}: pntRef '{shown(reference)}' is {'a name of several points' if texts else 'no point'} of CgPoints")
            return None
        if not texts[0]:
            self.fault(f"{name}: pntRef '{shown(reference)}': that point has no coordinates of its own")
            return None
        return texts[0]


def items_of(node, survey):
    """The elements of an alignment; Feature is what programs add for themselves."""
    found = node.all("CoordGeom")
    what = f"alignment '{shown(name_of(node))}'"
    if len(found) != 1:
        survey.faults.add(f"line {node.line}", f"{what} has {f'{len(found)} CoordGeom: one can be read' if found else 'no CoordGeom'}")
        return []
    children = [child for child in found[0].children if child.name != "Feature"]
    if not children:
        survey.faults.add(f"line {found[0].line}", f"the CoordGeom of {what} has no elements")
    return [Item(child, count, survey) for count, child in enumerate(children, 1)]


# ---- Line, Curve and Spiral, in metres


class Piece(NamedTuple):
    """An element before its origin is known."""

    kind: int
    length: Fraction
    anchor: tuple
    heading: tuple  # at the anchor, of any size
    radius: Fraction  # to the left positive
    start: tuple  # as the file has them
    end: tuple
    where: str
    line: int
    told: list  # where numbers of the file disagree


SIDES = {"cw": -1, "ccw": 1}  # right, left


def piece_of(item):
    """None after a fault."""
    read_it = {"Line": line_of, "Curve": curve_of, "Spiral": spiral_of}.get(item.node.name)
    if read_it is None:
        return item.fault("can't be had: only Line, Curve and Spiral are read")
    return read_it(item)


def line_of(item):
    start, end, said = item.point("Start"), item.point("End"), item.metres_if_there("length")
    if start and start == end:
        item.fault("Start and End are the same point: it has no direction")
    if item.faulty:
        return None
    heading = between(start, end)
    length = size_of(heading)
    told = []
    if said is not None and abs(said - length) > TOLERATED:
        told.append(f"{item.where}: its length is {metres_text(said)}, but from Start to End it is {metres_text(length)}, which is taken")
    return Piece(LINE, length, start, heading, Fraction(0), start, end, item.where, item.node.line, told)


def curve_of(item):
    start, center, end = item.point("Start"), item.point("Center"), item.point("End")
    side, said = item.one_of("rot", SIDES), item.metres_if_there("length")
    radius_said = item.radius("radius") if "radius" in item.node.attributes else None
    sort = item.node.attributes.get("crvType", "arc").strip()
    if sort.lower() != "arc":
        item.fault(f"a curve of crvType '{shown(sort)}' can't be had: only arc is read")
    if start and start == center:
        item.fault("Start and Center are the same point: it has no direction")
    if start and start == end and "length" not in item.node.attributes:
        item.fault("Start and End are the same point, and length is missing")
    if item.faulty:
        return None
    inward = between(start, center)
    distance, told = size_of(inward), []
    radius = radius_said or distance
    if abs(radius - distance) > TOLERATED:
        taken = f"its radius is {metres_text(radius)}, which is taken"
        told.append(f"{item.where}: {taken}, but its Center lies {metres_text(distance)} from Start")
    length = said if said is not None else radius * radians(turn(between(center, start), between(center, end), side))
    heading = (side * inward[1], -side * inward[0])
    piece = Piece(ARC, length, start, heading, side * radius, start, end, item.where, item.node.line, told)
    away = size_of(between(along(piece, length)[0], end))
    if away > TOLERATED:
        told.append(f"{item.where}: its End lies {mm_text(away)} from where radius and length lead")
    return piece


def spiral_of(item):
    sort = item.word("spiType")
    if sort and sort.lower() != "clothoid":
        item.fault(f"a spiral of spiType '{shown(sort)}' can't be had: only clothoid is read")
    start, corner, end = item.point("Start"), item.point("PI"), item.point("End")
    side, length = item.one_of("rot", SIDES), item.metres("length")
    kind, radius = spiral_radius(item)
    anchor, name = (end, "End") if kind == EXIT else (start, "Start")
    if kind and anchor and anchor == corner:
        item.fault(f"{name} and PI are the same point: it has no direction")
    if item.faulty:
        return None
    heading = between(corner, end) if kind == EXIT else between(start, corner)
    return Piece(kind, length, anchor, heading, side * radius, start, end, item.where, item.node.line, [])


def spiral_radius(item):
    """Kind and radius of a spiral: INF is where it is straight."""
    names = ("radiusStart", "radiusEnd")
    words = [item.word(name) for name in names]
    straight = [word and word.lower() in ("inf", "+inf", "infinity") for word in words]
    if all(straight):
        item.fault("a spiral with INF for both radii can't be had")
    first, last = (None if inf or not word else item.radius(name, word) for name, word, inf in zip(names, words, straight))
    if first and last:
        both = f"radiusStart is {shown(words[0])} and radiusEnd {shown(words[1])}, and neither INF"
        item.fault(f"a spiral between two radii can't be had yet: {both}")
    return (ENTRY, last) if straight[0] else (EXIT, first) if straight[1] else (None, None)


# ---- the plane


def between(first, second):
    return second[0] - first[0], second[1] - first[1]


def square_root(value):
    """The square root: exact where it is a fraction, else less by a part below 2^-BITS."""
    value = Fraction(value)
    return Fraction(math.isqrt(value.numerator * value.denominator << 2 * units.BITS), value.denominator << units.BITS)


def size_of(way):
    return square_root(way[0] ** 2 + way[1] ** 2)


def pair_of(heading):
    """The pair of a direction: both components to the nearest whole number, exactly."""
    square = heading[0] ** 2 + heading[1] ** 2

    def component(part):
        magnitude = (math.isqrt((2 * units.ONE * part) ** 2 // square) + 1) // 2
        return magnitude if part >= 0 else -magnitude

    return component(heading[0]), component(heading[1])


def turn(first, second, side):
    """The angle from one way to another, as a part of a turn from 0 on: to the left for the side 1, to the right for -1."""
    along_it, across = first[0] * second[0] + first[1] * second[1], first[0] * second[1] - first[1] * second[0]
    return units.turns(along_it, side * across)


def radians(turns):
    return turns * Fraction(2 * units.pi(), 1 << units.BITS)


def along(piece, distance):
    """Point and heading of a line or an arc, at a distance from its start."""
    size = size_of(piece.heading)
    c, s = piece.heading[0] / size, piece.heading[1] / size
    if piece.kind == LINE:
        u, v, cosine, sine = distance, 0, 1, 0
    else:
        cosine, sine = (Fraction(part, 1 << units.BITS) for part in units.cosine_and_sine(distance / piece.radius / radians(1)))
        u, v = piece.radius * sine, piece.radius * (1 - cosine)
    x, y = piece.anchor
    return (x + c * u - s * v, y + s * u + c * v), (c * cosine - s * sine, s * cosine + c * sine)


def metres_text(value):
    return f"{units.decimal(units.rounded(value * GRAINS_PER_M), 5)} m"


def mm_text(value):
    return f"{units.decimal(units.rounded(value * GRAINS_PER_M), 2)} mm"


# ---- elements


def grains_of(point, origin=(0, 0)):
    return tuple(units.rounded(Fraction(value * GRAINS_PER_M)) - less for value, less in zip(point, origin))


def element_of(piece, origin, rounding):
    def whole(value, per, sort):
        exact = Fraction(value * per)
        nearest = units.rounded(exact)
        if nearest != exact:
            rounding.took(sort, abs(nearest - exact), piece.line)
        return nearest

    x, y = (whole(value, GRAINS_PER_M, COORDINATE) - less for value, less in zip(piece.anchor, origin))
    length, radius = (whole(value, MM_PER_M, LENGTH) for value in (piece.length, piece.radius))
    return Element(piece.kind, length, x, y, *pair_of(piece.heading), radius, piece.where)


def written(elements):
    """The crest of some elements, or the library's refusal; None where a number does not fit its field."""
    fields = [element._asdict() for element in elements]
    if not all(library.fits(numbers[name], name) for numbers in fields for name in library.WIDTHS):
        return None
    return crest_of(elements)


def tell_misfits(elements, faults):
    """A number that does not fit its field can't be asked of the library."""
    for element in elements:
        for name, digits, what in (("length", 3, "m"), ("x", 5, "m from the origin"), ("y", 5, "m from the origin"), ("radius", 3, "m")):
            value = getattr(element, name)
            if not library.fits(value, name):
                faults.add(element.where, f"{name} {shown(units.decimal(value, digits))} {what} does not fit a record")
    faults.tell()


def accepted(elements):
    return isinstance(written(elements), bytes)


def origin_of(pieces):
    """(0, 0) where the library accepts a line at every point; else the middle of all, to whole 1000 m. And what there is to say."""
    points = {grains_of(point) for piece in pieces for point in (piece.start, piece.end)}
    if all(accepted([Element(LINE, 1, x, y, units.ONE, 0, 0)]) for x, y in points):
        return (0, 0), []
    middle = tuple(units.rounded(Fraction(min(values) + max(values), 2 * ORIGIN_STEP)) * ORIGIN_STEP for values in zip(*points))
    if middle == (0, 0):
        return middle, []
    return middle, ["the origin was chosen, since points lie outside the frame"]


def disagreements(piece, element, origin):
    """What the file says otherwise than the element: of a spiral, where the library has its other end."""
    told = list(piece.told)
    crest = written([element]) if piece.kind in (ENTRY, EXIT) else None
    if isinstance(crest, bytes):
        station, name, point = (0, "Start", piece.start) if piece.kind == EXIT else (element.length, "End", piece.end)
        there = library.position(crest, station)[:2]
        away = size_of(between(there, [value * GRAINS_PER_M - less for value, less in zip(point, origin)])) / GRAINS_PER_M
        if away > TOLERATED:
            told.append(f"{piece.where}: its {name} lies {mm_text(away)} from where the library has it")
    return told


def parts_of(piece, whole, origin):
    """A line or an arc that is out of range by itself, in as few equal parts as the library accepts; and what there is to say."""
    alone = written([whole])
    if piece.kind not in (LINE, ARC) or isinstance(alone, bytes) or (alone is not None and alone.number != library.OUT_OF_RANGE):
        return [whole], []
    for count in range(2, MOST_PARTS + 1):
        longest = -(-whole.length // count)
        if accepted([whole._replace(length=longest)]):  # else no need to compute the others
            parts = equal_parts(piece, whole, origin, count)
            if accepted(parts):
                less = " or 1 mm less" if whole.length % count else ""
                return parts, [f"{piece.where}: split into {count} parts of {units.length(longest, 'm')} m{less}"]
    return [whole], [f"{piece.where}: can't be split into parts that the library accepts"]


def equal_parts(piece, whole, origin, count):
    """Parts on the true line or circle, of lengths that differ by 1 mm at the most."""
    parts = []
    for i in range(count):
        begin, end = (whole.length * k // count for k in (i, i + 1))
        point, heading = along(piece, Fraction(begin, MM_PER_M)) if i else (piece.anchor, piece.heading)
        x, y = grains_of(point, origin)
        c, s = pair_of(heading)
        parts.append(whole._replace(length=end - begin, x=x, y=y, c=c, s=s, where=f"{piece.where}, part {i + 1} of {count}"))
    return parts
