"""Elements of a crest: from texts and CSV files, and to texts, CSV and JSON."""

import itertools
from fractions import Fraction
from typing import NamedTuple

from . import library, tables, units
from .files import Trouble, Usage, input_name, plural
from .library import Refusal

KINDS = {1: "line", 2: "arc", 3: "entry", 4: "exit"}
LINE, ARC, ENTRY, EXIT = KINDS
NUMBER_OF = {name: kind for kind, name in KINDS.items()}
GOES_ON = "on"  # stands for the anchor of an element that starts where the one before it ends
KEPT = library.FILE_BYTES_MAX // library.RECORD_BYTES + 1  # more elements than a file has room for; those after them are only counted


class Element(NamedTuple):
    kind: int
    length: int  # mm
    x: int  # grains; None where the element goes on from the one before it
    y: int
    c: int  # 2^30 to 1
    s: int
    radius: int  # mm, to the left positive
    where: str = ""  # where it stands in its file, for messages: "line 3"

    @property
    def record(self):
        return library.RECORD.pack(*self[:7])

    def at(self, x, y, c, s):
        return self._replace(x=x, y=y, c=c, s=s)


# ---- reading


def read(path, setting):
    """The elements of a text or a CSV file, and its reader, which knows what was rounded."""
    reader = tables.Reader(path, setting)
    reader.count, reader.most_rows = 0, KEPT
    numbered, seen = tables.lines(path), []
    for line, text in numbered:
        if text.strip() and not text.lstrip().startswith("#"):
            seen.append((line, text))
            break
    if seen and is_csv(seen[-1][1]):
        found = from_csv(itertools.chain(seen, numbered), reader)
    else:
        found = from_text(itertools.chain(seen, numbered), reader)
    return found, reader


def is_csv(first):
    """Whether a file is CSV, by its first line: a text's first word is an element's."""
    word = (first.split() or [""])[0]
    return any(mark in first for mark in ",;\t") and word not in NUMBER_OF and not word.isdigit()


def from_text(numbered, reader):
    setting = reader.setting._replace(units=reader.setting.units or "grains")
    if setting.angle is None and setting.units != "grains":
        raise Usage(f"--units {setting.units} needs --angle, which says how directions are written")
    reader.setting = setting._replace(angle=setting.angle or "pair")
    found = []
    for line, text in numbered:
        words = text.partition("#")[0].replace("\t", " ").split(" ")
        words = [word for word in words if word]  # blanks and tabs stand between words, and no other spaces
        if words:
            reader.count += 1
        if words and reader.count <= KEPT:
            found.append(of_words(words, line, reader))
    return found


def of_words(words, line, reader):
    setting, (word, *rest) = reader.setting, words
    kind = kind_of(word, line, reader)
    anchor = ["c", "s"] if setting.angle == "pair" else [direction_name(setting.angle)]
    names = ["length", GOES_ON] if rest[1:2] == [GOES_ON] else ["length", "x", "y", *anchor]
    given = dict(zip([*names, "radius"], rest))
    missing = next((name for name in [*names, "radius"] if name not in given and not (name == "radius" and kind == LINE)), None)
    if missing:
        raise reader.trouble(line, f"{missing} is missing")
    if len(rest) > len(names) + 1:
        raise reader.trouble(line, f"'{units.shown(rest[len(names) + 1])}' is more than an element has")
    values = {name: word_value(name, word, line, reader) for name, word in given.items() if name != GOES_ON}
    pair = values.get(direction_name(setting.angle)) if setting.angle != "pair" else (values.get("c"), values.get("s"))
    if GOES_ON in given:
        pair = (None, None)
    return Element(kind, values["length"], values.get("x"), values.get("y"), *pair, values.get("radius", 0), f"line {line}")


def direction_name(angle):
    return "bearing" if angle.startswith("bearing") else "direction"


def kind_of(word, line, reader):
    """A kind by its name, or by its number, which the library judges."""
    if word in NUMBER_OF:
        return NUMBER_OF[word]
    if word.isascii() and word.isdigit() and len(word) <= units.MOST_LETTERS:
        return int(word)
    raise reader.trouble(line, f"'{units.shown(word)}' is no element: line, arc, entry or exit")


def word_value(name, word, line, reader):
    setting = reader.setting
    if name in ("c", "s"):
        return reader.whole(word, name, line)
    if name in ("bearing", "direction"):
        return reader.direction(word, setting.angle, name, line)
    sort = tables.SORT[name]
    unit = setting.units if sort == tables.COORDINATE else units.LENGTH_UNIT[setting.units]
    return reader.scaled(word, name, line, sort, unit, setting.origin[tables.AXIS[name]] if name in tables.AXIS else 0)


def from_csv(numbered, reader):
    wanted = ("kind", "length", "x", "y", *tables.DIRECTIONS, "radius")
    columns, unused, rows = tables.read_csv(numbered, wanted, reader, ("kind", "length", "x", "y"))
    if not any(field in columns for field in tables.DIRECTIONS):
        there = ", ".join(column.title for column in columns.values())
        raise reader.trouble(reader.heading_line, f"no column for the direction: bearing, direction, or c and s; used are {there}")
    reader.unused = unused
    found = []
    for row in rows:
        reader.count += 1
        if reader.count <= KEPT:
            found.append(of_row(row, columns, reader))
    return found


def of_row(row, columns, reader):
    kind = kind_of(tables.needs(row, "kind", columns, reader).lower(), row.line, reader)
    pair = tables.direction_of(row, columns, reader)
    anchor = [row.values["x"], row.values["y"], pair]
    if any(part is not None for part in anchor) and None in anchor:
        missing = (columns["x"].title, columns["y"].title, "the direction")[anchor.index(None)]
        raise reader.trouble(row.line, f"{missing} is missing; x, y and direction are left out together, or not at all")
    radius = row.values.get("radius")
    if radius is None:
        radius = 0 if kind == LINE else tables.needs(row, "radius", columns, reader)
    if anchor == [None, None, None] and row.count <= max(columns[field].at for field in columns if field != "radius"):
        raise reader.trouble(row.line, f"has {plural(row.count, 'cell')}: x, y and direction of an element that goes on are blank cells")
    length = tables.needs(row, "length", columns, reader)
    return Element(kind, length, *anchor[:2], *(pair or (None, None)), radius, f"line {row.line}")


# ---- a field's number in the user's units


def unit_name(name, setting):
    unit = setting.units or "grains"
    if name in ("x", "y"):
        return unit
    return units.LENGTH_UNIT[unit] if name in ("length", "radius") else ""


def field_text(name, value, setting):
    """A field's number as its user writes it, the origin added."""
    unit = setting.units or "grains"
    if name in ("x", "y"):
        return units.coordinate(value, unit, setting.origin["xy".index(name)])
    return units.length(value, unit) if name in ("length", "radius") else str(value)


def place_text(x, y, c, s, setting):
    """A point with its direction, as its user writes them."""
    unit, angle = setting.units or "grains", setting.angle or "pair"
    if angle == "pair":
        direction = f"c {c}, s {s}"
    else:
        direction = f"{direction_name(angle)} {units.angle_text(c, s, angle)} {'deg' if units.TURN[angle] == 360 else 'gon'}"
    return f"x {field_text('x', x, setting)}, y {field_text('y', y, setting)} {unit}, {direction}"


# ---- showing


def of_crest(crest, path):
    """The elements of a crest file."""
    found = library.records(crest)
    if isinstance(found, Refusal):
        raise Trouble(f"{input_name(path)}: {found.with_place}")
    return [Element(*record, where=f"element {at}") for at, record in enumerate(found, 1)]


def titles(setting):
    angle = setting.angle
    return ["kind", "length", "x", "y", *(("c", "s") if angle == "pair" else (direction_name(angle),)), "radius"]


def texts(element, setting):
    """The words of an element; a line's radius of 0 is blank."""
    pair = (str(element.c), str(element.s)) if setting.angle == "pair" else (units.angle_text(element.c, element.s, setting.angle),)
    radius = "" if element.kind == LINE and element.radius == 0 else field_text("radius", element.radius, setting)
    numbers = (field_text(name, getattr(element, name), setting) for name in ("length", "x", "y"))
    return [KINDS.get(element.kind, str(element.kind)), *numbers, *pair, radius]


def as_text(elements, setting):
    widths = {"kind": 6, "length": 7}
    lines = [*heading(setting)]
    rows = [texts(element, setting) for element in elements]
    names = titles(setting)
    if setting.angle == "pair" and setting.units == "grains":
        sizes = [widths.get(name, 11) for name in names]
    else:
        sizes = [max(len(name) + 2 * (name == "kind"), *(len(row[at]) for row in rows)) for at, name in enumerate(names)]
    lines.append("# " + " ".join([f"{names[0]:<{sizes[0] - 2}}", *(f"{name:>{size}}" for name, size in zip(names[1:], sizes[1:]))]))
    lines += [" ".join([f"{row[0]:<{sizes[0]}}", *(f"{word:>{size}}" for word, size in zip(row[1:], sizes[1:]))]).rstrip() for row in rows]
    return "".join(line + "\n" for line in lines)


def heading(setting):
    direction = "c, s" if setting.angle == "pair" else direction_name(setting.angle)
    yield "# A crest: an element a line, in the order of the stations."
    if setting.units == "grains":
        yield "# length, radius: mm, a radius to the left is positive. x, y: grains, 100 to 1 mm."
    else:
        yield f"# length, radius, x, y: {setting.units}, a radius to the left is positive. x is east and y is north."
    if setting.angle == "pair":
        yield "# c, s: the direction, as cosine and sine from x towards y, 1073741824 (2^30) to 1."
    else:
        yield f"# {direction}: {units.ANGLES[setting.angle]}."
    yield f"# x, y, {direction} are those of the element's start, but of an exit spiral's far end."
    if setting.units != "grains" or setting.angle != "pair" or any(setting.origin):
        yield f"# read by: crest make {options(setting)}"


def options(setting):
    words = f"--units {setting.units} --angle {setting.angle}"
    return words + (" --origin {} {}".format(*origin_texts(setting)) if any(setting.origin) else "")


def origin_texts(setting):
    """E and N of the origin in metres."""
    return [units.coordinate(part, "m").rstrip("0").rstrip(".") for part in setting.origin]


def full_titles(setting):
    """The titles with their units."""

    def full(name):
        if name in ("bearing", "direction"):
            return units.ANGLE_COLUMN[setting.angle]
        unit = unit_name(name, setting)
        return f"{name}_{unit}" if unit else name

    return [full(name) for name in titles(setting)]


def as_csv(elements, setting):
    return tables.as_csv(full_titles(setting), [texts(element, setting) for element in elements])


def as_json(elements, setting):
    found = []
    for element in elements:
        row = dict(zip(full_titles(setting), texts(element, setting)))
        found.append({name: word if name == "kind" else json_number(word or "0") for name, word in row.items()})
    origin = [json_number(part) for part in origin_texts(setting)]
    return {"units": setting.units, "angle": setting.angle, "origin_m": origin, "elements": found}


def json_number(text):
    """A number for JSON; one that floating point would cut stays a text."""
    if text.lstrip("-").isdigit():
        return int(text)
    value = float(text)
    return value if Fraction(repr(value)) == Fraction(text) else text
