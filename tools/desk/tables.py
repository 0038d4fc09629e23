"""Texts and CSV files as people and spreadsheets write them: lines with their numbers, named columns with their units, and what was
rounded. A file is read and found good to its end before anything is made of it."""

import csv
import io
from typing import NamedTuple

from . import units
from .files import Trouble, Usage, input_name, open_input, plural, trouble

LONGEST_LINE = 100_000
COORDINATE, LENGTH, ANGLE, PAIR, WORD = "coordinate", "length", "angle", "pair", "word"


class Settings(NamedTuple):
    """How the numbers of a file are written: None where nothing was said."""

    units: str = None
    angle: str = None
    origin: tuple = (0, 0)  # in grains


def settings(units_said=None, angle=None, origin=None):
    """The settings of the options --units, --angle and --origin; E and N are words, in metres."""
    per, digits = units.COORDINATE["m"]
    found = []
    for name, word in zip("EN", origin or ("0", "0")):
        try:
            grains = units.number(word) * per
        except units.Unreadable as error:
            raise Usage(f"--origin: {name} {error}") from None
        if grains.denominator != 1:
            raise Usage(f"--origin: {name} {word} has more than {digits} digits after the point")
        found.append(int(grains))
    return Settings(units_said, angle, tuple(found))


# ---- lines


def lines(path):
    """The lines of a text as (number, text), without their ends."""
    name = input_name(path)
    number = 0
    with open_input(path) as file:
        while True:
            try:
                line = file.readline(LONGEST_LINE)
            except OSError as error:
                raise trouble(name, error) from None
            if not line:
                return
            number += 1
            if number == 1:
                if line.startswith((b"\xff\xfe", b"\xfe\xff")):
                    raise Trouble(f"{name}: line 1: is UTF-16: save it as UTF-8")
                line = line[3:] if line.startswith(b"\xef\xbb\xbf") else line
            yield number, decoded(line, f"{name}: line {number}")


def decoded(line, where):
    if len(line) == LONGEST_LINE:
        raise Trouble(f"{where}: is longer than {LONGEST_LINE} bytes: no text or CSV")
    line = line[:-1] if line.endswith(b"\n") else line
    line = line[:-1] if line.endswith(b"\r") else line
    try:
        text = line.decode("utf-8")
    except UnicodeDecodeError as error:
        byte = f"byte {error.start + 1} (0x{line[error.start]:02x})"
        raise Trouble(f"{where}: {byte} is no UTF-8: save the file as UTF-8, or is it no text?") from None
    if not text.isprintable():
        at = next((at for at, letter in enumerate(text) if ord(letter) < 32 and letter != "\t"), None)
        if at is not None and text[at] == "\r":
            raise Trouble(f"{where}: has a carriage return inside: lines end with LF or CRLF")
        if at is not None:
            raise Trouble(f"{where}: character {at + 1} (0x{ord(text[at]):02x}) is a control character: no text or CSV")
    return text


# ---- what was rounded


class Rounding:
    """Counts what was rounded to whole grains and to whole mm, and by how much at the most."""

    def __init__(self):
        self.counts = {COORDINATE: [0, 0, 0], LENGTH: [0, 0, 0]}  # how many, the most, its line

    def took(self, sort, away, line):
        count = self.counts[sort]
        count[0] += 1
        if away > count[1]:
            count[1:] = away, line

    def sentences(self):
        """What there is to say, in mm."""
        for sort, what, per in ((COORDINATE, "a grain (0.01 mm)", units.GRAINS_PER_MM), (LENGTH, "a mm", 1)):
            count, most, line = self.counts[sort]
            if count:
                numbers = plural(count, "number")
                where = f"line {line}" if isinstance(line, int) else line
                yield f"{numbers} rounded to {what}, by {float(most / per):.5f} mm at the most ({where})"


# ---- numbers


class Reader:
    """Words of one file to whole numbers, by its settings."""

    def __init__(self, path, setting):
        self.name = input_name(path)
        self.setting = setting
        self.rounding = Rounding()
        self.unused = []  # columns that nothing was wanted of
        self.shown_units = setting.units or "grains"  # in which things are said of the file
        self.shown_angle = setting.angle or "pair"
        self.most_rows = None  # those after it are not looked at, but for their line
        self.heading_line = 1
        self.untitled = []  # cells of the heading that are blank

    def trouble(self, line, words):
        return Trouble(f"{self.name}: line {line}: {words}")

    def whole(self, word, field, line, what="a whole number"):
        sign = word[:1] in "+-"
        if not (word[sign:].isascii() and word[sign:].isdigit()):
            decimal = what != "a whole number" and word.replace(".", "", 1)[sign:].isdigit()
            hint = ": is it in metres? then give --units m" if decimal else ""
            raise self.trouble(line, f"{field} '{word[:units.MOST_LETTERS]}' is not {what}{hint}")
        if len(word) > units.MOST_LETTERS:
            raise self.trouble(line, f"{field} '{word[:units.MOST_LETTERS]}..' has too many digits")
        return int(word)

    def scaled(self, word, field, line, sort, unit, origin=0):
        """A number of a unit as whole grains or mm, less the origin."""
        if unit == "grains" or (unit == "mm" and sort == LENGTH and self.setting.units == "grains"):
            return self.whole(word, field, line, "a whole number of grains" if sort == COORDINATE else "a whole number of mm") - origin
        per, digits = (units.COORDINATE if sort == COORDINATE else units.LENGTH)[unit]
        head, _, tail = word[word[:1] == "-" :].partition(".")
        if len(tail) <= digits and len(head) <= 15 and word.isascii() and head.isdigit() and (not tail or tail.isdigit()):
            value = int(head) * per + (int(tail) * 10 ** (digits - len(tail)) if tail else 0)  # a shorter way to the same
            return (-value if word[:1] == "-" else value) - origin
        try:
            exact = units.number(word) * per
        except units.Unreadable as error:
            raise self.trouble(line, f"{field} {error}") from None
        value = units.rounded(exact)
        if value != exact:
            self.rounding.took(sort, abs(value - exact), line)
        return value - origin

    def direction(self, word, angle, field, line):
        try:
            return units.direction(word, angle)
        except units.Unreadable as error:
            raise self.trouble(line, f"{field} {error}") from None


# ---- CSV

# the names of a column, and what its numbers are
NAMES = {
    "name": (WORD, ("name", "point", "id")),
    "kind": (WORD, ("kind", "element")),
    "length": (LENGTH, ("length",)),
    "radius": (LENGTH, ("radius",)),
    "station": (LENGTH, ("station", "chainage")),
    "offset": (COORDINATE, ("offset",)),
    "x": (COORDINATE, ("x", "east", "easting")),
    "y": (COORDINATE, ("y", "north", "northing")),
    "target_x": (COORDINATE, ("target_x", "target_east")),
    "target_y": (COORDINATE, ("target_y", "target_north")),
    "bearing": (ANGLE, ("bearing", "azimuth")),
    "direction": (ANGLE, ("direction",)),
    "c": (PAIR, ("c",)),
    "s": (PAIR, ("s",)),
}
FIELD = {alias: field for field, (_, aliases) in NAMES.items() for alias in aliases}
SORT = {field: sort for field, (sort, _) in NAMES.items()}
AXIS = {"x": 0, "target_x": 0, "y": 1, "target_y": 1}
DIRECTIONS = ("bearing", "direction", "c", "s")


class Column(NamedTuple):
    at: int
    title: str  # as the heading has it
    unit: str  # m, mm, grains; or of an angle its sort


def of_column(title, wanted, reader):
    """The field and the unit of a heading's cell: (None, None) where nothing is wanted of it."""
    word = title.lower().replace(" ", "_").replace("[", "").replace("]", "").replace("(", "").replace(")", "")
    field, unit = FIELD.get(word), None
    if field is None:
        head, _, tail = word.rpartition("_")
        field, unit = FIELD.get(head), tail
    if field not in wanted or SORT[field] in (WORD, PAIR) and unit is not None:
        return None, None
    return field, measure_of(field, unit, title, reader)


def measure_of(field, unit, title, reader):
    sort, setting = SORT[field], reader.setting
    if sort in (WORD, PAIR):
        return None
    if sort == ANGLE:
        return angle_of(field, unit, title, reader)
    allowed = ("m", "mm", "grains") if sort == COORDINATE else ("m", "mm")
    if unit is None:
        if setting.units is None:
            named = " or ".join(f"{title}_{one}" for one in allowed)
            raise Usage(f"{reader.name}: column {title} has no unit: give --units, or name it {named}")
        unit = setting.units if sort == COORDINATE else units.LENGTH_UNIT[setting.units]
    if unit not in allowed:
        raise reader.trouble(reader.heading_line, f"column {title}: the unit is {' or '.join(allowed)}, not {unit}")
    return unit


def angle_of(field, unit, title, reader):
    """By the column's suffix, or by --angle."""
    said = reader.setting.angle
    if unit is not None:
        by_column = {column: angle for angle, column in units.ANGLE_COLUMN.items()}
        if f"{field}_{unit}" not in by_column:
            raise reader.trouble(reader.heading_line, f"column {title}: the unit is deg or gon, not {unit}")
        return by_column[f"{field}_{unit}"]
    if said is None or said == "pair":
        raise Usage(f"{reader.name}: column {title} has no unit: give --angle, or name it {title}_deg or {title}_gon")
    if said.startswith("bearing") != (field == "bearing"):
        raise Usage(f"{reader.name}: column {title}, but --angle {said}")
    return said


class Row(NamedTuple):
    line: int
    count: int  # of cells
    values: dict  # a field's value; None where the cell is blank


def delimiter(heading):
    return next((mark for mark in ";\t" if mark in heading), ",")


def read_csv(numbered, wanted, reader, needed=()):
    """The rows of a CSV file by its lines: of the columns `wanted`, those `needed` have to be there. The first line with anything in it is
    the heading."""
    numbered = iter(numbered)
    heading_line, heading = next(((number, text) for number, text in numbered if text.strip(" ,;\t")), (1, ""))
    reader.heading_line, mark = heading_line, delimiter(heading)
    columns, unused = columns_of(heading_line, heading, mark, wanted, reader)
    missing = [field for field in needed if field not in columns]
    if missing:
        there = ", ".join(cell.strip() for cell in heading.split(mark)) or "none: the file is empty"
        raise reader.trouble(heading_line, f"no column {missing[0]}{also_called(missing[0])}; the columns are {there}")
    width = len(cells_of([heading], mark, reader, heading_line)[0][1])
    return columns, unused, rows_of(numbered, mark, columns, width, reader)


def also_called(field):
    others = NAMES[field][1][1:]
    return f" ({' or '.join(others)})" if others else ""


def cells_of(texts, mark, reader, first):
    """Records of CSV text as (line of its end, cells)."""
    source = csv.reader((text + "\n" for text in texts), delimiter=mark, strict=True, skipinitialspace=True)
    try:
        return [(first + source.line_num - 1, cells) for cells in source]
    except csv.Error as error:
        raise reader.trouble(first + max(source.line_num, 1) - 1, f"is no CSV: {error}") from None


def columns_of(line, heading, mark, wanted, reader):
    columns, unused = {}, []
    titles = [title.strip() for title in cells_of([heading], mark, reader, line)[0][1]] if heading else []
    reader.untitled = [at for at, title in enumerate(titles) if not title]
    for at, title in enumerate(titles):
        field, unit = of_column(title, wanted, reader) if title else (None, None)
        if field is None:
            if title:
                unused.append(title)
        elif field in columns:
            raise reader.trouble(line, f"columns {columns[field].title} and {title} are both {field}")
        else:
            columns[field] = Column(at, title, unit)
    show_as(columns, reader)
    return columns, unused


def show_as(columns, reader):
    """What is said of a file is said in the units of its columns."""
    by_sort = {SORT[field]: column.unit for field, column in reversed(list(columns.items()))}
    if reader.setting.units is None:
        reader.shown_units = by_sort.get(COORDINATE) or by_sort.get(LENGTH) or "grains"
    if reader.setting.angle is None:
        reader.shown_angle = by_sort.get(ANGLE) or "pair"


def rows_of(numbered, mark, columns, width, reader):
    last, count = [reader.heading_line], 0

    def texts():
        for number, text in numbered:
            last[0] = number
            yield text + "\n"

    source = csv.reader(texts(), delimiter=mark, strict=True, skipinitialspace=True)
    while True:
        line = last[0] + 1  # where the row begins
        try:
            cells = next(source)
        except StopIteration:
            return
        except csv.Error as error:
            raise reader.trouble(line, f"is no CSV: {error}") from None
        if last[0] > line:
            raise reader.trouble(line, "a cell in quotes goes on in the next line")
        if any(cell and not cell.isspace() for cell in cells):
            count += 1
            looked_at = reader.most_rows is None or count <= reader.most_rows
            yield Row(line, len(cells), values_of(cells, columns, width, line, mark, reader) if looked_at else {})


def values_of(cells, columns, width, line, mark, reader):
    comma = ": is there a decimal comma?" if mark == "," else ""
    if len(cells) > width and any(cell.strip() for cell in cells[width:]):
        raise reader.trouble(line, f"{len(cells)} cells, but the heading has {width}{comma}")
    untitled = next((at for at in reader.untitled if at < len(cells) and cells[at].strip()), None)
    if untitled is not None:
        raise reader.trouble(line, f"cell {untitled + 1} has no title in the heading{comma}")
    values = {}
    for field, (at, title, unit) in columns.items():
        word = cells[at].strip() if at < len(cells) else ""
        values[field] = value_of(word, field, title, unit, line, reader) if word else None
    return values


def value_of(word, field, title, unit, line, reader):
    sort = SORT[field]
    if sort == WORD:
        return word
    if sort == PAIR:
        return reader.whole(word, title, line)
    if sort == ANGLE:
        return reader.direction(word, unit, title, line)
    origin = reader.setting.origin[AXIS[field]] if field in AXIS else 0
    return reader.scaled(word, title, line, sort, unit, origin)


def needs(row, field, columns, reader):
    """A cell that must not be blank."""
    value = row.values.get(field)
    if value is None and field not in columns:
        raise reader.trouble(row.line, f"needs a column {field}, and there is none")
    if value is None:
        raise reader.trouble(row.line, f"{columns[field].title} is missing")
    return value


def direction_of(row, columns, reader):
    """The pair of a row, by whichever column has it; None where all are blank."""
    found = [row.values[field] for field in ("bearing", "direction") if row.values.get(field) is not None]
    if row.values.get("c") is not None or row.values.get("s") is not None:
        found.append((needs(row, "c", columns, reader), needs(row, "s", columns, reader)))
    if len(found) > 1:
        raise reader.trouble(row.line, "has more than one direction")
    return found[0] if found else None


def as_csv(heading, rows):
    """Rows of text as a CSV file."""
    room = io.StringIO()
    writer = csv.writer(room, lineterminator="\n")
    writer.writerow(heading)
    writer.writerows(rows)
    return room.getvalue()


def as_table(heading, rows, left=1):
    """Rows of text under a heading, the first `left` columns to the left and the others to the right. A row has a remark as one cell more:
    it stands where the blank cells begin."""
    widths = [max(len(row[at]) for row in (heading, *rows)) for at in range(len(heading))]

    def line(row, remark=""):
        used = max((at + 1 for at, cell in enumerate(row) if cell), default=0) if remark else len(row)
        sides = ["<" if at < left else ">" for at in range(used)]
        return "  ".join([*(f"{cell:{side}{width}}" for cell, side, width in zip(row, sides, widths)), remark]).rstrip()

    return "".join(text + "\n" for text in (line(heading), *(line(row[:-1], row[-1]) for row in rows)))
