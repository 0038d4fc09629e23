"""Points, places and stakes: what the library says of each row of a CSV file, and the 16-byte readings of the logger."""

import math
import struct
from fractions import Fraction
from typing import NamedTuple

from . import elements, joins, library, refusals, tables, units
from .files import Trouble, Usage, input_name, plural, read
from .library import Refusal

READING = struct.Struct("<dd")
MOST_PLACES = 999_999


class Point(NamedTuple):
    """A reading: x and y of a plane point, or station and offset of a line place."""

    name: str
    first: float  # x in grains, or the station in mm; a whole number where it was read as one
    second: float  # y, or the offset, in grains


# ---- reading them


def is_csv(path):
    return path.lower().endswith(".csv")


def from_csv(path, setting, line=False):
    """The points of a CSV file, or its places where `line` is said; and its reader."""
    reader = tables.Reader(path, setting)
    needed = ("station", "offset") if line else ("x", "y")
    columns, reader.unused, rows = tables.read_csv(tables.lines(path), ("name", *needed), reader, needed)
    found = []
    for row in rows:
        first, second = (tables.needs(row, field, columns, reader) for field in needed)
        found.append(Point(name_of(row, columns, len(found) + 1), first, second))
    return there_are(found, reader.name), reader


def name_of(row, columns, count):
    """A row's name; where its cell is blank its line, and where there is no such column its number."""
    return row.values["name"] or f"(line {row.line})" if "name" in columns else str(count)


def there_are(found, name):
    """Rows or readings, of which there has to be one: a file without any is no night."""
    if not found:
        raise Trouble(f"{name}: has no rows")
    return found


def is_text(data):
    """Whether bytes are printable letters, which no readings are: whole numbers of the frame have bytes that are zero."""
    try:
        text = data.decode("utf-8-sig")
    except UnicodeDecodeError:
        return False
    return bool(text) and all(letter.isprintable() or letter in "\t\r\n" for letter in text)


def from_readings(path):
    """The points of a file of 16-byte readings."""
    data = read(path)
    tail = len(data) % READING.size
    if is_text(data):
        raise Trouble(f"{input_name(path)}: is text and no readings of 16 bytes; a CSV file's name ends with .csv")
    if tail:
        whole = f"{plural(len(data) // READING.size, 'reading')} of 16 bytes"
        raise Trouble(f"{input_name(path)}: {whole}, and {plural(tail, 'byte')} more: a part is missing")
    if not data:
        raise Trouble(f"{input_name(path)}: is empty: there are no readings")
    return [Point(str(at), *numbers) for at, numbers in enumerate(READING.iter_unpack(data), 1)]


def from_either(path, setting, line=False):
    """By the file's name; and the reader of a CSV file, or None."""
    return from_csv(path, setting, line) if is_csv(path) else (from_readings(path), None)


def to_readings(points, name):
    """The bytes of readings; a whole number that f64 has not would become another."""
    for point in points:
        if not all(float(number) == number for number in point[1:]):
            raise Trouble(f"{name}: {point.name}: a number is too large for a reading")
    return b"".join(READING.pack(point.first, point.second) for point in points)


# ---- asking


def crest_bytes(path):
    """An accepted crest file; there is room for one byte more than the longest, so that a longer file is refused for its length."""
    crest = read(path, library.FILE_BYTES_MAX + 1)
    refused = library.check(crest)
    if refused:
        raise Trouble(f"{input_name(path)}: {refused.with_place}")
    return crest


class Located(NamedTuple):
    point: Point
    answer: tuple  # station, offset, residual, or the refusal
    foot: tuple  # X, Y, Tx, Ty at the station, or None


def located(crest, points):
    for point in points:
        answer = library.located(crest, float(point.first), float(point.second))
        yield Located(point, answer, None if isinstance(answer, Refusal) else library.position(crest, answer[0]))


class Placed(NamedTuple):
    point: Point
    answer: tuple  # X, Y, or the refusal
    direction: tuple  # Tx, Ty at the station, or None


def placed(crest, places):
    for place in places:
        answer = library.placed(crest, float(place.first), float(place.second))
        yield Placed(place, answer, None if isinstance(answer, Refusal) else library.position(crest, int(place.first))[2:])


def last_station(crest):
    return sum(record[1] for record in library.records(crest))


def ranges_text(crest, setting):
    """The stations of a crest, and the offsets that the library takes, which are found by asking."""
    ends = []
    for outside in (-(2**31), 2**31):
        inside = 0
        while abs(outside - inside) > 1:
            middle = (inside + outside) // 2
            answer = library.placed(crest, 0.0, float(middle))
            if isinstance(answer, Refusal) and answer.number == library.NOT_THERE:
                outside = middle
            else:
                inside = middle
        ends.append(units.coordinate(inside, setting.units))
    last = units.length(last_station(crest), setting.units)
    lengths = units.LENGTH_UNIT[setting.units]
    return f"stations are 0 to {last} {lengths}, and offsets {ends[0]} to {ends[1]} {setting.units}"


def places_every(crest, step, offset):
    """Places at whole multiples of a step, and at the end."""
    last = last_station(crest)
    if last // step >= MOST_PLACES:
        raise Usage(f"--every: more than {MOST_PLACES} places")
    stations = [*range(0, last, step), last]
    return [Point(str(at), station, offset) for at, station in enumerate(stations, 1)]


def places_of_joins(crest, offset):
    """Places at the start, the joins and the end."""
    stations = [0]
    for record in library.records(crest):
        stations.append(stations[-1] + record[1])
    return [Point(str(at), station, offset) for at, station in enumerate(stations, 1)]


# ---- stakes


class Stake(NamedTuple):
    name: str
    own: tuple
    target: tuple  # or the refusal of its place
    heading: tuple
    where: str  # for messages


class Staked(NamedTuple):
    stake: Stake
    answer: tuple  # forward, left, or the refusal


def stakes_from_csv(path, setting, crest, heading):
    """The stakes of a CSV file: x and y of the stake itself; target_x and target_y, or station and offset on a crest; and the heading."""
    reader = tables.Reader(path, setting)
    needed = ("x", "y", "station", "offset") if crest else ("x", "y", "target_x", "target_y")
    wanted = ("name", *needed, *tables.DIRECTIONS)
    columns, reader.unused, rows = tables.read_csv(tables.lines(path), wanted, reader, needed)
    found = []
    for row in rows:
        own = tuple(tables.needs(row, field, columns, reader) for field in ("x", "y"))
        pair = tables.direction_of(row, columns, reader) or heading
        goal = tuple(tables.needs(row, field, columns, reader) for field in needed[2:])
        name = name_of(row, columns, len(found) + 1)
        found.append(stake_of(name, own, goal, pair, crest, f"{reader.name}: line {row.line}"))
    return there_are(found, reader.name), reader


def stake_of(name, own, goal, heading, crest, where):
    """A stake; with a crest the goal is a station and an offset, and the heading that of the crest there unless another is given."""
    if crest is None:
        if heading is None:
            raise Trouble(f"{where}: no heading: give --heading, a column for it, or a crest")
        return Stake(name, own, goal, heading, where)
    place = next(placed(crest, [Point(name, *goal)]))
    if isinstance(place.answer, Refusal):
        return Stake(name, own, place.answer, heading, where)
    return Stake(name, own, place.answer, heading or joins.unit_of(*place.direction), where)


def staked(stakes, setting):
    for stake in stakes:
        if isinstance(stake.target, Refusal):
            yield Staked(stake, stake.target)
            continue
        for what, point in (("own point", stake.own), ("target", stake.target)):
            if not all(library.fits(number, "x") for number in point):
                told = ", ".join(f"{name} {elements.field_text(name, number, setting)}" for name, number in zip("xy", point))
                frame = f"the frame is {refusals.frame_text(setting)} {setting.units}{refusals.frame_hint(*point, setting)}"
                raise Trouble(f"{stake.where}: its {what}, {told} {setting.units}, lies far outside the frame\n    {frame}")
        if not all(library.fits(number, "c") for number in stake.heading):
            raise Trouble(f"{stake.where}: the heading's c or s does not fit 32 bits")
        yield Staked(stake, library.stake_out(stake.own, stake.target, stake.heading))


# ---- showing


def refused_texts(answer):
    """The last two cells of a row: number and sentence of a refusal."""
    return [str(answer.number), answer.sentence] if isinstance(answer, Refusal) else ["", ""]


def located_titles(unit, offsets):
    """Titles; offset and residual may have a unit of their own."""
    return ["name", f"station_{units.LENGTH_UNIT[unit]}", f"offset_{offsets}", f"residual_{offsets}", f"foot_x_{unit}", f"foot_y_{unit}"]


def located_texts(row, setting, offsets):
    if isinstance(row.answer, Refusal):
        return [row.point.name, "", "", "", "", ""]
    foot = (units.coordinate(number, setting.units, origin) for number, origin in zip(row.foot, setting.origin))
    return [row.point.name, *answer_texts(row.answer, setting.units, offsets), *foot]


def answer_texts(answer, unit, offsets):
    """Station, offset and residual."""
    station, offset, residual = answer
    return [units.length(station, unit), units.coordinate(offset, offsets), units.coordinate(residual, offsets)]


def direction_titles(angle):
    return ["c", "s"] if angle == "pair" else [units.ANGLE_COLUMN[angle]]


def direction_texts(pair, angle):
    if angle == "pair":
        return [str(pair[0]), str(pair[1])]
    return [units.turns_text(units.turns(*pair), angle, 7)]


def placed_titles(unit, angle):
    return ["name", f"station_{units.LENGTH_UNIT[unit]}", f"offset_{unit}", f"x_{unit}", f"y_{unit}", *direction_titles(angle)]


def placed_texts(row, setting):
    unit, angle = setting.units, setting.angle
    given = [row.point.name, units.length(row.point.first, unit), units.coordinate(row.point.second, unit)]
    if isinstance(row.answer, Refusal):
        return given + [""] * (2 + len(direction_titles(angle)))
    point = [units.coordinate(number, unit, origin) for number, origin in zip(row.answer, setting.origin)]
    return given + point + direction_texts(row.direction, angle)


def staked_titles(unit):
    return ["name", f"forward_{unit}", f"left_{unit}", f"target_x_{unit}", f"target_y_{unit}"]


def staked_texts(row, setting):
    unit, target = setting.units, row.stake.target
    goal = ["", ""]
    if not isinstance(target, Refusal):
        goal = [units.coordinate(number, unit, origin) for number, origin in zip(target, setting.origin)]
    move = ["", ""] if isinstance(row.answer, Refusal) else [units.coordinate(number, unit) for number in row.answer]
    return [row.stake.name, *move, *goal]


def reading_titles(unit, line):
    return ["name", f"station_{units.LENGTH_UNIT[unit]}", f"offset_{unit}"] if line else ["name", f"x_{unit}", f"y_{unit}"]


def real_text(value, digits, unit, origin=0):
    """A floating-point number of grains or mm, as a decimal number with the point so many digits to the left: exactly, or where that is
    long with its own unit behind it, which no command takes for a number."""
    if not math.isfinite(value):
        return repr(value)
    exact = Fraction(value) + origin
    more = exact.denominator.bit_length() - 1  # the denominator is a power of 2
    text = units.decimal(exact.numerator * 5**more, digits + more) if more < units.MOST_LETTERS else ""
    return text if 0 < len(text) < units.MOST_LETTERS else f"{value!r} {unit}"


def reading_texts(point, setting, line):
    digits, length_digits = units.COORDINATE[setting.units][1], units.LENGTH[setting.units][1]
    if line:
        return [point.name, real_text(point.first, length_digits, "mm"), real_text(point.second, digits, "grains")]
    return [point.name, *(real_text(number, digits, "grains", origin) for number, origin in zip(point[1:], setting.origin))]


def json_row(titles, row):
    """A row of texts and its answer as an object; a refused one has its number and sentence."""
    *texts, answer = row
    refused = {"number": answer.number, "sentence": answer.sentence} if isinstance(answer, Refusal) else None
    return {**json_values(titles, texts), "refused": refused}


def json_values(titles, texts):
    return {title: word if title == "name" else json_value(word) for title, word in zip(titles, texts)}


def json_value(word):
    if word in ("", "-"):
        return None
    return word if word in ("nan", "inf", "-inf") or word[-1].isalpha() else elements.json_number(word)


def needs_units(setting):
    if setting.units is None:
        raise Usage("give --units m, mm or grains")
    return setting
