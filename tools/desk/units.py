"""Numbers as people write them, to the whole numbers of the library and back, exactly.

Coordinates, offsets and residuals are whole grains, 100 to 1 mm; lengths, radii and stations whole mm; a direction is a pair (c, s),
2^30 to 1. A decimal number is taken exactly and rounded once, a half away from zero. Sines are computed over whole numbers, so that a
direction has the same pair on every machine."""

import math
import re
from fractions import Fraction

ONE = 2**30
GRAINS_PER_MM = 100

# ---- plane and line: how many grains, and how many mm, to a unit; digits after the point
UNITS = ("m", "mm", "grains")
COORDINATE = {"m": (1000 * GRAINS_PER_MM, 5), "mm": (GRAINS_PER_MM, 2), "grains": (1, 0)}
LENGTH = {"m": (1000, 3), "mm": (1, 0), "grains": (1, 0)}
LENGTH_UNIT = {"m": "m", "mm": "mm", "grains": "mm"}  # the unit that a length has beside coordinates in a unit

NUMBER = re.compile(r"[+-]?(\d+\.?\d*|\.\d+)([eE][+-]?\d{1,2})?", re.ASCII)
MOST_LETTERS = 60


class Unreadable(ValueError):
    """Why a word is no number, or no direction."""


def shown(word):
    """A word for a message, cut where it is long."""
    return word if len(word) <= MOST_LETTERS else word[:MOST_LETTERS] + ".."


def number(word, otherwise="not a number"):
    """A decimal number, exactly."""
    if len(word) <= MOST_LETTERS and NUMBER.fullmatch(word):
        return Fraction(word)
    if len(word) > MOST_LETTERS:
        raise Unreadable(f"'{word[:MOST_LETTERS]}..' has more than {MOST_LETTERS} characters")
    shown = word
    if re.fullmatch(r"[+-]?[\d.]*,[\d.,]+", word, re.ASCII):
        raise Unreadable(f"'{shown}' has a comma: the decimal point is a point, and thousands have no mark")
    raise Unreadable(f"'{shown}' is {otherwise}")


def rounded(value):
    """The nearest whole number, of a half the one away from zero."""
    whole = (2 * abs(value.numerator) + value.denominator) // (2 * value.denominator)
    return whole if value >= 0 else -whole


def decimal(value, digits):
    """A whole number of 10^-digits as a decimal number."""
    sign, magnitude = "-" if value < 0 else "", abs(value)
    if digits == 0:
        return f"{sign}{magnitude}"
    return f"{sign}{magnitude // 10**digits}.{magnitude % 10**digits:0{digits}}"


def coordinate(grains, unit, origin=0):
    """Grains as text in a unit; the origin is in grains."""
    return decimal(grains + origin, COORDINATE[unit][1])


def length(mm, unit):
    """mm as text in a unit."""
    return decimal(mm, LENGTH[unit][1])


def mm(grains):
    """Grains as text in mm, with its sign."""
    return f"{grains / GRAINS_PER_MM:+.2f}"


# ---- directions
ANGLES = {
    "pair": "cosine c and sine s of the angle from x towards y, 2^30 to 1",
    "degrees": "the angle from x towards y, 360 to a turn",
    "gon": "the angle from x towards y, 400 to a turn",
    "bearing": "clockwise from y (north), 360 to a turn: 90 less the bearing is the angle from x",
    "bearing-gon": "clockwise from y (north), 400 to a turn: 100 less the bearing is the angle from x",
}
TURN = {"degrees": 360, "gon": 400, "bearing": 360, "bearing-gon": 400}
ANGLE_COLUMN = {"degrees": "direction_deg", "gon": "direction_gon", "bearing": "bearing_deg", "bearing-gon": "bearing_gon"}
# 53°30'00", 53d30m00s or 53:30:00, of which seconds and minutes may be left out; and with all three parts 53-30-00 or 53 30 00
SEXAGESIMAL = re.compile(
    r"(-?)(\d{1,3})"
    r"(?:[°d]|[°d:] *(\d{1,2})(?:['′m]?|['′m:] *(\d{1,2}(?:\.\d{1,12})?)(?:[\"″s]|''|))"
    r"|([ -])(\d\d)\5(\d\d(?:\.\d{1,12})?))",
    re.ASCII,
)
ANGLE_FORMS = "53.5, 53:30:00 or 53°30'00\""

BITS = 140
PI = None


def pi():
    """pi times 2^BITS, by Machin's formula."""
    global PI
    if PI is None:

        def arctan_of_inverse(n):
            term, total, k = (1 << (BITS + 16)) // n, 0, 1
            while term:
                total += term // k if k % 4 == 1 else -(term // k)
                term //= n * n
                k += 2
            return total

        PI = (16 * arctan_of_inverse(5) - 4 * arctan_of_inverse(239)) >> 16
    return PI


def cosine_and_sine(turns):
    """Cosine and sine of a part of a turn, times 2^BITS."""
    turns %= 1
    quarter, rest = divmod(turns * 4, 1)
    angle = rest.numerator * pi() // (2 * rest.denominator)
    total, term, k = [1 << BITS, 0], 1 << BITS, 0
    while term:
        k += 1
        term = (term * angle >> BITS) // k
        total[k % 2] += term if k % 4 < 2 else -term
    c, s = total
    return ((c, s), (-s, c), (-c, -s), (s, -c))[int(quarter)]


def degrees(word):
    """Degrees as a decimal number, or as 53°07'48.4", 53d07m48.4s or 53:07:48.4."""
    parts = SEXAGESIMAL.fullmatch(word)
    if not parts:
        return number(word, f"not an angle: {ANGLE_FORMS}")
    sign, whole, marked_minutes, marked_seconds, _, minutes, seconds = parts.groups()
    minutes, seconds = marked_minutes or minutes or "0", marked_seconds or seconds or "0"
    if int(minutes) >= 60 or Fraction(seconds) >= 60:
        raise Unreadable(f"'{word}' has 60 minutes or seconds, or more")
    value = int(whole) + Fraction(int(minutes), 60) + Fraction(seconds) / 3600
    return -value if sign == "-" else value


def direction(word, angle):
    """The pair of a direction that is given as an angle: both components to the nearest whole number."""
    given = degrees(word) if TURN[angle] == 360 else number(word)
    if abs(given) > TURN[angle]:
        raise Unreadable(f"'{word}' is more than a turn of {TURN[angle]}")
    return pair(turns_from_x(given / TURN[angle], angle))


def turns_from_x(turns, angle):
    return Fraction(1, 4) - turns if angle.startswith("bearing") else turns


def pair(turns):
    """The pair of the angle from x towards y, as a part of a turn."""
    c, s = cosine_and_sine(turns)
    return rounded(Fraction(ONE * c, 1 << BITS)), rounded(Fraction(ONE * s, 1 << BITS))


def turns(c, s):
    """The angle of a pair from x towards y, as a part of a turn from 0 on: by floating point, and then corrected once."""
    first = Fraction(math.atan2(s, c) / math.tau)
    u, v = cosine_and_sine(first)
    across, along = s * u - c * v, c * u + s * v
    return (first + Fraction(across * (1 << BITS), along * 2 * pi())) % 1 if along else first % 1


def angle_text(c, s, angle):
    """A direction as an angle, with as many digits as `direction` needs to give the same pair. A pair may be that of no angle: then
    `direction` gives one that is next to it."""
    exact = turns(c, s)
    for near in (exact, middle_of_same_pair(c, s, exact)):
        for digits in range(7, 14):
            text = turns_text(near, angle, digits)
            if direction(text, angle) == (c, s):
                return text
    return turns_text(exact, angle, 9)


def middle_of_same_pair(c, s, exact):
    """The middle of the angles that are rounded to a pair, near its own, along the tangent there."""
    u, v = (Fraction(ONE * part, 1 << BITS) for part in cosine_and_sine(exact))
    low, high = Fraction(-1), Fraction(1)  # in 2^-30 of the radius
    for value, at, change in ((c, u, -v / ONE), (s, v, u / ONE)):
        if change:
            ends = sorted((value - at + half) / change for half in (Fraction(-1, 2), Fraction(1, 2)))
            low, high = max(low, ends[0]), min(high, ends[1])
    return exact + (low + high) / 2 / ONE * Fraction(1 << BITS, 2 * pi())


def turns_text(value, angle, digits):
    return decimal(rounded(turns_from_x(value, angle) % 1 * TURN[angle] * 10**digits) % (TURN[angle] * 10**digits), digits)


def turn_text(seconds):
    """A small angle with its sign, in seconds of arc, or a large one in degrees."""
    if abs(seconds) >= 3600:
        return f"{seconds / 3600:+.4f} degrees"
    return f"{seconds:+.1f} seconds of arc" if abs(seconds) >= 0.05 else "0.0 seconds of arc"


def distance_text(grains):
    """A small distance in mm, or a large one in metres."""
    return f"{grains / GRAINS_PER_MM:.2f} mm" if abs(grains) < 1000 * GRAINS_PER_MM else f"{grains / 1000 / GRAINS_PER_MM:.3f} m"


def seconds_between(first, second):
    """The angle from one direction to another in seconds of arc, to the left positive."""
    (a, b), (c, d) = first, second
    return math.degrees(math.atan2(a * d - b * c, a * c + b * d)) * 3600
