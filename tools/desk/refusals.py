"""Why elements are refused, by field and number: sizes of gaps and kinks, and ranges that are found by asking the library."""

import functools
import math

from . import library, units
from .elements import ENTRY, EXIT, KINDS, LINE, Element, field_text, place_text, unit_name
from .files import Trouble
from .joins import crest_of, join_of, joined, jumps, starting_at, unit_of, worst
from .library import Refusal

SPOKEN = {**KINDS, ENTRY: "entry spiral", EXIT: "exit spiral"}
MOST_TOLD = 20  # faults of one file


def made(elements, setting, name, count, hint=""):
    """The crest file of elements, or a Trouble that says all that is refused; `count` is how many there were, and `hint` what to do where
    a length or a radius is out of range."""
    answer = crest_of(elements)
    if not isinstance(answer, Refusal):
        return answer
    if answer.number not in library.PER_RECORD | library.PER_JOIN:
        raise Trouble(f"{name}: {count} elements: {answer}")
    found = refusals(elements, setting)
    if not found:
        raise Trouble(f"{name}: {answer.with_place}")
    lines = []
    for refusal, where, details in found[:MOST_TOLD]:
        lines.append(f"{name}: {where}: {refusal}")
        lines += [f"    {detail}" for detail in details]
    if len(found) > MOST_TOLD:
        lines.append(f"{name}: and {len(found) - MOST_TOLD} more")
    if hint and any(detail.startswith(("length", "radius")) for _, _, details in found for detail in details):
        lines.append(f"    {hint}")
    if found[0][0].number in library.PER_JOIN:
        lines += other_joins(elements, {refusal.place for refusal, _, _ in found})
        lines += [f"    {sentence}" for sentence in jumps(elements, setting)]
        lines += ["    a wrong element upsets both its joins: mend the first, and try again"] if len(found) > 1 else []
    raise Trouble("\n".join(lines))


def refusals(elements, setting):
    """What the library refuses of some elements, in its order: (refusal, the elements' places, details). Each element is asked by itself;
    where none is refused so, each join."""
    found = []
    for at, element in enumerate(elements):
        answer = crest_of([element])
        if isinstance(answer, Refusal):
            found.append((Refusal(answer.number, at), element.where, record_details(element, answer.number, setting)))
    if not found:
        for at, (first, second) in enumerate(zip(elements, elements[1:])):
            answer = crest_of([first, second])
            if isinstance(answer, Refusal):
                found.append((Refusal(answer.number, at), joined(first.where, second.where), join_details(first, second, setting)))
    return found


def record_details(element, number, setting):
    if number == library.OUT_OF_RANGE:
        return range_details(element, setting)
    if number == library.NO_UNIT and element.c == element.s == 0:
        return ["c 0, s 0: it has no direction"]
    if number == library.NO_UNIT:
        c, s = unit_of(element.c, element.s)
        size = math.hypot(element.c, element.s) / units.ONE
        return [f"c {element.c}, s {element.s}: its length is {size:.9f} of 2^30; the unit in its direction is c {c}, s {s}"]
    return [] if element.kind in KINDS else [f"kind {element.kind}: {allowed_text(element, 'kind', setting)}"]


def join_details(first, second, setting):
    join = join_of(first, second)
    gap = f"the gap is {units.distance_text(join.distance)} (x {units.mm(join.gap[0])}, y {units.mm(join.gap[1])} mm)"
    details = [
        f"{first.where} ends at {place_text(*join.end[:2], *unit_of(*join.end[2:]), setting)}: there {second.where} ought to start",
        f"it starts at {place_text(*join.start[:2], *unit_of(*join.start[2:]), setting)}",
        f"{gap}, the kink {units.turn_text(join.seconds)}",
    ]
    ought = starting_at(second, *join.end)
    if ought and second.kind == EXIT:
        given = "x, y and direction are those of its far end"
        details.append(f"{given}: for that start they are {place_text(ought.x, ought.y, ought.c, ought.s, setting)}")
    return details


def other_joins(elements, refused):
    """The worst of the joins that are not refused: the fault may lie there, and lead to a refusal later."""
    joins = [(join_of(first, second), joined(first.where, second.where)) for first, second in zip(elements, elements[1:])]
    left = [join for at, join in enumerate(joins) if at not in refused]
    return [f"    of the other joins: {worst(left)}"] if left else []


# ---- ranges, by asking


def base_of(kind, sign):
    """Some element of a kind that the library accepts, a radius of it having the sign; None where there is none."""
    if not library.fits(kind, "kind"):
        return None
    for length in (1, 10, 100, 1000, 10_000, 100_000):
        for radius in (0, *(sign * 2**power for power in range(31))):
            element = Element(kind, length, 0, 0, units.ONE, 0, radius)
            if not isinstance(crest_of([element]), Refusal):
                return element
    return None


def edge(element, name, outside):
    """The last value of a field towards `outside` with which an accepted element stays accepted. Accepted values are taken to lie
    together."""
    inside = getattr(element, name)
    if not isinstance(crest_of([element._replace(**{name: outside})]), Refusal):
        return outside
    while abs(outside - inside) > 1:
        middle = (inside + outside) // 2
        if isinstance(crest_of([element._replace(**{name: middle})]), Refusal):
            outside = middle
        else:
            inside = middle
    return inside


def range_of(element, name):
    least, most = library.WIDTHS[name]
    return edge(element, name, least), edge(element, name, most)


def widest(base):
    """A base with the greatest radius of its sign, which leaves the most room to the length."""
    if base.radius == 0:
        return base
    return base._replace(radius=edge(base, "radius", library.WIDTHS["radius"][base.radius > 0]))


def widest_of(element):
    """A base of the element's kind, and of its radius' sign."""
    base = base_of(element.kind, -1 if element.radius < 0 else 1)
    return base and widest(base)


def is_within(value, ends):
    return ends[0] <= value <= ends[1]


def radii_of(element, base):
    """The radii of the base's sign that go with the element's length."""
    if base.radius == 0:
        return 0, 0
    return tuple(sorted((base.radius, edge(base._replace(length=element.length), "radius", 0))))


def range_details(element, setting):
    """Which fields are out of range: value, and the range that the library has for it."""
    base = widest_of(element)
    if base is None:
        return []
    out = [name for name in ("length", "x", "y") if not is_within(getattr(element, name), range_of(base, name))]
    if "length" not in out and not is_within(element.radius, radii_of(element, base)):
        out.append("radius")

    def told(name):
        value = f"{field_text(name, getattr(element, name), setting)} {unit_name(name, setting)}"
        return f"{name} {value}: {allowed_text(element, name, setting)}"

    return [told(name) for name in out]


def allowed_text(element, name, setting):
    """What the library allows for a field."""
    if name == "kind":
        return f"the kinds are {', '.join(f'{word} ({kind})' for kind, word in KINDS.items())}"
    base = widest_of(element) if name in ("length", "x", "y", "radius") else None
    if base is None:
        return "the field holds {} to {}".format(*library.WIDTHS[name])
    if name == "radius":
        return radius_text(element, base, setting)
    low, high = (field_text(name, end, setting) for end in range_of(base, name))
    hint = frame_hint(element.x, element.y, setting) if name in ("x", "y") else ""
    return f"allowed are {low} to {high} {unit_name(name, setting)}{hint}"


def radius_text(element, base, setting):
    kind = SPOKEN.get(element.kind, f"element of kind {element.kind}")
    kind = f"{'an' if kind[0] in 'ae' else 'a'} {kind}"
    if base.radius == 0:
        return f"{kind} has the radius 0"
    if not is_within(element.length, range_of(base, "length")):
        return "its length is out of range too"
    low, high = (field_text("radius", end, setting) for end in sorted(map(abs, radii_of(element, base))))
    unit = unit_name("radius", setting)
    length = f"{field_text('length', element.length, setting)} {unit}"
    return f"for {kind} of {length} allowed are {low} to {high} {unit}, or the negative of that to the right"


# ---- the frame


@functools.lru_cache(None)
def frame():
    """The least and the greatest x, and y, of an anchor."""
    base = base_of(LINE, 1)
    return range_of(base, "x"), range_of(base, "y")


def frame_text(setting):
    ends = ((name, *(field_text(name, end, setting) for end in both)) for name, both in zip("xy", frame()))
    return " and ".join(f"{name} from {low} to {high}" for name, low, high in ends)


def frame_hint(x, y, setting):
    """What may be wrong with a point outside the frame: it may lie inside with its numbers exchanged, or in another unit."""
    (east, north), (across, up) = setting.origin, frame()

    def is_inside(given_x, given_y):
        return across[0] <= given_x - east <= across[1] and up[0] <= given_y - north <= up[1]

    if is_inside(y + north, x + east):
        return "; are x and y exchanged?"
    if setting.units == "mm" and is_inside(1000 * (x + east), 1000 * (y + north)):
        return "; are they in metres?"
    if setting.units == "m" and any(setting.origin) and is_inside((x + east) / 1000, (y + north) / 1000):
        return "; are they in mm?"
    return "; --origin E N moves the frame" if setting.units in ("m", "mm") else ""


# ---- numbers that can't be asked


def tell_misfits(elements, setting, name):
    """A number that does not fit the field of a record can't be asked of the library: those that there are, as one Trouble."""
    found = []
    for element in elements:
        for field, value in zip(element._fields[:7], element):
            if value is not None and not library.fits(value, field):
                text = " ".join(filter(None, (field, field_text(field, value, setting), unit_name(field, setting))))
                found.append(f"{name}: {element.where}: {text} does not fit a record: {allowed_text(element, field, setting)}")
    if found:
        more = len(found) - MOST_TOLD
        raise Trouble("\n".join(found[:MOST_TOLD] + ([f"{name}: and {more} more"] if more > 0 else [])))
