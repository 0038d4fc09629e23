"""A crest with its points, drawn as an SVG: for the screen, or to be printed on a sheet of paper.

Every number of the crest and of a point is the library's; this module only places them on the sheet. Lengths on the sheet are in units of
its own, of which a letter is 12 high; on paper 5 of them are a mm."""

import math
import re
import unicodedata
from typing import NamedTuple

from . import library, units
from .elements import ARC, ENTRY, LINE
from .files import plural

UNITS_PER_MM = 5
UPRIGHT = {"a4": (210, 297), "a3": (297, 420), "letter": (215.9, 279.4)}  # mm
PAPERS = {**UPRIGHT, **{f"{name}-landscape": (height, width) for name, (width, height) in UPRIGHT.items()}}
PAPER_MARGIN = 10 * UNITS_PER_MM

TEXT = 12
ROW = 17
GAP = 13
HEADING = 64  # title and summary, above the plot
AXIS = 36  # the grid's labels, below the plot
INSET = 46  # between the plot's edge and what is drawn
GRID_STEP = 90  # the least distance of the grid's lines
LONGEST_BAR = 2.5 * GRID_STEP  # of a scale that is at least as long as the grid's step

INK, GRID, FRAME, BLUE, GREEN, ORANGE, RED = "#333333", "#e4e4e4", "#9a9a9a", "#1f6fb4", "#2a8c3c", "#c46210", "#c8202f"


class Mark(NamedTuple):
    """A point with what the library says of it."""

    name: str  # "" where it has none
    x: float  # grains; may be nan, inf or huge for refused ones
    y: float
    answer: tuple  # (station mm, offset grains, residual grains), or a library.Refusal
    foot: tuple  # (x, y) grains of the station's position, or None where refused


# ---- text

FORBIDDEN = re.compile("[^\t\n\r\x20-\ud7ff\ue000-\ufffd\U00010000-\U0010ffff]")  # by XML
NARROW = frozenset(" .,:;'|!()[]/-\"fijlrtIJ")
WIDE = frozenset("mwMW@%+&…")
NAME_LETTERS, LISTED_LETTERS = 24, 60


def clean(words):
    """Text as XML may hold it, on one line."""
    return re.sub("[\t\n\r]", " ", FORBIDDEN.sub("", words))


def escaped(words):
    return words.replace("&", "&amp;").replace("<", "&lt;").replace(">", "&gt;").replace('"', "&quot;")


def letter_width(letter):
    """Roughly, and rather too wide, in parts of the letters' height."""
    if letter in NARROW:
        return 0.4
    if letter in WIDE or unicodedata.east_asian_width(letter) in "WF":
        return 1.0
    return 0.78 if letter.isupper() or letter > "\u024f" else 0.64


def width_of(words, size=TEXT):
    return size * sum(map(letter_width, words))


def shortened(words, most):
    return words if len(words) <= most else words[:most] + "…"


def end_of(words, width, size):
    """The end of a text, as much as a width holds."""
    if width_of(words, size) <= width:
        return words
    while words and width_of("…" + words, size) > width:
        words = words[1:]
    return "…" + words


def wrapped(words, width):
    """A text in lines that a width holds: broken between words, or in one that is longer than a line."""
    lines = [""]
    for word in words.split(" "):
        longer = f"{lines[-1]} {word}" if lines[-1] else word
        if width_of(longer) <= width:
            lines[-1] = longer
            continue
        if lines[-1]:
            lines.append("")
        for letter in word:
            if lines[-1] and width_of(lines[-1] + letter) > width:
                lines.append("")
            lines[-1] += letter
    return lines


def isolated(name):
    """A name that is written from right to left, or turns the writing, kept from turning the words beside it."""
    plain = all(unicodedata.bidirectional(letter) not in ("R", "AL", "RLO", "RLE", "RLI", "LRO", "LRE", "LRI", "FSI") for letter in name)
    return name if plain else f"\u2068{name}\u2069"


def text(x, y, words, colour=INK, more=""):
    return f'<text x="{x:.1f}" y="{y:.1f}" fill="{colour}"{more}>{escaped(words)}</text>'


def metres(mm):
    return f"{units.decimal(mm, 3)} m"


# ---- the crest: what is drawn of it


class Span(NamedTuple):
    """An element, with some of its positions in grains."""

    kind: int
    first: int  # its first station, mm
    length: int
    points: list


def spans_of(crest):
    spans, first = [], 0
    records = library.records(crest)
    total = sum(record[1] for record in records)
    for kind, length, *_ in records:
        points = [library.position(crest, first + station)[:2] for station in stations(length, total)]
        spans.append(Span(kind, first, length, points))
        first += length
    return spans


def stations(length, total):
    """The stations that an element is drawn through, from its start on; more of them where it is a greater part of the crest."""
    steps = min(12 + 1000 * length // total, length)
    return [length * step // steps for step in range(steps + 1)]


def end_station(spans):
    return spans[-1].first + spans[-1].length


# ---- the points


def is_refused(mark):
    return isinstance(mark.answer, library.Refusal)


def name_of(mark, number):
    """The name, or the number where there is none."""
    name = clean(mark.name)
    return name if name.strip() else str(number)


def told(name, mark):
    """Station, offset and residual, or the refusal and its sentence."""
    if is_refused(mark):
        return f"{name}: {mark.answer}"
    station, offset, residual = mark.answer
    return f"{name}: station {metres(station)}, offset {units.mm(offset)} mm, residual {units.mm(residual)} mm"


def label_of(name, mark):
    return f"{name}: refused {mark.answer.number}" if is_refused(mark) else f"{name}: {units.mm(mark.answer[1])} mm"


def magnification(marks, size):
    """The greatest of 1, 10, 100 .. with which the longest distance from a foot is at most an eighth of the crest."""
    longest = max((math.hypot(mark.x - mark.foot[0], mark.y - mark.foot[1]) for mark in marks if not is_refused(mark)), default=0)
    times = 1
    while longest > 0 and longest * times * 10 <= size / 8:
        times *= 10
    return times


def drawn_at(mark, magnified):
    """Where an answered point is drawn: its distance from the foot as many times as long."""
    x, y = mark.foot
    return x + magnified * (mark.x - x), y + magnified * (mark.y - y)


# ---- the part of the plane that is drawn, in grains


class View(NamedTuple):
    left: float
    low: float
    right: float
    high: float

    @property
    def across(self):
        return max(self.right - self.left, 100)

    @property
    def up(self):
        return max(self.high - self.low, 100)

    @property
    def size(self):
        return max(self.across, self.up)


def view_of(points):
    xs, ys = zip(*points)
    return View(min(xs), min(ys), max(xs), max(ys))


def whole_view(crest_points, marks, magnified):
    """Holds the crest, the answered points, and refused ones that are not far from these."""
    points = [*crest_points, *(drawn_at(mark, magnified) for mark in marks if not is_refused(mark))]
    view = view_of(points)
    near = view.size / 4
    for mark in marks:
        if view.left - near <= mark.x <= view.right + near and view.low - near <= mark.y <= view.high + near:
            points.append((mark.x, mark.y))
    return view_of(points)


# ---- the grid's lines and the scale


def round_lengths():
    """1, 2, 5, 10, 20 .. grains"""
    power = 1
    while True:
        yield from (power, 2 * power, 5 * power)
        power *= 10


def digits_for(grains):
    """How many digits after the point a round length needs in metres."""
    digits = 0
    while digits < 5 and 10 ** (5 - digits) > grains:
        digits += 1
    return digits


def in_metres(grains, step):
    """A multiple of a step as text."""
    digits = digits_for(step)
    return units.decimal(grains // 10 ** (5 - digits), digits)


def widest_label(low, high, step):
    return max(width_of(in_metres(math.floor(value / step) * step, step)) for value in (low, high))


def grid_step(view, scale, origin):
    """The least round length that is drawn long enough, also for the labels that stand side by side."""
    for step in round_lengths():
        low, high = (edge + origin[0] for edge in (view.left - view.size, view.right + view.size))
        if step * scale >= max(GRID_STEP, widest_label(low, high, step) + GAP):
            return step


# ---- the list of the points and the keys: texts in rows


class Entry(NamedTuple):
    colour: str
    words: str
    answered: bool


class Key(NamedTuple):
    sign: str
    room: float  # of the sign
    words: str


def entries_of(names, marks):
    found = []
    for name, mark in zip(names, marks):
        words = told(isolated(shortened(name, LISTED_LETTERS)), mark)
        found.append(Entry(RED if is_refused(mark) else INK, words, not is_refused(mark)))
    return found


JOIN_SIGN = f'<circle cx="10" r="3" fill="white" stroke="{INK}" stroke-width="1.5"/>'


def stroke(kind):
    return f'<path d="M0,0 h20" stroke-width="2.5" {look_of(kind)}/>'


def dot(x, y, radius):
    return f'<circle cx="{x:.2f}" cy="{y:.2f}" r="{radius}" fill="{ORANGE}"/>'


def key_groups(with_points, magnified, bar, length):
    """The signs and what they mean, and a bar with its length in words. Each group begins a row."""
    groups = [
        [
            Key(stroke(LINE), 26, "line"),
            Key(stroke(ARC), 26, "arc"),
            Key(stroke(ENTRY), 26, "spiral"),
            Key(JOIN_SIGN, 26, "join, with its station in m where there is room"),
            Key(f'<path d="M20,0 L3,-6 L7,0 L3,6 z" fill="{INK}"/>', 26, "the way that stations rise"),
        ]
    ]
    if with_points:
        foot = f'<path d="M4,0 h12" stroke="{ORANGE}"/>{dot(4, 0, 2)}{dot(16, 0, 3.5)}'
        cross = f'<path d="M5,-5 l10,10 m0,-10 l-10,10" fill="none" stroke="{RED}" stroke-width="2"/>'
        groups.append([
            Key(foot, 26, "foot and reading, with its offset: left is positive"),
            Key(cross, 26, "refused reading; ringed where it lies off the plot"),
        ])
    scale = f'<path d="M0,-4 v8 h{bar:.2f} v-8" fill="none" stroke="{INK}" stroke-width="1.5"/>'
    groups.append([Key(scale, bar + 8, length)])
    if magnified > 1:
        groups[-1].append(Key("", 0, f"distances from the foot are drawn {magnified} times as long"))
    return groups


def flow(groups, width):
    """Where each key stands: (x, row, key, lines), and the count of rows. A key that has no room beside the last begins a row."""
    places, rows = [], 0
    for group in groups:
        x, row = 0, rows
        for key in group:
            lines = wrapped(key.words, width - key.room)
            needed = key.room + max(map(width_of, lines))
            if x > 0 and x + needed > width:
                x, row = 0, rows
            places.append((x, row, key, lines))
            rows = max(rows, row + len(lines))
            x += needed + GAP
    return places, rows


def packed(entries, columns, rows):
    """Where each entry stands, column by column: (column, row, colour, lines); None where they don't fit."""
    places, column, row = [], 0, 0
    for colour, lines in entries:
        if row + len(lines) > rows:
            column, row = column + 1, 0
        if column == columns or len(lines) > rows:
            return None
        places.append((column, row, colour, lines))
        row += len(lines)
    return places


# ---- the sheet: what stands where


class Area(NamedTuple):
    left: float
    top: float
    width: float
    height: float

    @property
    def right(self):
        return self.left + self.width

    @property
    def bottom(self):
        return self.top + self.height


class Listing(NamedTuple):
    """The list as it stands in its area."""

    places: list
    shown: int
    rows: int
    column: float  # from one column to the next


class Sheet(NamedTuple):
    width: float
    height: float
    left: float  # where title and summary stand
    top: float
    right: float
    plot: Area
    scale: float  # units of the sheet to a grain
    ratio: float  # of the scale on paper, None where it isn't said
    keys: Area
    list_at: Area
    listing: Listing


class Content(NamedTuple):
    """What has to be placed on a sheet."""

    view: View
    groups: list  # of keys
    entries: list
    column: float  # the width that a column of the list wants
    with_points: bool
    left_room: float  # for the grid's labels beside the plot
    right_room: float


def list_column(entries):
    """The width of a column of the list: as wide as the answers need, within bounds."""
    needed = max((width_of(entry.words) for entry in entries if entry.answered), default=0)
    return min(max(needed, 300), 480)


def listing_in(entries, width, rows, columns):
    """The list in so many rows and columns: all of it, or the refused first and a line that says how many more there are."""
    step = (width + GAP) / columns
    lines = [(entry.colour, wrapped(entry.words, step - GAP)) for entry in entries[: columns * rows]]
    if len(entries) == len(lines):
        total = sum(len(words) for _, words in lines)
        for least in range(min(max(-(-total // columns), 5), rows), rows + 1):
            places = packed(lines, columns, least)
            if places is not None:
                used = max((row + len(words) for _, row, _, words in places), default=0)
                return Listing(places, len(entries), used, step)
    return cut_listing(entries, columns, rows, step)


def cut_listing(entries, columns, rows, step):
    by_weight = sorted(range(len(entries)), key=lambda at: (entries[at].answered, at))[: columns * rows]
    lines = {at: wrapped(entries[at].words, step - GAP) for at in by_weight}
    for shown in range(len(by_weight), -1, -1):
        more = wrapped(f"{'and ' if shown else ''}{len(entries) - shown} more, for which there is no room here", step - GAP)
        kept = [(entries[at].colour, lines[at]) for at in sorted(by_weight[:shown])]
        places = packed([*kept, (INK, more)], columns, rows)
        if places is not None:
            return Listing(places, shown, rows, step)
    return Listing([], 0, 0, step)


RATIOS = (1, 1.25, 1.5, 2, 2.5, 3, 4, 5, 6, 7.5)


def scale_in(view, plot):
    """The greatest scale with which a view fits a plot."""
    return min((plot.width - 2 * INSET) / view.across, (plot.height - 2 * INSET) / view.up)


def round_scale(scale):
    """The next smaller scale that rulers have, and its ratio: 1 : 500. One that enlarges stays as it is."""
    units_to_grain = UNITS_PER_MM / units.GRAINS_PER_MM
    ratio, power = units_to_grain / scale, 1
    if ratio < 1:
        return scale, None
    while ratio > 10 * power:
        power *= 10
    found = next((head * power for head in RATIOS if head * power >= ratio), 10 * power)
    return units_to_grain / found, found


# ---- a sheet for the screen: 1000 wide and as high as it needs to be

SCREEN_WIDTH = 1000
LEAST_HEIGHT, MOST_HEIGHT = 200, 860
MOST_LISTED = 24


def screen_sheet(content):
    left, right = max(70, content.left_room), SCREEN_WIDTH - max(20, content.right_room)
    plot = Area(left, 8 + HEADING, right - left, MOST_HEIGHT)
    scale = scale_in(content.view, plot)
    plot = plot._replace(height=max(LEAST_HEIGHT, content.view.up * scale + 2 * INSET))
    keys = Area(left, plot.bottom + AXIS, plot.width, flow(content.groups, plot.width)[1] * ROW)
    list_at = Area(left, keys.bottom + (GAP if content.with_points else 0), plot.width, 0)
    listing = screen_listing(content.entries, plot.width)
    height = math.ceil(list_at.top + listing.rows * ROW + TEXT)
    return Sheet(SCREEN_WIDTH, height, left, 8, right, plot, scale, None, keys, list_at, listing)


def screen_listing(entries, width):
    """All of the list; of many, only the refused."""
    chosen = entries if len(entries) <= MOST_LISTED else [entry for entry in entries if not entry.answered][:MOST_LISTED]
    lines = [(entry.colour, wrapped(entry.words, width)) for entry in chosen]
    more = len(entries) - len(chosen)
    if more:
        words = f"{'and ' if chosen else ''}{more} more: each mark tells its reading where the pointer rests on it"
        lines.append((INK, wrapped(words, width)))
    rows = sum(len(words) for _, words in lines)
    return Listing(packed(lines, 1, rows), len(chosen), rows, width)


# ---- a sheet of paper: keys and list stand below the plot or beside it, as it makes the drawing greater and leaves less of
# the list out


def paper_sheet(content, paper):
    width, height = (UNITS_PER_MM * length for length in PAPERS[paper])
    inner = Area(PAPER_MARGIN, PAPER_MARGIN, width - 2 * PAPER_MARGIN, height - 2 * PAPER_MARGIN)
    tried = [list_below(content, inner, part) for part in (0.25, 0.45, 0.65)]
    tried += [list_beside(content, inner, columns) for columns in (1, 2, 3)]
    sheets = [Sheet(width, height, inner.left, inner.top, inner.right, *places) for places in tried if places is not None]
    return max(sheets, key=lambda sheet: sheet.scale * (0.25 + share_listed(content, sheet)))


def share_listed(content, sheet):
    return sheet.listing.shown / len(content.entries) if content.entries else 1


def list_below(content, inner, part):
    """The list takes the room that the plot does not need, and a part of the whole if it needs it."""
    keys_height = flow(content.groups, inner.width)[1] * ROW
    free = inner.height - HEADING - AXIS - keys_height - GAP
    plot = Area(inner.left + content.left_room, inner.top + HEADING, inner.width - content.left_room - content.right_room, free)
    needed = max(LEAST_HEIGHT, content.view.up * (plot.width - 2 * INSET) / content.view.across + 2 * INSET)
    rows = int(max(free - needed, part * free) // ROW)
    columns = max(1, int((inner.width + GAP) // (content.column + 2 * GAP)))
    listing = listing_in(content.entries, inner.width, rows, columns)
    plot = plot._replace(height=min(free - listing.rows * ROW, max(needed, 0.75 * plot.width)))
    keys = Area(inner.left, plot.bottom + AXIS, inner.width, keys_height)
    list_at = Area(inner.left, keys.bottom + GAP, inner.width, listing.rows * ROW)
    return (plot, *round_scale(scale_in(content.view, plot)), keys, list_at, listing)


def list_beside(content, inner, columns):
    """None where no plot has room beside so many columns."""
    beside = columns * (content.column + GAP)
    room = content.left_room + content.right_room + 2 * GAP
    plot = Area(inner.left + content.left_room, inner.top + HEADING, inner.width - beside - room, inner.height - HEADING - AXIS)
    if plot.width < inner.width / 3:
        return None
    left = inner.right - beside
    keys = Area(left, plot.top, beside, flow(content.groups, beside)[1] * ROW)
    list_at = Area(left, keys.bottom + GAP, beside, inner.bottom - keys.bottom - GAP)
    listing = listing_in(content.entries, beside, int(list_at.height // ROW), columns)
    return (plot, *round_scale(scale_in(content.view, plot)), keys, list_at, listing)


# ---- the plot: where grains are on the sheet, and which of it is free

CELL = 3
SQUARE = 32  # by which spots are found
NEAR = 8  # from a spot to the label beside it
RINGS = 9  # how many times farther off it may stand, at the end of a line that leads to it
FEW, MANY = 24, 1000  # points: of few the lines may cross the drawing; of many only those get a label that have room right beside them


class Label(NamedTuple):
    drawn: str
    cells: list  # (row, bits) that it took


class Plot:
    """The plot is divided into cells, so that labels keep clear of what is drawn and of each other: a row is a whole number with a bit
    for each cell."""

    def __init__(self, area, scale, view):
        self.area, self.scale = area, scale
        self.x = (view.left + view.right) / 2 - area.width / 2 / scale  # the grains at the upper left corner
        self.y = (view.low + view.high) / 2 + area.height / 2 / scale
        self.lines = [0] * (int(area.height // CELL) + 1)  # the cells that strokes and signs took
        self.words = self.lines[:]  # those of labels and the lines to them
        self.spots = {}  # what has a label, by squares

    def placed(self, grains):
        x, y = grains
        return self.area.left + (x - self.x) * self.scale, self.area.top + (self.y - y) * self.scale

    def held(self, grains):
        """A place on the plot and whether it is inside. What lies outside is held at the edge, and so is what has no place."""
        x, y = self.placed(grains)
        area = self.area
        at = between(area.left + 8, x, area.right - 8), between(area.top + 8, y, area.bottom - 8)
        return at, at == (x, y)

    def cells(self, left, top, width, height):
        """The cells of a rectangle, by row; None where it is not wholly on the plot."""
        area = self.area
        if left < area.left or top < area.top or left + width > area.right or top + height > area.bottom:
            return None
        first, last = int((left - area.left) // CELL), int((left + width - area.left) // CELL)
        bits = ((1 << (last - first + 1)) - 1) << first
        return [(row, bits) for row in range(int((top - area.top) // CELL), int((top + height - area.top) // CELL) + 1)]

    def is_free(self, rectangle, crossing=False):
        """Whether no words are there, and no lines unless these may be crossed."""
        cells = self.cells(*rectangle)
        return cells is not None and not any((self.words[row] | (0 if crossing else self.lines[row])) & bits for row, bits in cells)

    def remember(self, at):
        """A spot that has a label: no other label may stand nearer to it than to its own."""
        self.spots.setdefault((at[0] // SQUARE, at[1] // SQUARE), []).append(at)

    def is_nearer_to_another(self, rectangle, at):
        left, top, width, height = rectangle
        columns = range(int((left - NEAR) // SQUARE), int((left + width + NEAR) // SQUARE) + 1)
        rows = range(int((top - NEAR) // SQUARE), int((top + height + NEAR) // SQUARE) + 1)

        def distance(spot):
            end = between(left, spot[0], left + width), between(top, spot[1], top + height)
            return math.hypot(end[0] - spot[0], end[1] - spot[1])

        others = (spot for column in columns for row in rows for spot in self.spots.get((column, row), ()) if spot != at)
        return any(distance(spot) <= distance(at) for spot in others)

    def take_sign(self, at, radius):
        for row, bits in self.cells(*square(at, radius)) or ():
            self.lines[row] |= bits

    def take_stroke(self, start, end):
        for at in along(start, end):
            self.take_sign(at, 3)

    def take_words(self, cells):
        for row, bits in cells:
            self.words[row] |= bits

    def give_back_words(self, cells):
        for row, bits in cells:
            self.words[row] &= ~bits

    def label(self, at, words, colour, rings=RINGS, crossing=False):
        """A label beside a spot, where it is free and as near as it can be; None where there is no such place. One that stands apart has
        a line that leads to it."""
        width = width_of(words)
        for ring in range(rings):
            for left, top in sides(at, NEAR * (ring + 1), width):
                rectangle = left, top, width, TEXT
                if not self.is_free(rectangle) or (ring == 0 and self.is_nearer_to_another(rectangle, at)):
                    continue
                end = between(left, at[0], left + width), between(top, at[1], top + TEXT)
                way = along(toward(at, end, 1.5 * NEAR), end) if ring else []
                if all(self.is_free(square(spot, 0), crossing) for spot in way):
                    leader = line(toward(at, end, NEAR), end, f' stroke="{colour}" stroke-width="0.7"') if way else ""
                    cells = [cell for taken in (rectangle, *(square(spot, 1) for spot in way)) for cell in self.cells(*taken) or ()]
                    self.take_words(cells)
                    return Label(leader + text(left, top + TEXT - 2, words, colour), cells)
        return None


def square(at, radius):
    return at[0] - radius, at[1] - radius, 2 * radius, 2 * radius


def along(start, end):
    """Spots from one place to another, a cell apart."""
    spots = int(math.hypot(end[0] - start[0], end[1] - start[1]) / CELL) + 1
    return [tuple(a + (b - a) * i / spots for a, b in zip(start, end)) for i in range(spots + 1)]


def toward(start, end, distance):
    """The place so far from one towards another."""
    part = distance / math.hypot(end[0] - start[0], end[1] - start[1])
    return tuple(a + (b - a) * part for a, b in zip(start, end))


def sides(at, gap, width):
    """Left and top of a label beside a spot: above and below in the middle, to the right and to the left, each also halfway."""
    x, y = at
    above, halfway, below = y - gap - TEXT, y - TEXT / 2, y + gap
    middle, right, left = x - width / 2, x + gap, x - gap - width
    beside = ((right, above), (right, below), (left, above), (left, below), (right, halfway), (left, halfway))
    return ((middle, above), (middle, below), *beside)


def between(low, value, high):
    return low if math.isnan(value) else min(max(value, low), high)


# ---- drawing


def line(start, end, more=""):
    return '<line x1="{:.2f}" y1="{:.2f}" x2="{:.2f}" y2="{:.2f}"{}/>'.format(*start, *end, more)


def grid(plot, step, origin):
    """Lines at the multiples of a step, counted from the origin's zero."""
    area = plot.area
    yield f'<g stroke="{GRID}">'
    numbers = []
    value = math.ceil((plot.x + origin[0]) / step) * step
    while True:
        x = plot.placed((value - origin[0], 0))[0]
        if x > area.right:
            break
        yield line((x, area.top), (x, area.bottom))
        numbers.append(text(x, area.bottom + 15, in_metres(value, step), INK, ' text-anchor="middle"'))
        value += step
    value = math.floor((plot.y + origin[1]) / step) * step
    while True:
        y = plot.placed((0, value - origin[1]))[1]
        if y > area.bottom:
            break
        yield line((area.left, y), (area.right, y))
        numbers.append(text(area.left - 6, y + 4, in_metres(value, step), INK, ' text-anchor="end"'))
        value -= step
    yield "</g>"
    yield f'<rect x="{area.left:.1f}" y="{area.top:.1f}" width="{area.width:.1f}" height="{area.height:.1f}" fill="none" stroke="{FRAME}"/>'
    yield from numbers
    across, up = "EN" if any(origin) else "xy"
    yield text(area.right, area.bottom + 30, f"{across} in m", INK, ' text-anchor="end"')
    yield text(area.left - 6, area.top - 8, f"{up} in m", INK, ' text-anchor="end"')


def look_of(kind):
    """The stroke of an element; spirals are dashed, so that they can be told without colours."""
    return {LINE: f'stroke="{INK}"', ARC: f'stroke="{BLUE}"'}.get(kind, f'stroke="{GREEN}" stroke-dasharray="8 4"')


def elements(plot, spans):
    yield '<g fill="none" stroke-width="2.5" stroke-linejoin="round" stroke-linecap="round">'
    for span in spans:
        points = [plot.placed(point) for point in span.points]
        for start, end in zip(points, points[1:]):
            plot.take_stroke(start, end)
        places = " ".join(f"{x:.2f},{y:.2f}" for x, y in points)
        yield f'<polyline class="element" {look_of(span.kind)} points="{places}"/>'
    yield "</g>"


def arrow(plot, crest, station):
    """An arrowhead on the crest, the way that stations rise."""
    x, y, right, up = library.position(crest, station)
    x, y = plot.placed((x, y))
    plot.take_sign((x, y), 7)
    turn = math.degrees(math.atan2(-up, right))
    return f'<path d="M10,0 L-7,-6 L-3,0 L-7,6 z" fill="{INK}" transform="translate({x:.2f},{y:.2f}) rotate({turn:.2f})"/>'


def joins(plot, spans):
    """The joins and the two ends."""
    start, end = spans[0].points[0], spans[-1].points[-1]
    found = [("join", 3, "join", span.first, span.points[0]) for span in spans[1:]]
    for kind, radius, what, station, at in [("end", 5, "start", 0, start), *found, ("end", 5, "end", end_station(spans), end)]:
        x, y = plot.placed(at)
        plot.take_sign((x, y), radius)
        place = f'cx="{x:.2f}" cy="{y:.2f}" r="{radius}"'
        words = f"<title>{what}, station {metres(station)}</title>"
        yield f'<circle class="{kind}" {place} fill="white" stroke="{INK}" stroke-width="1.5">{words}</circle>'


def answered_mark(plot, mark, magnified):
    foot, end = plot.placed(mark.foot), plot.placed(drawn_at(mark, magnified))
    plot.take_stroke(foot, end)
    return line(foot, end, f' stroke="{ORANGE}" stroke-width="1.2"') + dot(*foot, 2) + dot(*end, 3.5)


def refused_mark(plot, mark):
    (x, y), inside = plot.held((mark.x, mark.y))
    plot.take_sign((x, y), 5)
    ring = "" if inside else f'<circle cx="{x:.2f}" cy="{y:.2f}" r="7" fill="none" stroke="{RED}"/>'
    return f'<path d="M{x - 5:.2f},{y - 5:.2f} l10,10 m0,-10 l-10,10" fill="none" stroke="{RED}" stroke-width="2"/>{ring}'


def point_marks(plot, names, marks, magnified):
    for name, mark in zip(names, marks):
        kind = "refused" if is_refused(mark) else "answered"
        drawn = refused_mark(plot, mark) if is_refused(mark) else answered_mark(plot, mark, magnified)
        yield f'<g class="reading {kind}"><title>{escaped(told(name, mark))}</title>{drawn}</g>'


class Spot(NamedTuple):
    """Where a point's label belongs, and what it says."""

    at: tuple
    colour: str
    full: str  # the name with the offset or the refusal
    shorter: tuple  # the name, and its first letters


def spot_of(plot, name, mark, magnified):
    at = plot.held((mark.x, mark.y))[0] if is_refused(mark) else plot.placed(drawn_at(mark, magnified))
    short, shortest = (isolated(shortened(name, most)) for most in (NAME_LETTERS, NAME_LETTERS // 3))
    return Spot(at, RED if is_refused(mark) else ORANGE, label_of(short, mark), (short, shortest))


def labels(plot, spans, names, marks, magnified):
    """What matters most is labelled first: the refused points, the ends, the answered, the joins. The answered get their names first,
    and then their offsets where there is room for these."""
    refused = [spot_of(plot, name, mark, magnified) for name, mark in zip(names, marks) if is_refused(mark)]
    answered = [spot_of(plot, name, mark, magnified) for name, mark in zip(names, marks) if not is_refused(mark)]
    for spot in refused + answered:
        plot.remember(spot.at)
    found = [first_label(plot, spot, (spot.full, *spot.shorter), len(marks)) for spot in refused]
    found += [station_label(plot, 0, spans[0].points[0], True), station_label(plot, end_station(spans), spans[-1].points[-1], True)]
    named = [first_label(plot, spot, spot.shorter, len(marks)) for spot in answered]
    found += [fuller_label(plot, spot, label, len(marks)) for spot, label in zip(answered, named)]
    found += [station_label(plot, span.first, span.points[0]) for span in spans[1:]]
    return [label.drawn for label in found if label is not None]


def first_label(plot, spot, texts, count):
    """The label with the first of some texts that has room."""
    rings = RINGS if count <= MANY else 1
    for crossing in (False, True) if count <= FEW else (False,):
        for words in texts:
            label = plot.label(spot.at, words, spot.colour, rings, crossing)
            if label is not None:
                return label
    return None


def fuller_label(plot, spot, label, count):
    """The full label in the place of the name's, where it has room."""
    if label is None:
        return None
    plot.give_back_words(label.cells)
    fuller = plot.label(spot.at, spot.full, spot.colour, RINGS if count <= MANY else 1)
    if fuller is None:
        plot.take_words(label.cells)
    return fuller or label


def station_label(plot, station, at, needed=False):
    at, words = plot.placed(at), units.decimal(station, 3)
    return plot.label(at, words, INK) or (plot.label(at, words, INK, crossing=True) if needed else None)


# ---- around the drawing: title, keys, list


def heading(sheet, title, spans, marks):
    size = 18
    shown = end_of(clean(title), sheet.right - sheet.left, 1.1 * size)  # bold letters are wider
    yield text(sheet.left, sheet.top + size, shown, INK, f' font-size="{size}" font-weight="bold"')
    words = f"{plural(len(spans), 'element')}, {metres(end_station(spans))}"
    if marks is not None:
        refused = sum(map(is_refused, marks))
        words += f"; {plural(len(marks), 'reading')}, {len(marks) - refused} answered, {refused} refused"
    yield text(sheet.left, sheet.top + 37, words)


def keys_drawn(area, groups):
    for x, row, key, lines in flow(groups, area.width)[0]:
        words = "".join(text(key.room, 4 + ROW * at, part) for at, part in enumerate(lines))
        yield f'<g transform="translate({area.left + x:.1f},{area.top + 8 + ROW * row:.1f})">{key.sign}{words}</g>'


def list_drawn(area, listing):
    for column, row, colour, lines in listing.places:
        for at, words in enumerate(lines):
            yield text(area.left + column * listing.column, area.top + TEXT + ROW * (row + at), words, colour)


LONGEST_WORDS = "0.0001 m; 1 : 7.5 on Letter"  # or 2000 m; 1 : 50000


def scale_words(step, ratio, paper):
    said = f"{in_metres(step, step)} m"
    return said if ratio is None else f"{said}; 1 : {ratio:g} on {paper.split('-')[0].capitalize()}"


def label_rooms(view, origin, width):
    """What the grid's labels need to the left of the plot and to its right, whatever the scale is on a sheet so wide."""
    step = next(step for step in round_lengths() if step * width / view.size >= GRID_STEP)
    beyond = 2 * view.size
    beside, below = (
        widest_label(low - beyond + start, high + beyond + start, step)
        for low, high, start in ((view.low, view.high, origin[1]), (view.left, view.right, origin[0]))
    )
    return max(beside, width_of("N in m")) + 8, below / 2


def drawing(title, crest, marks=None, paper=None, origin=(0, 0)):
    """An SVG of a crest that is accepted: its title, its bytes, its marks or None where no points were given, the name of a paper or
    None, and what is added to the grid's labels in grains."""
    spans, points = spans_of(crest), marks or []
    names = [name_of(mark, number) for number, mark in enumerate(points, 1)]
    outline = [point for span in spans for point in span.points]
    magnified = magnification(points, view_of(outline).size)
    view = whole_view(outline, points, magnified)
    width = UNITS_PER_MM * max(PAPERS[paper]) if paper else SCREEN_WIDTH
    with_points = marks is not None
    groups = key_groups(with_points, magnified, LONGEST_BAR, LONGEST_WORDS)
    entries = entries_of(names, points)
    content = Content(view, groups, entries, list_column(entries), with_points, *label_rooms(view, origin, width))
    sheet = paper_sheet(content, paper) if paper else screen_sheet(content)
    plot = Plot(sheet.plot, sheet.scale, view)
    step = grid_step(view, sheet.scale, origin)
    groups = key_groups(with_points, magnified, step * sheet.scale, scale_words(step, sheet.ratio, paper))
    parts = [
        *heading(sheet, title, spans, marks),
        *grid(plot, step, origin),
        *elements(plot, spans),
        arrow(plot, crest, spans[0].length // 2),
        *joins(plot, spans),
        *point_marks(plot, names, points, magnified),
        *labels(plot, spans, names, points, magnified),
        *keys_drawn(sheet.keys, groups),
        *list_drawn(sheet.list_at, sheet.listing),
    ]
    return framed(sheet, paper, parts)


def framed(sheet, paper, parts):
    size = ' width="{:g}mm" height="{:g}mm"'.format(*PAPERS[paper]) if paper else ""
    box = f'viewBox="0 0 {sheet.width:g} {sheet.height:g}"'
    root = f'<svg xmlns="http://www.w3.org/2000/svg"{size} {box} font-family="sans-serif" font-size="{TEXT}">'
    ground = '<rect width="100%" height="100%" fill="white"/>'
    return "\n".join(['<?xml version="1.0" encoding="UTF-8"?>', root, ground, *parts, "</svg>", ""])
