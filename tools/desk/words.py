"""The words of each command, and the help that says them."""

import argparse
import re

from . import units
from .drawing import PAPERS

ABOUT = """\
Crest lines of embankment dams: their files, and points, places, stakes and readings on them.
Every answer and refusal is the proved library's; sentences of refusals are those of its table."""

STATUS = "Exit status: 0 done, 1 refused or a file could not be read or written, 2 bad usage."

MORE = """\
crest help COMMAND says more of a command. @FILE stands for the words in FILE, for instance
--units m --origin 500000 4100000; # begins a comment there.
"""

FORM = """\
An element is a line of a text, in the order of the stations; # begins a comment. Its words, with blanks between them:
    line  LENGTH X Y DIRECTION
    arc   LENGTH X Y DIRECTION RADIUS
    entry LENGTH X Y DIRECTION RADIUS     a spiral from straight to curved
    exit  LENGTH X Y DIRECTION RADIUS     a spiral from curved to straight
X, Y and DIRECTION are those of the element's start, but of an exit spiral's far end. A radius to the left is positive.
A kind's number may stand for its name, 1 for line to 4 for exit. The word `on` in place of X Y DIRECTION starts an
element where the one before it ends.

Or a CSV file, with a comma, a semicolon or a tab between cells and the columns kind, length, x, y, a direction and
radius, in any order; others are left alone. x may be called east and y north. Where x, y and the direction of a row are
blank, the element starts where the one before it ends. A column's name can say its unit: length_m, length_mm, x_m, x_mm,
x_grains, bearing_deg, bearing_gon, direction_deg, direction_gon; a direction may also be the columns c and s."""

NUMBERS = """\
Numbers:
    --units grains   x, y, offsets in whole grains, 100 to 1 mm; lengths, radii, stations in whole mm
    --units mm       all of them in mm
    --units m        all of them in metres: 1 m is 100,000 grains
  x and y are rounded to a grain, lengths to a mm, a half away from zero; what was rounded is told.
  A CSV file has to say its units, by --units or in its columns' names: x_m, x_mm, x_grains, station_m, offset_mm.
    --origin E N     in metres, subtracted from x (east) and y (north) where they are read, and added where shown"""

DIRECTIONS = """\
Directions:
    --angle pair         cosine and sine of the angle from x towards y, 1073741824 (2^30) to 1: two words, c and s
    --angle degrees      the angle from x towards y; 53.5 or 53:30:00 or 53d30m00s or 53°30'00"
    --angle gon          the same with 400 to a turn
    --angle bearing      clockwise from north, which is y, in degrees: 90 less the bearing is the angle from x
    --angle bearing-gon  the same with 400 to a turn: 100 less the bearing is the angle from x
  An angle becomes the pair of its cosine and sine, each rounded once."""

LINE = "station and offset, and not x and y"
EITHER = "16-byte readings, or a CSV file, whose name ends with .csv"
ALL_ROWS = "Exit status 1 where one of them is refused."


class Parser(argparse.ArgumentParser):
    """Help of a fixed width; @FILE stands for the words in a file, where # begins a comment."""

    def __init__(self, **words):
        super().__init__(
            formatter_class=lambda prog: argparse.RawDescriptionHelpFormatter(prog, width=118, max_help_position=28),
            fromfile_prefix_chars="@",
            allow_abbrev=False,
            **words,
        )
        self._negative_number_matcher = re.compile(r"-[\d.]")  # -90:00:00 and -1,0 are numbers too, and no options

    def convert_arg_line_to_args(self, line):
        return line.replace("\ufeff", "").partition("#")[0].split()


def listed(words):
    *front, last = words
    return f"{', '.join(front)} or {last}"


# ---- words that several commands have


UNUSED = "not used here: one @FILE serves all commands"


def add_numbers(parser, angle=True, needed=True, otherwise="grains", used=True):
    """--units, --angle and --origin; `otherwise` is what is taken where --units is left out and not needed."""
    group = parser.add_argument_group("numbers")
    said = f"{listed(units.UNITS)}: the unit of coordinates and lengths" + ("" if needed else f"; {otherwise} where nothing is said")
    group.add_argument("--units", metavar="UNIT", choices=units.UNITS, help=said if used else UNUSED)
    said = f"how a direction is written: {listed(units.ANGLES)}"
    group.add_argument("--angle", metavar="HOW", choices=tuple(units.ANGLES), help=said if used and angle else UNUSED)
    said = "metres that are subtracted from x and y where they are read, and added where they are shown"
    group.add_argument("--origin", nargs=2, metavar=("E", "N"), help=said if used else UNUSED)


def add_output(parser, csv=True):
    group = parser.add_argument_group("output")
    either = group.add_mutually_exclusive_group()
    if csv:
        either.add_argument("--csv", action="store_true", help="as CSV, with the units in the heading")
    either.add_argument("--json", action="store_true", help="as JSON, for a program that reads on")
    add_file(group)


def add_offsets(parser):
    parser.add_argument("--offsets", metavar="UNIT", choices=units.UNITS, help="the unit of offset and residual; else as --units")


def add_file(parser):
    parser.add_argument("-o", dest="output", metavar="FILE", help="into a file, and not to standard output")


def tolerance(word):
    try:
        value = units.number(word)
    except units.Unreadable as error:
        raise argparse.ArgumentTypeError(str(error)) from None
    if value < 0:
        raise argparse.ArgumentTypeError(f"'{word}' is less than 0")
    return value


def add_snap(parser):
    group = parser.add_argument_group("joins")
    said = "move an element's start to the end of the one before it, where it lies within so many mm of it"
    group.add_argument("--snap", metavar="MM", type=tolerance, help=said)
    said = "turn its start likewise, where it is within so many seconds of arc"
    group.add_argument("--snap-angle", metavar="SECONDS", type=tolerance, help=said)


# ---- each command


def add_make(add):
    text = f"Writes the crest file CREST of the elements in a text or a CSV file.\n\n{FORM}"
    one = add("make", "a crest file from its elements", text, NUMBERS, DIRECTIONS)
    one.add_argument("elements", metavar="ELEMENTS", help="a text or a CSV file, - for standard input")
    one.add_argument("crest", metavar="CREST", help="left as it is where anything is refused; - for standard output")
    add_numbers(one, needed=False, otherwise="of a text grains")
    add_snap(one)


def add_show(add):
    text = "Prints the elements of a crest file as the text that make reads; make gives the same file from it."
    one = add("show", "the elements of a crest file", text, NUMBERS, DIRECTIONS)
    one.add_argument("crest", metavar="CREST")
    add_numbers(one, needed=False)
    add_output(one)


def add_check(add):
    text = "Says whether a crest file is accepted, or its refusal with the block or the records, counted from 0."
    one = add("check", "whether a crest file is accepted", text)
    one.add_argument("crest", metavar="CREST")
    add_numbers(one, needed=False, otherwise="m")
    add_output(one, csv=False)


def add_import(add):
    text = """\
Writes the elements of a LandXML alignment (Line, Curve and clothoid Spiral of its CoordGeom) as the text that make reads,
with the origin, what was rounded and the largest gap left. What can't be had is named with its place in the file. The origin
is chosen, and said, where none is given. The unit and the angle are those of the text."""
    one = add("import", "elements from an alignment of LandXML", text, NUMBERS, DIRECTIONS)
    one.add_argument("file", metavar="FILE.xml")
    one.add_argument("elements", metavar="ELEMENTS", help="written only where the library accepts them; - for standard output")
    one.add_argument("--alignment", metavar="NAME", help="which alignment, where the file has several")
    said = "make several elements of a line or a curve that is too long or too tight for one"
    one.add_argument("--split", action="store_true", help=said)
    add_numbers(one, needed=False)
    add_snap(one)


def add_readings(add):
    text = "The readings of crestline and of the logger: 16 bytes each, two little-endian f64."
    one = add("readings", "16-byte readings from CSV and back", text)
    ways = one.add_subparsers(dest="way", metavar="make|show", required=True, parser_class=Parser)

    text = "Writes the readings of a CSV file with the columns x and y, or with --line station and offset. Names are not kept."
    make = ways.add_parser("make", help="from a CSV file", description=text, epilog=f"{NUMBERS}\n\n{STATUS}")
    make.add_argument("points", metavar="POINTS.csv", help="- for standard input")
    make.add_argument("readings", metavar="READINGS", help="- for standard output")
    make.add_argument("--line", action="store_true", help=LINE)
    add_numbers(make, angle=False)

    text = "Prints readings as CSV, each named by its number."
    show = ways.add_parser("show", help="as a CSV file", description=text, epilog=f"{NUMBERS}\n\n{STATUS}")
    show.add_argument("readings", metavar="READINGS", help="- for standard input")
    show.add_argument("--line", action="store_true", help=LINE)
    add_numbers(show, angle=False)
    add_output(show, csv=False)
    return {"readings make": make, "readings show": show}


def add_locate(add):
    text = f"""\
Prints station, offset (to the left positive), residual and foot of each point of a CSV file with the columns name, x, y.
{ALL_ROWS}"""
    one = add("locate", "station and offset of points", text, NUMBERS)
    one.add_argument("crest", metavar="CREST")
    one.add_argument("points", metavar="POINTS.csv", help="- for standard input")
    add_numbers(one, angle=False)
    add_offsets(one)
    add_output(one)


def add_place(add):
    text = f"Prints the point of each station and offset, and the direction of the crest there. {ALL_ROWS}"
    one = add("place", "the point of a station and an offset", text, NUMBERS, DIRECTIONS)
    one.add_argument("crest", metavar="CREST")
    one.add_argument("places", metavar="PLACES.csv", nargs="?", help="with the columns name, station and offset; - for standard input")
    said = "a single place; may be given several times"
    one.add_argument("--at", nargs=2, metavar=("STATION", "OFFSET"), action="append", help=said)
    one.add_argument("--every", metavar="STEP", help="places at whole steps from the start, and the end")
    one.add_argument("--joins", action="store_true", help="the start, the joins and the end")
    one.add_argument("--offset", metavar="OFFSET", help="the offset for --every and --joins; 0 where nothing is said")
    add_numbers(one)
    add_output(one)


def add_stake(add):
    text = f"""\
Prints the move of each stake from its own point to its target: forward along the heading, and to the left of it.
The target is a point, or a station and an offset of a crest; there the heading is the crest's direction, unless one is
given. {ALL_ROWS}"""
    one = add("stake", "how far to move a stake", text, NUMBERS, DIRECTIONS)
    said = "with the columns name, x, y; target_x, target_y, or with --crest station, offset; and a direction, the heading"
    one.add_argument("stakes", metavar="STAKES.csv", nargs="?", help=said)
    one.add_argument("--crest", metavar="CREST", help="the crest of the targets' stations")
    one.add_argument("--own", nargs=2, metavar=("X", "Y"), help="a single stake's own point")
    one.add_argument("--target", nargs=2, metavar=("X", "Y"), help="its target")
    one.add_argument("--at", nargs=2, metavar=("STATION", "OFFSET"), help="its target, on the crest")
    one.add_argument("--heading", metavar="ANGLE", help="an angle as --angle says, or C,S")
    add_numbers(one)
    add_output(one)


def add_night(add):
    text = """\
Counts each reading on the run in RUNFILE, 24 bytes, and prints what it came to and what the run says. A refusal stays on
the run until it is acknowledged: the exit status is 1 as long as one stands. Where anything can't be read, nothing is
counted."""
    one = add("night", "readings counted on a run that is kept in a file", text, NUMBERS)
    one.add_argument("crest", metavar="CREST", help="a refused crest refuses every reading")
    one.add_argument("readings", metavar="READINGS", help=EITHER)
    one.add_argument("run", metavar="RUNFILE")
    one.add_argument("--new", action="store_true", help="begin the run; RUNFILE must not be there")
    one.add_argument("--line", action="store_true", help=f"readings are {LINE}")
    add_numbers(one, angle=False)
    add_offsets(one)
    add_output(one)


def add_run(add):
    text = """\
Prints what the run in RUNFILE says, and changes nothing. Exit status 1 where a refusal stands that was not acknowledged, or
the run is full."""
    one = add("run", "what the run in a file says", text)
    one.add_argument("run", metavar="RUNFILE")
    add_numbers(one, used=False)
    add_output(one, csv=False)


def add_acknowledge(add):
    text = "Clears the first refusal of the run in RUNFILE, and says which it was."
    one = add("acknowledge", "acknowledge the first refusal of a run", text)
    one.add_argument("run", metavar="RUNFILE")
    add_numbers(one, used=False)
    add_output(one, csv=False)


def add_draw(add):
    text = """\
Draws a crest as SVG: its elements and joins, x to the right and y up, and where READINGS are given each with its foot on
the crest, the refused ones with the number of their refusal. Short distances from the foot are drawn 10, 100 .. times as
long; the drawing says so. A refused reading is drawn, and is no failure."""
    one = add("draw", "a drawing of a crest with points", text, NUMBERS)
    one.add_argument("crest", metavar="CREST")
    one.add_argument("readings", metavar="READINGS", nargs="?", help=f"{EITHER}, with the columns name, x and y")
    one.add_argument("--paper", metavar="SIZE", type=str.lower, choices=tuple(PAPERS), help=f"for one sheet: {listed(PAPERS)}")
    one.add_argument("--title", metavar="TEXT", help="the crest's path where nothing is said")
    add_file(one)
    add_numbers(one, angle=False)


def add_help(add):
    one = add("help", "this help, or that of a command", "Prints what crest can do, or what a command can do.")
    one.add_argument("topic", metavar="COMMAND", nargs="*")


ADDED = (
    add_make,
    add_show,
    add_check,
    add_import,
    add_readings,
    add_locate,
    add_place,
    add_stake,
    add_night,
    add_run,
    add_acknowledge,
    add_draw,
    add_help,
)


def parsers():
    """The parser of all words, and that of each command by its name."""
    top = Parser(prog="crest", usage="crest COMMAND ...", description=f"{ABOUT}\n\nCommands:", epilog=MORE + STATUS)
    top.add_argument("--version", action="store_true", help="print the version of the library")
    commands = top.add_subparsers(dest="command", metavar="COMMAND", prog="crest", help=argparse.SUPPRESS, parser_class=Parser)
    found = {}

    def add(name, short, text, *below):
        found[name] = commands.add_parser(name, description=text, epilog="\n\n".join([*below, STATUS]))
        top.description += f"\n    {name:<12} {short}"
        return found[name]

    for one in ADDED:
        found.update(one(add) or {})
    return top, found
