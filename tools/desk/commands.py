"""The commands of tools/crest: what they read, ask and print."""

import json
import sys

from . import drawing, elements, files, joins, landxml, library, points, refusals, runs, tables, units
from .files import Trouble, Usage, input_name, note
from .library import Refusal
from .words import parsers

# ---- what several commands do


def setting_of(words):
    return tables.settings(words.units, words.angle, words.origin)


def shown_setting(words, reader=None):
    """For what is shown, where nothing is said: the units of the file that was read, or grains; pairs there, and else bearings."""
    setting = setting_of(words)
    unit = setting.units or (reader.shown_units if reader else "grains")
    return setting._replace(units=unit, angle=setting.angle or ("pair" if unit == "grains" else "bearing"))


def told_setting(reader):
    """The setting in which things are said of a file: that of its columns where no option says it."""
    return reader.setting._replace(units=reader.setting.units or reader.shown_units, angle=reader.setting.angle or reader.shown_angle)


def say_reader(reader):
    """What there is to say of numbers that were read."""
    if reader is None:
        return
    for sentence in reader.rounding.sentences():
        note(f"{reader.name}: {sentence}")
    if reader.unused:
        note(f"{reader.name}: columns not used: {', '.join(reader.unused)}")


def put(words, text):
    files.save(words.output, text.encode("utf-8", "replace"))


def as_json(values):
    """An object as JSON: a line for each of its values, and for each row of a list of objects."""

    def text(value):
        if isinstance(value, list) and value and isinstance(value[0], dict):
            return "[\n  " + ",\n  ".join(map(text, value)) + "\n ]"
        return json.dumps(value, ensure_ascii=False)

    return "{\n " + ",\n ".join(f"{json.dumps(name)}: {text(value)}" for name, value in values.items()) + "\n}\n"


def text_of(words, titles, rows, beside, left=1, below=""):
    """Rows of (texts, answer) as a table with lines below it, as CSV or as JSON; and all refusals."""
    refused = []

    def cells(last):
        for texts, answer in rows:
            if isinstance(answer, Refusal):
                refused.append(answer)
            yield texts + last(answer)

    if words.json:
        text = as_json({**beside, "rows": [points.json_row(titles, row) for row in cells(lambda answer: [answer])]})
    elif words.csv:
        text = tables.as_csv([*titles, "refused", "sentence"], cells(points.refused_texts))
    else:
        text = tables.as_table(titles, list(cells(lambda answer: [str(answer) if isinstance(answer, Refusal) else ""])), left) + below
    return text, refused


def put_rows(words, titles, rows, beside, crest, setting):
    """Rows of places on a crest, and the exit status: 1 where one of them is refused."""
    text, refused = text_of(words, titles, rows, beside)
    put(words, text)
    if crest is not None and any(refusal.number == library.NOT_THERE for refusal in refused):
        note(f"{input_name(words.crest)}: {points.ranges_text(crest, setting)}")
    return int(bool(refused))


def about(words, setting):
    """What JSON says beside its rows."""
    origin = [elements.json_number(part) for part in elements.origin_texts(setting)]
    return {"crest": words.crest, "units": setting.units, "origin_m": origin}


def all_outside(found, answers, name, setting):
    """What to say where all points of a table lie outside the frame; None where one does not."""
    if not all(isinstance(answer, Refusal) and answer.number == library.OUTSIDE for answer in answers):
        return None
    hints = [refusals.frame_hint(point.first, point.second, setting) for point in found]
    hint = max(set(hints), key=hints.count)
    return f"{name}: every point lies outside the frame, which is {refusals.frame_text(setting)} {setting.units}{hint}"


# ---- make, show, check


def make(words):
    found, reader = elements.read(words.elements, setting_of(words))
    setting, name = told_setting(reader), input_name(words.elements)
    refusals.tell_misfits(found, setting, name)
    going = sum(element.x is None for element in found)
    found, said = joins.lined_up(found, name, words.snap, words.snap_angle)
    say_reader(reader)
    for sentence in said:
        note(f"{name}: {sentence}")
    crest = refusals.made(found, setting, name, reader.count)
    for sentence in joins.jumps(found, setting):
        note(f"{name}: {sentence}")
    files.save(words.crest, crest)
    files.say_written(words.crest, *joins.summary(found, setting, going))
    return 0


def show(words):
    setting = shown_setting(words)
    found = elements.of_crest(points.crest_bytes(words.crest), words.crest)
    if setting.angle != "pair":
        for element in found:
            say_pair_of_no_angle(input_name(words.crest), element, setting.angle)
    if words.json:
        put(words, as_json(elements.as_json(found, setting)))
    else:
        put(words, (elements.as_csv if words.csv else elements.as_text)(found, setting))
    return 0


def say_pair_of_no_angle(name, element, angle):
    c, s = units.direction(units.angle_text(element.c, element.s, angle), angle)
    if (c, s) != (element.c, element.s):
        note(f"{name}: {element.where}: c {element.c}, s {element.s} is the pair of no angle; make gives c {c}, s {s} for it")


def check(words):
    crest = files.read(words.crest, library.FILE_BYTES_MAX + 1)
    refused = library.check(crest)
    if words.json:
        reason = {"number": refused.number, "place": refused.place, "sentence": refused.sentence} if refused else None
        put(words, as_json({"crest": words.crest, "accepted": not refused, "refused": reason}))
        return int(bool(refused))
    if refused:
        raise Trouble(f"{input_name(words.crest)}: {refused.with_place}")
    setting = shown_setting(words) if words.units else setting_of(words)._replace(units="m", angle=words.angle or "bearing")
    first, *more = joins.summary(elements.of_crest(crest, words.crest), setting)
    put(words, f"{input_name(words.crest)}: accepted: {first}\n" + "".join(f"    {line}\n" for line in more))
    return 0


# ---- import


def import_xml(words):
    name = input_name(words.file)
    origin = setting_of(words).origin if words.origin else None
    got = landxml.imported(words.file, words.alignment, origin, words.split)
    found, said = joins.lined_up(got.elements, name, words.snap, words.snap_angle)
    setting = tables.Settings("m", "bearing", got.origin)
    frame = "origin E {} N {}, in metres, ".format(*elements.origin_texts(setting))
    in_text = words.units in ("m", "mm")
    frame += "goes with every command" if in_text else "is subtracted here, so that make takes none; it goes with other commands"
    facts = [f"alignment {got.name}", frame, *got.sentences, *said]
    for fact in facts:
        note(f"{name}: {fact}")
    hint = "" if words.split else "--split makes several elements of one that is too long or too tight"
    refusals.made(found, setting, name, len(found), hint)
    more = [*joins.jumps(found, setting), *joins.summary(found, setting)]
    heading = f"# {name}: " + "".join(f"{fact}\n# " for fact in facts + more)[:-2]
    form = shown_setting(words)._replace(origin=got.origin if in_text else (0, 0))
    files.save(words.elements, (heading + elements.as_text(found, form)).encode("utf-8", "replace"))
    for fact in more:
        note(f"{name}: {fact}")
    return 0


# ---- points


def readings_make(words):
    found, reader = points.from_csv(words.points, setting_of(words), words.line)
    files.save(words.readings, points.to_readings(found, reader.name))
    say_reader(reader)
    files.say_written(words.readings, files.plural(len(found), "reading"))
    return 0


def readings_show(words):
    setting = points.needs_units(setting_of(words))
    titles = points.reading_titles(setting.units, words.line)
    rows = [points.reading_texts(point, setting, words.line) for point in points.from_readings(words.readings)]
    if words.json:
        put(words, as_json({"units": setting.units, "rows": [points.json_values(titles, row) for row in rows]}))
    else:
        put(words, tables.as_csv(titles, rows))
    return 0


def locate(words):
    crest = points.crest_bytes(words.crest)
    found, reader = points.from_csv(words.points, setting_of(words))
    setting = shown_setting(words, reader)
    offsets = words.offsets or setting.units
    rows = ((points.located_texts(row, setting, offsets), row.answer) for row in points.located(crest, found))
    say_reader(reader)
    text, refused = text_of(words, points.located_titles(setting.units, offsets), rows, about(words, setting))
    put(words, text)
    outside = all_outside(found, refused, reader.name, setting) if len(refused) == len(found) else None
    if outside:
        note(outside)
    return int(bool(refused))


def place(words):
    crest = points.crest_bytes(words.crest)
    found, reader = wanted_places(words, crest, setting_of(words))
    setting = shown_setting(words, reader)
    rows = ((points.placed_texts(row, setting), row.answer) for row in points.placed(crest, found))
    say_reader(reader)
    titles = points.placed_titles(setting.units, setting.angle)
    return put_rows(words, titles, rows, {**about(words, setting), "angle": setting.angle}, crest, setting)


def wanted_places(words, crest, setting):
    """The places of the command's words: of a CSV file, single ones, at steps or at joins."""
    ways = [words.places is not None, bool(words.at), words.every is not None, words.joins]
    if sum(ways) != 1:
        raise Usage("give one of PLACES.csv, --at STATION OFFSET, --every STEP and --joins")
    if words.offset is not None and not (words.joins or words.every is not None):
        raise Usage("--offset goes with --every and --joins")
    if words.places is not None:
        return points.from_csv(words.places, setting, line=True)
    reader = WordReader(points.needs_units(setting))
    offset = reader.number("--offset", words.offset, tables.COORDINATE) if words.offset is not None else 0
    if words.joins:
        return points.places_of_joins(crest, offset), reader
    if words.every is not None:
        step = reader.number("--every", words.every, tables.LENGTH)
        if step <= 0:
            raise Usage("--every: a step is 1 mm or more")
        return points.places_every(crest, step, offset), reader
    return [points.Point(str(count), *reader.goal(at)) for count, at in enumerate(words.at, 1)], reader


class WordReader(tables.Reader):
    """Numbers among the words of a command."""

    def __init__(self, setting):
        super().__init__("-", setting)
        self.name = "the command's words"

    def trouble(self, line, words):
        return Usage(words)

    def number(self, option, word, sort, axis=None):
        unit = self.setting.units if sort == tables.COORDINATE else units.LENGTH_UNIT[self.setting.units]
        return self.scaled(word, option, option, sort, unit, 0 if axis is None else self.setting.origin[axis])

    def point(self, option, words):
        return tuple(self.number(option, word, tables.COORDINATE, axis) for axis, word in enumerate(words))

    def goal(self, words):
        """Station and offset of --at."""
        return self.number("--at", words[0], tables.LENGTH), self.number("--at", words[1], tables.COORDINATE)


def heading_of(words, setting):
    """The pair of --heading: an angle, or C,S."""
    if words.heading is None:
        return None
    reader, parts = WordReader(setting), words.heading.split(",")
    if setting.angle == "pair" or (setting.angle is None and len(parts) == 2):
        if len(parts) != 2:
            raise Usage("--heading: a pair is C,S")
        return tuple(reader.whole(word.strip(), "--heading", None) for word in parts)
    if setting.angle is None:
        raise Usage("--heading needs --angle, which says how directions are written")
    return reader.direction(words.heading, setting.angle, "--heading", None)


def stake(words):
    setting = setting_of(words)
    crest = points.crest_bytes(words.crest) if words.crest else None
    found, reader = wanted_stakes(words, setting, crest, heading_of(words, setting))
    setting = shown_setting(words, reader)
    rows = ((points.staked_texts(row, setting), row.answer) for row in points.staked(found, setting))
    say_reader(reader)
    return put_rows(words, points.staked_titles(setting.units), rows, about(words, setting), crest, setting)


def wanted_stakes(words, setting, crest, heading):
    if words.stakes is not None:
        if words.own or words.target or words.at:
            raise Usage("give STAKES.csv, or --own and --target or --at")
        return points.stakes_from_csv(words.stakes, setting, crest, heading)
    if not words.own or bool(words.target) == bool(words.at):
        raise Usage("give STAKES.csv, or --own X Y and one of --target X Y and --at STATION OFFSET")
    if bool(words.at) != bool(words.crest):
        raise Usage("--at and --crest go together")
    if crest is None and heading is None:
        raise Usage("give --heading, or a crest by --crest and --at")
    reader = WordReader(points.needs_units(setting))
    own = reader.point("--own", words.own)
    goal = reader.goal(words.at) if words.at else reader.point("--target", words.target)
    return [points.stake_of("1", own, goal, heading, crest, "the stake")], reader


# ---- runs


def night(words):
    crest = files.read(words.crest, library.FILE_BYTES_MAX + 1)  # a refused one refuses every reading, and is counted so
    found, reader = points.from_either(words.readings, setting_of(words), words.line)
    setting = shown_setting(words, reader) if reader else points.needs_units(setting_of(words))
    refused = []

    def listed(rows, run):
        outside = all_outside(found, [row.answer for row in rows], reader.name, setting) if reader and not words.line else None
        if outside and words.origin is None:
            raise Usage(f"{outside}: with --origin, be it 0 0, they are counted")
        if outside:
            note(outside)
        left_out = sum(row.number == 0 for row in rows)
        below = [*runs.lines(run), *([f"not counted: {files.plural(left_out, 'reading')}"] if left_out else [])]
        offsets = words.offsets or setting.units
        texts = ((night_texts(row, setting, offsets, words.line), row.answer) for row in rows)
        beside = {**about(words, setting), "run": run_values(run), "not_counted": left_out}
        titles = night_titles(setting.units, offsets, words.line)
        text, refused[:] = text_of(words, titles, texts, beside, 2, "".join(f"{line}\n" for line in below))
        return files.Output(words.output, text.encode("utf-8", "replace"))

    say_reader(reader)
    run = runs.night(crest, found, words.run, words.line, words.new, listed)
    return int(bool(refused or run.first_number))


def night_titles(unit, offsets, line):
    if line:
        return ["reading", "name", f"x_{unit}", f"y_{unit}"]
    return ["reading", *points.located_titles(unit, offsets)[:4]]


def night_texts(row, setting, offsets, line):
    front = [str(row.number) if row.number else "-", row.point.name]
    if isinstance(row.answer, Refusal):
        return front + [""] * (2 if line else 3)
    if line:
        return front + [units.coordinate(number, setting.units, origin) for number, origin in zip(row.answer, setting.origin)]
    return front + points.answer_texts(row.answer, setting.units, offsets)


def run_values(run):
    first = None
    if run.first_number:
        first = {"number": run.first_number, "reading": run.first_reading, "sentence": Refusal(run.first_number, 0).sentence}
    return {"answered": run.answered, "refused": run.refused, "latest_number": run.latest_number, "first_refusal": first}


def show_run(words):
    run, full = runs.look(words.run)
    lines = [*runs.lines(run), *([f"full: {Refusal(library.FULL, 0)}, and no reading is counted"] if full else [])]
    put(words, as_json({**run_values(run), "full": full}) if words.json else "".join(f"{line}\n" for line in lines))
    return int(bool(run.first_number or full))


def acknowledge(words):
    """The refusal is told before it is cleared, so that none is cleared unseen."""

    def tell(before, after):
        if words.json:
            put(words, as_json({"before": run_values(before), "after": run_values(after)}))
        elif before.first_number:
            put(words, f"reading {before.first_reading}, and every refusal after it:\n    {Refusal(before.first_number, 0)}\n")
        else:
            put(words, "there was no refusal to acknowledge\n")

    before = runs.acknowledge(words.run, tell)
    if before.first_number and not words.json:
        try:
            files.save(None, b"acknowledged\n")
        except Trouble as error:
            raise Trouble(f"{words.run}: the refusal was acknowledged; {error}") from None
    return 0


# ---- draw

MOST_MARKS = 100_000


def mark_of(row, named):
    name = row.point.name if named else ""
    return drawing.Mark(name, row.point.first, row.point.second, row.answer, row.foot[:2] if row.foot else None)


def draw(words):
    setting = setting_of(words)
    crest = points.crest_bytes(words.crest)
    marks, reader = None, None
    if words.readings is not None:
        found, reader = points.from_either(words.readings, setting)
        if len(found) > MOST_MARKS:
            raise Trouble(f"{input_name(words.readings)}: has {len(found)} points, and {MOST_MARKS} can be drawn")
        marks = [mark_of(row, points.is_csv(words.readings)) for row in points.located(crest, found)]
    outside = all_outside(found, [mark.answer for mark in marks], reader.name, shown_setting(words, reader)) if reader else None
    if outside and words.origin is None:
        raise Usage(f"{outside}: with --origin, be it 0 0, they are drawn")
    say_reader(reader)
    put(words, drawing.drawing(words.title or input_name(words.crest), crest, marks, words.paper, setting.origin))
    return 0


# ---- one command

DONE_BY = {
    "make": make,
    "show": show,
    "check": check,
    "import": import_xml,
    "readings make": readings_make,
    "readings show": readings_show,
    "locate": locate,
    "place": place,
    "stake": stake,
    "night": night,
    "run": show_run,
    "acknowledge": acknowledge,
    "draw": draw,
}
OUTPUT = {"make": "crest", "import": "elements", "readings make": "readings"}  # the word that is written to; else that of -o
PATHS = ("elements", "crest", "file", "points", "places", "stakes", "readings", "run")


def forbid_same(name, words):
    output = OUTPUT.get(name, "output")
    inputs = [path for path in (getattr(words, path, None) for path in PATHS if path != output) if path is not None]
    if inputs.count("-") > 1:
        raise Usage("standard input can be read once")
    if name == "night":
        files.forbid_same(words.run, [words.crest, words.readings])
    if getattr(words, output) is not None:
        files.forbid_same(getattr(words, output), inputs)


def help_of(topic, top, found):
    name = " ".join(topic)
    if name and name not in found:
        raise Usage(f"'{name}' is no command")
    files.save(None, (found[name] if name else top).format_help().encode("utf-8"))
    return 0


def done(words, top, found):
    """The exit status of a command that is done."""
    if words.version:
        files.save(None, f"crest {library.version()}\n".encode("ascii"))
        return 0
    if words.command is None:
        sys.stderr.write(top.format_help())
        return 2
    if words.command == "help":
        return help_of(words.topic, top, found)
    name = " ".join(filter(None, (words.command, getattr(words, "way", None))))
    forbid_same(name, words)
    return DONE_BY[name](words)


def run(arguments):
    """One command: its exit status."""
    top, found = parsers()
    try:
        words = top.parse_args(arguments)
    except (UnicodeDecodeError, RecursionError):
        files.say("crest: a file of words, @FILE, is no text or names itself\n")
        return 2
    try:
        return done(words, top, found)
    except Trouble as error:
        files.say("".join(f"{line}\n" if line.startswith("    ") else f"crest: {line}\n" for line in str(error).split("\n")))
        return 1
    except Usage as error:
        name = " ".join(filter(None, (words.command, getattr(words, "way", None))))
        more = "crest help lists the commands" if name == "help" else f"crest help {name} says how it is used"
        files.say(f"crest: {error}\n{more}\n")
        return 2
    except KeyboardInterrupt:
        return 130
