#!/usr/bin/env python3
"""Whether a drawing is well-formed and has what it should: an element and a join for each of the crest's, and a mark for each
reading, in its order, that tells what the reference says of it, after its name or number. One for paper also has to have the paper's
shape, and its texts on the paper and large enough.

usage: test_drawing.py DRAWING CREST [READINGS [NAMES]]

NAMES  a text with the name of a reading in each line; a blank one has none
"""

import pathlib
import re
import sys
import xml.etree.ElementTree

sys.path.insert(0, str(pathlib.Path(__file__).resolve().parent.parent / "reference"))
import crest  # noqa: E402

SVG = "{http://www.w3.org/2000/svg}"
MARGIN, LEAST_TEXT = 10, 2.2  # mm of paper
NARROWEST = 0.4  # of a letter, in parts of its height


def told(mark, name, number):
    """A mark's title as the program's line of the same reading."""
    words = mark.find(f"{SVG}title").text
    assert words.startswith(f"{name}: "), (words, name)
    words = words[len(name) + 2 :]
    refused = re.fullmatch(r"refused (\d+): .+", words)
    if refused:
        assert mark.get("class") == "reading refused", words
        return f"{number} refused {refused.group(1)}"
    answered = re.fullmatch(r"station (\S+) m, offset (\S+) mm, residual (\S+) mm", words)
    assert answered and mark.get("class") == "reading answered", words
    return " ".join([str(number), *(str(int(value.replace(".", ""))) for value in answered.groups())])


def in_xml(name):
    """A name without what XML can't hold, on one line."""
    kept = (letter for letter in name if letter in "\t\r" or (letter >= " " and letter not in "\ufffe\uffff"))
    return re.sub("[\t\r]", " ", "".join(kept))


def names_of(path, count):
    """The names of a file, and numbers for those that have none."""
    lines = pathlib.Path(path).read_bytes().decode("utf-8").split("\n") if path else []
    lines += [""] * (count - len(lines))
    return [in_xml(line) if in_xml(line).strip() else str(at) for at, line in enumerate(lines[:count], 1)]


def texts(part, x=0.0, y=0.0):
    """All texts of a part, with what their groups move them by."""
    moved = re.fullmatch(r"translate\((\S+),(\S+)\)", part.get("transform") or "")
    if moved:
        x, y = x + float(moved.group(1)), y + float(moved.group(2))
    if part.tag == f"{SVG}text":
        yield part, x + float(part.get("x")), y + float(part.get("y"))
    for inner in part:
        yield from texts(inner, x, y)


def check_paper(root):
    sides = [re.fullmatch(r"([0-9.]+)mm", root.get(side)) for side in ("width", "height")]
    assert all(sides), "width and height in mm"
    millimetres = [float(side.group(1)) for side in sides]
    left, top, *units = map(float, root.get("viewBox").split())
    assert (left, top) == (0, 0), "viewBox"
    per_mm = units[0] / millimetres[0]
    assert abs(units[1] - per_mm * millimetres[1]) < 0.001, "the viewBox has another shape than the paper"
    margin = MARGIN * per_mm - 0.1
    for part, x, y in texts(root):
        size = float(part.get("font-size") or root.get("font-size"))
        assert size / per_mm >= LEAST_TEXT, (part.text, size)
        width = NARROWEST * size * len(part.text or "")
        start = x - width * {None: 0, "middle": 0.5, "end": 1}[part.get("text-anchor")]
        assert margin <= start and start + width <= units[0] - margin, ("off the paper", part.text, x)
        assert margin <= y - 0.7 * size and y <= units[1] - margin, ("off the paper", part.text, y)


def main(drawing, file, readings=None, names=None):
    root = xml.etree.ElementTree.parse(drawing).getroot()
    assert root.tag == f"{SVG}svg" and root.get("viewBox"), root.tag
    file = pathlib.Path(file).read_bytes()
    data = pathlib.Path(readings).read_bytes() if readings else b""
    by_class = {}
    for part in root.iter():
        by_class.setdefault((part.get("class") or "").split(" ")[0], []).append(part)
    count = len(crest.check(file).elements)
    assert len(by_class["element"]) == count, "elements"
    assert len(by_class.get("join", [])) == count - 1, "joins"
    assert len(by_class["end"]) == 2, "ends"
    wanted = crest.program_text(file, data).splitlines()[1:-1]
    marks = by_class.get("reading", [])
    assert len(marks) == len(wanted), "readings"
    found = [told(mark, name, number) for number, (mark, name) in enumerate(zip(marks, names_of(names, len(marks))), 1)]
    assert found == wanted, "readings"
    numbers = re.compile(r"nan|inf", re.IGNORECASE)
    for part in root.iter():
        for name, value in part.items():
            assert not numbers.search(value), (part.tag, name, value)
    if root.get("width") or root.get("height"):
        check_paper(root)


if __name__ == "__main__":
    if len(sys.argv) not in (3, 4, 5):
        sys.exit(__doc__)
    main(*sys.argv[1:])
