"""Crest files made by hand: plain lines, files without any check, and files with some bytes changed."""

import crest
from crest import GRAINS, LINE, ONE, Element


def line(x=0, y=0, length=10, c=ONE, s=0):
    return Element(LINE, length, x, y, c, s, 0)


def lines(count):
    """Lines of 10 mm one after the other along x."""
    return [line(x=10 * GRAINS * i) for i in range(count)]


def records_of(elements):
    return b"".join(map(crest.record_of, elements))


def raw_file(elements):
    """The file of these records without any check."""
    return crest.file_made(records_of(elements))


def sealed(file):
    """The file with A and B made good in every block."""
    return b"".join(map(crest.with_sums, crest.blocks_of(file)))


def patched(file, at, data):
    return file[:at] + bytes(data) + file[at + len(data) :]


def altered(file, at, data):
    """A change with the checks made good again."""
    return sealed(patched(file, at, data))


def file_refusal(file):
    """(number, place) for a file, (0, 0) when accepted."""
    found = crest.check(file)
    return tuple(found) if isinstance(found, crest.Refusal) else (0, 0)


def refusal(elements):
    """(number, place) for a file of these elements, (0, 0) when accepted."""
    return file_refusal(raw_file(elements))
