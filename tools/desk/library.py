"""The proved calls of include/crest.h and include/probes.h, over the shared library that tools/build makes of the static ones.

A crest, records and answers are bytes here, a run is a bytearray of the caller's. A refused call gives a Refusal."""

import ctypes
import os
import pathlib
import struct
from typing import NamedTuple

from .files import Trouble

BLOCK_BYTES, RECORD_BYTES, FILE_BYTES_MAX, RUN_BYTES, MOVE_BYTES = 512, 32, 2048, 24, 8  # the sizes of include/crest.h
POSITION_BYTES = 16
RECORD = struct.Struct("<B3xI5i4x")  # kind, length, x, y, c, s, radius
RUN = struct.Struct("<6H3i")  # answered, refused, latest number, first number, first reading, zero, three values
WIDTHS = {"kind": (0, 2**8 - 1), "length": (0, 2**32 - 1), **{name: (-(2**31), 2**31 - 1) for name in ("x", "y", "c", "s", "radius")}}
PER_BLOCK, PER_RECORD, PER_JOIN = {2, 3}, {4, 5, 6, 7}, {8, 9}  # what the place of a crest's refusal counts
OUT_OF_RANGE, NO_UNIT, OUTSIDE, NOT_THERE, FULL, SIZE_REFUSED = 6, 7, 11, 15, 16, 18  # the refusals that the tool acts on


class Refusal(NamedTuple):
    number: int
    place: int

    @property
    def sentence(self):
        return load().calls_sentence(self.number).decode("ascii")

    def __str__(self):
        return f"refused {self.number}: {self.sentence}"

    @property
    def with_place(self):
        """For a crest file: "block for 2, 3; record .. for 4 to 7; earlier record for 8, 9"."""
        if self.number in PER_BLOCK:
            return f"block {self.place}: {self}"
        if self.number in PER_RECORD:
            return f"record {self.place}: {self}"
        return f"records {self.place} and {self.place + 1}: {self}" if self.number in PER_JOIN else str(self)


def paths():
    """Where the shared library may lie: as CREST_SHARED says, beside this package where it is installed, or where tools/build puts it."""
    package = pathlib.Path(__file__).resolve().parent
    said = os.environ.get("CREST_SHARED")
    return [pathlib.Path(said)] if said else [package.parent / "calls.so", package.parent.parent / "target" / "tools" / "calls.so"]


def load():
    """The shared library, loaded once."""
    if load.calls is None:
        path = next((path for path in paths() if path.exists()), None)
        if path is None:
            raise Trouble(f"{paths()[0]}: is not there; in the repository, tools/build makes {paths()[-1].name}")
        try:
            load.calls = declared(ctypes.CDLL(str(path)))
        except (OSError, AttributeError) as error:
            raise Trouble(f"{path}: can't be used: {error}") from None
    return load.calls


load.calls = None


def declared(calls):
    lent, size, number, whole, real = ctypes.c_char_p, ctypes.c_size_t, ctypes.c_uint32, ctypes.c_int32, ctypes.c_double
    room = ctypes.c_void_p
    for name, words in {
        "crest_check": [lent, size],
        "crest_write": [lent, size, room, size],
        "crest_plane_reading": [lent, size, real, real, room, size],
        "crest_line_reading": [lent, size, real, real, room, size],
        "crest_sighting_reading": [lent, size] + [whole] * 7 + [room, size],
        "crest_acknowledge": [room, size],
        "crest_stake_out": [whole] * 6 + [room, size],
        "crest_sighting_stake_out": [whole] * 9 + [room, size],
        "probe_position": [lent, size, number, room, size],
        "probe_record": [lent, size, number, room, size],
        "calls_sentence": [number],
        "calls_version": [],
    }.items():
        call = getattr(calls, name)
        call.argtypes = words
        call.restype = ctypes.c_char_p if name.startswith("calls_") else number
    return calls


def refusal(returned):
    """What a call returned: None where it answers. "number + 256 * place"."""
    return Refusal(returned % 256, returned // 256) if returned else None


def version():
    return load().calls_version().decode("ascii")


def asked(call, size, *words):
    """A call that writes `size` bytes: those bytes, or the refusal."""
    room = ctypes.create_string_buffer(size)
    return refusal(call(*words, room, size)) or room.raw


def fits(value, name):
    """Whether a number fits the field of a record; ctypes would cut it."""
    least, most = WIDTHS[name]
    return least <= value <= most


def check(crest):
    return refusal(load().crest_check(crest, len(crest)))


def write(records):
    """The crest file of some records: the least room, in blocks, that the writer does not find too small."""
    for size in range(BLOCK_BYTES, FILE_BYTES_MAX + 1, BLOCK_BYTES):
        answer = asked(load().crest_write, size, records, len(records))
        if not (isinstance(answer, Refusal) and answer.number == SIZE_REFUSED):
            break
    return answer


def record(crest, i):
    """Kind, length, x, y, c, s and radius of record i."""
    answer = asked(load().probe_record, RECORD_BYTES, crest, len(crest), i)
    return answer if isinstance(answer, Refusal) else RECORD.unpack(answer)


def records(crest):
    """All records of a crest, or its refusal."""
    refused = check(crest)
    if refused:
        return refused
    found = []
    while True:
        answer = record(crest, len(found))
        if isinstance(answer, Refusal):
            return found if answer.number == NOT_THERE else answer
        found.append(answer)


def position(crest, station):
    """X, Y, Tx, Ty at a station, which has to fit 32 bits."""
    assert 0 <= station < 2**32, station
    answer = asked(load().probe_position, POSITION_BYTES, crest, len(crest), station)
    return answer if isinstance(answer, Refusal) else struct.unpack("<4i", answer)


def run_room(run):
    return (ctypes.c_char * len(run)).from_buffer(run)


def plane_reading(crest, x, y, run):
    """None where it is answered; the run is changed where it lies."""
    return refusal(load().crest_plane_reading(crest, len(crest), x, y, run_room(run), len(run)))


def line_reading(crest, station, offset, run):
    return refusal(load().crest_line_reading(crest, len(crest), station, offset, run_room(run), len(run)))


def acknowledge(run):
    return refusal(load().crest_acknowledge(run_room(run), len(run)))


def located(crest, x, y):
    """Station, offset and residual of a point by itself, on a fresh run."""
    run = bytearray(RUN_BYTES)
    return plane_reading(crest, x, y, run) or RUN.unpack(run)[6:]


def placed(crest, station, offset):
    """X and Y of a station and an offset by themselves, on a fresh run."""
    run = bytearray(RUN_BYTES)
    return line_reading(crest, station, offset, run) or RUN.unpack(run)[6:8]


def stake_out(own, target, heading):
    """Forward and left; all six numbers have to fit 32 bits."""
    assert all(-(2**31) <= number < 2**31 for number in (*own, *target, *heading))
    answer = asked(load().crest_stake_out, MOVE_BYTES, *own, *target, *heading)
    return answer if isinstance(answer, Refusal) else struct.unpack("<2i", answer)
