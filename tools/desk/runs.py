"""A run that is kept in a file: readings counted on it and the acknowledgement, by the library's calls. The file is written whole after the
last reading, or left as it was; it is locked meanwhile, so that no count and no refusal is lost between two commands."""

import contextlib
import fcntl
import os
from typing import NamedTuple

from . import library
from .files import Output, Trouble, trouble
from .library import RUN, RUN_BYTES, Refusal


class Run(NamedTuple):
    answered: int
    refused: int
    latest_number: int
    first_number: int
    first_reading: int
    values: tuple


def spelled(run):
    answered, refused, latest, first, reading, _, *values = RUN.unpack(run)
    return Run(answered, refused, latest, first, reading, tuple(values))


@contextlib.contextmanager
def locked(path, hint=""):
    """The bytes of a run file; others wait until it is written. A new file may have taken the name while this one waited."""
    while True:
        try:
            if os.path.exists(path) and not (os.path.isfile(path) or os.path.isdir(path)):
                raise Trouble(f"{path}: is no file")
            file = open(path, "rb")
        except OSError as error:
            raise Trouble(f"{path}: {error.strerror}{hint if isinstance(error, FileNotFoundError) else ''}") from None
        with file:
            try:
                fcntl.flock(file, fcntl.LOCK_EX)
                if not os.path.samestat(os.fstat(file.fileno()), os.stat(path)):
                    continue
                run = bytearray(file.read(RUN_BYTES + 1))
            except OSError as error:
                raise trouble(path, error) from None
            if len(run) != RUN_BYTES:
                raise Trouble(f"{path}: is no run of {RUN_BYTES} bytes")
            yield run, file
            return


def there_already(path):
    return Trouble(f"{path}: is there already; without --new its run goes on")


class Counted(NamedTuple):
    point: object
    answer: tuple  # the run's three values, or the refusal
    number: int  # of the reading in its run; 0 where it was not counted


def counted(crest, points, run, line):
    """Each point taken as a reading on the run, which is changed."""
    call = library.line_reading if line else library.plane_reading
    for point in points:
        refused = call(crest, float(point.first), float(point.second), run)
        after = spelled(run)
        number = 0 if refused and refused.number in (library.FULL, library.SIZE_REFUSED) else after.answered + after.refused
        yield Counted(point, refused or after.values, number)


def night(crest, points, path, line, new, listed):
    """The readings of a night on the run of a file, or on a new one: the run afterwards. `listed` gets what each reading came to and the
    run, and gives the listing, an Output, which is ready when the run is written and is finished after it: a refusal is on the run before
    anyone reads of it."""
    if new:
        if os.path.lexists(path):
            raise there_already(path)
        run = bytearray(RUN_BYTES)
        listing = listed(list(counted(crest, points, run, line)), spelled(run))
        write_run(path, run, new=True, after=listing)
    else:
        with locked(path, "; --new begins a run") as (run, file):
            listing = listed(list(counted(crest, points, run, line)), spelled(run))
            write_run(path, run, file=file, after=listing)
    try:
        listing.finish()
    except Trouble as error:
        raise Trouble(f"{error}; the night was counted, and its listing is not whole") from None
    return spelled(run)


def write_run(path, run, new=False, file=None, after=None):
    """The run's bytes into its file, which has to be the one that was read; where that fails, an Output that was to follow is given up."""
    output = None
    try:
        output = Output(path, bytes(run), only_new=new)
        if file is not None and not (os.path.exists(path) and os.path.samestat(os.fstat(file.fileno()), os.stat(path))):
            raise Trouble(f"{path}: is another file than before; it was left as it is")
        output.finish()
    except BaseException:
        for given_up in filter(None, (output, after)):
            given_up.discard()
        raise


def acknowledge(path, tell):
    """The first refusal cleared, and the run before that; `tell` gets it before and after, and is done before the run is written."""
    with locked(path) as (run, file):
        before = spelled(run)
        refused = library.acknowledge(run)
        if refused:
            raise Trouble(f"{path}: {refused}")
        tell(before, spelled(run))
        write_run(path, run, file=file)
    return before


def look(path):
    """What a run says, and whether it is full, which is asked by a reading on a copy."""
    with locked(path) as (run, _):
        refused = library.plane_reading(b"", 0.0, 0.0, bytearray(run))
        return spelled(run), refused.number == library.FULL


def lines(run):
    """What a run says, for people."""
    yield f"answered {run.answered}, refused {run.refused}"
    if run.first_number:
        yield f"first refusal since the last acknowledgement: reading {run.first_reading}"
        yield f"    {Refusal(run.first_number, 0)}"
    else:
        yield "no refusal since the last acknowledgement"
