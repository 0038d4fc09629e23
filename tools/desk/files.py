"""Files read whole and written whole: what is written is there complete, or not at all."""

import os
import stat
import sys
import tempfile


class Trouble(Exception):
    """Why a command can't be done, in words for its user: exit status 1."""


class Usage(Exception):
    """What is wrong with the words of a command: exit status 2."""


def input_name(path):
    """The name that an input has in messages; - is standard input."""
    return "standard input" if path == "-" else path


def output_name(path):
    return "standard output" if path == "-" else path


def say_written(path, words, *more):
    """What was written, on standard output where that is not the file itself."""
    text = f"{output_name(path)}: {words}\n" + "".join(f"    {line}\n" for line in more)
    if path == "-":
        say(text)
        return
    try:
        save(None, text.encode("utf-8", "replace"))
    except Trouble as error:
        raise Trouble(f"{path}: was written; {error}") from None


def say(text):
    """On standard error, if that can be had."""
    try:
        if sys.stderr is not None:
            sys.stderr.write(text)
            sys.stderr.flush()
    except OSError:
        pass


def plural(number, what):
    """1 reading, 2 readings."""
    return f"{number} {what}{'' if number == 1 else 's'}"


def trouble(path, error):
    return Trouble(f"{path}: {error.strerror or error}")


def open_input(path):
    """An input to read bytes from; - is standard input."""
    try:
        if path == "-" and sys.stdin is None:
            raise Trouble("standard input: is closed")
        if path == "-":
            return sys.stdin.buffer
        file = open(path, "rb")
        if stat.S_ISDIR(os.fstat(file.fileno()).st_mode):  # as `open` says it of a folder
            raise IsADirectoryError(21, "Is a directory")
        return file
    except OSError as error:
        raise trouble(input_name(path), error) from None


def read(path, most=-1):
    """The bytes of a file, or its first `most`."""
    try:
        with open_input(path) as file:
            return file.read(most)
    except OSError as error:
        raise trouble(input_name(path), error) from None


def forbid_same(output, inputs):
    """An output that is one of the inputs would be written over it."""
    for path in inputs:
        if "-" not in (path, output) and is_same(path, output):
            raise Trouble(f"{output}: is read by the same command; nothing was written")


def is_same(first, second):
    there = os.path.exists(first) and os.path.exists(second)
    return os.path.samefile(first, second) if there else os.path.realpath(first) == os.path.realpath(second)


def save(path, data):
    """Writes a file; where that fails, a file that was there stays as it was. None and - are standard output."""
    Output(path, data).finish()


class Output:
    """A file that is ready to be written, as a new one in the same folder: what can fail has failed by then, as far as can be. A device and
    standard output are written to when it is finished. With `only_new`, a file that is there is an error."""

    def __init__(self, path, data, only_new=False):
        self.path, self.data, self.only_new, self.new, self.device = path, data, only_new, None, None
        if path in (None, "-") and sys.stdout is None:
            raise Trouble("standard output: is closed")
        if path in (None, "-"):
            self.device = sys.stdout.buffer
            return
        self.real = os.path.realpath(path)
        try:
            mode = os.stat(path).st_mode if os.path.exists(path) else None
            if mode is None or stat.S_ISREG(mode):
                self.new = written_beside(self.real, data, mode)
            else:
                self.device = open(path, "wb")
        except OSError as error:
            raise trouble(path, error) from None

    def finish(self):
        try:
            if self.device:
                write_all(self.device, self.data)
            elif self.only_new:
                take_new_name(self.new, self.real, self.data)
                self.discard()
            else:
                os.replace(self.new, self.real)
            if self.new:
                flush_folder(os.path.dirname(self.real))
        except OSError as error:
            self.discard()
            if self.path in (None, "-"):
                os.dup2(os.open(os.devnull, os.O_WRONLY), 1)  # what is left in buffers goes nowhere, and fails no more
                raise Trouble(f"standard output: {error.strerror}") from None
            raise trouble(self.path, error) from None

    def discard(self):
        if self.new and os.path.exists(self.new):
            os.unlink(self.new)


def write_all(device, data):
    """All bytes, also to a device without a buffer, which may take a part at a time."""
    left = memoryview(data)
    while left:
        left = left[device.write(left) :]
    device.flush()


def take_new_name(new, path, data):
    """A name that must not be there; where the file system has no links, the file is made anew."""
    try:
        os.link(new, path)
    except FileExistsError:
        raise
    except OSError:
        with open(path, "xb") as file:
            try:
                file.write(data)
                file.flush()
                os.fsync(file.fileno())
            except BaseException:
                os.unlink(path)
                raise


def written_beside(path, data, mode):
    """A new file in the same folder."""
    handle, new = tempfile.mkstemp(dir=os.path.dirname(path), prefix=".crest-")
    try:
        with open(handle, "wb") as file:
            file.write(data)
            os.fchmod(file.fileno(), 0o666 & ~umask() if mode is None else stat.S_IMODE(mode))
            file.flush()
            os.fsync(file.fileno())
    except BaseException:
        os.unlink(new)
        raise
    return new


def flush_folder(path):
    """The new name onto the disk, where the system does that for folders; the file is written in any case."""
    try:
        folder = os.open(path, os.O_RDONLY)
        try:
            os.fsync(folder)
        finally:
            os.close(folder)
    except OSError:
        pass


def umask():
    mask = os.umask(0)
    os.umask(mask)
    return mask


def note(words):
    """A remark to the user, on standard error."""
    say(f"crest: {words}\n")
