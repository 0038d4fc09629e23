"""Counts the cases of a test, and prints those that failed."""


class Cases:
    """The cases of a test by its name."""

    def __init__(self, name):
        self.name, self.count, self.failed = name, 0, 0

    def case(self, what, good, *seen):
        self.count += 1
        if not good:
            self.failed += 1
            print(f"{self.name}: failed: {what}", *(f": {one}" for one in seen), flush=True)
        return good

    def same(self, what, found, wanted):
        return self.case(what, found == wanted, f"\n{shortened(found, wanted)}\n  instead of\n{shortened(wanted, found)}")

    def end(self):
        """The last line, and the exit status: a test without cases has failed."""
        print(f"{self.name}: {self.count} cases, {self.failed} failed")
        return int(self.failed > 0 or self.count == 0)


def shortened(value, other, most=700):
    """A value's text, or the part of it from a little before the first difference on."""
    text, other = repr(value), repr(other)
    first = next((at for at, (one, two) in enumerate(zip(text, other)) if one != two), 0)
    return text if len(text) <= most else ".." + text[max(0, first - 100) : first + most] + ".."
