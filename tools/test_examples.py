#!/usr/bin/env python3
"""Runs the examples of documents and manual pages: blocks that are indented by 4 blanks, or of a page lie between .nf and .fi, and have
lines "$ COMMAND", where a line "> .." goes on with the command. The lines after a command are what it prints, on standard output and
standard error together; a line "..." stands for any lines. All commands of a document run one after the other in a fresh folder, in which
`examples` and `landxml` are the repository's; `crest` is tools/crest, `crestline` is target/bin/crestline. A block after a line "<!-- not
run -->" is not run. The last line says how many commands there were and how many differ; fails on any, and where there are none.

usage: test_examples.py FILE.md|PAGE.1 ..
"""

import os
import pathlib
import re
import subprocess
import sys
import tempfile
from typing import NamedTuple

ROOT = pathlib.Path(__file__).resolve().parent.parent
NOT_RUN = "<!-- not run -->"
LONGEST = 60  # seconds of a command


class Example(NamedTuple):
    line: int  # of its document
    command: str
    wanted: list
    run: bool


def page_as_text(page):
    """A manual page with its examples indented by 4 blanks; a line stays in its place."""
    inside = False
    for line in page.splitlines():
        inside = line == ".nf" or inside and line != ".fi"
        if inside and not line.startswith("."):
            for escaped, letter in (("\\-", "-"), ("\\(aq", "'"), ("\\&", ""), ("\\e", "\\")):
                line = line.replace(escaped, letter)
            yield "    " + line
        else:
            yield "."


def text_of(document):
    text = pathlib.Path(document).read_text(encoding="utf-8")
    return "\n".join(page_as_text(text)) if document.endswith(".1") else text


def blocks(text):
    """The indented blocks: their lines with their numbers, blank ones too, and whether they are run."""
    found, run = [], True
    for number, line in enumerate(text.splitlines(), 1):
        if line.startswith("    ") or not line.strip():
            found.append((number, line[4:].rstrip()))
        else:
            yield found, run
            found, run = [], line.strip() != NOT_RUN
    yield found, run


def examples(text):
    """The examples of a document, in their order."""
    for lines, run in blocks(text):
        example = None
        for number, line in lines:
            if line.startswith("$ "):
                if example:
                    yield trimmed(example)
                example = Example(number, line[2:], [], run)
            elif example and line.startswith("> ") and not example.wanted:
                example = example._replace(command=example.command + "\n" + line[2:])
            elif example:
                example.wanted.append(line)
        if example:
            yield trimmed(example)


def trimmed(example):
    """Without the blank lines between it and what follows."""
    wanted = list(example.wanted)
    while wanted and not wanted[-1]:
        wanted.pop()
    return example._replace(wanted=wanted)


def agrees(found, wanted):
    """Whether lines are those wanted, where "..." stands for any."""
    if not wanted:
        return not found
    if wanted[0] == "...":
        return any(agrees(found[skipped:], wanted[1:]) for skipped in range(len(found) + 1))
    return bool(found) and found[0] == wanted[0] and agrees(found[1:], wanted[1:])


def programs(folder):
    """A folder for PATH, with the programs by their names."""
    made = pathlib.Path(folder)
    for name, path in (("crest", ROOT / "tools" / "crest"), ("crestline", ROOT / "target" / "bin" / "crestline")):
        if not path.exists():
            sys.exit(f"examples: {path} is not there")
        (made / name).symlink_to(path)
    return made


def printed(command, folder, path):
    """What a command prints, as lines without blanks at their ends."""
    environment = {**os.environ, "PATH": f"{path}:{os.environ['PATH']}", "PYTHONDONTWRITEBYTECODE": "1", "LC_ALL": "C.UTF-8"}
    try:
        done = subprocess.run(["bash", "-c", command], cwd=folder, env=environment, stdin=subprocess.DEVNULL, stdout=subprocess.PIPE,
                              stderr=subprocess.STDOUT, timeout=LONGEST)
    except subprocess.TimeoutExpired:
        return [f"does not end within {LONGEST} s"]
    lines = [line.rstrip() for line in done.stdout.decode("utf-8", "replace").splitlines()]
    while lines and not lines[-1]:
        lines.pop()
    return lines


def run(document, path):
    """How many commands a document has, how many differ, and how many were not run."""
    counts = [0, 0, 0]
    with tempfile.TemporaryDirectory() as folder:
        for linked in (ROOT / "examples", ROOT / "tools" / "landxml"):
            (pathlib.Path(folder) / linked.name).symlink_to(linked)
        for example in examples(text_of(document)):
            if not example.run:
                counts[2] += 1
                continue
            counts[0] += 1
            found = printed(example.command, folder, path)
            if not agrees(found, example.wanted):
                counts[1] += 1
                print(f"examples: {document}: line {example.line}: $ {example.command}", "  printed", *found, "  instead of", *example.wanted,
                      sep="\n")
    return counts


def main(documents):
    total = [0, 0, 0]
    with tempfile.TemporaryDirectory() as folder:
        path = programs(folder)
        for document in documents:
            total = [one + two for one, two in zip(total, run(document, path))]
    if total[2]:
        print(f"examples: {total[2]} commands not run")
    print(f"examples: {total[0]} commands, {total[1]} differ")
    return int(total[1] > 0 or total[0] == 0)


if __name__ == "__main__":
    if len(sys.argv) < 2:
        sys.exit(__doc__)
    sys.exit(main(sys.argv[1:]))
