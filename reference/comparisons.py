#!/usr/bin/env python3
"""Writes the vectors that the program comparisons compares with, those of the five modules in the layout of rows.py, and what it
has to print: the files stdin and stdout of a folder.

usage: comparisons.py FOLDER
The same files each time.
"""

import sys
from pathlib import Path

import crest_corpus
import element_vectors
import reading_vectors
import sighting_vectors
import walk_vectors
from rows import Rows


def main(arguments):
    if len(arguments) != 1:
        sys.exit("usage: comparisons.py FOLDER")
    rows = Rows()
    for vectors in (element_vectors, crest_corpus, walk_vectors, reading_vectors, sighting_vectors):
        vectors.add_rows(rows)
    folder = Path(arguments[0])
    (folder / "stdin").write_bytes(rows.written())
    (folder / "stdout").write_text(rows.told())


if __name__ == "__main__":
    main(sys.argv[1:])
