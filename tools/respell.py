#!/usr/bin/env python3
"""Spells the repository's own definitions and lemmas as the toolchain's guide says: words in snake case.

usage: python3 tools/respell.py [--check]        at the top of the repository, after the toolchain's own port.py, once

A name that a file of specs/ or proofs/ declares, and that has a capital after a small letter or a dash between two words, gets underscores:
floorDiv is floor_div, near-even-fits is near_even_fits. Types, facts, modules, constants, functions of src/, exported names and strings stay.
Where a lemma would then have the name of a definition, it gets _lem. It turns .antt and .rt files and must-fail edits below crates/, and, of the
documents, scripts and tests outside, those words that are names of definitions with a capital inside. --check writes nothing, and says what would meet.
"""

import os
import re
import subprocess
import sys

NAME = re.compile(r"""[^\s(){}.;,@"«»\[\]`]+""")
DECLARED = re.compile(r"(?m)^ *(?:\w+ )*?([^\s({]+)(?: \{[^{}\n]*\})* :(?= )")
SEVERAL = re.compile(r"(?m)^ +((?:[^\s(){}:=|λ→]+ )+):(?= )")
CAPITAL = re.compile(r"(?<=[a-z0-9])[A-Z]|(?<=[A-Z])[A-Z](?=[a-z])")
DASH = re.compile(r"(?<=[\w'])-(?=[\w'])")
# names of the toolchain that have such a spelling
KEPT = {"WpFn-mono"}
# documents, scripts and tests outside crates/ that speak of definitions
OUTSIDE = (
    "CONTRIBUTING.md",
    "README.md",
    "docs/DECISIONS.md",
    "docs/PROMISES.md",
    "docs/RULES.md",
    "docs/FORMAT.md",
    "docs/changes/01.md",
    "reference/definition_cases.py",
    "reference/README.md",
    "tests/definition_edits",
    "tests/docs",
    "tests/docs_trial",
    "tests/edit_control",
    "tests/limits",
    "tests/README.md",
)
# names of the scripts themselves
OF_PYTHON = re.compile(r"assert[A-Z]\w*|setUp|subTest|libFuzzer|viewBox")


def plain(name):
    # the name of a type or of a fact keeps its capitals, alone and as a part of another name
    parts = DASH.split(name)
    return "_".join(it if it[:1].isupper() else CAPITAL.sub(lambda m: "_" + m[0].lower(), it) for it in parts)


def is_camel(name):
    return name[:1].islower() and bool(CAPITAL.search(name))


def read(path):
    with open(path, encoding="utf-8", newline="") as f:
        return f.read()


def tracked(*where):
    said = subprocess.run(["git", "ls-files", "-z", *where], check=True, capture_output=True, text=True).stdout
    return [it for it in said.split("\0") if it]


def bare(text, mark):
    """The text with its comments made blanks."""
    return re.sub(rf"(?<!\S){mark}.*", lambda m: " " * len(m[0]), text)


def main():
    check = "--check" in sys.argv[1:]
    sources = {p: read(p) for p in tracked("crates") if p.endswith((".antt", ".rt"))}
    edits = {p: read(p) for p in tracked("crates") if p.endswith(".edit")}
    declared = set()
    camel = set()
    for p, t in sources.items():
        if p.endswith(".antt"):
            declared.update(it for it in DECLARED.findall(t))
            for line in SEVERAL.findall(t):
                declared.update(line.split())
        words = NAME.findall(bare(t, "--" if p.endswith(".antt") else "//"))
        if p.endswith(".antt"):
            camel.update(it for it in words if is_camel(it) and "Need-" not in it)
        else:
            # what a clause's import is called
            camel.update(re.findall(r"\bas ([a-z]\w*[A-Z]\w*)", t))
    declared -= KEPT
    turned = {}
    for it in sorted(declared | camel):
        new = plain(it)
        if new != it:
            turned[it] = new
    functions = {it for p, t in sources.items() if p.endswith(".rt") for it in re.findall(r"\bfn (\w+)", t)}
    # where a definition and a lemma would meet, the definition, which has the capital, gets the name
    by_new = {}
    for old in declared | camel:
        by_new.setdefault(turned.get(old, old), set()).add(old)
    for new, olds in by_new.items():
        if len(olds) > 1:
            keeps = [it for it in sorted(olds) if is_camel(it)] or [new]
            for it in olds:
                if it not in keeps[:1]:
                    turned[it] = new + "_lem"
                    print(f"{it} is {new}_lem, beside {keeps[:1]}")

    def turn(path, text, mark):
        own = path.endswith("Proof.antt")
        out, at = [], 0
        clean = bare(text, mark) if mark else text
        for m in NAME.finditer(text):
            w = m[0]
            new = turned.get(w)
            if new is None and w[:1] in "(" :
                continue
            if new is None:
                continue
            if new.endswith("_lem") and w in functions and not path.endswith(".antt"):
                continue
            if clean[m.start()] == " ":
                # in a comment: a word with a capital inside is a name, one with a dash only where it is quoted
                quoted = text[m.start() - 1 : m.start()] == "`"
                if not is_camel(w) and not quoted:
                    continue
            if own and text[m.start() - 1 : m.start()] == "." and new.endswith("_lem") and not w.endswith("_lem"):
                new = plain(w)
            out.append(text[at : m.start()])
            out.append(new)
            at = m.end()
        out.append(text[at:])
        return "".join(out)

    for p, t in {**sources, **edits}.items():
        mark = "//" if p.endswith(".rt") else "--" if p.endswith(".antt") else None
        new = turn(p, t, mark)
        # what meets in one file
        seen = {}
        for w in set(NAME.findall(bare(t, mark) if mark else t)):
            seen.setdefault(turned.get(w, w), set()).add(w)
        for n, ws in seen.items():
            if len(ws) > 1:
                print(f"meets: {p}: {sorted(ws)}")
        if new != t and not check:
            with open(p, "w", encoding="utf-8", newline="") as f:
                f.write(new)
    # outside: names of definitions with a capital inside
    word = re.compile(r"(?<![\w'-])[a-z][a-z0-9]*(?:[A-Z][A-Za-z0-9]*)+(?:[-_]\w+)*(?![\w])")
    for p in OUTSIDE:
        if not os.path.isfile(p):
            continue
        t = read(p)

        def one(m):
            w = m[0]
            if OF_PYTHON.fullmatch(w):
                return w
            if w in turned:
                return turned[w]
            if plain(w) in declared:
                return plain(w)
            print(f"stays: {p}: {w}")
            return w

        new = word.sub(one, t)
        if new != t and not check:
            with open(p, "w", encoding="utf-8", newline="") as f:
                f.write(new)


if __name__ == "__main__":
    main()
