#!/usr/bin/env python3
"""edits.py: says which must-fail edit names a text that does not stand exactly once in its file; exit 1 if one does.

The gate finds the same, but only after it has proved every crate.
"""
import pathlib
import sys

TOP = pathlib.Path(__file__).resolve().parent.parent.parent


def strays(edit):
    source = ""
    for line in edit.read_text().splitlines():
        word, _, rest = line.partition(": ")
        if word == "file":
            source = (edit.parent.parent / rest).read_text()
        elif word == "old" and source.count(rest) != 1:
            yield f"{edit.relative_to(TOP)}: {source.count(rest)} times: {rest}"


def main():
    edits = sorted((TOP / "crates").glob("*/must-fail/*.edit"))
    found = [line for edit in edits for line in strays(edit)]
    print("\n".join(found) if found else f"{len(edits)} edits: each names a text that stands once")
    sys.exit(1 if found else 0)


main()
