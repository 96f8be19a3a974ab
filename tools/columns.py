#!/usr/bin/env python3
"""Says which lines of code, specs, proofs and pages have more than 120 columns; exit 1 if there is one.

Rows of tables in pages are let off: Markdown cannot break them.
"""
import pathlib
import sys

COLUMNS = 120
LET_OFF = "|"


def long_lines(path):
    for number, line in enumerate(path.read_text(encoding="utf-8").splitlines(), 1):
        if len(line) > COLUMNS and not line.lstrip().startswith(LET_OFF):
            yield f"{path}:{number}: {len(line)} columns"


def main():
    top = pathlib.Path(__file__).resolve().parent.parent
    files = [p for kind in ("*.rt", "*.antt") for p in sorted((top / "crates").rglob(kind))]
    files = [p for p in files if "out" not in p.relative_to(top).parts]
    files += sorted((top / "docs").rglob("*.md")) + [top / "README.md", top / "host" / "README.md"]
    found = [line for path in files for line in long_lines(path)]
    print("\n".join(found) if found else f"{len(files)} files: no line has more than {COLUMNS} columns")
    sys.exit(1 if found else 0)


main()
