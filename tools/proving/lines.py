#!/usr/bin/env python3
"""lines.py: a table as in docs/PROVING.md: lines of code, specs and proofs of each crate, as Markdown.

Imports, comments, attributes of a whole file and blank lines do not count, nor do contracts in code.
"""
import pathlib
import re

TOP = pathlib.Path(__file__).resolve().parent.parent.parent
NO_LINE = re.compile(r"\s*(--|//|#!\[|$|(pub )?mod )")
IMPORT = re.compile(r"\s*(pub |ghost )?use ")
CONTRACT = re.compile(r"\s*(requires|ensures)( \w+)? \{")


def of_spec(path):
    return sum(1 for line in path.read_text().splitlines() if not NO_LINE.match(line) and not IMPORT.match(line))


def of_code(path):
    """An import goes to its semicolon, a contract from its word to the brace that closes it."""
    count, depth, importing = 0, 0, False
    for line in path.read_text().splitlines():
        importing = importing or bool(IMPORT.match(line))
        in_contract = depth > 0 or bool(CONTRACT.match(line))
        depth += in_contract * (line.count("{") - line.count("}"))
        count += not (importing or in_contract or NO_LINE.match(line))
        importing = importing and not line.endswith(";")
    return count


def crates():
    """The names in crates.txt; `staticlib` may stand behind one."""
    for line in (TOP / "crates.txt").read_text().splitlines():
        if line and not line.startswith("#"):
            yield line.split(":")[0].split()[0]


def row(name, counts):
    return f"| {name} | " + " | ".join(f"{n:,}" for n in counts) + " |"


def main():
    total = [0, 0, 0]
    print("| crate | code | specs | proofs |")
    print("|---|---|---|---|")
    for crate in crates():
        at = TOP / "crates" / crate
        counts = [sum(map(of_code, at.glob("src/*.rt"))), sum(map(of_spec, at.glob("specs/*.antt")))]
        counts += [sum(map(of_spec, at.glob("proofs/**/*.antt")))]
        total = [a + b for a, b in zip(total, counts)]
        print(row(f"`{crate}`", counts))
    print(row("all", total))


main()
