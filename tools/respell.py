#!/usr/bin/env python3
"""Respells this repository's own antt names as today's Rattle spells them, after the port.py of the kit has run.

usage: python3 tools/respell.py [--table] [ROOT]     (--table only prints the rows: old name, new name)

A word is in snake case. A dash in a lemma's name joins two names: it stays where a definition's name follows it, and is
an underscore where a plain word does. Types and modules keep their capitals. Functions of src/, strings, inputs and
outputs are not touched. It stops, with nothing written, where two names would fall together.
"""

import os
import re
import sys

WORD = re.compile(r'[^\s(){}.;,@"«»]+')
DECLARED = re.compile(r"^(\s*)((?:abbrev |unfoldable |pub )*)([^\s(){}:;,.\"]+) :(?=\s|$)")
HEADED = re.compile(r"^\s*(?:pub )?(data|record|ruleset) ([^\s(){}:]+)")
ITEMS = re.compile(r"use ([\w.+-]+)\.\{([^}]*)\}")
QUIET = re.compile(r'"(?:[^"\\\n]|\\.)*"|--[^\n]*|//[^\n]*')
# Where the rule would let two names fall together, or would break a name of the library's.
# A law of its function's name gets `_lem`.
FIXED = {
    name: name.replace("-", "_") + "_lem"
    for name in (
        "in_order kind-in last_turn new-ones no_record no_words on-field prompt-in put_front refused_as row-record "
        "said_fits same-tap sender-in stamp-in standing-in taps-in"
    ).split()
}


def files(root):
    for folder, dirs, names in os.walk(os.path.join(root, "crates")):
        dirs[:] = sorted(d for d in dirs if d not in ("out", "must-fail", "data"))
        for name in sorted(names):
            if name.endswith((".antt", ".rt")):
                yield os.path.join(folder, name)


def read(path):
    with open(path, encoding="utf-8") as f:
        return f.read()


def in_function(path):
    """Whether a file is of one function's proof: its names follow the code and Rattle's own."""
    return re.search(r"/proofs/.+/[^/]+$", path) is not None


def snake(part):
    part = part.replace("getD", "get_or")
    if part[:1].isupper():
        return part
    return re.sub(r"(?<=[a-z0-9₂])([A-Z])(?![A-Z])", lambda m: "_" + m[1].lower(), part)


class Names:
    def __init__(self, root):
        self.own, self.definitions, self.fields, self.foreign, self.local = set(), set(), set(), set(), set()
        for path in files(root):
            self.look(path, read(path))
        self.own -= self.foreign
        self.local -= self.foreign
        self.table = {}
        for name in sorted(self.own | self.local):
            new = FIXED.get(name, self.respelled(name))
            if new != name:
                self.table[name] = new

    def look(self, path, text):
        for at, items in ITEMS.findall(text):
            ours = re.match(r"Rattle\.(\w+)\.(specs|proofs)\.", at + ".")
            here = ours and os.path.isdir(os.path.join(self_root, "crates", ours[1]))
            for item in items.split(","):
                item = item.strip()
                if item and not here:
                    self.foreign.add(item.split(" as ")[0].strip())
                    if "-" not in item and "." not in item:
                        self.definitions.add(item)
        if not path.endswith(".antt"):
            return
        code = QUIET.sub("", text)
        for word in WORD.findall(code):
            if re.match(r"[a-z]+[A-Za-z0-9]*[A-Z]", word) and "-" not in word:
                self.local.add(word)
        record = None
        for line in code.splitlines():
            head = HEADED.match(line)
            if head:
                record = len(line) - len(line.lstrip())
                self.definitions.add(head[2])
                self.own.add(head[2])
                continue
            if record is not None and line.strip() and len(line) - len(line.lstrip()) <= record:
                record = None
            found = DECLARED.match(line)
            if not found or in_function(path):
                continue
            name = found[3]
            if record is not None:
                self.fields.add(name)
            self.own.add(name)
            if "-" not in name and "/specs/" in path:
                self.definitions.add(snake(name))

    def respelled(self, name):
        if name[:1] in "◌{" or not re.match(r"[A-Za-z]", name):
            return name
        parts = [snake(p) for p in name.split("-")]
        if any(not p for p in parts):
            return name
        new = parts[0]
        for i, part in enumerate(parts[1:], 1):
            named = any("_".join(parts[i:j]) in self.definitions for j in range(i + 1, len(parts) + 1))
            joined = named or not re.match(r"[a-z0-9]", part)
            new += ("-" if joined else "_") + part
        return new


def turned(names, path, text):
    table = names.table
    antt = path.endswith(".antt")
    code_words = set(WORD.findall(QUIET.sub("", text)))

    declared = {d[3] for d in map(DECLARED.match, text.splitlines()) if d}
    declared |= {item.strip() for _, items in ITEMS.findall(text) for item in items.split(",")}

    def word(m, source):
        w = m[0]
        if w not in table:
            return w
        # A law that is spelled as a function of the code: only where it is meant.
        if w in FIXED and "-" not in w and (not antt or w not in declared):
            return w
        if source[m.start() - 1 : m.start()] == "." and w not in names.fields and w not in names.local:
            return w
        if in_function(path) and w not in names.shared:
            return w
        return table[w]

    def quiet(m):
        if m[0].startswith('"'):
            return m[0]
        return re.sub(r"[^\s(){};,\"«»`'.:]+", lambda w: table[w[0]] if w[0] in table and (w[0] in code_words or re.search("[a-z][A-Z]", w[0])) else w[0], m[0])

    out, at = [], 0
    for m in QUIET.finditer(text):
        piece = text[at : m.start()]
        out.append(WORD.sub(lambda w: word(w, piece), piece))
        out.append(quiet(m))
        at = m.end()
    piece = text[at:]
    out.append(WORD.sub(lambda w: word(w, piece), piece))
    return "".join(out)


def main(argv):
    global self_root
    only = "--table" in argv
    rest = [a for a in argv if not a.startswith("-")]
    self_root = os.path.abspath(rest[0] if rest else ".")
    names = Names(self_root)
    names.shared = names.own | names.local
    met, clash = {}, []
    every = names.own | names.local | names.foreign
    for old, new in names.table.items():
        if new in every and new not in names.table:
            clash.append((old, new, "stands already"))
        if new in met:
            clash.append((old, new, met[new]))
        met[new] = old
    if only:
        for old, new in names.table.items():
            print(f"{old}\t{new}")
        for c in clash:
            print("clash:", *c)
        return 0
    if clash:
        for c in clash:
            print("clash:", *c)
        return 1
    count = 0
    for path in list(files(self_root)):
        text = read(path)
        new = turned(names, path, text)
        if new != text:
            count += 1
            with open(path, "w", encoding="utf-8") as f:
                f.write(new)
    print(f"respell: {len(names.table)} names in {count} files")
    return 0


if __name__ == "__main__":
    raise SystemExit(main(sys.argv[1:]))
