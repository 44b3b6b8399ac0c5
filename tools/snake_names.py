#!/usr/bin/env python3
"""Brings the repository's own definitions and lemmas that port.py left in mixed case to snake case: `roomFor` becomes `room_for`.

usage: snake_names.py [--list] FOLDER        FOLDER: the repository

A name is turned where it begins in lower case and an .antt file below crates/ declares it or cites it: each part between dashes by itself.
Names of src/ keep their spelling (they are in snake case or begin with a capital); the text of must-fail edits and comments follows, the
names of Rattle source that are equal to a turned one stand in another namespace (a clause imports `group_count`, a caller calls it).
It runs once: where no file has the mixed case of a name any more, nothing is changed.
"""
import os
import re
import sys

WORD = re.compile(r"(?<![\w'′·ℕℤ-])[a-z][\w'′ℕℤ-]*")
CAMEL = re.compile(r"(?<=[a-z0-9ℕ])(?=[A-Z])")
# a bound variable, which is no definition
KEPT = {"hL"}
# Lemmas whose names fall together with the snake case of a definition: "a lemma that would have its function's name gets `_lem`".
LEMMAS = {
    "head_in": "headIn",
    "is_word": "isWord",
    "labels_at": "labelsAt",
    "load_told": "loadTold",
    "count_at": "countAt",
    "own_room": "ownRoom",
}


def snake(word):
    if word in KEPT:
        return word
    parts = []
    for part in word.split("-"):
        parts.append(CAMEL.sub("_", part).lower() if part[:1].islower() and CAMEL.search(part) else part)
    return "-".join(parts)


def files(root):
    for top in ("crates",):
        for folder, dirs, names in os.walk(os.path.join(root, top)):
            dirs[:] = sorted(d for d in dirs if d not in ("out", "data"))
            for name in sorted(names):
                if name.endswith((".antt", ".rt", ".edit")):
                    yield os.path.join(folder, name)


def main(argv):
    listing = "--list" in argv
    root = [a for a in argv if not a.startswith("--")][0]
    turned = {}
    whole = set()
    for path in files(root):
        with open(path, encoding="utf-8", newline="") as f:
            whole |= set(WORD.findall(f.read()))
    lemmas = {old: old + "_lem" for old, mixed in LEMMAS.items() if mixed in whole}
    for path in files(root):
        with open(path, encoding="utf-8", newline="") as f:
            text = f.read()
        have = set(WORD.findall(text))
        new = text
        if path.endswith(".antt") and lemmas:
            new = WORD.sub(lambda m: lemmas.get(m.group(0), m.group(0)), new)
        new = WORD.sub(lambda m: snake(m.group(0)), new)
        for w in have:
            s = snake(w)
            if s != w:
                turned.setdefault(w, [s, []])
                if s in have:
                    turned[w][1].append(path)
        if new != text and not listing:
            with open(path, "w", encoding="utf-8", newline="") as f:
                f.write(new)
    by = {}
    for w, (s, where) in sorted(turned.items()):
        by.setdefault(s, []).append(w)
        if listing and where:
            print("together:", w, s, *[os.path.relpath(p, root) for p in where])
    for s, ws in by.items():
        if len(ws) > 1:
            print("together:", *ws, "->", s)
    print(len(turned), "names")
    return 0


if __name__ == "__main__":
    raise SystemExit(main(sys.argv[1:]))
