#!/usr/bin/env python3
"""Breaks the lines of more than 140 characters of definitions and proofs, which `rt fmt` leaves as they are (tests/lines/run refuses them).

usage: wrap_lines.py CRATE-FOLDER..        then `rt fmt` and `rt check` in each folder

A line of code is broken at a space of the least depth of brackets, best before an operator, and goes on indented by 4 more; the text of a
comment is filled into the next line.
"""
import os
import re
import sys

MOST = 140
OPEN, CLOSE = "({[", ")}]"
OPERATOR = re.compile(r"(→|≡|∙|\+\+|×|∷|\|)\s")


def place(line):
    """Where to break a line of code: the place of a space, or None."""
    depth, best = 0, None
    indent = len(line) - len(line.lstrip())
    for i, c in enumerate(line[: MOST + 1]):
        depth += (c in OPEN) - (c in CLOSE)
        if c != " " or i <= indent + 30 or line[i - 1] == " " or line[:i].endswith(("λ", "{", "→")):
            continue
        worse = not (OPERATOR.match(line[i + 1 :]) or line[:i].endswith((";", ",")))
        best = min(best or (depth, worse, -i), (depth, worse, -i))
    return best and -best[2]


def wrapped(lines):
    out, lines, going_on = [], list(lines), None
    while lines:
        line = lines.pop(0)
        if len(line) <= MOST:
            out.append(line)
        elif comment := re.match(r" *-- ", line):
            head = comment.group()
            at = line.rfind(" ", len(head), MOST + 1)
            out.append(line[:at])
            is_text = lines and lines[0].startswith(head) and lines[0][len(head) : len(head) + 1].strip()
            lines.insert(0, head + line[at + 1 :] + (" " + lines.pop(0)[len(head) :] if is_text else ""))
        elif at := place(line):
            indent = len(line) - len(line.lstrip())
            indent += 4 * (going_on != (len(out), indent))
            out.append(line[:at])
            lines.insert(0, " " * indent + line[at + 1 :])
            going_on = (len(out), indent)
        else:
            out.append(line)
    return out


def main(folders):
    for folder in folders:
        for at, inner, names in os.walk(folder):
            inner[:] = [it for it in inner if it != "out"]
            for name in sorted(it for it in names if it.endswith(".antt")):
                with open(f"{at}/{name}", encoding="utf-8") as it:
                    text = it.read()
                new = "\n".join(wrapped(text.split("\n")))
                if new != text:
                    print(f"{at}/{name}")
                    with open(f"{at}/{name}", "w", encoding="utf-8") as it:
                        it.write(new)


if __name__ == "__main__":
    main(sys.argv[1:])
