#!/usr/bin/env python3
"""What the cases of validity must tell, worked out from the marks behind `;` in their texts and from the lengths of instructions alone.

validity.py wanted FILE         prints what the cases of the file must print
validity.py texts FILE FOLDER   writes the text of each module that is to be valid, but for those that are marked as wider than the standard
"""
import pathlib
import re
import sys


def cases(path):
    found = []
    for line in pathlib.Path(path).read_text().split("\n"):
        if line.startswith("case "):
            found.append((line[5:], [], []))
        elif line.startswith("each "):
            found[-1][1].append(line[5:])
        elif line.strip() and not line.startswith("#") and line != "check" and not line.startswith("file "):
            found[-1][2].append(line)
    return found


def text(pieces, each):
    out = ""
    for piece in pieces:
        kind, _, rest = piece.replace("<each>", each).partition(" ")
        if kind == "|":
            out += rest + "\n"
        elif kind == ">":
            out += rest
        elif kind == "times":
            count, _, rest = rest.partition(" ")
            out += rest * int(count)
        elif kind in ("count", "down"):
            first, last, rest = rest.split(" ", 2)
            numbers = range(int(first), int(last) + 1) if kind == "count" else range(int(first), int(last) - 1, -1)
            out += "".join(rest.replace("<n>", str(n)).replace("<before>", str(n - 1)).replace("<end>", "\n") for n in numbers)
        else:
            sys.exit(f"no piece of a text: {piece}")
    return out


def words(line):
    """How many words the instruction of a line has."""
    parts = re.findall(r'"[^"]*"|\S+', re.sub(r';[^"]*$', "", line))
    return sum(0 if part == "=" else (len(part) - 2) // 4 + 1 if part.startswith('"') else 1 for part in parts)


def wanted(module):
    place, broken, named = 5, None, {}
    for line in module.split("\n"):
        mark = line.partition(";")[2].strip()
        rule = re.fullmatch(r"V(\d+)(?: at (.*))?", mark)
        if rule and broken is None:
            broken = (rule[1], rule[2], place)
        elif mark:
            named[mark] = place
        if "Op" in line.partition(";")[0]:
            place += words(line)
    if broken is None:
        return "out | valid"
    rule, where, here = broken
    at = here if where is None else 3 if where == "3" else place if where == "the end" else named[where]
    return f"err | MODULE: V{rule} {at}"


def main(words):
    if len(words) not in (3, 4) or words[1] != ("wanted" if len(words) == 3 else "texts"):
        sys.exit(__doc__)
    for number, (title, alternatives, pieces) in enumerate(cases(words[2])):
        if len(words) == 3:
            print("case " + title)
        for k, each in enumerate(alternatives or [""]):
            module = text(pieces, each)
            if len(words) == 3:
                print(("each " + each + "\n" if alternatives else "") + wanted(module))
            elif wanted(module) == "out | valid" and "wider than the standard" not in module:
                (pathlib.Path(words[3]) / f"{number}-{k}.txt").write_text(module)


main(sys.argv)
