#!/usr/bin/env python3
"""Respells the definitions, lemmas and fields that the crates declare: words joined by _, facts and records in camel case.

usage: tools/respell.py [FOLDER]     rewrites FOLDER/crates/**/*.antt and *.rt in place (FOLDER: the repository)

It is run once, behind the move to a newer Rattle. Names of src/, names that the check makes and names of the library stay.
"""

import os
import re
import sys

TOKEN = re.compile(r"[^\s(){}\[\].,;:\"|]+")
DECLARED = re.compile(r"^\s*(?:pub |abbrev |unfoldable )*(?:record |data )?([^\s(){}\[\].,;:\"|]+)\s*(?:\([^)]*\)\s*|\{[^}]*\}\s*)*:\s+(.*)$")
# two laws of bits, which would be called as the library's operations are
APART = {"bit-and": "bit_of_and", "bit-or": "bit_of_or"}
# names of parameters and parts of proofs, which no line declares, and one that the kit's script left half turned
BOUND = (
    "can-left can-q can-r can-right in-A in-m in-n in-q in-r in-t kind-right left-ends left-low low-n m-low m-n m-on named-right"
    " not-here of-x of-y on-left on-right on-s out-A out-m out-q out-r out-t outcome-check p-n p-on q-first q-lt right-ends right-low"
    " s-known s-low s-lt share-q start-below t-then two-k with-j"
)
LEFT = {"Goes_on": "GoesOn"}
RECORD = re.compile(r"^\s*(?:pub )?(?:record|data) ([^\s(){}\[\].,;:\"|]+)")
MADE_FILES = ("Answers.antt", "Invariants.antt")


def texts(root, endings):
    for folder, dirs, files in os.walk(os.path.join(root, "crates")):
        dirs[:] = sorted(d for d in dirs if d != "out")
        for name in sorted(files):
            if name.endswith(endings):
                yield os.path.join(folder, name)


def declared(root):
    """The hyphenated names that some .antt file declares, but for answers, which the check names."""
    names = set()
    for path in texts(root, ".antt"):
        made = os.path.basename(path) in MADE_FILES
        with open(path, encoding="utf-8") as file:
            for line in file:
                record = RECORD.match(line)
                if record and "-" in record[1]:
                    names.add(record[1])
                found = DECLARED.match(line)
                if not found or line.lstrip().startswith(("--", "let ")) or "-" not in found[1]:
                    continue
                if not (made and re.match(r"\(?goal\b", found[2])):
                    names.add(found[1])
    return names


def imported(root):
    """The names that the library gives, from the use lines."""
    names = set()
    for path in texts(root, (".antt", ".rt")):
        with open(path, encoding="utf-8") as file:
            for line in file:
                found = re.match(r"^(?:ghost )?use (Rattle\.std|mathlib|native|lib|borrow|Prim|denote)\S*\.\{(.*)\}", line)
                if found:
                    names.update(n.strip() for n in found[2].split(","))
    return names


def respelled(name):
    if name in APART:
        return APART[name]
    if name[0].isupper():
        return "".join(part[0].upper() + part[1:] for part in name.split("-"))
    return name.replace("-", "_")


def in_words(path, names):
    """The names that this file turns: answers keep the bound ones, among which the check's own names may be."""
    if os.path.basename(path) in MADE_FILES:
        return {old: new for old, new in names.items() if old not in BOUND.split()}
    return names


def turn(text, names, comment):
    lines = []
    for line in text.split("\n"):
        at = line.find(comment)
        code, rest = (line, "") if at < 0 else (line[:at], line[at:])
        lines.append(TOKEN.sub(lambda found: names.get(found[0], found[0]), code) + rest)
    return "\n".join(lines)


def main(argv):
    root = argv[0] if argv else "."
    library = imported(root)
    own = declared(root)
    for name in sorted(own & library):
        print(f"respell: {name} is a name of the library too, and stays")
    names = {name: respelled(name) for name in (own | set(BOUND.split())) - library} | LEFT
    taken = {}
    for path in texts(root, (".antt", ".rt")):
        with open(path, encoding="utf-8") as file:
            words = set(TOKEN.findall(file.read()))
        for old, new in names.items():
            if old in words and new in words:
                taken.setdefault((old, new), []).append(os.path.relpath(path, root))
    for (old, new), paths in sorted(taken.items()):
        print(f"respell: {old} falls together with {new} in {', '.join(paths)}")
    spelled = {}
    for old, new in names.items():
        spelled.setdefault(new, []).append(old)
    for new, olds in sorted(spelled.items()):
        if len(olds) > 1:
            print(f"respell: {' and '.join(olds)} fall together as {new}")
    for path in texts(root, (".antt", ".rt")):
        with open(path, encoding="utf-8") as file:
            text = file.read()
        new = turn(text, in_words(path, names), "--" if path.endswith(".antt") else "//")
        if new != text:
            with open(path, "w", encoding="utf-8") as file:
                file.write(new)
    print(f"respell: {len(names)} names")
    return 0


if __name__ == "__main__":
    raise SystemExit(main(sys.argv[1:]))
