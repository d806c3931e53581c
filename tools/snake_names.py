#!/usr/bin/env python3
"""Brings the repository's own definitions, fields and lemmas to snake case: a dash in their names becomes an underscore.

usage: python3 tools/snake_names.py [TOP]

A name is the repository's own if a file of some specs/ or proofs/ declares it by a signature, as 'name : ..' or
'pub name : ..'. Answers to goals and invariants, whose names Rattle makes, keep them, and so do comments and strings.
A name that a file takes from a library stays in that file, but as a field behind a dot; so does a step that Rattle made,
behind 'c.' or 'w.' in an answer. Two sums that had a type's capital get a word's name, and three lemmas that would have a
function's name end in _lem. Names that would fall together are listed, and nothing is written then.
"""

import os
import re
import sys

WORD = re.compile(r"[^\s(){}\[\].,;\"]+")
SIGNATURE = re.compile(r"^\s*(?:abbrev |unfoldable )?(?:pub )?(?:abbrev |unfoldable )?([^\s(){}\[\].,;\"]+)\s+:(?=\s|$)\s*(.*)$")
MADE = re.compile(r"^(goal|need|given|ended)\.")
LOCAL = re.compile(r"\blet\s+([^\s(){}\[\].,;\"]+)\s*[:=]")
IMPORT = re.compile(r"\s*(?:pub )?(?:ghost )?use ([\w.]+)\.\{(.*)\}")
PARTS = ("Answers.antt", "Invariants.antt")
NAMED = {
    "Sum": "ring_sum",
    "Pair": "ring_pair",
    "layout-fits": "layout_fits_lem",
    "body-fits": "body_fits_lem",
    "few-terms": "few_terms_lem",
}


def files(top):
    for folder, dirs, names in os.walk(os.path.join(top, "crates")):
        dirs[:] = sorted(d for d in dirs if d not in ("out", ".git"))
        for name in sorted(names):
            if name.endswith((".antt", ".rt")):
                yield os.path.join(folder, name)


def code(line, path):
    """Where the comment of a line begins."""
    at = line.find("//") if path.endswith(".rt") else re.search(r"(^|\s)--(\s|$)", line)
    if path.endswith(".rt"):
        return len(line) if at < 0 else at
    return at.start() if at else len(line)


def declared(top):
    """The dashed names that are declared, and all names."""
    dashed, every = {}, set()
    for path in files(top):
        with open(path) as f:
            for line in f:
                line = line[: code(line, path)]
                if not path.endswith(".antt"):
                    every.update(WORD.findall(line))
                    continue
                found = SIGNATURE.match(line)
                if found and not MADE.match(found.group(2)) and "-" in found.group(1).strip("-"):
                    dashed.setdefault(found.group(1), set()).add(path)
                for name in LOCAL.findall(line):
                    if "-" in name.strip("-"):
                        dashed.setdefault(name, set()).add(path)
                every.update(WORD.findall(line))
    return dashed, every


def taken(lines, top):
    """The names that a file imports from a library."""
    own = set(os.listdir(os.path.join(top, "crates")))
    names = set()
    for line in lines:
        found = IMPORT.match(line)
        if found and not (found.group(1).startswith("Rattle.") and found.group(1).split(".")[1] in own):
            names.update(re.split(r",\s*|\s+as\s+", found.group(2)))
    return names


def snake(name):
    if name in NAMED:
        return NAMED[name]
    return re.sub(r"(?<=[\w'])-(?=[\w'])", "_", name)


def turned(text, names, library, made):
    def turn(m):
        name, before = m.group(0), text[: m.start()]
        if name not in names or (made and re.search(r"(?<![\w.'-])[cw]\.$", before)):
            return name
        if name in library and not before.endswith("."):
            return name
        return snake(name)

    return WORD.sub(turn, text)


def main():
    top = sys.argv[1] if len(sys.argv) > 1 else "."
    dashed, every = declared(top)
    names = set(dashed) | {"Sum", "Pair"}
    fall = sorted(n for n in names if snake(n) in every)
    if fall:
        print("these names would fall together with others: " + ", ".join(fall))
        return 1
    n = 0
    for path in files(top):
        with open(path) as f:
            lines = f.readlines()
        library = taken(lines, top)
        made = os.path.basename(path) in PARTS
        capital = path.endswith(".antt")
        here = names if capital else names - {"Sum", "Pair"}
        out = []
        for line in lines:
            at = code(line, path)
            out.append(turned(line[:at], here, library, made) + line[at:])
        if out != lines:
            n += 1
            with open(path, "w") as f:
                f.writelines(out)
    print(f"{len(names)} names in snake case, in {n} files")
    return 0


if __name__ == "__main__":
    raise SystemExit(main())
