#!/usr/bin/env python3
"""Brings this repository's own ghost names to snake case: definitions, record fields, constructors, lemmas and bound names.

usage: python3 tools/respell.py [--dry] [ROOT]

It reads the names that the files of specs/ and proofs/ declare, and turns each dash in them into an underscore wherever the name
stands in ghost text: in .antt files, in the clauses and ghost lines of .rt files, and in the edits of must-fail/. Names that the check
makes of the code (goals, steps of a proof) and names of the library keep their dashes. Run it once.
"""

import os
import re
import sys

DECLARES = re.compile(r"^\s*(?:(?:abbrev|unfoldable|pub|record|data)\s+)*([^\s:(){}\[\];,.\"=]+)(?:\s+[({][^:=]*)?\s*:(?!=)\s*(.*)")
NAME = r"[^\s(){}\[\];,.\"λ:=]"
GHOST = re.compile(r"^\s*(ghost\b|requires\b|ensures\b|also_)")
ATTRIBUTE = re.compile(r"^\s*#!?\[tactic")

# Lemmas whose name would be a function's of the library
FALLS = {"bit-and": "bit-bit_and", "bit-or": "bit-bit_or", "bit-xor": "bit-bit_xor"}


def files(root, endings):
    for folder, dirs, names in os.walk(os.path.join(root, "crates")):
        dirs[:] = sorted(d for d in dirs if d not in ("out", "target"))
        for name in sorted(names):
            if name.endswith(endings):
                yield os.path.join(folder, name)


def read(path):
    with open(path, encoding="utf-8") as f:
        return f.read()


def is_goal(kind):
    return re.match(r"(goal|need|given)\.", kind) is not None


def declared(root):
    """The names with a dash that this repository declares, its record fields, and the names that it imports from elsewhere."""
    own, fields, foreign = set(), set(), set()
    for path in files(root, (".antt", ".rt")):
        for line in read(path).splitlines():
            text = line.strip()
            used = re.match(r"(?:pub |ghost )*use (Rattle\.(\w+)\.[\w+.'-]+|[\w.-]+)\.\{(.*)\}", text)
            if used:
                crate = used.group(2)
                if not (crate and os.path.isdir(os.path.join(root, "crates", crate))):
                    foreign.update(w.strip().split(" as ")[0] for w in used.group(3).split(","))
                continue
            if path.endswith(".rt") or text.startswith("--"):
                continue
            found = DECLARES.match(line)
            if found and "-" in found.group(1) and not is_goal(found.group(2)):
                own.add(found.group(1))
                if line.startswith(" "):
                    fields.add(found.group(1))
    return own, fields, foreign


def is_made(path):
    """A file of one function's proof names steps of the code, which may be called as a definition is."""
    return re.search(r"/proofs/.+/", path) is not None


def local_names(text, table):
    """The bound names with a dash in a file that is not of one function's proof: what no line imports."""
    imported = set()
    for line in text.splitlines():
        used = re.match(r"\s*(?:pub )?use [^{]*\{(.*)\}", line)
        if used:
            imported.update(w.strip().split(" as ")[-1] for w in used.group(1).split(","))
    code = "\n".join(re.sub(r'"[^"]*"', "", x) for x in text.splitlines() if not re.match(r"\s*(--|(pub )?use )", x))
    words = {w for w in re.findall(NAME + "+", code) if "-" in w and re.search("[a-z]", w)}
    return {w: w.replace("-", "_") for w in words - imported - table.keys() - set(FALLS.values())}


def turned(text, table, only=None, fields=None):
    def one(found):
        word = found.group(0)
        if fields is not None and word not in fields and found.start() > 0 and found.string[found.start() - 1] == ".":
            return word
        return table.get(word, word)

    out = []
    for line in text.split("\n"):
        if only is not None and not only(line):
            out.append(line)
            continue
        parts = re.split(r'("(?:[^"\\]|\\.)*")', line)
        for i in range(0, len(parts), 2):
            parts[i] = re.sub(NAME + "+", one, parts[i])
        out.append("".join(parts))
    return "\n".join(out)


def main():
    dry = "--dry" in sys.argv
    words = [w for w in sys.argv[1:] if w != "--dry"]
    root = words[0] if words else "."
    own, fields, foreign = declared(root)
    both = sorted(own & foreign)
    table = {w: FALLS.get(w, w.replace("-", "_")) for w in own - foreign}
    print(f"{len(table)} names")
    for w in both:
        print(f"look: {w} is the library's too, and stays")
    for path in files(root, (".antt", ".rt", ".edit")):
        text = read(path)
        here = set(re.findall(NAME + "+", text))
        for w in sorted(here & table.keys()):
            if table[w] in here:
                print(f"look: {path}: {w} falls together with {table[w]}")
        names = table if is_made(path) or not path.endswith(".antt") else table | local_names(text, table)
        ghost = (lambda line: bool(GHOST.match(line) or ATTRIBUTE.match(line))) if path.endswith(".rt") else None
        after = turned(text, names, ghost, fields if is_made(path) else None)
        if after != text and not dry:
            with open(path, "w", encoding="utf-8") as f:
                f.write(after)


main()
