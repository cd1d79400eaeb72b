#!/usr/bin/env python3
"""Gives the repository's own definitions and lemmas today's spelling: words in snake case, types in camel case.

usage: python3 tools/respell.py [FOLDER]      once, in a repository that port.py has just turned

tools/spelling.tsv has the old name and the new one of each. A name is turned wherever it stands whole in a file of
specs/ or proofs/, in the contracts of src/ and in a must-fail edit; not in strings, not in comments but between
backquotes, and not where the file takes a name of that spelling from a library.
"""

import os
import re
import sys

HERE = os.path.dirname(os.path.realpath(__file__))
NAME = r"[^\s(){}\[\];,:.`\"]+"
LIBRARY_USE = re.compile(r"\buse (?!Rattle\.(?:%s)\.)[\w.'’-]+\.\{([^}]*)\}")


def spelling():
    with open(os.path.join(HERE, "spelling.tsv"), encoding="utf-8") as f:
        return dict(line.rstrip("\n").split("\t") for line in f)


def crates(root):
    with open(os.path.join(root, "crates.txt"), encoding="utf-8") as f:
        lines = [line.split("#")[0].strip() for line in f]
    return [line.split(":")[0].split()[0] for line in lines if line]


def texts(root):
    for folder, dirs, files in os.walk(os.path.join(root, "crates")):
        dirs[:] = sorted(d for d in dirs if d != "out")
        for f in sorted(files):
            if f.endswith((".rt", ".antt", ".edit")):
                yield os.path.join(folder, f)


def from_libraries(text, own):
    """The names that a file takes from a library: they keep their spelling there."""
    found = set()
    for items in re.findall(LIBRARY_USE.pattern % "|".join(own), text):
        found.update(item.split(" as ")[0].strip() for item in items.split(","))
    return found


def respell(part, names):
    return re.sub(NAME, lambda m: names.get(m.group(), m.group()), part)


def respell_comment(part, names):
    return re.sub(r"`[^`]*`", lambda m: respell(m.group(), names), part)


def respell_code(text, names, comment):
    """Names outside comments and strings."""
    pieces = re.split(r'(%s[^\n]*|"(?:[^"\\\n]|\\.)*")' % comment, text)
    for i, piece in enumerate(pieces):
        if i % 2 == 0:
            pieces[i] = respell(piece, names)
        elif not piece.startswith('"'):
            pieces[i] = respell_comment(piece, names)
    return "".join(pieces)


def main():
    root = sys.argv[1] if len(sys.argv) > 1 else "."
    table = spelling()
    own = crates(root)
    for path in texts(root):
        with open(path, encoding="utf-8") as f:
            old = f.read()
        kept = from_libraries(old, own)
        names = {a: b for a, b in table.items() if a not in kept}
        if path.endswith(".antt"):
            new = respell_code(old, names, r"(?<![^\s(])--(?=\s|$)")
        else:
            new = respell_code(old, names, "//")
        if new != old:
            with open(path, "w", encoding="utf-8") as f:
                f.write(new)


if __name__ == "__main__":
    main()
