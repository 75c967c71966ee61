#!/usr/bin/env python3
"""Respells this repository's own names as today's Rattle spells them: words in snake case.

    tools/respell.py [FOLDER]

It goes over the definitions, proofs and contracts of crates/, and over the must-fail edits, in FOLDER or here. A name
that begins with a small letter and has a capital after it is respelled (`withPending`, `drop-moveList`); a type or a
module keeps its capitals. Functions, fields and constants of the code have no such name, so src/ changes in contracts
alone. A name that is made of a type's name (`uint_Makes`) stays. In must-fail edits, where port.py changes nothing, the
marks of a name with holes and of a prime are left to be brought over by hand with the text around them.
"""
import glob
import re
import sys

NAME = re.compile(r"(?<![\w'′\-])[a-z][a-z0-9_\-]*[A-Z][\w'′\-]*")
# made of a type's name
KEPT = re.compile(r"^(bool|mut|mut_slice|shr|shr_slice|uint|walk)_[A-Z]")
# names of the library that a name of ours has in it, and imports of ours that had a dot in the middle
LIBRARY = [("List·getD", "list-get_or"), ("getD", "get_or"), ("zipWith", "zip_with"), ("bitOr", "bit_or"),
           ("bitAnd", "bit_and"), ("decLt", "dec_lt")]


def snake(name):
    return re.sub(r"[A-Z]", lambda m: "_" + m.group(0).lower(), name)


def respell(text):
    for old, new in LIBRARY:
        text = text.replace(old, new)
    return NAME.sub(lambda m: m.group(0) if KEPT.search(m.group(0)) else snake(m.group(0)), text)


def main():
    top = sys.argv[1] if len(sys.argv) > 1 else "."
    files = []
    for pattern in ("crates/*/specs/**/*.antt", "crates/*/proofs/**/*.antt", "crates/*/src/**/*.rt",
                    "crates/*/must-fail/*.edit"):
        files += glob.glob(f"{top}/{pattern}", recursive=True)
    changed = 0
    for path in sorted(files):
        with open(path, encoding="utf-8") as f:
            old = f.read()
        new = respell(old)
        if new != old:
            changed += 1
            with open(path, "w", encoding="utf-8") as f:
                f.write(new)
    print(f"{len(files)} files, {changed} respelled")


main()
