#!/usr/bin/env python3
"""Brings the names of the definitions and lemmas of this repository to the spelling of the installed Rattle.

usage: python3 tools/respell_names.py     at the top of the repository, once, after port.py

Words are in snake case; a dash stays where it joins two names, as in `length-pair_lines`. The table of old and new names is
tools/respelled.txt, and every name in it is respelled in one pass over the .antt and .rt files of crates/. Functions and fields
of src/ keep their names. Where a lemma would get the name of a definition or of a function's step, it ends in `_lem`.
In a comment a name with a dash is respelled only between backquotes: elsewhere it is an English word.
"""

import os
import re
import sys

TABLE = os.path.join(os.path.dirname(os.path.abspath(__file__)), "respelled.txt")
SEPARATORS = r"\s(){}\[\];,.:\"⌜⌝|`"
TOKEN = re.compile(rf"[^{SEPARATORS}]+")
PROOFS_OF_FUNCTIONS = ("Proof.antt", "Answers.antt", "Invariants.antt")


def table():
    with open(TABLE, encoding="utf-8") as lines:
        return dict(line.split() for line in lines)


def respelled_code(code, names, of_function):
    """The code with its names respelled. Behind a dot, in the proof of a function, a name is a step's, which has no `_lem`."""

    def one(match):
        word = match.group(0)
        if word not in names:
            return word
        new = names[word]
        if of_function and match.start() and code[match.start() - 1] == "." and new.endswith("_lem"):
            return word.replace("-", "_")
        return new

    return TOKEN.sub(one, code)


def respelled_comment(comment, names):
    plain = {old: new for old, new in names.items() if "-" not in old and "_" not in old}
    quoted = re.sub(r"`[^`]*`", lambda m: TOKEN.sub(lambda w: names.get(w.group(0), w.group(0)), m.group(0)), comment)
    return TOKEN.sub(lambda w: plain.get(w.group(0), w.group(0)), quoted)


def respelled(text, mark, names, of_function=False):
    lines = []
    for line in text.split("\n"):
        code, found, comment = line.partition(mark)
        lines.append(respelled_code(code, names, of_function) + found + respelled_comment(comment, names))
    return "\n".join(lines)


def files():
    for folder, inner, names in os.walk("crates"):
        inner[:] = sorted(name for name in inner if name != "out")
        for name in sorted(names):
            if name.endswith((".antt", ".rt")):
                yield os.path.join(folder, name)


def main():
    names = table()
    changed = 0
    for path in files():
        with open(path, encoding="utf-8") as file:
            text = file.read()
        mark = "--" if path.endswith(".antt") else "//"
        folder, name = os.path.split(path)
        of_function = name in PROOFS_OF_FUNCTIONS and os.path.basename(folder) != "proofs"
        new = respelled(text, mark, names, of_function)
        if new != text:
            changed += 1
            with open(path, "w", encoding="utf-8") as file:
                file.write(new)
    print(f"respell_names: {changed} files")
    return 0


if __name__ == "__main__":
    sys.exit(main())
