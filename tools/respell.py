#!/usr/bin/env python3
"""Spells the repository's own definitions and lemmas in snake case, by the rows of respelled.tsv beside this file: old name, tab, new name.

usage: tools/respell.py [FOLDER]     turns whole words in the .antt, .rt and .edit files below FOLDER/crates, and in code spans of its README.md and docs/*.md
       tools/respell.py --rows       writes the rows anew from the names that crates/ declares

It was run once, right after the script of the newer Rattle (docs/PORT.md). A dash in a lemma's name stays.
"""

import os
import re
import sys

HERE = os.path.dirname(os.path.realpath(__file__))
ROWS = os.path.join(HERE, "respelled.tsv")
WORD = re.compile(r'[^\s(){}.;,@"«»`]+')
# Fields of a struct of src/, which keep the spelling of the source.
OF_SOURCE = {"newPeaks", "newPits", "newSaddles"}
# A part of a lemma's name that is a name of the library, which has another one now.
OF_LIBRARY = {"getD": "get_or"}
# Lemmas that the script of the newer Rattle took for the library's, and that would now be called as a definition.
OF_LEMMAS = {"signs_of": "signs-eight", "splits_of": "splits-each", "to_ne": "to-ne"}


def files(root):
    for folder, dirs, names in os.walk(os.path.join(root, "crates")):
        dirs[:] = sorted(d for d in dirs if d != "out")
        for name in sorted(names):
            if name.endswith((".antt", ".rt", ".edit")):
                yield os.path.join(folder, name)


def read(path):
    with open(path, encoding="utf-8") as f:
        return f.read()


def in_snake_case(word):
    if not word[:1].islower():
        return word
    return re.sub(r"(?<=[a-z0-9])([A-Z]+)", lambda m: "_" + m[1].lower(), word)


def make_rows(root):
    texts = {p: read(p) for p in files(root) if p.endswith(".antt")}
    names = set()
    for text in texts.values():
        for word in WORD.findall(re.sub(r"(?m)--.*$", "", text)):
            if re.search("[a-z0-9][A-Z]", word):
                names.add(word)
    rows = dict(OF_LEMMAS)
    for name in names - OF_SOURCE:
        new = "-".join(OF_LIBRARY.get(p) or in_snake_case(p) for p in name.split("-"))
        if new != name:
            rows[name] = new
    # names that may fall together: to be looked at
    taken = {}
    for new in rows.values():
        taken[new] = taken.get(new, 0) + 1
    everywhere = {w for t in texts.values() for w in WORD.findall(re.sub(r"(?m)--.*$|\.[a-z]\w*(?=\.)", "", t))}
    for old in sorted(rows):
        if taken[rows[old]] > 1 or rows[old] in everywhere - set(rows):
            print("falls together:", old, rows[old])
    with open(ROWS, "w", encoding="utf-8") as f:
        f.writelines(f"{old}\t{rows[old]}\n" for old in sorted(rows))
    print(len(rows), "rows")


def turned(text, rows):
    return WORD.sub(lambda m: rows.get(m[0], m[0]), text)


def turn(root):
    rows = dict(line.rstrip("\n").split("\t") for line in open(ROWS, encoding="utf-8"))
    pages = [os.path.join(root, "README.md")] + sorted(os.path.join(root, "docs", n) for n in os.listdir(os.path.join(root, "docs")) if n.endswith(".md"))
    for path in [*files(root), *pages]:
        text = read(path)
        if path.endswith(".md"):
            new = re.sub(r"`[^`\n]+`", lambda m: turned(m[0], rows), text)
        else:
            new = turned(text, rows)
        if new != text:
            with open(path, "w", encoding="utf-8") as f:
                f.write(new)


if __name__ == "__main__":
    if sys.argv[1:] == ["--rows"]:
        make_rows(".")
    else:
        turn(sys.argv[1] if len(sys.argv) > 1 else ".")
