#!/usr/bin/env python3
"""Spells the repository's own definitions and lemmas as the library's: words in snake case, types in camel case.

usage: tools/spell_names.py [ROOT]   after port.py, once: rewrites crates/*/{src,specs,proofs} and must-fail/*.edit below ROOT, and prints the names that changed
and those that fall together with a name that the same file had.

Only names in antt are spelled anew: functions of src/ and exported names are in snake case already. A dash, which joins two names, stays; in a type's name it goes.
"""
import glob
import os
import re
import sys

WORD = re.compile(r"(?<![A-Za-z0-9_'-])[A-Za-z][A-Za-z0-9_'-]*")
CAMEL = re.compile(r"(?<=[a-z0-9])(?=[A-Z])")
DASHED_TYPE = re.compile(r"^(?:pub )?(?:record|data) ([A-Z][A-Za-z]*(?:-[a-z]+)+)", re.M)
COMMENT = re.compile(r"--.*")
# lemmas that port.py gave the name that a definition beside them gets here
LEMMAS = {"crates/wire/specs/Laws.antt": "built_in", "crates/trace/specs/RoundTrip.antt": "read_one"}


def files(root, ends):
    for part in ("src", "specs", "proofs"):
        for end in ends:
            yield from sorted(glob.glob(f"{root}/crates/*/{part}/**/*{end}", recursive=True))


def read(path):
    with open(path, encoding="utf-8") as it:
        return it.read()


def snake(name):
    """The parts between dashes that begin in lower case, in snake case."""
    return "-".join(CAMEL.sub("_", part).lower() if part[:1].islower() else part for part in name.split("-"))


def new_names(root):
    names = {}
    for path in files(root, [".antt"]):
        text = read(path)
        for found in DASHED_TYPE.finditer(text):
            names[found[1]] = "".join(part[:1].upper() + part[1:] for part in found[1].split("-"))
        for found in WORD.finditer(COMMENT.sub("", text)):
            word = found[0]
            if word[0].islower() and CAMEL.search(word) and snake(word) != word:
                names[word] = snake(word)
    return names


def main():
    root = sys.argv[1] if len(sys.argv) > 1 else "."
    for path, lemma in LEMMAS.items():
        text = read(f"{root}/{path}")
        with open(f"{root}/{path}", "w", encoding="utf-8") as it:
            it.write(WORD.sub(lambda found: lemma + "_lem" if found[0] == lemma else found[0], text))
    names = new_names(root)
    for path in [*files(root, [".antt", ".rt"]), *sorted(glob.glob(f"{root}/crates/*/must-fail/*.edit"))]:
        text = read(path)
        had = set(WORD.findall(text))
        turned = WORD.sub(lambda found: names.get(found[0], found[0]), text)
        for word in sorted(had & names.keys()):
            if names[word] in had:
                print(f"falls together: {os.path.relpath(path, root)}: {word} and {names[word]}")
        if turned != text:
            with open(path, "w", encoding="utf-8") as it:
                it.write(turned)
    for old, new in sorted(names.items()):
        print(f"{old} {new}")


main()
