#!/usr/bin/env python3
"""Turns the repository's own definitions and lemmas from camel case to snake case, once, after port.py of the kit has turned the rest: in specs/, proofs/, contracts and comments of crates/, and in the documents.

usage: tools/respell.py      at the top of a checkout

A dash that joins two names stays. Where a definition's new name is one that a lemma has, the lemma gets back the dash that port.py turned to `_`.
Texts in quotes stay, and so do the functions of src/, which have snake case already.
"""

import os
import re

NAME = re.compile(r"(?<![\w'\\])[a-z][\w']*(?:-[\w'*<>≤+]+)*")
CAMEL = re.compile(r"(?:^|-)[a-z][a-z0-9_]*[A-Z]")
TEXT = re.compile(r'b?"(?:\\.|[^"\\])*"')

# Lemmas whose name a definition now has, with the files that name them.
LEMMAS = {
    "row_here": ("row-here", "proofs"),
    "row_number": ("row-number", "demands/proofs"),
    "no_room": ("no-room", "demands/proofs"),
    "index_is": ("index-is", "exact_config/proofs"),
    "digits_from": ("digits-from", "exact/proofs"),
}


def snake(name):
    """In snake case each part that a dash sets off and that does not begin with a capital."""

    def part(word):
        if not word[:1].islower():
            return word
        word = word.replace("getD", "get_or")
        word = re.sub(r"([A-Z]+)([A-Z][a-z])", r"\1_\2", word)
        return re.sub(r"([a-z0-9])([A-Z])", r"\1_\2", word).lower()

    return "-".join(part(word) for word in name.split("-"))


def outside_texts(text, turn):
    """The text with what stands outside of quotes turned."""
    out, at = [], 0
    for it in TEXT.finditer(text):
        out += [turn(text[at : it.start()]), it.group()]
        at = it.end()
    return "".join(out + [turn(text[at:])])


def names_in(text):
    found = set()

    def look(piece):
        found.update(name for name in NAME.findall(piece) if CAMEL.search(name))
        return piece

    outside_texts(text, look)
    return found


def respell(text, camel, lemmas):
    def one(it):
        name = it.group()
        if name in lemmas and text_is_lemma(it):
            return lemmas[name]
        return snake(name) if name in camel else name

    def text_is_lemma(it):
        before = it.string[max(0, it.start() - 1) : it.start()]
        return before != "." and not re.match(r"\.\w|`? meets", it.string[it.end() :])

    return outside_texts(text, lambda piece: NAME.sub(one, piece))


def files(*ends):
    for folder, folders, names in os.walk("crates"):
        folders[:] = [f for f in folders if f != "out"]
        yield from (os.path.join(folder, n) for n in sorted(names) if n.endswith(ends))


def read(path):
    with open(path, encoding="utf-8") as file:
        return file.read()


def write(path, text):
    with open(path, "w", encoding="utf-8") as file:
        file.write(text)


def main():
    sources = {path: read(path) for path in files(".antt", ".rt")}
    camel = set().union(*(names_in(text) for text in sources.values()))
    for path, text in sources.items():
        lemmas = {old: new for old, (new, where) in LEMMAS.items() if where in path and path.endswith(".antt")}
        write(path, respell(text, camel, lemmas))
    documents = ["CONTRIBUTING.md", "README.md"] + [os.path.join(f, n) for f, _, ns in os.walk("docs") for n in ns if n.endswith(".md")]
    for path in documents:
        text = read(path)
        write(path, NAME.sub(lambda it: snake(it.group()) if it.group() in camel else it.group(), text))


if __name__ == "__main__":
    main()
