#!/usr/bin/env python3
"""Respells the repository's own definitions and lemmas: words in snake case, types and modules as they are.

usage: python3 tools/snake_case.py

Run once at the top of the repository, after the kit's port.py. It reads the .antt, .rt and .edit files of crates/.
A name that begins with a small letter and has a capital in it is turned, part by part between dashes and underscores.
Strings of .rt files are left alone, and names of one letter beside a capital, as hN, too.
"""
import os
import re

# Names that would fall together, or whose library part has another name.
BY_HAND = {"toldAt": "told_of", "tabulate-getD": "tabulate-get_or", "hH": "hH", "hN": "hN", "hR": "hR"}
NAME = re.compile(r"[^\s()\[\]{},.;:\"`«»|!⌜⌝]+")
STRING = re.compile(r'"(?:[^"\\]|\\.)*"')


def part(word):
    """cellOutcome becomes cell_outcome, rowYZ row_yz; a word that begins with a capital stays."""
    if not re.match(r"[a-z]", word) or not re.search(r"[A-Z]", word):
        return word
    word = re.sub(r"([a-z0-9])([A-Z])", r"\1_\2", word)
    return re.sub(r"[A-Z]", lambda m: m.group().lower(), word)


def turned(name):
    if name in BY_HAND:
        return BY_HAND[name]
    if not re.match(r"[a-z][^/\\^]*\Z", name):
        return name
    return "-".join("_".join(part(w) for w in p.split("_")) for p in name.split("-"))


def text_of(text, keep_strings):
    def names(s):
        return NAME.sub(lambda m: turned(m.group()), s)

    if not keep_strings:
        return names(text)
    out, at = [], 0
    for m in STRING.finditer(text):
        out += [names(text[at : m.start()]), m.group()]
        at = m.end()
    return "".join(out + [names(text[at:])])


def main():
    for folder, dirs, files in os.walk("crates"):
        dirs[:] = [d for d in dirs if d != "out"]
        for f in files:
            if f.endswith((".antt", ".rt", ".edit")):
                path = os.path.join(folder, f)
                old = open(path, encoding="utf-8").read()
                new = text_of(old, f.endswith(".rt"))
                if new != old:
                    open(path, "w", encoding="utf-8").write(new)


main()
