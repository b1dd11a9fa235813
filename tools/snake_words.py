#!/usr/bin/env python3
"""Brings the words that this repository defines in antt to today's spelling: lower camel case becomes snake case, part by part of a name that dashes join.

usage: tools/snake_words.py          at the top of the repository, once, after the kit's port.py

A word is one that stands in an .antt file. It is respelled there, in the clauses and ghost imports of .rt files, and in comments of both; not in strings. Functions of
src/ have their spelling already. Where a word would then be spelled as a lemma whose dashes port.py made underscores, the lemma gets its dashes back.
"""

import collections
import glob
import re

WORD = re.compile(r"[^\W\d][\w'·₀-₉-]*")
STRING = re.compile(r'"(?:[^"\\\n]|\\.)*"')
# Lemmas that port.py respelled, and that a word would fall together with.
DASHES = (
    "after-one all-same by-field field-in first-plain gives-all is-field is-one is-pointer no-member number-read of-number one-field one-name own-read pairs-of"
    " part-in parts-within pointer-read row-below run-length same-bytes same-id set-lines stands-at too-long wrong-second wrong-type"
).split()
# Words of the library that it renamed, where they are a part of a name of this repository.
LIBRARY = {"getD": "get_or", "upTo": "up_to", "lastOr": "last_or", "headOr": "head_or"}


def snake(name):
    """The name with each part that begins with a small letter in snake case."""
    parts = []
    for part in name.split("-"):
        if part in LIBRARY:
            part = LIBRARY[part]
        elif part[:1].islower():
            part = re.sub(r"([a-z0-9])([A-Z])", lambda m: f"{m.group(1)}_{m.group(2).lower()}", part)
        parts.append(part)
    return "-".join(parts)


def bare(text):
    """The text without comments and strings."""
    return STRING.sub('""', re.sub(r"--.*", "", text))


def respelled(text, names, dashed):
    """The text with the words respelled outside of strings."""

    def word(m):
        name, before = m.group(), text_before(m)
        if name in names:
            return names[name]
        # A function of src/ in a path keeps its name.
        if name in dashed and before != "." and before != "+":
            return dashed[name]
        return name

    def text_before(m):
        return piece[m.start() - 1 : m.start()]

    out, at = [], 0
    for s in list(STRING.finditer(text)) + [None]:
        piece = text[at : s.start() if s else len(text)]
        out.append(WORD.sub(word, piece))
        if s:
            out.append(s.group())
            at = s.end()
    return "".join(out)


def main():
    proofs = sorted(glob.glob("crates/*/specs/**/*.antt", recursive=True) + glob.glob("crates/*/proofs/**/*.antt", recursive=True))
    sources = sorted(glob.glob("crates/*/src/**/*.rt", recursive=True))
    found = collections.Counter()
    for path in proofs:
        with open(path, encoding="utf-8") as f:
            found.update(m.group() for m in WORD.finditer(bare(f.read())))
    names = {name: snake(name) for name in found if snake(name) != name}
    dashed = {name.replace("-", "_"): name for name in DASHES}
    for path in proofs + sources:
        with open(path, encoding="utf-8") as f:
            text = f.read()
        new = respelled(text, names, dashed if path.endswith(".antt") else {})
        if new != text:
            with open(path, "w", encoding="utf-8") as f:
                f.write(new)
    print(f"{len(names)} words respelled")


if __name__ == "__main__":
    main()
