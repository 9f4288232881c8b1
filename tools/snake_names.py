#!/usr/bin/env python3
"""Respells the repository's own definitions and lemmas in snake case, in specs/, proofs/, the clauses of src/ and the edits.

Run once, at the top, after /opt/rattle/port/port.py. A word of camel case that begins small (`dayCount`) becomes `day_count`; of a name that is
joined by dashes each part is a word (`mag-natAbs`, `mag-nat_abs`). Names of types and facts begin large and stay; functions of src/ are
in snake case already; strings of src/ are left alone. Two names that would fall together end the run before anything is written.
"""

import collections
import glob
import os
import re
import sys

# Lemmas that a definition's new name would fall together with: they get `_lem`.
LEMMAS = ["goes_on", "kept_gives", "names_in", "none_kept", "none_over", "number_read", "too_many", "turned_down", "two_digits"]
LEMMA = re.compile(r"(?<![\w.'-])(" + "|".join(LEMMAS) + r")(?![\w'-]|\.\w)")

WORD = re.compile(r"(?<![\w'])[A-Za-z][\w'₀-₉-]*")
CAMEL = re.compile(r"(?<=[a-z0-9])(?=[A-Zℕℤ])|(?<=[A-Z])(?=[A-Z][a-z])")
# Variables of two letters, which are no words.
SHORT = {"aB", "hF", "iN", "xP"}


# A field's name, which is a label alone.
LABELS = ["held_new"]


def plain(word):
    """A word that is no label and no part of a path, outside comments."""
    return re.compile(r"(?m)(?<![\w.'-])" + re.escape(word) + r"(?![\w'-]|\.\w)")


def snake(part):
    if part in SHORT or not re.match(r"[a-z]", part) or re.search(r"_[A-Z]", part):
        return part
    return CAMEL.sub("_", part).lower()


def respelled(word):
    return "-".join(snake(part) for part in word.split("-"))


def in_text(text, names):
    return WORD.sub(lambda found: names.get(found.group(), found.group()), text)


# A string, a character, or what lies between two of them.
LITERAL = re.compile(r'(b?"(?:\\.|[^"\\])*"|b?\'(?:\\.|[^\'\\])\')', re.S)


def in_source(text, names):
    return "".join(piece if at % 2 else in_text(piece, names) for at, piece in enumerate(LITERAL.split(text)))


def files(top, *patterns):
    return sorted(path for pattern in patterns for path in glob.glob(os.path.join(top, pattern), recursive=True))


def main():
    top = sys.argv[1] if len(sys.argv) > 1 else "."
    proofs = files(top, "crates/*/specs/**/*.antt", "crates/*/proofs/**/*.antt")
    sources = files(top, "crates/*/src/**/*.rt")
    edits = files(top, "crates/*/must-fail/*.edit", "crates/*/extra-edits/*.edit")
    texts = {path: open(path, encoding="utf-8").read() for path in proofs + sources + edits}

    words = collections.Counter()
    for path in proofs:
        words.update(WORD.findall(re.sub(r"--.*", "", texts[path])))
    names = {word: respelled(word) for word in words if respelled(word) != word}

    # A function of src/ may have a definition's name: paths and labels keep the two apart.
    back = collections.defaultdict(set)
    codes = {path: re.sub(r"--.*", "", texts[path]) for path in proofs}
    for word, new in names.items():
        back[new].add(word)
        for path, code in codes.items():
            if new in code and any(not LEMMA.match(code, found.start()) for found in plain(new).finditer(code)):
                back[new].add(new + " in " + path)
    together = {new: old for new, old in back.items() if len(old) > 1 and new not in LABELS}
    for new, old in sorted(together.items()):
        print("falls together:", new, "of", *sorted(old))
    if together:
        return 1
    for path, text in texts.items():
        new = in_source(text, names) if path.endswith(".rt") else in_text(LEMMA.sub(r"\1_lem", text), names)
        if new != text:
            with open(path, "w", encoding="utf-8") as out:
                out.write(new)
    print(len(names), "names respelled")
    return 0


if __name__ == "__main__":
    sys.exit(main())
