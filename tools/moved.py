#!/usr/bin/env python3
"""What a landing moved: definitions of specs/ and contracts of the clock's functions, between a commit and the work tree's HEAD.

    tools/moved.py BASE

A definition is compared by its text, wherever its file stands; comments and `use` lines do not count. `inner` marks those that only inner contracts cite.
"""

import re
import subprocess
import sys

SPECS = re.compile(r"crates/[^/]+/specs/.*\.antt$")
CLOCK = "crates/clock/src/lib.rt"


def git(*words):
    return subprocess.run(["git", *words], capture_output=True, text=True, check=True).stdout


def definitions(commit):
    """The text of each definition, with the files that have it."""
    found = {}
    for name in filter(SPECS.match, git("ls-tree", "-r", "--name-only", commit).split("\n")):
        for block in re.split(r"\n\n+", git("show", f"{commit}:{name}")):
            text = " ".join(" ".join(line for line in block.split("\n") if not line.startswith(("use ", "--", "pub mod"))).split())
            if text:
                found.setdefault(text, []).append(name)
    return found


def contracts(commit):
    """The head of each public function of the clock, from its name to its body."""
    heads = re.finditer(r"(?ms)^pub fn (\w+).*?^\{", git("show", f"{commit}:{CLOCK}"))
    return {head.group(1): " ".join(head.group(0).split()) for head in heads}


def main():
    if len(sys.argv) != 2:
        sys.exit(__doc__)
    before, after = definitions(sys.argv[1]), definitions("HEAD")
    for word, these, those in (("gone", before, after), ("new", after, before)):
        for text in (text for text in these if text not in those):
            where = these[text][0]
            print(f"{word}{' (inner)' if '/inner/' in where else ''}: {where}: {text[:120]}")
    old, new = contracts(sys.argv[1]), contracts("HEAD")
    for name in sorted(old.keys() | new.keys()):
        if old.get(name) != new.get(name):
            print(f"clock::{name}: {'new' if name not in old else 'gone' if name not in new else 'another contract'}")
    print(f"{len(before.keys() & after.keys())} definitions of {len(before)} stand as they were; {sum(old.get(n) == c for n, c in new.items())} contracts of the clock too")


if __name__ == "__main__":
    main()
