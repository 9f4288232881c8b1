#!/usr/bin/env python3
"""Tries the wrong answers of one crate, each on a copy, without those of the crates below it.

    tools/must_fail.py CRATE [LABEL ...]
    tools/must_fail.py --apply            tries none; fails where an edit of any crate no longer applies

The crates below CRATE must be built (`rt check` in its folder, or `rt ci`). For each edit of crates/CRATE/must-fail and extra-edits it prints where it was refused first and the
first error, to be looked at: a good wrong answer is refused at a fact that no longer holds.
"""

import pathlib
import shutil
import subprocess
import sys
import tempfile
import time

import kit
import refused_at


def replacements(text):
    """The replacements of an edit: file, old, new."""
    name = old = None
    for line in text.split("\n"):
        if line.startswith("file: "):
            name = line[6:]
        elif line.startswith("old: "):
            old = line[5:]
        elif line.startswith("new:"):
            yield name, old, line[4:].removeprefix(" ")


class BadEdit(Exception):
    """An edit whose text does not stand once in its file."""


def edited(crate, edit):
    """The files that an edit changes, as it leaves them."""
    texts = {}
    for name, old, new in replacements(edit.read_text()):
        text = texts.get(name) or (kit.ROOT / "crates" / crate / name).read_text()
        if text.count(old) != 1:
            raise BadEdit(f"BAD EDIT: its text stands {text.count(old)} times in {name}")
        texts[name] = text.replace(old, new)
    return texts


def copied(crate, texts, copy):
    """Makes a copy of the crate with some files changed."""
    for part in kit.PARTS:
        if (kit.ROOT / "crates" / crate / part).exists():
            shutil.copytree(kit.ROOT / "crates" / crate / part, copy / part)
    for name, text in texts.items():
        (copy / name).write_text(text)


def tried(crate, edit):
    """Whether the prover refused a copy of the crate with the edit at a fact, and what it said."""
    with tempfile.TemporaryDirectory() as room:
        copy = pathlib.Path(room)
        try:
            copied(crate, edited(crate, edit), copy)
        except (BadEdit, FileNotFoundError) as bad:
            return False, str(bad)
        began = time.time()
        run = subprocess.run(kit.check(crate), cwd=copy, capture_output=True, text=True)
        said = (run.stdout + run.stderr).replace(room + "/", "")
        where = refused_at.first(list(refused_at.refusals(crate, said)))
    errors = [line for line in said.split("\n") if ": error" in line]
    refused = run.returncode == 1 and "\nlogic=not-proved" in said
    verdict = "refused" if refused else "NOT REFUSED"
    return refused and where[0] == "fact", f"{verdict} in {time.time() - began:.0f} s: {' '.join(where)}. {errors[0][:240] if errors else ''}"


def unapplied():
    """The edits of all crates that do not apply."""
    for edit in sorted((kit.ROOT / "crates").glob("*/*/*.edit")):
        crate = edit.parent.parent.name
        try:
            edited(crate, edit)
        except (BadEdit, FileNotFoundError) as bad:
            yield f"{crate}/{edit.stem}: {bad}"


def main():
    if sys.argv[1:] == ["--apply"]:
        found = list(unapplied())
        print("\n".join(found + [f"{len(found)} edits do not apply"]))
        sys.exit(len(found) > 0)
    if len(sys.argv) < 2 or sys.argv[1] not in kit.crates():
        sys.exit(__doc__)
    crate, labels = sys.argv[1], sys.argv[2:]
    for edit in sorted((kit.ROOT / "crates" / crate).glob("*/*.edit")):
        if not labels or edit.stem in labels:
            print(f"{crate}/{edit.stem}: {tried(crate, edit)[1]}", flush=True)


if __name__ == "__main__":
    main()
