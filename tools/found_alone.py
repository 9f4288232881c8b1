#!/usr/bin/env python3
"""Says which answers of a crate's proofs the check finds alone; with --write it drops them.

    tools/found_alone.py NAME [--write]        at the top of a checkout

It moves every Answers.antt of the crate aside, checks with --allow-holes, and reads which answers the check then asks for. With --write a file
keeps those alone, with the lemmas of its own that they cite; one with none left goes. `rt check` and `rt tidy` in the crate come after.
"""

import pathlib
import re
import subprocess
import sys

ANSWER = re.compile(r"pub (\S+) : goal\.(\S+)$", re.M)
LEMMA = re.compile(r"(?m)^(?:abbrev |unfoldable )?(?:pub )?(\S+) :")


def asked_for(crate, files):
    """For each file of answers the goals that the check does not prove without it."""
    texts = {path: path.read_text() for path in files}
    try:
        for path in files:
            path.unlink()
        run = subprocess.run(["rt", "check", "--allow-holes"], cwd=crate, capture_output=True, text=True)
    finally:
        for path, text in texts.items():
            path.write_text(text)
    said = run.stdout + run.stderr
    if f"crate {crate.name}: modules" not in said:
        sys.exit(f"{crate.name}: not checked: {said[-300:]}")
    asked = {}
    for line in said.split("\n"):
        found = re.match(r"fn \S+: .*expected answers in \./([^;\s]+)", line)
        if found:
            goals = line.partition("did not prove")[2].partition("; it calls")[0]
            asked[crate / found[1]] = set(re.findall(r"`([^`]+)`", goals))
        elif line.startswith("fn ") and not re.search(r": (no holes|proved|no proof: it calls)", line):
            sys.exit(f"{crate.name}: not read: {line}")
    return asked


def goal(part):
    """The goal that a paragraph of a file answers, if it does."""
    found = ANSWER.search(part)
    return found[1] if found and found[1] == found[2] else None


def is_asked(name, asked):
    return any(one == name or one.startswith(name + "-clause-") for one in asked)


def without_idle_lemmas(parts):
    """Without the lemmas of the file that nothing in it cites."""
    for part in parts:
        found = LEMMA.search(part)
        if found and not goal(part):
            rest = "\n".join(other for other in parts if other is not part)
            if not re.search(r"(?<![\w'-])" + re.escape(found[1]) + r"(?![\w'-])", rest):
                return without_idle_lemmas([other for other in parts if other is not part])
    return parts


def main():
    name = sys.argv[1]
    crate = pathlib.Path("crates") / name
    files = sorted(crate.glob("proofs/**/Answers.antt"))
    asked = asked_for(crate, files)
    answers = alone = 0
    for path in files:
        parts = [part for part in path.read_text().strip().split("\n\n") if part.strip()]
        names = [goal(part) for part in parts]
        answers += sum(one is not None for one in names)
        idle = {one for one in names if one and not is_asked(one, asked.get(path, set()))}
        alone += len(idle)
        if not idle:
            continue
        print(path.relative_to(crate), ", ".join(sorted(idle)))
        if "--write" not in sys.argv:
            continue
        kept = without_idle_lemmas([part for part, one in zip(parts, names) if one not in idle])
        if any(goal(part) for part in kept):
            path.write_text("\n\n".join(kept) + "\n")
        else:
            path.unlink()
    print(f"{name}: {alone} of {answers} answers are found alone")


main()
