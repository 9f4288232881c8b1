#!/usr/bin/env python3
"""Where the prover refused each wrong answer of the gate: reads what `rt ci` (or `rt must-fail`) said, target/ci.log where no file is named.

    tools/refused_at.py [LOG]           a line for each wrong answer, then a count; fails where one was not refused first at a fact
    tools/refused_at.py --facts [LOG]   only the count, and those that were not refused first at a fact

A fact is what a function's contract or a loop promises, or a law that a proof cites. A missing need (a call's `requires`, a number that may not fit, a loop that may not
end), an error that only follows from another, a limit of the prover, and a proof that names what the edit took away are none. `.ci/run` keeps the log; for one crate:
rt must-fail CRATE | tee /tmp/LOG.
"""

import re
import sys

import kit

LOG = kit.ROOT / "target" / "ci.log"
FOLLOWS = re.compile(r"was not admitted|cannot be checked|has no field|is not in scope|has no `")
ERROR = re.compile(r"^(\S+?/)?((?:proofs|specs|src)/\S+?):(\d+):\d+: error: (?:\(?`([^`]*)`?\)?: )?(.*)")
NOTE = re.compile(r"^note: (\S+?/)?(src/\S+?):(\d+):\d+: it is not proved that (.*)")
PROMISED = ("what the function ensures", "the invariant of the loop holds")
# The goals of a function that are promises: what it returns, and a loop's invariant. Its others are needs.
PROMISE = re.compile(r"^(\w+-)?returns\b|^loop\b.*-(init|preserved)\b")
TRIED = re.compile(r"^(?:rt: )?must-fail (\w+)/([\w.-]+)\.edit: (.*)")
FIRST = re.compile(r"refused, as it must be(?: \((.*?)\))?(?:: (.*))?$")


def is_need(crate, name, declared):
    """Whether what an error names is a goal of a function, as its proof file has it, and no promise. What a function asks of
    its call of itself is what a loop promises. (What is not declared as a goal there is a law of its own.)"""
    path = kit.ROOT / "crates" / crate / name
    goals = re.findall(r"(?m)^\s*(?:pub )?(\S+) : goal\.", path.read_text()) if path.exists() else []
    itself = declared.startswith(path.parent.name.lstrip("+") + "-requires")
    return declared in goals and not itself and not PROMISE.match(declared)


def of_error(crate, found):
    _, name, line, declared, said = found.groups()
    if FOLLOWS.search(said):
        return "follows", name, line, declared or "-"
    return "need" if is_need(crate, name, declared or "-") else "fact", name, line, declared or "-"


def of_note(found):
    _, name, line, said = found.groups()
    return "fact" if said.startswith(PROMISED) else "need", name, line, said[:60]


def refusals(crate, log):
    """What the prover said of a crate with a wrong answer: kind, file, line, name."""
    for said in log.splitlines():
        error, note = ERROR.match(said), NOTE.match(said)
        if error:
            yield of_error(crate, error)
        elif note:
            yield of_note(note)


def first(said):
    """The first thing that the prover said of it and that does not only follow from another."""
    return ([one for one in said if one[0] != "follows"] or said or [("nothing", "-", "-", "-")])[0]


def told(crate, said):
    """What the log's line says of a wrong answer, in the form of `first`."""
    found = FIRST.match(said)
    if not found:
        return "not refused", "-", "-", said[:120]
    if found.group(1):
        return "follows", "-", "-", found.group(1)[:120]
    return first(list(refusals(crate, found.group(2) or "")))


def main():
    named = [word for word in sys.argv[1:] if word != "--facts"]
    edits = [(crate, edit.stem) for crate in kit.crates() for edit in sorted((kit.ROOT / "crates" / crate / "must-fail").glob("*.edit"))]
    log = open(named[0]) if named else open(LOG) if LOG.exists() else sys.exit(f"{LOG} is not there: .ci/run keeps it")
    with log:
        tried = {(found[1], found[2]): told(found[1], found[3]) for found in map(TRIED.match, log) if found}
    if named:
        edits = [edit for edit in edits if edit in tried]
    at_facts = 0
    for crate, label in edits:
        kind, name, line, declared = tried.get((crate, label), ("not tried", "-", "-", "-"))
        at_facts += kind == "fact"
        if kind != "fact" or "--facts" not in sys.argv:
            print(f"{crate}/{label}: {kind} at {name}:{line}, {declared}")
    print(f"{at_facts} of {len(edits)} wrong answers are refused first at a fact")
    sys.exit(at_facts != len(edits))


if __name__ == "__main__":
    main()
