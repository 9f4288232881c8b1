#!/usr/bin/env python3
"""Checks that what the documents name is there: files, crates, modules, functions and definitions.

    tools/check_names.py     a line for each name that is not there; fails where there is one

It looks for
- links `[..](FILE)`, and paths that begin with one of the repository's folders (`crates/clock/src/lib.rt`, `tools/kit.py`);
- paths in a crate, `claim/specs/Document.antt`, `turns/specs`;
- paths of code, `crate::module::name`: the crate, its module, and the name where one is given;
- in the tables of docs/DECISIONS.md, names behind a crate's: turns Search `turnsFrom`; heights `share_at` (tools/check_trace.py looks up those of docs/TRACE.md).
A word in capitals stands for any name (`crates/CRATE/specs/`). docs/PORT.md, which names what was, is not asked. And the floors of docs/ARCHITECTURE.md must have the crates that those of crates.txt have.
"""

import functools
import re
import sys

import kit

FOLDERS = "crates|docs|tools|second|data|bindings|bench|\\.ci"
LINK = re.compile(r"\]\(([^)#:\s]+)(?:#[^)\s]*)?\)")
PATH = re.compile(r"(?<![\w/.-])((?:%s)/[\w.*/-]*)" % FOLDERS)
INSIDE = re.compile(r"(?<![\w/.-])([a-z]\w*)/((?:specs|src|proofs|must-fail|extra-edits)(?:/[\w./+-]*)?)")
CODE = re.compile(r"`([a-z]\w*(?:::\w+)+)`")
BEHIND = re.compile(r"(?<![\w/`])([a-z]\w*)((?: [A-Z]\w*)?)((?:,? `[^`]+`)+)")


@functools.cache
def text_of(crate, pattern):
    """All files of a crate that fit a pattern, as one text."""
    return "\n".join(path.read_text() for path in sorted((kit.ROOT / "crates" / crate).glob(pattern)))


def is_file(path):
    """Whether a path from the root is there; a word in capitals stands for any name, a star for any part of one."""
    general = "/".join("*" if word.isupper() else word for word in path.rstrip("./").split("/"))
    return any(kit.ROOT.glob(general))


def is_said(name, crate, patterns=("src/**/*.rt", "specs/**/*.antt", "proofs/**/*.antt")):
    """Whether a crate's files of some patterns have a line that begins with a name, behind the words of a declaration."""
    begins = re.compile(r"^\s*(?:(?!use\b|//|--)[\w<>'(\"]+ )*%s(?![\w-])" % re.escape(name), re.M)
    return any(begins.search(text_of(crate, pattern)) for pattern in patterns)


def missing_code(path):
    """What is not there of a path of code; the kit's own crates count as there."""
    crate, *names = path.split("::")
    if crate not in kit.crates():
        return None if any(crate in below for below in kit.crates().values()) else crate
    if (kit.ROOT / "crates" / crate / "src" / (names[0] + ".rt")).exists():
        names = names[1:]
    return next((name for name in names if not is_said(name, crate)), None)


def missing_behind(crate, file, names):
    """What is not there of the names behind a crate's, or behind a crate's and a file's of its specs/."""
    patterns = (f"specs/**/{file.strip()}.antt",) if file else ("src/**/*.rt", "specs/**/*.antt", "proofs/**/*.antt")
    for name in re.findall(r"`([\w-]+|◌\S+◌)`", names):
        if not is_said(name, crate, patterns):
            yield f"{crate}{file} `{name}`"


def missing(paper, line):
    """What a line of a document names and is not there."""
    for link in LINK.findall(line):
        if not (paper.parent / link).exists():
            yield link
    for path in PATH.findall(line):
        if not is_file(path):
            yield path
    for crate, path in INSIDE.findall(line):
        if not is_file(f"crates/{crate}/{path}") and not (paper.parent / crate / path).exists():
            yield f"{crate}/{path}"
    for path in CODE.findall(line):
        if missing_code(path):
            yield f"{path}: {missing_code(path)}"
    if line.startswith("|") and paper.name == "DECISIONS.md":
        for crate, file, names in BEHIND.findall(line):
            if crate in kit.crates():
                yield from missing_behind(crate, file, names)


def floors_listed():
    """Each crate of crates.txt with its floor, a heading `# Floor: ..`."""
    floor = ""
    for line in (kit.ROOT / "crates.txt").read_text().split("\n"):
        floor = line[2:].split(":")[0] if line.startswith("# ") else floor
        if re.match(r"\w+( staticlib)?:", line):
            yield re.split(r"[: ]", line)[0], floor


def floors_drawn():
    """Each crate of the first table of docs/ARCHITECTURE.md with its floor."""
    floor = ""
    for line in (kit.ROOT / "docs" / "ARCHITECTURE.md").read_text().split("\n## ")[0].split("\n"):
        cells = [cell.strip() for cell in line.split("|")]
        floor = cells[1] if len(cells) > 2 and cells[1] else floor
        for crate in re.findall(r"`(\w+)`", cells[2]) if len(cells) > 2 else ():
            yield crate, floor


def main():
    count = 0
    for crate, floor in sorted(set(floors_listed()) ^ set(floors_drawn())):
        count += 1
        print(f"docs/ARCHITECTURE.md and crates.txt: {crate} on the floor {floor} is in one of them only")
    for paper in kit.documents():
        if paper.name == "PORT.md":  # it names what was
            continue
        for number, line in enumerate(paper.read_text().split("\n"), 1):
            for name in missing(paper, line):
                count += 1
                print(f"{paper.relative_to(kit.ROOT)}:{number}: {name} is not there")
    sys.exit(count > 0)


if __name__ == "__main__":
    main()
