#!/usr/bin/env python3
"""Checks that what the tables of docs/TRACE.md name is there.

    tools/check_trace.py          a line for each name that is not there; fails where there is one
    tools/check_trace.py --mark   sets the stars anew, by the folders in which the edits stand

- The last column names edits: `label` in a crate's must-fail/, `label*` in a crate's extra-edits/, and behind a crate's name in that crate.
- The columns between the sentence and it name definitions, contracts and theorems. A name belongs to the crate, and to the file of its specs/, last said in the row before it:
  turns Search `turnsFrom`, `firstHigh`. In the second column a name without a file is a definition of specs/, in the third one of src/; behind "law" or "theorem" it is one of proofs/.
  What stands in specs/inner/ is marked "inner".
"""

import re
import sys

import check_names
import kit

TRACE = kit.ROOT / "docs" / "TRACE.md"
LABEL = re.compile(r"(?:([a-z_]+) )?([a-z0-9_]+)(\*?)$")
WORD = re.compile(r"\b(law|theorem)s?\b|\b(inner )?([a-z]\w*)(?= `| (?:law|theorem)s? `| [A-Z]\w*(?: `|[;:,]|\s*$))|\b([A-Z]\w*)(?= `|[;:,]|\s*$)|`([^`]+)`|;")


def folders(crate, label):
    """The folders, must-fail and extra-edits, in which an edit of a crate (of any, where none is said) stands."""
    return {path.parent.name for path in (kit.ROOT / "crates").glob(f"{crate or '*'}/*/{label}.edit")}


def last_column(line):
    """A table's line without its last column, and that column; nothing where it has no labels."""
    found = re.match(r"(\|.*\|)([^|]*)\|$", line)
    if not found or found.group(2).strip() in ("", "wrong answers", "edit") or set(found.group(2)) <= set("-"):
        return line, ""
    return found.groups()


def wrong(piece):
    """Whether a piece of the last column is no label, or not where its star says."""
    found = LABEL.search(piece)
    where = found and folders(found.group(1), found.group(2))
    return not where or ("extra-edits" if found.group(3) else "must-fail") not in where


def marked(piece):
    """A piece of the last column with its star set anew."""
    plain = piece.rstrip("*")
    return plain + "*" if wrong(plain) and not wrong(plain + "*") else plain


def is_declared(name, crate, pattern):
    """Whether a crate's files of a pattern declare a name: a function or type of the code, or what has a type in the proof language."""
    code = r'^\s*(?:pub )?(?:extern "C" )?(?:fn|struct|enum|const) %s\b'
    proof = r"^\s*(?:(?:pub|abbrev|unfoldable|data|record) )*%s(?: [({].*)? :"
    said = (code if pattern.endswith(".rt") else proof) % re.escape(name)
    return re.search(said, check_names.text_of(crate, pattern), re.M) is not None


def unknown(line):
    """The names of a table's line, between its first column and its last, that are not there."""
    crate, inner = None, ""
    for column, text in zip(("specs", "src"), line.split("|")[2:-2]):
        file, proved = None, False
        for found in WORD.finditer(text):
            law, within, named, module, name = found.groups()
            if named:
                if named in kit.crates():
                    crate, inner, file, proved = named, "inner/" if within else "", None, False
            elif module:
                file, proved = module, False
                if not (kit.ROOT / "crates" / (crate or "-") / "specs" / f"{inner}{file}.antt").exists():
                    yield f"{inner}{crate} {file}"
            elif law:
                proved = True
            elif name:
                where = "proofs/**/*.antt" if proved else f"specs/{inner}{file or '*'}.antt" if file or column == "specs" else "src/**/*.rt"
                if not crate or not is_declared(name, crate, where):
                    yield f"{crate} `{name}` in {where}"
            else:
                file, proved = None, False


def main():
    lines, missing = [], []
    for line in TRACE.read_text().split("\n"):
        rest, column = last_column(line)
        pieces = re.split(r"([,;] )", column.strip())
        if column and "--mark" in sys.argv:
            pieces[::2] = [marked(piece) for piece in pieces[::2]]
            line = f"{rest} {''.join(pieces)} |"
        lines.append(line)
        missing += [piece for piece in pieces[::2] if column and wrong(piece)]
        missing += unknown(line) if line.startswith("|") else []
    if "--mark" in sys.argv:
        TRACE.write_text("\n".join(lines))
    for name in missing:
        print(f"docs/TRACE.md names {name}, which is not there")
    sys.exit(len(missing) > 0)


if __name__ == "__main__":
    main()
