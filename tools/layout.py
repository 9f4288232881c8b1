#!/usr/bin/env python3
"""Checks the layout of what `rt ci` doesn't look at: fails where a script doesn't read, or a text isn't laid out.

- Python and shell scripts are read, not run.
- Each crate's root file has the line `#![tactic(auto)]` above its first item.
- Sources, definitions, proofs, documents and scripts have no tab, no blank at a line's end, and a line feed behind the last line. (`old:` and `new:` lines of an edit may
  end in a blank; files that programs read or write are as they must be.)
"""

import re
import subprocess
import sys

import kit

TEXTS = re.compile(r"(^|/)[^/]+\.(rt|antt|py|sh|md|rs|c|h)$|^(\.ci/|tools/|bindings/|bench/run$)")
QUOTING = re.compile(r"^docs/PORT|\.(patch|svg)$")


def files():
    """The files that git knows, and those that it doesn't ignore."""
    ran = subprocess.run(["git", "ls-files", "-z", "--cached", "--others", "--exclude-standard"], cwd=kit.ROOT, stdout=subprocess.PIPE, check=True)
    return sorted({name for name in ran.stdout.decode().split("\0") if name and (kit.ROOT / name).is_file()})


def script_faults(name, text):
    """Why a script does not read, if it doesn't."""
    head = text.split("\n", 1)[0]
    if name.endswith(".py") or head.startswith("#!") and "python" in head:
        try:
            compile(text, name, "exec")
        except SyntaxError as error:
            yield f"{name}:{error.lineno}: {error.msg}"
    elif head.startswith("#!") and re.search(r"\b(ba)?sh\b", head):
        ran = subprocess.run(["bash", "-n", name], cwd=kit.ROOT, stderr=subprocess.PIPE, text=True)
        if ran.returncode:
            yield ran.stderr.strip()


def text_faults(name, text):
    """What is not laid out in a text."""
    for number, line in enumerate(text.split("\n"), 1):
        if "\t" in line:
            yield f"{name}:{number}: a tab"
        if line != line.rstrip(" "):
            yield f"{name}:{number}: a blank at the line's end"
    if text and not text.endswith("\n"):
        yield f"{name}: no line feed behind the last line"


def root_faults(name, text):
    """Whether a crate's root file does not ask for the tactics above its first item."""
    first = next((line for line in text.split("\n") if line and not line.startswith("//")), "")
    if re.fullmatch(r"crates/\w+/src/(lib|main)\.rt", name) and first != "#![tactic(auto)]":
        yield f"{name}: its first line that is no comment is not #![tactic(auto)]"


def main():
    found, read = [], 0
    for name in files():
        if TEXTS.search(name) and not QUOTING.search(name):
            text = (kit.ROOT / name).read_text(encoding="utf-8")
            read += 1
            for faults in (script_faults, text_faults, root_faults):
                found += faults(name, text)
    print("\n".join([*found, f"{read} files, {len(found)} faults"]))
    sys.exit(len(found) > 0)


if __name__ == "__main__":
    main()
