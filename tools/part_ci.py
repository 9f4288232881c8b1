#!/usr/bin/env python3
"""Runs `rt ci` over some crates and all that they stand on, in a repository of their own, and says how long it took.

    tools/part_ci.py CRATE ...        tools/part_ci.py cosine calendar demo: the ground

It is what `rt ci --anew` would do if the repository had no other crate: everything from nothing, wrong answers and programs included.
"""

import pathlib
import shutil
import subprocess
import sys
import tempfile
import time

import kit


def below(names):
    """The crates with all that they stand on, in the order of crates.txt."""
    listed, wanted, waiting = kit.crates(), set(), list(names)
    while waiting:
        name = waiting.pop()
        if name in listed and name not in wanted:
            wanted.add(name)
            waiting += listed[name]
    return {name: deps for name, deps in listed.items() if name in wanted}


def main():
    if len(sys.argv) < 2 or not set(sys.argv[1:]) <= set(kit.crates()):
        sys.exit(__doc__)
    part = below(sys.argv[1:])
    with tempfile.TemporaryDirectory() as room:
        for name in part:
            shutil.copytree(kit.ROOT / "crates" / name, pathlib.Path(room) / "crates" / name, ignore=shutil.ignore_patterns("out"))
        lines = (f"{' '.join([name, *kind])}: {' '.join(deps)}".rstrip() + "\n" for name, kind, deps in kit.listed() if name in part)
        (pathlib.Path(room) / "crates.txt").write_text("".join(lines))
        began = time.time()
        run = subprocess.run(["rt", "ci", "--anew"], cwd=room, capture_output=True, text=True)
    print(run.stdout[-3000:] if run.returncode else run.stdout.splitlines()[-1])
    print(f"rt ci of {', '.join(part)}: {time.time() - began:.0f} s")
    sys.exit(run.returncode)


if __name__ == "__main__":
    main()
