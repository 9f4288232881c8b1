#!/usr/bin/env python3
"""Runs the samples that the documents show, and compares them with what the programs write.

    tools/check_samples.py [FILE.md ...]     every document of the repository where none is named

A sample is a line `$ COMMAND` of an indented or fenced block, and the lines behind it up to the next `$` or the block's end. The
command is run from the repository's root; what it writes to standard output and to standard error must be those lines. A line `..`
stands for lines left out; blanks at a line's end do not count. Commands of bindings/ are left to bindings/test, for they build.
"""

import difflib
import pathlib
import subprocess
import sys

import kit


def blocks(text):
    """The indented and fenced blocks of a document, each with the number of its first line."""
    block, first, fenced = [], 0, False
    for number, line in enumerate(text.split("\n") + ["end"], 1):
        mark = line.lstrip().startswith("```")
        inside = not mark and (fenced or line.startswith("    ") or (block and not line.strip()))
        if inside:
            first = first if block else number
            block.append(line if fenced else line[4:])
        elif block:
            yield first, block
            block = []
        fenced = fenced != mark


def samples(text):
    """The commands of a document's samples: number of the line, command, the lines that it shows."""
    for first, block in blocks(text):
        starts = [k for k, line in enumerate(block) if line.startswith("$ ")] + [len(block)]
        for k, end in zip(starts, starts[1:]):
            if not block[k].startswith("$ bindings/"):
                yield first + k, block[k][2:], lines("\n".join(block[k + 1:end]))


def lines(text):
    """The lines of a text, without blanks at their ends and without blank lines at its end."""
    return [line.rstrip() for line in text.rstrip().split("\n")] if text.strip() else []


def fits(shown, printed):
    """Whether the lines shown are those printed, where `..` stands for any number of lines."""
    if not shown:
        return not printed
    if shown[0] == "..":
        return any(fits(shown[1:], printed[k:]) for k in range(len(printed) + 1))
    return printed[:1] == shown[:1] and fits(shown[1:], printed[1:])


def written(command):
    """What a command writes, on standard output and standard error."""
    run = subprocess.run(["bash", "-c", command], cwd=kit.ROOT, stdin=subprocess.DEVNULL, stdout=subprocess.PIPE,
                         stderr=subprocess.STDOUT, timeout=120)
    return lines(run.stdout.decode(errors="replace"))


def main():
    papers = [pathlib.Path(name) for name in sys.argv[1:]] or kit.documents()
    tried = failed = 0
    for paper in papers:
        for number, command, shown in samples(paper.read_text()):
            tried += 1
            printed = written(command)
            if not fits(shown, printed):
                failed += 1
                print(f"{paper.name}:{number}: $ {command}: shown (-) and written (+)")
                print("\n".join(difflib.unified_diff(shown, printed, lineterm="", n=1)))
    print(f"{tried - failed} of {tried} samples are what the programs write")
    sys.exit(failed > 0 or tried == 0)


if __name__ == "__main__":
    main()
