#!/usr/bin/env python3
"""Write crates/cosine/src/constants.rt, the table of 01, "Cosine", by exact whole numbers.

    tools/make_cosines.py           write it
    tools/make_cosines.py --check   say whether the file in the tree is what would be written

The proof of `cosines` holds every entry to the same rule, so nothing rests on this script.
"""
import pathlib
import sys
from math import factorial

STEPS = 2048  # in a quarter turn
WIDTH = 99

TURN = 788_400_000_000_000
QUARTER = TURN // 4
STEP = QUARTER // STEPS
UNIT = 10**14 * TURN
WHOLE = factorial(16) * UNIT**16


def term(n, ticks):
    """x^n / n! over WHOLE, at the angle x = 2 × (314159265358979/10^14) × ticks/T."""
    return WHOLE // (factorial(n) * UNIT**n) * (2 * 314159265358979 * ticks) ** n


def base(ticks):
    """The base fraction's numerator: nine terms of the series, and exactly 0 at T/4."""
    return 0 if ticks == QUARTER else sum((-1) ** k * term(2 * k, ticks) for k in range(9))


def nearest(m, n):
    return (2 * m + n) // (2 * n)


def rows(entries):
    """The entries as rt fmt lays them out: as many in a line as 99 columns take."""
    laid = ["   "]
    for entry in entries:
        if len(laid[-1]) + len(" %d," % entry) > WIDTH:
            laid.append("   ")
        laid[-1] += " %d," % entry
    return laid


def text():
    entries = [nearest(2**30 * base(i * STEP), WHOLE) for i in range(STEPS + 1)]
    lines = [
        "// The cosine table, written by tools/make_cosines.py: entry i is the whole number nearest 2^30 times the cosine at i × STEP ticks.",
        "pub const STEP: u64 = %s;" % format(STEP, "_"),
        "",
        "pub const ENTRIES: usize = %s;" % format(STEPS + 1, "_"),
        "",
        "// Steps in a quarter turn.",
        "pub const STEPS: u64 = ENTRIES as u64 - 1;",
        "",
        "pub const COSINES: [u32; ENTRIES] = [",
    ]
    return "\n".join(lines + rows(entries) + ["];", ""])


def main():
    assert STEP * STEPS == QUARTER
    path = pathlib.Path(__file__).resolve().parent.parent / "crates/cosine/src/constants.rt"
    if "--check" in sys.argv:
        same = path.read_text() == text()
        print("%s: %s" % (path.name, "as it would be written" if same else "DIFFERS"))
        sys.exit(0 if same else 1)
    path.write_text(text())


if __name__ == "__main__":
    main()
