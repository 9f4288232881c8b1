"""The double high waters of a made-up estuary: the usual strides step over them, strides of 20 minutes find each.

Usage: python3 tools/double_high_waters.py target/bin/cuvalimodo
For each month of a year: on the sheet with the usual strides no two high waters are less than APART minutes from one another; with --strides 20,20,20 each of them has a second
one less than APART minutes from it, and a low water between that is lower than both. The year's rows have the months' turns, and the drawing of a day a mark for each. Strides of
180,30,360 change no byte, others stand on the face.
"""

import re
import subprocess
import sys

from month_sheet import turns_of

STATION = ["--station", "data/examples/estuary.txt"]
SHORT = ["--strides", "20,20,20"]
USUAL = ["--strides", "180,30,360"]
YEAR = "2026"
APART = 240
FACE = ", strides 20,20,20 min;"


def run(program, *words):
    return subprocess.run([program, *STATION, *words], capture_output=True, text=True, check=True).stdout


def demand(holds, words):
    if not holds:
        sys.exit(words)


def faces(program, *view):
    """A view with the usual strides and with short ones, whose faces say which."""
    usual, short = run(program, *view), run(program, *view, *SHORT)
    demand(run(program, *view, *USUAL) == usual, f"{view}: 180,30,360 are not the usual strides")
    demand("strides" not in usual and FACE in short, f"{view}: the strides on the face")
    return usual, short


def doubled(turns, high):
    """The turns between a high water and a second one, both among them; fewer than three where there is no second one."""
    near = [turn for turn in turns if high - APART < turn[0] < high + APART]
    highs = [minute for minute, kind, _ in near if kind == "high"]
    return [turn for turn in near if min(highs) <= turn[0] <= max(highs)]


def month(program, number):
    """How many turns the month has on either sheet."""
    usual, short = (list(turns_of(sheet)) for sheet in faces(program, "month", YEAR, str(number)))
    highs = [minute for minute, kind, _ in usual if kind == "high"]
    demand(all(b - a >= APART for a, b in zip(highs, highs[1:])), f"month {number}: the usual strides find a double high water")
    last = max(minute for minute, _, _ in short)
    for high in highs:
        if APART <= high <= last - APART:
            found = doubled(short, high)
            demand([kind for _, kind, _ in found] == ["high", "low", "high"], f"month {number}: no double high water at minute {high}")
            demand(found[1][2] < min(found[0][2], found[2][2]), f"month {number}: the low water between is not low at minute {high}")
    return len(usual), len(short)


def marks(drawing):
    return len(re.findall("<circle ", drawing))


def main():
    program = sys.argv[1]
    counts = [month(program, number) for number in range(1, 13)]
    usual, short = (sum(column) for column in zip(*counts))
    rows = [text.count("Z,high,") + text.count("Z,low,") for text in faces(program, "year", YEAR, "--csv")]
    demand(abs(rows[0] - usual) <= 12 and abs(rows[1] - short) <= 12, f"the year has {rows} turns, its months {usual} and {short}")
    drawn = [marks(drawing) for drawing in faces(program, "svg", YEAR, "11", "3")]
    demand(drawn == [4, 8], f"marks on the drawing of a day: {drawn}")
    print(f"{usual} turns of {YEAR} with the usual strides, {short} with 20 minutes; a day has {drawn[0]} marks, or {drawn[1]}")


if __name__ == "__main__":
    main()
