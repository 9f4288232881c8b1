"""The month sheet of cuvalimodo against the manual's printed turns (001, appendix 7.5).

Usage: cuvalimodo month 1976 7 | python3 tools/month_sheet.py
Reads the sheet, line by line and column by column, and compares each turn's day, time and kind with data/victoria-1976-07.json, and its
height with the printed one, which has one decimal and comes from a table of cosines (data/NOTES.md, section 6: off by 0.0531 at the most).
"""

import json
import os
import re
import sys

TURN = re.compile(r" ([HL]) (\d\d):(\d\d) *(-?\d+\.\d{3})")
FARTHEST = 0.054


def turns_of(sheet):
    """The turns on a sheet: minute of the month, kind, height."""
    for line in sheet.split("\n"):
        day = re.match(r"([ \d]\d) ", line)
        if day:
            for kind, hour, minute, height in TURN.findall(line):
                yield (int(day.group(1)) - 1) * 1440 + int(hour) * 60 + int(minute), {"H": "high", "L": "low"}[kind], float(height)


def main():
    with open(os.path.join(os.path.dirname(os.path.abspath(__file__)), "..", "data", "victoria-1976-07.json")) as file:
        printed = json.load(file)["prediction"]["turns"]
    sheet = sys.stdin.read()
    ours = list(turns_of(sheet))
    if [(minute, kind) for minute, kind, _ in ours] != [(t["minute"], t["kind"]) for t in printed]:
        sys.exit("the sheet's turns are not the printed ones")
    worst = max(abs(height - float(t["height"])) for (_, _, height), t in zip(ours, printed))
    if worst > FARTHEST:
        sys.exit("a height is off by %.4f" % worst)
    days = len(re.findall(r"(?m)^[ \d]\d ", sheet))
    print("%d days, %d turns at the printed minute, heights within %.4f of the printed ones" % (days, len(ours), worst))
    sys.exit(0 if days == 31 else 1)


if __name__ == "__main__":
    main()
