"""The year's sheet of cuvalimodo against the manual's printed turns of July 1976 (001, appendix 7.5), and against itself.

Usage: python3 tools/year_sheet.py target/bin/cuvalimodo
The sheet of 1976 and its rows (--csv) are read line by line. July's turns must be the printed ones, to the minute; every month has a line for each of its days; the rows are
the sheet's turns; and each month's heading has the highest and the lowest of that month's turns.
"""

import calendar
import json
import os
import re
import subprocess
import sys

from month_sheet import FARTHEST, turns_of

YEAR = 1976
HEADING = re.compile(r"(?m)^([A-Z][a-z]+) %d: highest (\S+) on (\d+) at (\d\d):(\d\d), lowest (\S+) on (\d+) at (\d\d):(\d\d)\n" % YEAR)
ROW = re.compile(r"%d-(\d\d)-(\d\d)T(\d\d):(\d\d),(high|low),(-?\d+\.\d{4})" % YEAR)


def minute_of(day, hour, minute):
    return (int(day) - 1) * 1440 + int(hour) * 60 + int(minute)


def sheet_months(sheet):
    """The months of a sheet, in order: name, highest and lowest, each with height and minute, and the lines."""
    parts = HEADING.split(sheet)[1:]
    for name, high, *rest, lines in (parts[k:k + 10] for k in range(0, len(parts), 10)):
        yield name, (high, minute_of(*rest[:3])), (rest[3], minute_of(*rest[4:7])), lines


def row_months(rows):
    """The turns of each month of the rows: minute, kind, height with three decimals."""
    months = [[] for _ in range(12)]
    for month, day, hour, minute, kind, height in ROW.findall(rows):
        months[int(month) - 1].append((minute_of(day, hour, minute), kind, float(height)))
    return months


def same_turns(ours, theirs, apart):
    return [(m, k) for m, k, _ in ours] == [(m, k) for m, k, _ in theirs] and all(abs(a[2] - b[2]) <= apart for a, b in zip(ours, theirs))


def main():
    sheet, rows = (subprocess.run([sys.argv[1], "year", str(YEAR)] + more, capture_output=True, text=True, check=True).stdout for more in ([], ["--csv"]))
    with open(os.path.join(os.path.dirname(os.path.abspath(__file__)), "..", "data", "victoria-1976-07.json")) as file:
        printed = [(t["minute"], t["kind"], float(t["height"])) for t in json.load(file)["prediction"]["turns"]]
    months, tabled = list(sheet_months(sheet)), row_months(rows)
    if [name for name, *_ in months] != list(calendar.month_name)[1:]:
        sys.exit("the sheet's headings are not the twelve months'")
    for number, (name, highest, lowest, lines) in enumerate(months, 1):
        turns = list(turns_of(lines))
        if len(re.findall(r"(?m)^[ \d]\d ", lines)) != calendar.monthrange(YEAR, number)[1]:
            sys.exit(f"{name} has not a line for each day")
        if not same_turns(tabled[number - 1], turns, 0.00051):
            sys.exit(f"{name}'s rows are not its turns on the sheet")
        high, low = max(turns, key=lambda t: t[2]), min(turns, key=lambda t: t[2])
        if [(float(h), m) for h, m in (highest, lowest)] != [(high[2], high[0]), (low[2], low[0])]:
            sys.exit(f"{name}'s heading has not its highest and its lowest water")
    if not same_turns(list(turns_of(months[6][3])), printed, FARTHEST):
        sys.exit("July's turns are not the printed ones")
    print("%d turns of %d in twelve months, July's %d at the printed minutes; rows and headings agree" % (sum(map(len, tabled)), YEAR, len(printed)))


if __name__ == "__main__":
    main()
