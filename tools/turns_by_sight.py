"""The month sheets of cuvalimodo, and the rows of its year, against what anyone sees in its own heights, minute by minute, to the month's end.

Usage: python3 tools/turns_by_sight.py target/bin/cuvalimodo
For each month of a year at three stations whose tide turns plainly, one of them with double high waters and strides to find them: the high and low waters of the CSV of one-minute heights (a rise and a fall of more than
RISE on both sides) must be those of the sheet and of the year, each within LATE minutes. A sheet that leaves out the turn behind the search's last stride, in any month, or a
year that does so in December fails here.
"""

import re
import subprocess
import sys

from month_sheet import turns_of

# each with the options that its own strides need
STATIONS = (["data/examples/semidiurnal.txt"], ["data/examples/diurnal.txt"], ["data/examples/estuary.txt", "--strides", "20,20,20"])
YEAR = 2026
RISE = 0.05
LATE = 15


def run(program, *words):
    return subprocess.run([program, *words], capture_output=True, text=True, check=True).stdout


def seen(heights):
    """The turns in a row of heights: minute and kind, each the highest or lowest before the water has gone RISE the other way."""
    best, rising = 0, None
    for minute, height in enumerate(heights):
        if rising is None:
            if abs(height - heights[0]) > RISE:
                rising, best = height > heights[0], minute
        elif (height > heights[best]) == rising and height != heights[best]:
            best = minute
        elif abs(height - heights[best]) > RISE:
            yield best, "high" if rising else "low"
            rising, best = not rising, minute


def year(program, station):
    """The turns of each month of the year's rows: minute of the month and kind."""
    months = [[] for _ in range(12)]
    for number, day, hour, minute, kind in re.findall(r"(?m)^%d-(\d\d)-(\d\d)T(\d\d):(\d\d)Z,(\w+)" % YEAR, run(program, "year", str(YEAR), "--csv", "--station", *station)):
        months[int(number) - 1].append(((int(day) - 1) * 1440 + int(hour) * 60 + int(minute), kind))
    return months


def month(program, station, number):
    """The two lists of turns of a month, without what lies at its first and last minutes."""
    words = (str(YEAR), str(number), "--station", *station)
    rows = [line.split(",") for line in run(program, "heights", *words[:2], "1", *words[2:]).splitlines() if line[0].isdigit()]
    sheet = [(minute, kind) for minute, kind, _ in turns_of(run(program, "month", *words))]
    return list(seen([float(height) for _, height in rows])), sheet, len(rows) - 1


def main():
    program, count = sys.argv[1], 0
    for station in STATIONS:
        months = year(program, station)
        for number in range(1, 13):
            plain, sheet, last = month(program, station, number)
            for minute, kind in plain:
                for turns, where in ((sheet, "on the sheet"), (months[number - 1], "in the year")):
                    if not [m for m, k in turns if k == kind and abs(m - minute) <= LATE]:
                        sys.exit(f"{station[0]}, month {number}: a {kind} water at minute {minute} of {last} is not {where}")
                count += 1
    print(f"{count} high and low waters seen in one-minute heights of 36 months, all on the sheets and in the years")


if __name__ == "__main__":
    main()
