#!/usr/bin/env python3
"""Writes what the program demo must write, by the second code: tools/demo_expected.py > crates/demo/stdout."""

import os
import sys

sys.path.insert(0, os.path.join(os.path.dirname(os.path.abspath(__file__)), "..", "second"))

from cosine import TURN, fixed_cosine, fixed_sine
from month import day_count, days_in_month

EIGHTH = TURN // 8
ANGLES = [0, EIGHTH, 2 * EIGHTH, 4 * EIGHTH, 1, 123_456_789_012_345, TURN - 1, 7 * TURN + EIGHTH + 1]
DATES = [(1950, 1, 1), (1975, 12, 31), (1976, 1, 1), (1976, 2, 29), (2000, 3, 1), (2049, 12, 16)]


def main():
    for ticks in ANGLES:
        print("ticks %d cosine %d sine %d" % (ticks, fixed_cosine(ticks), fixed_sine(ticks)))
    for year, month, day in DATES:
        count = day_count(year, month, day)
        print("date %d %d %d days %d month %d" % (year, month, day, count, days_in_month(year, month)))


if __name__ == "__main__":
    main()
