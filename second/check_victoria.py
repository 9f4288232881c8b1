"""Compares the model with the manual's published prediction, Victoria, July 1976: by the month and on the year's sheet.

Usage: python3 second/check_victoria.py victoria-1976-07.json [standard-cards.txt]
"""

import json
import os
import sys

from clock import Clock
from years import midnights

TOLERANCE = 6  # in 10^-4 of the printed unit, the clock's unit here


def sample_clock(sample, card_file):
    clock = Clock()
    clock.set_cards(card_file)
    places = {name: place for place, (name, _) in enumerate(clock.table.frequencies)}
    records = [
        (places[c["name"].encode().ljust(5)], c["amplitude_e4"], c["phase_e2"])
        for c in sample["constituents"]
    ]
    clock.set_station(sample["station"]["latitude_minutes_signed"], records)
    clock.set_date(1976, 7)
    return clock


def compare_heights(clock, sample):
    """Sizes of the differences, 10^-4 of the printed unit, of all legible heights."""
    return [
        abs(clock.height(entry["minute"]) - 10 * entry["height_e3"])
        for entry in sample["hourly"]
        if entry["height_e3"] is not None
    ]


def compare_turns(clock, sample):
    """The turns found, how many stand at the printed minute, and whether the first is high."""
    found, first_is_high = clock.turns(0, 31 * 1_440, 1_000, 1_000)
    printed = sample["turns"]
    equal = sum(turn[0] == entry["minute"] for turn, entry in zip(found, printed))
    worst_height = max(abs(turn[1] - 1_000 * entry["height_e1"]) for turn, entry in zip(found, printed))
    return found, equal, first_is_high, worst_height


def year_minutes(clock):
    """The minutes of July's turns on the sheet of 1976, counted from 1 July."""
    ends = midnights(1976)
    found = clock.year(1976, (0, 1, 0), (0, ends[12], 10_000, 10_000))[1]
    return [minute - ends[6] for minute, _ in found if ends[6] <= minute < ends[7]]


def main():
    path = sys.argv[1]
    cards = sys.argv[2] if len(sys.argv) > 2 else os.path.join(os.path.dirname(path), "standard-cards.txt")
    with open(path) as file:
        sample = json.load(file)["prediction"]
    with open(cards, "rb") as file:
        clock = sample_clock(sample, file.read())

    differences = compare_heights(clock, sample)
    print("heights: %d compared, worst %d x 10^-4, %d past %d" % (
        len(differences), max(differences), sum(d > TOLERANCE for d in differences), TOLERANCE))
    found, equal, first_is_high, worst_height = compare_turns(clock, sample)
    printed = sample["turns"]
    print("turns: %d found, %d printed, %d at the printed minute, first is %s, worst height %d x 10^-4" % (
        len(found), len(printed), equal, "high" if first_is_high else "low", worst_height))
    minutes = [entry["minute"] for entry in printed]
    in_year = year_minutes(clock)
    print("year: %d turns in July, %d at a printed minute" % (len(in_year), len(set(in_year) & set(minutes))))

    good = (
        len(differences) == sample["hourly_legible"]
        and max(differences) <= TOLERANCE
        and len(found) == len(printed) == equal
        and first_is_high == (printed[0]["kind"] == "high")
        and in_year == minutes
    )
    print("Victoria: " + ("agrees" if good else "DIFFERS"))
    sys.exit(0 if good else 1)


if __name__ == "__main__":
    main()
