"""Compares hourly cards with the manual's published prediction, Victoria, July 1976 (001, appendix 7.5).

Usage: python3 second/check_hourly.py [REPLAY]

REPLAY is a replay program, such as target/bin/replay; without it the second code's own second/replay.py is run. The program gets the
manual's cards, station and month and is asked for the hourly cards; they are read by second/hourly.py's reader, and the heights
compared with every legible one that the manual prints, all of them at full hours from 01:00 of the 1st to 24:00 of the 31st. The
clock's unit is here 10^-4 of the printed unit, so a card's is one hundredth of it. Fails where a card's height is more than one
hundredth from the printed one, where cards or dates are not July's, and where not all legible heights were compared.
"""

import json
import os
import subprocess
import sys

import hourly
from cards import read_card_file

HERE = os.path.dirname(os.path.abspath(__file__))
DATA = os.path.join(HERE, "..", "data")
OWN = [sys.executable, os.path.join(HERE, "replay.py")]
TOLERANCE = 10  # thousandths of the printed unit: one hundredth
CARDS = 62


def load(name):
    with open(os.path.join(DATA, name), "rb") as file:
        return file.read()


def script(sample, cards):
    """The sample as a replay script that ends with the call `hourly`."""
    places = {name: place for place, (name, _) in enumerate(read_card_file(cards).frequencies)}
    records = [(places[c["name"].encode().ljust(5)], c["amplitude_e4"], c["phase_e2"]) for c in sample["constituents"]]
    station = b"station %d %d\n" % (sample["station"]["latitude_minutes_signed"], len(records))
    lines = b"".join(b"%d %d %d\n" % record for record in records)
    asked = b"date 1976 7\nhourly %d %d\n" % (sample["station"]["number"], CARDS * hourly.LINE)
    return b"cards %d\n%s\n" % (len(cards), cards) + station + lines + asked


def cards_in(answer):
    """The cards behind the three accepted calls and the line with their bytes."""
    first = b"accepted\n" * 3 + b"hourly %d\n" % (CARDS * hourly.LINE)
    if not answer.startswith(first):
        sys.exit("hourly: answered %r" % answer[:200])
    return hourly.read(answer.removeprefix(first))


def right_dates(cards, station):
    """Whether these are July's cards of the station, earliest first."""
    wanted = [(number, station, 1976, 7, day) for day in range(1, 32) for number in (1, 2)]
    return [card[:5] for card in cards] == wanted


def differences(cards, sample):
    """Sizes of the differences, in thousandths of the printed unit, of all legible heights."""
    heights = {(card.day, 12 * card.number - 11 + hour): height for card in cards for hour, height in enumerate(card.heights)}
    return [
        abs(10 * heights[entry["day"], entry["hour"]] - entry["height_e3"])
        for entry in sample["hourly"]
        if entry["height_e3"] is not None
    ]


def main():
    sample = json.loads(load("victoria-1976-07.json"))["prediction"]
    text = script(sample, load("standard-cards.txt"))
    answer = subprocess.run(sys.argv[1:2] or OWN, input=text, capture_output=True, check=True).stdout
    cards = cards_in(answer)
    dates = right_dates(cards, sample["station"]["number"])
    off = differences(cards, sample) if dates else []
    past = sum(size > TOLERANCE for size in off)
    print("hourly: %d cards read, %d printed heights compared, the worst off by %d thousandths, %d past one hundredth" % (
        len(cards), len(off), max(off, default=0), past))
    good = dates and off and len(off) == sample["hourly_legible"] and not past
    print("Victoria's hourly cards: " + ("agree" if good else "DIFFER"))
    sys.exit(0 if good else 1)


if __name__ == "__main__":
    main()
