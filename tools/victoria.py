"""The manual's published sample (001, appendices 7.4 and 7.5) over the proved clock.

Usage: python3 tools/victoria.py REPLAY
Makes one replay script of the sample's cards, station and month, gives it to the program REPLAY, and compares what it writes with the
printed figures and, line for line, with the second code.
"""

import json
import os
import subprocess
import sys

HERE = os.path.dirname(os.path.abspath(__file__))
DATA = os.path.join(HERE, "..", "data")
sys.path.insert(0, os.path.join(HERE, "..", "second"))

from cards import read_card_file  # noqa: E402

TOLERANCE = 6  # in 10^-4 of the printed unit
LAST = 31 * 1440


def script(sample, cards):
    """The sample as a replay script: hourly heights from 00:00 of the 1st, then all turns of the month."""
    places = {name: place for place, (name, _) in enumerate(read_card_file(cards).frequencies)}
    records = [(places[c["name"].encode().ljust(5)], c["amplitude_e4"], c["phase_e2"]) for c in sample["constituents"]]
    lines = [b"cards %d\n" % len(cards) + cards + b"\n"]
    lines.append(b"station %d %d\n" % (sample["station"]["latitude_minutes_signed"], len(records)))
    lines += [b"%d %d %d\n" % record for record in records]
    lines.append(b"date 1976 7\nseries 0 60 %d\nturns 0 %d 1000 1000\n" % (31 * 24 + 1, LAST))
    return b"".join(lines)


def main():
    with open(os.path.join(DATA, "victoria-1976-07.json")) as file:
        sample = json.load(file)["prediction"]
    with open(os.path.join(DATA, "standard-cards.txt"), "rb") as file:
        text = script(sample, file.read())
    ours = subprocess.run([sys.argv[1]], input=text, capture_output=True, check=True).stdout
    second = subprocess.run([sys.executable, os.path.join(HERE, "..", "second", "replay.py")], input=text, capture_output=True, check=True).stdout
    if ours != second:
        sys.exit("Victoria: the clock and the second code differ")

    answers = ours.decode().split("\n")
    heights = [int(h) for h in answers[3].split()[1:]]
    off = [abs(heights[e["minute"] // 60] - 10 * e["height_e3"]) for e in sample["hourly"] if e["height_e3"] is not None]
    turns = answers[4].split()
    minutes = [int(m) for m in turns[3::2]]
    printed = [t["minute"] for t in sample["turns"]]
    first = "high" if turns[2] == "1" else "low"
    print("Victoria, July 1976: %d printed heights, the worst off by %d x 10^-4 of the printed unit; %d printed turns, %d at the printed minute; the first is %s"
          % (len(off), max(off), len(printed), sum(a == b for a, b in zip(minutes, printed)), first))
    good = len(off) == sample["hourly_legible"] and max(off) <= TOLERANCE and minutes == printed and first == sample["turns"][0]["kind"]
    sys.exit(0 if good else 1)


if __name__ == "__main__":
    main()
