"""A clock runs, an update is refused, and the clock goes on: Victoria, the manual's sample station, in July 1976.

Usage: python3 incident.py CARDS, where CARDS is a card file (data/standard-cards.txt).
"""

import sys

from cuvalimodo import Clock, Record, Refused, check_cards

# The sample's constituents (001, appendix 7.4): name, amplitude, phase lag. Amplitudes are 10^-4 of the sample's unit, feet by their size, so the
# heights are too.
VICTORIA = [
    ("Z0", 60670, 0), ("Q1", 1970, 13030), ("O1", 12110, 13700), ("NO1", 1120, 12080), ("P1", 6740, 14850), ("S1", 980, 15410),
    ("K1", 20700, 14940), ("J1", 1170, 16640), ("N2", 2940, 6340), ("M2", 12130, 8700), ("S2", 3320, 9390),
]
LATITUDE = 48 * 60 + 25
ASKED = 13 * 1440 + 8 * 60 + 30


def read_month(clock):
    """What the clock says of the month: its turns and its hourly heights."""
    return clock.turns(0, 31 * 1440), clock.series(0, 60, 31 * 24 + 1)


def print_first_day(turns):
    print("Victoria, July 1976: %d turns, on the first day" % len(turns))
    for turn in turns:
        if turn.minute < 1440:
            print("%02d:%02d  %s  %7.4f" % (turn.minute // 60, turn.minute % 60, "high" if turn.high else "low ", turn.height / 10000))


def main():
    with open(sys.argv[1], "rb") as file:
        cards = file.read()
    print("cards: %d frequencies, %d mains, %d satellites, %d shallow" % check_cards(cards))
    berth = Clock()
    berth.load_cards(cards)
    berth.set_station(LATITUDE, [Record(berth.place_of(name), amplitude, phase) for name, amplitude, phase in VICTORIA])
    berth.set_date(1976, 7)
    before = read_month(berth)
    print_first_day(before[0])
    print("the water stands at %.4f at 08:30 on the 14th" % (berth.height(ASKED) / 10000))

    update = [Record(place, 500, 0) for place in range(147)]
    try:
        berth.set_station(LATITUDE, update)
    except Refused as refused:
        print("an update with %d records: refusal %d at %d, %s" % (len(update), refused.number, refused.place, refused.text))

    turns, hourly = after = read_month(berth)
    if before != after:
        sys.exit("the clock is changed")
    print("the clock goes on: the same %d turns and %d hourly heights, and %.4f at 08:30 on the 14th" % (len(turns), len(hourly), berth.height(ASKED) / 10000))


if __name__ == "__main__":
    main()
