"""Change request No. 4, "Hourly cards for the harbour office": a month's cards written, and cards of this form read.

The manual's format is (I1,1X,I5,7X,3I2,12A4): (001, section 1.3, unit 4, (vi)). The reader doesn't look at the writer: it
takes a card's columns from the format statement and its numbers by document 01's rule.
"""

import re
from collections import namedtuple

import heights
from cards import WHOLE
from month import days_in_month
from refusal import Refusal

FORMAT = "(I1,1X,I5,7X,3I2,12A4)"
HOURS = 12
LARGEST_STATION = 99_999
LOWEST, HIGHEST = -999, 9_998
LINE = 69  # 68 columns and LF

# One card: number 1 or 2, station number, full year, month, day, twelve heights in centimetres.
HourlyCard = namedtuple("HourlyCard", "number station year month day heights")


# Writing


def centimetres(height):
    """ "Heights are in centimetres, the nearest, a half going up." From tenths of a millimetre."""
    return (height + 50) // 100


def first_minute(day, number):
    """ "Card 1 has 01:00 to 12:00, card 2 has 13:00 to 24:00." The minute of the month of a card's first height."""
    return (day - 1) * 1_440 + (60 if number == 1 else 13 * 60)


def twelve_heights(month, day, number):
    first = first_minute(day, number)
    return [centimetres(heights.height(month, first + 60 * hour)) for hour in range(HOURS)]


def month_cards(month, station):
    """The cards of a prepared month, "earliest hours first"."""
    return [
        HourlyCard(number, station, month.year, month.number, day, twelve_heights(month, day, number))
        for day in range(1, month.days + 1)
        for number in (1, 2)
    ]


def card_line(card):
    """ "Skipped columns are blank, and numbers are padded on the left with blanks." LF behind it."""
    date = b"%2d%2d%2d" % (card.day, card.month, card.year % 100)
    return b"%d %5d%7s" % (card.number, card.station, b"") + date + b"".join(b"%4d" % height for height in card.heights) + b"\n"


def check_cards(cards):
    """33: "a height outside -999 to 9998, with the first such card as the place, from 1" """
    for place, card in enumerate(cards, 1):
        if not all(LOWEST <= height <= HIGHEST for height in card.heights):
            raise Refusal(33, place)


def write(month, station, places):
    """The bytes of a prepared month's cards; places is how many bytes are lent."""
    # "They come after the state checks, in that order."
    if station > LARGEST_STATION:
        raise Refusal(32)
    cards = month_cards(month, station)
    check_cards(cards)
    if LINE * len(cards) > places:
        raise Refusal(34)
    return b"".join(map(card_line, cards))


# Reading


def fields(form):
    """The fields of a format statement from the left: (letter, columns). "nX" is one field of n columns."""
    for item in form.strip("()").split(","):
        times, letter, width = re.fullmatch(r"(\d*)([IAX])(\d*)", item).groups()
        yield from [(letter, int(times))] if letter == "X" else [(letter, int(width))] * int(times or 1)


def columns(line):
    """What stands in the fields of a card; short lines count as padded with blanks, skipped columns are ignored."""
    line, at = line.ljust(80), 0
    for letter, width in fields(FORMAT):
        if letter != "X":
            yield line[at : at + width]
        at += width


def number_in(field, place):
    """ "A number is blanks, perhaps a minus, digits, blanks." Else 2."""
    match = WHOLE.fullmatch(field)
    if not match:
        raise Refusal(2, place)
    sign, digits = match.groups()
    return -int(digits) if sign else int(digits)


def full_year(two_digits):
    """ "Two digits 50 to 99 stand for 1950 to 1999, and 00 to 49 for 2000 to 2049." """
    return two_digits + (1900 if two_digits >= 50 else 2000)


def in_range(card):
    """Whether a card's numbers are such as the request names; the date one of the calendar."""
    return (
        card.number in (1, 2)
        and 0 <= card.station <= LARGEST_STATION
        and 1 <= card.month <= 12
        and 1 <= card.day <= days_in_month(card.year, card.month)
        and all(LOWEST <= height <= HIGHEST for height in card.heights)
    )


def read_card(line, place):
    """The card on a line: 1, 2 and 3 are document 01's, the place is the line."""
    if len(line) > 80 or not all(32 <= byte <= 126 for byte in line):
        raise Refusal(1, place)
    number, station, day, month, year, *rest = [number_in(field, place) for field in columns(line)]
    card = HourlyCard(number, station, full_year(year), month, day, rest)
    if year < 0 or not in_range(card):
        raise Refusal(3, place)
    return card


def read(data):
    """The cards in a text; "Lines end in LF (the last may lack it)"."""
    lines = data.split(b"\n")
    if lines[-1] == b"":
        lines.pop()
    return [read_card(line, place) for place, line in enumerate(lines, 1)]
