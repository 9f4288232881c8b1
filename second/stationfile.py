"""The station file in the manual's own columns (001, section 3.3): reads it, or refuses with a number and a line.

Line 1 is the station card (5X,I4,1X,3A6,A4,A3,1X,I2,1X,I2,2X,I3,1X,I2), the rest are constituent cards (5X,A5,28X,F8.4,F7.2) up to a blank
card or the end of the file. Lines, names and numbers are as in the card file of document 01.
"""

from collections import namedtuple

from cards import Deck

MAX_RECORDS = 146
# A record carries any amplitude and phase lag of 32 bits; a station asks for their ranges.
LARGEST = 2**32 - 1

# latitude in signed minutes; records: list of (place, tenths of a millimetre, hundredths of a degree)
StationFile = namedtuple("StationFile", "latitude records")


def station_name(data):
    """3A6,A4 from column 11: as many of the 22 columns as the first line has."""
    return data.split(b"\n")[0][10:32]


def time_zone(data):
    """A3 from column 33."""
    return data.split(b"\n")[0][32:35]


def read_station_file(data, names):
    """The station of a file; names are those of the table's frequencies, five bytes each, in their order."""
    deck = Deck(data)
    latitude = read_station_card(deck.next_card())
    places = {}
    for place, name in enumerate(names):
        places.setdefault(name, place)
    records = []
    # "A blank card, or the end of the file, ends the constituents"
    while deck.used < len(deck.lines):
        card = deck.next_card()
        if card.is_blank():
            break
        if len(records) == MAX_RECORDS:
            card.refuse(6)
        records.append(read_constituent_card(card, places))
    return StationFile(latitude, records)


def read_station_card(card):
    """The latitude. South is a minus right before or at the head of the degrees, or an S or s in one of the two columns behind the minutes."""
    card.skip(5 + 4 + 1 + 22 + 3)
    before = card.text(1)
    head = card.columns[card.at : card.at + 1]
    degrees = abs(card.whole(2, -99, 99))
    card.skip(1)
    minutes = card.whole(2, 0, 59)
    # "take blanks and at most one letter, N, S, n or s; any other byte there is refused by 3"
    letters = card.text(2).replace(b" ", b"")
    if letters not in (b"", b"N", b"S", b"n", b"s"):
        card.refuse(3)
    minus, marked = b"-" in (before, head), letters.upper() == b"S"
    # "and so is an S beside a minus before the degrees"
    if minus and marked:
        card.refuse(3)
    size = 60 * degrees + minutes
    return -size if minus or marked else size


def read_constituent_card(card, places):
    card.skip(5)
    name = card.text(5)
    if name not in places:
        card.refuse(5)
    card.skip(28)
    amplitude = card.pointed(8, 4, 0, LARGEST)
    phase = card.pointed(7, 2, 0, LARGEST)
    return places[name], amplitude, phase
