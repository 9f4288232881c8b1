"""Document 01, "The card file": reads the four parts, or refuses with a number and a line."""

import re
from collections import namedtuple

from refusal import Refusal

MAX_FREQUENCIES = 160
MAX_MAINS = 64
MAX_SATELLITES = 256
MAX_SHALLOW = 128

# frequencies: list of (name, 10^-10 cycle an hour), the place is the index
# longitudes, increases: five numbers each in 10^-10 cycle: s, h, p, N', p'
# definitions: name -> Main or Shallow
Table = namedtuple("Table", "frequencies longitudes increases definitions")
# phase in hundredths of a cycle
Main = namedtuple("Main", "name doodson phase satellites")
# phase in hundredths of a cycle, ratio in ten-thousandths; mark 1 diurnal, 2 semidiurnal, 0 none
Satellite = namedtuple("Satellite", "differences phase ratio mark")
# parts: list of (whole coefficient, Main)
Shallow = namedtuple("Shallow", "name parts")

WHOLE = re.compile(rb" *(-?)([0-9]+) *")
POINTED = re.compile(rb" *(-?)([0-9]*)\.([0-9]*) *")

BLANK_NAME = b" " * 5


class Card:
    """One line of the file, padded with blanks to 80 columns, read field by field from the left."""

    def __init__(self, line, number):
        self.columns = line.ljust(80)
        self.number = number
        self.at = 0

    def is_blank(self):
        """ "A blank card is blanks throughout." """
        return self.columns == b" " * 80

    def refuse(self, number):
        raise Refusal(number, self.number)

    def skip(self, width):
        """nX: "skipped columns ... are ignored" """
        self.at += width

    def text(self, width):
        """An: the columns as they stand."""
        field = self.columns[self.at : self.at + width]
        self.at += width
        return field

    def whole(self, width, lowest, highest):
        """In: "A number is blanks, perhaps a minus, digits, blanks." """
        match = WHOLE.fullmatch(self.text(width))
        if not match:
            self.refuse(2)
        return self.in_range(match.group(1), int(match.group(2)), lowest, highest)

    def pointed(self, width, decimals, lowest, highest):
        """Fn.d: "F fields need one point, at least one digit, and no more decimals than
        their format." Gives, and compares, units of the last decimal."""
        match = POINTED.fullmatch(self.text(width))
        if not match:
            self.refuse(2)
        sign, before, after = match.groups()
        if not before + after or len(after) > decimals:
            self.refuse(2)
        return self.in_range(sign, int(before + after.ljust(decimals, b"0")), lowest, highest)

    def in_range(self, sign, size, lowest, highest):
        value = -size if sign else size
        if not lowest <= value <= highest:
            self.refuse(3)
        return value


class Deck:
    """The lines of a card file, handed out one after another."""

    def __init__(self, data):
        # "Lines end in LF (the last may lack it)"
        self.lines = data.split(b"\n")
        if self.lines[-1] == b"":
            self.lines.pop()
        self.used = 0

    def next_card(self):
        if self.used == len(self.lines):
            # 7: "file ends inside a part; place: the line after the last"
            raise Refusal(7, self.used + 1)
        line = self.lines[self.used]
        self.used += 1
        # 1: "line over 80 columns or a byte outside 32 to 126"
        if len(line) > 80 or not all(32 <= byte <= 126 for byte in line):
            raise Refusal(1, self.used)
        return Card(line, self.used)

    def cards_to_blank(self, limit):
        """The cards of a part up to the blank card that ends it; a card past the limit is 6
        "before its fields"."""
        count = 0
        while True:
            card = self.next_card()
            if card.is_blank():
                return
            if count == limit:
                card.refuse(6)
            count += 1
            yield card


def read_card_file(data):
    deck = Deck(data)
    frequencies, lines = read_frequencies(deck)
    # Part 2: "at least 0 and under 1", "0 to 20"
    longitudes = read_five(deck, 10**10 - 1)
    increases = read_five(deck, 20 * 10**10)
    definitions = {}
    names = {name for name, _ in frequencies}
    read_mains(deck, names, definitions)
    read_shallows(deck, names, definitions)
    # "Undefined frequency names come last, in their order."
    for (name, _), line in zip(frequencies, lines):
        if name not in definitions:
            raise Refusal(5, line)
    return Table(frequencies, longitudes, increases, definitions)


def read_frequencies(deck):
    """Part 1, (4X,A5,3X,F13.10,4X,A5)."""
    frequencies = []
    lines = []
    seen = set()
    for card in deck.cards_to_blank(MAX_FREQUENCIES):
        card.skip(4)
        name = card.text(5)
        if name == BLANK_NAME or name in seen:
            card.refuse(4)
        card.skip(3)
        # "0 to 0.4999999999"
        frequency = card.pointed(13, 10, 0, 4_999_999_999)
        # "The second name is ignored."
        seen.add(name)
        frequencies.append((name, frequency))
        lines.append(card.number)
    return frequencies, lines


def read_five(deck, highest):
    """A card of part 2, (5F13.10)."""
    card = deck.next_card()
    return [card.pointed(13, 10, 0, highest) for _ in range(5)]


def read_definition_name(card, names, definitions):
    name = card.text(5)
    # 4: "a constituent's own name blank, ... or twice in parts 3 and 4 together"
    if name == BLANK_NAME or name in definitions:
        card.refuse(4)
    # 5: "definition without frequency"
    if name not in names:
        card.refuse(5)
    return name


def read_mains(deck, names, definitions):
    """Part 3, (6X,A5,1X,6I3,F5.2,I4), each card with its satellite cards."""
    satellites_in_all = 0
    for card in deck.cards_to_blank(MAX_MAINS):
        card.skip(6)
        name = read_definition_name(card, names, definitions)
        card.skip(1)
        doodson = [card.whole(3, -12, 12) for _ in range(6)]
        phase = card.pointed(5, 2, -100, 100)
        count = card.whole(4, 0, 16)
        # "a satellite count that passes 256 in all is 6 after its own 3"
        satellites_in_all += count
        if satellites_in_all > MAX_SATELLITES:
            card.refuse(6)
        definitions[name] = Main(name, doodson, phase, read_satellites(deck, count))


def read_satellites(deck, count):
    """Three a card, (11X,3(3I3,F4.2,F7.4,1X,I1,1X)); "unused fields are ignored"."""
    satellites = []
    while len(satellites) < count:
        card = deck.next_card()
        card.skip(11)
        for _ in range(min(3, count - len(satellites))):
            differences = [card.whole(3, -9, 9) for _ in range(3)]
            phase = card.pointed(4, 2, -100, 100)
            ratio = card.pointed(7, 4, 0, 20_000)
            card.skip(1)
            # "Mark 1 is diurnal, 2 semidiurnal, any other byte none."
            mark = {b"1": 1, b"2": 2}.get(card.text(1), 0)
            card.skip(1)
            satellites.append(Satellite(differences, phase, ratio, mark))
    return satellites


def read_shallows(deck, names, definitions):
    """Part 4, (6X,A5,I1,2X,4(F5.2,A5,5X))."""
    mains = dict(definitions)
    for card in deck.cards_to_blank(MAX_SHALLOW):
        card.skip(6)
        name = read_definition_name(card, names, definitions)
        count = card.whole(1, 1, 4)
        card.skip(2)
        parts = []
        sizes = 0
        for _ in range(count):
            # "a whole coefficient (-9 to 9, not 0)", read in hundredths
            hundredths = card.pointed(5, 2, -900, 900)
            if hundredths == 0 or hundredths % 100 != 0:
                card.refuse(3)
            coefficient = hundredths // 100
            # "sizes add up to at most 12"
            sizes += abs(coefficient)
            if sizes > 12:
                card.refuse(3)
            part = card.text(5)
            # 5: "part not a main"
            if part not in mains:
                card.refuse(5)
            card.skip(5)
            parts.append((coefficient, mains[part]))
        definitions[name] = Shallow(name, parts)
