"""Writes random card files and random replay scripts, the same ones for the same seed.

Usage: python3 second/generate.py cards SEED COUNT OUTDIR [STANDARD]
       python3 second/generate.py scripts SEED COUNT OUTDIR [STANDARD]

STANDARD is the standard card file (default data/standard-cards.txt of this repository).
cards: NNNNN.cards, the same as a one-call script NNNNN.replay, and all of them in order in all.replay.
scripts: NNNNN.replay, about 100 calls each.
"""

import os
import random
import sys

import balance
import berths
import bookings
import decks
import heights
import hours
import years
from clock import Clock
from month import day_count
from refusal import Refusal
from years import LARGEST, LARGEST_BUFFER, chance

STANDARD_PATH = os.path.join(os.path.dirname(os.path.abspath(__file__)), "..", "data", "standard-cards.txt")
CALLS = 100


def line(word, *numbers):
    return word + b"".join(b" %d" % number for number in numbers) + b"\n"


def cards_call(data):
    return b"cards %d\n%s\n" % (len(data), data)


class ScriptWriter:
    """Writes calls one after another. A clock of the model follows the calls that change the state,
    so that later calls can be chosen to fit it or to miss it narrowly."""

    def __init__(self, rng, standard, ratios, standard_share):
        self.rng = rng
        self.standard = standard
        self.ratios = ratios
        self.standard_share = standard_share
        self.clock = Clock()
        self.calls = []

    def data(self):
        return b"".join(self.calls)

    def follow(self, call, *arguments):
        try:
            call(*arguments)
        except Refusal:
            pass

    def write(self, word, *numbers):
        self.calls.append(line(word, *numbers))

    # Cards

    def cards(self):
        rng = self.rng
        roll = rng.random()
        if roll < self.standard_share:
            data = self.standard
        elif roll < 0.85:
            data = self.useful_deck()
        else:
            data = decks.card_file(rng, self.standard)
        self.put_cards(data)

    def put_cards(self, data):
        self.calls.append(cards_call(data))
        self.follow(self.clock.set_cards, data)

    def useful_deck(self):
        rng = self.rng
        shape = decks.Shape(rng.randint(3, 14), rng.randint(0, 8), None, self.ratios, rng.random() < 0.5)
        return decks.build(rng, shape).data()

    # Stations

    def latitude(self):
        rng = self.rng
        near = rng.choice([0, 1, 299, 300, 301, 2_905, 5_399, 5_400, 1_583, rng.choice(balance.EDGES)])
        return rng.choice([near, -near, rng.randint(-5_400, 5_400), rng.randint(-330, 330)])

    def amplitude(self):
        rng = self.rng
        return rng.choice([0, 1, 65_535, rng.randint(0, 65_535), rng.randint(0, 20_000), rng.randint(0, 2_000)])

    def lag(self):
        rng = self.rng
        return rng.choice([0, 9_000, 18_000, 27_000, 35_999, rng.randint(0, 35_999), rng.randint(0, 35_999)])

    def place_of(self, name):
        """The place of a name in the table, or None."""
        for place, (known, _) in enumerate(self.clock.table.frequencies):
            if known == name.ljust(5):
                return place
        return None

    def named_records(self, amplitudes):
        records = []
        for name, amplitude in amplitudes:
            place = self.place_of(name)
            if place is not None:
                records.append((place, amplitude, self.lag()))
        return records

    def class_tide(self):
        """Names and amplitudes of the four that decide the class: diurnal, semidiurnal, mixed, at the edges."""
        rng = self.rng
        unit = rng.choice([1, 10, 50])
        edge = rng.choice([(100, 400), (101, 400), (300, 100), (301, 100)])
        other = rng.choice([
            (10, 1_000), (1_000, 10), (0, 0), (0, 500), (500, 0), (300, 300), (400, 300), (200, 500),
            (rng.randint(0, 1_000), rng.randint(0, 1_000)),
        ])
        k1_o1, m2_s2 = rng.choice([edge, other])
        k1 = rng.randint(0, k1_o1)
        m2 = rng.randint(0, m2_s2)
        return [(b"K1", k1 * unit), (b"O1", (k1_o1 - k1) * unit), (b"M2", m2 * unit), (b"S2", (m2_s2 - m2) * unit)]

    def class_records(self):
        """Stations of a known kind: of a class, double high water, still."""
        rng = self.rng
        tide = self.class_tide()
        double = [(b"M2", 9_000), (b"M4", rng.randint(4_000, 9_000)), (b"M6", rng.randint(0, 6_000)), (b"MS4", 2_000)]
        still = [(b"Z0", self.amplitude())]
        amplitudes = chance(rng, (8, tide), (3, tide + still), (3, double), (1, still + double), (2, still))
        records = self.named_records(amplitudes)
        if amplitudes[0] == tide[0] and rng.random() < 0.4:
            # Smaller constituents beside the four that decide the class.
            taken = {place for place, _, _ in records}
            others = self.random_records(25)
            records += [(place, amplitude % 3_000, lag) for place, amplitude, lag in others if place not in taken]
        rng.shuffle(records)
        return records

    def double_records(self):
        """Stations of any class with large overtides."""
        tide = self.class_tide()
        largest = max(amplitude for _, amplitude in tide)
        records = self.named_records(tide + berths.pick_overtides(self.rng, largest))
        return self.rng.sample(records, len(records))

    def random_records(self, most):
        rng = self.rng
        size = len(self.clock.table.frequencies)
        count = min(size, 146, rng.choice([1, 2, 4, 8, 12, rng.randint(0, most)]))
        return [(place, self.amplitude(), self.lag()) for place in rng.sample(range(size), count)]

    def shallow_records(self):
        """Records from the later places, where a table's shallow constituents often stand."""
        size = len(self.clock.table.frequencies)
        places = range(size // 2, size)
        count = min(len(places), self.rng.randint(1, 6))
        return [(place, self.amplitude(), self.lag()) for place in self.rng.sample(places, count)]

    def spoil_station(self, latitude, records, strides):
        """One thing wrong with a station; two or three sometimes, for the order of refusals."""
        rng = self.rng
        size = len(self.clock.table.frequencies) if self.clock.table else 0
        records = list(records)
        for _ in range(rng.choice([1, 1, 2, 2, 3])):
            at = rng.randint(0, len(records))
            wrong = rng.choice(["latitude", "strides", "strides", "strides", "count", "place", "repeated", "amplitude", "phase"])
            if wrong == "strides":
                strides = berths.spoil(rng, strides)
            elif wrong == "latitude":
                latitude = rng.choice([-5_401, 5_401, 2**31 - 1, -(2**31), rng.randint(5_401, 99_999)])
            elif wrong == "count":
                count = rng.choice([147, 147, 148, 300, 1_024])
                records = [(rng.randint(0, 255), 1, 1) for _ in range(count)]
            elif wrong == "place":
                records.insert(at, (rng.choice([min(size, 255), 255, rng.randint(min(size, 255), 255)]), 70_000, 1))
            elif wrong == "repeated" and records:
                records.insert(at, (rng.choice(records)[0], rng.choice([1, 70_000]), 1))
            elif wrong == "amplitude" and records:
                place, _, lag = records.pop(rng.randrange(len(records)))
                records.append((place, rng.choice([65_536, LARGEST, 70_000]), rng.choice([lag, 36_000])))
            elif wrong == "phase" and records:
                place, amplitude, _ = records.pop(rng.randrange(len(records)))
                records.append((place, amplitude, rng.choice([36_000, LARGEST, 50_000])))
        return latitude, records, strides

    def records(self):
        """Those of a station, of one kind or another; none where there is no table."""
        rng = self.rng
        if not self.clock.table:
            return []
        kind = chance(rng, (8, "class"), (5, "double"), (8, "random"), (4, "shallow"), (1, "empty"), (0.3, "full"))
        if kind == "class":
            return self.class_records()
        if kind == "double":
            return self.double_records()
        if kind == "random":
            return self.random_records(20)
        if kind == "shallow":
            return self.shallow_records()
        size = len(self.clock.table.frequencies) if kind == "full" else 0
        return [(place, self.amplitude(), self.lag()) for place in range(min(size, 146))]

    def station(self, good=0.7):
        rng = self.rng
        station = self.latitude(), self.records(), berths.pick_line(rng)
        self.put_station(*station if rng.random() < good else self.spoil_station(*station))

    def put_station(self, latitude, records, strides=None):
        """With strides on its line, or on the line without them."""
        lines = b"".join(b"%d %d %d\n" % record for record in records)
        self.calls.append(line(b"station", latitude, len(records), *(strides or ())) + lines)
        self.follow(self.clock.set_station, latitude, records, strides or heights.USUAL_STRIDES)

    # Dates

    def date(self, good=0.85):
        rng = self.rng
        year = rng.choice([1950, 1976, 2049, rng.choice([1999, 2000, 2005]), rng.randint(1950, 2049), rng.randint(1950, 2049)])
        month = rng.choice([1, 2, 2, 12, rng.randint(1, 12), rng.randint(1, 12)])
        if rng.random() > good:
            if rng.random() < 0.5:
                year = rng.choice([0, 1949, 2050, 2100, LARGEST])
            else:
                month = rng.choice([0, 13, LARGEST, rng.randint(13, 300)])
        self.put_date(year, month)

    def put_date(self, year, month):
        self.write(b"date", year, month)
        self.follow(self.clock.set_date, year, month)

    # Heights, series, turns

    def last_minute(self):
        return self.clock.month.days * 1_440 if self.clock.month else 44_640

    def minute(self, good=0.9):
        rng = self.rng
        last = self.last_minute()
        if rng.random() > good:
            return rng.choice([last + 1, last + 1_440, LARGEST, rng.randint(last + 1, LARGEST)])
        return rng.choice([0, 1, last, 21_600, rng.randint(0, last), rng.randint(0, last)])

    def height(self):
        self.write(b"height", self.minute())

    def series(self):
        rng = self.rng
        start = self.minute(0.95)
        step = chance(rng, (4, 1), (4, 60), (2, 1_440), (6, rng.randint(1, 1_440)), (1, 0), (1, 1_441), (0.3, LARGEST))
        room = (self.last_minute() - start) // step + 1 if step and start <= self.last_minute() else 1
        most = 2_000 if rng.random() < 0.05 else 150
        count = chance(
            rng, (1, 0), (1, 1), (6, min(room, rng.randint(0, most))), (2, room if room <= most else 3),
            (1, min(room + 1, LARGEST_BUFFER)), (0.3, LARGEST_BUFFER if step > 1 else 0),
        )
        self.write(b"series", start, step, count)

    def stride(self):
        """The station's, of its class."""
        return heights.stride_of(self.clock.table, self.clock.station) if self.clock.station else 180

    def few_strides(self):
        """So many strides as take little time, as a rule; seldom a month of single minutes and few constituents."""
        records = len(self.clock.station.records) if self.clock.station else 0
        return chance(self.rng, (24, 16_000), (6, 50_000), (1, 140_000)) // max(1, records)

    def turns(self):
        rng = self.rng
        last = self.last_minute()
        stride = self.stride()
        if rng.random() < 0.12:
            first, end = 0, last
        else:
            first = self.minute(0.97)
            end = chance(
                rng, (12, first + rng.randint(0, 7_200)), (1, first), (2, first + stride), (1, first + stride - 1),
                (1, first + stride * rng.randint(2, 9)), (1, last), (0.5, rng.randint(0, last)), (0.5, last + 1),
            )
            end = min(end, LARGEST) if first > last else min(end, last + 1 if rng.random() < 0.05 else last)
        if first <= end <= last:
            end = min(end, first + self.few_strides() * stride)
        self.put_turns(first, end)

    def put_turns(self, first, last):
        try:
            count = len(self.clock.turns(first, last, LARGEST, LARGEST)[0])
        except Refusal:
            count = self.rng.randint(0, 5)
        self.write(b"turns", first, last, *self.places(count))

    def places(self, count):
        """Two buffers for so many turns: as many places, one fewer, or plenty."""
        rng = self.rng
        enough = rng.choice([count, count + 1, max(count, 200)])
        short = max(0, rng.choice([count - 1, 0, count // 2]))
        return chance(
            rng, (6, (enough, enough)), (3, (count, count)), (1, (enough, short)), (1, (short, enough)),
            (0.5, (short, short)), (0.2, (LARGEST_BUFFER, LARGEST_BUFFER)),
        )

    def balanced_turns(self):
        """A table of creeping constituents, and stations whose slopes balance about a minute of the month."""
        rng = self.rng
        self.put_cards(decks.creeping_file(rng))
        for _ in range(rng.randint(1, 3)):
            places = rng.sample(range(len(decks.CREEPERS)), rng.choice([2, 2, 4]))
            records = balance.balanced_records(rng, places, self.frequency_at(0), rng.randint(0, 28 * years.DAY))
            self.put_station(self.latitude(), records, berths.pick_long(rng))
            self.date(1)
            self.write(b"turns", 0, self.last_minute(), 99, 99)
            year = rng.randint(1950, 2049)
            self.write(b"year", year, 0, years.DAY, 2, 0, years.midnights(year)[-1], 99, 99)

    # Strides

    def berth(self):
        """A berth with double high waters under several strides, refused stations between them, and the same search each time. The
        tide stays, or one of another class comes."""
        rng = self.rng
        self.put_cards(self.standard if rng.random() < 0.2 else decks.double_file(rng))
        latitude, records, date = self.latitude(), self.double_records(), hours.pick_date(rng)
        first, length = rng.randint(0, 30 * years.DAY), rng.randint(200, 3_000)
        for _ in range(rng.randint(2, 4)):
            self.put_station(latitude, records, berths.pick_line(rng))
            self.put_date(*date)
            self.berth_search(first, length)
            if rng.random() < 0.7:
                self.put_station(*self.spoil_station(latitude, records, berths.pick_line(rng)))
                if rng.random() < 0.3:
                    self.put_date(*date)
                self.berth_search(first, length)
            records = rng.choice([records, self.double_records()])

    def berth_search(self, first, length):
        """By the month as a rule, at times on the year's sheet."""
        length = min(length, self.few_strides() * self.stride())
        if self.clock.month and self.rng.random() < 0.25:
            begin = years.midnights(self.clock.month.year)[self.clock.month.number - 1]
            self.put_year(self.clock.month.year, (begin, 60, 2), begin + first, begin + first + length)
        else:
            first = min(first, self.last_minute() - length)
            self.put_turns(first, self.near_turn(first, first + length))

    def near_turn(self, first, last):
        """The last minute of a search, at times about the end of the stride that leads to one of its turns."""
        rng = self.rng
        found = self.clock.turns(first, last, LARGEST, LARGEST)[0] if self.clock.month else []
        if not found or rng.random() < 0.5:
            return last
        stride = self.stride()
        at = rng.randrange(len(found))
        before, turn = found[at - 1][0] if at else first, found[at][0]
        end = before + stride * -(-(turn - before) // stride) + rng.choice([-1, 0, 0, 1, 1])
        return min(max(end, first), last)

    def fluttering_turns(self):
        """A table of slow constituents, and small strides about a minute where the slope changes its sense more than once or has
        the same size on both sides."""
        rng = self.rng
        self.put_cards(decks.fluttering_file(rng))
        for _ in range(rng.randint(1, 3)):
            minute = rng.randint(0, 28 * years.DAY)
            places = rng.sample(range(len(decks.CREEPERS)), 5)
            records = balance.fluttering_records(rng, places, self.frequency_at(0), minute)
            self.put_station(self.latitude(), records, berths.pick_short(rng))
            self.date(1)
            for _ in range(rng.randint(1, 2)):
                first = max(0, minute - rng.randint(0, 100))
                last = min(minute + rng.randint(0, 200), self.last_minute())
                self.put_turns(first, self.near_turn(first, last))

    # Bookings

    def bookings(self):
        """A day's bookings, now and then with a height of one of the minutes behind it: the same, and the month is as it was."""
        minutes, places = bookings.pick(self.rng, self.last_minute())
        self.calls.append(bookings.call(minutes, places))
        if minutes and self.rng.random() < 0.3:
            self.write(b"height", self.rng.choice(minutes))

    # Hourly cards

    def hourly(self):
        """The month's cards, now and then with a height behind them: the month is as it was."""
        rng = self.rng
        days = self.clock.month.days if self.clock.month else 31
        self.write(b"hourly", hours.pick_station(rng), hours.pick_buffer(rng, days))
        if rng.random() < 0.2:
            self.height()

    def frequency_at(self, place):
        return self.clock.table.frequencies[place][1]

    def limited_hourly(self):
        """A table of still constituents, and stations whose heights reach the limits of a card or the half of a centimetre."""
        rng = self.rng
        cards = decks.still_file(rng)
        self.put_cards(cards)
        for _ in range(rng.randint(1, 3)):
            date = hours.pick_date(rng)
            if rng.random() < 0.4:
                records = hours.still_records(rng, self.place_of, hours.pick_level(rng))
            else:
                records = hours.limited_records(rng, cards, self.place_of, self.frequency_at, date)
            self.put_station(self.latitude(), rng.sample(records, len(records)))
            self.put_date(*date)
            for _ in range(rng.randint(1, 3)):
                self.hourly()

    # Years

    def year(self):
        """A year, now and then with a height behind it: the month is as it was, also where there is none."""
        rng = self.rng
        year = years.pick_year(rng)
        ends = years.midnights(year)
        series, search = years.pick_series(rng, ends), years.pick_search(rng, ends)
        if self.clock.station and len(self.clock.station.records) <= 8:
            # What takes time, rarely and of few constituents.
            series = chance(rng, (30, series), (1, years.whole_series(rng, ends)))
            search = chance(rng, (80, search), (1, (0, ends[-1])))
        first, last = search
        if first <= last <= ends[-1]:
            last = min(last, first + self.few_strides() * self.stride())
        self.put_year(year, series, first, last)
        if rng.random() < 0.3:
            self.height()

    def put_year(self, year, series, first, last):
        try:
            count = len(self.clock.year(year, (0, 1, 0), (first, last, LARGEST, LARGEST))[1])
        except Refusal:
            count = self.rng.randint(0, 5)
        self.write(b"year", year, *series, first, last, *self.places(count))

    def late_year(self):
        """A table and a station with an 11 in one month of the year or in two, a date or two of theirs, and the year."""
        rng = self.rng
        months = rng.choice([[12], [2], rng.sample(range(2, 13), 1), rng.sample(range(1, 13), 2), rng.sample(range(9, 13), 2)])
        self.put_cards(decks.late_file(rng, [day_count(1976, month, 16) for month in months]))
        places = range(len(self.clock.table.frequencies))
        records = [(place, self.amplitude(), self.lag()) for place in rng.sample(places, len(places))]
        self.put_station(self.latitude(), records, berths.pick_line(rng))
        for _ in range(rng.randint(0, 2)):
            self.date()
        self.year()

    # The order of calls

    def any_call(self):
        """A call fit for the state as a rule, and any call now and then."""
        reading = [(3, self.height), (3, self.series), (3, self.bookings), (4, self.turns), (1.2, self.year), (1.2, self.hourly)]
        if self.clock.table is None:
            choices = [(6, self.cards), (1, self.station), (1, self.date)] + [(0.4, call) for _, call in reading]
        elif self.clock.station is None:
            choices = [(1, self.cards), (12, self.station), (1, self.date)] + [(0.3, call) for _, call in reading]
        elif self.clock.month is None:
            choices = [(0.5, self.cards), (4, self.station), (10, self.date)] + [(0.3, call) for _, call in reading]
            choices.append((1, self.year))  # It asks for no month.
        else:
            choices = [(0.5, self.cards), (1, self.station), (1.5, self.date)] + reading
        if self.clock.month is None:
            choices.append((0.7, self.bookings))  # The state is asked before its 31 and 9.
            choices.append((0.3, self.hourly))  # And before its 32 and 34.
        chance(self.rng, *choices, (0.06, self.late_year), (0.18, self.limited_hourly), (0.18, self.balanced_turns),
               (0.25, self.berth), (0.25, self.fluttering_turns))()

    def malformed_line(self):
        """A last line that is not of the format; the run ends there."""
        any_line = self.rng.choice([
            b"height\n", b"height  1\n", b"height 1 \n", b" height 1\n", b"height -1\n", b"height 4294967296\n",
            b"heights 1\n", b"\n", b"date 1976\n", b"series 1 2\n", b"series 1 2 3 4\n", b"turns 1 2 3\n", b"height 1",
            b"station 0 1\n256 0 0\n", b"station 0 2\n0 0 0\n", b"station 0 1\n0 0\n", b"station 2147483648 0\n",
            b"station -2147483649 0\n", b"station 0 1\n-1 0 0\n", b"cards\n", b"cards -1\n", b"height 1\r\n",
            b"\xff\xfe\n", b"height 0x1\n", b"height +1\n", b"date 1976 7 1\n", b"station 0 1\n0 0 0 0\n",
            b"year\n", b"year 1976\n", b"year 1976 0 60 1 0 0 0\n", b"year 1976 0 60 1 0 0 0 0 0\n", b"year 1976 0 60 1 0 0 0 -1\n",
            b"year -1976 0 60 1 0 0 0 0\n", b"year 1976 0 60 1 0 0 0 4294967296\n", b"years 1976 0 60 1 0 0 0 0\n",
            b"year 1976 0 60  1 0 0 0 0\n", b"year 1976 0 60 1 0 0 0 0", *bookings.MALFORMED,
            *hours.MALFORMED,
        ])
        self.calls.append(self.rng.choice([any_line, berths.malformed(self.rng)]))


def script(rng, index, standard):
    """Scripts come in turn with the standard file, natural files, files of large ratios, any files."""
    ratios, standard_share = [("small", 0.85), ("small", 0.1), ("large", 0.0), ("any", 0.2)][index % 4]
    writer = ScriptWriter(rng, standard, ratios, standard_share)
    while len(writer.calls) < CALLS:
        writer.any_call()
    if rng.random() < 0.25:
        writer.malformed_line()
    return writer.data()


def write_file(folder, name, data):
    with open(os.path.join(folder, name), "wb") as file:
        file.write(data)


def write_cards(seed, count, folder, standard):
    everything = []
    for index in range(count):
        if index % 14 == 13:
            # The standard file cut at every line in turn.
            data = decks.cut(standard, index // 14)
        else:
            data = decks.card_file(random.Random("cards %d %d" % (seed, index)), standard)
        write_file(folder, "%05d.cards" % index, data)
        write_file(folder, "%05d.replay" % index, cards_call(data))
        everything.append(cards_call(data))
    write_file(folder, "all.replay", b"".join(everything))


def write_scripts(seed, count, folder, standard):
    for index in range(count):
        rng = random.Random("scripts %d %d" % (seed, index))
        write_file(folder, "%05d.replay" % index, script(rng, index, standard))


def main():
    if len(sys.argv) not in (5, 6) or sys.argv[1] not in ("cards", "scripts"):
        sys.exit(__doc__)
    seed, count, folder = int(sys.argv[2]), int(sys.argv[3]), sys.argv[4]
    with open(sys.argv[5] if len(sys.argv) == 6 else STANDARD_PATH, "rb") as file:
        standard = file.read()
    os.makedirs(folder, exist_ok=True)
    writer = write_cards if sys.argv[1] == "cards" else write_scripts
    writer(seed, count, folder, standard)


if __name__ == "__main__":
    main()
