"""The berth clock: the six calls of document 01, the year of change request No. 1, the bookings of No. 3, the hourly cards of
No. 4 and the station's strides of No. 6, what they leave, and the order of their refusals."""

from collections import namedtuple

import heights
import hourly
import sheet
from cards import read_card_file
from month import prepare
from refusal import Refusal

MAX_RECORDS = 146

# latitude in signed minutes; strides: heights.Strides; records: list of (place, amplitude, phase lag)
Station = namedtuple("Station", "latitude strides records")


def check_strides(strides):
    """02, No. 6: "Refused: 35, a stride outside its range" """
    for stride in strides:
        if not heights.SHORTEST_STRIDE <= stride <= heights.LONGEST_STRIDE:
            raise Refusal(35)


def check_minutes(last, *minutes):
    """ "Minutes run from 0 to days x 1,440 inclusive." """
    for minute in minutes:
        if not 0 <= minute <= last:
            raise Refusal(9)


def check_series(last, start, step, count):
    """ "A series has a start, a step of 1 to 1,440 minutes, and one height for each lent place.
    The start is checked even with no place lent." """
    check_minutes(last, start)
    if not 1 <= step <= 1_440:
        raise Refusal(9)
    if count > 0:
        check_minutes(last, start + (count - 1) * step)


def check_search(last, first, end):
    check_minutes(last, first, end)
    if first > end:
        raise Refusal(9)


def check_places(found, minute_places, height_places):
    """10: "more turns than either lent buffer holds" """
    if len(found) > min(minute_places, height_places):
        raise Refusal(10)


def check_bookings(last, minutes, places):
    """ "Refused: 31, the two lent buffers differ in length, after the state checks; then 9 at the first minute outside the
    month, its place counted from 1." """
    if len(minutes) != places:
        raise Refusal(31)
    for place, minute in enumerate(minutes, 1):
        if not 0 <= minute <= last:
            raise Refusal(9, place)


class Clock:
    """ "The first gets a clock with no table, station or month." """

    def __init__(self):
        self.table = None
        self.station = None
        self.month = None

    # "A station asks 21; a month 21 and 22; heights, series and turns all three."

    def need_table(self):
        if self.table is None:
            raise Refusal(21)

    def need_station(self):
        self.need_table()
        if self.station is None:
            raise Refusal(22)

    def need_month(self):
        self.need_station()
        if self.month is None:
            raise Refusal(23)

    def set_cards(self, data):
        """ "An accepted card file leaves its table, with no station and no month" """
        self.table = read_card_file(data)
        self.station = None
        self.month = None

    def set_station(self, latitude, records, strides=heights.USUAL_STRIDES):
        """ "an accepted station keeps the table and leaves itself, with no month"; 02, No. 6: "replacing a station replaces them
        with the rest" """
        self.need_table()
        # "A station checks latitude (place 0), count (place 147, the first record too many),
        # then each record's place (5, 4), amplitude, phase."
        if not -5_400 <= latitude <= 5_400:
            raise Refusal(3, 0)
        # 02, No. 6: "after the latitude and before the count of records"
        check_strides(strides)
        if len(records) > MAX_RECORDS:
            raise Refusal(6, MAX_RECORDS + 1)
        seen = set()
        for number, (place, amplitude, lag) in enumerate(records, 1):
            if not 0 <= place < len(self.table.frequencies):
                raise Refusal(5, number)
            if place in seen:
                raise Refusal(4, number)
            seen.add(place)
            if not 0 <= amplitude <= 65_535:
                raise Refusal(3, number)
            if not 0 <= lag <= 35_999:
                raise Refusal(3, number)
        self.station = Station(latitude, heights.Strides(*strides), list(records))
        self.month = None

    def set_date(self, year, month):
        """ "an accepted date keeps both and leaves its month prepared, in place of any before" """
        self.need_station()
        if not (1950 <= year <= 2049 and 1 <= month <= 12):
            raise Refusal(8)
        self.month = prepare(self.table, self.station, year, month)

    def height(self, minute):
        self.need_month()
        check_minutes(self.month.days * 1_440, minute)
        return heights.height(self.month, minute)

    def series(self, start, step, count):
        self.need_month()
        check_series(self.month.days * 1_440, start, step, count)
        return [heights.height(self.month, start + n * step) for n in range(count)]

    def bookings(self, minutes, places):
        """ "The height at each place must equal the one that a single request gives for the minute at that place" """
        self.need_month()
        check_bookings(self.month.days * 1_440, minutes, places)
        return [heights.height(self.month, minute) for minute in minutes]

    def hourly(self, station, places):
        """The bytes of the prepared month's hourly cards; station is the station number, places how many bytes are lent."""
        self.need_month()
        return hourly.write(self.month, station, places)

    def turns(self, first, last, minute_places, height_places):
        """The turns as (minute, height), and whether the first is high."""
        self.need_month()
        check_search(self.month.days * 1_440, first, last)
        stride = heights.stride_of(self.table, self.station)
        found, first_is_high = heights.search(lambda minute: heights.slope(self.month, minute), stride, first, last)
        check_places(found, minute_places, height_places)
        return [(minute, heights.height(self.month, minute)) for minute in found], first_is_high

    def year(self, year, series, turns):
        """Heights, turns as (minute, height), and whether the first is high; series and turns are the numbers of those calls.
        "Only 21 and 22 are asked of the state, and the prepared month stays" """
        self.need_station()
        # "01's 8, 11, 9 and 10 apply in that order with the year in place of the month."
        if not 1950 <= year <= 2049:
            raise Refusal(8)
        # "An 11 is that of the first month that has one, and its place is still the station record."
        months = [prepare(self.table, self.station, year, month) for month in range(1, 13)]
        start, step, count = series
        first, last, minute_places, height_places = turns
        check_series(sheet.last_minute(months), start, step, count)
        check_search(sheet.last_minute(months), first, last)
        stride = heights.stride_of(self.table, self.station)
        # "The turn search runs on across month ends"
        found, first_is_high = heights.search(lambda minute: sheet.slope(months, minute), stride, first, last)
        check_places(found, minute_places, height_places)
        given = [sheet.height(months, start + n * step) for n in range(count)]
        return given, [(minute, sheet.height(months, minute)) for minute in found], first_is_high
