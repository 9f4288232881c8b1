"""Plays scripts of replay's format (docs/FORMATS.md) on one clock of cuvalimodo.py, and writes what replay writes.

Usage: python3 play.py < SCRIPT, or python3 play.py SCRIPT..., which begins anew with each and writes a blank line behind its answers.

The second code's reader reads them (second/replay.py); in the place of its clock stands ours. The clock and every lent buffer stand between
guards. After each call the guards must be as they were, and so must all that the call may not change: after a refused call the clock and the
buffers. Otherwise the program ends with an AssertionError.
"""

import ctypes
import os
import sys

sys.path.insert(0, os.path.join(os.path.dirname(os.path.abspath(__file__)), "..", "..", "second"))

from cuvalimodo import CLOCK_SIZE, Clock, Refused, check_cards  # noqa: E402
from refusal import Refusal  # noqa: E402
from replay import Script, play, read_call, write  # noqa: E402

GUARD = 8
PAINT = 0x5A
MOST_CARDS = 100_000


class Lent:
    """A ctypes array between guards."""

    def __init__(self, ctype, count):
        self.space = (ctype * (GUARD + count + GUARD))()
        ctypes.memset(self.space, PAINT, ctypes.sizeof(self.space))
        self.numbers = (ctype * count).from_buffer(self.space, GUARD * ctypes.sizeof(ctype))
        self.before = bytes(self.space)

    def stands(self, count=0):
        """Nothing but the first so many numbers is changed."""
        size, after = ctypes.sizeof(self.space._type_), bytes(self.space)
        assert after[: GUARD * size] == self.before[: GUARD * size], "the guard in front is broken"
        assert after[(GUARD + count) * size :] == self.before[(GUARD + count) * size :], "changed behind what a call may write"


class Guarded:
    """Our clock with the methods that the second code's reader calls."""

    def __init__(self):
        self.clock = Clock()
        self.memory = Lent(ctypes.c_uint64, CLOCK_SIZE // 8)
        self.clock._memory = self.memory.numbers
        ctypes.memset(self.memory.numbers, 0, CLOCK_SIZE)

    def begin(self, script):
        """A clock without a table: zeroed memory for one script, `new` over the clock that is there for the next."""
        if script % 2 == 0:
            ctypes.memset(self.memory.numbers, 0, CLOCK_SIZE)
            return
        ctypes.memset(ctypes.addressof(self.memory.numbers) + CLOCK_SIZE - 4, PAINT, 4)
        self.call(self.clock.reset, changes=True)
        assert bytes(self.clock)[-4:] == bytes(4), "new leaves the clock's last field"

    def call(self, method, *arguments, changes=False):
        self.memory.before = bytes(self.memory.space)
        try:
            given = method(*arguments)
        except Refused as refused:
            self.memory.stands()
            raise Refusal(int(refused.number), refused.place)
        self.memory.stands(CLOCK_SIZE // 8 if changes else 0)
        return given

    def set_cards(self, data):
        try:
            check_cards(data)
            checked = None
        except Refused as refused:
            checked = refused.number, refused.place
        try:
            self.call(self.clock.load_cards, data, changes=True)
            assert checked is None, "check_cards and load_cards differ"
        except Refusal as refusal:
            assert checked == (refusal.number, refusal.place), "check_cards and load_cards differ"
            raise

    def set_station(self, latitude, records, strides):
        self.call(self.clock.set_station, latitude, records, strides, changes=True)

    def set_date(self, year, month):
        self.call(self.clock.set_date, year, month, changes=True)

    def height(self, minute):
        return self.call(self.clock.height, minute)

    def series(self, start, step, count):
        heights = Lent(ctypes.c_int64, count)
        try:
            self.call(self.clock.series_into, heights.numbers, start, step)
        except Refusal:
            heights.stands()
            raise
        heights.stands(count)
        return list(heights.numbers)

    def bookings(self, minutes, places):
        heights = Lent(ctypes.c_int64, places)
        given = 0
        try:
            self.call(self.clock.bookings_into, heights.numbers, minutes)
            given = places
        finally:
            heights.stands(given)
        return list(heights.numbers)

    def turns(self, first, last, minute_places, height_places):
        minutes, heights = Lent(ctypes.c_uint32, minute_places), Lent(ctypes.c_int64, height_places)
        count = 0
        try:
            count, high = self.call(self.clock.turns_into, minutes.numbers, heights.numbers, first, last)
        finally:
            minutes.stands(count)
            heights.stands(count)
        return list(zip(minutes.numbers[:count], heights.numbers[:count])), high

    def year(self, year, asked_series, asked_turns):
        start, step, count = asked_series
        first, last, minute_places, height_places = asked_turns
        series, minutes, heights = Lent(ctypes.c_int64, count), Lent(ctypes.c_uint32, minute_places), Lent(ctypes.c_int64, height_places)
        given = found = 0
        try:
            found, high = self.call(self.clock.year_into, series.numbers, minutes.numbers, heights.numbers, year, start, step, first, last)
            given = count
        finally:
            series.stands(given)
            minutes.stands(found)
            heights.stands(found)
        return list(series.numbers), list(zip(minutes.numbers[:found], heights.numbers[:found])), high

    def hourly(self, number, places):
        # No cards take MOST_CARDS bytes, so no more are lent.
        cards = Lent(ctypes.c_uint8, min(places, MOST_CARDS))
        size = 0
        try:
            size = self.call(self.clock.hourly_into, cards.numbers, number)
        finally:
            cards.stands(size)
        return bytes(cards.numbers[:size])


def main():
    clock = Guarded()
    if len(sys.argv) == 1:
        write(play(Script(sys.stdin.buffer.read()), clock, read_call))
    for number, path in enumerate(sys.argv[1:], 1):
        with open(path, "rb") as file:
            script = Script(file.read())
        clock.begin(number)
        write(play(script, clock, read_call))
        print()


if __name__ == "__main__":
    main()
