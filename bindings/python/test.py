"""What cuvalimodo.py does beyond the calls that play.py plays: which buffers and numbers it takes, copies, names, words, and its hints.

Usage: python3 bindings/python/test.py
"""

import copy
import ctypes
import inspect
import os
import re
import sys
import unittest
from array import array

ROOT = os.path.join(os.path.dirname(os.path.abspath(__file__)), "..", "..")
sys.path.insert(0, os.path.join(ROOT, "second"))

from cards import read_card_file  # noqa: E402
from cuvalimodo import HOURLY_SIZE, USUAL_STRIDES, Clock, Counts, Refusal, Refused, Strides, Turn, check_cards, refusal_text  # noqa: E402
from incident import LATITUDE, VICTORIA  # noqa: E402

LAST = 31 * 1440
YEAR = 366 * 1440
JULY = 182 * 1440


def read(name):
    with open(os.path.join(ROOT, name), "rb") as file:
        return file.read()


CARDS = read("data/standard-cards.txt")


def victoria():
    clock = Clock()
    clock.load_cards(CARDS)
    clock.set_station(LATITUDE, [(clock.place_of(name), amplitude, phase) for name, amplitude, phase in VICTORIA])
    clock.set_date(1976, 7)
    return clock


class Index:
    """A number that is no int, as numpy's are."""

    def __init__(self, value):
        self.value = value

    def __index__(self):
        return self.value


class Buffers(unittest.TestCase):
    def setUp(self):
        self.clock = victoria()
        self.wanted = self.clock.series(0, 60, 4)

    def test_kinds_that_are_taken(self):
        # numpy's int64 has the format "l", its uint32 "I"
        numbers = [array("q", bytes(32)), memoryview(bytearray(32)).cast("q"), memoryview(bytearray(32)).cast("l"), (ctypes.c_int64 * 4)()]
        numbers.append(memoryview(bytearray(32)).cast("q", (2, 2)))
        for heights in numbers:
            self.clock.series_into(heights, 0, 60)
            self.assertEqual(bytes(heights), bytes(self.wanted))

    def test_a_part_of_a_buffer(self):
        heights = array("q", [7] * 6)
        self.clock.series_into(memoryview(heights)[1:5], 0, 60)
        self.assertEqual(heights, array("q", [7, *self.wanted, 7]))

    def test_kinds_that_are_not(self):
        wrong = [array("i", bytes(16)), array("d", bytes(32)), array("Q", bytes(32)), bytearray(32), [0] * 4, memoryview(bytes(32)).cast("q")]
        wrong.append(memoryview(array("q", bytes(64)))[::2])
        wrong.append((ctypes.c_int64.__ctype_be__ * 4)())
        for heights in wrong:
            with self.assertRaises((TypeError, BufferError)):
                self.clock.series_into(heights, 0, 60)
            with self.assertRaises((TypeError, BufferError)):
                self.clock.turns_into(array("I", bytes(16)), heights, 0, LAST)
            with self.assertRaises((TypeError, BufferError)):
                self.clock.bookings_into(heights, [0, 60, 120, 180])
            for series, turns in ((heights, array("q")), (array("q"), heights)):
                with self.assertRaises((TypeError, BufferError)):
                    self.clock.year_into(series, array("I"), turns, 1976, 0, 60, 0, 0)
        with self.assertRaises(TypeError):
            self.clock.turns_into(array("q", bytes(32)), array("q", bytes(32)), 0, LAST)

    def test_places_that_are_not(self):
        memory = memoryview(bytearray(4000))
        with self.assertRaises(ValueError):
            self.clock.series_into(memory[1:33].cast("q"), 0, 60)
        with self.assertRaises(ValueError):
            self.clock.bookings_into(memory[1:33].cast("q"), [0, 60, 120, 180])
        with self.assertRaises(ValueError):
            self.clock.turns_into(memory[:2000].cast("I"), memory[1992:].cast("q"), 0, LAST)
        count, _ = self.clock.turns_into(memory[:1200].cast("I"), memory[1200:3600].cast("q"), 0, LAST)
        self.assertEqual(count, 103)
        minutes, heights, series = memory[:400].cast("I"), memory[400:1200].cast("q"), memory[1200:1232].cast("q")
        for overlapping in (memory[1192:1224].cast("q"), memory[392:424].cast("q"), memory[600:632].cast("q")):
            with self.assertRaises(ValueError):
                self.clock.year_into(overlapping, minutes, heights, 1976, JULY, 60, JULY, JULY + 1440)
        self.assertEqual(self.clock.year_into(series, minutes, heights, 1976, JULY, 60, JULY, JULY + 1440), (3, True))
        self.assertEqual((bytes(series), heights[0]), (bytes(self.wanted), 79445))

    def test_empty(self):
        self.clock.series_into(array("q"), 0, 60)
        self.assertEqual(self.clock.series(0, 60, 0), array("q"))
        self.assertEqual(self.clock.turns(0, 0, room=0), [])
        self.clock.bookings_into(array("q"), [])
        self.assertEqual(self.clock.bookings([]), array("q"))

    def test_a_list_of_turns(self):
        turns = self.clock.turns(0, LAST)
        self.assertEqual((len(turns), turns[0], turns[1].high), (103, Turn(202, 79445, True), False))
        with self.assertRaises(Refused) as caught:
            self.clock.turns(0, LAST, room=102)
        self.assertEqual(caught.exception.number, Refusal.TOO_MANY_TURNS)

    def test_bookings(self):
        minutes = [180, 0, 60, 0, 120]
        wanted = array("q", [self.wanted[minute // 60] for minute in minutes])
        for asked in (minutes, tuple(minutes), iter(minutes), array("I", minutes), memoryview(array("L", minutes)), map(Index, minutes)):
            self.assertEqual(self.clock.bookings(asked), wanted)
        heights = array("q", [7] * 7)
        self.clock.bookings_into(memoryview(heights)[1:6], minutes)
        self.assertEqual(heights, array("q", [7, *wanted, 7]))

    def test_bookings_that_are_refused(self):
        heights = array("q", [7] * 3)
        for minutes, number, place in (
            ([0, LAST, LAST + 1], Refusal.BAD_MINUTES, 3), ([2**32 - 1, 0, LAST + 1], Refusal.BAD_MINUTES, 1), ([], Refusal.UNEQUAL_BUFFERS, 0),
            ([LAST + 1] * 2, Refusal.UNEQUAL_BUFFERS, 0), ([0] * 4, Refusal.UNEQUAL_BUFFERS, 0),
        ):
            with self.assertRaises(Refused) as caught:
                self.clock.bookings_into(heights, minutes)
            self.assertEqual((caught.exception.number, caught.exception.place), (number, place))
        self.assertEqual(heights, array("q", [7] * 3))
        with self.assertRaises(Refused) as caught:
            self.clock.bookings([0, LAST + 1])
        self.assertEqual(caught.exception.place, 2)

    def test_hourly_cards(self):
        cards = self.clock.hourly(7120)
        heights = ["%4d" % ((height + 50) // 100) for height in self.clock.series(60, 60, 744)]
        lines = ["%d  7120       %2d 776%s\n" % (1 + k % 2, 1 + k // 2, "".join(heights[12 * k : 12 * k + 12])) for k in range(62)]
        self.assertEqual(cards.decode(), "".join(lines))
        self.assertEqual(len(cards), HOURLY_SIZE)
        for lent in (bytearray(HOURLY_SIZE), array("B", bytes(HOURLY_SIZE)), memoryview(bytearray(HOURLY_SIZE)), (ctypes.c_uint8 * HOURLY_SIZE)()):
            self.assertEqual(self.clock.hourly_into(lent, Index(7120)), HOURLY_SIZE)
            self.assertEqual(bytes(lent), cards)
        for wrong in (array("b", cards), array("I", cards + bytes(2)), [0] * HOURLY_SIZE, cards, memoryview(bytearray(2 * HOURLY_SIZE))[::2]):
            with self.assertRaises((TypeError, BufferError)):
                self.clock.hourly_into(wrong, 7120)

    def test_a_part_of_a_buffer_of_cards(self):
        self.clock.set_date(1977, 2)
        lent = bytearray(b"." * HOURLY_SIZE)
        size = self.clock.hourly_into(memoryview(lent)[1:], 99999)
        self.assertEqual((size, bytes(lent)), (28 * 138, (b"." + self.clock.hourly(99999)).ljust(HOURLY_SIZE, b".")))
        before = bytes(lent)
        for number, places, why in ((100000, size, Refusal.BAD_STATION_NUMBER), (7120, size - 1, Refusal.SHORT_BUFFER), (7120, 0, Refusal.SHORT_BUFFER)):
            with self.assertRaises(Refused) as caught:
                self.clock.hourly_into(memoryview(lent)[:places], number)
            self.assertEqual((caught.exception.number, caught.exception.place), (why, 0))
        self.assertEqual(bytes(lent), before)

    def test_a_year(self):
        daily, turns = self.clock.year(1976, 0, 1440, 367, 0, YEAR)
        self.assertEqual(daily[182], self.wanted[0])
        self.assertEqual([turn for turn in turns if JULY <= turn.minute < JULY + 1440][0], Turn(JULY + 202, 79445, True))
        with self.assertRaises(Refused) as caught:
            self.clock.year(1976, 0, 1440, 367, 0, YEAR, room=len(turns) - 1)
        self.assertEqual(caught.exception.number, Refusal.TOO_MANY_TURNS)
        self.assertEqual(self.clock.series(0, 60, 4), self.wanted)


class Stations(unittest.TestCase):
    """The strides of a station, at a berth with a double high water: its turns are 120 by the usual strides, 240 by shorter ones."""

    def setUp(self):
        self.clock = victoria()
        self.double = [(self.clock.place_of("M2"), 9000, 0), (self.clock.place_of("M4"), 2500, 18000)]

    def turns(self, records, *strides):
        self.clock.set_station(LATITUDE, records, *strides)
        self.clock.set_date(1976, 7)
        return self.clock.turns(0, LAST)

    def refused(self, number, place, latitude, records, *strides):
        before = bytes(self.clock)
        with self.assertRaises(Refused) as caught:
            self.clock.set_station(latitude, records, *strides)
        self.assertEqual((caught.exception.number, caught.exception.place), (number, place))
        self.assertEqual(bytes(self.clock), before)

    def test_the_usual_ones(self):
        self.assertEqual((USUAL_STRIDES, USUAL_STRIDES.mixed), ((180, 30, 360), 30))
        for kind in ([("M2", 9000), ("M4", 2500)], [("K1", 5000), ("M2", 4000), ("M4", 3000)], [("K1", 9000), ("M2", 2000), ("M4", 2000)]):
            records = [(self.clock.place_of(name), amplitude, 0) for name, amplitude in kind]
            self.assertEqual(self.turns(records), self.turns(records, Strides(180, 30, 360)))
        self.assertEqual(len(self.turns(self.double)), 120)

    def test_others(self):
        self.assertEqual(len(self.turns(self.double, USUAL_STRIDES._replace(semidiurnal=20))), 240)
        found = self.turns(self.double, (1, 720, 720))[:4]
        self.assertEqual(found, [Turn(129, 6697, True), Turn(189, 6614, False), Turn(249, 6697, True), Turn(562, -11907, False)])
        self.assertEqual(len(self.turns(self.double, [Index(20), Index(30), Index(360)])), 240)
        # The tides are semidiurnal: the other two are not taken.
        self.assertEqual(len(self.turns(self.double, (180, 20, 20))), 120)
        self.assertEqual(len(self.turns(self.double)), 120)

    def test_each_is_that_of_its_tides(self):
        for kind, at in (([("M2", 9000)], 0), ([("K1", 4000), ("M2", 4000)], 1), ([("K1", 9000), ("M2", 1000)], 2)):
            records = [(self.clock.place_of(name), amplitude, 0) for name, amplitude in kind]
            for stride in (1, 720):
                strides = [7, 7, 7]
                strides[at] = stride
                # A search over a minute has room for a stride of 1, and finds a turn where one is.
                first = self.turns(records, strides[:at] + [1] + strides[at + 1 :])[0].minute
                self.turns(records, strides)
                found = [self.clock.turns(minute, minute + 1) for minute in (first - 1, first)]
                self.assertEqual(sum(map(len, found)), 1 if stride == 1 else 0, (kind, stride))

    def test_ranges(self):
        self.turns(self.double, (20, 20, 20))
        before = self.clock.turns(0, LAST)
        for at in range(3):
            for wrong in (0, 721, 65536 + 20, 2**31, 2**32 - 1):
                strides = [20, 20, 20]
                strides[at] = wrong
                self.refused(Refusal.BAD_STRIDE, 0, LATITUDE, self.double, strides)
                self.assertEqual(self.clock.turns(0, LAST), before)
            for right in (1, 720):
                strides = [20, 20, 20]
                strides[at] = right
                self.clock.copy().set_station(LATITUDE, self.double, strides)

    def test_the_order_of_refusals(self):
        many = [(0, 1, 2)] * 147
        self.refused(Refusal.OUT_OF_RANGE, 0, 5401, many, (0, 30, 360))
        self.refused(Refusal.BAD_STRIDE, 0, 5400, many, (180, 30, 721))
        self.refused(Refusal.TOO_MANY, 147, 5400, many, (180, 30, 720))
        self.refused(Refusal.BAD_STRIDE, 0, 0, [(255, 70000, 36000)], (180, 0, 360))
        with self.assertRaises(Refused) as caught:
            Clock().set_station(5401, many, (0, 0, 0))
        self.assertEqual(caught.exception.number, Refusal.NO_TABLE)


class Numbers(unittest.TestCase):
    """Numbers that ctypes alone would cut to 32 or 8 bits, and so take for others."""

    def overflows(self, call, *arguments):
        before = bytes(self.clock)
        with self.assertRaises(OverflowError):
            call(*arguments)
        self.assertEqual(bytes(self.clock), before)

    def test_overflow(self):
        self.clock = clock = victoria()
        for latitude in (2**31, -(2**31) - 1, 2**32 + 5):
            self.overflows(clock.set_station, latitude, [])
        for record in ((256, 1, 2), (-1, 1, 2), (0, 2**32, 2), (0, -1, 2), (0, 1, 2**32)):
            self.overflows(clock.set_station, 0, [record])
        for strides in ((2**32 + 180, 30, 360), (180, -1, 360), (180, 30, 2**64 + 360)):
            self.overflows(clock.set_station, 0, [], strides)
        for wrong in (2**32, -1, 2**64 + 7):
            for call in (clock.height, lambda n: clock.set_date(n, 7), lambda n: clock.set_date(1976, n), lambda n: clock.series(n, 60, 1)):
                self.overflows(call, wrong)
            for call in (lambda n: clock.series(0, n, 1), lambda n: clock.turns(n, 9), lambda n: clock.turns(0, n), refusal_text):
                self.overflows(call, wrong)
            self.overflows(clock.bookings, [0, wrong])
            self.overflows(clock.hourly, wrong)
            for place in range(5):
                self.overflows(lambda n: clock.year_into(array("q"), array("I"), array("q"), *([1976, 0, 60, 0, 0][:place] + [n] + [0] * (4 - place))), wrong)

    def test_kinds(self):
        clock = victoria()
        self.assertEqual(clock.height(Index(510)), clock.height(510))
        for wrong in (5.0, "5", None):
            with self.assertRaises(TypeError):
                clock.height(wrong)
            with self.assertRaises(TypeError):
                clock.bookings([0, wrong])
            with self.assertRaises(TypeError):
                clock.set_station(0, [], (180, wrong, 360))
        for wrong in ((180, 30), (180, 30, 360, 1), ()):
            with self.assertRaises(ValueError):
                clock.set_station(0, [], wrong)


class Others(unittest.TestCase):
    def test_copies_are_clocks_of_their_own(self):
        clock = victoria()
        height = clock.height(510)
        for other in (clock.copy(), copy.copy(clock), copy.deepcopy(clock)):
            self.assertEqual(other.height(510), height)
            other.reset()
            self.assertEqual(clock.height(510), height)
            with self.assertRaises(Refused) as caught:
                other.height(510)
            self.assertEqual((caught.exception.number, caught.exception.place), (Refusal.NO_TABLE, 0))

    def test_words(self):
        sample = read("docs/FORMATS.md").decode().partition("$ target/bin/cuvalimodo refusals\n")[2].partition("\n\n")[0]
        listed = dict(re.findall(r"^    (\d+) (.+)$", sample, re.M))
        self.assertEqual(sorted(map(int, listed)), [int(refusal) for refusal in Refusal])
        for number in range(40):
            self.assertEqual(refusal_text(number), listed.get(str(number), ""))
        with self.assertRaises(Refused) as caught:
            Clock().set_date(1976, 7)
        self.assertEqual((caught.exception.text, str(caught.exception)), ("no table", "no table (refusal 21 at 0)"))

    def test_cards(self):
        self.assertEqual(check_cards(memoryview(CARDS)), Counts(145, 45, 162, 100))
        with self.assertRaises(TypeError):
            Clock().load_cards("no bytes")

    def test_names(self):
        clock = victoria()
        before = bytes(clock)
        second = [name.decode("ascii").rstrip(" ") for name, _ in read_card_file(CARDS).frequencies]
        self.assertEqual(clock.names(), second)
        self.assertEqual([clock.place_of(name) for name in second], list(range(145)))
        self.assertEqual([clock.place_of(name) for name in ("SA", "SA   ")], [1, 1])
        self.assertEqual([clock.place_of(name) for name in ("", "sa", " SA", "SA    ", "longer", "SÅ")], [None] * 6)
        self.assertEqual(bytes(clock), before)
        clock.reset()
        for bare in (clock, Clock()):
            self.assertEqual((bare.names(), bare.place_of("Z0"), bare.place_of("")), ([], None, None))

    def test_hints(self):
        methods = [value for name, value in vars(Clock).items() if callable(value) and name != "__copy__"]
        for function in (check_cards, refusal_text, *methods):
            signature = inspect.signature(function)
            hints = [signature.return_annotation] + [p.annotation for p in signature.parameters.values() if p.name != "self"]
            self.assertNotIn(inspect.Signature.empty, hints, function.__name__)


if __name__ == "__main__":
    unittest.main()
