"""Cuvalimodo from Python: a berth clock, and its calls as methods.

    clock = Clock()
    clock.load_cards(cards)                       # bytes of a card file
    clock.set_station(2905, [Record(clock.place_of("M2"), 12130, 8700)])
    clock.set_date(1976, 7)
    clock.height(510)

The calls are those of the proved library (crates/cuvalimodo_c). One that is turned down raises Refused, with document 01's number and place, and
leaves the clock and the lent buffers as they were.
It loads target/staticlib/libcuvalimodo_c.so (bindings/build makes it), or the file that the environment variable CUVALIMODO_LIBRARY names.

Units: latitude in minutes of arc, north positive; strides in minutes; amplitudes and heights in tenths of a millimetre; phase lags in hundredths of a degree; minutes
after 00:00 GMT on the 1st of the month, for a year on 1 January; a place is the position of a constituent among the card file's frequencies, from 0 (see Clock.place_of).
A number that its C type cannot hold (place: one byte; latitude: 32 bits, signed; all others: 32 bits) raises OverflowError and reaches no call.

The interpreter's lock is held during a call, so threads may share a clock.
"""

from __future__ import annotations

import ctypes
import os
from array import array
from enum import IntEnum
from operator import index
from typing import TYPE_CHECKING, Iterable, NamedTuple, SupportsIndex, Tuple

if TYPE_CHECKING:
    from _typeshed import ReadableBuffer, WriteableBuffer

CLOCK_SIZE = 20936
HOURLY_SIZE = 4278  # the hourly cards of 31 days
NAME_SIZE = 5


class Counts(NamedTuple):
    """How much an accepted card file has of each kind."""

    frequencies: int
    mains: int
    satellites: int
    shallows: int


class Record(NamedTuple):
    """One of a station's constituents."""

    place: int
    amplitude: int
    phase: int


class Strides(NamedTuple):
    """The lengths of the strides by which turns are looked for, 1 to 720 each. Which one is taken, the station's amplitudes say, by
    (K1 + O1) / (M2 + S2): up to 0.25, between them, over 3."""

    semidiurnal: int
    mixed: int
    diurnal: int


USUAL_STRIDES = Strides(180, 30, 360)  # document 01's


class Turn(NamedTuple):
    """A high or a low water."""

    minute: int
    height: int
    high: bool


class Refusal(IntEnum):
    """Why a call is refused."""

    BAD_LINE = 1
    MALFORMED = 2
    OUT_OF_RANGE = 3
    BAD_NAME = 4
    MISSING = 5
    TOO_MANY = 6
    ENDED = 7
    BAD_DATE = 8
    BAD_MINUTES = 9
    TOO_MANY_TURNS = 10
    TOO_LARGE = 11
    NO_TABLE = 21
    NO_STATION = 22
    NO_MONTH = 23
    UNEQUAL_BUFFERS = 31
    BAD_STATION_NUMBER = 32
    BAD_HEIGHT = 33
    SHORT_BUFFER = 34
    BAD_STRIDE = 35


class Refused(Exception):
    """A refused call: its number, its place (a card's line, a station's record, a booked minute or an hourly card, from 1; else 0) and the
    library's words for it."""

    def __init__(self, number: int, place: int) -> None:
        super().__init__(number, place)
        self.number = Refusal(number)
        self.place = place
        self.text = refusal_text(number)

    def __str__(self) -> str:
        return "%s (refusal %d at %d)" % (self.text, self.number, self.place)


# The declarations of bindings/c/cuvalimodo.h.


class _Record(ctypes.Structure):
    _fields_ = [("place", ctypes.c_uint8), ("amplitude", ctypes.c_uint32), ("phase", ctypes.c_uint32)]


class _Strides(ctypes.Structure):
    _fields_ = [(name, ctypes.c_uint32) for name in Strides._fields]


class _Counts(ctypes.Structure):
    _fields_ = [("number", ctypes.c_uint32), ("line", ctypes.c_size_t)] + [(name, ctypes.c_size_t) for name in Counts._fields]


class _Verdict(ctypes.Structure):
    _fields_ = [("number", ctypes.c_uint32), ("place", ctypes.c_size_t)]


class _Reading(ctypes.Structure):
    _fields_ = [("number", ctypes.c_uint32), ("place", ctypes.c_size_t), ("height", ctypes.c_int64)]


class _Turnings(ctypes.Structure):
    _fields_ = [("number", ctypes.c_uint32), ("place", ctypes.c_size_t), ("count", ctypes.c_size_t), ("high", ctypes.c_bool)]


class _Cards(ctypes.Structure):
    _fields_ = [("number", ctypes.c_uint32), ("place", ctypes.c_size_t), ("bytes", ctypes.c_size_t)]


class _TableNames(ctypes.Structure):
    _fields_ = [("count", ctypes.c_size_t), ("bytes", ctypes.c_uint8 * (160 * NAME_SIZE))]


class _Text(ctypes.Structure):
    _fields_ = [("text", ctypes.c_char * 64)]


def _load() -> ctypes.PyDLL:
    here = os.path.dirname(os.path.abspath(__file__))
    default = os.path.join(here, "..", "..", "target", "staticlib", "libcuvalimodo_c.so")
    library = ctypes.PyDLL(os.environ.get("CUVALIMODO_LIBRARY", default))
    clock, u32, lent = ctypes.c_void_p, ctypes.c_uint32, [ctypes.c_void_p, ctypes.c_size_t]
    for name, result, arguments in (
        ("check_cards", _Counts, lent),
        ("new", None, [clock]),
        ("load_cards", _Verdict, [clock, *lent]),
        ("names", _TableNames, [clock]),
        ("set_station", _Verdict, [clock, ctypes.c_int32, _Strides, *lent]),
        ("set_date", _Verdict, [clock, u32, u32]),
        ("height", _Reading, [clock, u32]),
        ("series", _Verdict, [clock, u32, u32, *lent]),
        ("bookings", _Verdict, [clock, *lent, *lent]),
        ("turns", _Turnings, [clock, u32, u32, *lent, *lent]),
        ("year", _Turnings, [clock, u32, u32, u32, u32, u32, *lent, *lent, *lent]),
        ("hourly", _Cards, [clock, u32, *lent]),
        ("refusal_text", _Text, [u32]),
    ):
        function = getattr(library, "cuvalimodo_" + name)
        function.restype, function.argtypes = result, arguments
    return library


_library = _load()


# How things cross


def _fits(number: SupportsIndex, lowest: int, highest: int) -> int:
    """A number that its C type holds; ctypes alone would cut it."""
    value = index(number)
    if not lowest <= value <= highest:
        raise OverflowError("%d is not from %d to %d" % (value, lowest, highest))
    return value


def _u32(number: SupportsIndex) -> int:
    return _fits(number, 0, 2**32 - 1)


def _lent(numbers: ctypes.Array) -> Tuple[ctypes.Array, int]:
    """A ctypes array as the two arguments that an array crosses as. (Not its address, which would not keep it alive.)"""
    return numbers, len(numbers)


def _bytes(data: ReadableBuffer) -> ctypes.Array:
    return (ctypes.c_uint8 * memoryview(data).nbytes).from_buffer_copy(data)


def _buffer(ctype: type, codes: str, lent: WriteableBuffer) -> ctypes.Array:
    """A lent buffer of numbers of one type, to be written where it lies: TypeError or ValueError where it is none that a call may be lent."""
    view = memoryview(lent)
    size = ctypes.sizeof(ctype)
    if view.itemsize != size or view.format.lstrip("@=<") not in codes:
        raise TypeError("a buffer of %s is asked for, this one has the format %s" % (ctype.__name__, view.format))
    if view.nbytes == 0:
        return (ctype * 0)()
    numbers = (ctype * (view.nbytes // size)).from_buffer(lent)
    if ctypes.addressof(numbers) % size:
        raise ValueError("the buffer is not aligned for its numbers")
    return numbers


def _heights(lent: WriteableBuffer) -> ctypes.Array:
    return _buffer(ctypes.c_int64, "ql", lent)


def _minutes(lent: WriteableBuffer) -> ctypes.Array:
    return _buffer(ctypes.c_uint32, "IL", lent)


def _apart(*buffers: ctypes.Array) -> None:
    spans = sorted((ctypes.addressof(each), ctypes.sizeof(each)) for each in buffers)
    for (at, size), (following, _) in zip(spans, spans[1:]):
        if at + size > following:
            raise ValueError("the buffers overlap")


def _turns(minutes: array[int], heights: array[int], count: int, high: bool) -> list[Turn]:
    return [Turn(minutes[n], heights[n], (n % 2 == 0) == high) for n in range(count)]


def _accept(result: ctypes.Structure) -> None:
    if result.number:
        raise Refused(result.number, result.place)


# The calls


def refusal_text(number: SupportsIndex) -> str:
    """The words of a refusal; none for a number that is no refusal's."""
    return _library.cuvalimodo_refusal_text(_u32(number)).text.decode("ascii")


def check_cards(file: ReadableBuffer) -> Counts:
    """The Counts of a card file, given as bytes; Refused with number and line where it is none."""
    result = _library.cuvalimodo_check_cards(*_lent(_bytes(file)))
    if result.number:
        raise Refused(result.number, result.line)
    return Counts(*(getattr(result, name) for name in Counts._fields))


class Clock:
    """A berth clock, at first without table, station and month. Its bytes are bytes(clock)."""

    def __init__(self) -> None:
        self._memory = (ctypes.c_uint64 * (CLOCK_SIZE // 8))()
        self.reset()

    def __bytes__(self) -> bytes:
        return bytes(self._memory)

    def copy(self) -> Clock:
        """Another clock in the same state."""
        other = Clock()
        ctypes.memmove(other._memory, self._memory, CLOCK_SIZE)
        return other

    __copy__ = copy

    def reset(self) -> None:
        """Drops table, station and month."""
        _library.cuvalimodo_new(self._memory)

    def load_cards(self, file: ReadableBuffer) -> None:
        """Takes a card file's table in place of the old one. Station and month go."""
        _accept(_library.cuvalimodo_load_cards(self._memory, *_lent(_bytes(file))))

    def names(self) -> list[str]:
        """The names of the table's constituents by place, without the blanks behind them; none where the clock has no table."""
        result = _library.cuvalimodo_names(self._memory)
        names = bytes(result.bytes[: result.count * NAME_SIZE]).decode("ascii")
        return [names[at : at + NAME_SIZE].rstrip(" ") for at in range(0, len(names), NAME_SIZE)]

    def place_of(self, name: str) -> int | None:
        """The place of the constituent with a name, for a station's record; None where the table has no such name."""
        places = {each.ljust(NAME_SIZE): place for place, each in enumerate(self.names())}
        return places.get(name.ljust(NAME_SIZE))

    def set_station(self, latitude: SupportsIndex, records: Iterable[Tuple[SupportsIndex, SupportsIndex, SupportsIndex]],
                    strides: Tuple[SupportsIndex, SupportsIndex, SupportsIndex] = USUAL_STRIDES) -> None:
        """Takes a station, at most 146 records (place, amplitude, phase) and its strides (semidiurnal, mixed, diurnal), in place of the old one. The
        table stays; the month goes. The usual strides step over a double high water where its parts are near each other; shorter ones find it,
        and take longer."""
        row = [(_fits(place, 0, 255), _u32(amplitude), _u32(phase)) for place, amplitude, phase in records]
        lent = (_Record * len(row))(*row)
        semidiurnal, mixed, diurnal = strides
        lengths = _Strides(_u32(semidiurnal), _u32(mixed), _u32(diurnal))
        _accept(_library.cuvalimodo_set_station(self._memory, _fits(latitude, -(2**31), 2**31 - 1), lengths, *_lent(lent)))

    def set_date(self, year: SupportsIndex, month: SupportsIndex) -> None:
        """Prepares a month, in place of the old one. Table and station stay."""
        _accept(_library.cuvalimodo_set_date(self._memory, _u32(year), _u32(month)))

    def height(self, minute: SupportsIndex) -> int:
        """The height at a minute of the month."""
        result = _library.cuvalimodo_height(self._memory, _u32(minute))
        _accept(result)
        return result.height

    def series_into(self, heights: WriteableBuffer, start: SupportsIndex, step: SupportsIndex) -> None:
        """Fills a buffer of 64-bit signed numbers (an array("q"), a memoryview, a numpy array of int64) with the heights at start, start + step
        and so on."""
        _accept(_library.cuvalimodo_series(self._memory, _u32(start), _u32(step), *_lent(_heights(heights))))

    def series(self, start: SupportsIndex, step: SupportsIndex, count: int) -> array[int]:
        """So many heights, at the minutes start, start + step and so on, as an array("q")."""
        heights = array("q", bytes(8 * count))
        self.series_into(heights, start, step)
        return heights

    def bookings_into(self, heights: WriteableBuffer, minutes: Iterable[SupportsIndex]) -> None:
        """Fills a buffer of 64-bit signed numbers with the heights at a list of minutes, in any order and with repeats; Refused 31 where it has not as
        many places as there are minutes, Refused 9 with the place of the first minute outside the month."""
        row = [_u32(minute) for minute in minutes]
        lent = (ctypes.c_uint32 * len(row))(*row)
        _accept(_library.cuvalimodo_bookings(self._memory, *_lent(lent), *_lent(_heights(heights))))

    def bookings(self, minutes: Iterable[SupportsIndex]) -> array[int]:
        """The heights at a list of minutes, in any order and with repeats, as an array("q"): each, at its place, is what height gives."""
        row = list(minutes)
        heights = array("q", bytes(8 * len(row)))
        self.bookings_into(heights, row)
        return heights

    def turns_into(self, minutes: WriteableBuffer, heights: WriteableBuffer, first: SupportsIndex, last: SupportsIndex) -> Tuple[int, bool]:
        """Writes the turns from first to last to the fronts of two buffers, of 32-bit unsigned and of 64-bit signed numbers, that lie apart: how
        many, and whether the first is high (they alternate)."""
        lent_minutes, lent_heights = _minutes(minutes), _heights(heights)
        _apart(lent_minutes, lent_heights)
        result = _library.cuvalimodo_turns(self._memory, _u32(first), _u32(last), *_lent(lent_minutes), *_lent(lent_heights))
        _accept(result)
        return result.count, result.high

    def turns(self, first: SupportsIndex, last: SupportsIndex, room: int = 1500) -> list[Turn]:
        """The high and low waters from minute first to minute last; Refused 10 where there are more than room."""
        minutes, heights = array("I", bytes(4 * room)), array("q", bytes(8 * room))
        return _turns(minutes, heights, *self.turns_into(minutes, heights, first, last))

    def year_into(self, series: WriteableBuffer, minutes: WriteableBuffer, heights: WriteableBuffer, year: SupportsIndex, start: SupportsIndex,
                  step: SupportsIndex, first: SupportsIndex, last: SupportsIndex) -> Tuple[int, bool]:
        """A year's sheet: fills series as series_into does and writes the turns as turns_into does, both or, where it is refused, neither. Each month
        has its own weights. No month need be prepared, and one that is stays."""
        lent_series, lent_minutes, lent_heights = _heights(series), _minutes(minutes), _heights(heights)
        _apart(lent_series, lent_minutes, lent_heights)
        asked = [_u32(number) for number in (year, start, step, first, last)]
        result = _library.cuvalimodo_year(self._memory, *asked, *_lent(lent_series), *_lent(lent_minutes), *_lent(lent_heights))
        _accept(result)
        return result.count, result.high

    def year(self, year: SupportsIndex, start: SupportsIndex, step: SupportsIndex, count: int, first: SupportsIndex, last: SupportsIndex,
             room: int = 18000) -> Tuple[array[int], list[Turn]]:
        """So many heights of a year, as an array("q"), and its high and low waters from minute first to minute last; Refused 10 where there are more
        than room."""
        series, minutes, heights = array("q", bytes(8 * count)), array("I", bytes(4 * room)), array("q", bytes(8 * room))
        found = self.year_into(series, minutes, heights, year, start, step, first, last)
        return series, _turns(minutes, heights, *found)

    def hourly_into(self, cards: WriteableBuffer, number: SupportsIndex) -> int:
        """Writes the month's hourly cards, (I1,1X,I5,7X,3I2,12A4), under a station number of 0 to 99,999 to the front of a buffer of bytes: how many
        they take, 138 for each day of the month."""
        result = _library.cuvalimodo_hourly(self._memory, _u32(number), *_lent(_buffer(ctypes.c_uint8, "B", cards)))
        _accept(result)
        return result.bytes

    def hourly(self, number: SupportsIndex) -> bytes:
        """The month's hourly cards under a station number, each with its LF."""
        cards = bytearray(HOURLY_SIZE)
        size = self.hourly_into(cards, number)
        return bytes(cards[:size])
