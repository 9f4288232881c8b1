"""Answers a replay script: bytes on standard input, one line for each call on standard output, and the cards behind it
for `hourly`.

Usage: python3 second/replay.py < script
"""

import re
import sys

from clock import Clock
from heights import USUAL_STRIDES, Strides
from refusal import Refusal

DIGITS = re.compile(rb"[0-9]+")
SIGNED_DIGITS = re.compile(rb"-?[0-9]+")
LARGEST = 4_294_967_295


class ScriptError(Exception):
    """The script is not of the format at this input line."""

    def __init__(self, line):
        super().__init__(line)
        self.line = line


class Script:
    """The bytes of a script and how far they have been read."""

    def __init__(self, data):
        self.data = data
        self.at = 0
        self.line = 1

    def ended(self):
        return self.at == len(self.data)

    def fail(self):
        raise ScriptError(self.line)

    def words(self):
        """The words of the next line, which must end in LF. The line stays current until done()."""
        end = self.data.find(b"\n", self.at)
        if end < 0:
            self.fail()
        line = self.data[self.at : end]
        self.at = end + 1
        return line.split(b" ")

    def done(self):
        self.line += 1

    def card_file(self, size):
        """Exactly size bytes, then LF. Line feeds inside the card file count as input lines."""
        if size > len(self.data) - self.at:
            self.line += self.data.count(b"\n", self.at)
            self.fail()
        card_file = self.data[self.at : self.at + size]
        self.at += size
        self.line += card_file.count(b"\n")
        if self.data[self.at : self.at + 1] != b"\n":
            self.fail()
        self.at += 1
        self.done()
        return card_file

    def number(self, word, lowest=0, highest=LARGEST):
        form = DIGITS if lowest == 0 else SIGNED_DIGITS
        if not form.fullmatch(word):
            self.fail()
        # Very long numbers do not fit; they are not worth converting.
        digits = word.lstrip(b"-").lstrip(b"0") or b"0"
        if len(digits) > 10:
            self.fail()
        value = -int(digits) if word.startswith(b"-") else int(digits)
        if not lowest <= value <= highest:
            self.fail()
        return value

    def numbers(self, words, count):
        if len(words) != count:
            self.fail()
        return [self.number(word) for word in words]


def read_record(script):
    words = script.words()
    if len(words) != 3:
        script.fail()
    place = script.number(words[0], 0, 255)
    amplitude = script.number(words[1])
    lag = script.number(words[2])
    script.done()
    return place, amplitude, lag


def read_strides(script, words):
    """Semidiurnal, mixed and diurnal; the line without them stays and means 180 30 360."""
    return Strides(*script.numbers(words, 3)) if words else USUAL_STRIDES


def read_minute(script):
    (minute,) = script.numbers(script.words(), 1)
    script.done()
    return minute


def read_call(script):
    """Reads one whole call; gives what asks a clock for its answer, as a rule a line."""
    word, *rest = script.words()
    if word == b"cards":
        (size,) = script.numbers(rest, 1)
        script.done()
        data = script.card_file(size)
        return lambda clock: accepted(clock.set_cards(data))
    if word == b"station":
        if len(rest) < 2:
            script.fail()
        latitude = script.number(rest[0], -(2**31), 2**31 - 1)
        count = script.number(rest[1])
        strides = read_strides(script, rest[2:])
        script.done()
        records = [read_record(script) for _ in range(count)]
        return lambda clock: accepted(clock.set_station(latitude, records, strides))
    if word == b"date":
        year, month = script.numbers(rest, 2)
        script.done()
        return lambda clock: accepted(clock.set_date(year, month))
    if word == b"height":
        (minute,) = script.numbers(rest, 1)
        script.done()
        return lambda clock: "height %d" % clock.height(minute)
    if word == b"series":
        start, step, count = script.numbers(rest, 3)
        script.done()
        return lambda clock: spaced("heights", clock.series(start, step, count))
    if word == b"bookings":
        count, places = script.numbers(rest, 2)
        script.done()
        minutes = [read_minute(script) for _ in range(count)]
        return lambda clock: spaced("heights", clock.bookings(minutes, places))
    if word == b"hourly":
        station, places = script.numbers(rest, 2)
        script.done()
        return lambda clock: hourly_lines(clock.hourly(station, places))
    if word == b"turns":
        first, last, minutes, heights = script.numbers(rest, 4)
        script.done()
        return lambda clock: turns_line(*clock.turns(first, last, minutes, heights))
    if word == b"year":
        year, *numbers = script.numbers(rest, 8)
        script.done()
        return lambda clock: year_line(*clock.year(year, numbers[:3], numbers[3:]))
    script.fail()


def accepted(_):
    return "accepted"


def spaced(word, numbers):
    return " ".join([word] + [str(number) for number in numbers])


def hourly_lines(cards):
    """How many bytes, and the cards on lines of their own; the last one's LF is written as every answer's."""
    return "hourly %d\n%s" % (len(cards), cards.decode().removesuffix("\n"))


def turns_line(found, first_is_high):
    numbers = [len(found), int(first_is_high)]
    for minute, height in found:
        numbers += [minute, height]
    return spaced("turns", numbers)


def year_line(heights, found, first_is_high):
    return spaced("year", [len(heights)] + heights) + " " + turns_line(found, first_is_high)


def play(script, clock, read):
    """Yields the answer to each call, without its last LF, until the script's end or its first error."""
    while not script.ended():
        try:
            call = read(script)
        except ScriptError as error:
            yield "script %d" % error.line
            return
        try:
            yield call(clock)
        except Refusal as refusal:
            yield "refused %d %d" % (refusal.number, refusal.place)


def replay(data):
    """The answers to a script."""
    return play(Script(data), Clock(), read_call)


def write(lines):
    for line in lines:
        sys.stdout.write(line + "\n")


def main():
    write(replay(sys.stdin.buffer.read()))


if __name__ == "__main__":
    main()
