#!/usr/bin/env python3
"""Writes the script that the program replay is run on: tools/replay_example.py > crates/replay/stdin.

The manual's sample, Victoria in July 1976, with calls before, between and behind it that are refused, years, bookings and hourly cards among them, and a berth with double high waters;
then document 01's cases "Checked against", and those of 02, No. 6, a station's own strides. What the program must answer (crates/replay/stdout) is what the second code answers, and

    tools/replay_example.py --paper crates/replay/stdout

fails where that is not what the documents themselves give for their cases.
"""

import json
import os
import sys

HERE = os.path.dirname(os.path.abspath(__file__))
DATA = os.path.join(HERE, "..", "data")
sys.path.insert(0, os.path.join(HERE, "..", "second"))

import bookings
from clock import Clock
from replayed import parted

LAST = 44_640
# minutes of 1976
FIRST_OF_JULY = 182 * 1_440
LAST_OF_JULY = 212 * 1_440


def read(name):
    with open(os.path.join(DATA, name), "rb") as file:
        return file.read()


CARDS = read("standard-cards.txt")


def clock_with(latitude, records):
    """The second code's clock in July 1976."""
    clock = Clock()
    clock.set_cards(CARDS)
    clock.set_station(latitude, records)
    clock.set_date(1976, 7)
    return clock


PLACES = {name.rstrip().decode(): place for place, (name, _) in enumerate(clock_with(0, []).table.frequencies)}


def station(latitude, records, *strides):
    """The call; with three strides its long line."""
    numbers = b"".join(b" %d" % number for number in (latitude, len(records), *strides))
    return b"station%s\n" % numbers + b"".join(b"%d %d %d\n" % record for record in records)


def sample():
    """The manual's sample among other calls."""
    prediction = json.loads(read("victoria-1976-07.json"))["prediction"]
    records = [(PLACES[c["name"]], c["amplitude_e4"], c["phase_e2"]) for c in prediction["constituents"]]
    latitude = prediction["station"]["latitude_minutes_signed"]
    double = [(PLACES["M2"], 10_000, 0), (PLACES["M4"], 6_000, 9_000)]
    return [
        b"height 0\n",
        b"cards 9\nno cards\n\n",
        station(0, [], 0, 0, 0),
        bookings.call([LAST + 1], 0),
        b"hourly 100000 0\n",
        b"year 1949 0 0 0 1 0 0 0\n",
        b"cards %d\n%s\n" % (len(CARDS), CARDS),
        b"date 1976 7\n",
        b"hourly 100000 0\n",
        b"year 1949 0 0 0 1 0 0 0\n",
        station(5_401, records),
        station(5_401, records, 0, 30, 360),
        station(latitude, records, 0, 30, 360),
        station(latitude, records, 180, 4_294_967_295, 360),
        station(latitude, records, 180, 30, 721),
        station(latitude, [(0, 0, 0)] * 147),
        station(latitude, records + records[:1]),
        station(latitude, records + records[:1], 180, 0, 360),
        station(latitude, records, 20, 20, 20),
        b"date 1976 7\n",
        b"turns 0 44640 200 200\n",
        b"year 1976 0 1 0 %d %d 9 9\n" % (FIRST_OF_JULY, FIRST_OF_JULY + 1_440),
        station(latitude, records, 20, 721, 20),
        b"height 0\n",
        station(latitude, records),
        b"height 0\n",
        b"hourly 100000 0\n",
        b"year 1976 %d 60 49 %d %d 200 200\n" % (LAST_OF_JULY, FIRST_OF_JULY - 1_440, LAST_OF_JULY + 2_880),
        b"year 1949 0 0 0 1 0 0 0\n",
        b"year 1976 0 1440 367 0 0 0 0\n",
        b"year 1976 0 1440 368 0 0 0 0\n",
        b"year 1977 525601 1 0 0 0 0 0\n",
        b"year 1976 0 1441 0 0 0 0 0\n",
        b"year 1976 0 1 0 10 9 1 1\n",
        b"year 1976 0 1 1 0 527040 9 10\n",
        b"date 1976 13\n",
        b"date 1976 7\n",
        b"height 0\n",
        b"height 44640\n",
        b"height 44641\n",
        bookings.call([LAST, 0, LAST, 725, 0], 5),
        bookings.call([0, LAST + 1, LAST + 2], 3),
        bookings.call([0, LAST + 1], 3),
        bookings.call([0, 1], 1),
        bookings.call([], 0),
        bookings.call([], 1),
        b"hourly 100000 0\n",
        b"hourly 99999 4277\n",
        b"hourly 7120 4278\n",
        b"series 0 60 745\n",
        b"series 0 60 746\n",
        b"series 0 1 0\n",
        b"turns 0 44640 9 10\n",
        b"turns 0 44640 200 200\n",
        b"turns 10 9 1 1\n",
        b"year 2000 84960 1439 3 525599 525600 0 0\n",
        b"height 0\n",
        b"cards 0\n\n",
        b"height 44640\n",
        station(-latitude, [(0, 1_000, 0)]),
        b"date 2049 12\n",
        b"turns 0 44640 0 0\n",
        b"series 44640 1440 1\n",
        b"hourly 0 4294967295\n",
        b"date 2000 2\n",
        b"hourly 99999 4001\n",
        b"hourly 99999 4002\n",
        station(0, [(PLACES["Z0"], 65_535, 18_000), (PLACES["MM"], 65_535, 0)]),
        b"date 1976 7\n",
        b"hourly 5 0\n",
        b"hourly 100000 0\n",
        station(0, double, 20, 20, 20),
        b"date 1976 7\n",
        b"turns 0 10080 99 99\n",
        b"year 1976 0 1 0 %d %d 99 99\n" % (FIRST_OF_JULY, FIRST_OF_JULY + 10_080),
        station(0, double),
        b"date 1976 7\n",
        b"turns 0 10080 99 99\n",
        b"year 1976 0 1 0 %d %d 99 99\n" % (FIRST_OF_JULY, FIRST_OF_JULY + 10_080),
    ]


def stride_cases(records, stride, *strides):
    """A search from just before a turn on finds it where one stride fits in, and none where it does not; both with what they must answer."""
    first = clock_with(0, records).turns(0, LAST, LAST, LAST)[0][0][0] - 1
    return [
        (station(0, records, *strides), b"accepted"),
        (b"date 1976 7\n", b"accepted"),
        (b"turns %d %d 1 1\n" % (first, first + stride - 1), b"turns 0 0"),
        (b"turns %d %d 1 1\n" % (first, first + stride), b"turns 1 "),
    ]


def cases():
    """01's cases, and those of 02, No. 6: calls, each with how its answer begins; None where the answer must be that of the call four before."""
    tides = [(PLACES["K1"], 3_000, 100), (PLACES["O1"], 2_000, 0), (PLACES["M2"], 9_000, 200)]
    for lag, wanted in ((0, 65_535), (18_000, -65_535), (9_000, 0)):
        yield station(0, [(PLACES["Z0"], 65_535, lag)]), b"accepted"
        yield b"date 1976 0\n", b"refused 8 0"
        yield b"date 1976 13\n", b"refused 8 0"
        yield b"date 1976 7\n", b"accepted"
        yield b"height 1\n", b"height %d" % wanted
        yield b"turns 0 %d 0 0\n" % LAST, b"turns 0 0"
    for daily, twice, stride in ((100, 400, 180), (101, 400, 30), (301, 100, 360), (300, 100, 30)):
        yield from stride_cases([(PLACES["K1"], daily, 0), (PLACES["M2"], twice, 0)], stride)
    for daily, twice, stride in ((100, 400, 20), (101, 400, 40), (301, 100, 60), (300, 100, 40)):
        yield from stride_cases([(PLACES["K1"], daily, 0), (PLACES["M2"], twice, 0)], stride, 20, 40, 60)
    yield from stride_cases([(PLACES["N2"], 1_000, 0)], 180)
    for strides, wanted in (((), b"turns "), ((180, 30, 360), None)):
        yield station(0, tides, *strides), b"accepted"
        yield b"date 1976 7\n", b"accepted"
        yield b"height 0\n", b"height "
        yield b"turns 0 %d 200 200\n" % LAST, wanted
    for latitude, wanted in ((4 * 60 + 59, b"heights "), (5 * 60, None)):
        yield station(latitude, tides), b"accepted"
        yield b"date 1976 7\n", b"accepted"
        yield b"height 0\n", b"height "
        yield b"series 0 1440 32\n", wanted
    yield station(0, [(0, 65_535, 0)]), b"accepted"
    yield station(0, [(0, 65_536, 0)]), b"refused 3 1"
    yield station(0, [(0, 0, 0)] * 147), b"refused 6 147"
    yield station(5_401, [], 0, 721, 0), b"refused 3 0"
    yield station(0, [], 1, 720, 1), b"accepted"
    yield station(0, [(0, 0, 0)] * 147, 180, 30, 721), b"refused 35 0"


def differ(answers):
    """The cases whose answers, in their order behind the sample's, are not the papers'."""
    answers = answers[len(sample()) :]
    for k, (call, wanted) in enumerate(cases()):
        given = answers[k]
        if not (given == answers[k - 4] if wanted is None else given == wanted or wanted.endswith(b" ") and given.startswith(wanted)):
            yield call, given


def main():
    if sys.argv[1:2] == ["--paper"]:
        with open(sys.argv[2], "rb") as file:
            found = list(differ([answer.removesuffix(b"\n") for answer in parted(file.read())]))
        for call, given in found:
            print(f"{call[:60]!r}: {given[:60]!r} is not what the documents give")
        sys.exit(len(found) > 0)
    sys.stdout.buffer.write(b"".join(sample() + [call for call, _ in cases()] + [b"height -1\n"]))


if __name__ == "__main__":
    main()
