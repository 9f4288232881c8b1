"""Document 01's "Checked against" cases, its limits and the card file readings, change request No. 1 against single months,
No. 3 against single heights, No. 4 column by column and read back, No. 5's promise, and No. 6's strides against 01's and against
every single minute, as plain asserts.

Usage: python3 second/test_model.py [folder with the standard cards]
"""

import json
import os
import random
import sys

import berths
import decks
import heights
import hourly
import hours
from cards import Main, Satellite, Shallow, read_card_file
from clock import Clock
from cosine import COSINES, DENOMINATOR, HALF, PARTS, QUARTER, STEP, TURN
from cosine import base_fraction, cosine_fraction, fixed_cosine, fixed_sine, sine_fraction
from month import TICKS_PER_ARC_MINUTE, Constituent, Month
from month import argument, day_count, days_in_month, latitude_factors, longitudes_at, pair_of_main
from refusal import Refusal
from replay import replay
from stationfile import read_station_file, station_name, time_zone
from years import midnights

FOLDER = sys.argv[1] if len(sys.argv) > 1 else os.path.join(os.path.dirname(os.path.abspath(__file__)), "..", "data")
PASSED = 0
FAILED = 0


def check(what, got, wanted):
    global PASSED, FAILED
    if got == wanted:
        PASSED += 1
    else:
        FAILED += 1
        print("failed: %s: got %r, wanted %r" % (what, got, wanted))


def load(name):
    with open(os.path.join(FOLDER, name), "rb") as file:
        return file.read()


STANDARD = load("standard-cards.txt")
AS_PRINTED = load("standard-cards-as-printed.txt")


def refused(call, *arguments):
    """(number, place) of a refusal, or None."""
    try:
        call(*arguments)
    except Refusal as refusal:
        return refusal.number, refusal.place
    return None


def place_of(clock, name):
    return [known for known, _ in clock.table.frequencies].index(name.ljust(5))


def named(clock, records):
    """Records of a table's places, from (name, amplitude, lag)."""
    return [(place_of(clock, name), amplitude, lag) for name, amplitude, lag in records]


def clock_with(latitude, records, year=1976, month=7, strides=heights.USUAL_STRIDES):
    """A clock with the standard table; records as (name, amplitude, lag)."""
    clock = Clock()
    clock.set_cards(STANDARD)
    clock.set_station(latitude, named(clock, records), strides)
    clock.set_date(year, month)
    return clock


def cosines_within(bound, ticks):
    """Whether the fixed cosines are so near 2^30 times their fractions."""
    return all(abs(fixed_cosine(at) * DENOMINATOR - 2**30 * base_fraction(at)) <= bound * DENOMINATOR for at in ticks)


def check_cosine():
    # 02, No. 5: "The table cases of 01 move to entries 0, 1,024 and 2,048 with the same numbers."
    check("C(0)", COSINES[0], 1_073_741_824)
    check("C(1024)", COSINES[1024], 759_250_125)
    check("C(2048)", COSINES[2048], 0)
    check("entries", len(COSINES), 2_049)
    check("parts of the quarter turn", PARTS * STEP, QUARTER)
    nearest = [abs(2**30 * base_fraction(i * STEP) - C * DENOMINATOR) * 2 <= DENOMINATOR for i, C in enumerate(COSINES)]
    check("nearest", all(nearest), True)
    check("falling", all(a > b for a, b in zip(COSINES, COSINES[1:])), True)
    check("signs", [fixed_cosine(n * QUARTER) for n in range(-4, 5)], [2**30, 0, -(2**30), 0] * 2 + [2**30])
    check("sine", [fixed_sine(n * QUARTER) for n in range(4)], [0, 2**30, 0, -(2**30)])
    # "The fixed cosine is then promised within 256". The middles of the parts are the farthest, two each since the step is odd.
    rng = random.Random(1)
    middles = [i * STEP + half for i in range(PARTS) for half in (STEP // 2, STEP // 2 + 1)]
    ticks = [rng.randrange(QUARTER) for _ in range(2_000)] + [QUARTER - 1, 1, STEP - 1, QUARTER - STEP + 1]
    check("within 256", cosines_within(256, ticks + middles), True)
    check("a promise of 64", cosines_within(64, middles), False)
    turned = [(fixed_cosine(HALF - at), fixed_cosine(HALF + at), fixed_cosine(-at)) for at in ticks]
    check("quadrants", turned == [(-C, -C, C) for C in map(fixed_cosine, ticks)], True)
    # The floor: nothing is taken off one tick past an entry, and all but one a tick before the next.
    beside = [(fixed_cosine(i * STEP + 1), fixed_cosine(i * STEP + STEP - 1)) for i in range(PARTS)]
    check("beside the entries", beside == [(C, after + 1) for C, after in zip(COSINES, COSINES[1:])], True)


def check_arguments():
    table = read_card_file(STANDARD)
    longitudes = longitudes_at(table, 0)

    def cycles_e10(name):
        return argument(table.definitions[name.ljust(5)], longitudes)

    check("M2 on 1 January 1976", cycles_e10(b"M2"), 686_206_548 * 78_840)
    check("K1 on 1 January 1976", cycles_e10(b"K1"), 271_900_329 * 78_840)
    check("O1 on 1 January 1976", cycles_e10(b"O1"), 414_306_219 * 78_840)
    M2 = dict(table.frequencies)[b"M2   "]
    check("M2 a minute", 1_314 * M2, 1_057_919_805_198)
    check("1 January 1950", day_count(1950, 1, 1), -9_496)
    check("16 December 2049", day_count(2049, 12, 16), 27_013)
    check("1 January 1976", day_count(1976, 1, 1), 0)
    check("1 March 1976", day_count(1976, 3, 1), 60)
    clock = clock_with(0, [])
    check("month 0", refused(clock.set_date, 1976, 0), (8, 0))
    check("month 13", refused(clock.set_date, 1976, 13), (8, 0))
    check("year 1949", refused(clock.set_date, 1949, 12), (8, 0))
    check("year 2050", refused(clock.set_date, 2050, 1), (8, 0))


def near_exact_sum(clock, minutes, power=34):
    """Whether heights stay near the exact sum: half a unit for rounding, 1/4,096 for each share's floor, and the third part, "the
    sum of the weights' sizes over 2^34", for the fixed cosines. A gap is in 1/4,096 of a unit, times DENOMINATOR."""
    sizes = sum(abs(c.P) + abs(c.Q) for c in clock.month.constituents)
    share = 2**power // 4_096
    reach = 2_048 * share + len(clock.month.constituents) * share + sizes
    gaps = [clock.height(minute) * 4_096 * DENOMINATOR - heights.exact_sum(clock.month, minute) for minute in minutes]
    return all(abs(gap) * share <= reach * DENOMINATOR for gap in gaps)


def check_third_part():
    """The third part of the distance where it counts: large still constituents, all of them at one angle within two degrees.
    The sums are the same with P and Q changed a quarter turn on. A part four times smaller is too small."""
    near, nearer = [], []
    clock = still_clock(0)
    for lag in range(200):
        clock.set_station(0, [(place_of(clock, name), 65_535, lag) for name in decks.STILLS])
        clock.set_date(1976, 7)
        for _ in range(2):
            near.append(near_exact_sum(clock, [0]))
            nearer.append(near_exact_sum(clock, [0], 36))
            turned = [c._replace(angle=c.angle - QUARTER, P=c.Q, Q=c.P) for c in clock.month.constituents]
            clock.month = clock.month._replace(constituents=turned)
    check("near the exact sum of large amplitudes", all(near), True)
    check("a third part over 2^36", all(nearer), False)


def floored_within(value, unit, fraction):
    """Whether value may be floor(fixed cosine / unit), the cosine being within 256 of 2^30 times the fraction."""
    return (value * unit - 256) * DENOMINATOR <= 2**30 * fraction <= (value * unit + unit - 1 + 256) * DENOMINATOR


def check_taken_up():
    """ "Latitude, satellites, heights and the search take it up": what they make of it is as near as the promise has it."""
    latitudes = []
    for minutes in range(300, 5_401):
        # The semidiurnal G tells S20.
        S20 = -(-latitude_factors(minutes)[2] * 100_000 // 259_808)
        latitudes.append(floored_within(S20, 2**10, sine_fraction(minutes * TICKS_PER_ARC_MINUTE)))
    check("latitudes take it up", all(latitudes), True)
    satellites, slopes = [], []
    main = Main(b"M2   ", [0] * 6, 0, [Satellite([0, 1, 0], 0, 20_000, 0)])
    for angle in range(0, TURN, 3 * STEP // 2):
        X, Y = pair_of_main(main, [0, 0, 0, angle, 0], latitude_factors(0))
        satellites.append(floored_within(X - 2**20, 2**9, cosine_fraction(angle)))
        satellites.append(floored_within(Y, 2**9, sine_fraction(angle)))
        for P, Q, fraction in ((2**30, 0, sine_fraction(angle)), (0, 2**30, cosine_fraction(angle))):
            month = Month(1976, 7, 31, [Constituent(angle, 1_000, P, Q)])
            slopes.append(floored_within(-heights.slope(month, heights.INSTANT), 1, fraction))
    check("satellites take it up", all(satellites), True)
    check("slopes take it up", all(slopes), True)


def check_heights():
    for A in (0, 1, 777, 65_535):
        for lag, wanted in ((0, A), (18_000, -A), (9_000, 0)):
            clock = clock_with(2_905, [(b"Z0", A, lag)])
            last = 31 * 1_440
            check("Z0 %d at %d" % (A, lag), {clock.height(m) for m in (0, 1, 21_600, last)}, {wanted})
            check("Z0 turns", clock.turns(0, last, 0, 0), ([], False))
    records = [(b"Z0", 60_670, 0), (b"O1", 12_110, 12_340), (b"K1", 20_700, 14_000), (b"M2", 65_535, 31_000), (b"M4", 900, 5)]
    for latitude in (2_905, -60, -5_400):
        clock = clock_with(latitude, records, 2049, 2)
        check("near the exact sum", near_exact_sum(clock, range(0, 28 * 1_440 + 1, 97)), True)
    clock = clock_with(0, [])
    check("empty station", clock.series(0, 1_440, 32), [0] * 32)
    check("no place lent", clock.series(0, 1, 0), [])
    check("start with no place lent", refused(clock.series, 44_641, 1, 0), (9, 0))
    check("step 0", refused(clock.series, 0, 0, 1), (9, 0))
    check("step 1,441", refused(clock.series, 0, 1_441, 1), (9, 0))
    check("series to the end", len(clock.series(0, 1_440, 32)), 32)
    check("series past the end", refused(clock.series, 1, 1_440, 32), (9, 0))
    check("last minute", clock.height(44_640), 0)
    check("past the last minute", refused(clock.height, 44_641), (9, 0))
    check("reversed", refused(clock.turns, 2, 1, 9, 9), (9, 0))
    for (k1_o1, m2_s2), wanted in (
        ((100, 400), 180), ((101, 400), 30), ((301, 100), 360), ((300, 100), 30), ((0, 0), 180)
    ):
        check("stride %d, %d" % (k1_o1, m2_s2), heights.stride_by_amplitudes(heights.USUAL_STRIDES, k1_o1, 0, m2_s2, 0), wanted)
        check("stride split", heights.stride_by_amplitudes(heights.USUAL_STRIDES, 0, k1_o1, 0, m2_s2), wanted)
        clock = clock_with(0, [(b"K1", k1_o1, 0), (b"M2", m2_s2, 0)])
        check("stride of a station", heights.stride_of(clock.table, clock.station), wanted)


def check_stations():
    for mark in (1, 2):
        check("4 59 as 5", latitude_factors(299)[mark], latitude_factors(300)[mark])
        check("0 as 5 north", latitude_factors(0)[mark], latitude_factors(300)[mark])
        check("south", latitude_factors(-1)[mark], -latitude_factors(300)[mark])
        check("5 01 differs", latitude_factors(301)[mark] == latitude_factors(300)[mark], False)
    check("at the pole", latitude_factors(5_400), (None, -4 * 36_309 * 2**20 // 100_000, 259_808 * 2**20 // 100_000))
    records = [(b"K1", 3_000, 100), (b"M2", 9_000, 200)]
    check("4 59 heights", clock_with(299, records).series(0, 60, 745), clock_with(300, records).series(0, 60, 745))
    clock = Clock()
    check("no table", refused(clock.set_station, 9_999, []), (21, 0))
    check("no table for a date", refused(clock.set_date, 1, 1), (21, 0))
    check("no table for a height", refused(clock.height, 0), (21, 0))
    clock.set_cards(STANDARD)
    check("no station for a date", refused(clock.set_date, 1, 1), (22, 0))
    check("no station for turns", refused(clock.turns, 2, 1, 0, 0), (22, 0))
    check("amplitude 65,535", refused(clock.set_station, 0, [(0, 65_535, 0)]), None)
    check("no month", refused(clock.series, 0, 0, 0), (23, 0))
    check("amplitude 65,536", refused(clock.set_station, 0, [(0, 65_536, 0)]), (3, 1))
    check("lag 35,999", refused(clock.set_station, 0, [(0, 1, 35_999)]), None)
    check("lag 36,000", refused(clock.set_station, 0, [(1, 1, 0), (0, 1, 36_000)]), (3, 2))
    check("latitude 5,400", refused(clock.set_station, 5_400, []), None)
    check("latitude -5,400", refused(clock.set_station, -5_400, []), None)
    check("latitude 5,401", refused(clock.set_station, 5_401, [(0, 0, 0)] * 147), (3, 0))
    check("147 records", refused(clock.set_station, 0, [(0, 0, 0)] * 147), (6, 147))
    check("place repeated", refused(clock.set_station, 0, [(0, 0, 0)] * 146), (4, 2))
    check("place not in the table", refused(clock.set_station, 0, [(145, 70_000, 0)]), (5, 1))


def check_card_files():
    table = read_card_file(STANDARD)
    mains = [d for d in table.definitions.values() if isinstance(d, Main)]
    shallows = [d for d in table.definitions.values() if isinstance(d, Shallow)]
    counts = (len(table.frequencies), len(mains), sum(len(m.satellites) for m in mains), len(shallows))
    check("standard counts", counts, (145, 45, 162, 100))
    check("shallow parts", sum(len(s.parts) for s in shallows), 250)
    check("as printed", refused(read_card_file, AS_PRINTED), (3, 337))
    lines = STANDARD.split(b"\n")[:-1]
    check("empty file", refused(read_card_file, b""), (7, 1))
    for kept in range(len(lines)):
        check("cut at %d" % kept, refused(read_card_file, b"".join(l + b"\n" for l in lines[:kept])), (7, kept + 1))
    check("lines after the end", refused(read_card_file, STANDARD + b"\x00\xff" * 90), None)
    check("last card ends without LF", refused(read_card_file, STANDARD[:-1] + b" "), None)

    def edited(line, start, text):
        """The standard file with text put at a column (from 1) of a line."""
        old = lines[line - 1].ljust(start - 1 + len(text))
        new = old[: start - 1] + text + old[start - 1 + len(text) :]
        return b"\n".join(lines[: line - 1] + [new] + lines[line:]) + b"\n"

    def edit(what, line, start, text, wanted):
        check(what, refused(read_card_file, edited(line, start, text)), wanted)

    edit("80 columns", 2, 80, b"x", None)
    edit("81 columns", 2, 81, b"x", (1, 2))
    edit("byte 127", 2, 80, b"\x7f", (1, 2))
    edit("byte 31", 2, 80, b"\x1f", (1, 2))
    edit("byte 126", 2, 80, b"~", None)
    edit("-0.0", 1, 13, b"-0.0", None)
    edit("point alone", 1, 13, b" .  ", (2, 1))
    edit("minus alone", 1, 13, b" -  ", (2, 1))
    edit("plus", 1, 13, b"+0.0", (2, 1))
    edit("two points", 1, 13, b"0..0", (2, 1))
    edit("no point", 1, 13, b"0   ", (2, 1))
    edit("blank inside", 1, 13, b"0. 0", (2, 1))
    edit("eleven decimals", 1, 13, b".00000000001", (2, 1))
    edit("0.5", 1, 13, b"0.5", (3, 1))
    edit("0.4999999999", 1, 13, b"0.4999999999", None)
    edit("blank name", 1, 5, b"     ", (4, 1))
    edit("name twice", 2, 5, b"Z0 ", (4, 2))
    edit("frequency without definition", 3, 5, b"XYZ", (5, 151))
    edit("blank longitudes", 147, 1, b" " * 80, (2, 147))
    edit("longitude 1", 147, 1, b" 1.0000000000", (3, 147))
    edit("increase 20", 148, 1, b"20.0000000000", None)
    edit("increase past 20", 148, 1, b"20.0000000001", (3, 148))
    edit("marks in skipped columns only", 149, 1, b"x" + b" " * 79, (4, 149))
    edit("Doodson 12", 149, 13, b" 12", None)
    edit("Doodson 13", 149, 13, b" 13", (3, 149))
    edit("satellite count 17", 149, 36, b"  17", (3, 149))
    edit("point in an I field", 149, 13, b"1. ", (2, 149))
    edit("blank satellite card", 157, 1, b" " * 80, (2, 157))
    edit("mark by any byte", 157, 33, b"*", None)
    check("no constituents at all", refused(read_card_file, b"\n" + lines[146] + b"\n" + lines[147] + b"\n\n\n"), None)


def check_station_files():
    names = [name for name, _ in read_card_file(STANDARD).frequencies]
    victoria = load("victoria.txt")
    lines = victoria.split(b"\n")
    printed = json.loads(load("victoria-1976-07.json"))["prediction"]
    told = read_station_file(victoria, names)
    check("Victoria's latitude", told.latitude, printed["station"]["latitude_minutes_signed"])
    wanted = [(names.index(c["name"].encode().ljust(5)), c["amplitude_e4"], c["phase_e2"]) for c in printed["constituents"]]
    check("Victoria's records", told.records, wanted)
    check("Victoria's name", station_name(victoria), b"VICTORIA HARBOUR BC   ")
    check("Victoria's zone", time_zone(victoria), b"PST")
    check("name of a short line", station_name(b"     7120 VIC\nx"), b"VIC")
    check("zone of a short line", time_zone(b"     7120 VIC\nx"), b"")

    def read(data):
        return read_station_file(data, names)

    def edited(line, start, text):
        """Victoria's file with text put at a column (from 1) of a line."""
        old = lines[line - 1].ljust(start - 1 + len(text))
        new = old[: start - 1] + text + old[start - 1 + len(text) :]
        return b"\n".join(lines[: line - 1] + [new] + lines[line:])

    def edit(what, line, start, text, wanted):
        check("station: " + what, refused(read, edited(line, start, text)), wanted)

    for text, latitude in (
        (b"-48 25", -2_905), (b" 48 25S", -2_905), (b" -8 25", -505), (b" -0 30", -30), (b" 00 30S", -30), (b"- 0 30", -30),
        (b" 00 30 ", 30), (b" 48 25s", -2_905), (b" 48 25 S", -2_905), (b" 48 25 s", -2_905), (b" 48 25N", 2_905), (b" 48 25 n", 2_905),
        (b"-48 25 N", -2_905), (b" 99 59", 5_999), (b" 5  7 ", 307),
    ):
        check("latitude %r" % text, read(edited(1, 36, text)).latitude, latitude)
    for text in (b" 48 25x", b" 48 25 -", b" 48 25NS", b" 48 25SS", b" 48 25S0", b"-48 25S", b"-48 25 s", b" -8 25S"):
        edit("mark %r" % text, 1, 36, text, (3, 1))
    edit("minutes before the mark", 1, 36, b" 48 6x-", (2, 1))
    edit("minutes 60", 1, 36, b" 48 60", (3, 1))
    edit("minutes -1", 1, 36, b" 48 -1", (3, 1))
    edit("degrees malformed", 1, 36, b" 4x 60", (2, 1))
    edit("degrees blank", 1, 36, b"    25", (2, 1))
    edit("minutes blank", 1, 36, b" 48   ", (2, 1))
    edit("number and longitude ignored", 1, 6, b"wxyz", None)
    edit("longitude ignored", 1, 44, b"wxyz  ", None)
    edit("80 columns", 1, 80, b"x", None)
    edit("81 columns", 1, 81, b"x", (1, 1))
    edit("byte 127", 3, 80, b"\x7f", (1, 3))
    edit("skipped columns", 3, 11, b"x" * 28, None)
    edit("past the format", 3, 54, b"x" * 27, None)
    edit("unknown name", 2, 6, b"XX   ", (5, 2))
    edit("blank name", 2, 6, b"     ", (5, 2))
    edit("name moved by a column", 2, 5, b"Z0    ", (5, 2))
    edit("name before its amplitude", 2, 6, b"XX" + b" " * 31 + b"x" * 8, (5, 2))
    edit("negative amplitude", 3, 39, b" -0.0001", (3, 3))
    edit("amplitude -0", 3, 39, b" -0.0000", None)
    edit("amplitude over 32 bits", 3, 39, b"9999999.", (3, 3))
    edit("amplitude within 32 bits", 3, 39, b"429496.7", None)
    edit("five decimals", 3, 39, b"  .00001", (2, 3))
    edit("no point", 3, 39, b"       1", (2, 3))
    edit("blank amplitude", 3, 39, b" " * 8, (2, 3))
    edit("negative phase", 3, 47, b"  -0.01", (3, 3))
    edit("three decimals", 3, 47, b"  1.234", (2, 3))
    edit("amplitude before phase", 3, 39, b" -0.0001      x", (3, 3))
    check("phase 360 is the clock's", read(edited(3, 47, b" 360.00")).records[1][2], 36_000)
    check("empty station file", refused(read, b""), (7, 1))
    check("blank station card", refused(read, b"\n"), (2, 1))
    check("station card alone", read(lines[0]).records, [])
    check("end of the file", read(b"\n".join(lines[:4])).records, wanted[:3])
    check("blank card", read(b"\n".join(lines[:3] + [b" " * 80, b"\xff" * 99])).records, wanted[:2])
    check("146 cards", len(read(b"\n".join(lines[:1] + lines[1:2] * 146)).records), 146)
    check("147 cards", refused(read, b"\n".join(lines[:1] + lines[1:2] * 146 + [b"x"])), (6, 148))
    check("146 cards and a blank one", refused(read, b"\n".join(lines[:1] + lines[1:2] * 146 + [b"", b"x"])), None)
    for name in ("semidiurnal", "diurnal"):
        told = read(load(os.path.join("examples", name + ".txt")))
        clock = Clock()
        clock.set_cards(STANDARD)
        check("example " + name, refused(clock.set_station, told.latitude, told.records), None)
        wanted_stride = {"semidiurnal": 180, "diurnal": 360}[name]
        check("stride of " + name, heights.stride_of(clock.table, clock.station), wanted_stride)


# A tide with large satellites, so that two months disagree on the midnight between them.
TIDE = [(b"Z0", 18_000, 0), (b"O1", 12_110, 12_340), (b"K1", 20_700, 14_000), (b"M2", 25_535, 31_000), (b"M4", 900, 5)]
PLENTY = 44_641


def check_year_by_months(year):
    """A year's heights and turns are those that its months give one by one."""
    clock = clock_with(2_905, TIDE, year, 7)
    kept = clock.month
    *begins, last = midnights(year)
    sheet = clock.year(year, (0, 720, last // 720 + 1), (0, 0, 0, 0))[0]
    ends = []
    for month, begin in enumerate(begins, 1):
        other = clock_with(2_905, TIDE, year, month)
        end = days_in_month(year, month) * 1_440
        check("year's heights %d %d" % (year, month), sheet[begin // 720 : (begin + end) // 720], other.series(0, 720, end // 720))
        found, high = other.turns(77, end - 1, PLENTY, PLENTY)
        shifted = [(begin + minute, height) for minute, height in found]
        asked = (begin + 77, begin + end - 1, len(found), len(found))
        check("year's turns %d %d" % (year, month), clock.year(year, (0, 1, 0), asked), ([], shifted, high))
        ends.append(other.height(end))
    check("December's minute 44,640", sheet[-1], ends[11])
    check("the year's last minute", clock.year(year, (last, 1, 1), (last, last, 0, 0))[0], [ends[11]])
    check("midnights differ", all(sheet[begin // 720] != end for begin, end in zip(begins[1:], ends)), True)
    for series, search in (((last + 1, 1, 0), (0, 0)), ((1, 1_440, last // 1_440 + 1), (0, 0)), ((0, 1, 0), (0, last + 1))):
        check("past the year", refused(clock.year, year, series, (*search, 9, 9)), (9, 0))
    check("the month stays", clock.month is kept, True)


def check_year_across(year):
    """A search runs on across a month's end, with the slope of the month that owns each minute."""
    clock = clock_with(2_905, TIDE, year, 1)
    january, begin = clock.month, 44_640
    clock.set_date(year, 2)

    def slope_at(minute):
        return heights.slope(january, minute) if minute < begin else heights.slope(clock.month, minute - begin)

    def minutes(first, last):
        return [minute for minute, _ in clock.year(year, (0, 1, 0), (first, last, PLENTY, PLENTY))[1]]

    firsts = range(begin - 1_500, begin - 1_000, 7)
    last = begin + 1_500
    check("runs on", [minutes(first, last) for first in firsts], [heights.search(slope_at, 30, first, last)[0] for first in firsts])
    anew = [minutes(first, begin) + minutes(begin, last) for first in firsts]
    check("not begun anew", anew != [minutes(first, last) for first in firsts], True)


def check_year_refusals():
    clock = Clock()
    good = (0, 60, 2), (0, 1_440, 99, 99)
    check("year, no table", refused(clock.year, 1, (0, 0, 0), (2, 1, 0, 0)), (21, 0))
    clock.set_cards(STANDARD)
    check("year, no station", refused(clock.year, 1, (0, 0, 0), (2, 1, 0, 0)), (22, 0))
    clock.set_station(0, [])
    check("year of an empty station", clock.year(2049, *good), ([0, 0], [], False))
    check("no month after a year", refused(clock.height, 0), (23, 0))
    for year, wanted in ((1949, (8, 0)), (1950, None), (2049, None), (2050, (8, 0))):
        check("year %d" % year, refused(clock.year, year, *good), wanted)
    for series in ((525_601, 1, 0), (0, 0, 0), (0, 1_441, 1), (525_600, 1, 2), (0, 1_440, 367)):
        check("year's series %r" % (series,), refused(clock.year, 1977, series, good[1]), (9, 0))
    for search in ((1, 0), (0, 525_601), (525_601, 525_601)):
        check("year's search %r" % (search,), refused(clock.year, 1977, good[0], (*search, 0, 0)), (9, 0))
    clock = clock_with(2_905, TIDE)
    count = len(clock.year(1976, *good)[1])
    for minutes, places, wanted in ((count, count, None), (count - 1, 99, (10, 0)), (99, count - 1, (10, 0))):
        check("year's places", refused(clock.year, 1976, (0, 1, 0), (0, 1_440, minutes, places)), wanted)


def check_year_late():
    """ "An 11 is that of the first month that has one, and its place is still the station record." """
    clock = Clock()
    clock.set_cards(decks.late_file(random.Random(1), [day_count(1976, month, 16) for month in (9, 12)]))
    clock.set_station(0, [(place, 0, 0) for place in range(len(clock.table.frequencies))])
    places = {month: refused(clock.set_date, 2001, month) for month in range(1, 13)}
    check("months with an 11", [month for month in places if places[month]], [9, 12])
    check("records of the 11", places[9] != places[12] and places[9][0] == 11, True)
    kept = clock.month
    check("11 of September", refused(clock.year, 2001, (0, 0, 0), (2, 1, 0, 0)), places[9])
    check("8 before 11", refused(clock.year, 2050, (0, 0, 0), (2, 1, 0, 0)), (8, 0))
    check("the month stays", clock.month is kept, True)


def check_years():
    check_year_by_months(1976)
    check_year_by_months(1977)
    check_year_across(2000)  # January's last turn is five minutes before February.
    check_year_refusals()
    check_year_late()


def check_bookings_by_heights():
    """A booking's height is that of a single request, in any order and with repeats."""
    clock = clock_with(2_905, TIDE, 1976, 2)
    left = clock.table, clock.station, clock.month
    rng = random.Random(1)
    minutes = [rng.randint(0, 41_760) for _ in range(40)] + [41_760, 0, 7, 7, 0, 41_760]
    for order in (minutes, minutes[::-1], sorted(minutes), sorted(minutes, reverse=True), [7] * 300):
        check("bookings", clock.bookings(order, len(order)), [clock.height(minute) for minute in order])
    given = clock.bookings(minutes, 46)
    check("bookings in the order lent", given != sorted(given) and len(set(given)) > 20, True)
    check("bookings are a series", clock.bookings(range(5, 41_761, 60), 696), clock.series(5, 60, 696))
    check("no bookings", clock.bookings([], 0), [])
    check("one booking", clock.bookings([41_760], 1), [clock.height(41_760)])
    check("refused bookings", refused(clock.bookings, [0, 41_761], 2), (9, 2))
    check("bookings leave all", all(a is b for a, b in zip(left, (clock.table, clock.station, clock.month))), True)


def check_bookings_refusals():
    clock = Clock()
    late = 44_641
    next_calls = (clock.set_cards, STANDARD), (clock.set_station, 0, []), (clock.set_date, 1976, 1)
    for number, (call, *arguments) in enumerate(next_calls, 21):
        for minutes, places in (([], 0), ([0], 1), ([], 1), ([0], 0), ([late], 1), ([late], 2)):
            check("bookings %r, %d" % (minutes, places), refused(clock.bookings, minutes, places), (number, 0))
        call(*arguments)
    for minutes, places, wanted in (
        ([], 0, None), ([], 1, (31, 0)), ([], 44_641, (31, 0)), ([0], 0, (31, 0)), ([0], 2, (31, 0)), ([0, 0, 0], 2, (31, 0)),
        ([0] * 256, 0, (31, 0)), ([0], 257, (31, 0)), ([late], 0, (31, 0)), ([late], 2, (31, 0)), ([0, late, late], 2, (31, 0)),
        ([44_640, 0], 2, None), ([late], 1, (9, 1)), ([late, 0], 2, (9, 1)), ([0, late], 2, (9, 2)), ([0, late, 0], 3, (9, 2)),
        ([0, late, 0, late, late], 5, (9, 2)), ([late, 2**32 - 1], 2, (9, 1)), ([7, 2**32 - 1, late], 3, (9, 2)),
        ([0] * 300 + [65_536], 301, (9, 301)), ([2**31], 1, (9, 1)), ([5, 65_536 + 5], 2, (9, 2)),
    ):
        check("bookings %r, %d" % (minutes[-5:], places), refused(clock.bookings, minutes, places), wanted)
    for year, month, last in ((1977, 2, 40_320), (1976, 2, 41_760), (1976, 4, 43_200), (1976, 12, 44_640)):
        clock.set_date(year, month)
        check("bookings to the month's end", refused(clock.bookings, [last, 0, last], 3), None)
        check("bookings past the month's end", refused(clock.bookings, [last, last + 1], 2), (9, 2))


def check_bookings():
    check_bookings_by_heights()
    check_bookings_refusals()


def still_clock(level, year=1976, month=7, others=()):
    """A clock with a still level in tenths of a millimetre, of constituents without satellites; others as (name, amplitude, lag)."""
    clock = Clock()
    clock.set_cards(decks.still_file(random.Random(1)))
    lag, left, records = 0 if level >= 0 else 18_000, abs(level), list(others)
    for name in decks.STILLS:
        records.append((name, min(left, 65_535), lag))
        left -= min(left, 65_535)
    clock.set_station(0, named(clock, records))
    clock.set_date(year, month)
    return clock


def cards_of(clock, station=7_120):
    return clock.hourly(station, 138 * clock.month.days)


def check_hourly_columns():
    """Cards as they stand, column by column."""
    cards = cards_of(still_clock(12_345, 2005, 3), 5)
    check("a card", cards[:69], b"1     5        1 3 5 123 123 123 123 123 123 123 123 123 123 123 123\n")
    check("the second", cards[69:138], b"2     5        1 3 5 123 123 123 123 123 123 123 123 123 123 123 123\n")
    check("the last", cards[-69:], b"2     5       31 3 5 123 123 123 123 123 123 123 123 123 123 123 123\n")
    low = cards_of(still_clock(-99_950, 1999, 11), 99_999)
    check("low", low[-69:], b"2 99999       301199-999-999-999-999-999-999-999-999-999-999-999-999\n")
    high = cards_of(still_clock(999_849, 2000, 2), 0)
    check("high", high[-69:], b"2     0       29 2 0" + b"9998" * 12 + b"\n")
    empty = cards_of(clock_with(0, [], 1977, 2), 6_485)
    check("empty station", empty[:69], b"1  6485        1 277" + b"   0" * 12 + b"\n")
    check("order of cards", [(line[:1], int(line[14:16])) for line in empty.split(b"\n")[:-1]],
          [(number, day) for day in range(1, 29) for number in (b"1", b"2")])
    for year, digits in ((1950, b"50"), (1999, b"99"), (2000, b" 0"), (2005, b" 5"), (2009, b" 9"), (2010, b"10"), (2049, b"49")):
        check("year %d" % year, cards_of(still_clock(0, year, 1))[18:20], digits)
    for year, month, days in ((1977, 2, 28), (1976, 2, 29), (2000, 2, 29), (1976, 4, 30), (1976, 12, 31)):
        check("length of %d %d" % (year, month), len(cards_of(still_clock(0, year, month))), 138 * days)


def check_hourly_rounding():
    """ "Heights are in centimetres, the nearest, a half going up." """
    for height, wanted in (
        (-50, 0), (-51, -1), (-49, 0), (49, 0), (50, 1), (51, 1), (0, 0), (-1, 0), (-150, -1), (-151, -2), (149, 1), (150, 2),
        (-99_900, -999), (-99_949, -999), (-99_950, -999), (999_800, 9_998), (999_750, 9_998), (999_749, 9_997), (999_849, 9_998),
    ):
        check("%d tenths" % height, cards_of(still_clock(height))[20:68], b"%4d" % wanted * 12)


def check_hourly_hours():
    """Every height is that of its hour: 24:00 is the next midnight, the month's last included; 00:00 of the 1st is on no card."""
    for year, month in ((1976, 7), (1977, 2), (2000, 2), (2049, 12), (1950, 4)):
        clock = clock_with(2_905, TIDE, year, month)
        days = clock.month.days
        left = clock.table, clock.station, clock.month
        wanted = [(tenths + 50) // 100 for tenths in clock.series(60, 60, 24 * days)]
        cards = hourly.read(cards_of(clock))
        check("all hours of %d %d" % (year, month), [height for card in cards for height in card.heights], wanted)
        check("24:00 of the last day", cards[-1].heights[11], (clock.height(days * 1_440) + 50) // 100)
        check("01:00 of the 1st", cards[0].heights[0], (clock.height(60) + 50) // 100)
        check("not 00:00", cards[0].heights[0] != (clock.height(0) + 50) // 100, True)
        check("hourly leaves all", all(a is b for a, b in zip(left, (clock.table, clock.station, clock.month))), True)


def check_hourly_back():
    """Cards read back: station number, dates and heights are those written."""
    for year, month, station in ((1950, 1, 0), (1999, 12, 5), (2000, 2, 99_999), (2005, 9, 7_120), (2049, 11, 10)):
        clock = clock_with(2_905, TIDE, year, month)
        cards = hourly.read(cards_of(clock, station))
        days = range(1, clock.month.days + 1)
        dates = [(number, year, month, day) for day in days for number in (1, 2)]
        check("dates read back", [(card.number, card.year, card.month, card.day) for card in cards], dates)
        check("station read back", {card.station for card in cards}, {station})
        check("cards read back", cards, hourly.month_cards(clock.month, station))


def check_hourly_read():
    """A card of the manual, 001, appendix 7.2, in the columns of its format; and edits of it."""
    manual = b"1  6485        7 775 229 218 206 200 193 187 179 176 183 199 215 231"
    numbers = [229, 218, 206, 200, 193, 187, 179, 176, 183, 199, 215, 231]
    check("the manual's card", hourly.read(manual), [hourly.HourlyCard(1, 6_485, 1975, 7, 7, numbers)])

    def edited(start, text):
        return manual[: start - 1] + text + manual[start - 1 + len(text) :]

    def edit(what, start, text, wanted):
        check("hourly card: " + what, refused(hourly.read, edited(start, text)), wanted)

    other = edited(3, b"06485" + b"xxxxxxx" + b"07" + b"7 " + b" 0" + b" 1  " + b"-9  " + b"-001")
    check("zeros and blanks", hourly.read(other), [hourly.HourlyCard(1, 6_485, 2000, 7, 7, [1, -9, -1] + numbers[3:])])
    edit("skipped columns", 2, b"x", None)
    edit("past the format", 69, b"x" * 12, None)
    edit("81 columns", 69, b"x" * 13, (1, 1))
    edit("byte 127", 2, b"\x7f", (1, 1))
    edit("card 0", 1, b"0", (3, 1))
    edit("card 3", 1, b"3", (3, 1))
    edit("no card number", 1, b" ", (2, 1))
    edit("blank station", 3, b"     ", (2, 1))
    edit("negative station", 3, b"   -1", (3, 1))
    edit("blank inside", 3, b"6 485", (2, 1))
    edit("day 0", 15, b" 0", (3, 1))
    edit("31 June", 15, b"31 6", (3, 1))
    edit("31 July", 15, b"31 7", None)
    edit("29 February 1975", 15, b"29 275", (3, 1))
    edit("29 February 2000", 15, b"29 2 0", None)
    edit("month 13", 17, b"13", (3, 1))
    edit("negative year", 19, b"-1", (3, 1))
    edit("blank height", 65, b"    ", (2, 1))
    edit("9999", 65, b"9999", (3, 1))
    edit("-999", 65, b"-999", None)
    edit("a point", 65, b" 1.0", (2, 1))
    for digits, year in ((b"50", 1950), (b"99", 1999), (b"00", 2000), (b" 5", 2005), (b"5 ", 2005), (b"49", 2049)):
        check("year %r" % digits, hourly.read(edited(19, digits))[0].year, year)
    check("place of a bad card", refused(hourly.read, manual + b"\n" + manual + b"\n" + edited(1, b"x") + b"\n"), (2, 3))
    check("no cards", hourly.read(b""), [])


def check_hourly_refusals():
    clock = Clock()
    next_calls = (clock.set_cards, STANDARD), (clock.set_station, 0, []), (clock.set_date, 1976, 7)
    for number, (call, *arguments) in enumerate(next_calls, 21):
        for station, places in ((0, 4_278), (100_000, 4_278), (0, 0), (100_000, 0)):
            check("hourly %d %d" % (station, places), refused(clock.hourly, station, places), (number, 0))
        call(*arguments)
    for station, places, wanted in (
        (0, 4_278, None), (99_999, 4_278, None), (0, 4_279, None), (0, 2**32 - 1, None), (0, 4_277, (34, 0)), (0, 0, (34, 0)),
        (100_000, 4_278, (32, 0)), (100_000, 0, (32, 0)), (2**32 - 1, 4_278, (32, 0)), (65_536, 4_278, None), (131_072, 4_278, (32, 0)),
    ):
        check("hourly %d %d" % (station, places), refused(clock.hourly, station, places), wanted)
    for level, wanted in (
        (-99_950, None), (-99_951, (33, 1)), (-100_000, (33, 1)), (999_849, None), (999_850, (33, 1)), (999_900, (33, 1)),
    ):
        clock = still_clock(level)
        check("level %d" % level, refused(clock.hourly, 0, 4_278), wanted)
        check("level %d and no buffer" % level, refused(clock.hourly, 0, 0), wanted or (34, 0))
        check("level %d and no station" % level, refused(clock.hourly, 100_000, 0), (32, 0))


def check_hourly_places():
    """33 at the first card with such a height, which may be any of the month."""
    for lag in (0, 7_000, 9_000, 18_000, 27_000):
        for name in (decks.SLOW, decks.SWIFT):
            tide = still_clock(0, 1977, 2, [(name, 9_000, lag)]).series(60, 60, 24 * 28)
            hour = tide.index(max(tide))
            for past, wanted in ((0, (34, 0)), (1, (33, hour // 12 + 1))):
                clock = still_clock(999_849 - max(tide) + past, 1977, 2, [(name, 9_000, lag)])
                check("high at hour %d, %d past" % (hour, past), refused(clock.hourly, 0, 0), wanted)
            hour = tide.index(min(tide))
            for past, wanted in ((0, (34, 0)), (1, (33, hour // 12 + 1))):
                clock = still_clock(-99_950 - min(tide) - past, 1977, 2, [(name, 9_000, lag)])
                check("low at hour %d, %d past" % (hour, past), refused(clock.hourly, 0, 0), wanted)


def check_hourly_ends():
    """24:00 of the last day is on the last card, 00:00 of the 1st on none."""
    rising = [(decks.SLOW, 65_535, 9_000)]
    tide = still_clock(0, 1976, 2, rising).series(0, 60, 24 * 29 + 1)
    check("rising all month", tide == sorted(tide), True)
    check("24:00 of the last day alone", tide[-2] < tide[-1], True)
    clock = still_clock(999_850 - tide[-1], 1976, 2, rising)
    check("33 at the last card", refused(clock.hourly, 0, 4_002), (33, 58))
    clock = still_clock(-99_950 - tide[1], 1976, 2, rising)
    check("00:00 of the 1st is past the limit", clock.height(0) < -99_950, True)
    check("and on no card", refused(clock.hourly, 0, 4_002), None)


def check_hourly():
    check_hourly_columns()
    check_hourly_rounding()
    check_hourly_hours()
    check_hourly_back()
    check_hourly_read()
    check_hourly_refusals()
    check_hourly_places()
    check_hourly_ends()


def check_stride_refusals():
    """ "Refused: 35, a stride outside its range, after the latitude and before the count of records." """
    clock = Clock()
    check("no table before 35", refused(clock.set_station, 5_401, [(0, 0, 0)] * 147, (0, 0, 0)), (21, 0))
    clock.set_cards(STANDARD)
    check("35 with no station", refused(clock.set_station, 0, [], (0, 0, 0)), (35, 0))
    check("still no station", refused(clock.set_date, 1976, 7), (22, 0))
    faults = (
        ([], None), ([(0, 0, 0)] * 147, (6, 147)), ([(255, 0, 0)], (5, 1)), ([(0, 0, 0), (0, 0, 0)], (4, 2)),
        ([(0, 65_536, 0)], (3, 1)), ([(0, 0, 36_000)], (3, 1)),
    )
    for records, wanted in faults:
        for strides in ((0, 30, 360), (180, 721, 360), (180, 30, 2**32 - 1), (0, 721, 0)):
            check("35 beside %r" % (wanted,), refused(clock.set_station, 0, records, strides), (35, 0))
            check("latitude before 35", refused(clock.set_station, -5_401, records, strides), (3, 0))
        check("no 35", refused(clock.set_station, 0, records, (1, 720, 1)), wanted)
        check("latitude and no 35", refused(clock.set_station, 5_401, records, (1, 720, 1)), (3, 0))
    for place in range(3):
        for length, wanted in (
            (0, (35, 0)), (1, None), (2, None), (719, None), (720, None), (721, (35, 0)), (722, (35, 0)), (1_440, (35, 0)),
            (65_536, (35, 0)), (65_536 + 180, (35, 0)), (2**31 + 1, (35, 0)), (2**32 - 1, (35, 0)),
        ):
            for other in (1, 30, 720):
                strides = [other] * 3
                strides[place] = length
                check("strides %r" % strides, refused(clock.set_station, 0, [], strides), wanted)


def check_stride_classes():
    """ "The class limits remain 0.25 and 3." The order is semidiurnal, mixed, diurnal."""
    for k1_o1, m2_s2, wanted in (
        (0, 0, 7), (0, 1, 7), (99, 400, 7), (100, 400, 7), (101, 400, 11), (299, 100, 11), (300, 100, 11), (301, 100, 13), (1, 0, 13),
        (100, 399, 11), (300, 99, 13), (25, 100, 7), (26, 100, 11), (75, 25, 11), (76, 25, 13), (20, 100, 7), (100, 25, 13), (1, 1, 11),
    ):
        for k1, m2 in ((k1_o1, m2_s2), (0, 0), (k1_o1 // 2, m2_s2 // 3)):
            records = [(b"K1", k1, 0), (b"S2", m2_s2 - m2, 0), (b"O1", k1_o1 - k1, 0), (b"M4", 9_000, 0), (b"M2", m2, 0)]
            clock = clock_with(0, records, strides=(7, 11, 13))
            check("stride of %d, %d" % (k1_o1, m2_s2), heights.stride_of(clock.table, clock.station), wanted)


def check_single_minutes():
    """ "A stride of 1 whose ends differ is not cut." Made-up slopes, one for each minute."""
    for slopes, wanted in (
        # The end with the smaller size, the earlier if equal; slope 0 is rising.
        ([5, -3], ([1], True)), ([3, -5], ([0], True)), ([4, -4], ([0], True)), ([-5, 3], ([1], False)), ([-3, 5], ([0], False)),
        ([-4, 4], ([0], False)), ([-1, 0], ([1], False)), ([0, -1], ([0], True)), ([0, 0], ([], False)), ([1, 0], ([], False)),
        ([-1, -1], ([], False)), ([7], ([], False)), ([2, 1, -1], ([1], True)), ([2, 1, 0, -1], ([2], True)),
        # The search resumes from the later end, whichever end the turn was: a minute may be two turns.
        ([9, -1, 9], ([1, 1], True)), ([1, -9, 1], ([0, 2], True)), ([1, -1, 1, -1], ([0, 1, 2], True)), ([-9, 2, -3], ([1, 1], False)),
        ([5, -4, 3, -2, 1], ([1, 2, 3, 4], True)), ([1, -2, 3, -4, 5], ([0, 1, 2, 3], True)), ([3, -3, -3, 3], ([0, 2], True)),
    ):
        check("single minutes %r" % slopes, heights.search(slopes.__getitem__, 1, 0, len(slopes) - 1), wanted)
    for slopes, stride, wanted in (
        ([1, 2, -3], 2, ([1], True)), ([4, -2, -1], 2, ([1], True)), ([1, -1, 1], 2, ([], False)), ([1, -9], 2, ([], False)),
        # "Then cut at start + floor(length/2)": three changes in a stride, of which the halves find one.
        ([1, -1, 1, -1], 3, ([0], True)), ([1, 1, -1, 1, 1, -1], 5, ([1], True)), ([1, 1, 1, -1, 1, -1], 5, ([2], True)),
        # Resumed at minute 2, a stride of 2 ends at 4 and one of 3 at 5.
        ([1, 1, -1, -1, 3], 2, ([1, 3], True)), ([1, 1, -1, -1, 3], 3, ([1], True)), ([1, 1, -1, -1, -1, 3], 3, ([1, 4], True)),
    ):
        check("strides of %d %r" % (stride, slopes), heights.search(slopes.__getitem__, stride, 0, len(slopes) - 1), wanted)
    asked = []
    heights.search(lambda minute: asked.append(minute) or (-1) ** minute, 1, 3, 9)
    check("nothing between asked", sorted(asked), list(range(3, 10)))
    for stride in (1, 2, 20, 719, 720):
        slopes = [1] * stride + [-1]
        check("a stride to the last minute", heights.search(slopes.__getitem__, stride, 0, stride), ([stride - 1], True))
        check("a stride past it", heights.search(slopes.__getitem__, stride, 1, stride), ([], False))


def slopes_of(clock, first, last):
    """The slope at every minute of a search."""
    return {minute: heights.slope(clock.month, minute) for minute in range(first, last + 1)}


def every_turn(slopes):
    """The minutes of all changes of sense, looked for minute by minute."""
    changes = [minute for minute in list(slopes)[:-1] if (slopes[minute] < 0) != (slopes[minute + 1] < 0)]
    return [min((minute, minute + 1), key=lambda end: abs(slopes[end])) for minute in changes]


def turns_by_01(slopes, stride):
    """The minutes of the turns, by 01 as it stands."""
    first, last = min(slopes), max(slopes)
    found = []
    while first + stride <= last:
        low, high = first, first + stride
        first = high
        if (slopes[low] < 0) == (slopes[high] < 0):
            continue
        while high - low > 1:
            middle = low + (high - low) // 2
            if (slopes[low] < 0) == (slopes[middle] < 0):
                low = middle
            else:
                high = middle
        found.append(min((low, high), key=lambda end: abs(slopes[end])))
        first = high
    return found


def random_tide(rng):
    """Records of a class, with 01's stride for it."""
    k1, o1, m2, s2 = [rng.randint(0, 5_000) for _ in range(4)]
    m2 *= rng.choice([1, 1, 4])
    k1 *= rng.choice([1, 1, 4, 8])
    stride = 180 if 4 * (k1 + o1) <= m2 + s2 else 360 if k1 + o1 > 3 * (m2 + s2) else 30
    amplitudes = [(b"K1", k1), (b"O1", o1), (b"M2", m2), (b"S2", s2), (b"M4", rng.randint(0, 9_000)), (b"M6", rng.randint(0, 6_000))]
    return [(name, amplitude, rng.randint(0, 35_999)) for name, amplitude in amplitudes], stride


def minutes_found(clock, first, last):
    return [minute for minute, _ in clock.turns(first, last, PLENTY, PLENTY)[0]]


def check_usual_strides():
    """ "With 180, 30 and 360 every turn is what 01 gives." With 1 in all classes, every change of sense is a turn."""
    rng = random.Random(6)
    clock = clock_with(0, [])
    seen, lost = set(), 0
    for _ in range(24):
        tide, stride = random_tide(rng)
        first = rng.randint(0, 40_000)
        last = first + rng.randint(1_500, 3_000)
        records = named(clock, tide)
        answers = {}
        for strides in ((), ((180, 30, 360),), ((1, 1, 1),), ((stride,) * 3,)):
            clock.set_station(2_905, records, *strides)
            clock.set_date(2026, 3)
            answers[strides] = minutes_found(clock, first, last)
        slopes = slopes_of(clock, first, last)
        wanted = turns_by_01(slopes, stride)
        check("what 01 gives", answers[()], wanted)
        check("180, 30 and 360", answers[((180, 30, 360),)], wanted)
        check("the class's own length alone counts", answers[((stride,) * 3,)], wanted)
        check("single minutes", answers[((1, 1, 1),)], every_turn(slopes))
        seen.add(stride)
        lost += answers[((1, 1, 1),)] != wanted
    check("all classes were seen", seen, {180, 30, 360})
    check("01's strides step over turns", lost > 5, True)


# A made-up berth in Southampton's latitude: semidiurnal, with a quarter-diurnal tide that makes the high waters of neaps double.
DOUBLE = [(b"M2", 10_000, 0), (b"S2", 2_000, 0), (b"M4", 3_500, 15_000)]
# 8 March 2026, in minutes of the month: the turns that a stride of 180 finds, and those that it steps over.
EIGHTH = 7 * 1_440, 8 * 1_440
FOUND = [(10_360, 6_893), (10_637, -12_348), (11_111, 6_659), (11_383, -11_922)]
STEPPED_OVER = [(10_177, 6_274), (10_248, 6_005), (10_916, 5_921), (10_994, 5_564)]
ALL_EIGHT = sorted(FOUND + STEPPED_OVER)


def check_double_high_water():
    """ "Two estuary berths have double high waters that the fixed strides step over." """
    clock = clock_with(3_050, DOUBLE, 2026, 3)
    check("a stride of 180", clock.turns(*EIGHTH, 4, 4), (FOUND, True))
    for stride in (20, 1, 5, 30):
        clock = clock_with(3_050, DOUBLE, 2026, 3, (stride, 720, 720))
        check("a stride of %d" % stride, clock.turns(*EIGHTH, 8, 8), (ALL_EIGHT, True))
        check("its places", refused(clock.turns, *EIGHTH, 8, 7), (10, 0))
    check("they are all", [minute for minute, _ in ALL_EIGHT], every_turn(slopes_of(clock, *EIGHTH)))
    for stride, count in ((180, 119), (20, 155)):
        clock = clock_with(3_050, DOUBLE, 2026, 3, (stride, 1, 1))
        check("turns of March by %d" % stride, len(minutes_found(clock, 0, 44_640)), count)


def check_strides_replaced():
    """ "replacing a station replaces them with the rest"; a refused station keeps the old one, strides included."""
    clock = clock_with(3_050, DOUBLE, 2026, 3)
    records = named(clock, DOUBLE)
    for strides in ((20, 30, 360), None, (180, 20, 20), (1, 720, 720), None, (720, 1, 1), (20, 30, 360), (180, 30, 360)):
        clock.set_station(3_050, records, *[strides] if strides else [])
        length = strides[0] if strides else 180
        check("strides kept", clock.station.strides, strides or (180, 30, 360))
        check("no month", refused(clock.turns, *EIGHTH, 9, 9), (23, 0))
        clock.set_date(2026, 3)
        wanted = turns_by_01(slopes_of(clock, *EIGHTH), length)
        check("turns by the new strides", minutes_found(clock, *EIGHTH), wanted)
        left = clock.station, clock.month
        for latitude, bad, other, refusal in (
            (5_401, [], (7, 7, 7), (3, 0)), (-5_401, records, (180, 30, 360), (3, 0)), (0, [], (0, 7, 7), (35, 0)),
            (0, [], (7, 721, 7), (35, 0)), (0, [], (7, 7, 2**32 - 1), (35, 0)), (0, [(0, 0, 0)] * 147, (7, 7, 7), (6, 147)),
            (0, [(255, 0, 0)], (7, 7, 7), (5, 1)), (0, records + records, (7, 7, 7), (4, 4)),
            (0, [(0, 65_536, 0)], (7, 7, 7), (3, 1)), (3_050, records + [(0, 0, 36_000)], (7, 7, 7), (3, 4)),
        ):
            check("refused", refused(clock.set_station, latitude, bad, other), refusal)
            check("the old one kept", (clock.station is left[0], clock.month is left[1]), (True, True))
            check("turns by the old strides", minutes_found(clock, *EIGHTH), wanted)
    clock.set_cards(STANDARD)
    clock.set_station(3_050, records)
    check("a new table keeps no strides", clock.station.strides, (180, 30, 360))


def check_year_strides():
    """The year's search takes the station's lengths too."""
    begin = midnights(2026)[2]
    first, last = [begin + minute for minute in EIGHTH]
    found = []
    for strides in ((180, 30, 360), (20, 30, 360), (1, 720, 720), (180, 20, 20), (720, 1, 1)):
        clock = clock_with(3_050, DOUBLE, 2026, 3, strides)
        turns, high = clock.turns(*EIGHTH, 99, 99)
        shifted = [(begin + minute, height) for minute, height in turns]
        check("year's turns by %r" % (strides,), clock.year(2026, (0, 1, 0), (first, last, 99, 99)), ([], shifted, high))
        found.append(len(turns))
    check("turns by strides", found, [4, 8, 8, 4, 0])
    # Across the end of a month, by single minutes and by the longest strides, for a mixed and a diurnal tide too.
    end = midnights(2026)[3]
    for tide, strides in (
        (DOUBLE, (1, 720, 720)), (TIDE, (720, 1, 720)), (TIDE[:3], (720, 720, 1)), (TIDE, (1, 720, 1)), (TIDE[:3], (1, 1, 719)),
    ):
        clock = clock_with(3_050, tide, 2026, 4, strides)
        april = clock.month
        clock.set_date(2026, 3)

        def slope_at(minute):
            return heights.slope(clock.month, minute - begin) if minute < end else heights.slope(april, minute - end)

        stride = heights.stride_of(clock.table, clock.station)
        wanted = heights.search(slope_at, stride, end - 1_500, end + 1_500)
        _, found, high = clock.year(2026, (0, 1, 0), (end - 1_500, end + 1_500, 99, 99))
        check("year across by %d" % stride, ([minute for minute, _ in found], high), wanted)


def check_stride_lines():
    """The replay line with strides, the one without, and what is not of the form."""
    cards = b"cards %d\n%s\n" % (len(STANDARD), STANDARD)
    clock = clock_with(0, [])
    records = b"".join(b"%d %d %d\n" % record for record in named(clock, DOUBLE))
    search = b"turns %d %d 8 8\n" % EIGHTH
    asked = b"date 2026 3\n" + search
    wide, all_eight = ["turns %d 1" % len(found) + "".join(" %d %d" % turn for turn in found) for found in (FOUND, ALL_EIGHT)]
    own, old = b"station 3050 3 20 30 360\n" + records, b"station 3050 3\n" + records
    script = cards + own + asked + old + asked + b"station 3050 3 180 30 360\n" + records + asked + own + asked
    three = ["accepted", "accepted"]
    answers = ["accepted"] + three + [all_eight] + three + [wide] + three + [wide] + three + [all_eight]
    check("lines with strides and without", list(replay(script)), answers)
    for bad, refusal in (
        (b"station 5401 0 0 0 0\n", "3 0"), (b"station 0 0 0 30 360\n", "35 0"), (b"station 0 0 180 721 360\n", "35 0"),
        (b"station 0 1 180 30 4294967295\n255 0 0\n", "35 0"), (b"station 0 147 180 0 360\n" + b"0 0 0\n" * 147, "35 0"),
        (b"station 0 147 180 30 360\n" + b"0 0 0\n" * 147, "6 147"), (b"station 0 1 180 30 360\n255 0 0\n", "5 1"),
    ):
        again = ["refused " + refusal, all_eight]
        check("refused %r" % bad[:30], list(replay(script + bad + search)), answers + again)
    check("strides with no table", list(replay(b"station 0 0 0 0 0\nstation 0 1 1 1 1\n0 0 0\n")), ["refused 21 0"] * 2)
    for bad in berths.MALFORMED[:22]:
        check("script %r" % bad, list(replay(bad)), ["script 1"])
    for bad in berths.MALFORMED[22:]:
        got = list(replay(bad))
        check("script %r" % bad, got[-1].startswith("script ") and set(got[:-1]) <= {"refused 21 0"}, True)
    for bad in (b"station 0 1 180 30 360\n", b"station 0 1 180 30 360\n0 0\n", b"station 0 1 0 0 0\n256 0 0\n"):
        check("record of %r" % bad, list(replay(bad)), ["script 2"])


def check_strides():
    check_stride_refusals()
    check_stride_classes()
    check_single_minutes()
    check_usual_strides()
    check_double_high_water()
    check_strides_replaced()
    check_year_strides()
    check_stride_lines()


def check_replay():
    script = b"height 0\ncards %d\n%s\nstation -299 1\n0 5 18000\ndate 1976 2\nheight 41760\n" % (len(STANDARD), STANDARD)
    script += b"series 0 1440 2\nseries 5 5 0\nturns 0 41760 0 0\nheight 41761\n"
    answers = ["refused 21 0", "accepted", "accepted", "accepted", "height -5", "heights -5 -5", "heights",
               "turns 0 0", "refused 9 0"]
    check("replay", list(replay(script)), answers)
    year = b"year 1976 41760 1440 2 0 527040 0 0\nyear 1977 0 1 0 0 0 0 0\nyear 1977 525601 1 0 0 0 0 0\nheight 0\n"
    year_answers = ["year 2 -5 -5 turns 0 0", "year 0 turns 0 0", "refused 9 0", "height -5"]
    check("year", list(replay(script + year)), answers + year_answers)
    bookings = b"bookings 2 2\n41760\n0\nbookings 0 0\nbookings 1 2\n41761\nbookings 3 3\n0\n41761\n4294967295\nheight 0\n"
    bookings_answers = ["heights -5 -5", "heights", "refused 31 0", "refused 9 2", "height -5"]
    check("bookings", list(replay(script + bookings)), answers + bookings_answers)
    check("bookings with no table", list(replay(b"bookings 1 0\n99999\nbookings 0 0\n")), ["refused 21 0"] * 2)
    cards = "".join("%d  7120       %2d 276" % (number, day) + "   0" * 12 + "\n" for day in range(1, 30) for number in (1, 2))
    asked = b"hourly 7120 4002\nhourly 7120 4001\nhourly 100000 0\nheight 0\n"
    hourly_answers = ["hourly 4002\n" + cards[:-1], "refused 34 0", "refused 32 0", "height -5"]
    check("hourly", list(replay(script + asked)), answers + hourly_answers)
    check("hourly with no table", list(replay(b"hourly 100000 0\n")), ["refused 21 0"])
    line = script.count(b"\n") + 1
    for bad in (b"height", b"height 1", b"height -1\n", b"height  1\n", b"\n", b"Height 1\n", b"height 4294967296\n",
                b"date 1 2 3\n", b"station 1\n", b"cards x\n", b"\xff\n", b"height 1 \n", b"height 1\r\n", b"year 1976 0 1 0 0 0 0\n",
                b"year 1976 0 1 0 0 0 0 0 0\n", b"year 1976 0 1 0 0 0 0 -1\n", b"year 1976 0 1 0 0 0 0 4294967296\n",
                b"booking 0 0\n", b"bookings 0\n", b"bookings 0 0 0\n", b"bookings 0 0", b"bookings -1 0\n",
                b"bookings 0 4294967296\n", *hours.MALFORMED[:22]):
        check("script %r" % bad, list(replay(script + bad)), answers + ["script %d" % line])
    check("record", list(replay(b"station 0 2\n1 2 3\n256 0 0\n")), ["script 3"])
    check("missing record", list(replay(b"station 0 2\n1 2 3\n")), ["script 3"])
    asked = script + b"bookings 3 1\n0\n4294967295\n"
    for bad in (b"", b"0", b"\n", b"-1\n", b"0 0\n", b"0 \n", b" 0\n", b"4294967296\n", b"height 0\n"):
        check("minute %r" % bad, list(replay(asked + bad)), answers + ["script %d" % (line + 3)])
    check("minute too many", list(replay(b"bookings 1 1\n0\n0\n")), ["refused 21 0", "script 3"])
    check("nothing", list(replay(b"")), [])
    check("no LF after cards", list(replay(b"cards 2\n\n\nheight 0\n")), ["script 4"])


def main():
    check_cosine()
    check_arguments()
    check_heights()
    check_third_part()
    check_taken_up()
    check_stations()
    check_card_files()
    check_station_files()
    check_years()
    check_bookings()
    check_hourly()
    check_strides()
    check_replay()
    print("%d passed, %d failed" % (PASSED, FAILED))
    sys.exit(1 if FAILED else 0)


if __name__ == "__main__":
    main()
