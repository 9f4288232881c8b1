"""Has the players of all languages play the second code's scripts: python3 bindings/compare.py NAME=COMMAND ...

The scripts are 200 of about 100 calls, generated from a seed; replay's own; those of tools/malformed.py; stations not of the form; and seven made here,
of numbers at the ends of their types, buffers of every size, whole years, bookings, hourly cards, strides, and card files of every kind. A player gets all of
them as files in one run. Every byte of each answer must be the second code's, and every refusal must come up, also every one that a station, a year, bookings
or hourly cards can have.
"""

import collections
import os
import random
import subprocess
import sys
import tempfile

ROOT = os.path.join(os.path.dirname(os.path.abspath(__file__)), "..")
sys.path.insert(0, os.path.join(ROOT, "tools"))

import compare_many  # noqa: E402
import malformed  # noqa: E402
import replay_example  # noqa: E402
from berths import MALFORMED as MALFORMED_STATIONS  # noqa: E402
from bookings import call as bookings_call  # noqa: E402
from cards import read_card_file  # noqa: E402
from decks import STILLS, still_file  # noqa: E402
from generate import cards_call  # noqa: E402
from hours import AMPLITUDE, HIGHEST, LOWEST  # noqa: E402
from replay_example import CARDS, LAST, PLACES, station  # noqa: E402
from replayed import parted  # noqa: E402

SEED, COUNT = 1, 200
LARGEST = 4_294_967_295
YEAR = 366 * 1_440
REFUSALS = [*range(1, 12), *range(21, 24), *range(31, 36)]
STATION_REFUSALS = [3, 4, 5, 6, 21, 35]
YEAR_REFUSALS = [8, 9, 10, 11, 21, 22]
BOOKINGS_REFUSALS = [9, 21, 22, 23, 31]
HOURLY_REFUSALS = [21, 22, 23, 32, 33, 34]


def call(word, *numbers):
    return b" ".join([word, *(b"%d" % number for number in numbers)]) + b"\n"


def victoria():
    """The manual's station, as replay's own script sets it: latitude and records."""
    (lines,) = [call for call in replay_example.sample() if call.startswith(b"station 2905 11\n")]
    return 2905, [tuple(map(int, line.split())) for line in lines.splitlines()[1:]]


def requests():
    """Heights, series and turns at the ends of the month and of their types, into buffers of every size."""
    for minute in (0, LAST, LAST + 1, LARGEST):
        yield call(b"height", minute)
    for start, step, count in (
        (LARGEST, 1, 1), (LAST + 1, 1, 0), (LAST, 1, 1), (LAST, 1, 2), (0, 0, 1), (0, 1_441, 1), (0, LARGEST, 0), (0, 1_440, 32), (0, 1_440, 33),
        (0, 60, 0), (0, 1, LAST + 1), (0, 1, LAST + 2), (43_201, 1, 1_440), (5, 7, 200),
    ):
        yield call(b"series", start, step, count)
    for first, last, minutes, heights in (
        (0, LARGEST, 1, 1), (LARGEST, LARGEST, 1, 1), (10, 9, 1, 1), (0, 0, 0, 0), (0, LAST, 103, 103), (0, LAST, 102, 103), (0, LAST, 103, 102),
        (0, LAST, 0, 0), (0, LAST, 0, 300), (0, LAST, 300, 250), (0, LAST + 1, 300, 300), (LAST, LAST, 2, 2),
    ):
        yield call(b"turns", first, last, minutes, heights)


def years():
    """Years without a table, without a station and without a month; then at the ends of the year and of their types, into buffers of every size. A
    height after each says that the prepared month stays."""
    latitude, records = victoria()
    whole = call(b"year", 1976, 0, 60, 8_785, 0, YEAR, 1_500, 1_500)
    yield from (whole, cards_call(CARDS), whole, station(latitude, records), whole, call(b"date", 1976, 7))
    for numbers in (
        (1976, 0, 1_440, 367, 0, YEAR, 2_000, 2_000), (1976, 0, 1_440, 368, 0, YEAR, 2_000, 2_000), (1977, 0, 1_440, 366, 0, YEAR - 1_440, 2_000, 1_900),
        (1977, 0, 1_440, 366, 0, YEAR - 1_439, 2_000, 2_000), (1949, 0, 1, 0, 0, 0, 0, 0), (2050, 0, 1, 0, 0, 0, 0, 0), (LARGEST, 0, 1, 0, 0, 0, 0, 0),
        (1950, 0, 60, 50, 0, 9_000, 99, 99), (2049, 525_000, 60, 11, 500_000, 525_600, 300, 300), (1976, 0, 0, 0, 0, 0, 0, 0), (1976, YEAR + 1, 1, 0, 0, 0, 0, 0),
        (1976, LARGEST, LARGEST, 0, 0, 0, 0, 0), (1976, 0, 1, 0, 10, 9, 1, 1), (1976, 0, 1, 0, 0, LARGEST, 1, 1), (1976, YEAR, 1, 1, YEAR, YEAR, 0, 0),
        (1976, 0, 60, 9, 0, YEAR, 0, 0), (1976, 0, 60, 9, 0, YEAR, 10, 2_000), (1976, 0, 60, 9, 0, YEAR, 2_000, 10), (1976, 44_000, 1, 1_300, 43_200, 46_080, 20, 20),
    ):
        yield call(b"year", *numbers)
        yield call(b"height", 510)


def bookings():
    """Bookings without a table, without a station and without a month, of unequal buffers and outside the month too; then with a month: of lengths that
    differ, with minutes outside at every kind of place, and accepted ones of any length. A height after each says that the month stays."""
    latitude, records = victoria()
    early = b"".join(bookings_call(*lent) for lent in (([], 0), ([510, 0], 2), ([510], 0), ([LARGEST], 1), ([LARGEST], 2)))
    yield from (early, cards_call(CARDS), early, station(latitude, records), early, call(b"date", 1976, 7))
    spread = [n * 7_919 % (LAST + 1) for n in range(1_000)]
    for minutes, places in (
        ([], 0), ([], 1), ([], 300), ([510], 0), ([510], 2), ([510] * 256, 0), ([510] * 300, 44), ([LAST + 1], 2), ([LARGEST, 0], 1), (spread, 999),
        ([LAST + 1], 1), ([LARGEST], 1), ([LARGEST, LAST + 1, 0], 3), ([0, LAST, LAST + 1], 3), ([0, LARGEST, 1, LAST + 1], 4), ([65_536 + 510], 1),
        ([2**31 + 510], 1), (spread[:255] + [LAST + 1], 256), (spread[:256] + [LAST + 1], 257), ([LAST] * 70_000 + [LAST + 1], 70_001),
        ([510], 1), ([0, LAST], 2), ([LAST, LAST, 0, 0, 510, LAST], 6), ([510] * 257, 257), (spread, 1_000), (range(LAST, -1, -7), LAST // 7 + 1),
    ):
        yield bookings_call(minutes, places)
        yield call(b"height", 510)
    # February 1977 is three days shorter.
    yield call(b"date", 1977, 2)
    for minutes in ([LAST - 4_320, 0], [0, LAST - 4_319], [LAST, 0]):
        yield bookings_call(minutes, 2)


def levels():
    """A card file of still constituents, and stations whose height is always one: the limits of a card, and past them."""
    deck = still_file(random.Random(SEED))
    still = [place for place, (name, _) in enumerate(read_card_file(deck).frequencies) if name in STILLS]
    yield cards_call(deck)
    for level in (LOWEST - 1, LOWEST, -50, -51, 0, 49, 50, HIGHEST, HIGHEST + 1):
        full, rest = divmod(abs(level), AMPLITUDE)
        yield station(0, [(place, size, 18_000 if level < 0 else 0) for place, size in zip(still, [AMPLITUDE] * full + [rest])])
        yield from (call(b"date", 2009, 4), call(b"hourly", 5, 138 * 30), call(b"hourly", 5, 0))


def hourly():
    """Hourly cards without a table, without a station and without a month, of numbers and buffers that are refused later; then with a month: station
    numbers of every length, buffers that are exact, shorter and longer, months of every length, and heights that no card takes, from one card of
    the month on. A height after each says that the month stays."""
    latitude, records = victoria()
    early = b"".join(call(b"hourly", *numbers) for numbers in ((7_120, 4_278), (100_000, 4_278), (7_120, 0), (LARGEST, 0)))
    yield from (early, cards_call(CARDS), early, station(latitude, records), early, call(b"date", 1976, 7))
    for number, size in (
        (0, 4_278), (7, 4_278), (42, 4_279), (712, 4_278), (7_120, 4_278), (99_999, 4_278), (100_000, 4_278), (131_072 + 7_120, 4_278), (2**31, 4_278),
        (LARGEST, 4_278), (100_000, 0), (7_120, 4_277), (7_120, 4_209), (7_120, 138), (7_120, 69), (7_120, 0), (7_120, 65_536 + 4_278), (7_120, 70_000),
    ):
        yield call(b"hourly", number, size)
        yield call(b"height", 510)
    for year, month, days in ((1950, 1, 31), (1977, 2, 28), (1999, 12, 31), (2000, 2, 29), (2009, 4, 30), (2049, 11, 30)):
        yield call(b"date", year, month)
        for size in (138 * days - 1, 138 * days, 138 * days + 1):
            yield call(b"hourly", 7_120, size)
    for place, lag in ((2, 0), (2, 9_000), (4, 0), (4, 27_000), (5, 0), (47, 0)):
        yield station(latitude, [(0, AMPLITUDE, 18_000), (place, 36_000, lag)])
        yield call(b"date", 1976, 7)
        for number, size in ((7_120, 4_278), (7_120, 0), (100_000, 0)):
            yield call(b"hourly", number, size)
        yield call(b"height", 510)
    yield from levels()


def each_with(strides, lengths):
    """Copies of three strides with each of some lengths at each of the three places."""
    return [(*strides[:place], length, *strides[place + 1 :]) for length in lengths for place in range(3)]


def berths():
    """A berth with a double high water, on a line with strides and on one without; strides outside their range alone, beside other faults and without a
    table, with a search after each that says that the old station stays; then tides of every class and at the classes' limits, with strides that tell the
    three places from each other."""
    latitude, records = victoria()
    double = [(PLACES["M2"], 9_000, 0), (PLACES["M4"], 2_500, 18_000)]
    search, whole = call(b"turns", 0, 4_320, 99, 99), call(b"turns", 0, LAST, 300, 300)
    early = [station(latitude, double, 20, 30, 360), station(5_401, double, 0, 0, 0), station(latitude, double)]
    yield from (*early, cards_call(CARDS))
    for set_berth in (station(latitude, double), *(station(latitude, double, length, 30, 360) for length in (180, 20, 1))):
        yield from (set_berth, call(b"date", 1976, 7), whole, call(b"year", 1976, 0, 60, 9, 300_000, 309_000, 99, 99))
    for strides in each_with((20, 30, 360), (0, 721, 722, 1_440, 65_536 + 20, 2**31 + 20, LARGEST)):
        yield station(latitude, double, *strides) + search
    for faulty in ((5_401, double), (latitude, [(0, 1, 2)] * 147), (latitude, double[:1] * 2), (latitude, [(255, 65_536, 36_000)])):
        for strides in ((20, 30, 360), (0, 30, 360), (20, 721, 360), (20, 30, LARGEST), (0, 0, 0)):
            yield station(*faulty, *strides) + search
    k1, m2 = PLACES["K1"], PLACES["M2"]
    for tides in (
        double, records, [(k1, 1_000, 0), (m2, 4_000, 0)], [(k1, 1_001, 0), (m2, 4_000, 0)], [(k1, 3_000, 0), (m2, 1_000, 0)],
        [(k1, 3_001, 0), (m2, 1_000, 0)], [(PLACES["Z0"], 9, 0)],
    ):
        yield station(latitude, tides) + call(b"date", 1976, 7) + whole
        for strides in ((180, 30, 360), (360, 180, 30), (30, 360, 180), (720, 720, 720), *each_with((60, 60, 60), (1, 720))):
            yield station(latitude, tides, *strides) + call(b"date", 1976, 7) + search + call(b"turns", 0, 720, 9, 9)


def updates():
    """Stations and dates at the ends of their types; most are refused."""
    latitude, records = victoria()
    for other in (-(2**31), 2**31 - 1, -5_401, 5_401):
        yield station(other, records)
    for count in (147, 148, 1_000):
        yield station(latitude, [(k % 256, 1, 2) for k in range(count)])
    for worst in (65_536, LARGEST):
        yield station(latitude, records[:10] + [(records[10][0], worst, 0)])
        yield station(latitude, records[:5] + [(records[5][0], 0, worst)] + records[6:])
    yield station(latitude, records[:10] + [(255, 1, 2)])
    yield station(latitude, records + records[:1])
    for year, month in ((0, 7), (LARGEST, 7), (1949, 12), (2050, 1), (1976, 0), (1976, 13), (1976, LARGEST)):
        yield call(b"date", year, month)


def ends():
    """All requests of a clock that is set; then updates that are refused, each with a height after it; then others that are taken."""
    latitude, records = victoria()
    refused = [line for update in updates() for line in (update, call(b"height", 510))]
    taken = []
    for other in ((-5_400, records), (5_400, records), (latitude, []), (latitude, [(k, 1, 2) for k in range(145)])):
        taken += [station(*other), call(b"height", 0), call(b"date", 2049, 12), call(b"series", 0, 1_440, 32), call(b"turns", 0, LAST, 300, 300)]
    return b"".join([cards_call(CARDS), station(latitude, records), call(b"date", 1976, 7), *requests(), *refused, *taken])


def card_files():
    """Card files that are none, and the standard one without its last byte, on a clock that is set."""
    with open(os.path.join(ROOT, "data", "standard-cards-as-printed.txt"), "rb") as file:
        files = [file.read(), b"", b"\n", b"\n" * 9, b"\x00", b"\xff" * 300, CARDS[:8_000], CARDS[:-1]]
    lines = [cards_call(CARDS), station(*victoria()), call(b"date", 1976, 7)]
    return b"".join(lines + [line for file in files for line in (cards_call(file), call(b"height", 510))])


def deepest():
    """The card file that takes the most stack, and a station of all of it."""
    deck = subprocess.run([sys.executable, os.path.join(ROOT, "tools", "deepest_cards.py")], stdout=subprocess.PIPE, check=True).stdout
    everything = station(2905, [(k, 1_000, 0) for k in range(64)])
    month = call(b"date", 1976, 7) + call(b"series", 0, 60, 9) + call(b"turns", 0, LAST, 1_500, 1_500)
    return cards_call(deck) + everything + month + call(b"hourly", 7_120, 4_278) + call(b"year", 1976, 0, 1_440, 367, 0, 90_000, 3_000, 3_000)


def scripts():
    """Each script with the second code's answers."""
    yield from compare_many.answered(SEED, COUNT)
    with open(malformed.SCRIPT, "rb") as file:
        by_hand = [file.read(), ends(), b"".join(years()), b"".join(bookings()), b"".join(hourly()), b"".join(berths()), card_files(), deepest()]
    for script in [*by_hand, *malformed.short_scripts(), *MALFORMED_STATIONS]:
        yield script, compare_many.answers(script)


def write_files(folder, played):
    paths = []
    for number, (script, _) in enumerate(played):
        paths.append(os.path.join(folder, "%03d.replay" % number))
        with open(paths[-1], "wb") as file:
            file.write(script)
    return paths


def groups(output):
    """What is written to each script: a blank line ends it."""
    found, lines = [], []
    for line in output.split(b"\n")[:-1]:
        if line:
            lines.append(line + b"\n")
        else:
            found.append(b"".join(lines))
            lines = []
    return found


def compare(name, command, paths, played):
    """Plays all scripts by one player; whether each answer is the second code's."""
    run = subprocess.run(command.split() + paths, stdout=subprocess.PIPE, stderr=subprocess.PIPE)
    written = groups(run.stdout)
    differing = 0
    for path, got, (script, answers) in zip(paths, written, played):
        wanted = "".join(answer + "\n" for answer in answers).encode()
        if got != wanted:
            differing += 1
            print("%s, %s: %s" % (name, os.path.basename(path), compare_many.first_difference(script, wanted, got)))
    if run.returncode or len(written) != len(played):
        print("%s ended with status %d after %d scripts: %s" % (name, run.returncode, len(written), run.stderr.decode()[-1000:]))
        return False
    print("%s: %d generated scripts and %d others, %d answers, %d scripts differ from the second code"
          % (name, COUNT, len(played) - COUNT, sum(len(list(parted(got))) for got in written), differing))
    return differing == 0


def came_up(title, kinds, numbers):
    """Prints how often each refusal came up; whether each did."""
    print(title + ", ".join("%d: %d" % (number, kinds["refused %d" % number]) for number in numbers))
    missing = [number for number in numbers if not kinds["refused %d" % number]]
    if missing:
        print("never came up: %s" % missing)
    return not missing


def main():
    played = list(scripts())
    answered = [(word, compare_many.kind(line)) for script, wanted in played for word, line in zip(compare_many.words(script), wanted)]
    with tempfile.TemporaryDirectory() as folder:
        paths = write_files(folder, played)
        same = [compare(*player.split("=", 1), paths, played) for player in sys.argv[1:]]
    there = [came_up("how often each refusal came up: ", collections.Counter(kind for _, kind in answered), REFUSALS)]
    for title, alone, numbers in (
        ("a station", b"station", STATION_REFUSALS), ("a year", b"year", YEAR_REFUSALS), ("bookings", b"bookings", BOOKINGS_REFUSALS),
        ("hourly cards", b"hourly", HOURLY_REFUSALS),
    ):
        there.append(came_up("and with %s: " % title, collections.Counter(kind for word, kind in answered if word == alone), numbers))
    sys.exit(0 if same and all(same + there) else 1)


if __name__ == "__main__":
    main()
