"""Random station numbers, buffers, dates and tides for the call `hourly`: heights at the limits of a card and past them, on
one card of the month, and at the halves of a centimetre; and lines that are not of its form."""

import heights
from clock import Clock
from decks import SLOW, STILLS, SWIFT
from hourly import LARGEST_STATION, LINE
from month import days_in_month
from years import DAY, LARGEST, LARGEST_BUFFER, chance

MALFORMED = [
    b"hourly\n", b"hourly 0\n", b"hourly 0 \n", b"hourly 0 0 0\n", b"hourly 0 0", b"hourly  0 0\n", b"hourly 0  0\n",
    b"hourly 0 0 \n", b" hourly 0 0\n", b"hourly -1 0\n", b"hourly 0 -1\n", b"hourly -0 0\n", b"hourly 4294967296 0\n",
    b"hourly 0 4294967296\n", b"Hourly 0 0\n", b"hour 0 0\n", b"hourlys 0 0\n", b"hourly 0 0\r\n", b"hourly\t0 0\n",
    b"hourly 1.0 4278\n", b"hourly 7120 4278x\n", b"hourly +1 4278\n", b"hourly 7120 4278\n1\n", b"hourly 100000 0\n\n",
    b"hourly 99999999999999999999 0\n",
]

# The first and the last height, in tenths of a millimetre, that a card takes.
LOWEST, HIGHEST = -99_950, 999_849
AMPLITUDE = 65_535


# The call's numbers


def pick_station(rng):
    """A station number of one digit to five, or one over 99999; some would fit if cut to 16 or 31 bits."""
    over = rng.choice([
        LARGEST_STATION + 1, LARGEST_STATION + 1, LARGEST_STATION + 2, LARGEST, 131_072 + rng.randint(0, 65_535), 2**31,
        2**31 + 5, rng.randint(LARGEST_STATION + 1, LARGEST),
    ])
    fits = rng.choice([
        0, 5, 5, LARGEST_STATION, LARGEST_STATION, LARGEST_STATION - 1, 7_120, rng.randint(0, 99), rng.randint(0, LARGEST_STATION),
        rng.randint(65_536, LARGEST_STATION),
    ])
    return chance(rng, (9, fits), (2, over))


def pick_buffer(rng, days):
    """Bytes for the month's cards exactly, one fewer, one more, none, many, or for the cards of a shorter month."""
    exact = 2 * LINE * days
    return chance(
        rng, (8, exact), (2, exact - 1), (2, exact + 1), (1, 0), (2.5, rng.choice([4_278, 4_279, 8_192, LARGEST_BUFFER])),
        (0.7, 2 * LINE * rng.randint(27, days)), (0.5, exact - rng.choice([2, LINE, 2 * days, 256])), (0.3, rng.randint(1, exact)),
    )


def pick_date(rng):
    """Months of 28, 29, 30 and 31 days; years of two digits, of one, and of 0."""
    year = rng.choice([1950, 1976, 1999, 2000, 2000, 2004, 2005, 2009, 2010, 2049, rng.randint(1950, 2049)])
    return year, rng.choice([1, 2, 2, 4, 10, 11, 12, rng.randint(1, 12)])


# Tides


def pick_level(rng):
    """A height at the limits, past them, at a half of a centimetre, or of any size."""
    limit = rng.choice([LOWEST, LOWEST, -99_900, HIGHEST, HIGHEST, 999_800])
    half = 100 * rng.choice([0, 0, -1, 1, rng.randint(-999, 9_998)]) + rng.choice([-50, 50])
    return chance(
        rng, (8, limit + rng.choice([-1, 0, 0, 1])), (6, half + rng.choice([-1, 0, 0, 1])), (1, rng.randint(-110_000, 1_100_000)),
    )


def still_records(rng, place_of, level):
    """Records of still constituents that add up to a level, some of them against it."""
    counter = rng.choice([0, 0, rng.randint(0, 20_000)])
    sizes = [(counter, level < 0)]
    left = abs(level) + counter
    while left > 0:
        size = min(left, rng.choice([AMPLITUDE, AMPLITUDE, rng.randint(60_000, AMPLITUDE)]))
        sizes.append((size, level >= 0))
        left -= size
    names = rng.sample(STILLS, min(len(sizes), len(STILLS)))
    return [(place_of(name), size, 0 if up else 18_000) for name, (size, up) in zip(names, sizes)]


def moving_records(rng, place_of, frequency_of, minute):
    """Records of a tide that is highest about a minute, or lowest: slow, swift or both."""
    records = []
    for name in rng.choice([[SLOW], [SLOW], [SWIFT], [SLOW, SWIFT]]):
        place = place_of(name)
        # Hundredths of a degree from the month's instant to the minute.
        lag = 1_314 * frequency_of(place) * (minute - heights.INSTANT) // 21_900_000_000
        lag += rng.choice([0, 0, 18_000])
        records.append((place, rng.choice([AMPLITUDE, rng.randint(1, 30_000), rng.randint(2_000, 9_000)]), lag % 36_000))
    return records


def pick_peak(rng, days):
    """A minute at a full hour, in the month; or before or behind it, so that the tide falls or rises through a month's end."""
    away = rng.randint(3, 9) * DAY
    return chance(rng, (3, 60 * rng.randint(0, 24 * days)), (2, -away), (2, days * DAY + away))


def limited_records(rng, cards, place_of, frequency_of, date):
    """A moving tide on a still level, such that its highest or lowest full hour is at a limit, or just past it. The hour is one
    of those on cards; at times 00:00 of the 1st counts too, and may alone be past the limit, or the one at it."""
    days = days_in_month(*date)
    moving = moving_records(rng, place_of, frequency_of, pick_peak(rng, days))
    clock = Clock()
    clock.set_cards(cards)
    clock.set_station(0, moving)
    clock.set_date(*date)
    tide = clock.series(60, 60, days * 24)
    tide += [clock.height(0)] if rng.random() < 0.3 else []
    past = rng.choice([0, 0, 1, 1, 1, 30, 99, rng.randint(-2_000, 2_000)])
    level = rng.choice([LOWEST - min(tide) - past, HIGHEST - max(tide) + past])
    return moving + still_records(rng, place_of, level)
