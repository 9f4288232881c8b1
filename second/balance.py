"""Random stations on which a small fault of a cosine shows: latitudes at an edge of S20, and constituents whose slopes balance,
so that their sum passes 0 slowly, or to and fro."""

import heights
from cosine import fixed_sine
from month import TICKS_PER_ARC_MINUTE, TICKS_PER_E2_DEGREE

# Latitudes, in minutes, whose fixed sine is just past a multiple of 2^10: with a little less of it S20 is one less.
EDGES = [minutes for minutes in range(300, 5_401) if fixed_sine(minutes * TICKS_PER_ARC_MINUTE) % 2**10 < 64]


def balanced_records(rng, places, frequency, minute):
    """Records in twos, of one frequency and without satellites, each two against each other about a minute of the month."""
    moved = 1_314 * frequency * (minute - heights.INSTANT)
    turned = rng.choice([0, 18_000])
    records = []
    for two in zip(places[::2], places[1::2]):
        lags = rng.randint(1_500, 8_500), rng.randint(27_500, 34_500)
        sines = [abs(fixed_sine(moved - TICKS_PER_E2_DEGREE * lag)) for lag in lags]
        largest = rng.randint(20_000, 65_535)
        for place, lag, sine in zip(two, lags, sines):
            # The larger the sine, the smaller the amplitude.
            records.append((place, largest * min(sines) // sine, (lag + turned) % 36_000))
    return records


def fluttering_records(rng, places, frequency, minute):
    """Records of one frequency and without satellites, for five places. A small tide, at times twice, turns about a minute of the
    month. Beside it larger ones leave nothing but what their floors do: two at half a turn, and the slopes of the minutes before
    and behind may have the same size; three at thirds of a turn, and the sense changes to and fro."""
    lag = 1_314 * frequency * (minute - heights.INSTANT) // TICKS_PER_E2_DEGREE
    small = [(rng.choice([1, 1, 2, 3]), lag)] * rng.choice([1, 2])
    other, amplitude = rng.randint(0, 35_999), rng.choice([1, 40, rng.randint(1, 2_000), rng.randint(1, 65_535)])
    larger = [(amplitude, other + apart) for apart in rng.choice([[0, 18_000], [0, 12_000, 24_000]])]
    return [(place, amplitude, lag % 36_000) for place, (amplitude, lag) in zip(places, small + larger)]
