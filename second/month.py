"""Document 01, "Arguments" and "Satellites and weights": what a date prepares from a table and a station."""

from collections import namedtuple

from cards import Main
from cosine import TURN, fixed_cosine, fixed_sine
from refusal import Refusal

TICKS_PER_E10_CYCLE = 78_840
TICKS_PER_E2_CYCLE = 7_884_000_000_000
TICKS_PER_E2_DEGREE = 21_900_000_000
TICKS_PER_ARC_MINUTE = 36_500_000_000

# "Months have 31, 28, 31, 30, 31, 30, 31, 31, 30, 31, 30, 31 days"
MONTH_LENGTHS = (31, 28, 31, 30, 31, 30, 31, 31, 30, 31, 30, 31)

ONE = 2**20
LARGEST_PAIR = 2**22

# One station record made ready: V - lag in ticks, frequency in 10^-10 cycle an hour, weights P and Q.
Constituent = namedtuple("Constituent", "angle frequency P Q")
# number is the month's in its year, 1 to 12
Month = namedtuple("Month", "year number days constituents")


def is_leap(year):
    """ "29 in February of every fourth year, 1976 being one" """
    return (year - 1976) % 4 == 0


def days_in_month(year, month):
    if month == 2 and is_leap(year):
        return 29
    return MONTH_LENGTHS[month - 1]


def day_count(year, month, day):
    """Days from 1 January 1976."""
    days = 0
    for other in range(1976, year):
        days += 366 if is_leap(other) else 365
    for other in range(year, 1976):
        days -= 366 if is_leap(other) else 365
    for other in range(1, month):
        days += days_in_month(year, other)
    return days + day - 1


def longitudes_at(table, d):
    """ "Each longitude is 78,840 x card one + 216 x d x card two ..., modulo T." """
    return [
        (TICKS_PER_E10_CYCLE * one + 216 * d * two) % TURN
        for one, two in zip(table.longitudes, table.increases)
    ]


def argument_of_main(main, longitudes):
    """ "V is the Doodson numbers times (lunar time, s, h, p, N', p'), plus phase, modulo T." """
    s, h, p, node, solar_perigee = longitudes
    # "Lunar time at midnight is h - s."
    variables = (h - s, s, h, p, node, solar_perigee)
    V = TICKS_PER_E2_CYCLE * main.phase
    for number, variable in zip(main.doodson, variables):
        V += number * variable
    return V % TURN


def argument(definition, longitudes):
    if isinstance(definition, Main):
        return argument_of_main(definition, longitudes)
    # "A shallow V is the sum of its coefficients times its parts' V."
    V = 0
    for coefficient, main in definition.parts:
        V += coefficient * argument_of_main(main, longitudes)
    return V % TURN


def latitude_factors(latitude):
    """G by latitude mark: none (not used), diurnal, semidiurnal. Latitude in signed minutes."""
    # "Latitudes under 5 degrees in size count as 5 with their sign; 0 counts as north."
    size = max(abs(latitude), 300)
    S20 = fixed_sine(size * TICKS_PER_ARC_MINUTE) // 2**10
    diurnal = 36_309 * (2**40 - 5 * S20**2) // (100_000 * S20)
    semidiurnal = 259_808 * S20 // 100_000
    # "south takes the negative"
    if latitude < 0:
        return None, -diurnal, -semidiurnal
    return None, diurnal, semidiurnal


def pair_of_main(main, longitudes, factors):
    """X and Y of a main constituent, unchecked."""
    _, _, p, node, solar_perigee = longitudes
    X, Y = ONE, 0
    for satellite in main.satellites:
        # "A satellite's angle is its differences times (p, N', p') plus its phase."
        dp, dnode, dsolar = satellite.differences
        angle = dp * p + dnode * node + dsolar * solar_perigee + TICKS_PER_E2_CYCLE * satellite.phase
        # "its terms are floor(ratio x fixed cosine / 10,240,000) and the same with sine"
        x = satellite.ratio * fixed_cosine(angle) // 10_240_000
        y = satellite.ratio * fixed_sine(angle) // 10_240_000
        # "a marked term becomes floor(term x G / 2^20)"
        if satellite.mark != 0:
            G = factors[satellite.mark]
            x = x * G // 2**20
            y = y * G // 2**20
        X += x
        Y += y
    return X, Y


def too_large(X, Y):
    """11: "size of X or Y over 2^22" """
    return abs(X) > LARGEST_PAIR or abs(Y) > LARGEST_PAIR


def pair(definition, longitudes, factors, record):
    """X and Y of a constituent; 11 with the station record's number."""
    if isinstance(definition, Main):
        X, Y = pair_of_main(definition, longitudes, factors)
        if too_large(X, Y):
            raise Refusal(11, record)
        return X, Y
    # "A shallow pair starts at (2^20, 0) and is multiplied by each part's pair as often as its
    # coefficient's size, in card order"
    X, Y = ONE, 0
    for coefficient, main in definition.parts:
        # "for a shallow record of its parts' mains too"
        x, y = pair(main, longitudes, factors, record)
        # "with y negated for a negative coefficient"
        if coefficient < 0:
            y = -y
        for _ in range(abs(coefficient)):
            X, Y = (X * x - Y * y) // 2**20, (X * y + Y * x) // 2**20
            if too_large(X, Y):
                raise Refusal(11, record)
    return X, Y


def prepare(table, station, year, month):
    """The month of a table, a station and a date already known to be in range."""
    # "The month's instant is 00:00 on the 16th; d is its day count from 1 January 1976."
    longitudes = longitudes_at(table, day_count(year, month, 16))
    factors = latitude_factors(station.latitude)
    constituents = []
    for record, (place, amplitude, lag) in enumerate(station.records, 1):
        name, frequency = table.frequencies[place]
        definition = table.definitions[name]
        X, Y = pair(definition, longitudes, factors, record)
        V = argument(definition, longitudes)
        constituents.append(
            Constituent(
                (V - TICKS_PER_E2_DEGREE * lag) % TURN,
                frequency,
                amplitude * X // 256,
                amplitude * Y // 256,
            )
        )
    return Month(year, month, days_in_month(year, month), constituents)
