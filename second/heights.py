"""Document 01, "Heights and turns", with the strides of change request No. 6."""

from collections import namedtuple
from functools import cache

from cosine import cosine_fraction, fixed_cosine, fixed_sine, sine_fraction

# The month's instant, 00:00 on the 16th, is 15 days after minute 0.
INSTANT = 21_600

# 02, No. 6: "The station carries three stride lengths in minutes, for semidiurnal, mixed and diurnal tides, each 1 to 720."
Strides = namedtuple("Strides", "semidiurnal mixed diurnal")
SHORTEST_STRIDE = 1
LONGEST_STRIDE = 720
# "With 180, 30 and 360 every turn is what 01 gives."
USUAL_STRIDES = Strides(180, 30, 360)


def angle_at(constituent, minute):
    """ "V - lag + 1,314 x frequency (10^-10 cycle an hour) x (minute - 21,600)" """
    return constituent.angle + 1_314 * constituent.frequency * (minute - INSTANT)


def height(month, minute):
    """In tenths of a millimetre."""
    total = 0
    for constituent in month.constituents:
        angle = angle_at(constituent, minute)
        # "Its share is floor((P x cosine - Q x sine)/2^30)"
        total += (constituent.P * fixed_cosine(angle) - constituent.Q * fixed_sine(angle)) // 2**30
    # "the height is floor((sum of shares + 2,048)/4,096)"
    return (total + 2_048) // 4_096


def exact_sum(month, minute):
    """ "the sum of P x cosine fraction - Q x sine fraction, each at its constituent's angle, over 4,096":
    here times 4,096 x cosine.DENOMINATOR."""
    total = 0
    for constituent in month.constituents:
        angle = angle_at(constituent, minute)
        total += constituent.P * cosine_fraction(angle) - constituent.Q * sine_fraction(angle)
    return total


def slope(month, minute):
    """ "minus the sum of floor((P x sine + Q x cosine)/2^30) x floor(frequency/1,000)" """
    total = 0
    for constituent in month.constituents:
        angle = angle_at(constituent, minute)
        swing = (constituent.P * fixed_sine(angle) + constituent.Q * fixed_cosine(angle)) // 2**30
        total += swing * (constituent.frequency // 1_000)
    return -total


def rising(slope_there):
    """ "Slope 0 counts as rising." """
    return slope_there >= 0


def stride_by_amplitudes(strides, k1, o1, m2, s2):
    """02, No. 6: "The class limits remain 0.25 and 3." """
    if 4 * (k1 + o1) <= m2 + s2:
        return strides.semidiurnal
    if k1 + o1 > 3 * (m2 + s2):
        return strides.diurnal
    return strides.mixed


def stride_of(table, station):
    """ "By the amplitudes of K1, O1, M2, S2 (names with three blanks after; absent is 0)"; 02, No. 6: "The search works from the
    station's own lengths from now on" """
    amplitudes = {b"K1   ": 0, b"O1   ": 0, b"M2   ": 0, b"S2   ": 0}
    for place, amplitude, _ in station.records:
        name, _ = table.frequencies[place]
        if name in amplitudes:
            amplitudes[name] = amplitude
    return stride_by_amplitudes(station.strides, *amplitudes.values())


def bisect(slope_at, start, end):
    """Halves a bracket whose ends differ in sense, until they are one minute apart."""
    # 02, No. 6: "A stride of 1 whose ends differ is not cut."
    if end - start == 1:
        return start, end
    # "Then cut at start + floor(length/2). The half that holds the change is halved again"
    middle = start + (end - start) // 2
    if rising(slope_at(start)) != rising(slope_at(middle)):
        return bisect(slope_at, start, middle)
    return bisect(slope_at, middle, end)


def search(slope_at, stride, first, last):
    """The minutes of the turns from first to last, and whether the first is high; slope_at gives the slope at a minute."""
    slope_at = cache(slope_at)
    found = []
    first_is_high = False
    start = first
    # "a stride past the last minute ends the work"
    while start + stride <= last:
        end = start + stride
        start_rising = rising(slope_at(start))
        if start_rising == rising(slope_at(end)):
            start = end
            continue
        if not found:
            # "whether the first is high, that is, rising at its stride's start"
            first_is_high = start_rising
        earlier, later = bisect(slope_at, start, end)
        # "The turn is the end with the smaller slope size, the earlier if equal"
        found.append(later if abs(slope_at(later)) < abs(slope_at(earlier)) else earlier)
        # "Search resumes from the later end."
        start = later
    return found, first_is_high
