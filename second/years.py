"""Random years, series and searches for the call `year`: about month ends and the year's ends, and past them."""

from itertools import accumulate

from month import days_in_month

LARGEST = 4_294_967_295
# What a replay program takes at least; nothing larger is asked.
LARGEST_BUFFER = 44_641
DAY = 1_440


def chance(rng, *weighted):
    """One of several choices given as (weight, choice)."""
    return rng.choices([choice for _, choice in weighted], [weight for weight, _ in weighted])[0]


def pick_year(rng):
    """The ends of the range, leap years, any year; now and then one out of range."""
    if rng.random() < 0.08:
        return rng.choice([1949, 1949, 2050, 2050, 0, 2100, LARGEST])
    return rng.choice([1950, 2049, 1976, rng.randrange(1952, 2049, 4), rng.randint(1950, 2049), rng.randint(1950, 2049)])


def midnights(year):
    """The minutes at which the months begin, and the year's last."""
    return [0] + list(accumulate(days_in_month(year, month) * DAY for month in range(1, 13)))


def near(rng, ends):
    """A minute at the end of a month, or a few days from it."""
    minute = rng.choice(ends) + rng.choice([0, 0, -1, 1, rng.randint(-3 * DAY, 0), rng.randint(0, 3 * DAY)])
    return min(max(minute, 0), ends[-1])


def past(rng, last):
    return rng.choice([last + 1, last + 1, last + DAY, LARGEST, rng.randint(last + 1, LARGEST)])


def pick_series(rng, ends):
    """Start, step and count of heights, as a rule a few days of them."""
    last = ends[-1]
    start = chance(rng, (12, near(rng, ends)), (2, rng.randint(0, last)), (1, last), (1, past(rng, last)))
    step = chance(
        rng, (4, 1), (4, 60), (3, DAY), (5, rng.randint(1, DAY)), (0.4, 0), (0.4, DAY + 1), (0.2, LARGEST)
    )
    room = (last - start) // step + 1 if step and start <= last else 1
    count = chance(
        rng, (2, 0), (1, 1), (8, min(room, rng.randint(0, 100))), (2, room if room <= 400 else 3),
        (1, room + 1 if room < LARGEST_BUFFER else 2), (0.2, LARGEST_BUFFER if step > 12 else 0),
    )
    return start, step, count


def whole_series(rng, ends):
    """Every midnight of the year; now and then every hour. The last place is the year's last instant."""
    step = rng.choice([DAY, DAY, DAY, 60])
    return 0, step, ends[-1] // step + 1


def pick_search(rng, ends):
    """First and last minute of a search, as a rule a few days across a month's end, from it or to it."""
    last = ends[-1]
    end = rng.choice(ends)
    before, behind = max(0, end - rng.randint(0, 3 * DAY)), min(end + rng.randint(0, 3 * DAY), last)
    month = rng.choice(list(zip(ends, ends[1:])))
    any_minute = rng.randint(0, last)
    return chance(
        rng, (10, (before, behind)), (3, (before, end)), (3, (end, behind)), (1, (end, end)), (0.3, month),
        (2, (any_minute, min(any_minute + 2 * DAY, last))), (0.3, (any_minute, min(any_minute + 70 * DAY, last))),
        (1, (end, before)), (0.5, (end, any_minute)), (0.6, (before, past(rng, last))), (0.4, (past(rng, last), behind)),
        (0.3, (past(rng, last), LARGEST)),
    )
