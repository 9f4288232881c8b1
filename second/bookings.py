"""Random minutes and places for the call `bookings`: at the month's edges and past them, with repeats, in any order; and
lines that are not of its form."""

from years import DAY, LARGEST, LARGEST_BUFFER, chance

MALFORMED = [
    b"bookings\n", b"bookings 1\n", b"bookings 1 1 1\n", b"bookings 1 1 1\n0\n", b"bookings 0 0", b"bookings 0  0\n",
    b"bookings 0 0 \n", b"bookings -1 0\n", b"bookings 0 -1\n", b"bookings 0 4294967296\n", b"bookings 4294967296 0\n",
    b"booking 0 0\n", b"Bookings 0 0\n", b"bookings 1 1\n", b"bookings 2 2\n0\n", b"bookings 2 2\n0\n1", b"bookings 1 1\n\n",
    b"bookings 3 3\n0\n-1\n2\n", b"bookings 2 2\n0 1\n", b"bookings 2 2\n0 1\n1\n", b"bookings 2 2\n0\n4294967296\n",
    b"bookings 1 1\n 0\n", b"bookings 1 1\n0 \n", b"bookings 1 1\n0\r\n", b"bookings 1 1\nx\n", b"bookings 2 1\n0\nheight 0\n",
    b"bookings 1 0\n44641\n0\n", b"bookings 0 1\n0\n",
]


def pick_count(rng):
    """A few minutes as a rule; now and then some hundreds or, rarely, thousands."""
    return chance(
        rng, (4, 0), (3, 1), (4, 2), (14, rng.randint(3, 40)), (2.5, rng.randint(200, 400)), (0.05, rng.randint(1_000, 4_000))
    )


def inside(rng, last, count):
    """So many minutes of one day, of the month, of its edges or of very few, in any order."""
    day = rng.randint(0, last - DAY)
    edges = [0, 1, 255, 256, 21_600, last - 1, last, last]
    few = [rng.randint(0, last) for _ in range(rng.randint(1, 4))]
    pool = chance(rng, (6, range(day, day + DAY + 1)), (6, range(last + 1)), (3, edges), (3, few))
    minutes = rng.choices(pool, k=count)
    return chance(rng, (8, minutes), (2, sorted(minutes)), (1, sorted(minutes, reverse=True)))


def outside(rng, last):
    """A minute past the month; some would be inside if cut to 16 or 31 bits, or in a longer month."""
    fits = rng.randint(0, last)
    return rng.choice([
        last + 1, last + 1, last + DAY, max(44_640, last + 1), LARGEST, 65_536 + fits, 65_536 * rng.randint(1, 65_535) + fits,
        2**31 + fits, rng.randint(last + 1, LARGEST),
    ])


def spoil(rng, minutes, last):
    """Puts a minute from outside at the first place, the last (in long lists as a rule), any, at two places or at all."""
    end = len(minutes) - 1
    places = chance(
        rng, (2, [0]), (2 + end // 20, [end]), (3, [rng.randint(0, end)]), (4, [rng.randint(0, end), rng.randint(0, end)]),
        (1, [0, end]), (0.5, range(end + 1)),
    )
    for place in places:
        minutes[place] = outside(rng, last)


def pick_places(rng, count):
    """As many places as minutes, or one fewer, one more, none, many; 256 more fit if the lengths are cut to 8 bits."""
    more = count + rng.choice([1, 1, 2, 256])
    fewer = count - 1 if count else 1
    return chance(
        rng, (12, count), (2, more), (1.5, fewer), (0.5, 0), (0.5, rng.randint(0, 2 * count)), (0.2, LARGEST_BUFFER)
    )


def pick(rng, last):
    """The minutes and how many places are lent. A bad minute and a wrong buffer come together too."""
    minutes = inside(rng, last, pick_count(rng))
    if minutes and rng.random() < 0.4:
        spoil(rng, minutes, last)
    return minutes, pick_places(rng, len(minutes))


def call(minutes, places):
    return b"bookings %d %d\n" % (len(minutes), places) + b"".join(b"%d\n" % minute for minute in minutes)
