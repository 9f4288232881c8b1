"""Random strides for the call `station`, at the ends of their range and past them, the overtides that strides of other lengths see
differently, and station lines that are not of the form."""

from decks import OVERTIDES
from heights import LONGEST_STRIDE, SHORTEST_STRIDE, USUAL_STRIDES, Strides
from years import LARGEST, chance

MALFORMED = [
    b"station 0 0 180\n", b"station 0 0 180 30\n", b"station 0 0 180 30 360 1\n", b"station 0 0 180 30 360 1 1\n",
    b"station 0 0 -1 30 360\n", b"station 0 0 180 -0 360\n", b"station 0 0 180 30 -360\n", b"station 0 0 4294967296 30 360\n",
    b"station 0 0 180 4294967296 360\n", b"station 0 0 180 30 4294967296\n", b"station 0 0 180 30 99999999999999999999\n",
    b"station 0 0 \n", b"station 0 0  180 30 360\n", b"station 0 0 180 30 360 \n", b"station 0 0 180 30  360\n",
    b"station 0 0 180 30 360", b"station 0 0 180 30 360\r\n", b"station 0 0 180,30,360\n", b"station 0 0 180 30 x\n",
    b"station 0 0 +1 1 1\n", b"station 0 0 1.0 1 1\n", b"station 0 -1 180 30 360\n", b"station 0 1 180 30 360\n",
    b"station 0 1 180 30 360\n0 0\n", b"station 0 1 0 0 0\n256 0 0\n", b"station 0 0 180 30 360\n0 0 0\n",
    b"station 0 180 30 360\n0 0 0\n", b"station 0 2 180 30 360\n0 0 0\n", b"station 180 30 360\n", b"stations 0 0 180 30 360\n",
    b"station 0 1 180 30 360\n0 0 0 180 30 360\n", b"station 0 4294967296 180 30 360\n", b"station 2147483648 0 1 1 1\n",
]


def malformed(rng):
    """A station line that is not of the form: too few or too many strides on it, or one of those above."""
    strides = b"".join(b" %d" % pick_stride(rng) for _ in range(rng.choice([1, 2, 2, 4])))
    wrong_count = b"station 0 0%s\n" % strides
    return rng.choice([wrong_count, wrong_count, rng.choice(MALFORMED)])


# Strides


def pick_stride(rng):
    """One of those a station takes: the ends of the range, the usual ones, small ones."""
    edge = rng.choice([1, 1, 2, 3, 719, 720, 720, 180, 30, 360])
    return chance(rng, (4, edge), (5, rng.randint(5, 60)), (2, rng.randint(SHORTEST_STRIDE, LONGEST_STRIDE)))


def pick_apart(rng):
    """Three that differ widely, in any order: a search with another one of them shows."""
    lengths = [rng.choice([1, 1, 2, rng.randint(3, 20)]), rng.randint(25, 150), rng.choice([720, 719, rng.randint(200, 720)])]
    return rng.sample(lengths, 3)


def pick_strides(rng):
    """Three of those a station takes."""
    three = [pick_stride(rng) for _ in range(3)]
    mixed_up = rng.sample(USUAL_STRIDES, 3)
    return Strides(*chance(rng, (10, pick_apart(rng)), (6, three), (1, mixed_up), (1, [three[0]] * 3), (2, USUAL_STRIDES)))


def pick_line(rng):
    """The three on a station's line, or None for the line without them."""
    return chance(rng, (7, pick_strides(rng)), (3, None))


def pick_long(rng):
    """Three for searches of whole years, or None: the semidiurnal one, which a tide without the four has, is long."""
    return rng.choice([None, pick_strides(rng)._replace(semidiurnal=rng.choice([180, 719, 720, rng.randint(180, 720)]))])


def pick_short(rng):
    """Three of which the semidiurnal one is short."""
    return pick_strides(rng)._replace(semidiurnal=rng.choice([1, 1, 1, 1, 2, 2, 3, rng.randint(4, 30)]))


def bad_stride(rng):
    """One outside the range; some are inside if cut to 8, 10, 16 or 31 bits."""
    fits = rng.randint(SHORTEST_STRIDE, LONGEST_STRIDE)
    longer = rng.choice([1_024 + fits, 65_536 + fits, 65_536 * rng.randint(1, 65_535) + fits, 2**31 + fits])
    other = rng.choice([722, 1_440, 65_536, LARGEST, LARGEST, rng.randint(721, LARGEST)])
    return chance(rng, (5, 0), (4, 721), (3, longer), (2, other))


def spoil(rng, strides):
    """Puts one outside the range at one place, at times at two or at all."""
    spoilt = list(strides or pick_strides(rng))
    for place in rng.sample(range(3), rng.choice([1, 1, 1, 1, 2, 3])):
        spoilt[place] = bad_stride(rng)
    return Strides(*spoilt)


# Tides


def pick_overtides(rng, largest):
    """Names and amplitudes of overtides that are large beside the largest of the tide: high waters are double, or more."""
    names = rng.sample(sorted(OVERTIDES), rng.choice([1, 1, 2, 3]))
    return [(name, max(1, largest * rng.randint(15, 120) // 100)) for name in names]
