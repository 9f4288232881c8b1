"""Document 01, "Arguments" (the tick) and "Cosine", with the table of change request No. 5. Whole numbers only."""

# "A tick is 1/T of a turn, T = 788,400,000,000,000."
TURN = 788_400_000_000_000
QUARTER = TURN // 4
HALF = TURN // 2

# 02, No. 5: "Divide the quarter turn into 2,048 parts of 96,240,234,375 ticks"
PARTS = 2_048
STEP = 96_240_234_375

PI_NUMERATOR = 314_159_265_358_979
PI_DENOMINATOR = 10**14


# The base fractions' common denominator: 16! x (10^14 x T)^16.
FACTORIAL_16 = 20_922_789_888_000
BOTTOM = PI_DENOMINATOR * TURN
DENOMINATOR = FACTORIAL_16 * BOTTOM**16


def base_fraction(ticks):
    """The cosine on 0 to T/4, times DENOMINATOR.

    "the nine terms of the cosine series up to the 16th power, angle
    2 x (314159265358979/10^14) x ticks/T; exactly 0 at T/4"
    """
    if ticks == QUARTER:
        return 0
    top = 2 * PI_NUMERATOR * ticks
    total = 0
    factorial = 1
    for k in range(9):
        power = 2 * k
        if k > 0:
            factorial *= (power - 1) * power
        term = top**power * BOTTOM ** (16 - power) * (FACTORIAL_16 // factorial)
        total += term if k % 2 == 0 else -term
    return total


def fold(angle):
    """ "The usual quadrant signs extend it": the angle on 0 to T/4, and whether the sign is minus."""
    angle %= TURN
    if angle > HALF:
        angle = TURN - angle
    if angle > QUARTER:
        return HALF - angle, True
    return angle, False


def cosine_fraction(angle):
    """The cosine fraction of any angle, times DENOMINATOR."""
    angle, negative = fold(angle)
    return -base_fraction(angle) if negative else base_fraction(angle)


def sine_fraction(angle):
    return cosine_fraction(angle - QUARTER)


def nearest(numerator, denominator):
    """The whole number nearest numerator/denominator (denominator > 0)."""
    return (2 * numerator + denominator) // (2 * denominator)


def make_table():
    """02, No. 5: "2,049 entries under the same nearest rule": "each the whole number nearest 2^30 times the base fraction" """
    return [nearest(2**30 * base_fraction(i * STEP), DENOMINATOR) for i in range(PARTS + 1)]


COSINES = make_table()


def fixed_cosine(angle):
    """The fixed cosine of an angle in ticks, any whole number of them."""
    angle, negative = fold(angle)
    # "For remainder r past entry i the fixed cosine is C(i) when r is 0,
    # else C(i) - floor((C(i) - C(i+1)) x r / ...)", the step of No. 5
    i, r = divmod(angle, STEP)
    value = COSINES[i]
    if r != 0:
        value -= (value - COSINES[i + 1]) * r // STEP
    return -value if negative else value


def fixed_sine(angle):
    """ "Sine is the cosine a quarter turn earlier." """
    return fixed_cosine(angle - QUARTER)
