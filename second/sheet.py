"""Change request No. 1, "The yard's whole year on one sheet": heights and slopes by the minute of a year.

A year is its twelve months, each prepared by itself: "Each month uses its own weights." """

import heights


def last_minute(months):
    """ "minutes counted from 1 January"; the last is the year's last instant."""
    return sum(month.days for month in months) * 1_440


def owner(months, minute):
    """The month that owns a minute of the year, and the minute in it."""
    for month in months[:-1]:
        # "Midnight at a month's end belongs to the month that begins."
        if minute < month.days * 1_440:
            return month, minute
        minute -= month.days * 1_440
    # "The year's last instant is December's minute 44,640."
    return months[-1], minute


def height(months, minute):
    return heights.height(*owner(months, minute))


def slope(months, minute):
    """ "the slope of the month that owns each minute" """
    return heights.slope(*owner(months, minute))
