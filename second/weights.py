"""Answers a script of card files, stations and dates with what its months are made of: V, P and Q of each record.

Usage: python3 second/weights.py < script

A date is answered with `month V0 P0 Q0 V1 P1 Q1 ...`; every other call of a replay script ends the run.
"""

import sys

import month
from clock import Clock
from replay import Script, play, read_call, spaced, write

CALLS = (b"cards ", b"station ", b"date ")


class Weights(Clock):
    """A clock whose date gives the numbers of its month."""

    def numbers(self):
        """V, P and Q of each record. The month keeps V less the lag, so the lag is put back."""
        numbers = []
        for (_, _, lag), constituent in zip(self.station.records, self.month.constituents):
            V = (constituent.angle + month.TICKS_PER_E2_DEGREE * lag) % month.TURN
            numbers += [V, constituent.P, constituent.Q]
        return numbers


def read_setting(script):
    """Reads one whole call of the three; a date's answer is what its month is made of."""
    if not script.data.startswith(CALLS, script.at):
        script.fail()
    dated = script.data.startswith(b"date ", script.at)
    call = read_call(script)

    def numbers(clock):
        call(clock)
        return spaced("month", clock.numbers())

    return numbers if dated else call


def answers(data):
    """The answer lines of a script."""
    return play(Script(data), Weights(), read_setting)


def main():
    write(answers(sys.stdin.buffer.read()))


if __name__ == "__main__":
    main()
