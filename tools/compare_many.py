"""Compares replay with the second code on many scripts in one run of Python, which is some times faster than tools/compare.sh.

Usage: python3 tools/compare_many.py PROGRAM SEED COUNT
COUNT scripts of about 100 calls are generated from the seed; the answers are compared byte for byte, and the first call of a script that
is answered otherwise is shown. An answer is a line; that of `hourly` goes on with its cards. Prints how many answers there were, and how
often each kind and each refusal occurred, with the calls in all and with `year`, `bookings` and `hourly` alone.
"""

import collections
import itertools
import os
import random
import subprocess
import sys

HERE = os.path.dirname(os.path.abspath(__file__))
sys.path.insert(0, os.path.join(HERE, "..", "second"))

import clock  # noqa: E402
import generate  # noqa: E402
import heights  # noqa: E402
from replay import Script, ScriptError, read_call, replay  # noqa: E402
from replayed import parted  # noqa: E402


# The calls whose answers are counted alone too.
ALONE = [b"year", b"bookings", b"hourly"]


def keep(module, name, key):
    """Has a function of the second code keep its answers, by a key of the arguments; where it keeps them."""
    function, answers = getattr(module, name), {}

    def kept(*arguments):
        asked = key(*arguments)
        if asked not in answers:
            answers[asked] = function(*arguments)
        return answers[asked]

    setattr(module, name, kept)
    return answers


# What making a script and answering it ask for again and again; a third of the time is left.
KEPT = [
    keep(heights, "slope", lambda month, minute: (id(month), minute)),
    keep(heights, "height", lambda month, minute: (id(month), minute)),
    keep(clock, "prepare", lambda table, station, *date: (id(table), station.latitude, tuple(station.records), *date)),
    keep(clock, "read_card_file", lambda data: data),
]


def answers(script):
    """The second code's answers to a script."""
    lines = list(replay(script))
    for kept in KEPT:
        kept.clear()
    return lines


def answered(seed, count):
    """So many scripts from a seed, each with the second code's answers."""
    with open(generate.STANDARD_PATH, "rb") as file:
        standard = file.read()
    for index in range(count):
        script = generate.script(random.Random("scripts %d %d" % (seed, index)), index, standard)
        yield script, answers(script)


def first_difference(script, wanted, got):
    """The first call that is answered otherwise: its number from 1, its word, and from where on the two answers differ."""
    asked = itertools.chain(words(script), itertools.repeat(b"nothing"))
    pairs = itertools.zip_longest(parted(wanted), parted(got), fillvalue=b"")
    for number, (word, (theirs, ours)) in enumerate(zip(asked, pairs), 1):
        if theirs != ours:
            at = len(os.path.commonprefix([theirs, ours]))
            shown = max(0, at - 20)
            return "call %d, %s, from byte %d: second code %r, program %r" % (
                number, word.decode(errors="replace"), at, theirs[shown : at + 60], ours[shown : at + 60])
    return "nowhere"


def kind(answer):
    """What an answer is: its word, and of a refusal the number."""
    parts = answer.split()
    return " ".join(parts[:2]) if parts[0] == "refused" else parts[0]


def words(script):
    """The words of a script's calls, to its end or the first that is not of the format."""
    reading = Script(script)
    while not reading.ended():
        yield reading.data[reading.at : reading.at + 10].partition(b" ")[0]
        try:
            read_call(reading)
        except ScriptError:
            return


def main():
    program, seed, count = sys.argv[1], int(sys.argv[2]), int(sys.argv[3])
    kinds, alone = collections.Counter(), {word: collections.Counter() for word in ALONE}
    differing = 0
    for index, (script, wanted) in enumerate(answered(seed, count)):
        got = subprocess.run([program], input=script, capture_output=True, check=True).stdout
        kinds.update(map(kind, wanted))
        for word, answer in zip(words(script), wanted):
            if word in alone:
                alone[word][kind(answer)] += 1
        written = "".join(answer + "\n" for answer in wanted).encode()
        if got != written:
            differing += 1
            print("differs: seed %d script %d, %s" % (seed, index, first_difference(script, written, got)))
    total = sum(kinds.values())
    print("%d scripts, %d answers compared, %d scripts differ" % (count, total, differing))
    for title, counts in [("answers", kinds)] + [("to %s" % word.decode(), counts) for word, counts in alone.items()]:
        print("%s: %s" % (title, ", ".join("%s: %d" % pair for pair in sorted(counts.items()))))
    sys.exit(1 if differing or not total else 0)


if __name__ == "__main__":
    main()
