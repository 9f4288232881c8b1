#!/usr/bin/env python3
"""Compares the months of random cases, line for line: tools/compare_weights.py PROGRAM SEED COUNT

PROGRAM (target/bin/weights) and second/weights.py answer the same COUNT cases, made from the seed. A case is a card file,
a station and a date, mostly good ones. In every other case the amplitudes are 256, so that P is X and Q is Y.
"""

import os
import random
import subprocess
import sys
from collections import Counter
from itertools import zip_longest

ROOT = os.path.join(os.path.dirname(os.path.abspath(__file__)), "..")
sys.path.insert(0, os.path.join(ROOT, "second"))

import decks
import month
import weights
from generate import ScriptWriter, cards_call

# A program is run once for so many cases.
BATCH = 100
# "small" is as in nature; "large" and "any" bring refusal 11 of mains, "medium" of products.
RATIOS = ("small", "small", "medium", "large", "any")


class Case(ScriptWriter):
    """A card file, a station and a date."""

    def __init__(self, rng, even):
        super().__init__(rng, b"", rng.choice(RATIOS), 0.0)
        self.even = even

    def amplitude(self):
        return 256 if self.even else super().amplitude()

    def useful_deck(self):
        """Mains with few satellites where their ratios are large: a main is in bounds, its powers are not."""
        rng = self.rng
        mains = rng.randint(3, 14)
        satellites = rng.randint(1, mains) if self.ratios == "medium" else None
        ratios = "large" if self.ratios == "medium" else self.ratios
        shape = decks.Shape(mains, rng.randint(0, 8), satellites, ratios, rng.random() < 0.5)
        return decks.build(rng, shape).data()

    def cards(self):
        data = self.useful_deck()
        self.calls.append(cards_call(data))
        self.follow(self.clock.set_cards, data)

    def station(self):
        """All constituents of a table as a rule, in any order; a bad one now and then."""
        rng = self.rng
        if rng.random() < 0.05:
            super().station(0.0)
            return
        size = len(self.clock.table.frequencies)
        places = rng.sample(range(size), rng.choice([size, size, rng.randint(1, size)]))
        records = [(place, self.amplitude(), self.lag()) for place in places]
        latitude = self.latitude()
        lines = b"".join(b"%d %d %d\n" % record for record in records)
        self.calls.append(b"station %d %d\n" % (latitude, len(records)) + lines)
        self.follow(self.clock.set_station, latitude, records)


def case(seed, index):
    writer = Case(random.Random("weights %d %d" % (seed, index)), index % 2 == 0)
    writer.cards()
    writer.station()
    writer.date(0.97)
    return writer


def refused_main(clock, date, place):
    """Whether the record that a date refuses by 11 has a main out of bounds, of itself or among its parts."""
    year, number = (int(word) for word in date.split()[1:])
    longitudes = month.longitudes_at(clock.table, month.day_count(year, number, 16))
    factors = month.latitude_factors(clock.station.latitude)
    name, _ = clock.table.frequencies[clock.station.records[place - 1][0]]
    definition = clock.table.definitions[name]
    mains = [main for _, main in definition.parts] if hasattr(definition, "parts") else [definition]
    return any(month.too_large(*month.pair_of_main(main, longitudes, factors)) for main in mains)


def run(program, script):
    """The lines that a program answers, and one more where it does not end well."""
    done = subprocess.run([program], input=script, stdout=subprocess.PIPE)
    lines = done.stdout.decode("ascii", "replace").splitlines()
    return lines + ["ended with %d" % done.returncode] if done.returncode else lines


def count_line(counts, line, writer):
    """Counts what an answer line of a case says."""
    if line.startswith("month"):
        counts["months"] += 1
        counts["records"] += (len(line.split()) - 1) // 3
    elif line.startswith("refused 11 "):
        main = refused_main(writer.clock, writer.calls[2], int(line.split()[2]))
        counts["mains" if main else "products"] += 1


def compare(counts, program, seed, indices):
    """Both answers to some cases, three lines each; shows what differs."""
    cases = [case(seed, index) for index in indices]
    script = b"".join(writer.data() for writer in cases)
    theirs = list(weights.answers(script))
    for at, line in enumerate(theirs):
        count_line(counts, line, cases[at // 3])
    for at, (their, our) in enumerate(zip_longest(theirs, run(program, script), fillvalue="nothing")):
        if their != our:
            counts["differences"] += 1
            print("differs: seed %d case %d\n< %s\n> %s" % (seed, indices[0] + at // 3, their[:300], our[:300]))


def main():
    if len(sys.argv) != 4:
        sys.exit(__doc__)
    program, seed, count = os.path.abspath(sys.argv[1]), int(sys.argv[2]), int(sys.argv[3])
    counts = Counter()
    for first in range(0, count, BATCH):
        compare(counts, program, seed, range(first, min(first + BATCH, count)))
    print(
        "%d cases: %d months given with %d records, %d refusals 11 (%d of a main, %d of a product), %d differences"
        % (count, counts["months"], counts["records"], counts["mains"] + counts["products"],
           counts["mains"], counts["products"], counts["differences"])
    )
    return 1 if counts["differences"] or not counts["months"] else 0


if __name__ == "__main__":
    sys.exit(main())
