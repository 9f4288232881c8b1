"""Compares the station reader with the second code on random station files: python3 tools/compare_stations.py PROGRAM SEED COUNT

PROGRAM is target/bin/stationcheck. Each file is one of data/'s, or a random one, mostly with some damage: a column changed, a field
replaced, a line cut, doubled, moved or lengthened, cards up to and past 146. Prints how often each refusal occurred.
"""

import collections
import glob
import os
import random
import subprocess
import sys

ROOT = os.path.join(os.path.dirname(os.path.abspath(__file__)), "..")
sys.path.insert(0, os.path.join(ROOT, "second"))

from cards import read_card_file  # noqa: E402
from stationcheck import answer  # noqa: E402

# Fields: first column from 1, width, and what may stand there.
LATITUDES = [b"-48 25", b" -5 25", b" -0 30", b" 00 30S", b" 48 60", b" 48 59s", b" 99 59", b" 90 00N", b"- 7  7", b" 4a 25", b"       ", b" 48 -1", b"+12 34",
             b" 48 25 S", b" 48 25 s", b" 48 25 n", b" 48 25NS", b"-48 25S", b" -5 25 s", b"-48 25 N", b" 48 25 x", b" 48 6x-"]
MARKS = [bytes([a, b]) for a in b" NSns-x0" for b in b" NSns-x0"]
AMPLITUDES = [b"  1.2345", b"   -.001", b"-0.00000", b"429496.7295", b"429496.7296", b"65536.0 ", b"        ", b" 1.23456", b"12345678", b"1 .2345 ", b"9999999."]
PHASES = [b" 359.99", b" 360.00", b"-000.00", b"  -1.00", b"999999.", b"       ", b"  1.234", b"     .1", b"      ."]
NAMES = [b"M2   ", b" M2  ", b"     ", b"M2  x", b"Q999 ", b"m2   ", b"Z0   "]


def overwritten(line, column, text):
    line = line.ljust(column - 1)
    return line[: column - 1] + text + line[column - 1 + len(text) :]


def random_file(rng, names):
    """A station card and some constituent cards."""
    card = b"     %4d %-22s%-3s%s  %3d %02d" % (rng.randrange(10_000), b"RANDOM", rng.choice([b"GMT", b"PST", b"", b"UT"]), rng.choice(LATITUDES[:4] + [b" 51 28", b"  0 00"]), rng.randrange(180), rng.randrange(60))
    lines = [card]
    for name in rng.sample(names, min(len(names), rng.choice([0, 1, 5, 12, 100, 145]))):
        lines.append(b"     %-5s%28s%8.4f%7.2f" % (name, b"", rng.random() * 6, rng.random() * 360))
    # past 146 cards
    while rng.random() < 0.1 and len(lines) > 100:
        lines += [lines[-1]] * rng.randint(1, 3)
    return lines + rng.choice([[], [b""], [b"", b"x" * 90], [b" " * 80, b"behind"]])


def damaged(rng, lines):
    """One edit of the lines."""
    k = rng.randrange(len(lines))
    if rng.random() < 0.3:
        k = 0
    line = lines[k]
    kind = rng.randrange(9)
    if kind == 0:
        at = rng.randint(1, 82)
        lines[k] = overwritten(line, at, bytes([rng.choice([31, 32, 45, 46, 48, 57, 65, 83, 126, 127, 0, 9, 13, 200])]))
    elif kind == 1:
        lines[k] = overwritten(line, 36, rng.choice(LATITUDES)) if k == 0 else overwritten(line, 39, rng.choice(AMPLITUDES))
    elif kind == 2:
        lines[k] = overwritten(line, 47, rng.choice(PHASES))
    elif kind == 3:
        lines[k] = overwritten(line, 6, rng.choice(NAMES))
    elif kind == 4:
        lines[k] = line[: rng.randint(0, len(line))]
    elif kind == 5:
        lines.insert(k, line)
    elif kind == 6:
        lines[0] = overwritten(lines[0], 42, rng.choice(MARKS))
    elif kind == 7:
        lines[k] = line.ljust(rng.choice([79, 80, 81]), rng.choice([b" ", b"x"]))
    else:
        del lines[k:]
    return lines or [b""]


def names_known(rng, names):
    """The standard names; now and then fewer, or more than 160, of which the first 160 count."""
    kind = rng.randrange(10)
    if kind == 0:
        return rng.sample(names, rng.randint(0, len(names)))
    if kind == 1:
        return [b"%05d" % k for k in range(rng.randint(0, 60))] + names
    return names


def station_file(rng, samples, names):
    lines = rng.choice(samples).split(b"\n") if rng.random() < 0.4 else random_file(rng, names)
    for _ in range(rng.choice([0, 1, 1, 1, 2, 3])):
        lines = damaged(rng, lines)
    return b"\n".join(lines) + rng.choice([b"\n", b"\n", b""])


def main():
    program, seed, count = sys.argv[1], int(sys.argv[2]), int(sys.argv[3])
    with open(os.path.join(ROOT, "data", "standard-cards.txt"), "rb") as file:
        names = [name for name, _ in read_card_file(file.read()).frequencies]
    paths = [os.path.join(ROOT, "data", "victoria.txt")] + sorted(glob.glob(os.path.join(ROOT, "data", "examples", "*.txt")))
    samples = [open(path, "rb").read() for path in paths]
    outcomes = collections.Counter()
    differing = 0
    for index in range(count):
        rng = random.Random("stations %d %d" % (seed, index))
        known = names_known(rng, names)
        station = samples[index] if index < len(samples) else station_file(rng, samples, known)
        row = b"".join(known)
        wanted = answer(row, station)
        got = subprocess.run([program], input=b"%d\n" % len(row) + row + station, capture_output=True, check=True).stdout
        outcome = wanted.split(b"\n")[3].split()
        outcomes[b" ".join(outcome[:2]).decode() if outcome[0] == b"refused" else "accepted"] += 1
        if got != wanted:
            differing += 1
            print("differs: seed %d file %d" % (seed, index))
    print("%d station files, %d differ" % (count, differing))
    print(", ".join("%s: %d" % pair for pair in sorted(outcomes.items())))
    sys.exit(1 if differing or not count else 0)


if __name__ == "__main__":
    main()
