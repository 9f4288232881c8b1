#!/usr/bin/env python3
"""Compares target/bin/replay with the second code on scripts that are cut short, of another form, or of long lines.

The scripts are cut and changed copies of crates/replay/stdin, and short ones listed here.
"""

import os
import random
import subprocess
import sys

HERE = os.path.dirname(os.path.abspath(__file__))
sys.path.insert(0, os.path.join(HERE, "..", "second"))

import bookings
import hours
from replay import replay

PROGRAM = os.path.join(HERE, "..", "target", "bin", "replay")
SCRIPT = os.path.join(HERE, "..", "crates", "replay", "stdin")


def ours(script):
    return subprocess.run([PROGRAM], input=script, stdout=subprocess.PIPE, check=True).stdout


def theirs(script):
    return "".join(line + "\n" for line in replay(script)).encode()


def short_scripts():
    lines = [
        b"", b"\n", b" ", b"height", b"height 1", b"height 1\n", b"height 00000000000000000001\n", b"height 4294967295\n",
        b"height 4294967296\n", b"height 99999999999999999999\n", b"height 1 \n", b"height  1\n", b" height 1\n", b"Height 1\n",
        b"height -0\n", b"height 1\r\n", b"height 1\x00\n", b"height :\n", b"height /\n", b"heigh 1\n", b"heights 1\n",
        b"station 0 0\n", b"station -0 0\n", b"station - 0\n", b"station -- 0\n", b"station -2147483648 0\n",
        b"station -2147483649 0\n", b"station 2147483647 0\n", b"station 2147483648 0\n", b"station 1 -1\n", b"station 0\n",
        b"station 0 0 0\n", b"station 0 1\n255 4294967295 4294967295\n", b"station 0 1\n256 0 0\n", b"station 0 1\n0 0 0",
        b"station 0 1\n", b"station 0 1\n\n", b"station 0 1\n0 0 0 \n", b"station 0 1\n-0 0 0\n", b"station 0 2\n0 0 0\nx\n",
        b"station 0 4294967295\n0 0 0\n", b"cards 0\n\n", b"cards 0\n", b"cards 0\nx", b"cards 3\na\nb\nheight 1\n",
        b"cards 3\na\nb", b"cards 3\na\nbx\n", b"cards 5\na\nb\n", b"cards 1\n\n", b"cards 4294967296\n", b"cards\n",
        b"cards 1 1\n", b"date 1 1\n", b"date 1\n", b"date 1 1 1\n", b"series 0 1 2\n", b"series 0 1\n", b"series 0 1 2 3\n",
        b"turns 0 0 0 0\n", b"turns 0 0 0\n", b"turns 0 0 0 0 0\n", b"turns 0 0 44641 44641\n", b"series 0 0 44641\n",
        *bookings.MALFORMED, *hours.MALFORMED,
    ]
    yield from lines
    for line in lines:
        yield b"cards 2\n\n\n\ndate 0 0\n" + line + b"height 7\n"


def changed(script, rng):
    """A copy of a script that is cut, or has a byte changed, left out or put in; the card file's bytes are most of it."""
    at = rng.choice([rng.randrange(len(script)), rng.randrange(300), rng.randrange(len(script) - 1500, len(script))])
    byte = bytes([rng.choice([10, 32, 45, 48, 57, rng.randrange(256)])])
    return rng.choice([script[:at], script[:at] + byte + script[at + 1:], script[:at] + script[at + 1:], script[:at] + byte + script[at:]])


def main():
    with open(SCRIPT, "rb") as file:
        script = file.read()
    rng = random.Random("malformed")
    scripts = list(short_scripts()) + [changed(script, rng) for _ in range(60)]
    scripts.append(b"height " + b"0" * 4_000 + b"1\n")
    differing = 0
    for number, text in enumerate(scripts):
        expected, given = theirs(text), ours(text)
        if expected != given:
            differing += 1
            print("differs: script %d, %r ..\n theirs %r\n ours   %r" % (number, text[:60], expected[-80:], given[-80:]))
    print("%d scripts cut short or malformed, %d differ" % (len(scripts), differing))
    sys.exit(differing > 0)


if __name__ == "__main__":
    main()
