#!/usr/bin/env python3
"""Damaged inputs for the programs: cuvalimodo, cardcheck and replay.

Usage: python3 tools/fuzz_programs.py [COUNT [SEED [PROGRAM ...]]]     COUNT inputs (600), from SEED (1) on; of them those of the programs named
       python3 tools/fuzz_programs.py case NUMBER           one input again, shown

Each input is a good one, damaged: bytes flipped, lost or put in, lines swapped or repeated, numbers made huge, NULs, bytes beyond ASCII,
CR LF, empty files, files over 65,536 bytes, odd arguments. Whatever comes in, a program must end by itself within the time limit, by no
signal, and say what its format has:
  cuvalimodo   a whole sheet, or hourly cards, and nothing on standard error; or one line on standard error and nothing on standard output
  cardcheck    one line: accepted with four counts, or refused with a number and a line
  replay       lines of its format, hourly cards among them
An SVG sheet must be well-formed XML. The input of a failure is kept in target/fuzz/.
"""

import collections
import os
import random
import re
import subprocess
import sys
import time
import xml.etree.ElementTree

HERE = os.path.dirname(os.path.abspath(__file__))
ROOT = os.path.join(HERE, "..")
PROGRAMS = os.path.join(ROOT, "target", "bin")
KEPT = os.path.join(ROOT, "target", "fuzz")
LIMIT = 20.0  # seconds for one input, far above what one takes

CARDCHECK = re.compile(rb"accepted \d+ \d+ \d+ \d+\n|refused \d+ \d+\n")
CARD = rb"[12] [ \d]{5} {7}[ \d]{6}([ \d-]{3}\d){12}"
HOURLY = rb"hourly (3864|4002|4140|4278)(\n" + CARD + rb"){56,62}"
REPLAY = re.compile(
    rb"((accepted|refused \d+ \d+|height -?\d+|heights( -?\d+)*|(year \d+( -?\d+)* )?turns \d+ [01]( \d+ -?\d+)*|" + HOURLY + rb")\n)*(script \d+\n)?")
HOURLY_CARDS = re.compile(rb"(" + CARD + rb"\n){56,62}")
CSV = re.compile(rb"(#[^\n]*\n)+[^\n#]*\n([^\n,]+,((high|low),)?-?\d+\.\d+\n)*")


def data(name):
    with open(os.path.join(ROOT, "data", name), "rb") as file:
        return file.read()


CARDS = [data("standard-cards.txt"), data("standard-cards-as-printed.txt")]
STATIONS = [data("victoria.txt"), data("examples/semidiurnal.txt"), data("examples/diurnal.txt")]
BOOKINGS = data("examples/bookings.txt")
with open(os.path.join(ROOT, "crates", "replay", "stdin"), "rb") as script:
    SCRIPT = script.read()

# the calls behind its card file, without the last, which is not of the format
CALLS = SCRIPT[SCRIPT.index(b"date 1976 7"):SCRIPT.rindex(b"height -1")]


# ---- damage to a file

def flip(r, text):
    i = r.randrange(len(text))
    return text[:i] + bytes([text[i] ^ 1 << r.randrange(8)]) + text[i + 1:]


def lose(r, text):
    i = r.randrange(len(text))
    return text[:i] + text[i + r.choice([1, 1, 1, 2, 7, 80]):]


def put_in(r, text):
    i = r.randrange(len(text))
    return text[:i] + r.choice([b" ", b"0", b"9", b"-", b".", b"\n", b"\t", b"\x00", b"\xff", b"x", b"\r", b"\xc3\xa9"]) + text[i:]


def put_byte(r, text):
    i = r.randrange(len(text))
    return text[:i] + r.choice([b" ", b"0", b"9", b"-", b".", b"\n", b"\x00", b"\x80", b"A", b"&", b"<"]) + text[i + 1:]


def cut(r, text):
    return text[:r.randrange(len(text))]


def swap_lines(r, text):
    lines = text.split(b"\n")
    i, j = r.randrange(len(lines)), r.randrange(len(lines))
    lines[i], lines[j] = lines[j], lines[i]
    return b"\n".join(lines)


def repeat_line(r, text):
    lines = text.split(b"\n")
    i = r.randrange(len(lines))
    return b"\n".join(lines[:i] + [lines[i]] * r.choice([2, 2, 3, 100]) + lines[i + 1:])


def lose_line(r, text):
    lines = text.split(b"\n")
    del lines[r.randrange(len(lines))]
    return b"\n".join(lines)


def huge_number(r, text):
    numbers = list(re.finditer(rb"\d+", text))
    if not numbers:
        return text
    m = r.choice(numbers)
    digits = r.choice([b"9" * 30, b"4294967296", b"18446744073709551616", b"9" * len(m.group()), b"0" * 40 + b"1", b"-1"])
    return text[:m.start()] + digits + text[m.end():]


def nuls(r, text):
    i = r.randrange(len(text))
    return text[:i] + b"\x00" * r.choice([1, 5, 200]) + text[i:]


def beyond_ascii(r, text):
    i = r.randrange(len(text))
    return text[:i] + bytes(r.randrange(128, 256) for _ in range(r.choice([1, 3, 20]))) + text[i:]


def crlf(r, text):
    return text.replace(b"\n", b"\r\n")


def empty(r, text):
    return b""


def too_large(r, text):
    return text + r.choice([b"\n", b" ", b"x", text[-81:]]) * 70_000


def noise(r, text):
    return bytes(r.randrange(256) for _ in range(r.choice([1, 10, 1000])))


def as_it_is(r, text):
    return text


DAMAGE = [flip, flip, lose, put_in, put_byte, put_byte, cut, swap_lines, repeat_line, lose_line, huge_number, huge_number, nuls, beyond_ascii,
          crlf, empty, too_large, noise, as_it_is]


def damaged(r, text):
    """The text with one damage, or a few."""
    for _ in range(r.choice([1, 1, 1, 2, 4])):
        if text:
            text = r.choice(DAMAGE)(r, text)
    return text


# ---- arguments

WORDS = ["", " ", "-", "--", "-1", "0", "13", "1949", "2050", "99999999999999999999", "4294967296", "01", "+1", "1.5", "7x", "year", "month", "day", "svg",
         "--csv", "--help", "--cards", "--station", "--unit", "--nothing", "a&b<c>\"'", "caf\u00e9", "x" * 300, "x" * 5000, "24:00", "23:59", "7:00", "12:60", "::", "12:",
         "a\nb", "\t", "1440", "1441", "100000", "/", ".", "/nowhere/file"]


def good_arguments(r):
    year, month, day = str(r.randrange(1950, 2050)), str(r.randrange(1, 13)), str(r.randrange(1, 29))
    return r.choice([
        ["year", year],
        ["year", year, "--csv"],
        ["month", year, month],
        ["day", year, month, day],
        ["day", year, month, day, "%02d:%02d" % (r.randrange(24), r.randrange(60))],
        ["bookings", year, month, "bookings.txt"],
        ["hourly", year, month, str(r.choice([0, 7_120, 99_999, 100_000]))],
        ["heights", year, month],
        ["heights", year, month, r.choice(["1", "10", "60", "1440"])],
        ["series", year, month, day, "00:00", r.choice(["1", "60"]), r.choice(["0", "1", "100"])],
        ["svg", year],
        ["svg", year, month],
        ["svg", year, month, day],
    ])


def odd_arguments(r):
    words = good_arguments(r)
    for _ in range(r.choice([1, 1, 2, 3])):
        i = r.randrange(len(words) + 1)
        how = r.randrange(4)
        if how == 0:
            words.insert(i, r.choice(WORDS))
        elif how == 1 and i < len(words):
            words[i] = r.choice(WORDS)
        elif how == 2 and i < len(words):
            del words[i]
        else:
            words = words[:i] + words[:i]
    return words


# ---- one input

def run(program, words, text, folder):
    began = time.time()
    done = subprocess.run([os.path.join(PROGRAMS, program)] + words, input=text, capture_output=True, timeout=LIMIT, cwd=folder, check=False)
    return done, time.time() - began


def well_formed(text):
    try:
        xml.etree.ElementTree.fromstring(text)
        return True
    except xml.etree.ElementTree.ParseError:
        return False


def sheet_kind(out):
    """What kind of sheet the program wrote, which says on its face what it stands on; None where it is none."""
    if not out.endswith(b"\n"):
        return None
    if b"--cards FILE" in out:
        return "help"
    if HOURLY_CARDS.fullmatch(out):
        return "hourly cards"
    if b"CRC-32" not in out:
        return None
    if out.startswith(b"<svg"):
        return "svg" if well_formed(out) else None
    if out.startswith(b"#"):
        return "csv" if CSV.fullmatch(out) else None
    return "sheet"


def judge_cuvalimodo(done):
    if done.returncode != 0:
        return "FAILED: ended with %d" % done.returncode
    if done.stdout:
        kind = sheet_kind(done.stdout)
        if done.stderr:
            return "FAILED: a sheet, and words on standard error"
        return kind if kind else "FAILED: not a sheet"
    if done.stderr.count(b"\n") == 1 and done.stderr.endswith(b"\n"):
        refusal = re.search(rb"\(refusal (\d+)\)", done.stderr)
        return "refusal %s" % refusal.group(1).decode() if refusal else "other message"
    return "FAILED: %d lines on standard error and nothing on standard output" % done.stderr.count(b"\n")


def judge_lines(form, done):
    if done.returncode != 0:
        return "FAILED: ended with %d" % done.returncode
    if done.stderr:
        return "FAILED: words on standard error"
    if not form.fullmatch(done.stdout):
        return "FAILED: not of the format"
    last_line = done.stdout.rstrip(b"\n").split(b"\n")[-1]
    last = last_line.split(b" ") if not re.match(CARD, last_line) else [b"hourly"]
    return " ".join(word.decode() for word in last[:2]) if last[0] == b"refused" else last[0].decode() or "nothing"


def case_of(number):
    """Program, arguments, standard input and files of an input."""
    r = random.Random(number)
    which = r.randrange(10)
    if which < 2:
        return "cardcheck", [], damaged(r, r.choice(CARDS)), {}
    if which < 4:
        return "replay", [], damaged_script(r), {}
    cards, station = CARDS[0], r.choice(STATIONS)
    words = good_arguments(r)
    if which < 6:
        cards = damaged(r, r.choice(CARDS))
    elif which < 8:
        station = damaged(r, station)
    else:
        words = odd_arguments(r)
    files = {"cards.txt": cards, "station.txt": station, "bookings.txt": r.choice([BOOKINGS, damaged(r, BOOKINGS)])}
    places = r.randrange(3)
    options = ["--cards", "cards.txt", "--station", "station.txt"] + (["--unit", r.choice(WORDS)] if r.randrange(5) == 0 else [])
    words = options + words if places == 0 else words + options if places == 1 else words[:1] + options + words[1:]
    return "cuvalimodo", [word for word in words if "\x00" not in word], b"", files


def damaged_script(r):
    """A replay script that is damaged anywhere, in its card file alone or in its other calls alone."""
    where = r.randrange(3)
    if where == 0:
        return damaged(r, SCRIPT)
    cards = damaged(r, r.choice(CARDS)) if where == 1 else CARDS[0]
    calls = damaged(r, CALLS) if where == 2 else CALLS
    return b"cards %d\n" % len(cards) + cards + b"\n" + calls


def outcome(number, folder):
    program, words, text, files = case_of(number)
    for name, content in files.items():
        with open(os.path.join(folder, name), "wb") as file:
            file.write(content)
    try:
        done, took = run(program, words, text, folder)
    except subprocess.TimeoutExpired:
        return program, "FAILED: not done in %d s" % LIMIT, LIMIT, None
    if program == "cuvalimodo":
        return program, judge_cuvalimodo(done), took, done
    return program, judge_lines(CARDCHECK if program == "cardcheck" else REPLAY, done), took, done


def keep(number, folder):
    program, words, text, files = case_of(number)
    place = os.path.join(folder, str(number))
    os.makedirs(place, exist_ok=True)
    for name, content in list(files.items()) + [("stdin", text), ("arguments", repr([program] + words).encode())]:
        with open(os.path.join(place, name), "wb") as file:
            file.write(content)


def show(number):
    os.makedirs(KEPT, exist_ok=True)
    program, kind, took, done = outcome(number, KEPT)
    print(case_of(number)[:2], kind, "%.3f s" % took)
    if done:
        print(done.stdout[:2000], done.stderr[:2000])
    keep(number, KEPT)


def main():
    if sys.argv[1:2] == ["case"]:
        return show(int(sys.argv[2]))
    count = int(sys.argv[1]) if sys.argv[1:] else 600
    seed = int(sys.argv[2]) if sys.argv[2:] else 1
    chosen = sys.argv[3:]
    os.makedirs(KEPT, exist_ok=True)
    began = time.time()
    counts = collections.Counter()
    slowest, failed = 0.0, []
    for number in range(seed, seed + count):
        if chosen and case_of(number)[0] not in chosen:
            continue
        program, kind, took, _ = outcome(number, KEPT)
        counts[program, kind] += 1
        slowest = max(slowest, took)
        if kind.startswith("FAILED"):
            failed.append(number)
            keep(number, KEPT)
            print("input %d, %s: %s" % (number, program, kind))
    for (program, kind), n in sorted(counts.items()):
        print("%-10s %-16s %6d" % (program, kind, n))
    print("%d inputs in %.0f s, the slowest %.2f s; %d failed" % (sum(counts.values()), time.time() - began, slowest, len(failed)))
    return sys.exit(1 if failed else 0)


if __name__ == "__main__":
    main()
