"""What cuvalimodo says of bad input, message by message.

Usage: python3 tools/messages.py CUVALIMODO
Each row of the table makes one bad file by one edit of the standard one (or none), runs the program on it, and compares the one line on
standard error; standard output must stay empty. Refusals 21 to 23 cannot be reached, for the program loads cards and station before it
asks for a month: their words stand in the list of `cuvalimodo refusals`, which is compared too.
"""

import calendar
import os
import subprocess
import sys
import tempfile

HERE = os.path.dirname(os.path.abspath(__file__))
sys.path.insert(0, os.path.join(HERE, "..", "second"))

import hourly
from refusal import Refusal

DATA = os.path.join(HERE, "..", "data")

with open(os.path.join(DATA, "standard-cards.txt")) as file:
    CARDS = file.read().split("\n")[:-1]
with open(os.path.join(DATA, "victoria.txt")) as file:
    STATION = file.read().split("\n")[:-1]

MONTH = ["month", "1976", "7"]


def line(number, columns, text):
    """The edit that writes text over a line, from a column counted from 1 on."""
    def edit(lines):
        old = lines[number - 1].ljust(columns - 1 + len(text))
        lines[number - 1] = old[:columns - 1] + text + old[columns - 1 + len(text):]
    return edit


def whole(number, text):
    """The edit that puts another line in a line's place."""
    def edit(lines):
        lines[number - 1] = text
    return edit


def cut(count):
    """The edit that ends the file behind so many lines."""
    def edit(lines):
        del lines[count:]
    return edit


def inserted(number, more):
    """The edit that puts lines before a line."""
    def edit(lines):
        lines[number - 1:number - 1] = more
    return edit


def frequencies(count):
    return ["    F%-4d    0.1000000000" % k for k in range(count)]


# the card file's faults: edit, line, words, refusal
CARD_FAULTS = [
    (whole(3, CARDS[2] + " " * 60), 3, "the line is over 80 columns long", 1),
    (line(5, 30, "\t"), 5, "the line has a byte outside 32 to 126", 1),
    (line(2, 13, "0.00o1140741 "), 2, "frequency is a malformed number", 2),
    (line(2, 13, "0.5000000000 "), 2, "frequency is out of range", 3),
    (line(147, 14, "1.0000000000 "), 147, "longitude 2 is out of range", 3),
    (line(148, 27, "             "), 148, "increase of longitude 3 is a malformed number", 2),
    (line(172, 16, " 13"), 172, "Doodson number 2 is out of range", 3),
    (line(172, 31, "  .2x"), 172, "phase is a malformed number", 2),
    (line(172, 36, "  17"), 172, "satellite count is out of range", 3),
    (line(173, 35, " -x"), 173, "a difference of satellite 2 is a malformed number", 2),
    (line(173, 21, "1.50"), 173, "phase of satellite 1 is out of range", 3),
    (line(173, 71, " 3.0000"), 173, "ratio of satellite 3 is out of range", 3),
    (line(337, 12, "5"), 337, "number of parts is out of range", 3),
    (line(337, 15, "  3.5"), 337, "coefficient 1 is not a whole number", 3),
    (line(337, 15, "  0.0"), 337, "coefficient 1 is out of range", 3),
    (line(337, 30, " 9.99"), 337, "coefficient 2 is out of range", 3),
    (line(335, 15, " 9.0 N2         4.0 M2"), 335, "coefficient 2 takes the sizes past 12", 3),
    (line(2, 5, "     "), 2, "name is blank", 4),
    (line(3, 5, "SA   "), 3, "name stands twice", 4),
    (line(151, 7, "SA   "), 151, "name stands twice", 4),
    (line(337, 7, "NONE "), 337, "name has no frequency", 5),
    (line(151, 7, "NONE "), 151, "name has no frequency", 5),
    (line(337, 35, "ST15 "), 337, "part 2 is not a main constituent", 5),
    (inserted(146, ["    NEW      0.1000000000"]), 146, "name has no definition", 5),
    (inserted(146, frequencies(16)), 161, "the line is past 160 frequencies", 6),
    (line(150, 36, "  16"), 151, "a difference of satellite 1 is a malformed number", 2),
    (cut(100), 101, "the file ends inside the frequencies", 7),
    (cut(147), 148, "the file ends inside the longitudes", 7),
    (cut(200), 201, "the file ends inside the main constituents", 7),
    (cut(340), 341, "the file ends inside the shallow-water constituents", 7),
]

# the station file's faults: edit, line, words, refusal
STATION_FAULTS = [
    (whole(4, STATION[3] + " " * 40), 4, "the line is over 80 columns long", 1),
    (line(1, 37, "4o"), 1, "degrees of latitude is a malformed number", 2),
    (line(1, 40, "60"), 1, "minutes of latitude is out of range", 3),
    (line(1, 37, "91"), 1, "latitude is out of range", 3),
    (line(1, 43, "x"), 1, "mark of latitude is not one letter, N or S", 3),
    (line(1, 36, "-48 25 s"), 1, "mark of latitude says south beside a minus", 3),
    (line(8, 39, "  2.07x0"), 8, "amplitude is a malformed number", 2),
    (line(8, 39, "  6.5536"), 8, "amplitude is out of range", 3),
    (line(8, 39, " -2.0700"), 8, "amplitude is out of range", 3),
    (line(8, 47, " 360.00"), 8, "phase lag is out of range", 3),
    (line(8, 47, " 14.940"), 8, "phase lag is a malformed number", 2),
    (line(8, 39, "  6.5536 14.940"), 8, "phase lag is a malformed number", 2),
    (line(8, 6, "P1   "), 8, "name stands twice", 4),
    (line(8, 6, "K9   "), 8, "name has no frequency", 5),
    (cut(0), 1, "the file has no station card", 7),
]

# what is said of strides that are malformed or out of range
NO_STRIDES = "not three strides in whole minutes, as 180,30,360, try --help"
BAD_STRIDE = "a stride outside 1 to 720 minutes (refusal 35)"

# arguments, words
ASKED = [
    (["month", "1976", "13"], "month 13: year or month out of range (refusal 8)"),
    (["month", "1976", "0"], "month 0: year or month out of range (refusal 8)"),
    (["month", "2050", "7"], "year 2050: year or month out of range (refusal 8)"),
    (["svg", "1976", "13"], "month 13: year or month out of range (refusal 8)"),
    (["year", "1949"], "year 1949: year or month out of range (refusal 8)"),
    (["year", "2050", "--csv"], "year 2050: year or month out of range (refusal 8)"),
    (["svg", "2050"], "year 2050: year or month out of range (refusal 8)"),
    (["day", "1976", "7", "32"], "day 32: July 1976 has 31 days (refusal 9)"),
    (["svg", "1976", "7", "32"], "day 32: July 1976 has 31 days (refusal 9)"),
    (["day", "2026", "2", "30"], "day 30: February 2026 has 28 days (refusal 9)"),
    (["day", "2026", "2", "29", "00:00"], "day 29: February 2026 has 28 days (refusal 9)"),
    (["svg", "2028", "2", "30"], "day 30: February 2028 has 29 days (refusal 9)"),
    (["series", "2026", "2", "30", "00:00", "60", "1"], "day 30: February 2026 has 28 days (refusal 9)"),
    (["series", "2026", "2", "29", "00:01", "1441", "1"], "day 29: February 2026 has 28 days (refusal 9)"),
    (["series", "2026", "2", "2000000", "00:00", "60", "0"], "day 2000000: February 2026 has 28 days (refusal 9)"),
    (["heights", "1976", "7", "1441"], "step 1441: a step is 1 to 1440 minutes (refusal 9)"),
    (["heights", "1976", "7", "0"], "step 0: a step is 1 to 1440 minutes (refusal 9)"),
    (["series", "2026", "2", "28", "23:00", "1441", "3"], "step 1441: a step is 1 to 1440 minutes (refusal 9)"),
    (["series", "1976", "7", "31", "23:00", "60", "3"], "count 3: the series runs past the end of July 1976, whose last minute is 44640 (refusal 9)"),
    (["series", "2026", "2", "28", "23:00", "60", "3"], "count 3: the series runs past the end of February 2026, whose last minute is 40320 (refusal 9)"),
    (["series", "2026", "2", "1", "00:00", "1", "100000"], "count 100000: the series runs past the end of February 2026, whose last minute is 40320 (refusal 9)"),
    (["tide"], "tide: no such command, try --help"),
    (["month", "1976", "7", "--card", "x"], "--card: no such option, try --help"),
    (["month", "1976", "7", "--cards"], "--cards: its value is missing, try --help"),
    (["month", "1976"], "month: more words are wanted, try --help"),
    (["bookings", "1976", "7"], "bookings: more words are wanted, try --help"),
    (["bookings", "1976", "7", "a", "b"], "b: one word too many, try --help"),
    (["bookings", "1976", "July", "a"], "July: not a whole number, try --help"),
    (["bookings", "1976", "13", "a"], "month 13: year or month out of range (refusal 8)"),
    (["bookings", "1976", "7", "a", "--csv"], "--csv: one word too many, try --help"),
    (["bookings", "1976", "7", "no-such-file"], "no-such-file: No such file or directory"),
    (["hourly", "1976", "7"], "hourly: more words are wanted, try --help"),
    (["hourly", "1976", "7", "7120", "8"], "8: one word too many, try --help"),
    (["hourly", "1976", "7", "Victoria"], "Victoria: not a whole number, try --help"),
    (["hourly", "1976", "7", "07:12"], "07:12: not a whole number, try --help"),
    (["hourly", "1976", "7", "-1"], "-1: no such option, try --help"),
    (["hourly", "1976", "7", "7120", "--csv"], "--csv: one word too many, try --help"),
    (["hourly", "1976", "13", "100000"], "month 13: year or month out of range (refusal 8)"),
    (["hourly", "2050", "7", "100000"], "year 2050: year or month out of range (refusal 8)"),
    (["hourly", "1976", "7", "100000"], "station 100000: station number over 99999 (refusal 32)"),
    (["hourly", "1976", "7", "4294967295"], "station 4294967295: station number over 99999 (refusal 32)"),
    (["year"], "year: more words are wanted, try --help"),
    (["svg"], "svg: more words are wanted, try --help"),
    (["year", "1976", "7"], "7: one word too many, try --help"),
    (["month", "1976", "7", "--csv"], "--csv: one word too many, try --help"),
    (["svg", "1976", "--csv"], "--csv: one word too many, try --help"),
    (["year", "July"], "July: not a whole number, try --help"),
    (["month", "1976", "7", "1"], "1: one word too many, try --help"),
    (["month", "1976", "July"], "July: not a whole number, try --help"),
    (["day", "1976", "7", "1", "25:00"], "25:00: not a time HH:MM, try --help"),
    (["day", "1976", "7", "0"], "0: not a day of a month, try --help"),
    (MONTH + ["--strides"], "--strides: its value is missing, try --help"),
    (MONTH + ["--stride", "20,20,20"], "--stride: no such option, try --help"),
    (MONTH + ["--strides", "180"], "180: " + NO_STRIDES),
    (MONTH + ["--strides", "180,30"], "180,30: " + NO_STRIDES),
    (MONTH + ["--strides", "180,30,360,20"], "180,30,360,20: " + NO_STRIDES),
    (MONTH + ["--strides", "180,30,"], "180,30,: " + NO_STRIDES),
    (MONTH + ["--strides", "180,,360"], "180,,360: " + NO_STRIDES),
    (MONTH + ["--strides", ",30,360"], ",30,360: " + NO_STRIDES),
    (MONTH + ["--strides", "180, 30,360"], "180, 30,360: " + NO_STRIDES),
    (MONTH + ["--strides", "180;30;360"], "180;30;360: " + NO_STRIDES),
    (MONTH + ["--strides", "180,30,six"], "180,30,six: " + NO_STRIDES),
    (MONTH + ["--strides", "180,-30,360"], "180,-30,360: " + NO_STRIDES),
    (MONTH + ["--strides", "180,30,4294967296"], "180,30,4294967296: " + NO_STRIDES),
    (MONTH + ["--strides", "0,30,360"], "--strides 0,30,360: " + BAD_STRIDE),
    (MONTH + ["--strides", "180,0,360"], "--strides 180,0,360: " + BAD_STRIDE),
    (MONTH + ["--strides", "180,30,721"], "--strides 180,30,721: " + BAD_STRIDE),
    (MONTH + ["--strides", "4294967295,30,360"], "--strides 4294967295,30,360: " + BAD_STRIDE),
    (["year", "1976", "--strides", "721,30,360"], "--strides 721,30,360: " + BAD_STRIDE),
    (["svg", "1976", "7", "1", "--strides", "180,721,360"], "--strides 180,721,360: " + BAD_STRIDE),
    (["heights", "1976", "7", "--strides", "180,30,0"], "--strides 180,30,0: " + BAD_STRIDE),
    (["hourly", "1976", "7", "7120", "--strides", "180,30,0"], "--strides 180,30,0: " + BAD_STRIDE),
    (["month", "1976", "13", "--strides", "0,0,0"], "--strides 0,0,0: " + BAD_STRIDE),
    (MONTH + ["--cards", "no-such-file"], "no-such-file: No such file or directory"),
    (MONTH + ["--cards", "."], ".: Is a directory"),
]

REFUSALS = """1 line over 80 columns or a byte outside 32 to 126
2 malformed number
3 number outside its stated range
4 name blank or twice, or place repeated
5 no such frequency, main or definition
6 more entries than stated
7 file ends inside a part
8 year or month out of range
9 minutes outside the month or reversed, or step out of range
10 more turns than the lent buffers hold
11 size of X or Y over 2^22
21 no table
22 no station
23 no month
31 the two lent buffers differ in length
32 station number over 99999
33 a height outside -999 to 9998
34 buffer too short for the month
35 a stride outside 1 to 720 minutes
"""

# April's bookings: their lines, and what is said of the last one
NONE = "no booking, DD HH:MM is expected"
BOOKED = [
    (["14 08:30 Otter", "14 8:30 Wren"], NONE),
    (["14 08:30 Otter", ""], NONE),
    (["14 08:305 Otter"], NONE),
    (["14  08:30 Otter"], NONE),
    (["14 08:3"], NONE),
    (["14 24:00"], NONE),
    (["14 08:60"], NONE),
    (["14"], NONE),
    (["4 08:30 Otter"], NONE),
    (["00 08:30 Otter"], NONE),
    (["30 23:59 Otter", "31 00:00 Otter", "31 00:01 Otter"], "31 00:01 is outside April 1976 (refusal 9)"),
    (["99 12:00"], "99 12:00 is outside April 1976 (refusal 9)"),
]

# months, each with a station number, whose hourly cards are compared: of all lengths, and of years that end in one digit
CARDED = [(1976, 7, 7120), (1976, 4, 0), (1999, 2, 99999), (2000, 2, 5), (2005, 11, 65536), (1950, 1, 12345)]
HOURS = {1: "01:00 to 12:00", 2: "13:00 to 24:00"}


def cards_of(table, year, month, station):
    """The hourly cards of a month whose hourly heights a table has, 00:00 of the 1st the first of them."""
    rows = [row.split(",") for row in table.decode().split("\n")[5:-1]]
    heights = [hourly.centimetres(int(height.replace(".", ""))) for _, height in rows]
    return [
        hourly.HourlyCard(k % 2 + 1, station, year, month, k // 2 + 1, heights[12 * k:12 * k + 12])
        for k in range(len(heights) // 12)
    ]


class Messages:
    def __init__(self, program, folder):
        self.program, self.folder = program, folder
        self.right = self.wrong = 0

    def run(self, words):
        return subprocess.run([self.program] + words, cwd=self.folder, capture_output=True, timeout=60)

    def expect(self, words, error, output=b""):
        got = self.run(words)
        if got.returncode == 0 and got.stderr == error.encode() and got.stdout == output:
            self.right += 1
        else:
            self.wrong += 1
            print("%s\n  said  %r\n  not   %r" % (words, got.stderr, error))

    def write(self, name, lines):
        with open(os.path.join(self.folder, name), "w") as file:
            file.write("".join(text + "\n" for text in lines))

    def booked(self, text, output):
        """Bookings of July, as the bytes of their file, and the sheet that they come to."""
        with open(os.path.join(self.folder, "bookings.txt"), "wb") as file:
            file.write(text)
        self.expect(["bookings", "1976", "7", "bookings.txt"], "", output)

    def carded(self, year, month, station, options):
        """A month's hourly cards: what is written or said is what the heights that the program gives come to."""
        date = [str(year), str(month)]
        cards = cards_of(self.run(["heights"] + date + options).stdout, year, month, station)
        words = ["hourly"] + date + [str(station)] + options
        try:
            hourly.check_cards(cards)
            self.expect(words, "", b"".join(map(hourly.card_line, cards)))
        except Refusal as refusal:
            card = cards[refusal.place - 1]
            where = "card %d of %d %s %d, %s" % (card.number, card.day, calendar.month_name[month], year, HOURS[card.number])
            self.expect(words, where + ": a height outside -999 to 9998, in hundredths of the unit (refusal 33)\n")

    def edited(self, option, name, lines, faults):
        for edit, number, words, refusal in faults:
            bad = list(lines)
            edit(bad)
            self.write(name, bad)
            self.expect(MONTH + [option, name], "%s line %d: %s (refusal %d)\n" % (name, number, words, refusal))


def long_file(mains, satellites, shallows):
    """A file of M2, more mains with so many satellites each, and shallow constituents, every one with its frequency."""
    names = ["A%03d " % k for k in range(mains)]
    shallow = ["S%03d " % k for k in range(shallows)]
    card = " " * 11 + 3 * "  0  0  0 .00 0.0000   "
    lines = ["    %s   0.1000000000" % name for name in ["M2   "] + names + shallow] + CARDS[145:148] + CARDS[237:241]
    for name in names:
        lines += ["      %s   2  0  0  0  0  0 0.00%4d" % (name, satellites)] + [card] * ((satellites + 2) // 3)
    return lines + [""] + ["      %s1   2.0 M2" % name for name in shallow] + [""]


def main():
    program = os.path.abspath(sys.argv[1])
    with tempfile.TemporaryDirectory() as folder:
        m = Messages(program, folder)
        m.edited("--cards", "cards.txt", CARDS, CARD_FAULTS)
        m.edited("--station", "station.txt", STATION, STATION_FAULTS)
        for words, text in ASKED:
            m.expect(words, text + "\n")
        printed = os.path.join(DATA, "standard-cards-as-printed.txt")
        m.expect(MONTH + ["--cards", printed], "%s line 337: coefficient 1 is not a whole number (refusal 3)\n" % printed)
        # a file that is too large
        with open(os.path.join(folder, "large.txt"), "w") as file:
            file.write(" " * 65537)
        m.expect(MONTH + ["--cards", "large.txt"], "large.txt: larger than 65536 bytes\n")
        # 6: too many of each
        m.write("cards.txt", long_file(64, 0, 0))
        m.expect(MONTH + ["--cards", "cards.txt"], "cards.txt line 136: the line is past 64 main constituents (refusal 6)\n")
        m.write("cards.txt", long_file(16, 16, 0))
        m.expect(MONTH + ["--cards", "cards.txt"], "cards.txt line 130: the line takes the satellites past 256 (refusal 6)\n")
        m.write("cards.txt", long_file(0, 0, 129))
        m.expect(MONTH + ["--cards", "cards.txt"], "cards.txt line 267: the line is past 128 shallow-water constituents (refusal 6)\n")
        m.write("station.txt", STATION[:1] + STATION[7:8] * 147)
        m.expect(MONTH + ["--station", "station.txt"], "station.txt line 148: the line is past 146 constituents (refusal 6)\n")
        # 10: K1 at nearly half a cycle an hour turns each hour, 744 times in July
        fast = list(CARDS)
        line(21, 13, "0.4999999999 ")(fast)
        m.write("cards.txt", fast)
        for words in (MONTH, ["day", "1976", "7", "1"], ["svg", "1976", "7"], ["svg", "1976", "7", "1"]):
            m.expect(words + ["--cards", "cards.txt"], "month 7: more than 512 high and low waters, the most that it has room for (refusal 10)\n")
        for words in (["year", "1976"], ["year", "1976", "--csv"], ["svg", "1976"]):
            m.expect(words + ["--cards", "cards.txt"], "year 1976: more than 6144 high and low waters, the most that it has room for (refusal 10)\n")
        # strides so long that they step over most turns: there is room for the rest
        got = m.run(MONTH + ["--cards", "cards.txt", "--strides", "180,720,360"])
        m.expect(MONTH + ["--cards", "cards.txt", "--strides", "720,720,720"], "", got.stdout.replace(b"180,720,360", b"720,720,720"))
        # 11: a satellite of ratio 2 with the diurnal latitude factor at the equator
        large = list(CARDS)
        line(173, 25, " 2.0000R1")(large)
        m.write("cards.txt", large)
        equator = list(STATION)
        line(1, 37, " 0  0")(equator)
        m.write("station.txt", equator)
        for words in (MONTH, ["year", "1976", "--csv"], ["svg", "1976"]):
            m.expect(words + ["--cards", "cards.txt", "--station", "station.txt"], "station.txt line 4: size of X or Y over 2^22 (refusal 11)\n")
        for lines, words in BOOKED:
            m.write("bookings.txt", lines)
            m.expect(["bookings", "1976", "4", "bookings.txt"], "bookings.txt line %d: %s\n" % (len(lines), words))
        m.expect(["bookings", "1976", "7", "large.txt"], "large.txt: larger than 65536 bytes\n")
        # bookings that are accepted: however their lines end, and whatever bytes stand in a name
        good = os.path.join(DATA, "examples", "bookings.txt")
        sheet = m.run(["bookings", "1976", "7", good]).stdout
        face = sheet[:sheet.index(b"\n\n") + 2]
        with open(good, "rb") as file:
            lines = file.read()
        m.booked(lines, sheet)
        m.booked(lines[:-1], sheet)
        m.booked(lines.replace(b"\n", b"\r\n"), sheet)
        m.booked(b"", face)
        m.booked(b"14 08:30 \x00\t\x1b\x7f\xc3\xa9\r!\r\n", face + b"14 08:30 ?\t?\x7f\xc3\xa9?!   3.598\n")
        # as many as fit a file
        m.booked(b"14 08:30\n" * 7281, face + b"14 08:30   3.598\n" * 7281)
        # hourly cards of Victoria, and of the same with its level as far below zero: 33
        below = list(STATION)
        line(2, 47, " 180.00")(below)
        m.write("station.txt", below)
        for month in CARDED:
            m.carded(*month, [])
            m.carded(*month, ["--station", "station.txt"])
        m.expect(["refusals"], "", REFUSALS.encode())
        print("%d messages are as they should be, %d are not" % (m.right, m.wrong))
        sys.exit(1 if m.wrong else 0)


if __name__ == "__main__":
    main()
