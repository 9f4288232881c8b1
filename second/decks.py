"""Random card files for the generators: valid ones, ones at and past the limits, damaged ones.

A deck is built as lines of columns with a note of where each field stands, so that single fields can
be damaged afterwards. Nothing here looks at the reader in cards.py.
"""

from collections import namedtuple

PRINTABLE = bytes(range(33, 127))
NAME_BYTES = b"ABCDEFGHIJKLMNOPQRSTUVWXYZ0123456789"

# A number field's format and range, in units of its last decimal (decimals None: an I field).
Format = namedtuple("Format", "width decimals lowest highest")
FREQUENCY = Format(13, 10, 0, 4_999_999_999)
LONGITUDE = Format(13, 10, 0, 10**10 - 1)
INCREASE = Format(13, 10, 0, 20 * 10**10)
DOODSON = Format(3, None, -12, 12)
PHASE = Format(5, 2, -100, 100)
COUNT = Format(4, None, 0, 16)
DIFFERENCE = Format(3, None, -9, 9)
SATELLITE_PHASE = Format(4, 2, -100, 100)
RATIO = Format(7, 4, 0, 20_000)
PARTS = Format(1, None, 1, 4)
COEFFICIENT = Format(5, 2, -900, 900)

# Where a field stands: line from 0, column from 0. Kind is a Format, or the word of a name field:
# "frequency name", "main name", "shallow name", "part name", "mark".
Field = namedtuple("Field", "line column kind")

# A satellite's numbers in units of their last decimal; mark is a byte.
Satellite = namedtuple("Satellite", "differences phase ratio mark")

# How a deck is to look. ratios: "small" (as in nature), "large" (weights may grow past 2^22) or "any".
Shape = namedtuple("Shape", "mains shallows satellites ratios tidy")


# Numbers as text


def whole_texts(rng, value, width):
    size = str(abs(value))
    sign = "-" if value < 0 else ""
    texts = [sign + size, sign + size.zfill(rng.randint(1, width))]
    return texts + ["-0"] if value == 0 else texts


def pointed_texts(value, decimals):
    sign = "-" if value < 0 else ""
    whole = str(abs(value) // 10**decimals)
    after = str(abs(value) % 10**decimals).zfill(decimals)
    short = after.rstrip("0")
    texts = []
    for tail in (after, short, short + "0" if len(short) < decimals else short):
        texts.append(sign + whole + "." + tail)
        if whole == "0" and tail:
            texts.append(sign + "." + tail)
    return texts + ["-0.0", "-.0"] if value == 0 else texts


def number_text(rng, value, form, tidy=False):
    """A text of the number that fits its field, in one of the styles 01 allows; None if none fits."""
    if form.decimals is None:
        texts = whole_texts(rng, value, form.width)
    else:
        texts = pointed_texts(value, form.decimals)
    fitting = [text for text in texts if len(text) <= form.width]
    if not fitting:
        return None
    text = fitting[0] if tidy else rng.choice(fitting)
    room = form.width - len(text)
    left = room if tidy else rng.choice([0, room, rng.randint(0, room)])
    return (" " * left + text).ljust(form.width).encode()


def random_value(rng, form):
    """A value in range; the ends often."""
    roll = rng.random()
    if roll < 0.08:
        return form.lowest
    if roll < 0.16:
        return form.highest
    if roll < 0.24:
        return max(0, form.lowest)
    return rng.randint(form.lowest, form.highest)


# Names


def random_name(rng):
    roll = rng.random()
    if roll < 0.6:
        return bytes(rng.choice(NAME_BYTES) for _ in range(rng.randint(1, 4))).ljust(5)
    if roll < 0.8:
        return bytes(rng.choice(NAME_BYTES) for _ in range(5))
    # Any printable bytes, blanks in front and inside included.
    name = bytes(rng.choice(PRINTABLE + b"  ") for _ in range(5))
    return name if name.strip() else b"    ."


def random_names(rng, count):
    """Different names; those that decide the stride are often among them, with near misses."""
    wanted = [b"K1   ", b"O1   ", b"M2   ", b"S2   ", b"Z0   "]
    wanted += [b" K1  ", b"k1   ", b"M2  .", b"   S2"] if rng.random() < 0.2 else []
    rng.shuffle(wanted)
    names = []
    for name in wanted:
        if len(names) < count and rng.random() < 0.8:
            names.append(name)
    while len(names) < count:
        name = random_name(rng)
        if name not in names:
            names.append(name)
    rng.shuffle(names)
    return names


# Building


class Deck:
    def __init__(self, rng, tidy):
        self.rng = rng
        self.tidy = tidy
        self.lines = []
        self.fields = []

    def start(self):
        """A new card; skipped columns sometimes hold rubbish."""
        self.lines.append(bytearray())

    def skip(self, width, rubbish=0.03):
        for _ in range(width):
            dirty = not self.tidy and self.rng.random() < rubbish
            self.lines[-1].append(self.rng.choice(PRINTABLE) if dirty else 32)

    def put(self, text, kind):
        self.fields.append(Field(len(self.lines) - 1, len(self.lines[-1]), kind))
        self.lines[-1] += text

    def number(self, value, form):
        self.put(number_text(self.rng, value, form, self.tidy), form)

    def end(self):
        """Ends a card: cut after its last mark, or left padded, or with rubbish past the format."""
        line = self.lines[-1]
        roll = 1 if self.tidy else self.rng.random()
        if roll < 0.1:
            line[:] = line.ljust(80)
        elif roll < 0.15 and len(line) < 80:
            self.skip(self.rng.randint(0, 80 - len(line)), 0.5)
        elif roll > 0.3:
            line[:] = line.rstrip()

    def blank(self):
        width = 0 if self.tidy or self.rng.random() < 0.7 else self.rng.randint(0, 80)
        self.lines.append(bytearray(b" " * width))

    def data(self):
        return b"".join(bytes(line) + b"\n" for line in self.lines)


def pick_ratio(rng, ratios):
    if ratios == "small":
        return rng.choice([rng.randint(0, 600), rng.randint(0, 4_500)])
    if ratios == "large":
        return rng.choice([rng.randint(5_000, 20_000), 20_000, rng.randint(0, 20_000)])
    return random_value(rng, RATIO)


def pick_frequency(rng, name):
    """Near the bands of the tide where the name asks for it."""
    if name == b"Z0   ":
        return 0
    if name in (b"K1   ", b"O1   "):
        return rng.randint(370_000_000, 430_000_000)
    if name in (b"M2   ", b"S2   "):
        return rng.randint(780_000_000, 840_000_000)
    return rng.choice([random_value(rng, FREQUENCY), rng.randint(300_000_000, 900_000_000)])


def satellite_counts(rng, mains, total):
    """How many satellites each main has; total None is free."""
    if total is None:
        return [rng.choice([0, 0, 1, 2, 3, 4, 5, 6, 7, rng.randint(0, 16)]) for _ in range(mains)]
    counts = [0] * mains
    for _ in range(total):
        room = [i for i in range(mains) if counts[i] < 16]
        counts[rng.choice(room)] += 1
    return counts


def limit_total(counts, total):
    """Keeps the satellites in all to the total, by cutting the later counts."""
    for i, count in enumerate(counts):
        counts[i] = min(count, total)
        total -= counts[i]
    return counts


def random_coefficients(rng, sizes=None):
    """1 to 4 coefficients whose sizes add up to at most 12, or to exactly the sizes given."""
    if sizes is not None:
        parts = rng.randint(2, 4)
        left = [1] * parts
        for _ in range(sizes - parts):
            left[rng.choice([i for i in range(parts) if left[i] < 9])] += 1
        return [size * rng.choice([1, -1]) for size in left]
    coefficients = []
    room = 12
    for _ in range(rng.randint(1, 4)):
        if room == 0:
            break
        size = rng.choice([1, 1, 2, 3, rng.randint(1, 9)])
        size = min(size, room)
        room -= size
        coefficients.append(size * rng.choice([1, 1, -1]))
    return coefficients


def build(rng, shape, shallow_sizes=None):
    deck = Deck(rng, shape.tidy)
    names = random_names(rng, shape.mains + shape.shallows)
    mains = names[: shape.mains]
    shallows = names[shape.mains :]
    order = list(names)
    if rng.random() < 0.5:
        rng.shuffle(order)
    write_frequencies(deck, order)
    write_longitudes(deck, [[random_value(rng, form) for _ in range(5)] for form in (LONGITUDE, INCREASE)])
    counts = satellite_counts(rng, shape.mains, shape.satellites)
    if shape.satellites is None:
        counts = limit_total(counts, 256)
    for name, count in zip(mains, counts):
        write_main(deck, name, [random_satellite(rng, shape.ratios) for _ in range(count)])
    deck.blank()
    for i, name in enumerate(shallows):
        write_shallow(deck, name, mains, random_coefficients(rng, shallow_sizes if i == 0 else None))
    deck.blank()
    return deck


def write_frequencies(deck, names):
    rng = deck.rng
    for name in names:
        deck.start()
        deck.skip(4)
        deck.put(name, "frequency name")
        deck.skip(3)
        deck.number(pick_frequency(rng, name), FREQUENCY)
        if rng.random() < 0.5:
            deck.skip(4)
            deck.lines[-1] += rng.choice([random_name(rng), rng.choice(names), b"     "])
        deck.end()
    deck.blank()


def write_longitudes(deck, cards):
    for form, numbers in zip((LONGITUDE, INCREASE), cards):
        deck.start()
        for number in numbers:
            deck.number(number, form)
        deck.end()


def random_satellite(rng, ratios):
    differences = [rng.choice([0, rng.randint(-2, 2), random_value(rng, DIFFERENCE)]) for _ in range(3)]
    mark = rng.choice(b"   1122" + PRINTABLE[:1] + b"0R3")
    return Satellite(differences, random_value(rng, SATELLITE_PHASE), pick_ratio(rng, ratios), mark)


def write_main(deck, name, satellites):
    rng = deck.rng
    deck.start()
    deck.skip(6)
    deck.put(name, "main name")
    deck.skip(1)
    for _ in range(6):
        deck.number(rng.choice([0, rng.randint(-4, 4), random_value(rng, DOODSON)]), DOODSON)
    deck.number(random_value(rng, PHASE), PHASE)
    deck.number(len(satellites), COUNT)
    deck.end()
    for first in range(0, len(satellites), 3):
        deck.start()
        if rng.random() < 0.5:
            deck.lines[-1] += b" " * 6 + name
        else:
            deck.skip(11)
        for satellite in satellites[first : first + 3]:
            write_satellite(deck, satellite)
        deck.end()


def write_satellite(deck, satellite):
    for difference in satellite.differences:
        deck.number(difference, DIFFERENCE)
    deck.number(satellite.phase, SATELLITE_PHASE)
    deck.number(satellite.ratio, RATIO)
    deck.skip(1)
    deck.put(bytes([satellite.mark]), "mark")
    deck.skip(1)


def write_shallow(deck, name, mains, coefficients):
    rng = deck.rng
    deck.start()
    deck.skip(6)
    deck.put(name, "shallow name")
    deck.number(len(coefficients), PARTS)
    deck.skip(2)
    for coefficient in coefficients:
        deck.number(100 * coefficient, COEFFICIENT)
        deck.put(rng.choice(mains), "part name")
        deck.skip(5)
    deck.end()


# A turn in 365.25 days, as the increase in 365: what goes round so stands alike on the same day of every year.
YEARLY = 365 * 10**12 // 36_525


def late_file(rng, days):
    """A file with a main for each of the days, counted from 1 January 1976, that passes 2^22 in the day's month of every year
    and in no other month; a shallow constituent does so with the last of them."""
    deck = Deck(rng, rng.random() < 0.5)
    names = random_names(rng, rng.randint(1, 5) + len(days))
    shallow, *mains = names
    write_frequencies(deck, rng.sample(names, len(names)))
    longitudes, increases = [[random_value(rng, form) for _ in range(5)] for form in (LONGITUDE, INCREASE)]
    increases[4] = YEARLY
    write_longitudes(deck, (longitudes, increases))
    for name in mains[len(days) :]:
        write_main(deck, name, [random_satellite(rng, "small") for _ in range(rng.randint(0, 1))])
    for name, day in zip(mains, days):
        write_main(deck, name, late_satellites(rng, longitudes[4] + YEARLY * day // 365))
    deck.blank()
    write_shallow(deck, shallow, [mains[len(days) - 1]], [rng.choice([1, -1])])
    deck.blank()
    return deck.data()


def late_satellites(rng, solar_perigee):
    """Satellites that add up where the solar perigee (10^-10 cycle) is as given. X there is 2^20 times 1 and their ratios,
    over 4; a month before or behind, at least nine hundredths of them are lost, and it is under 4."""
    phase = -round(solar_perigee % 10**10 / 10**8)
    ratios = [rng.randint(11_000, 18_000), rng.randint(2_000, 9_000)]
    ratios.append(rng.randint(30_300, 32_500) - sum(ratios))
    return [Satellite([0, 0, 1], phase, ratio, b" "[0]) for ratio in ratios]


# Constituents whose pair is (2^20, 0) and whose V is 0 on every date; the still ones have frequency 0 too, and add their
# amplitude to every height, or take it off with lag 180.00.
STILLS = [b"ST%02d " % number for number in range(20)]
SLOW, SWIFT = b"SLOW ", b"SWIFT"
# Those that creep turn by a few degrees a year.
CREEPERS = [b"CR%02d " % number for number in range(6)]
# Overtides of M2, and how many times its frequency they have.
OVERTIDES = {b"M4   ": 2, b"M6   ": 3, b"M8   ": 4, b"M10  ": 5}


def still_file(rng):
    """A file of still constituents, one with a turn in more than two months and one with a turn in some hours."""
    frequencies = {name: 0 for name in STILLS}
    frequencies[SLOW] = rng.randint(1_000_000, 6_500_000)
    frequencies[SWIFT] = rng.randint(370_000_000, 840_000_000)
    return plain_file(rng, frequencies)


def creeping_file(rng):
    """A file of constituents that all have the same very low frequency."""
    return plain_file(rng, dict.fromkeys(CREEPERS, rng.randint(2_000, 30_000)))


def fluttering_file(rng):
    """As the creeping file; they turn by a few degrees a day."""
    return plain_file(rng, dict.fromkeys(CREEPERS, rng.randint(500_000, 6_000_000)))


def double_file(rng):
    """A file of the four constituents that decide the class, and of overtides, which make high waters double."""
    m2 = pick_frequency(rng, b"M2   ")
    frequencies = {name: pick_frequency(rng, name) for name in (b"K1   ", b"O1   ", b"S2   ")}
    frequencies[b"M2   "] = m2
    for name, times in OVERTIDES.items():
        frequencies[name] = times * m2
    return plain_file(rng, frequencies)


def plain_file(rng, frequencies):
    """A file of constituents that have a frequency and nothing else."""
    deck = Deck(rng, rng.random() < 0.5)
    for name in rng.sample(sorted(frequencies), len(frequencies)):
        deck.start()
        deck.skip(4)
        deck.put(name, "frequency name")
        deck.skip(3)
        deck.number(frequencies[name], FREQUENCY)
        deck.end()
    deck.blank()
    write_longitudes(deck, [[random_value(rng, form) for _ in range(5)] for form in (LONGITUDE, INCREASE)])
    for name in rng.sample(sorted(frequencies), len(frequencies)):
        write_still(deck, name)
    deck.blank()
    deck.blank()
    return deck.data()


def write_still(deck, name):
    """Doodson numbers, phase and satellite count 0."""
    deck.start()
    deck.skip(6)
    deck.put(name, "main name")
    deck.skip(1)
    for form in [DOODSON] * 6 + [PHASE, COUNT]:
        deck.number(0, form)
    deck.end()


# Shapes


def random_shape(rng, ratios="any", tidy=None):
    mains = rng.choice([0, 1, 2, 4, 6, 8, rng.randint(1, 20)])
    shallows = rng.choice([0, 1, 3, rng.randint(0, 12)]) if mains else 0
    return Shape(mains, shallows, None, ratios, rng.random() < 0.5 if tidy is None else tidy)


def random_deck(rng, ratios="any", tidy=None):
    return build(rng, random_shape(rng, ratios, tidy))


def limit_file(rng):
    """At a limit, or just past it (6, or 3 for the sizes)."""
    past = rng.randint(0, 1)
    tidy = rng.random() < 0.7
    few = rng.randint(0, 20)
    shape, sizes = rng.choice([
        (Shape(64, 96 + past, few, "any", tidy), None),
        (Shape(rng.randint(32, 50), 0, few, "any", tidy)._replace(shallows=None), None),
        (Shape(64 + past, few, few, "any", tidy), None),
        (Shape(rng.randint(17, 30), few, 256 + past, "any", tidy), None),
        (Shape(31 + (1 - past), 128 + past, few, "any", tidy), None),
        (Shape(rng.randint(1, 5), rng.randint(1, 4), few % 16, "any", tidy), 12 + past),
        (Shape(rng.randint(1, 5), rng.randint(1, 4), few % 16, "any", tidy), 12 + past),
    ])
    if shape.shallows is None:
        # Exactly 160 or 161 frequencies with fewer mains.
        shape = shape._replace(shallows=160 + past - shape.mains)
    deck = build(rng, shape, sizes)
    if rng.random() < 0.3:
        spoil_card_past_limit(deck)
    return deck.data()


def spoil_card_past_limit(deck):
    """Spoils the card past a limit: still 6, which comes before its fields, but 1 comes before 6."""
    for kind, limit in (("frequency name", 160), ("main name", 64), ("shallow name", 128)):
        fields = [field for field in deck.fields if field.kind == kind]
        if len(fields) > limit:
            line = deck.lines[fields[limit].line]
            spoilt = deck.rng.choice([b" " * 20 + b"x", b"." * 80, b"." * 81, b"\x7f", line.replace(b".", b" ")])
            line[:] = spoilt
            return


# Damage


def malformed_text(rng, form):
    """A text that is no number of the format."""
    texts = [b"", b"-", b"+1", b"1 2", b"--1", b"1-", b"- 1", b"x", b"1x", b"1e0", b"1,0", b"..", b"*"]
    if form.decimals is None:
        texts += [b".", b"1.", b"0.0", b".0"]
    else:
        texts += [b".", b"-.", b"0", b"1", b"0..1", b"1.1.", b"+.5", b"0. 1", b"0 .1", b"-+.1", b". 5", b"1.0-",
                  b"." + b"0" * (form.decimals + 1)]
    text = rng.choice([text for text in texts if len(text) <= form.width])
    left = rng.randint(0, form.width - len(text))
    return (b" " * left + text).ljust(form.width)


def edge_text(rng, form):
    """A number at or just past an end of the range, far away, or in the range by its last bits alone; always one that fits the field."""
    whole = 10 ** (form.decimals or 0)
    while True:
        span = 10 ** rng.randint(0, 3)
        wrapped = rng.randint(form.lowest, form.highest) + 2 ** rng.choice([8, 16, 32])
        value = rng.choice([
            form.lowest, form.highest, form.lowest - 1, form.highest + 1,
            form.lowest - span, form.highest + span, 0, -1, 1,
            wrapped, -(-wrapped // whole) * whole,
        ])
        text = number_text(rng, value, form)
        if text is not None:
            return text


def overwrite(deck, field, text):
    line = deck.lines[field.line]
    line[:] = line.ljust(field.column + len(text))
    line[field.column : field.column + len(text)] = text


def pick_field(deck):
    """A field whose kind is as likely as any other kind."""
    kinds = []
    for field in deck.fields:
        if field.kind not in kinds:
            kinds.append(field.kind)
    if not kinds:
        return None
    kind = deck.rng.choice(kinds)
    return deck.rng.choice([field for field in deck.fields if field.kind == kind])


def number_damage(rng):
    """One number field malformed, or at or past the ends of its range."""
    deck = random_deck(rng)
    field = pick_field(deck)
    while field is None or isinstance(field.kind, str):
        deck = random_deck(rng) if field is None else deck
        field = pick_field(deck)
    form = field.kind
    if form == COEFFICIENT and rng.random() < 0.4:
        text = number_text(rng, rng.choice([0, 50, 150, -250, 1, 899, -901]), form) or b"  .50"
    elif rng.random() < 0.45:
        text = malformed_text(rng, form)
    else:
        text = edge_text(rng, form)
    overwrite(deck, field, text)
    return deck.data()


def name_damage(rng):
    """One name blank, repeated, unknown, shifted or in another case."""
    shape = random_shape(rng)
    shape = shape._replace(mains=max(2, shape.mains), shallows=max(1, shape.shallows))
    deck = build(rng, shape)
    names = [field for field in deck.fields if isinstance(field.kind, str) and field.kind != "mark"]
    kind = rng.choice(["frequency name", "main name", "shallow name", "part name"])
    field = rng.choice([field for field in names if field.kind == kind])
    line = deck.lines[field.line].ljust(80)
    old = bytes(line[field.column : field.column + 5])
    other = rng.choice(names)
    other_name = bytes(deck.lines[other.line].ljust(80)[other.column : other.column + 5])
    text = rng.choice([
        b" " * 5, other_name, other_name, random_name(rng),
        (b" " + old)[:5], old[1:] + b" ", old.swapcase(), old[:4] + b"#",
    ])
    overwrite(deck, field, text)
    return deck.data()


def base_data(rng, standard):
    """The standard file or a random valid one."""
    return standard if rng.random() < 0.3 else random_deck(rng).data()


def cut(data, kept):
    """The first lines of a file; the number to keep starts anew past the last."""
    lines = data.split(b"\n")[:-1]
    return b"".join(line + b"\n" for line in lines[: kept % (len(lines) + 1)])


def truncated(rng, standard):
    """Cut at a line, with or without a part of the next one."""
    lines = base_data(rng, standard).split(b"\n")[:-1]
    kept = rng.randint(0, len(lines))
    data = b"".join(line + b"\n" for line in lines[:kept])
    roll = rng.random()
    if roll < 0.25:
        return data[:-1]
    if roll < 0.5 and kept < len(lines):
        return data + lines[kept][: rng.randint(0, len(lines[kept]))]
    return data


def bad_line(rng, standard):
    """A line of 80 or 81 columns, or a byte at or past the ends of 32 to 126."""
    lines = base_data(rng, standard).split(b"\n")[:-1]
    at = rng.randrange(len(lines))
    line = lines[at]
    roll = rng.random()
    if roll < 0.4:
        width = rng.choice([79, 80, 81, 81, 82, 200])
        line = line.ljust(width, rng.choice([b" ", b" ", b"x"]))
    elif roll < 0.9:
        byte = bytes([rng.choice([0, 9, 13, 31, 32, 126, 127, 128, 255, rng.randint(0, 255)])])
        byte = b" " if byte == b"\n" else byte
        column = rng.randint(0, len(line))
        line = line[:column] + byte + line[column + rng.randint(0, 1) :]
    else:
        lines = [other + b"\r" for other in lines]
        line = lines[at]
    lines[at] = line
    return b"".join(line + b"\n" for line in lines)


def mutated(rng, standard):
    """One to three single bytes changed, added or taken away."""
    data = bytearray(base_data(rng, standard))
    for _ in range(rng.randint(1, 3)):
        at = rng.randrange(len(data))
        byte = rng.choice([rng.choice(b"0123456789.- "), rng.choice(PRINTABLE), rng.randint(0, 255)])
        roll = rng.random()
        if roll < 0.7:
            data[at] = byte
        elif roll < 0.85:
            data.insert(at, byte)
        else:
            del data[at]
    return bytes(data)


def rearranged(rng, standard):
    """Lines lost, doubled, exchanged; blank and nearly blank cards put in; lines after the end."""
    lines = base_data(rng, standard).split(b"\n")[:-1]
    at = rng.randrange(len(lines))
    other = rng.randrange(len(lines))
    blankish = rng.choice([
        b"", b" ", b" " * 80, b"x", b" " * 79 + b".", b" " * rng.randint(0, 79) + bytes([rng.choice(PRINTABLE)]),
    ])
    roll = rng.random()
    if roll < 0.2:
        del lines[at]
    elif roll < 0.35:
        lines.insert(other, lines[at])
    elif roll < 0.5:
        lines[at], lines[other] = lines[other], lines[at]
    elif roll < 0.65:
        lines.insert(at, blankish)
    elif roll < 0.75:
        lines[at] = blankish
    elif roll < 0.85:
        lines[at] = lines[at][: rng.randint(0, len(lines[at]))]
    else:
        junk = bytes(rng.randint(0, 255) for _ in range(rng.randint(0, 200)))
        return b"".join(line + b"\n" for line in lines) + junk
    return b"".join(line + b"\n" for line in lines)


def satellite_overflow(rng):
    """Satellite counts about 256 in all, the last one sometimes out of range by itself."""
    mains = rng.randint(17, 24)
    deck = build(rng, Shape(mains, rng.randint(0, 3), 256, "any", True))
    counts = [field for field in deck.fields if field.kind == COUNT]
    texts = [b"  16", b"  16", b"  16", b"  17", b"   0", b"  -1", b"   1", b"  1.", b"9999"]
    overwrite(deck, rng.choice([counts[-1], counts[-1], rng.choice(counts)]), rng.choice(texts))
    return deck.data()


def valid_file(rng, standard):
    if rng.random() < 0.02:
        return standard
    data = random_deck(rng).data()
    # The last LF may be missing where the last line still shows.
    return data[:-1] + b" " if rng.random() < 0.1 else data


def card_file(rng, standard):
    """One card file of the mix."""
    roll = rng.random()
    if roll < 0.19:
        return valid_file(rng, standard)
    if roll < 0.30:
        return limit_file(rng)
    if roll < 0.56:
        return number_damage(rng)
    if roll < 0.71:
        return name_damage(rng)
    if roll < 0.74:
        return truncated(rng, standard)
    if roll < 0.82:
        return bad_line(rng, standard)
    if roll < 0.90:
        return mutated(rng, standard)
    if roll < 0.98:
        return rearranged(rng, standard)
    return satellite_overflow(rng)
