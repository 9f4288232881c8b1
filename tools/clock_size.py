"""The size of the struct Clock in bytes, from the sources: each field aligned to its own type, as in C."""

import glob
import re

SIZES = {"u8": 1, "i8": 1, "bool": 1, "u16": 2, "i16": 2, "u32": 4, "i32": 4, "u64": 8, "i64": 8, "usize": 8}


def structs():
    found = {}
    for path in glob.glob("crates/*/src/*.rt"):
        for name, body in re.findall(r"pub struct (\w+) \{\n(.*?)\n\}", open(path).read(), re.S):
            found.setdefault((path.split("/")[1], name), re.findall(r"(\w+): ([^,]+),", body))
    return found


def constants():
    """The constants by which arrays are long: numbers, and products of a number and another constant."""
    texts = {}
    for path in glob.glob("crates/*/src/*.rt"):
        texts.update(re.findall(r"pub const (\w+): usize = ([^;]+);", open(path).read()))
    return texts


def length(text, texts):
    """How long an array is, from a number, a constant or a product."""
    product = 1
    for factor in text.split(" * "):
        product *= length(texts[factor], texts) if factor in texts else int(factor)
    return product


def layout(kind, found, texts):
    """Size and alignment of a type."""
    array = re.match(r"\[(\w+); (\w+)\]", kind)
    if array:
        size, align = layout(array.group(1), found, texts)
        return size * length(array.group(2), texts), align
    if kind in SIZES:
        return SIZES[kind], SIZES[kind]
    crate = {"Table": "table", "Station": "station", "Strides": "station", "Clock": "clock"}[kind]
    at, most = 0, 1
    for _, field in found[(crate, kind)]:
        size, align = layout(field, found, texts)
        at = -(-at // align) * align + size
        most = max(most, align)
    return -(-at // most) * most, most


print(layout("Clock", structs(), constants())[0])
