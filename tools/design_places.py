#!/usr/bin/env python3
"""Lists the places in crates/*/src that docs/DESIGN-PASS.md counts, point by point.

  python3 tools/design_places.py [FOLDER] [POINT]    the counts, or with a point (1 to 7) its places
"""
import collections
import pathlib
import re
import sys

FUNCTION = re.compile(
    r"^(?P<indent>[ ]*)(?:pub )?(?:unsafe )?(?:extern \"C\" )?fn (?P<name>\w+)(?P<generics><[^(]*>)?"
    r"\((?P<params>[^)]*)\)(?P<rest>[^{;]*?)(?P<clauses>(?:\n[ ]*(?:requires|ensures)[^\n]*)*)\n?[ ]*\{\n(?P<body>.*?)^(?P=indent)\}$",
    re.M | re.S,
)
ENUM = re.compile(r"enum (\w+)(?:<[^>]*>)? \{\n(.*?)^\}", re.M | re.S)
STRUCT = re.compile(r"struct (\w+)(?:<[^>]*>)? \{\n(.*?)^\}", re.M | re.S)
FAILING = re.compile(r"Fault|Refus|Wrong|Error")


def sources(folder):
    for path in sorted(pathlib.Path(folder).glob("crates/*/src/**/*.rt")):
        yield path.relative_to(folder).as_posix(), path.read_text()


def functions(folder):
    for path, text in sources(folder):
        for m in FUNCTION.finditer(text):
            yield path, m


def variants(body):
    body = re.sub(r"//[^\n]*", "", body)
    body = re.sub(r"\{[^}]*\}", "(x, y)", body)
    return re.findall(r"^\s+(\w+)(\([^\n]*\))?,?$", body, re.M)


def point_1(folder):
    """Own enums of the shape of Option or Result; structs with a flag, or an outcome, beside a value; functions that answer a code."""
    outcomes = set()
    for path, text in sources(folder):
        for name, body in ENUM.findall(text):
            cases = variants(body)
            bare = [c for c, p in cases if not p]
            full = [c for c, p in cases if p]
            fails = [c for c, p in cases if p and FAILING.search(p)]
            if len(cases) <= 3 and (full and bare or fails):
                outcomes.add(name)
                yield f"{path}: enum {name} ({', '.join(c for c, _ in cases)})"
            elif fails:
                yield f"{path}: enum {name}, case {', '.join(fails)}"
    outcomes |= {"Answer"}
    for path, text in sources(folder):
        for name, body in STRUCT.findall(text):
            fields = re.findall(r"(\w+): ([^,\n]+),", body)
            if len(fields) < 2:
                continue
            for field, kind in fields:
                if kind == "bool" or kind in outcomes:
                    yield f"{path}: struct {name}, {field}: {kind} beside a value"
    for path, m in functions(folder):
        if re.search(r"number_of|code", m["name"]) and re.search(r"-> u(8|32)", m["rest"]):
            yield f"{path}: fn {m['name']}, a number for a kind"


def shape(text):
    text = re.sub(r"//[^\n]*", "", text)
    text = re.sub(r"\b(u8|u16|u32|u64|i8|i16|i32|i64|usize|isize)\b", "T", text)
    text = re.sub(r"\b\d[\d_]*(T)?\b", "N", text)
    text = re.sub(r"\b[A-Z][A-Z_\d]+\b", "N", text)
    return re.sub(r"\s+", " ", text).strip()


def point_2(folder):
    """Functions whose bodies are the same but for number types, numbers and constants (thirty letters at the least)."""
    groups = collections.defaultdict(list)
    for path, m in functions(folder):
        if len(shape(m["body"])) >= 30:
            groups[shape(m["body"])].append(f"{path}::{m['name']}")
    for names in groups.values():
        if len(names) > 1:
            yield " = ".join(names)


def point_3(folder):
    """`while` and `loop`."""
    for path, text in sources(folder):
        for n, line in enumerate(text.split("\n"), 1):
            if re.match(r"\s*(while|loop)\b", line):
                yield f"{path}:{n}: {line.strip()}"


def point_4(folder):
    """Functions that compare, copy or convert by hand, by their names; byte codes as numbers."""
    for path, m in functions(folder):
        if re.match(r"(same|is_same|equal|equals|differs|copy\w*|convert\w*|to_\w+|from_\w+)$", m["name"]):
            yield f"{path}: fn {m['name']}"
    for path, text in sources(folder):
        for n, line in enumerate(text.split("\n"), 1):
            code = line.split("//")[0]
            if re.search(r"(== |<= |< |\(|, )(10|13|32|43|45|46|48|57|58|126)\b(?!\d|_)", code) and re.search(
                r"byte|column|run_end|all_among|begins|\bb\b", code
            ):
                yield f"{path}:{n}: {code.strip()}"


def split_params(params):
    return [p for p in re.split(r",(?![^<\[]*[>\]])", params) if ":" in p]


def point_5(folder):
    """Functions of six parameters and more; facts that the `requires` of three functions or more have."""
    facts = collections.defaultdict(list)
    for path, m in functions(folder):
        many = len(split_params(m["params"]))
        if many >= 6:
            yield f"{path}: fn {m['name']}, {many} parameters"
        for clause in re.findall(r"requires (?:\w+ )?\{ (.*) \}", m["clauses"]):
            for fact in clause.split(" × "):
                facts[fact.strip("() ")].append(m["name"])
    for fact, names in sorted(facts.items()):
        if len(names) >= 3:
            yield f"fact {fact}: {len(names)} functions"


def point_6(folder):
    """Functions with a slice or an array and a number of its entries; structs of arrays beside a count."""
    for path, m in functions(folder):
        params = m["params"]
        if re.search(r"&(?:'a )?(?:mut )?\[", params) and re.search(r"\b(count|n|len|length|rows|many|mains|shallows|known|frequencies): usize", params):
            yield f"{path}: fn {m['name']}"
    for path, text in sources(folder):
        for name, body in STRUCT.findall(text):
            if len(re.findall(r": \[", body)) >= 2 or (": [" in body and re.search(r"count|many|: usize", body)):
                yield f"{path}: struct {name}"


def point_7(folder):
    """A `match` whose every arm is a call of another function (a switch on which step to run)."""
    for path, m in functions(folder):
        for arms in re.findall(r"match [^{]+\{\n(.*?)\n\s+\}", m["body"], re.S):
            calls = re.findall(r"=> (?:\w+::)*(\w+)\(", arms)
            rows = len(re.findall(r"=>", arms))
            if rows >= 2 and len(calls) == rows and len(set(calls)) == rows and not re.search(r"=> (Some|Ok|Err)", arms):
                yield f"{path}: fn {m['name']}, {rows} arms"


POINTS = [point_1, point_2, point_3, point_4, point_5, point_6, point_7]


def main():
    folder = "."
    wanted = None
    for word in sys.argv[1:]:
        if word.isdigit():
            wanted = int(word)
        else:
            folder = word
    for number, point in enumerate(POINTS, 1):
        places = list(point(folder))
        if wanted is None:
            print(f"{number}. {point.__doc__} {len(places)}")
        elif wanted == number:
            print("\n".join(places))


main()
