#!/usr/bin/env python3
"""Writes what leaves each crate below claim_runs for a link, and the program of all of them, from what the kit generates.

    tools/links.py FOLDER          FOLDER/NAME: what `rt check --generated FOLDER/NAME` printed in crates/NAME

For each crate NAME it writes crates/NAME/proofs/Linked.antt: the table of its functions' code (`table`), what that asks of the crates below (`Below`), and
that a world with both has the code of each function which is called from above (`linked-..`). For claim_runs it writes proofs/Program.antt: the
world of all the tables, and that it has the clock's code. docs/PORT.md, "That a program has the clock's code".
"""

import pathlib
import re
import sys

import kit

# From the ground up.
CRATES = (
    "angles cosine calendar refusals refusal_words columns fields table card card_frequencies card_mains card_constituents card_shallows card_file station month_arguments"
    " month_satellites month_pairs month_workings month_prepared month year heights turns hourly calls clock cuvalimodo_c"
).split()

# The functions that are run: a name in HasTheClock, the crate, the function.
RUN = [(name, "clock", function) for name, function in {
    "new": "new", "load": "load_cards", "station": "set_station", "placing": "place_station", "date": "set_date", "height": "height",
    "lent_height": "height_lent", "series": "series", "turns": "turns", "year": "year", "booking": "bookings", "lent_booking": "bookings_lent",
    "hourly": "hourly", "names": "names",
}.items()] + [("held_" + name, "cuvalimodo_c", "cuvalimodo_" + function) for name, function in {
    "new": "new", "load": "load_cards", "station": "set_station", "date": "set_date", "height": "height", "series": "series", "turns": "turns",
    "year": "year", "booking": "bookings", "hourly": "hourly", "names": "names",
}.items()]


def called(folder, crate):
    """The functions of other crates whose code a crate's table asks for, in order: each as its crate and its path."""
    [path] = (folder / crate).glob(f"**/Rattle-{crate}-proofs/TheLink.antt")
    text = path.read_text()
    modules = {short or "Symbol": module for module, short in re.findall(r"(?m)^use (Rattle\.\S+)\.Symbol(?: as (\S+))?$", text)}
    below = text[text.index("abbrev pub Below"):].split("\n\n")[0]
    for short in re.findall(r"Bool\.true ([^\s.]+)\.code", below):
        yield re.match(r"Rattle\.(\w+)\.proofs\.(.*)", modules[short]).groups()


def law(function):
    return "linked-" + function.replace(".", "-")


def handed_on(crate, functions):
    lines = [
        "-- What leaves the crate for a link: the table of its functions' code, what the table asks of the crates below, and that a world with both has",
        "-- the code of each function that is called from above. By what the kit generates, which the crate alone can name. Assumes nothing.",
        "use prog.Linked.{Tree, World, Holds, in_world}",
    ]
    if functions:
        lines += ["use mathlib.Core.Bool.{true}", "use prog.LinkedThreads.{HasT}"]
    lines += [f"use Rattle.{crate}.proofs.TheLink as link"]
    lines += [f"use Rattle.{crate}.proofs.{function}.Symbol as {function.replace('.', '-')}" for function in sorted(functions)]
    lines += ["", "abbrev pub table : Tree", "table = link.table", "", "abbrev pub Below : World → Type 0", "Below = link.Below", ""]
    for function in sorted(functions):
        lines += [
            f'pub {law(function)} : (W : World) → Holds W "{crate}" table → Below W → HasT (in_world W) true {function.replace(".", "-")}.code',
            f"{law(function)} = link.linked-{crate}::{function.replace('.', '::')}",
            "",
        ]
    return "\n".join(lines) if functions else "\n".join(lines).replace(", Holds, in_world}", "}")


def dashed(crate):
    return crate.replace("_", "-")


def there(crate, function):
    return f"{crate}.{law(function)} crates {dashed(crate)}-there {dashed(crate)}-below"


def program(asked):
    lines = [
        "-- A program that has the clock's code: the world of the crates that the clock is made of, each with the table that leaves it. Assumes nothing.",
        "use Prim.{Unit}",
        "use mathlib.Core.Bool.{true}",
        "use mathlib.Core.Path.{refl}",
        "use mathlib.Core.List.{[], ◌∷◌}",
        "use lib.Chars.{codes}",
        "use prog.Linked.{World, Holds, in_world}",
        "use prog.LinkedThreads.{tie_t, tie_t-follows, tie_t-threads, HasT, has-wired_t}",
        "use prog.Routine.{Env}",
        "use prog.Wired.{Code, Wired}",
    ]
    lines += [f"use Rattle.{crate}.proofs.Linked as {crate}" for crate in CRATES]
    lines += [f"use Rattle.{crate}.proofs.{function}.Symbol as {name}_code" for name, crate, function in RUN]
    lines += ["use Rattle.claim_runs.specs.Accepted.{HasTheClock}", ""]
    lines += ["abbrev crates : World", "crates =", "    " + "\n    ∷ ".join(f'(codes "{crate}", {crate}.table)' for crate in CRATES) + "\n    ∷ []", ""]
    for crate in CRATES:
        lines += [f'{dashed(crate)}-there : Holds crates "{crate}" {crate}.table', f"{dashed(crate)}-there = refl", ""]
        parts = [there(below, function) for below, function in asked[crate]]
        proof = "tt"
        for part in reversed(parts):
            proof = f"({part}, {proof})"
        lines += [f"{dashed(crate)}-below : {crate}.Below crates", f"{dashed(crate)}-below = {proof}", ""]
    lines += [
        "-- at a call of a name it runs the code of the function of that name",
        "abbrev pub clock_program : Env",
        "clock_program = tie_t (in_world crates)",
        "",
        "wired : (c : Code) → HasT (in_world crates) true c → Wired clock_program c",
        "wired = has-wired_t (in_world crates) clock_program (tie_t-follows (in_world crates)) (tie_t-threads (in_world crates))",
        "",
        "pub has-the-clock : HasTheClock clock_program",
        "has-the-clock =",
        "    record {",
    ]
    lines += [f"      {name} = wired {name}_code.code ({there(crate, function)});" for name, crate, function in RUN]
    return "\n".join(lines + ["    }", ""])


def main():
    if len(sys.argv) != 2:
        sys.exit(__doc__)
    folder = pathlib.Path(sys.argv[1])
    asked = {crate: list(called(folder, crate)) for crate in CRATES}
    functions = {crate: {function for name, owner, function in RUN if owner == crate} for crate in CRATES}
    for parts in asked.values():
        for crate, function in parts:
            functions[crate].add(function)
    for crate in CRATES:
        (kit.ROOT / "crates" / crate / "proofs" / "Linked.antt").write_text(handed_on(crate, functions[crate]))
        names = kit.ROOT / "crates" / crate / "proofs" / "Lib.antt"
        text = names.read_text() if names.exists() else "-- What other crates cite.\n"
        if "pub mod Linked" not in text:
            names.write_text(text.rstrip("\n") + "\npub mod Linked\n")
    (kit.ROOT / "crates" / "claim_runs" / "proofs" / "Program.antt").write_text(program(asked))


if __name__ == "__main__":
    main()
