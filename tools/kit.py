"""The crates of this repository, and the prover's commands for one of them."""

import pathlib
import subprocess

ROOT = pathlib.Path(__file__).resolve().parent.parent
PARTS = ("src", "specs", "proofs")


def home():
    """The Rattle kit's folder."""
    guide = subprocess.run(["rt", "doc"], capture_output=True, text=True, check=True).stdout.strip()
    return pathlib.Path(guide).parent


def listed():
    """The lines of crates.txt: a crate's name, what may stand behind it (`staticlib`), and what it stands on."""
    for line in (ROOT / "crates.txt").read_text().splitlines():
        name, colon, deps = line.split("#")[0].partition(":")
        if colon:
            name, *kind = name.split()
            yield name, kind, deps.split()


def crates():
    """The crates of crates.txt, each with what it stands on."""
    return {name: deps for name, _, deps in listed()}


def is_archive(name):
    """Whether a crate is a static library."""
    return any(name == one and "staticlib" in kind for one, kind, _ in listed())


def below(name):
    """The repository's crates below one, each after those that it stands on."""
    known, found = crates(), []
    for dep in known[name]:
        if dep in known:
            found += [one for one in [*below(dep), dep] if one not in found]
    return found


def documents():
    """The documents of this repository."""
    folders = (".", "docs", "docs/landings", "bench", "bindings", "data", "second")
    return [path for folder in folders for path in sorted((ROOT / folder).glob("*.md"))]


def library(name):
    """The built library of a crate of this repository."""
    return ROOT / "crates" / name / "out" / "rlib" / f"{name}.rlib"


def inputs(name):
    """The files that a crate's proof reads, those of the crates below it too."""
    for one in [*below(name), name]:
        for part in PARTS:
            yield from (path for path in (ROOT / "crates" / one / part).rglob("*") if path.is_file())


def is_fresh(made, name):
    """Whether something is there and newer than all that crate `name` is made of."""
    return made.exists() and made.stat().st_mtime > max(path.stat().st_mtime for path in inputs(name))


def words(verb, name):
    """The words of a check (or build) of crate `name`, whose src/, specs/ and proofs/ stand in the folder that it is run in, over the built crates below it."""
    kit, mine = home(), crates()
    root = "src/main.rt" if (ROOT / "crates" / name / "src" / "main.rt").exists() else "src/lib.rt"
    said = [kit / "bin" / "rattle", verb, "--crate-name", name, root, "--extern", f"std={kit}/rlibs/std.rlib"]
    said += [word for dep in mine[name] if dep not in mine for word in ("--extern", f"{dep}={kit}/rlibs/{dep}.rlib")]
    said += ["-L", f"dependency={kit}/rlibs"]
    said += [word for dep in mine[name] if dep in mine for word in ("--extern", f"{dep}={library(dep)}")]
    said += [word for dep in below(name) for word in ("-L", f"dependency={library(dep).parent}")]
    said += ["--antt-project", kit / "rattle" / "logic" / "antt-project.json", "--logic-built", kit / "logic_built", "--jobs", "1", "--links", f"{name}="]
    said += ["--crate-type", "staticlib"] if is_archive(name) else []
    return [str(word) for word in said]


def check(name):
    """The words of a check of crate `name`."""
    return words("check", name)
