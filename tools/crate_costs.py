#!/usr/bin/env python3
"""What each crate's check costs: seconds and memory, and how many wrong answers the gate tries on it.

    tools/crate_costs.py        a table of every crate, dearest first, as docs/COSTS.md has it

Needs the crates built (`rt ci`, in a checkout that had no crates/*/out). A crate's time is the processor time of one check over the built crates below it; two checks run at a time.
"""
import concurrent.futures
import os
import re
import subprocess
import sys
import tempfile

import kit


def run(command, folder):
    """Seconds of processor time, the peak in MiB and the functions proved of a check, which must succeed."""
    log = tempfile.TemporaryFile()
    child = subprocess.Popen(command, cwd=folder, stdout=log, stderr=subprocess.STDOUT)
    _, status, usage = os.wait4(child.pid, 0)
    log.seek(0)
    said = log.read().decode(errors="replace")
    if status != 0:
        sys.exit(f"{' '.join(command[:4])} .. failed:\n{said[-2000:]}")
    return usage.ru_utime + usage.ru_stime, usage.ru_maxrss / 1024, int(re.search(r"logic=proved functions=(\d+)", said).group(1))


def cost(name):
    """A crate's row: seconds, name, functions, peak, wrong answers."""
    folder = kit.ROOT / "crates" / name
    seconds, peak, functions = run(kit.check(name), folder)
    return seconds, name, functions, peak, len(list((folder / "must-fail").glob("*.edit")))


def table():
    with concurrent.futures.ThreadPoolExecutor(max_workers=2) as pool:
        rows = list(pool.map(cost, kit.crates()))
    print("| crate | functions | check, s | memory, MiB | wrong answers in the gate | theirs, about, s |")
    print("|---|---|---|---|---|---|")
    for seconds, name, functions, peak, edits in sorted(rows, reverse=True):
        print(f"| `{name}` | {functions} | {seconds:.1f} | {peak:.0f} | {edits} | {edits * seconds:.0f} |")
    print(f"| all {len(rows)} | {sum(r[2] for r in rows)} | {sum(r[0] for r in rows):.0f} | | {sum(r[4] for r in rows)} | {sum(r[0] * r[4] for r in rows):.0f} |")


if __name__ == "__main__":
    if len(sys.argv) > 1:
        sys.exit(__doc__)
    table()
