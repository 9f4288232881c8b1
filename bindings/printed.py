"""Compares what an example wrote with the manual's printed turns of the first day: python3 bindings/printed.py SAMPLE < OUTPUT"""

import json
import re
import sys


def main():
    with open(sys.argv[1]) as file:
        turns = json.load(file)["prediction"]["turns"]
    printed = [("%02d:%02d" % divmod(turn["minute"], 60), turn["kind"]) for turn in turns if turn["minute"] < 1440]
    output = sys.stdin.read()
    written = re.findall(r"^(\d\d:\d\d)  (high|low) ", output, re.M)
    if written != printed or not printed:
        sys.exit("the example has %s, the manual %s" % (written, printed))
    if "refusal 6 at 147, " not in output or "the clock goes on: " not in output:
        sys.exit("the example does not play the incident")
    print("the three examples write the same: the manual's %d turns of the first day, and a refused update" % len(printed))


if __name__ == "__main__":
    main()
