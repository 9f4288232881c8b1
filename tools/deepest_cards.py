"""Writes the card file that leads the reader deepest: 64 mains with four satellites each, so that every constituent card leads to two
satellite cards and these to the next constituent card."""

MAINS = 64


def main():
    names = ["M%02d" % k for k in range(MAINS)]
    lines = ["    %-5s   %13.10f" % (name, 0.01) for name in names] + [""]
    lines += ["%13.10f" % 0.5 * 5, "%13.10f" % 1 * 5]
    satellite = "%3d%3d%3d%4s%7.4f %s " % (1, 0, 0, ".00", 0.01, "1")
    for name in names:
        lines.append("      %-5s %s%5s%4d" % (name, "%3d" % 1 * 6, ".00", 4))
        lines.append(" " * 11 + satellite * 3)
        lines.append(" " * 11 + satellite)
    lines += ["", ""]
    print("\n".join(lines))


if __name__ == "__main__":
    main()
