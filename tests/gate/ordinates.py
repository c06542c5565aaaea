#!/usr/bin/env python3
"""Compares the ordinates of web mercator with the logarithm that they stand for, by 30 digits.

Usage: ordinates.py [LATITUDES [SEED]]

The numbers of crates/mercator/src/table.rt are worked out anew, and then the ordinates of LATITUDES random latitudes up
to 85.06 degrees (100,000), by the rule of docs/DRAWING.md. The greatest difference, at most 0.563 millionths of a degree
of the equator, is printed. The script ends with 1 where a number of the table isn't the nearest, or the difference is
greater. It takes some seconds, and needs no program.

Gate: 3 s
"""
import decimal
import math
import pathlib
import random
import sys

sys.path.insert(0, str(pathlib.Path(__file__).resolve().parents[1] / "lib"))

from ordinate_table import STEP, by_rule, read_table

PARTS, LAST, MOST = 16, 85_060_000, decimal.Decimal("0.563")
decimal.getcontext().prec = 36
PI = decimal.Decimal("3.14159265358979323846264338327950288419716939937510")
DEGREES = 180_000_000 / PI


def sine(angle):
    """The sine of an angle below 2, by its series."""
    term = total = angle
    for count in range(2, 100, 2):
        term *= -angle * angle / (count * (count + 1))
        total += term
        if abs(term) < decimal.Decimal("1e-36"):
            break
    return total


def exact(latitude):
    """The ordinate of so many millionths of a degree by the logarithm, in millionths of a degree of the equator."""
    # tan(pi / 4 + phi / 2) is the root of (1 + sin phi) / (1 - sin phi)
    height = sine(latitude / DEGREES)
    return ((1 + height) / (1 - height)).ln() / 2 * DEGREES


def near(latitude):
    """The same as `exact`, by floats, which say where to look."""
    return math.asinh(math.tan(math.radians(latitude / 1e6))) * 180e6 / math.pi


def main():
    count = int(sys.argv[1]) if len(sys.argv) > 1 else 100_000
    chosen = random.Random(int(sys.argv[2]) if len(sys.argv) > 2 else 1)
    table = read_table()
    wrong = [at for at, number in enumerate(table) if number != round(exact(STEP * at) * PARTS)]
    latitudes = (chosen.randint(0, LAST) for _ in range(count))
    worst = sorted(latitudes, key=lambda latitude: abs(by_rule(table, latitude) - near(latitude)))[-20:]
    most = max((abs(by_rule(table, latitude) - exact(latitude)) for latitude in worst), default=0)
    print(f"{len(table):,} numbers, of which {len(wrong)} aren't the nearest")
    print(f"{count:,} latitudes: at most {float(most):.4f} millionths off, {float(most) * 0.11131949:.4f} m")
    return 1 if wrong or most > MOST else 0


if __name__ == "__main__":
    sys.exit(main())
