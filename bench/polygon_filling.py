#!/usr/bin/env python3
"""Measures how long the filling of polygons takes, by the processor's time of the built program.

Usage: polygon_filling.py PROGRAM WORLD [PICTURES]

WORLD is a mapfile with a layer "countries", whose outlines are left out: line_drawing.py measures them. Words
of it that the program refuses are left out too, and printed.
Of each workload the time of as many pictures of an empty layer in the same session is taken away, so that
what is left is the painting alone: not the reading of the map, nor the hexadecimal.
"""
import pathlib
import subprocess
import sys
import tempfile

sys.path.insert(0, str(pathlib.Path(__file__).resolve().parent / "lib"))

from timed import SQUARE, Sessions, query, run, small_squares, with_empty_layer


def without(lines, word):
    """The lines without those that begin with the word, and without the blocks that it opens."""
    kept, depth = [], 0
    for line in lines:
        words = line.split()
        opens = len(words) == 1 and words[0].isupper() and words[0] != "END"
        if depth > 0:
            depth += opens - (words == ["END"])
        elif words[:1] == [word]:
            depth = int(opens)
        else:
            kept.append(line)
    return kept


def accepted(program, path):
    """The layer of countries without the keywords that the program refuses."""
    with open(path) as file:
        countries, *rivers = file.read().split('NAME "rivers"')
    if rivers:
        print("left out: the layer of rivers, which are no polygons")
        countries = countries.rsplit("LAYER", 1)[0] + "END\n"
    lines = without(with_empty_layer(countries).splitlines(keepends=True), "OUTLINECOLOR")
    while True:
        with tempfile.NamedTemporaryFile("w", suffix=".map") as file:
            file.write("".join(lines))
            file.flush()
            done = subprocess.run([program, "check", file.name], capture_output=True, text=True)
        words = (done.stdout + done.stderr).split()
        if words[:2] != ["fault", "line"]:
            print(" ".join(words))
            return "".join(lines)
        word = lines[int(words[2]) - 1].split()[0]
        if word in ("MAP", "LAYER", "FEATURE", "POINTS", "END"):
            sys.exit(f"failed: {' '.join(words)}")
        print(f"left out: {word}")
        lines = without(lines, word)


def features(rings):
    out = ['MAP\nLAYER\nNAME "a"\nTYPE POLYGON\nCLASS\nSTYLE\nCOLOR 10 20 30\nEND\nEND\n']
    for ring in rings:
        out.append("FEATURE\nPOINTS\n")
        out.extend(f"{x:.6f} {y:.6f}\n" for x, y in ring)
        out.append("END\nEND\n")
    out.append("END\nEND\n")
    return with_empty_layer("".join(out))


def long_ring():
    """A square whose left side has 65,533 vertices."""
    side = [(1, 3 - 0.00003 * k) for k in range(65_533)]
    return [side + [(1, 1), (3, 1), (3, 3)]]


def check_square(program, mapfile):
    """Asserts that exactly the columns and the rows 512 to 1,535 are painted."""
    with tempfile.TemporaryFile() as out:
        run(program, mapfile + "%%\n" + query(",".join(["a"] * 64), SQUARE, 2048, 2048), out)
        out.seek(0)
        body = bytes.fromhex("".join(out.read().decode().split("\n")[1:]))
    pixels = body[-3 * 2048 * 2048 :]
    line = b"\xff" * (3 * 512) + bytes([10, 20, 30]) * 1024 + b"\xff" * (3 * 512)
    rows = b"\xff" * (3 * 2048 * 512)
    if pixels != rows + line * 1024 + rows:
        sys.exit("failed: another square is painted")
    print("the long ring paints the columns and rows 512 to 1,535")


def main():
    program, path = sys.argv[1:3]
    sessions = Sessions(program, int(sys.argv[3]) if len(sys.argv) > 3 else 20)
    world = accepted(program, path)
    for width, height in [(2048, 1024), (1024, 512), (256, 256)]:
        sessions.measure(f"countries, {width} by {height}", world, query("countries", "-180,-90,180,90", width, height))
    sessions.measure("countries, off the view", world, query("countries", "500,500,501,501", 2048, 1024))
    ring = features(long_ring())
    check_square(program, ring)
    sessions.measure("64 rings of 65,536 vertices, 2048 by 2048", ring, query(",".join(["a"] * 64), SQUARE, 2048, 2048), 1)
    squares = features(small_squares(20_000))
    sessions.measure("20,000 small squares, 2048 by 2048", squares, query("a", SQUARE, 2048, 2048))
    sessions.measure("20,000 small squares, off the view", squares, query("a", "500,500,504,504", 2048, 2048))
    sessions.measure("20,000 squares smaller than a pixel, 256 by 256", squares, query("a", SQUARE, 256, 256))


if __name__ == "__main__":
    main()
