#!/usr/bin/env python3
"""Times Grid and Boxes beside a plain list of boxes, each with a check of its answers.

It copies geom, collide and gridindex to a folder of its own, adds the program of box_search.rt.txt as a crate
beside them, and has rt prove, build and run it: two to four minutes. It ends with 1 if an answer is wrong.

A line of the table has the index; how boxes lie; how many there are; microseconds to build the index;
nanoseconds for a query of the index, and of the list; what 1,000 queries found, indices with Grid and hits
with Boxes; and whether both found the same.
"""
import pathlib
import subprocess
import sys
import tempfile

sys.path.insert(0, str(pathlib.Path(__file__).resolve().parent / "lib"))

from programs import laid

USED = ("geom", "collide", "gridindex")


def main():
    with tempfile.TemporaryDirectory() as folder:
        crate = laid(folder, "box_search.rt.txt", USED)
        built = subprocess.run(["rt", "run"], cwd=crate, stdout=subprocess.PIPE, stderr=subprocess.STDOUT)
        lines = built.stdout.decode().splitlines()
    rows = [line.split() for line in lines if line.split(" ")[0] in ("index", "Grid", "Boxes")]
    for row in rows:
        print(" ".join(f"{word:>10}" for word in row))
    if built.returncode or len(rows) != 19 or any(row[-1] != "same" for row in rows[1:]):
        print("\n".join(lines[-20:]), file=sys.stderr)
        sys.exit(1)


main()
