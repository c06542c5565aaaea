#!/usr/bin/env python3
"""Times the reading of a BDF font, after reading its glyphs in another way. Usage: font_reading.py FONT

It copies geom, mapdefs and bdffont to a folder of its own, adds the program of font_reading.rt.txt as a crate
beside them, and has rt prove, build and run it: some minutes. It prints the median of nine readings and ends
with 1 if the number of glyphs is another than that of the encodings in the file.
"""
import pathlib
import re
import statistics
import subprocess
import sys
import tempfile

sys.path.insert(0, str(pathlib.Path(__file__).resolve().parent / "lib"))

from programs import laid

USED = ("geom", "mapdefs", "bdffont")


def main():
    font = pathlib.Path(sys.argv[1]).read_bytes()
    encodings = set(re.findall(rb"^ENCODING (\d+)", font, re.MULTILINE))
    with tempfile.TemporaryDirectory() as folder:
        crate = laid(folder, "font_reading.rt.txt", USED)
        built = subprocess.run(["rt", "run"], cwd=crate, input=font, stdout=subprocess.PIPE, stderr=subprocess.STDOUT)
        lines = built.stdout.decode(errors="replace").splitlines()
    rows = [line.split() for line in lines if line.startswith("font ")]
    if len(rows) != 9 or any(int(row[1]) != len(encodings) for row in rows):
        print("\n".join(lines[-20:]), file=sys.stderr)
        sys.exit(1)
    print(f"{len(encodings)} glyphs: {statistics.median(int(row[3]) for row in rows)} microseconds")


main()
