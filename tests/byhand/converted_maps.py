#!/usr/bin/python3
"""Converts mapfiles of MapServer's and compares what is drawn. Usage: converted_maps.py PROGRAM [MAPFILE ..]

Those of tests/mapserver/, which need Debian's r-cran-sf, r-cran-spdata and fonts-dejavu-core, those of Debian's
python3-mapscript, and those that are given go through deploy/convert --smoothing 1 with four views each. It prints what becomes of each,
and ends with 1 where one doesn't go through, or more than 4 % of the pixels of a view differ beyond half-tones.
"""
import glob
import os
import re
import subprocess
import sys
import tempfile

TOP = os.path.dirname(os.path.dirname(os.path.dirname(os.path.realpath(__file__))))
MOST = 4.0


def main():
    if len(sys.argv) < 2:
        sys.exit(__doc__.split("\n")[0])
    found = sorted(glob.glob(os.path.join(TOP, "tests", "mapserver", "*.map")))
    found += sorted(glob.glob("/usr/lib/python3/dist-packages/mapscript/tests/data/*.map")) + sys.argv[2:]
    wrong = 0
    for path in found:
        with tempfile.TemporaryDirectory() as folder:
            words = [os.path.join(TOP, "deploy", "convert"), path, folder, "--open", "--nameless", "--same-scales", "--smoothing", "1", "--compare", "4", "--program", sys.argv[1]]
            ran = subprocess.run(words, capture_output=True, text=True, errors="replace")
        worst = re.search(r"at most ([\d.]+)% of the pixels", ran.stdout)
        counted = re.search(r"\d+ changed, \d+ left out", ran.stdout)
        is_wrong = ran.returncode == 2 or worst is None or float(worst[1]) > MOST
        wrong += is_wrong
        print(f"{path}: {counted[0]}, {worst[0]} of a view differ beyond half-tones" if worst else f"{path}: {ran.stderr.strip()}")
    print(f"{len(found)} mapfiles, {wrong} wrong")
    sys.exit(1 if wrong else 0)


if __name__ == "__main__":
    main()
