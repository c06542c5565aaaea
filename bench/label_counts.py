#!/usr/bin/env python3
"""Counts the instructions of the pictures of labels of table.py, and the bytes of a candidate.

Usage: label_counts.py PROGRAM [CITIES]

Instructions are counted by callgrind of valgrind: those of a script with five equal queries less those of one with
one, divided by four, and less the same of a layer without features, so that it is the labels alone. Each picture is
compared as table.py compares it. The bytes are the peak of a picture for which a layer of 43,645 labels is asked 48
times less that of one for which it is asked 24 times, by the number of further candidates.
"""
import os
import pathlib
import re
import subprocess
import sys
import tempfile

sys.path.insert(0, str(pathlib.Path(__file__).resolve().parents[1] / "tests" / "lib"))
sys.path.insert(0, str(pathlib.Path(__file__).resolve().parent / "lib"))

from labelling import Font, Label
from workloads import Bench, COLOUR, DEMO, EARTH, SIZES, label_rows, query, random_labels, read_cities, with_empty_layer


class Counting(Bench):
    """A folder with maps and scripts, and the program whose instructions are counted."""

    def pictures(self, name, mapfile, layer, box, size, count, picture):
        path = self.path("counted.map", with_empty_layer(mapfile))
        self.compare(name, path, layer, box, size, picture)
        labels, bare = (self.each(path, query(asked, box, size)) for asked in (layer, "nothing"))
        millions = (labels - bare) / 1e6
        print(f"| {name}, {size[0]} by {size[1]} | {millions:.2f} | {millions / 3:.2f} |", flush=True)

    def each(self, mapfile, command):
        """The instructions of one of equal commands."""
        five, one = (self.instructions(mapfile, command * times) for times in (5, 1))
        return (five - one) / 4

    def instructions(self, mapfile, commands):
        out = os.path.join(self.folder, "callgrind")
        script = self.path("counted.script", commands)
        words = ["valgrind", "--tool=callgrind", f"--callgrind-out-file={out}", self.program, "run", mapfile, script]
        done = subprocess.run(words, capture_output=True, text=True)
        if done.returncode != 0:
            sys.exit(f"failed: {done.stderr[-300:]}")
        with open(out) as file:
            return int(re.search(r"^(?:summary|totals): (\d+)", file.read(), re.MULTILINE)[1])


class Asking(Bench):
    """The same folder, in which a layer is asked for several times over."""

    def pictures(self, name, mapfile, layer, box, size, count, picture):
        path = self.path("asked.map", mapfile)
        peaks = []
        for times in (24, 48):
            asked = query(",".join([layer] * times), box, size).replace("STYLES=", "STYLES=" + "," * (times - 1))
            peaks.append(self.run("run", path, self.path("asked.script", asked))[1])
        each = (peaks[1] - peaks[0]) * 1024 * 1024 / (24 * 43_645)
        print(f"\nA candidate takes {each:.0f} bytes.")


def main():
    if len(sys.argv) < 2:
        sys.exit(__doc__.split("\n\n")[1])
    cities = read_cities(sys.argv[2]) if len(sys.argv) > 2 else []
    with tempfile.TemporaryDirectory() as folder:
        counting = Counting(sys.argv[1], folder)
        counting.path("font.bdf", (DEMO / "6x13.bdf").read_bytes())
        print("| Labels | Million instructions | ms at 3 million |\n|---|---|---|")
        label_rows(counting, cities)
        one = [Label(5, COLOUR)]
        font = Font(DEMO / "6x13.bdf")
        features = random_labels(43_645)
        Asking(sys.argv[1], folder).labels("", font, [(p, t, 0) for p, t, _ in features], one, EARTH, SIZES[0], 1)


if __name__ == "__main__":
    main()
