#!/usr/bin/env python3
"""Times how a table is read, appended to a layer and taken out again. Usage: row_reading.py [ROWS]

It copies geom, mapdefs, csvpoints, gridindex and layers to a folder of its own, adds the program of row_reading.rt.txt
as a crate beside them, and has rt prove, build and run it: some minutes. The table has four columns, of which the
layer has two as items. It prints the median of five turns for each step, the instructions of a turn, as callgrind of
valgrind counts them, and the bytes of the heap for each row at most, by massif. It ends with 1 if a run fails.
"""
import pathlib
import re
import statistics
import subprocess
import sys
import tempfile

sys.path.insert(0, str(pathlib.Path(__file__).resolve().parent / "lib"))

from programs import laid

USED = ("geom", "mapdefs", "csvpoints", "layers")
STEPS = ["reading", "appending", "clearing"]


def degrees(number):
    return f"{number / 1_000_000:.6f}"


def table(count):
    """A table of so many places all over the earth, with a name and a kind each."""
    lines = ["x,y,name,kind"]
    for k in range(count):
        x, y = k * 7_919_017 % 360_000_000 - 180_000_000, k * 104_729_011 % 180_000_000 - 90_000_000
        lines.append(f"{degrees(x)},{degrees(y)},place {k},{'town' if k % 3 else 'village'}")
    return ("\n".join(lines) + "\n").encode()


def ran(words, text, **how):
    return subprocess.run(words, input=text, stdout=subprocess.PIPE, stderr=subprocess.STDOUT, **how).stdout.decode(errors="replace")


def instructions(program, text):
    said = ran(["valgrind", "--tool=callgrind", "--callgrind-out-file=/dev/null", program], text)
    return int(re.search(r"Collected\s*:\s*(\d+)", said).group(1))


def most_heap(folder, program, text):
    ran(["valgrind", "--tool=massif", f"--massif-out-file={folder}/massif", program], text)
    sizes = re.findall(r"^mem_heap_B=(\d+)\nmem_heap_extra_B=(\d+)$", pathlib.Path(folder, "massif").read_text(), re.M)
    return max(int(used) + int(extra) for used, extra in sizes)


def main():
    count = int(sys.argv[1]) if len(sys.argv) > 1 else 100_000
    with tempfile.TemporaryDirectory() as folder:
        crate = laid(folder, "row_reading.rt.txt", USED)
        said = ran(["rt", "run"], table(count), cwd=crate)
        turns = [dict(zip(row.split()[::2], map(int, row.split()[1::2]))) for row in said.splitlines() if row.startswith("reading ")]
        if len(turns) != 5:
            print(said[-2000:], file=sys.stderr)
            sys.exit(1)
        for step in STEPS:
            print(f"{step} {count:,} rows: {statistics.median(turn[step] for turn in turns) / 1000:.1f} ms")
        program = crate / "out" / "rowreading"
        few, many = (instructions(program, table(rows)) for rows in (0, count))
        print(f"a turn: {(many - few) / 5 / count:.0f} instructions a row")
        few, many = (most_heap(folder, program, table(rows)) for rows in (0, count))
        print(f"heap at most: {(many - few) / count:.0f} bytes a row, the table's own included")


main()
