"""The instructions of the built program's scripts, as callgrind of valgrind counts them, and features all over the earth."""
import os
import re
import subprocess
import sys

# Some 50 of 20,000 features that lie all over the earth are in this part of it, or of 200,000 in the lesser one.
TILE = (2_000_000, 40_000_000, 15_000_000, 53_000_000)
POINT_TILE = (2_000_000, 40_000_000, 6_100_000, 44_100_000)


def scattered(count):
    """Places all over the earth."""
    return [(k * 7_919_017 % 360_000_000 - 180_000_000, k * 104_729_011 % 180_000_000 - 90_000_000) for k in range(count)]


def degrees(number):
    return f"{number / 1_000_000:.6f}"


def points(places):
    return " ".join(f"{degrees(x)} {degrees(y)}" for x, y in places)


def box_round(x, y, half):
    return [(x - half, y - half), (x + half, y - half), (x + half, y + half), (x - half, y + half)]


def features(places, shape):
    return "".join(f"FEATURE\nPOINTS {points(shape(x, y, 60_000))} END\nEND\n" for x, y in places)


class Counting:
    """A folder with maps and scripts, and the program whose instructions are counted."""

    def __init__(self, program, folder):
        self.program, self.folder = os.path.abspath(program), folder

    def path(self, name, content):
        """Writes a file of the folder, and gives its path."""
        path = os.path.join(self.folder, name)
        with open(path, "w") as file:
            file.write(content)
        return path

    def instructions(self, mapfile, script):
        """The instructions of a script on a map, and what it wrote."""
        words = ["valgrind", "--tool=callgrind", "--callgrind-out-file=/dev/null", self.program, "run", mapfile, script]
        done = subprocess.run(words, stdout=subprocess.PIPE, stderr=subprocess.PIPE, text=True)
        counted = re.search(r"Collected\s*:\s*(\d+)", done.stderr)
        if done.returncode != 0 or not counted:
            sys.exit(f"failed: status {done.returncode}: {done.stderr[-300:]}")
        return int(counted.group(1)), done.stdout

    def each(self, mapfile, command):
        """What one of the same commands costs, and what the first one is answered."""
        many, _ = self.instructions(mapfile, self.path("many.script", command * 11))
        one, answer = self.instructions(mapfile, self.path("one.script", command))
        return (many - one) / 10, answer


def seen(places, box):
    return sum(box[0] <= x < box[2] and box[1] <= y < box[3] for x, y in places)
