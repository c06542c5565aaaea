"""Workloads of the built program, and what runs of them take: pictures, labels, batches and reading."""
import csv
import json
import os
import pathlib
import subprocess
import sys

sys.path.insert(0, str(pathlib.Path(__file__).resolve().parents[2] / "tests" / "lib"))

import labelling
from labelling import Label
from painting import Picture, micro

DEMO = pathlib.Path(__file__).resolve().parents[2] / "demo"
SIZES = [(2048, 1024), (1024, 512), (256, 128)]
EARTH = (-180_000_000, -90_000_000, 180_000_000, 90_000_000)
# Some 300 of 43,645.
LABELLED = (2_000_000, 30_000_000, 24_300_000, 52_300_000)
COLOUR, OTHER = (10, 20, 30), (40, 50, 60)

# Runs a command from a small process, whose own memory would else be counted: the peak is that of the
# program, or this process's own 10 MB where that is more.
CHILD = """
import json, os, sys
pid = os.fork()
if pid == 0:
    out = os.open(sys.argv[1], os.O_WRONLY | os.O_CREAT | os.O_TRUNC)
    os.dup2(out, 1)
    os.execv(sys.argv[2], sys.argv[2:])
_, status, usage = os.wait4(pid, 0)
print(json.dumps([status, usage.ru_utime + usage.ru_stime, usage.ru_maxrss]))
"""


class Workload:
    """Runs of the program that are repeated, and what they took."""

    def __init__(self, name, count, words, without=None):
        self.name, self.count, self.words, self.without = name, count, words, without
        self.times, self.peaks = [], []


class Bench:
    """A folder with maps and scripts, and the program that reads them."""

    def __init__(self, program, folder):
        self.program, self.folder, self.workloads = os.path.abspath(program), folder, []

    def path(self, name, content):
        """Writes a file of the folder, and gives its path."""
        path = os.path.join(self.folder, name)
        with open(path, "wb") as file:
            file.write(content if isinstance(content, bytes) else content.encode())
        return path

    def run(self, *words, out=os.devnull):
        """The seconds of processor and the megabytes of a run, whose output goes to a file."""
        command = [sys.executable, "-I", "-S", "-c", CHILD, out, self.program, *words]
        usage = subprocess.run(command, stdout=subprocess.PIPE, check=True).stdout
        status, seconds, kilobytes = json.loads(usage)
        if status != 0:
            sys.exit(f"failed: status {status} of {words}")
        return seconds, kilobytes / 1024

    def written(self, *words):
        """What a run writes."""
        out = os.path.join(self.folder, "out")
        self.run(*words, out=out)
        with open(out) as file:
            return file.read()

    def measure(self, runs):
        """Runs all workloads in turn, so often, so that a slow minute of the machine falls on each."""
        for _ in range(runs):
            for work in self.workloads:
                seconds, peak = self.run(*work.words)
                without = self.run(*work.without)[0] if work.without else 0
                work.times.append(1000 * (seconds - without) / work.count)
                work.peaks.append(peak)

    def pictures(self, name, mapfile, layer, box, size, count, picture):
        """Work: one picture, of which the script asks for so many. The first is compared with `picture`."""
        number = len(self.workloads)
        full = self.path(f"full{number}.script", query(layer, box, size) * count)
        bare = self.path(f"bare{number}.script", query("nothing", box, size) * count)
        path = self.path(f"bench{number}.map", with_empty_layer(mapfile))
        self.compare(name, path, layer, box, size, picture)
        self.workloads.append(Workload(f"{name}, {size[0]} by {size[1]}", count, ("run", path, full), ("run", path, bare)))

    def compare(self, name, path, layer, box, size, picture):
        """Ends the script where the program draws another picture."""
        script = self.path("one.script", query(layer, box, size))
        _, body = self.written("run", path, script).split("\n", 1)
        pixels = bytes.fromhex(body.replace("\n", ""))[len(f"P6\n{size[0]} {size[1]}\n255\n") :]
        if pixels != picture.bytes():
            sys.exit(f"failed: {name}, {size}: another picture")

    def labels(self, name, font, features, labels, box, size, count):
        """Work: one picture of labels alone, whose features are places, texts and which of the labels is theirs."""
        number = len(self.workloads)
        rows = "".join(f"{degrees(x)},{degrees(y)},{quoted(text)},{rank}\n" for (x, y), text, rank in features)
        self.path(f"labels{number}.csv", "x,y,name,rank\n" + rows)
        classes = "".join(f'CLASS\nEXPRESSION "{rank}"\n{label.words()}END\n' for rank, label in enumerate(labels))
        text = (
            f'MAP\nCONFIG "LABELFONT" "font.bdf"\nLAYER\nNAME "a"\nTYPE POINT\nDATA "labels{number}.csv"\n'
            f'CLASSITEM "rank"\nLABELITEM "name"\n{classes}END\nEND\n'
        )
        picture = Picture(box, size)
        anchors = labelling.anchors_in(picture, [place for place, _, _ in features])
        shown = [(text, anchor, labels[rank]) for anchor, (_, text, rank) in zip(anchors, features) if anchor]
        placed = labelling.place({None: font}, size, shown)
        labelling.paint(picture, {None: font}, placed)
        self.pictures(f"{name}, {len(placed):,} placed", text, "a", box, size, count, picture)

    def batches(self, name, mapfile, text, count):
        """Work: one batch, of which a script has so many more than another."""
        number = len(self.workloads)
        command = f"BATCH {len(text)}\n{text}"
        many = self.path(f"many{number}.script", command * (count + 1))
        one = self.path(f"one{number}.script", command)
        output = self.written("run", mapfile, many)
        if output != "".join(f"PUBLISHED {k + 1}\n" for k in range(count + 1)):
            sys.exit(f"failed: {name}: {output[:200]}")
        self.workloads.append(Workload(name, count, ("run", mapfile, many), ("run", mapfile, one)))

    def reading(self, count):
        """Work: `check` of a map with so many vertices."""
        lines = ['MAP\nLAYER\nNAME "a"\nTYPE POLYGON\n']
        for start in range(0, count, 1000):
            numbers = ((k * 7919 % 360_000 / 1000 - 180, k * 104_729 % 180_000 / 1000 - 90) for k in range(start, start + 1000))
            lines.append("FEATURE\nPOINTS\n" + "".join(f"{x:.6f} {y:.6f}\n" for x, y in numbers) + "END\nEND\n")
        path = self.path("large.map", "".join(lines) + "END\nEND\n")
        if self.written("check", path) != f"ok 1 layers {count // 1000} features\n":
            sys.exit("failed: another map was read")
        megabytes = os.path.getsize(path) / 1_000_000
        self.workloads.append(Workload(f"reading a mapfile of {megabytes:.0f} MB, {count:,} vertices", 1, ("check", path)))


def degrees(number):
    return f"{number / 1_000_000:.6f}"


def query(layer, box, size):
    """The line of a script that asks for a picture."""
    sides = ",".join(map(degrees, box))
    return (
        f"QUERY VERSION=1.3.0&REQUEST=GetMap&LAYERS={layer}&STYLES=&CRS=CRS:84&BBOX={sides}"
        f"&WIDTH={size[0]}&HEIGHT={size[1]}&FORMAT=image/x-portable-pixmap\n"
    )


def with_empty_layer(mapfile):
    """The map with a layer of no feature before its last END."""
    return mapfile.rstrip().rsplit("END", 1)[0] + 'LAYER\nNAME "nothing"\nTYPE POLYGON\nEND\nEND\n'


def winding(ring, most):
    """The ring with each edge cut into as many short ones, at most 65,000 in all, which wind as a coast does."""
    cuts, found = min(most, 65_000 // len(ring)), []
    for (ax, ay), (bx, by) in zip(ring, ring[1:] + ring[:1]):
        for k in range(cuts):
            aside = k * 37 % 101 - 50 if k else 0
            x = ax + (bx - ax) * k // cuts - (by - ay) * aside // (50 * cuts)
            y = ay + (by - ay) * k // cuts + (bx - ax) * aside // (50 * cuts)
            found.append((x, y))
    return found


def label_rows(bench, cities):
    """The workloads of labels, those of a table of cities where one is given."""
    font = labelling.Font(DEMO / "6x13.bdf")
    ranked = [Label(priority, COLOUR) for priority in (1, 4, 7, 10)]
    outlined = [Label(priority, COLOUR, OTHER) for priority in (1, 4, 7, 10)]
    apart = [Label(5, COLOUR, distance=100)]
    world = random_labels(43_645)
    bench.labels("43,645 labels", font, world, ranked, EARTH, SIZES[0], 5)
    bench.labels("43,645 labels with an outline", font, world, outlined, EARTH, SIZES[0], 5)
    count = seen([place for place, _, _ in world], LABELLED)
    bench.labels(f"{count} of 43,645 labels", font, world, ranked, LABELLED, (256, 256), 50)
    equal = [(place, "Springfield", 0) for place, _, _ in world[:40_000]]
    bench.labels("40,000 equal labels 100 apart", font, equal, apart, EARTH, SIZES[0], 5)
    point = [((3_000_000, 5_000_000), text, rank) for _, text, rank in world[:40_000]]
    bench.labels("40,000 labels at one point", font, point, ranked, EARTH, SIZES[0], 5)
    if cities:
        bench.labels(f"{len(cities):,} labels of cities", font, cities, ranked[:1], EARTH, SIZES[1], 20)


def random_labels(count):
    """Places, texts of 4 to 20 letters, and one of four ranks."""
    state, found = 41, []

    def below(limit):
        nonlocal state
        state = (state * 6_364_136_223_846_793_005 + 1_442_695_040_888_963_407) % 2**64
        return (state >> 33) * limit >> 31

    for _ in range(count):
        place = (below(360_000_000) - 180_000_000, below(180_000_000) - 90_000_000)
        text = "".join("abcdefghijklmnopqrstuvwxyz"[below(26)] for _ in range(4 + below(17)))
        found.append((place, text, below(4)))
    return found


def read_cities(path):
    """Places, names and the rank of each row of a table of cities."""
    with open(path, encoding="utf-8", newline="") as file:
        return [((micro(row["long"]), micro(row["lat"])), row["name"], 0) for row in csv.DictReader(file)]


def seen(places, box):
    return sum(box[0] <= x < box[2] and box[1] < y <= box[3] for x, y in places)


def quoted(text):
    return '"' + text.replace('"', '""') + '"'
