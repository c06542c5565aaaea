#!/usr/bin/env python3
"""Asks all workers at once for smoothed pictures of noise, where not all of them fit into memory.

Usage: noise.py PROGRAM [SIDE [WORKERS [MEGABYTES [ROUNDS]]]]

Each pixel of a picture differs from its neighbours: its fine pixels are those of 64 pixmaps of noise, over small polygons that
share their edges. Pictures of SIDE by SIDE pixels (2048), smoothed by 4, are asked for as PPM, PNG and PAM by as many clients
as there are WORKERS (8), ROUNDS times (6), while the server gets so many MEGABYTES of address space (160) more than it had
after one of each. An answer has to be 503, or the picture that is worked out here: the mean of each 4 by 4 fine pixels. A
client alone gets its picture before that, and after that without the bound. Each worker draws each kind within four rounds:
after the last round the server takes no more memory than after the fourth but for 8 MB. SIDE is a multiple of 64. It prints
how many answers were right, and how many 503, and ends with 1 where one is neither.

Gate: PROGRAM 512 8 4 2; 20 s
"""
import http.client
import os
import pathlib
import random
import re
import resource
import subprocess
import sys
import tempfile
import threading

sys.path.insert(0, str(pathlib.Path(__file__).resolve().parents[1] / "lib"))

from served import ports_of
from smoothing import mean, pixels_of

FACTOR, STAMP = 4, 256
CELLS = STAMP // FACTOR
SYMBOLS = 64
GROUND, NOTHING = (10, 200, 30), (255, 0, 255)
# The layers and the format of a picture, and whether polygons lie below the noise.
ASKED = [("lattice,noise", "image/x-portable-pixmap", True), ("noise", "image/png", False), ("noise", "image/x-portable-arbitrarymap", False), ("lattice,noise", "image/png", True)]
GROWTH = 8


def noise(rng):
    """The rows of a pixmap in which every fourth pixel is nothing, at random."""
    return [[NOTHING if rng.random() < 0.25 else tuple(rng.randrange(256) for _ in range(3)) for _ in range(STAMP)] for _ in range(STAMP)]


def averaged(rows, ground):
    """The rows of a stamp as the picture has them, as red, green, blue and alpha: nothing is the ground, where there is one."""
    below = bytes((*ground, 255)) if ground else bytes(4)
    pixels = [[below if pixel == NOTHING else bytes((*pixel, 255)) for pixel in row] for row in rows]
    cells = lambda i, j: [pixels[FACTOR * j + down][FACTOR * i + across] for down in range(FACTOR) for across in range(FACTOR)]
    return [b"".join(mean(cells(i, j)) for i in range(CELLS)) for j in range(CELLS)]


def degrees(fine):
    """Where a fine pixel begins: a thousandth of a degree is one."""
    return f"{fine / 1000:.6f}"


def lattice(rng, side):
    """Polygons of one colour that share their edges, some pixels beyond the picture, each with a jagged outline."""
    step = 64 * FACTOR
    knots = {(i, j): (step * i + rng.uniform(-90, 90), step * j + rng.uniform(-90, 90)) for i in range(-1, side // 64 + 2) for j in range(-1, side // 64 + 2)}
    for i, j in knots:
        corners = [(i, j), (i + 1, j), (i + 1, j + 1), (i, j + 1)]
        if all(corner in knots for corner in corners):
            yield "FEATURE POINTS " + " ".join(f"{degrees(x)} {degrees(y)}" for x, y in (knots[corner] for corner in corners)) + " END END\n"


def stamps(chosen, side):
    """A point in the middle of each stamp: the number of its symbol, from the north on."""
    for (column, row), number in chosen.items():
        x, y = STAMP * column + STAMP / 2 + 0.5, FACTOR * side - STAMP * row - STAMP / 2 - 0.5
        yield f'FEATURE ITEMS "{number}" POINTS {degrees(x)} {degrees(y)} END END\n'


def write_map(folder, side, chosen, symbols, rng):
    for number, rows in enumerate(symbols):
        pixels = bytes(part for row in rows for pixel in row for part in pixel)
        (folder / f"{number}.ppm").write_bytes(b"P6 %d %d 255\n" % (STAMP, STAMP) + pixels)
    blocks = "".join(f'SYMBOL NAME "s{number}" TYPE PIXMAP IMAGE "{number}.ppm" END\n' for number in range(len(symbols)))
    classes = "".join(f'CLASS EXPRESSION "{number}" STYLE SYMBOL "s{number}" END END\n' for number in range(len(symbols)))
    layers = f"LAYER NAME lattice TYPE POLYGON CLASS STYLE COLOR {' '.join(map(str, GROUND))} END END\n{''.join(lattice(rng, side))}END\n"
    layers += f'LAYER NAME noise TYPE POINT PROCESSING "ITEMS=n" CLASSITEM n\n{classes}{"".join(stamps(chosen, side))}END\n'
    (folder / "noise.map").write_text(f'MAP CONFIG WMS_SMOOTHING {FACTOR} CONFIG WMS_FORMATS "image/png"\n{blocks}{layers}END\n')


class Expected:
    """The pixels of whole pictures, worked out once for each ground."""

    def __init__(self, chosen, symbols, side):
        self.chosen, self.symbols, self.side, self.found, self.seen = chosen, symbols, side, {}, {}

    def picture(self, ground):
        if ground not in self.found:
            tiles, count = [averaged(rows, ground) for rows in self.symbols], self.side // CELLS
            rows = (b"".join(tiles[self.chosen[column, row]][at] for column in range(count)) for row in range(count) for at in range(CELLS))
            self.found[ground] = b"".join(rows)
        return self.found[ground]

    def is_right(self, body, ground):
        """Whether a body is the picture; a body that was looked at before isn't read again."""
        key = hash(body), ground
        if key not in self.seen:
            self.seen[key] = pixels_of(body) == (self.side, self.side, self.picture(ground))
        return self.seen[key]


class Client(threading.Thread):
    """A client that asks for one picture over a connection of its own."""

    def __init__(self, port, side, layers, form):
        super().__init__()
        self.connection, self.status, self.body, self.fault = http.client.HTTPConnection("127.0.0.1", port, timeout=300), None, b"", None
        sides, ground = f"0,0,{degrees(FACTOR * side)},{degrees(FACTOR * side)}", "BGCOLOR=0x000000" if "lattice" in layers else "TRANSPARENT=TRUE"
        self.query = f"/wms?VERSION=1.3.0&REQUEST=GetMap&LAYERS={layers}&STYLES=&CRS=CRS:84&BBOX={sides}&WIDTH={side}&HEIGHT={side}&FORMAT={form}&{ground}"
        self.connection.connect()

    def run(self):
        try:
            self.connection.request("GET", self.query)
            answer = self.connection.getresponse()
            self.status, self.body = answer.status, answer.read()
        except OSError as fault:
            self.fault = fault
        self.connection.close()


def megabytes_of(process, what):
    """The memory of a process: VmRSS is what is resident, VmSize its address space."""
    with open(f"/proc/{process.pid}/status") as status:
        return int(re.search(rf"{what}:\s+(\d+)", status.read())[1]) / 1024


def bound(process, megabytes):
    """Gives a process so many megabytes of address space beyond those that it has; without a number as many as it takes."""
    most = resource.RLIM_INFINITY if megabytes is None else int(megabytes_of(process, "VmSize") + megabytes) << 20
    resource.prlimit(process.pid, resource.RLIMIT_AS, (most, resource.RLIM_INFINITY))


class Trial:
    def __init__(self, port, side, expected):
        self.port, self.side, self.expected, self.right, self.refused, self.wrong = port, side, expected, 0, 0, []

    def ask(self, kinds, may_refuse):
        """Asks for pictures of these kinds at once."""
        clients = [Client(self.port, self.side, layers, form) for layers, form, _ in kinds]
        for client in clients:
            client.start()
        for client in clients:
            client.join()
        for client, (layers, form, is_grounded) in zip(clients, kinds):
            if client.status == 503 and may_refuse:
                self.refused += 1
            elif client.status == 200 and self.expected.is_right(client.body, GROUND if is_grounded else None):
                self.right += 1
            else:
                self.wrong.append(f"{layers} as {form}: {client.status} {client.fault or client.body[:100]!r}")


def tried(process, trial, numbers):
    (_, workers, megabytes, rounds), after = numbers, []
    for kind in ASKED:
        trial.ask([kind], False)
    bound(process, megabytes)
    for turn in range(rounds):
        trial.ask([ASKED[(turn + number) % len(ASKED)] for number in range(workers)], True)
        after.append(megabytes_of(process, "VmRSS"))
    bound(process, None)
    for kind in ASKED:
        trial.ask([kind], False)
    if process.poll() is not None:
        trial.wrong.append(f"the server ended with {process.returncode}")
    elif after[-1] > after[min(len(ASKED), rounds) - 1] + GROWTH:
        trial.wrong.append(f"{after[len(ASKED) - 1]:.0f} MB after the fourth round, {after[-1]:.0f} after the last one")
    print(f"{trial.right} pictures were right, {trial.refused} times 503, {after[-1]:.0f} MB resident after the last round")
    return trial.wrong


def main():
    if not 2 <= len(sys.argv) <= 6:
        sys.exit(__doc__.split("\n")[2])
    numbers = [int(sys.argv[at + 2]) if len(sys.argv) > at + 2 else default for at, default in enumerate((2048, 8, 160, 6))]
    side, rng = numbers[0], random.Random(7)
    count = side // CELLS
    chosen = {(column, row): rng.randrange(SYMBOLS) for column in range(count) for row in range(count)}
    used = sorted({*chosen.values()})
    chosen, symbols = {at: used.index(number) for at, number in chosen.items()}, [noise(rng) for _ in used]
    with tempfile.TemporaryDirectory() as name:
        write_map(pathlib.Path(name), side, chosen, symbols, rng)
        words = [os.path.abspath(sys.argv[1]), "serve", "noise.map", "--port", "0", "--admin-port", "0", "--workers", str(numbers[1])]
        with subprocess.Popen(words, cwd=name, stdout=subprocess.PIPE) as process:
            try:
                found = ports_of(process.stdout.readline())
                wrong = tried(process, Trial(found[0], side, Expected(chosen, symbols, side)), numbers) if found else ["the server doesn't listen"]
            finally:
                process.kill()
    for line in wrong:
        print(line)
    sys.exit(1 if wrong else 0)


if __name__ == "__main__":
    main()
