#!/usr/bin/env python3
"""Measures how many requests a server answers with 1, 2 and 4 workers, while nothing changes and while batches are
published without pause, and looks at each picture that it is answered meanwhile (needs wrk).

Usage: workers.py PROGRAM [SECONDS] [BATCHES]

It serves demo/world.map with two layers more, of a point each, and asks for one tile over kept connections, by `wrk` of
four connections and four threads, for SECONDS each time (5 where they aren't given). A batch moves both points, and the
next one moves them back; an administrator sends them as fast as they are answered. Meanwhile two clients of this script
compare each picture that they get with the two that are possible: the tile without the points, and on it two squares
that are painted here. A picture of a state within a batch has one square, or one that was moved and one that wasn't.

Then BATCHES batches (10,000) and ten times as many requests are made by turns, each answer is compared with the one that
is possible, and the memory of the process is compared with what it was after the first tenth. It ends with 1 where a
picture is another one, a batch isn't published, or the memory grew by more than 1 %.
"""
import http.client
import os
import pathlib
import re
import shutil
import socket
import subprocess
import sys
import tempfile
import threading
import time

sys.path.insert(0, str(pathlib.Path(__file__).resolve().parents[1] / "tests" / "lib"))

from served import ports_of

DEMO = pathlib.Path(__file__).resolve().parent.parent / "demo"
COLOURS = {"first": (1, 2, 3), "second": (4, 5, 6)}
LAYER = '  LAYER NAME "{}" TYPE POINT CLASS STYLE COLOR {} {} {} SIZE 5 END END FEATURE POINTS 8 {} END END END\n'
# the longitudes of both points before a batch and after it, and the latitude of each
LONGITUDES = (8, 12)
LATITUDES = {"first": 50, "second": 44}
WRONG = set()


def query(layers, side):
    return (
        f"/wms?VERSION=1.3.0&REQUEST=GetMap&LAYERS={layers}&STYLES=&CRS=CRS:84&BBOX=5,42,15,52"
        f"&WIDTH={side}&HEIGHT={side}&FORMAT=image/x-portable-pixmap"
    )


BELOW = query("countries,borders,graticule,ports", 256)
TILE = query("countries,borders,graticule,ports,first,second", 256)
SMALL = query("first", 16)


def moved(longitude):
    """The batch that moves both points there."""
    batch = b""
    for name, latitude in LATITUDES.items():
        table = b"x,y\n%d,%d\n" % (longitude, latitude)
        batch += b"CLEAR %s\nAPPEND %d %s\n%s" % (name.encode(), len(table), name.encode(), table)
    return batch


THERE, BACK = moved(LONGITUDES[1]), moved(LONGITUDES[0])


def with_points(pixmap, side, longitude, names):
    """A pixmap of that side with these points: squares of 5 by 5 pixels round the pixel of each."""
    head = b"P6\n%d %d\n255\n" % (side, side)
    if not pixmap.startswith(head) or len(pixmap) != len(head) + 3 * side * side:
        sys.exit(f"failed: no picture of {side} by {side} pixels: {pixmap[:200]}")
    pixels = bytearray(pixmap)
    for name in names:
        column = 16 * side * (longitude - 5) // 10 // 16
        row = 16 * side * (52 - LATITUDES[name]) // 10 // 16
        for down in range(max(row - 2, 0), row + 3):
            at = len(head) + 3 * (side * down + column - 2)
            pixels[at : at + 15] = bytes(COLOURS[name]) * 5
    return bytes(pixels)


class Server:
    def __init__(self, program, folder, workers):
        words = [program, "serve", "world.map", "--port", "0", "--admin-port", "0", "--workers", str(workers), "--idle", "60000"]
        self.process = subprocess.Popen(words, cwd=folder, stdout=subprocess.PIPE)
        self.port, self.admin = ports_of(self.process.stdout.readline())

    def proc_text(self, name):
        return pathlib.Path(f"/proc/{self.process.pid}/{name}").read_text()

    def seconds(self):
        fields = self.proc_text("stat").rsplit(")", 1)[1].split()
        return (int(fields[11]) + int(fields[12])) / os.sysconf("SC_CLK_TCK")

    def resident(self):
        return int(re.search(r"VmRSS:\s+(\d+)", self.proc_text("status")).group(1))

    def connection(self):
        return http.client.HTTPConnection("127.0.0.1", self.port, timeout=60)

    def __enter__(self):
        return self

    def __exit__(self, *_):
        self.process.kill()
        self.process.wait()
        self.process.stdout.close()


class Administrator:
    def __init__(self, server, count=0):
        self.stream = socket.create_connection(("127.0.0.1", server.admin), 60)
        self.lines = self.stream.makefile("rb")
        self.count = count

    def publish(self, batch):
        self.stream.sendall(b"BATCH %d\n%s" % (len(batch), batch))
        self.count += 1
        if self.lines.readline() != b"PUBLISHED %d\n" % self.count:
            WRONG.add("a batch wasn't published")

    def without_pause(self, stop):
        while not stop.is_set():
            self.publish(THERE)
            self.publish(BACK)

    def close(self):
        self.lines.close()
        self.stream.close()


def body(connection, target):
    connection.request("GET", target)
    return connection.getresponse().read()


def asking(server, possible, seen, stop):
    connection = server.connection()
    try:
        while not stop.is_set():
            answer = body(connection, TILE)
            if answer in possible:
                seen[possible.index(answer)] += 1
            else:
                WRONG.add("an answer is another one")
    except (OSError, http.client.HTTPException):
        WRONG.add("a request wasn't answered")
    connection.close()


def load(server, seconds):
    before = server.seconds()
    words = ["wrk", "-t4", "-c4", f"-d{seconds}s", "--latency", f"http://127.0.0.1:{server.port}{TILE}"]
    out = subprocess.run(words, capture_output=True, text=True).stdout
    rate = float(re.search(r"Requests/sec:\s+([\d.]+)", out).group(1))
    late = re.search(r"99%\s+(\S+)", out).group(1)
    count = int(re.search(r"(\d+) requests in", out).group(1))
    if count == 0 or "Non-2xx" in out:
        WRONG.add("a request of wrk wasn't answered")
    return rate, late, 1000 * (server.seconds() - before) / max(count, 1)


def busy(server, seconds):
    """The same while batches are published, and how many these are a second."""
    administrator, stop = Administrator(server), threading.Event()
    publisher = threading.Thread(target=administrator.without_pause, args=(stop,))
    publisher.start()
    began = time.monotonic()
    measured = load(server, seconds)
    rate = administrator.count / (time.monotonic() - began)
    stop.set()
    publisher.join()
    administrator.close()
    return measured, rate


def compare(server, seconds):
    """How often each of the two pictures came while batches were published."""
    first = server.connection()
    below = body(first, BELOW)
    possible = [with_points(below, 256, longitude, LATITUDES) for longitude in LONGITUDES]
    shown = re.search(rb'updateSequence="(\d+)"', body(first, "/wms?REQUEST=GetCapabilities&SERVICE=WMS"))
    administrator = Administrator(server, int(shown[1]))
    for batch, picture in [(b"", possible[0]), (THERE, possible[1]), (BACK, possible[0])]:
        administrator.publish(batch)
        if body(first, TILE) != picture:
            WRONG.add("an answer is another one while nothing changes")
    first.close()
    seen, stop = [[0, 0], [0, 0]], threading.Event()
    threads = [threading.Thread(target=asking, args=(server, possible, each, stop)) for each in seen]
    threads.append(threading.Thread(target=administrator.without_pause, args=(stop,)))
    for thread in threads:
        thread.start()
    time.sleep(seconds)
    stop.set()
    for thread in threads:
        thread.join()
    administrator.close()
    counts = [sum(each) for each in zip(*seen)]
    if 0 in counts:
        WRONG.add("not both answers were seen")
    return counts


def long_run(server, batches):
    """The memory of the process after a tenth of the batches, and after all, with ten requests between them."""
    administrator = Administrator(server)
    white = b"P6\n16 16\n255\n" + b"\xff" * (3 * 16 * 16)
    back, there = (with_points(white, 16, longitude, ["first"]) for longitude in LONGITUDES)
    memory = []
    for turn in range(1, batches + 1):
        administrator.publish(THERE if turn % 2 else BACK)
        # a connection for ten requests goes to the next worker
        connection = server.connection()
        for _ in range(10):
            try:
                if body(connection, SMALL) != (there if turn % 2 else back):
                    WRONG.add("an answer is another one after its batch")
            except (OSError, http.client.HTTPException):
                WRONG.add("a request wasn't answered")
        connection.close()
        if turn in (batches // 10, batches):
            memory.append(server.resident())
    administrator.close()
    return memory


def main():
    numbers = [int(word) for word in sys.argv[2:4]]
    program, seconds, batches = os.path.abspath(sys.argv[1]), *(numbers + [5, 10_000][len(numbers) :])
    with tempfile.TemporaryDirectory() as folder:
        layers = "".join(LAYER.format(name, *COLOURS[name], latitude) for name, latitude in LATITUDES.items())
        world = (DEMO / "world.map").read_text(encoding="utf-8").removesuffix("END\n")
        pathlib.Path(folder, "world.map").write_text(world + layers + "END\n", encoding="utf-8")
        shutil.copy(DEMO / "anchor.ppm", folder)
        for workers in (1, 2, 4):
            with Server(program, folder, workers) as server:
                load(server, 1)
                rate, late, cost = load(server, seconds)
                (busy_rate, busy_late, busy_cost), published = busy(server, seconds)
                print(f"{workers} workers: {rate:.0f} requests a second, 99 % within {late}, {cost:.2f} ms each; "
                      f"beside {published:.0f} batches a second {busy_rate:.0f}, {busy_late}, {busy_cost:.2f} ms", flush=True)
                # with one, a connection that is kept would wait for the other to end
                if workers > 1:
                    print("answers compared: %d before a batch, %d after it" % tuple(compare(server, seconds)), flush=True)
        with Server(program, folder, 4) as server:
            first, last = long_run(server, batches)
    print(f"memory after {batches // 10:,} batches and {batches:,} requests {first} KB, after {batches:,} and {10 * batches:,} {last} KB")
    if last > 1.01 * first:
        WRONG.add("the memory grew")
    for wrong in sorted(WRONG):
        print(wrong)
    sys.exit(1 if WRONG else 0)


if __name__ == "__main__":
    main()
