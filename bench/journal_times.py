#!/usr/bin/env python3
"""Measures what a journal costs, and what a start with one costs. Usage: journal_times.py PROGRAM [SECONDS [FOLDER]]

The journals stand in FOLDER, so on its disk; in a folder of the system's for files of a moment where it isn't given. First it
measures what the disk takes to sync 4 KB at the end of a file (write and fsync, for so many SECONDS, 5 where it isn't given).
Then a served map gets batches of one command without pause, with a journal and without: by one submitter on one connection, by one
that sends ten ahead of their answers, by one and by eight on a connection for each batch. A line has the batches a second, and the
median and the 99th of 100 in milliseconds from the first byte that is sent to the answer, of ten to the last answer. Another client asks for a tile of 256 by 256 pixels meanwhile, again and again on
one connection: its median and 99th are in the same line, behind those of a line without batches.

Then batches that each empty a layer and append 200,000 rows to it, with a journal that is compacted from 5 MB on, beside one that only
grows. At last the seconds from the start to the line that says where the ports are: with a journal of 10,000 batches of one command, and
with one of 100 batches that each empty a layer and append 100,000 rows to it, only grown and compacted from 8 MB on; and how much
memory that start took at most.
"""
import http.client
import os
import pathlib
import re
import shutil
import socket
import subprocess
import sys
import tempfile
import threading
import time

sys.path.insert(0, str(pathlib.Path(__file__).resolve().parents[1] / "tests" / "lib"))

from served import ports_of

DEMO = pathlib.Path(__file__).resolve().parent.parent / "demo"
LAYER = b"""  LAYER NAME "stops" TYPE POINT CLASS STYLE COLOR 10 20 30 SIZE 3 END END END
END
"""
TILE = ("/wms?VERSION=1.3.0&REQUEST=GetMap&LAYERS=countries,borders&STYLES=&CRS=CRS:84&FORMAT=image/x-portable-pixmap"
        "&BBOX=0,40,11.25,51.25&WIDTH=256&HEIGHT=256")
BATCHES = [b"OFF stops\n", b"ON stops\n"]


class Server:
    def __init__(self, program, folder, journal=None, checkpoint=0):
        words = [program, "serve", "map.map", "--port", "0", "--admin-port", "0", "--workers", "4", "--explain", "--checkpoint", str(checkpoint)]
        self.began = time.monotonic()
        self.process = subprocess.Popen(words + (["--journal", journal] if journal else []), stdout=subprocess.PIPE, cwd=folder)
        self.port, self.administration = ports_of(self.process.stdout.readline())
        self.started = time.monotonic() - self.began

    def __enter__(self):
        return self

    def peak(self):
        """The most memory that it had so far, in MB."""
        status = pathlib.Path(f"/proc/{self.process.pid}/status").read_text()
        return int(re.search(r"VmHWM:\s+(\d+) kB", status)[1]) / 1e3

    def __exit__(self, *_):
        self.process.kill()
        self.process.wait()


class Submitter:
    """Submits batches, on one connection or on one for each."""

    def __init__(self, port, keeps):
        self.port, self.keeps, self.stream = port, keeps, None

    def submit(self, *batches):
        if self.stream is None:
            self.stream = socket.create_connection(("127.0.0.1", self.port))
            self.stream.setsockopt(socket.IPPROTO_TCP, socket.TCP_NODELAY, 1)
        self.stream.sendall(b"".join(b"BATCH %d\n" % len(batch) + batch for batch in batches))
        lines = b""
        while lines.count(b"\n") < len(batches):
            got = self.stream.recv(1_000)
            if not got:
                sys.exit(f"journal_times: the connection ended after {lines}")
            lines += got
        if not all(line.startswith(b"PUBLISHED ") for line in lines.splitlines()):
            sys.exit(f"journal_times: {lines}")
        if not self.keeps:
            self.close()

    def close(self):
        if self.stream:
            self.stream.close()
            self.stream = None


def share(times, hundredth):
    times = sorted(times)
    return times[min(len(times) * hundredth // 100, len(times) - 1)] * 1_000 if times else float("nan")


def sync_times(folder, seconds):
    """How long it takes to write and sync each 4 KB at the end of a file."""
    times = []
    with tempfile.TemporaryFile(dir=folder, buffering=0) as file:
        until = time.monotonic() + seconds
        while time.monotonic() < until:
            began = time.monotonic()
            file.write(bytes(4_096))
            os.fsync(file.fileno())
            times.append(time.monotonic() - began)
    return times


def ask(port, until, times):
    client = http.client.HTTPConnection("127.0.0.1", port)
    while time.monotonic() < until:
        began = time.monotonic()
        client.request("GET", TILE)
        if len(client.getresponse().read()) < 3 * 256 * 256:
            sys.exit("journal_times: a picture is too short")
        times.append(time.monotonic() - began)
    client.close()


def submit_all(port, keeps, ahead, until, times, batches=BATCHES):
    submitter, number = Submitter(port, keeps), 0
    while time.monotonic() < until:
        began = time.monotonic()
        submitter.submit(*(batches[(number + after) % len(batches)] for after in range(ahead)))
        times.extend([time.monotonic() - began] * ahead)
        number += ahead
    submitter.close()


def meanwhile(server, seconds, count, keeps, ahead, submitted=BATCHES):
    """What batches took that so many submit, each so many ahead, and what pictures took meanwhile."""
    until, batches, pictures = time.monotonic() + seconds, [], []
    threads = [threading.Thread(target=submit_all, args=(server.administration, keeps, ahead, until, batches, submitted)) for _ in range(count)]
    threads.append(threading.Thread(target=ask, args=(server.port, until, pictures)))
    for thread in threads:
        thread.start()
    for thread in threads:
        thread.join()
    return batches, pictures


def row(what, seconds, times, pictures):
    if times:
        print(f"{what}: {len(times) / seconds:.0f} batches a second, {share(times, 50):.2f} and {share(times, 99):.2f} ms; ", end="")
    else:
        print(f"{what}: ", end="")
    print(f"a tile {share(pictures, 50):.2f} and {share(pictures, 99):.2f} ms", flush=True)


def make_map(folder):
    world = (DEMO / "world.map").read_bytes().rstrip()
    (folder / "map.map").write_bytes(world[: world.rindex(b"END")] + LAYER)
    shutil.copy(DEMO / "anchor.ppm", folder)


def beside_pictures(program, folder, seconds):
    with Server(program, folder) as server:
        row("no batches", seconds, *meanwhile(server, seconds, 0, True, 1))
    for named, count, keeps, ahead in (("one submitter, one connection", 1, True, 1), ("one submitter, ten ahead", 1, True, 10),
                                       ("one submitter", 1, False, 1), ("eight submitters", 8, False, 1)):
        for words, journal in (("without a journal", None), ("with a journal", "times.journal")):
            with Server(program, folder, journal) as server:
                row(f"{named}, {words}", seconds, *meanwhile(server, seconds, count, keeps, ahead))


def replacing(count):
    """A batch that empties a layer and appends so many rows to it."""
    rows = b"x,y\n" + b"".join(b"%d.%d,%d.%d\n" % (n % 180, n // 180 % 10, n % 90, n % 7) for n in range(count))
    return b"CLEAR stops\nAPPEND %d stops\n" % len(rows) + rows


def beside_checkpoints(program, folder, seconds):
    for checkpoint in (0, 5):
        name = f"replaced-{checkpoint}.journal"
        with Server(program, folder, name, checkpoint) as server:
            times = meanwhile(server, seconds, 1, True, 1, [replacing(200_000)])
            size = (folder / name).stat().st_size
        row(f"200,000 rows replaced, --checkpoint {checkpoint}, {size / 1e6:.1f} MB of journal at the end", seconds, *times)


def start_after(program, folder, name, batches, checkpoint=0):
    with Server(program, folder, name, checkpoint) as server:
        submitter = Submitter(server.administration, True)
        for batch in batches:
            submitter.submit(batch)
        submitter.close()
    size = (folder / name).stat().st_size
    with Server(program, folder, name, checkpoint) as server:
        print(f"a start after {len(batches)} batches, --checkpoint {checkpoint}: {size / 1e6:.1f} MB of journal, {server.started:.2f} s, "
              f"{server.peak():.1f} MB at most", flush=True)


def main():
    if len(sys.argv) not in (2, 3, 4):
        sys.exit(__doc__)
    program = os.path.abspath(sys.argv[1])
    seconds = int(sys.argv[2]) if len(sys.argv) > 2 else 5
    with tempfile.TemporaryDirectory(dir=sys.argv[3] if len(sys.argv) > 3 else None) as name:
        folder = pathlib.Path(name)
        make_map(folder)
        times = sync_times(folder, seconds)
        print(f"4 KB synced: {share(times, 50):.2f} and {share(times, 99):.2f} ms, {len(times) / seconds:.0f} a second", flush=True)
        beside_pictures(program, folder, seconds)
        with Server(program, folder) as server:
            print(f"a start without a journal: {server.started:.2f} s", flush=True)
        beside_checkpoints(program, folder, 4 * seconds)
        start_after(program, folder, "many.journal", [BATCHES[number % 2] for number in range(10_000)])
        for checkpoint in (0, 8):
            start_after(program, folder, f"large-{checkpoint}.journal", [replacing(100_000)] * 100, checkpoint)


if __name__ == "__main__":
    main()
