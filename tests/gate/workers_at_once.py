#!/usr/bin/env python3
"""Tries that workers answer at the same time. Usage: workers_at_once.py PROGRAM

The server has two workers. The first client asks for a picture that is dear: a polygon of 65,536 spikes, in sixteen layers, so
high, and these named so often, that one answer takes two seconds, some. The second, whose connection is the other worker's, asks for the
capabilities meanwhile: at once, 60 ms later, and in pieces. It is to have its answer while the first still waits for its
own. With a lock round the answers of all workers it would always come behind. Where the machine was busy as the dear
picture was measured, its answer may be there too early: each way is tried four times at most, each time with a picture
twice as dear. The exit status is 1 where the answer came behind each time, or where an answer is another one.

Gate: PROGRAM; 15 s
"""
import os
import pathlib
import select
import socket
import subprocess
import sys
import tempfile
import time

sys.path.insert(0, str(pathlib.Path(__file__).resolve().parents[1] / "lib"))

from served import ports_of, read_all

SPIKES = 65_536
LONG = 2.0  # seconds of the dear answer, some
LAYERS, MOST = 16, 2_048  # layers, and pixels of height at most
MENTIONS = 4  # of a layer: more than 64 names are refused
TRIES = 4
SMALL = b"GET /wms?REQUEST=GetCapabilities&SERVICE=WMS HTTP/1.1\r\nConnection: close\r\n\r\n"


def write_map(path):
    """A map of layers with a polygon of many spikes each."""
    ring = " ".join(f"{4 * i / SPIKES:.6f} {-1 if i % 2 else 5}" for i in range(SPIKES))
    layers = (f"LAYER NAME d{k} TYPE POLYGON CLASS STYLE COLOR 1 2 3 END END FEATURE POINTS {ring} END END END\n" for k in range(LAYERS))
    path.write_text(f"MAP {''.join(layers)} END\n", encoding="ascii")


def dear(rows):
    """A request for so many rows of all layers: where a picture can't be so high, its layers are named more than once."""
    mentions = min(MENTIONS, -(-rows // MOST))
    height = min(MOST, -(-rows // mentions))
    names = ",".join(f"d{k}" for _ in range(mentions) for k in range(LAYERS))
    query = f"VERSION=1.3.0&REQUEST=GetMap&LAYERS={names}&STYLES=&CRS=CRS:84&BBOX=0,0,4,4&WIDTH=16&HEIGHT={height}&FORMAT=image/x-portable-pixmap"
    return f"GET /wms?{query} HTTP/1.1\r\nConnection: close\r\n\r\n".encode()


def connected(port):
    """A connection that sends what it is given at once."""
    stream = socket.create_connection(("127.0.0.1", port), timeout=60)
    stream.setsockopt(socket.IPPROTO_TCP, socket.TCP_NODELAY, 1)
    return stream


def seconds_of(port, request):
    """The seconds that an answer takes."""
    began = time.monotonic()
    with connected(port) as stream:
        stream.sendall(request)
        assert read_all(stream).startswith(b"HTTP/1.1 200 "), "the dear picture was refused"
    return time.monotonic() - began


def long_rows(port):
    """How many rows take some two seconds, by how long fewer take."""
    rows = 32
    while (took := min(seconds_of(port, dear(rows)) for _ in range(2))) < LONG / 4 and rows < MENTIONS * MOST:
        rows = 2 * rows
    return int(rows * LONG / took) + 1


def is_answered_meanwhile(port, request, pieces, delay):
    """Whether the second client has its answer before the first, whose request was sent before."""
    # connection c is served by worker c mod 2, so two that come one after the other have a worker each
    with connected(port) as first, connected(port) as second:
        first.sendall(request)
        time.sleep(0.3 + delay)
        for piece in pieces:
            second.sendall(piece)
            time.sleep(0.02)
        answer = read_all(second)
        is_waiting = not select.select([first], [], [], 0)[0]
        assert answer.startswith(b"HTTP/1.1 200 ") and b"WMS_Capabilities" in answer, "the second client has no capabilities"
        assert read_all(first).startswith(b"HTTP/1.1 200 "), "the first client has no picture"
    return is_waiting


def main():
    """Tries the second client in three ways."""
    ways = {"at once": ([SMALL], 0), "60 ms later": ([SMALL], 0.06), "in pieces": ([SMALL[:9], SMALL[9:40], SMALL[40:]], 0)}
    with tempfile.TemporaryDirectory() as folder:
        mapfile = pathlib.Path(folder) / "dear.map"
        write_map(mapfile)
        words = [os.path.abspath(sys.argv[1]), "serve", str(mapfile), "--port", "0", "--admin-port", "0", "--workers", "2"]
        with subprocess.Popen(words, stdout=subprocess.PIPE) as server:
            try:
                port = ports_of(server.stdout.readline())[0]
                rows = long_rows(port)
                behind = [way for way, (pieces, delay) in ways.items()
                          if not any(is_answered_meanwhile(port, dear(rows << k), pieces, delay) for k in range(TRIES))]
            finally:
                server.kill()
    print(f"{len(ways) - len(behind)} answers came meanwhile, {len(behind)} behind" + (f": {', '.join(behind)}" if behind else ""))
    return 1 if behind else 0


if __name__ == "__main__":
    sys.exit(main())
