#!/usr/bin/env python3
"""Tries clients that ask for large pictures and read nothing, beside others that ask for tiles.

Usage: unread_answers.py PROGRAM [CLIENTS [TILES]]

CLIENTS clients (256 where it isn't given) of a server of four workers ask for 12.6 MB each, by small receive buffers, and
read nothing. Then a tile of 256 by 256 pixels is asked for, and a further one each half second, TILES in all (12), each on a
connection of its own. Each is to come whole, within two seconds. Printed are the longest wait, the server's time of processor
meanwhile, and how the others ended. Where the system gives this script too few descriptors it ends with 77.

Gate: PROGRAM; 6 s
"""
import collections
import os
import pathlib
import re
import resource
import socket
import subprocess
import sys
import tempfile
import threading
import time

sys.path.insert(0, str(pathlib.Path(__file__).resolve().parents[1] / "lib"))

from served import ports_of, read_all

MAP = b"MAP LAYER NAME a TYPE POLYGON CLASS STYLE COLOR 10 20 30 END END FEATURE POINTS 1 1 3 1 3 3 1 3 END END END END\n"
TARGET = "/wms?VERSION=1.3.0&REQUEST=GetMap&LAYERS=a&STYLES=&CRS=CRS:84&BBOX=0,0,4,4&FORMAT=image/x-portable-pixmap&WIDTH={0}&HEIGHT={0}"
LARGE, TILE = 2_048, 256
LATEST = 2.0  # seconds
LACKING = 77


def head_of(side):
    return f"GET {TARGET.format(side)} HTTP/1.1\r\nConnection: close\r\n\r\n".encode()


def body_of(side):
    return len(f"P6\n{side} {side}\n255\n") + 3 * side * side


class Server:
    def __init__(self, folder):
        path = os.path.join(folder, "a.map")
        with open(path, "wb") as file:
            file.write(MAP)
        words = [sys.argv[1], "serve", path, "--port", "0", "--admin-port", "0", "--workers", "4", "--log"]
        self.log = open(os.path.join(folder, "log"), "wb+")
        self.process = subprocess.Popen(words, stdout=subprocess.PIPE, stderr=self.log)
        self.port = ports_of(self.process.stdout.readline())[0]

    def __enter__(self):
        return self

    def __exit__(self, *_):
        self.process.kill()
        self.process.wait()
        self.process.stdout.close()
        self.log.close()

    def processor(self):
        """The seconds of processor that it took."""
        with open(f"/proc/{self.process.pid}/stat", encoding="ascii") as file:
            parts = file.read().rpartition(")")[2].split()
        return (int(parts[11]) + int(parts[12])) / os.sysconf("SC_CLK_TCK")

    def ends(self):
        """How often the log has each cause of an early end."""
        self.log.seek(0)
        return dict(collections.Counter(found.decode() for found in re.findall(rb"^end \d+ (\w+)", self.log.read(), re.M)))


def unreading(port):
    """A client that asks for a large picture and reads nothing."""
    stream = socket.socket()
    stream.setsockopt(socket.SOL_SOCKET, socket.SO_RCVBUF, 4_096)
    stream.settimeout(30)
    stream.connect(("127.0.0.1", port))
    stream.sendall(head_of(LARGE))
    return stream


class Tile(threading.Thread):
    """A tile that is asked for at a moment: how long it took, where it came whole."""

    def __init__(self, port, begins):
        super().__init__(daemon=True)
        self.port, self.begins, self.took, self.outcome = port, begins, None, None

    def run(self):
        time.sleep(self.begins)
        began = time.monotonic()
        try:
            with socket.create_connection(("127.0.0.1", self.port), timeout=60) as stream:
                stream.sendall(head_of(TILE))
                head, _, body = read_all(stream).partition(b"\r\n\r\n")
            self.outcome = "whole" if head.startswith(b"HTTP/1.1 200 ") and len(body) == body_of(TILE) else "part" if head else "no byte"
        except OSError as error:
            self.outcome = type(error).__name__
        self.took = time.monotonic() - began


def has_descriptors(count):
    _, most = resource.getrlimit(resource.RLIMIT_NOFILE)
    if most != resource.RLIM_INFINITY and most < count:
        return False
    resource.setrlimit(resource.RLIMIT_NOFILE, (count, most))
    return True


def main():
    if len(sys.argv) not in (2, 3, 4):
        sys.exit(__doc__.split("\n\n")[1])
    count, tiles = (int(sys.argv[at]) if len(sys.argv) > at else other for at, other in ((2, 256), (3, 12)))
    if not has_descriptors(count + tiles + 100):
        print("more descriptors than the system gives are wanted")
        sys.exit(LACKING)
    with tempfile.TemporaryDirectory() as folder, Server(folder) as server:
        clients = [unreading(server.port) for _ in range(count)]
        began, processor = time.monotonic(), server.processor()
        asked = [Tile(server.port, k / 2) for k in range(tiles)]
        for tile in asked:
            tile.start()
        for tile in asked:
            tile.join()
        took, processor = time.monotonic() - began, server.processor() - processor
        outcomes = dict(collections.Counter(tile.outcome for tile in asked))
        longest = max(tile.took for tile in asked)
        print(
            f"{count} clients that read nothing of 12.6 MB: {tiles} tiles {outcomes}, the longest {longest:.2f} s; "
            f"processor {processor:.1f} s of {took:.1f}; ended {server.ends()}",
            flush=True,
        )
        for client in clients:
            client.close()
    sys.exit(outcomes != {"whole": tiles} or longest > LATEST)


if __name__ == "__main__":
    main()
