#!/usr/bin/env python3
"""Compares the PNGs of two servers of one map, byte by byte. Usage: same_bytes.py PROGRAM [PICTURES [SEED]]

The map is demo/world.map. Of 500 random views, by default, in degrees and in web mercator, transparent or not, both servers are
asked for a PNG: the first in their order, by four clients at once and after other pictures, the second in reverse, by one. That the bytes are the same is
proved of no PNG, only that both are read as the same picture. The script ends with 1 where they differ, or an answer is none.
"""
import collections
import concurrent.futures
import http.client
import pathlib
import random
import subprocess
import sys
import threading

sys.path.insert(0, str(pathlib.Path(__file__).resolve().parents[1] / "lib"))

from served import ports_of

MAP = pathlib.Path(__file__).resolve().parents[2] / "demo" / "world.map"
QUERY = ("/wms?VERSION=1.3.0&REQUEST=GetMap&LAYERS={}&STYLES=&CRS={}&BBOX={:.6f},{:.6f},{:.6f},{:.6f}&WIDTH={}&HEIGHT={}&FORMAT=image/{}"
         "&TRANSPARENT={}&BGCOLOR=0x{:06x}")
LAYERS = ["countries", "countries,borders", "countries,borders,graticule,small,ports", "ports", "graticule,borders"]
# The sides of the world in each system.
WORLDS = {"CRS:84": (180.0, 90.0), "EPSG:3857": (20_037_508.34, 20_037_508.34)}


def views(chosen, count):
    """Queries of random views, without their format."""
    for _ in range(count):
        system, (east, north) = chosen.choice(list(WORLDS.items()))
        size = chosen.choice([1, 0.3, 0.05, 0.01])
        west, south = chosen.uniform(-east, east * (1 - 2 * size)), chosen.uniform(-north, north * (1 - 2 * size))
        box = west, south, west + 2 * size * east, south + 2 * size * north
        sides = chosen.choice([(256, 256), (chosen.randint(1, 900), chosen.randint(1, 500)), (1, 300), (2048, 2)])
        yield chosen.choice(LAYERS), system, *box, *sides, "{}", chosen.choice(["TRUE", "FALSE"]), chosen.randrange(2**24)


class Server:
    """A server of the map, with a connection for each thread that asks."""

    def __init__(self, program, workers):
        words = [program, "serve", MAP, "--port", "0", "--admin-port", "0", "--workers", str(workers)]
        self.process, self.kept = subprocess.Popen(words, stdout=subprocess.PIPE), threading.local()
        self.port = ports_of(self.process.stdout.readline())[0]

    def get(self, path):
        """The type and the body of an answer."""
        if not hasattr(self.kept, "connection"):
            self.kept.connection = http.client.HTTPConnection("127.0.0.1", self.port, timeout=300)
        self.kept.connection.request("GET", path)
        answer = self.kept.connection.getresponse()
        return answer.headers["Content-Type"], answer.read()


def main():
    program, count = sys.argv[1], int(sys.argv[2]) if len(sys.argv) > 2 else 500
    chosen = random.Random(int(sys.argv[3]) if len(sys.argv) > 3 else 1)
    forms = [QUERY.format(*view) for view in views(chosen, count)]
    asked = [form.format("png") for form in forms]
    servers = Server(program, 4), Server(program, 1)
    try:
        for form in forms[:20]:
            servers[0].get(form.format("x-portable-arbitrarymap"))
        with concurrent.futures.ThreadPoolExecutor(4) as clients:
            first = list(clients.map(servers[0].get, asked))
        second = [servers[1].get(path) for path in reversed(asked)][::-1]
    finally:
        for server in servers:
            server.process.terminate()
            server.process.wait()
    kinds = collections.Counter(kind for kind, _ in first + second)
    wrong = [path for path, one, other in zip(asked, first, second) if one != other or one[0] != "image/png"]
    print("\n".join([*wrong, f"{count} pictures of two servers, {len({body for _, body in first})} different ones: {len(wrong)} differ"]))
    return 1 if wrong or set(kinds) != {"image/png"} else 0


if __name__ == "__main__":
    sys.exit(main())
