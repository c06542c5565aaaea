#!/usr/bin/env python3
"""Measures how time and memory grow with the size of inputs near their limits.

Usage: proportion.py PROGRAM [PART [WORD ..]]

A row is made of one size and of its double: seconds of processor and peak megabytes of both, and how many times as much
time the double takes. A row above 2.5 is marked, and the script ends with 1. Sizes are those of the table below divided
by PART, which is 1 where it isn't given. With WORDs only the rows are made whose name has one of them.

Everything is made by rule in a folder of its own. Runs are of `check`, of `run`, or of `serve` with its clients. What
the program takes for an input of no size isn't taken off.
"""
import os
import pathlib
import re
import socket
import subprocess
import sys
import tempfile
import threading
import time

sys.path.insert(0, str(pathlib.Path(__file__).resolve().parents[1] / "tests" / "lib"))
sys.path.insert(0, str(pathlib.Path(__file__).resolve().parent / "lib"))

from served import ports_of, read_all
from workloads import Bench

HIGH = 2.5
# below this many seconds a ratio says nothing
LEAST = 0.02
VIEW = "VERSION=1.3.0&REQUEST={}&STYLES=&CRS=CRS:84&BBOX=0,0,4,4&WIDTH={}&HEIGHT={}&FORMAT=image/x-portable-pixmap&LAYERS={}"
STYLE = "STYLE COLOR 10 20 30 END"
SQUARE = "FEATURE POINTS 1 1 3 1 3 3 1 3 END END"


def layer(name, kind, body):
    return f"LAYER NAME {name} TYPE {kind} TEMPLATE t\n{body}\nEND\n"


def whole(*layers):
    return "MAP\n" + "".join(layers) + "END\n"


def get_map(names, side=64):
    return "QUERY " + VIEW.format("GetMap", side, side, names)


def font(glyphs):
    one = "STARTCHAR a\nENCODING {}\nDWIDTH 3 0\nBBX 2 2 0 0\nBITMAP\nC0\n80\nENDCHAR\n"
    head = f"STARTFONT 2.1\nFONTBOUNDINGBOX 2 2 0 0\nCHARS {glyphs}\n"
    return head + "".join(one.format(65 + k) for k in range(glyphs)) + "ENDFONT\n"


def points(count, place=lambda k: (2, 2), text=lambda k: "a"):
    """A table of so many points."""
    return "x,y,name\n" + "".join("{},{},{}\n".format(*place(k), text(k)) for k in range(count))


def scattered(k):
    return (k * 7919) % 4_000 / 1000, (k * 104_729) % 4_000 / 1000


def table_layer(body, name="a"):
    return layer(name, "POINT", f"DATA a.csv LABELITEM name\n{body}")


def nested(size):
    """An expression of so many bytes, 64 deep."""
    inner = "1=2" + "||1=2" * ((size - 2 * 64 - 3) // 5)
    return "(" * 64 + inner + ")" * 64


def spikes(index):
    """A polygon of 65,536 vertices whose edges go up and down through the whole picture."""
    rows = (f"{k % 4096 / 1024 + index / 100_000:.6f} {0 if k % 2 else 4}" for k in range(65_536))
    return "FEATURE POINTS " + "\n".join(rows) + " END END"


# Each gives the files of a size: the mapfile and, of `run`, the script, and what the mapfile uses.
def parameters(size):
    return {"map": whole(layer("a", "POLYGON", STYLE_CLASS + SQUARE)), "script": get_map("a") + "&a=b" * size + "\n"}


def long_layers(size):
    return {"map": whole(layer("a", "POLYGON", SQUARE)), "script": get_map("a," * (size // 2)) + "\n"}


def switches(size):
    names = "".join(layer(f"l{k}", "POINT", "") for k in range(128))
    batch = "ON l127\n" * (size // 8)
    return {"map": whole(names), "script": f"BATCH {len(batch)}\n{batch}"}


def comments(size):
    return {"map": "MAP\n" + "#\n" * size + "END\n"}


def classes(size):
    one = "CLASS " + f"{STYLE} " * 16 + "END\n"
    return {"map": whole(*(layer(f"l{k}", "POINT", one * 64) for k in range(size)))}


def deep_expression(size):
    drawn = f"CLASS EXPRESSION {nested(size)} {STYLE} END\n"
    return {"map": whole(table_layer(drawn)), "a.csv": points(1_000), "script": get_map("a") + "\n"}


def wide_expression(size):
    drawn = f"CLASS EXPRESSION (1=2{'||1=2' * 10_000}) {STYLE} END\n"
    return {"map": whole(table_layer(drawn)), "a.csv": points(size), "script": get_map("a") + "\n"}


def glyphs(size):
    return {"map": "MAP CONFIG LABELFONT a.bdf END\n", "a.bdf": font(size)}


def spiked(size):
    layers = (layer(f"l{k}", "POLYGON", STYLE_CLASS + spikes(k)) for k in range(size))
    return {"map": whole(*layers), "script": get_map(",".join(f"l{k}" for k in range(size)), 2048) + "\n"}


def spread(k):
    """Places on a grid over the picture, of which 40,000 fill it."""
    return (k % 200 + 0.5) / 50, (k // 200 % 200 + 0.5) / 50


def of_one_bucket(k):
    """Texts of 32 letters that many a hash by 31 takes for one."""
    return "".join("BB" if k >> bit & 1 else "Aa" for bit in range(16))


def labels(label, text, place=lambda k: (2, 2)):
    def files(size):
        drawn = table_layer(f"CLASS LABEL POSITION AUTO {label} END END")
        named = "MAP CONFIG LABELFONT a.bdf\n" + drawn + "END\n"
        return {"map": named, "a.bdf": font(60), "a.csv": points(size, place, text), "script": get_map("a", 2048) + "\n"}

    return files


def large_symbols(size):
    symbol = "SYMBOL NAME s TYPE PIXMAP IMAGE a.ppm END\n"
    drawn = whole(symbol, table_layer("CLASS STYLE SYMBOL s END END"))
    return {"map": drawn, "a.ppm": b"P6 256 256 255\n" + b"abc" * 65_536, "a.csv": points(size, scattered), "script": get_map("a", 2048) + "\n"}


def often_labelled(size):
    drawn = "MAP CONFIG LABELFONT a.bdf\n" + table_layer(f"CLASS {STYLE} LABEL END END") + "END\n"
    return {"map": drawn, "a.bdf": font(60), "a.csv": points(200_000 // PART, scattered), "script": get_map(",".join("a" * size), 1024) + "\n"}


def hits(size):
    asked = VIEW.format("GetFeatureInfo", 64, 64, "a") + "&INFO_FORMAT=text/plain&FEATURE_COUNT=200000&I=32&J=32"
    names = ",".join("a" * size)
    return {"map": whole(table_layer("CLASS END")), "a.csv": points(200_000 // PART), "script": f"QUERY {asked}&QUERY_LAYERS={names}\n"}


def repeated(command):
    def files(size):
        batch = command * size
        return {"map": whole(layer("a", "POINT", "")), "script": f"BATCH {len(batch)}\n{batch}"}

    return files


def append_batches(size):
    return {"map": whole(layer("a", "POINT", "")), "script": "BATCH 19\nAPPEND 8 a\nx,y\n1,2\n" * size}


STYLE_CLASS = f"CLASS {STYLE} END\n"
# the name, the double's size, and the files of a size
PLAYED = [
    ("parameters of a query", 1_000_000, parameters),
    ("bytes of LAYERS", 1_048_576, long_layers),
    ("bytes of ON lines on 128 layers", 4_194_304, switches),
    ("comments", 1_000_000, comments),
    ("layers of 64 classes of 16 styles", 128, classes),
    ("bytes of an expression 64 deep, on 1,000 features", 65_536, deep_expression),
    ("features of an expression of 10,001 ORs", 200_000, wide_expression),
    ("glyphs of a font", 65_536, glyphs),
    ("layers of a polygon of 65,536 spikes", 64, spiked),
    ("labels of one text, MINDISTANCE 4,096", 43_645, labels("MINDISTANCE 4096", lambda k: "a")),
    ("labels of different texts, FORCE", 43_645, labels("FORCE TRUE", lambda k: f"t{k}")),
    ("labels of one text over the picture, MINDISTANCE 1", 40_000, labels("MINDISTANCE 1", lambda k: "A", spread)),
    ("labels of texts of one bucket, MINDISTANCE 1", 40_000, labels("MINDISTANCE 1", of_one_bucket, spread)),
    ("points with a symbol of 256 by 256", 200_000, large_symbols),
    ("times one layer of 200,000 labels", 64, often_labelled),
    ("times one layer of 200,000 hits", 64, hits),
    ("CLEARs in a batch of 4 MiB", 524_288, repeated("CLEAR a\n")),
    ("APPENDs without rows in a batch of 4 MiB", 279_620, repeated("APPEND 4 a\nx,y\n")),
    ("APPENDs of a row in a batch", 199_998, repeated("APPEND 8 a\nx,y\n1,2\n")),
    ("batches of an APPEND", 1_000, append_batches),
]
# whose size is no count that PART divides
WHOLE = {classes, spiked, often_labelled, hits, deep_expression}


def play(bench, size, files):
    """Seconds and megabytes of `run`, or of `check` where there is no script."""
    made = files(size)
    for name, content in made.items():
        bench.path(name, content)
    words = ["run", "map", "script"] if "script" in made else ["check", "map"]
    return bench.run(*words[:1], *(os.path.join(bench.folder, word) for word in words[1:]))


class Server:
    """A served map of one square, whose process says what it took."""

    def __init__(self, bench, workers, connections):
        path = bench.path("map", parameters(0)["map"])
        words = [bench.program, "serve", path, "--port", "0", "--admin-port", "0", "--workers", workers, "--connections", connections]
        self.process = subprocess.Popen(list(map(str, words)), stdout=subprocess.PIPE)
        self.port, self.admin = ports_of(self.process.stdout.readline())

    def took(self):
        status = pathlib.Path(f"/proc/{self.process.pid}/status").read_text()
        fields = pathlib.Path(f"/proc/{self.process.pid}/stat").read_text().rsplit(")", 1)[1].split()
        seconds = (int(fields[11]) + int(fields[12])) / os.sysconf("SC_CLK_TCK")
        self.process.kill()
        self.process.wait()
        self.process.stdout.close()
        return seconds, int(re.search(r"VmHWM:\s+(\d+)", status)[1]) / 1024


def reads(bench, size):
    """A head that comes byte by byte."""
    server = Server(bench, 1, 0)
    head = b"GET / HTTP/1.0\r\nx: " + b"y" * size
    with socket.create_connection(("127.0.0.1", server.port)) as stream:
        stream.setsockopt(socket.IPPROTO_TCP, socket.TCP_NODELAY, 1)
        for byte in (head[:size - 4] + b"\r\n\r\n")[:size]:
            stream.sendall(bytes([byte]))
            time.sleep(0.0002)
        read_all(stream)
    return server.took()


def pictures(bench, size):
    """So many pictures of 2,048 by 2,048 at once."""
    server = Server(bench, 32, 0)
    head = b"GET /?%s HTTP/1.0\r\n\r\n" % VIEW.format("GetMap", 2048, 2048, "a").encode()

    def ask():
        with socket.create_connection(("127.0.0.1", server.port)) as stream:
            stream.sendall(head)
            read_all(stream)

    clients = [threading.Thread(target=ask) for _ in range(size)]
    for client in clients:
        client.start()
    for client in clients:
        client.join()
    return server.took()


SERVED = [("reads of a head", 16_384, reads), ("pictures of 2,048 by 2,048 at once", 32, pictures)]


def print_row(name, double, once, twice):
    """The row of two sizes, and whether it is marked."""
    ratio = twice[0] / max(once[0], 0.001)
    is_high = ratio > HIGH and twice[0] > LEAST
    figures = " | ".join(f"{seconds:.2f} s, {megabytes:,.0f} MB" for seconds, megabytes in (once, twice))
    print(f"| {double // 2:,} and {double:,} {name} | {figures} | {ratio:.1f}{' **high**' if is_high else ''} |", flush=True)
    return is_high


PART = 1


def main():
    global PART
    if len(sys.argv) < 2:
        sys.exit(__doc__.split("\n\n")[1])
    PART = int(sys.argv[2]) if len(sys.argv) > 2 else 1
    rows = [(name, size if files in WHOLE else size // PART, lambda bench, count, files=files: play(bench, count, files)) for name, size, files in PLAYED]
    rows += [(name, size, take) for name, size, take in SERVED]
    words = sys.argv[3:]
    high = 0
    print("| Sizes | Once | Twice | Ratio |\n|---|---|---|---|")
    for name, double, take in rows:
        if not words or any(word in name for word in words):
            with tempfile.TemporaryDirectory() as folder:
                bench = Bench(sys.argv[1], folder)
                high += print_row(name, double, take(bench, double // 2), take(bench, double))
    sys.exit(f"{high} above {HIGH}" if high else 0)


if __name__ == "__main__":
    main()
