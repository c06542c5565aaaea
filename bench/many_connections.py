#!/usr/bin/env python3
"""Measures what many connections get, and what one gets beside those that linger. Usage: many_connections.py PROGRAM [SECONDS]

A line of the first table has what is asked for (a tile of 256 by 256 pixels of demo/world.map, an exception, a picture of 1,024 by 512), by
how many kept connections, the answers a second, the median, the 99th of 100 and the slowest in milliseconds, and the
microseconds of processor that an answer took. wrk asks, by two threads, for so many SECONDS (4 where it isn't given).

A line of the second has what one client waits that asks for the tile again and again on a connection of its own, in milliseconds, the
median, the 99th of 100 and the slowest: alone, and beside

- 1,000 connections that send nothing, and 64 that send a byte a second;
- 1,500 that each send half a head, and again as soon as they are closed;
- 64 that asked for pictures of 6 MB two seconds ago and don't read them;
- one and 16 that ask again and again for a dear picture, which has 2,048 by 1,024 pixels and names its layers 64 times.

What a connection costs that was closed meanwhile, with the next one, counts as a part of the wait. At last the memory of the server with
the 1,000, in MB, and the processor time that it takes in 5 seconds in which they are silent, in milliseconds.

Needs wrk (Debian has it) and 1,600 descriptors. The server has 4 workers.
"""
import contextlib
import multiprocessing
import os
import pathlib
import re
import resource
import selectors
import shutil
import socket
import subprocess
import sys
import tempfile
import time

sys.path.insert(0, str(pathlib.Path(__file__).resolve().parents[1] / "tests" / "lib"))

from served import ports_of

TOP = os.path.dirname(os.path.dirname(os.path.abspath(__file__)))
PICTURE = "/wms?VERSION=1.3.0&REQUEST=GetMap&LAYERS=countries,borders&STYLES=&CRS=CRS:84&FORMAT=image/x-portable-pixmap"
TILE = PICTURE + "&BBOX=0,40,11.25,51.25&WIDTH=256&HEIGHT=256"
WHOLE = PICTURE + "&BBOX=-180,-90,180,90&WIDTH=1024&HEIGHT=512"
LARGE = PICTURE + "&BBOX=-180,-90,180,90&WIDTH=2048&HEIGHT=1024"
DEAR = LARGE.replace("LAYERS=countries,borders", "LAYERS=" + ",".join(["countries,borders"] * 32))
HALF = b"GET /wms HTTP/1.1\r\nHost: "
ASKED = [("tile", TILE), ("exception", "/wms?REQUEST=GetMap"), ("whole picture", WHOLE)]
CONNECTIONS = [4, 16, 64, 256]


def processor(pid):
    """The processor time that a process has taken, in seconds."""
    with open(f"/proc/{pid}/stat") as it:
        fields = it.read().rpartition(")")[2].split()
    return (int(fields[11]) + int(fields[12])) / os.sysconf("SC_CLK_TCK")


def resident(pid):
    with open(f"/proc/{pid}/status") as it:
        return int(re.search(r"VmRSS:\s+(\d+)", it.read())[1]) / 1024


class Server:
    def __init__(self, program, folder):
        for name in ("world.map", "anchor.ppm"):
            shutil.copy(os.path.join(TOP, "demo", name), folder)
        words = [program, "serve", "world.map", "--port", "0", "--admin-port", "0", "--workers", "4"]
        self.process = subprocess.Popen(words, stdout=subprocess.PIPE, cwd=folder)
        self.port, _ = ports_of(self.process.stdout.readline())
        self.pid = self.process.pid

    def __enter__(self):
        return self

    def __exit__(self, *_):
        self.process.kill()
        self.process.wait()


UNITS = {"us": 0.001, "ms": 1, "s": 1_000, "m": 60_000}


def milliseconds(text):
    found = re.fullmatch(r"([\d.]+)(us|ms|s|m)", text)
    return float(found[1]) * UNITS[found[2]]


def asked_by_wrk(server, target, count, seconds):
    before = processor(server.pid)
    words = ["wrk", "-t2", f"-c{count}", f"-d{seconds}", "--timeout", "60", "--latency", f"http://127.0.0.1:{server.port}{target}"]
    said = subprocess.run(words, stdout=subprocess.PIPE, text=True, check=True).stdout
    took = processor(server.pid) - before
    number = int(re.search(r"(\d+) requests in", said)[1])
    slowest = re.search(r"Latency\s+\S+\s+\S+\s+(\S+)", said)[1]
    median, most = (re.search(rf"{it}%\s+(\S+)", said)[1] for it in (50, 99))
    errors = re.search(r"Socket errors: (.*)|Non-2xx or 3xx responses: (.*)", said)
    if errors:
        print("  ", errors[0])
    rate = float(re.search(r"Requests/sec:\s+(\S+)", said)[1])
    return rate, milliseconds(median), milliseconds(most), milliseconds(slowest), 1e6 * took / max(number, 1)


def connected(port):
    return socket.create_connection(("127.0.0.1", port))


def answer_of(stream, rest):
    """Reads one answer, and returns what came behind it."""
    while b"\r\n\r\n" not in rest:
        rest += received(stream, 65_536)
    head, _, rest = rest.partition(b"\r\n\r\n")
    length = int(re.search(rb"Content-Length: (\d+)", head)[1])
    while len(rest) < length:
        rest += received(stream, 1_048_576)
    return rest[length:]


def received(stream, most):
    piece = stream.recv(most)
    if not piece:
        raise ConnectionError("closed")
    return piece


def ask(port, stream, target):
    """The connection after an answer on it, or on others where one is closed."""
    for _ in range(100):
        with contextlib.suppress(OSError):
            stream = stream or connected(port)
            stream.sendall(f"GET {target} HTTP/1.1\r\n\r\n".encode())
            answer_of(stream, b"")
            return stream
        stream = stream and stream.close()
    sys.exit("a hundred connections in turn were closed without an answer")


def waits_of(port, seconds):
    """How long each answer takes on one connection, which is opened anew where it closes."""
    waits, stream, until = [], connected(port), time.time() + seconds
    while time.time() < until:
        began = time.perf_counter()
        stream = ask(port, stream, TILE)
        waits.append(1000 * (time.perf_counter() - began))
        if len(waits) % 999 == 0:
            stream = connected(port)
        time.sleep(0.001)
    waits.sort()
    return waits[len(waits) // 2], waits[len(waits) * 99 // 100], waits[-1], len(waits)


def show(name, waits):
    print(f"{name:40} {waits[0]:8.2f} {waits[1]:8.2f} {waits[2]:8.2f}   of {waits[3]}", flush=True)


def silent(port):
    return [connected(port) for _ in range(1_000)]


def wait_beside(port):
    streams = silent(port)
    time.sleep(1_000)
    del streams


def by_the_second(port):
    """Connections that send a byte of a head each second."""
    streams = [connected(port) for _ in range(64)]
    for at in range(60):
        for stream in streams:
            stream.sendall(b"GET /wms?REQUEST=GetMap HTTP/1.1\r\nHost: a-name-of-some-length\r\n"[at : at + 1])
        time.sleep(1)


def half_heads(port):
    """Connections that each send half a head; where one is closed, another one does."""
    selector = selectors.DefaultSelector()

    def begin():
        stream = socket.socket()
        stream.setblocking(False)
        stream.connect_ex(("127.0.0.1", port))
        selector.register(stream, selectors.EVENT_WRITE)

    for _ in range(1_500):
        begin()
    while True:
        for key, events in selector.select():
            with contextlib.suppress(OSError):
                if events & selectors.EVENT_WRITE:
                    key.fileobj.send(HALF)
                    selector.modify(key.fileobj, selectors.EVENT_READ)
                    continue
                if key.fileobj.recv(65_536):
                    continue
            selector.unregister(key.fileobj)
            key.fileobj.close()
            begin()


def unread(port):
    streams = []
    for _ in range(64):
        stream = socket.socket()
        stream.setsockopt(socket.SOL_SOCKET, socket.SO_RCVBUF, 65_536)
        stream.connect(("127.0.0.1", port))
        stream.sendall(f"GET {LARGE} HTTP/1.1\r\n\r\n".encode())
        streams.append(stream)
    time.sleep(1_000)


def dear(port):
    stream = None
    while True:
        stream = ask(port, stream, DEAR)


BESIDE = [
    ("alone", wait_beside, 0),
    ("beside 1,000 silent", wait_beside, 1),
    ("beside 64 of a byte a second", by_the_second, 1),
    ("beside 1,500 half heads", half_heads, 1),
    ("beside 64 that don't read", unread, 1),
    ("beside one with dear pictures", dear, 1),
    ("beside 16 with dear pictures", dear, 16),
]


@contextlib.contextmanager
def lingering(port, work, count):
    """So many processes whose clients linger, which have begun two seconds ago."""
    processes = [multiprocessing.Process(target=work, args=(port,), daemon=True) for _ in range(count)]
    for process in processes:
        process.start()
    time.sleep(2 if count else 0)
    try:
        yield
    finally:
        for process in processes:
            process.kill()
            process.join()


def main():
    program, seconds = os.path.abspath(sys.argv[1]), int(sys.argv[2]) if len(sys.argv) > 2 else 4
    resource.setrlimit(resource.RLIMIT_NOFILE, (4_096, resource.getrlimit(resource.RLIMIT_NOFILE)[1]))
    with tempfile.TemporaryDirectory() as folder:
        for name, target in ASKED:
            for count in CONNECTIONS:
                with Server(program, folder) as server:
                    rate, median, most, slowest, each = asked_by_wrk(server, target, count, seconds)
                    print(f"{name:14} {count:4} {rate:10.0f} {median:9.3f} {most:9.3f} {slowest:9.1f} {each:9.0f}", flush=True)
        for name, work, count in BESIDE:
            with Server(program, folder) as server, lingering(server.port, work, count):
                show(name, waits_of(server.port, seconds))
        with Server(program, folder) as server:
            alone = resident(server.pid)
            streams = silent(server.port)
            time.sleep(1)
            before = processor(server.pid)
            time.sleep(5)
            print(f"1,000 silent: {resident(server.pid):.1f} MB, alone {alone:.1f}; {1000 * (processor(server.pid) - before):.0f} ms of processor in 5 s")
            del streams


if __name__ == "__main__":
    main()
