#!/usr/bin/env python3
"""Tries clients that send more than a head, or less, or don't read. Usage: clients_that_linger.py PROGRAM [COUNT [unread]]

Each way is tried COUNT times (100 where it isn't given) on a server of one worker and on one of four. A picture of 512
by 512 pixels is asked for by a head that closes, with a body of 3 bytes in a second write, by http.client, which writes
it so and announces it: that is refused with 400, and the refusal is to come whole. So is the picture where 8,192 bytes
or a second head follow the first.

Then clients linger at a server of one worker: one sends nothing; one half a head; one half a head, and a byte each
second; one a head for a picture of 12 MB, of which it reads nothing; one has its answer, and neither sends more nor leaves.
Another client that asks beside each of them is to be answered at once. All are to be dropped: the first three after 2
seconds, as --timeout says, whether bytes come or not; and the one that stays after 3 seconds, as --idle says. The one that reads
nothing has time for half of the bytes that the system took for it, more than a minute: with `unread` as a third argument it is
waited for.

Gate: PROGRAM 10; 5 s
"""
import http.client
import os
import pathlib
import socket
import subprocess
import sys
import tempfile
import threading
import time

sys.path.insert(0, str(pathlib.Path(__file__).resolve().parents[1] / "lib"))

from served import ports_of, read_all

QUERY = "/wms?VERSION=1.3.0&REQUEST=GetMap&LAYERS=a&STYLES=&CRS=CRS:84&BBOX=0,0,4,4&FORMAT=image/x-portable-pixmap"
SMALL = QUERY + "&WIDTH=512&HEIGHT=512"
LARGE = QUERY + "&WIDTH=2048&HEIGHT=2048"
MAP = b"MAP LAYER NAME a TYPE POLYGON CLASS STYLE COLOR 10 20 30 END END FEATURE POINTS 1 1 3 1 3 3 1 3 END END END END\n"
SIZE = len(b"P6\n512 512\n255\n") + 3 * 512 * 512

def head_of(target):
    return f"GET {target} HTTP/1.1\r\nConnection: close\r\n\r\n".encode()


HALF = b"GET /wms HTTP/1.1\r\nHost: "
# a head that doesn't close, for a short answer
STAYING = b"GET /wms HTTP/1.1\r\n\r\n"
IDLE, TIMEOUT = 3, 2
# what each client sends that lingers, whether it goes on by a byte each second, and after how many seconds it is dropped
LINGERING = [
    ("nothing", b"", False, TIMEOUT),
    ("half a head", HALF, False, TIMEOUT),
    ("a byte each second", HALF, True, TIMEOUT),
]


class Server:
    def __init__(self, mapfile, workers):
        words = [sys.argv[1], "serve", mapfile, "--port", "0", "--admin-port", "0", "--workers", str(workers)]
        words += ["--idle", str(1_000 * IDLE), "--timeout", str(TIMEOUT)]
        self.process = subprocess.Popen(words, stdout=subprocess.PIPE)
        self.port, _ = ports_of(self.process.stdout.readline())
        Server.pid = self.process.pid

    def __enter__(self):
        return self.port

    def __exit__(self, *_):
        self.process.kill()
        self.process.wait()
        self.process.stdout.close()


def connected(port):
    stream = socket.create_connection(("127.0.0.1", port))
    stream.setsockopt(socket.IPPROTO_TCP, socket.TCP_NODELAY, 1)
    return stream


def is_whole(response):
    head, _, body = response.partition(b"\r\n\r\n")
    return head.startswith(b"HTTP/1.1 200 ") and len(body) == SIZE


def asked_by_library(port):
    connection = http.client.HTTPConnection("127.0.0.1", port)
    connection.request("GET", SMALL, body=b"abc")
    response = connection.getresponse()
    return response.status == 400 and response.read() == b"" and response.getheader("Connection") == "close"


def asked_with(later, pause):
    def ask(port):
        with connected(port) as stream:
            stream.sendall(head_of(SMALL))
            time.sleep(pause)
            stream.sendall(later)
            # the picture is read late, so that it stands in the server when that closes
            time.sleep(0.005)
            return is_whole(read_all(stream))

    return ask


WAYS = [
    ("body by http.client", asked_by_library),
    ("body of 3 bytes, at once", asked_with(b"abc", 0)),
    ("body of 3 bytes, later", asked_with(b"abc", 0.002)),
    ("8,192 bytes more", asked_with(b"x" * 8_192, 0)),
    ("a second head, later", asked_with(head_of(SMALL), 0.002)),
]


def tried(ask, port):
    try:
        return ask(port)
    except OSError:
        return False


def seconds_of(port, target):
    """What the answer to this takes, and whether it came whole."""
    began = time.monotonic()
    with connected(port) as stream:
        stream.sendall(head_of(target))
        whole = is_whole(read_all(stream))
    return time.monotonic() - began, whole


def dribble(stream, stop):
    while not stop.wait(1):
        try:
            stream.sendall(b"x")
        except OSError:
            return


class Lingering:
    """A client that lingers, and when it saw that it was dropped."""

    def __init__(self, port, sent, is_slow):
        self.stop = threading.Event()
        self.stream = connected(port)
        self.stream.setsockopt(socket.SOL_SOCKET, socket.SO_RCVBUF, 4_096)
        self.began, self.seconds = time.monotonic(), None
        self.stream.sendall(sent)
        if is_slow:
            threading.Thread(target=dribble, args=(self.stream, self.stop), daemon=True).start()
        self.thread = threading.Thread(target=self.watch, daemon=True)
        self.thread.start()

    def watch(self):
        """Waits for the end of what comes."""
        try:
            read_all(self.stream)
        except OSError:
            pass
        self.seconds = time.monotonic() - self.began

    def dropped(self):
        self.thread.join(3 * (IDLE + TIMEOUT))
        self.stop.set()
        self.stream.close()
        return self.seconds


def is_wrong(name, what, seconds, least, most):
    """Prints after how long something came, and says whether that is wrong."""
    print(f"{name:>36}: {what} after {'never' if seconds is None else f'{seconds:.2f} s'}", flush=True)
    return seconds is None or not least <= seconds <= most


def try_unread(mapfile, is_awaited):
    """A client that reads nothing can't see that it was dropped: the server has a descriptor less then."""
    with Server(mapfile, 1) as port:
        seconds_of(port, LARGE)
        # until the server has seen that this client has gone
        time.sleep(0.5)
        count = descriptors()
        stream = connected(port)
        stream.setsockopt(socket.SOL_SOCKET, socket.SO_RCVBUF, 4_096)
        stream.sendall(head_of(LARGE))
        time.sleep(0.5)
        began = time.monotonic()
        seconds, whole = seconds_of(port, SMALL)
        wrong = is_wrong("beside a picture that isn't read", "answered", seconds, 0, 1) or not whole
        while is_awaited and descriptors() > count and time.monotonic() < began + 200:
            time.sleep(0.01)
        if is_awaited:
            # the time of half of 2 to 4 MiB, at 16 bytes a millisecond, comes to the timeout
            wrong += is_wrong("a picture that isn't read", "dropped", time.monotonic() - began + 0.5, TIMEOUT + 55, TIMEOUT + 132.5)
        stream.close()
    return wrong


def descriptors():
    return len(os.listdir(f"/proc/{Server.pid}/fd"))


def try_lingering(mapfile):
    wrong = 0
    with Server(mapfile, 1) as port:
        alone, _ = seconds_of(port, SMALL)
        print(f"{'the picture alone':>36}: {alone:.2f} s", flush=True)
        lingering = []
        for name, sent, is_slow, most in LINGERING:
            lingering.append((name, most, Lingering(port, sent, is_slow)))
            seconds, whole = seconds_of(port, SMALL)
            wrong += is_wrong(f"beside {name}", "answered", seconds, 0, 1 + 3 * alone) or not whole
        stays = Lingering(port, STAYING, False)
        seconds, whole = seconds_of(port, SMALL)
        wrong += is_wrong("beside all, and one that stays", "answered", seconds, 0, 1 + 3 * alone) or not whole
        for name, most, client in lingering:
            wrong += is_wrong(name, "dropped", client.dropped(), most - 0.1, most + 1.5)
        wrong += is_wrong("one that stays", "dropped", stays.dropped(), IDLE - 0.1, IDLE + 1.5)
    return wrong


def try_ways(mapfile, workers, count):
    wrong = 0
    with Server(mapfile, workers) as port:
        for name, ask in WAYS:
            whole = sum(tried(ask, port) for _ in range(count))
            wrong += whole != count
            print(f"{name:>36}: {whole} of {count} whole, workers: {workers}", flush=True)
    return wrong


def main():
    count = int(sys.argv[2]) if len(sys.argv) > 2 else 100
    with tempfile.NamedTemporaryFile(suffix=".map") as mapfile:
        mapfile.write(MAP)
        mapfile.flush()
        wrong = sum(try_ways(mapfile.name, workers, count) for workers in (1, 4))
        wrong += try_lingering(mapfile.name) + try_unread(mapfile.name, "unread" in sys.argv[3:])
    print("ok" if wrong == 0 else f"failed: {wrong}")
    sys.exit(wrong)


main()
