#!/usr/bin/env python3
"""Tries crowds beside honest clients. Usage: crowds.py PROGRAM [HALVES [SECONDS]]

1,500 clients connect to a server of four workers, and each sends its request 60 ms later: more than the 1,024 for which
it has slots, so that the others wait. Each is to be answered. Then HALVES clients (1,100 where it isn't given) send one
byte of a head each, and a new one comes for each that is closed. Meanwhile, for SECONDS (4), honest clients ask: two over
a connection that they keep, two over a new one each time. None is to be closed without a byte. Up to 3,000 halves each
new one is to be answered within five seconds; on a machine that does nothing else it takes two. Where the system gives
this script too few descriptors it ends with 77.

Gate: PROGRAM; 6 s
"""
import os
import pathlib
import resource
import select
import socket
import subprocess
import sys
import tempfile
import threading
import time

sys.path.insert(0, str(pathlib.Path(__file__).resolve().parents[1] / "lib"))

from served import ports_of, read_all

BURST, PAUSE = 1_500, 0.06
MAP = b"MAP LAYER NAME a TYPE POLYGON CLASS STYLE COLOR 10 20 30 END END FEATURE POINTS 1 1 3 1 3 3 1 3 END END END END\n"
QUERY = b"VERSION=1.3.0&REQUEST=GetMap&LAYERS=a&STYLES=&CRS=CRS:84&BBOX=0,0,4,4&WIDTH=64&HEIGHT=64&FORMAT=image/x-portable-pixmap"
BODY = len(b"P6\n64 64\n255\n") + 3 * 64 * 64
KEPT = b"GET /wms?" + QUERY + b" HTTP/1.1\r\n\r\n"
CLOSING = b"GET /wms?" + QUERY + b" HTTP/1.1\r\nConnection: close\r\n\r\n"
LATE = 5.0  # seconds
LACKING = 77


class Server:
    def __init__(self, folder):
        path = os.path.join(folder, "a.map")
        with open(path, "wb") as file:
            file.write(MAP)
        words = [sys.argv[1], "serve", path, "--port", "0", "--admin-port", "0", "--workers", "4"]
        self.process = subprocess.Popen(words, stdout=subprocess.PIPE)
        self.port = ports_of(self.process.stdout.readline())[0]

    def __enter__(self):
        return self.port

    def __exit__(self, *_):
        self.process.kill()
        self.process.wait()
        self.process.stdout.close()


def opened(port):
    """A connection that is being opened."""
    stream = socket.socket()
    stream.setblocking(False)
    stream.connect_ex(("127.0.0.1", port))
    return stream


def is_whole(answer):
    head, _, body = answer.partition(b"\r\n\r\n")
    return head.startswith(b"HTTP/1.1 200 ") and len(body) == BODY


def burst(port):
    """What clients get that connect all at once, and send a moment later."""
    streams = [opened(port) for _ in range(BURST)]
    time.sleep(PAUSE)
    got = {}
    # all have sent before the first reads its answer
    for stream in streams:
        send_when_ready(stream)
    for stream in streams:
        read_rest(stream, got)
    return got


def send_when_ready(stream):
    stream.settimeout(30)
    try:
        stream.sendall(CLOSING)
    except OSError:
        pass


def read_rest(stream, got):
    try:
        answer = read_all(stream)
        outcome = "answered" if is_whole(answer) else "no byte" if not answer else "part"
    except OSError as error:
        outcome = type(error).__name__
    stream.close()
    got[outcome] = got.get(outcome, 0) + 1


class Halves(threading.Thread):
    """Clients with one byte of a head each, as many at each time."""

    def __init__(self, port, count):
        super().__init__(daemon=True)
        self.port, self.count, self.is_over, self.held = port, count, threading.Event(), 0

    def run(self):
        streams, poller = {}, select.epoll()
        while not self.is_over.is_set():
            for _ in range(min(self.count - len(streams), 400)):
                stream = opened(self.port)
                streams[stream.fileno()] = stream
                poller.register(stream, select.EPOLLOUT | select.EPOLLRDHUP | select.EPOLLONESHOT)
            for number, event in poller.poll(0.05):
                self.heed(streams, poller, number, event)
            self.held = len(streams)
        for stream in streams.values():
            stream.close()

    def heed(self, streams, poller, number, event):
        """A connection that is open has its byte; one that was closed goes."""
        if event & (select.EPOLLHUP | select.EPOLLERR | select.EPOLLRDHUP):
            streams.pop(number).close()
            return
        try:
            streams[number].send(b"G")
            poller.modify(number, select.EPOLLRDHUP | select.EPOLLONESHOT)
        except OSError:
            streams.pop(number).close()


def whole_answer(stream):
    """The next answer of a kept connection; what came where it ended."""
    data = b""
    while not is_whole(data):
        piece = stream.recv(65_536)
        if not piece:
            return data
        data += piece
    return data


class Honest(threading.Thread):
    """A client that asks again and again: how long each answer took, and how others ended."""

    def __init__(self, port, keeps):
        super().__init__(daemon=True)
        self.port, self.keeps, self.is_over = port, keeps, threading.Event()
        self.times, self.ends, self.stream = [], {}, None

    def run(self):
        while not self.is_over.is_set():
            began = time.monotonic()
            try:
                answer = self.ask()
                outcome = None if is_whole(answer) else "no byte" if not answer else "part"
            except OSError as error:
                outcome = type(error).__name__
            if outcome is None:
                self.times.append(time.monotonic() - began)
            else:
                self.ends[outcome] = self.ends.get(outcome, 0) + 1
                self.stream = None
            time.sleep(0.005)

    def ask(self):
        if not self.keeps:
            with socket.create_connection(("127.0.0.1", self.port), timeout=30) as stream:
                stream.sendall(CLOSING)
                return read_all(stream)
        if self.stream is None:
            self.stream = socket.create_connection(("127.0.0.1", self.port), timeout=30)
        self.stream.sendall(KEPT)
        return whole_answer(self.stream)


def beside_halves(port, count, seconds):
    """How honest clients fared beside so many halves."""
    halves, honest = Halves(port, count), [Honest(port, keeps) for keeps in (True, True, False, False)]
    halves.start()
    time.sleep(1.5)
    for client in honest:
        client.start()
    time.sleep(seconds)
    for client in honest:
        client.is_over.set()
    for client in honest:
        client.join()
    halves.is_over.set()
    halves.join()
    return halves.held, honest


def has_descriptors(count):
    _, most = resource.getrlimit(resource.RLIMIT_NOFILE)
    if most != resource.RLIM_INFINITY and most < count:
        return False
    resource.setrlimit(resource.RLIMIT_NOFILE, (count, most))
    return True


def report(honest, halves):
    """Prints how honest clients fared; whether each was answered, and in time."""
    well = True
    for keeps in (True, False):
        group = [client for client in honest if client.keeps == keeps]
        times = sorted(time for client in group for time in client.times)
        ends = [client.ends for client in group if client.ends]
        print(f"  {'kept' if keeps else 'new'}: {len(times)} answers, the longest {times[-1] if times else 0:.2f} s, not answered {ends or 'none'}", flush=True)
        well &= bool(times) and not ends and (keeps or halves > 3_000 or times[-1] <= LATE)
    return well


def main():
    if len(sys.argv) not in (2, 3, 4):
        sys.exit(__doc__.split("\n\n")[0])
    halves, seconds = (int(sys.argv[at]) if len(sys.argv) > at else other for at, other in ((2, 1_100), (3, 4)))
    if not has_descriptors(max(BURST, halves) + 100):
        print("more descriptors than the system gives are wanted")
        sys.exit(LACKING)
    with tempfile.TemporaryDirectory() as folder:
        with Server(folder) as port:
            got = burst(port)
            print(f"{BURST} clients that send {1_000 * PAUSE:.0f} ms after they connected: {got}", flush=True)
        with Server(folder) as port:
            held, honest = beside_halves(port, halves, seconds)
            print(f"{halves} halves, of which {held} were there at the end:", flush=True)
            well = report(honest, halves)
    sys.exit(got != {"answered": BURST} or not well)


if __name__ == "__main__":
    main()
