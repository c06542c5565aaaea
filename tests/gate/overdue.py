#!/usr/bin/env python3
"""Tries clients whose requests are there while their worker makes the answers of others. Usage: overdue.py PROGRAM

The server has one worker, and a request is dear: a polygon of 65,536 spikes that is asked for as often as makes one answer
take a quarter of a second, some. As many clients send one such request each that they take twice as long as --timeout
gives a head: all at once, 60 ms after they connected, and in pieces. Each is to be answered: its request stood there all
the time. Then a kept connection asks for an answer that takes longer than --idle, and again at once: it is to be answered,
since its time begins when it has its answer. The exit status is 1 where a client is closed without its answer.

Gate: PROGRAM; 9 s
"""
import os
import pathlib
import socket
import subprocess
import sys
import tempfile
import threading
import time

sys.path.insert(0, str(pathlib.Path(__file__).resolve().parents[1] / "lib"))

from served import ports_of, read_all

SPIKES, LAYERS = 65_536, 16
TIMEOUT, IDLE = 1, 300  # seconds, milliseconds
DEAR = 0.25  # seconds of a dear answer, some
MOST = 24  # clients


def spikes():
    return " ".join(f"{4 * i / SPIKES:.6f} {-1 if i % 2 else 5}" for i in range(SPIKES))


def write_map(path):
    ring = spikes()
    layers = (f'LAYER NAME "d{k}" TYPE POLYGON CLASS STYLE COLOR 1 2 3 END END FEATURE POINTS {ring} END END END\n' for k in range(LAYERS))
    with open(path, "w", encoding="ascii") as file:
        file.write(f"MAP {''.join(layers)} END\n")


def head(layers, height, closes=True):
    names = ",".join(f"d{k}" for k in range(layers))
    query = f"VERSION=1.3.0&REQUEST=GetMap&LAYERS={names}&STYLES=&CRS=CRS:84&BBOX=0,0,4,4&WIDTH=16&HEIGHT={height}&FORMAT=image/x-portable-pixmap"
    return f"GET /wms?{query} HTTP/1.1\r\n{'Connection: close' + chr(13) + chr(10) if closes else ''}\r\n".encode()


class Server:
    def __init__(self, folder):
        words = [sys.argv[1], "serve", os.path.join(folder, "dear.map"), "--port", "0", "--admin-port", "0", "--workers", "1"]
        words += ["--timeout", str(TIMEOUT), "--idle", str(IDLE)]
        self.process = subprocess.Popen(words, stdout=subprocess.PIPE)
        self.port = ports_of(self.process.stdout.readline())[0]

    def __enter__(self):
        return self.port

    def __exit__(self, *_):
        self.process.kill()
        self.process.wait()
        self.process.stdout.close()


def connected(port):
    stream = socket.create_connection(("127.0.0.1", port), timeout=60)
    stream.setsockopt(socket.IPPROTO_TCP, socket.TCP_NODELAY, 1)
    return stream


def answered(port, request):
    """The seconds that an answer takes."""
    began = time.monotonic()
    with connected(port) as stream:
        stream.sendall(request)
        assert read_all(stream).startswith(b"HTTP/1.1 200 ")
    return time.monotonic() - began


def dear_request(port):
    """A request whose answer takes a quarter of a second, some, and how long it takes."""
    for height in (256, 512, 1024, 2048):
        for layers in (1, 2, 4, 8, LAYERS):
            took = answered(port, head(layers, height))
            if took >= DEAR:
                return layers, height, took
    return LAYERS, 2048, took


def at_once(stream, request):
    stream.sendall(request)


def later(stream, request):
    time.sleep(0.06)
    stream.sendall(request)


def in_pieces(stream, request):
    for at in range(0, len(request), 100):
        stream.sendall(request[at : at + 100])
        time.sleep(0.005)


def outcome(port, send, request):
    """What a client gets: the start of an answer, or how its connection ended without one."""
    try:
        with connected(port) as stream:
            send(stream, request)
            return read_all(stream)[:15].decode("latin-1") or "no byte"
    except OSError as error:
        return type(error).__name__


def crowd(port, send, request, count):
    """What each of some clients got that ask at the same time."""
    got = []
    clients = [threading.Thread(target=lambda: got.append(outcome(port, send, request))) for _ in range(count)]
    for client in clients:
        client.start()
    for client in clients:
        client.join()
    return {one: got.count(one) for one in set(got)}


def asks_again(port, layers, height):
    """What a kept connection gets that asks again right behind its answer, which took longer than --idle."""
    try:
        with connected(port) as stream:
            stream.sendall(head(layers, height, closes=False))
            began = stream.recv(15)
            rest = 10**9
            data = began
            while len(data) < rest:
                data += stream.recv(65_536)
                front, found, _ = data.partition(b"\r\n\r\n")
                if found:
                    length = next(int(line.split(b":")[1]) for line in front.split(b"\r\n") if line.lower().startswith(b"content-length"))
                    rest = len(front) + 4 + length
            time.sleep(IDLE / 2_000)
            stream.sendall(head(1, 16))
            return read_all(stream)[:15].decode("latin-1") or "no byte"
    except OSError as error:
        return type(error).__name__


def main():
    if len(sys.argv) != 2:
        sys.exit(__doc__.split("\n\n")[0])
    failed = False
    with tempfile.TemporaryDirectory() as folder:
        write_map(os.path.join(folder, "dear.map"))
        with Server(folder) as port:
            layers, height, took = dear_request(port)
            count = min(max(int(2 * TIMEOUT / took) + 2, 4), MOST)
            for text, send in (("at once", at_once), ("60 ms later", later), ("in pieces", in_pieces)):
                got = crowd(port, send, head(layers, height), count)
                print(f"{count} clients that ask {text}, of whom each waits for the others' answers: {got}", flush=True)
                failed |= got != {"HTTP/1.1 200 OK": count}
            again = asks_again(port, min(4 * layers, LAYERS), height)
            print(f"a kept connection that asks again behind an answer that took longer than --idle: {again}")
            failed |= again != "HTTP/1.1 200 OK"
    sys.exit(failed)


if __name__ == "__main__":
    main()
