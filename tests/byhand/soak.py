#!/usr/bin/env python3
"""Serves a map for some minutes to clients of all kinds while batches are published, and compares each answer.

Usage: soak.py PROGRAM [MINUTES]

MINUTES is 5 where it isn't given. Four workers serve demo/lakes.map, a copy with a layer of points behind it. Clients
ask over kept and over new connections for pictures, feature information and capabilities; others leave at any byte of
their request or of its answer, read slowly, or send nothing. An administrator publishes batches, which come back to
the same features after five.

Each answer has to be, byte by byte, that of `run` on the same map after as many batches as some state had between the
last one reported before the request and the last one sent before the answer's end. The memory after the first minute
may grow by a twentieth at most, and once all clients have left, threads and descriptors are as many as at first. The
script ends with 1 where one of these isn't so.
"""
import collections
import http.client
import os
import pathlib
import random
import re
import shutil
import socket
import subprocess
import sys
import tempfile
import threading
import time

sys.path.insert(0, str(pathlib.Path(__file__).resolve().parents[1] / "lib"))

from served import ports_of

DEMO = pathlib.Path(__file__).resolve().parents[2] / "demo"
LAYER = """  LAYER NAME "stops" TYPE POINT TEMPLATE t PROCESSING "ITEMS=x,y" CLASS STYLE COLOR 10 20 30 SIZE 9 END END
    FEATURE ITEMS "1;1" POINTS 1 1 END END END
END
"""
ROWS = b"x,y\n" + b"".join(b"%d,%d\n" % (x, y) for x in range(0, 12) for y in range(0, 8))
# what is published in turn: the sixth batch finds the features of the first
CYCLE = [
    b"CLEAR stops\nAPPEND %d stops\n%s" % (len(ROWS), ROWS),
    b"OFF stops\n",
    b"ON stops\nCLEAR stops\n",
    b"APPEND 8 stops\nx,y\n3,4\n",
    b"APPEND 8 stops\nx,y\n9,2\nOFF lakes\nON lakes\n",
]
VIEW = "VERSION=1.3.0&LAYERS={0}&STYLES=&CRS=CRS:84&BBOX=0,0,12,8&WIDTH={1}&HEIGHT={1}&FORMAT=image/x-portable-pixmap"
QUERIES = [
    "REQUEST=GetMap&" + VIEW.format("lakes,stops", 64),
    "REQUEST=GetMap&" + VIEW.format("stops", 300) + "&BGCOLOR=0x102030",
    "REQUEST=GetFeatureInfo&" + VIEW.format("stops", 64) + "&QUERY_LAYERS=stops&INFO_FORMAT=text/plain&I=16&J=31&FEATURE_COUNT=9",
    "SERVICE=WMS&REQUEST=GetCapabilities",
]
CAPABILITIES = 3
SEQUENCE = re.compile(rb'updateSequence="\d+"')


def played(program, folder):
    """What `run` answers to each query at the start and after each batch of two turns of the cycle."""
    script = b"".join(b"QUERY %s\n" % query.encode() for query in QUERIES)
    steps = [script] + [b"BATCH %d\n%s%s" % (len(batch), batch, script) for batch in 2 * CYCLE]
    (folder / "soak.script").write_bytes(b"".join(steps))
    out = subprocess.run([program, "run", "soak.map", "soak.script"], cwd=folder, stdout=subprocess.PIPE, check=True).stdout
    answers, at = [], 0
    while at < len(out):
        line, at = out[at : out.index(b"\n", at)], out.index(b"\n", at) + 1
        if line.startswith(b"ANSWER"):
            size, is_picture = int(line.split()[2]), line.split()[1].startswith(b"image")
            length = 2 * size + -(-size // 32) if is_picture else size
            body, at = out[at : at + length], at + length
            answers.append(bytes.fromhex(body.decode()) if is_picture else body)
    count = len(QUERIES)
    return [answers[first : first + count] for first in range(0, len(answers), count)]


class Soak:
    """The served map, what was published of it, and what was found wrong."""

    def __init__(self, program, folder):
        self.expected = played(program, folder)
        words = [program, "serve", "soak.map", "--port", "0", "--admin-port", "0", "--workers", "4", "--timeout", "2", "--idle", "50"]
        self.process = subprocess.Popen(words, cwd=folder, stdout=subprocess.PIPE)
        self.port, self.admin = ports_of(self.process.stdout.readline())
        self.sent, self.reported, self.stop = 0, 0, threading.Event()
        self.counts, self.wrong = collections.Counter(), []

    def proc_text(self, name):
        return pathlib.Path(f"/proc/{self.process.pid}/{name}").read_text()

    def resident(self):
        return int(re.search(r"VmRSS:\s+(\d+)", self.proc_text("status"))[1])

    def held(self):
        """How many threads and descriptors the program has."""
        return tuple(len(os.listdir(f"/proc/{self.process.pid}/{name}")) for name in ("task", "fd"))

    def answer_after(self, count, query):
        """The answer to a query after so many batches."""
        turns = len(CYCLE)
        body = self.expected[count if count < turns else turns + count % turns][query]
        return SEQUENCE.sub(b'updateSequence="%d"' % count, body) if query == CAPABILITIES else body

    def judge(self, kind, query, before, body):
        after = self.sent
        if any(body == self.answer_after(count, query) for count in range(before, after + 1)):
            self.counts[kind] += 1
        else:
            self.wrong.append(f"{kind}: query {query}, batches {before} to {after}: {body[:120]}")

    def connect(self):
        return socket.create_connection(("127.0.0.1", self.port), 120)


def head_of(query):
    return f"GET /wms?{QUERIES[query]} HTTP/1.1\r\nHost: a\r\nConnection: close\r\n\r\n".encode()


def ask(soak, connection, kind):
    """One request over a connection of the library."""
    query, before = random.randrange(len(QUERIES)), soak.reported
    connection.request("GET", "/wms?" + QUERIES[query])
    soak.judge(kind, query, before, connection.getresponse().read())


def keeping(soak):
    """Many requests over one connection; the server may close it while it is idle."""
    connection = http.client.HTTPConnection("127.0.0.1", soak.port, timeout=120)
    for _ in range(random.randint(2, 40)):
        try:
            ask(soak, connection, "kept connection")
        except (http.client.RemoteDisconnected, ConnectionError):
            connection.close()
            soak.counts["kept connection, closed while idle"] += 1
    connection.close()


def renewing(soak):
    connection = http.client.HTTPConnection("127.0.0.1", soak.port, timeout=120)
    ask(soak, connection, "new connection")
    connection.close()


def leaving(soak):
    """Sends a part of a request, or reads a part of its answer, and leaves."""
    head = head_of(random.randrange(len(QUERIES)))
    with soak.connect() as stream:
        cut = random.randint(0, 2 * len(head))
        stream.sendall(head[:cut])
        if cut >= len(head):
            stream.recv(random.randint(1, 5_000))
    soak.counts["left"] += 1


def reading_slowly(soak):
    query, before = 1, soak.reported
    with soak.connect() as stream:
        stream.setsockopt(socket.SOL_SOCKET, socket.SO_RCVBUF, 4_096)
        stream.sendall(head_of(query))
        got = b""
        for piece in iter(lambda: stream.recv(20_000), b""):
            got += piece
            time.sleep(0.01)
    soak.judge("slow reader", query, before, got.partition(b"\r\n\r\n")[2])


def silent(soak):
    """Sends nothing, or half a head, until the server gives it up."""
    with soak.connect() as stream:
        stream.sendall(random.choice([b"", b"GET /wms HTT"]))
        soak.stop.wait(random.uniform(0, 3))
    soak.counts["silent"] += 1
    soak.stop.wait(2)


def repeat(soak, act):
    while not soak.stop.is_set():
        try:
            act(soak)
        except (OSError, http.client.HTTPException) as fault:
            # the last client of a stopped run may find a full queue; any other fault is one of the server
            if act is leaving:
                continue
            soak.wrong.append(f"{act.__name__}: {fault!r}")


def administer(soak):
    """Publishes batches, some ten a second."""
    with socket.create_connection(("127.0.0.1", soak.admin), 120) as stream, stream.makefile("rb") as lines:
        while not soak.stop.is_set():
            batch = CYCLE[soak.sent % len(CYCLE)]
            soak.sent += 1
            stream.sendall(b"BATCH %d\n%s" % (len(batch), batch))
            if lines.readline() != b"PUBLISHED %d\n" % soak.sent:
                soak.wrong.append(f"batch {soak.sent} wasn't published")
                return
            soak.reported = soak.sent
            time.sleep(random.uniform(0, 0.2))
    soak.counts["batches"] = soak.sent


def last_for(soak, minutes):
    """Runs all clients, and gives the memory after the first minute and at the end."""
    acts = [keeping, keeping, renewing, renewing, leaving, reading_slowly, silent]
    threads = [threading.Thread(target=repeat, args=(soak, act)) for act in acts]
    threads.append(threading.Thread(target=administer, args=(soak,)))
    for thread in threads:
        thread.start()
    time.sleep(60)
    first = soak.resident()
    time.sleep(60 * (minutes - 1))
    last = soak.resident()
    soak.stop.set()
    for thread in threads:
        thread.join()
    return first, last


def main():
    if len(sys.argv) not in (2, 3):
        sys.exit(__doc__.split("\n\n")[1])
    minutes = int(sys.argv[2]) if len(sys.argv) == 3 else 5
    with tempfile.TemporaryDirectory() as name:
        folder = pathlib.Path(name)
        shutil.copy(DEMO / "lakes.map", folder)
        text = (DEMO / "lakes.map").read_text().rstrip().removesuffix("END")
        (folder / "soak.map").write_text(text + LAYER)
        soak = Soak(os.path.abspath(sys.argv[1]), folder)
        time.sleep(0.5)
        held = soak.held()
        first, last = last_for(soak, minutes)
        time.sleep(5)
        after = soak.held()
        soak.process.kill()
        soak.process.wait()
    if last > 1.05 * first:
        soak.wrong.append("the memory grew")
    if after != held:
        soak.wrong.append("threads or descriptors are left")
    print("".join(f"{count:,} {kind}\n" for kind, count in sorted(soak.counts.items())), end="")
    print(f"memory after a minute {first} KB, after {minutes} {last} KB; threads and descriptors {held} at first, {after} at the end")
    for wrong in soak.wrong[:20]:
        print("wrong:", wrong)
    sys.exit(bool(soak.wrong))


if __name__ == "__main__":
    main()
