#!/usr/bin/env python3
"""Changes a map while it is served, as an operator would with `nc`, and looks at each line and at what clients get.

Usage: administration.py PROGRAM

It serves demo/square.map with two workers. The lines that are expected come from docs/SERVICE.md, "Administration" and
"Batches", by hand: each kind of line, but for HELD and NOMEMORY, for which memory must be refused (failing_calls.py
does that). After each group of commands a client asks for the picture and the sequence, which are to be those of the
state that the lines say. Two administrators come at once; one vanishes within a line, and within a batch; one sends a
batch of 4,194,304 bytes, and one announces another byte; one is silent, while clients are answered. It looks at no
time but that what is to wait is silent for half a second. It ends with 1 where something is wrong.

Gate: PROGRAM; 2 s
"""
import os
import pathlib
import re
import socket
import struct
import subprocess
import sys

sys.path.insert(0, str(pathlib.Path(__file__).resolve().parents[1] / "lib"))

from served import ports_of, read_all

DEMO = os.path.join(os.path.dirname(os.path.dirname(os.path.dirname(os.path.abspath(__file__)))), "demo")
MOST = 4_194_304
# the seconds after which a client gives up, so that a server which says nothing ends this script
LONGEST = 60
PICTURE = "VERSION=1.3.0&REQUEST=GetMap&LAYERS=a&STYLES=&CRS=CRS:84&BBOX=0,0,4,4&WIDTH=4&HEIGHT=4&FORMAT=image/x-portable-pixmap"
WHITE, RED = b"\xff\xff\xff", b"\xff\x00\x00"
# the square from 1 1 to 3 3, and what a layer that is switched off gives
ON = b"P6\n4 4\n255\n" + 4 * WHITE + 2 * (WHITE + 2 * RED + WHITE) + 4 * WHITE
OFF = b"""<?xml version="1.0" encoding="UTF-8"?>
<ServiceExceptionReport version="1.3.0" xmlns="http://www.opengis.net/ogc">
<ServiceException code="LayerNotDefined">LAYERS</ServiceException>
</ServiceExceptionReport>
"""


def batch(commands):
    return b"BATCH %d\n%s" % (len(commands), commands)


# What is sent over one connection, which closes its side then; the lines that answer it; and then the picture and
# the sequence. The sequence begins with 0.
TRIED = [
    ("a layer off", batch(b"OFF a\n"), b"PUBLISHED 1\n", OFF, 1),
    ("and on, and a line that ends with CR", batch(b"ON a\r\n"), b"PUBLISHED 2\n", ON, 2),
    ("an empty batch", b"BATCH 0\n", b"PUBLISHED 3\n", ON, 3),
    ("nothing to publish", b"RETRY\n", b"IDLE\n", ON, 3),
    ("nothing at all", b"", b"", ON, 3),
    ("several commands at once", batch(b"OFF a\n") + b"RETRY\n" + batch(b"ON a\n") + batch(b"OFF a\n"), b"PUBLISHED 4\nIDLE\nPUBLISHED 5\nPUBLISHED 6\n", OFF, 6),
    ("off and on in one batch", batch(b"OFF a\nON a\nOFF a\nON a\n"), b"PUBLISHED 7\n", ON, 7),
    ("no such layer", batch(b"OFF a\nOFF b\n"), b"REFUSED 2 2\n", ON, 7),
    ("no such word", batch(b"off a\n"), b"REFUSED 1 1\n", ON, 7),
    ("no LF at the end", batch(b"OFF a\nON a"), b"REFUSED 2 6\n", ON, 7),
    ("a table that is cut", batch(b"APPEND 5 a\nx,y\n"), b"REFUSED 1 6\n", ON, 7),
    ("CLEAR of polygons", batch(b"OFF a\nCLEAR a\n"), b"REFUSED 2 3\n", ON, 7),
    ("APPEND to polygons", batch(b"APPEND 8 a\nx,y\n1,2\n"), b"REFUSED 1 3\n", ON, 7),
    ("one more after it was refused", batch(b"OFF b\n") + batch(b"OFF a\n"), b"REFUSED 1 2\nPUBLISHED 8\n", OFF, 8),
    ("a number of 10 digits", b"BATCH 0000000005\nON a\n", b"PUBLISHED 9\n", ON, 9),
    ("a number of 11 digits", b"BATCH 00000000006\nOFF a\n", b"MALFORMED\n", ON, 9),
    ("no number", b"BATCH \nOFF a\n", b"MALFORMED\n", ON, 9),
    ("no digit", b"BATCH 6x\nOFF a\n", b"MALFORMED\n", ON, 9),
    ("a byte more than a batch has", b"BATCH %d\n" % (MOST + 1), b"MALFORMED\n", ON, 9),
    ("an unknown word", b"PUBLISH\n" + batch(b"OFF a\n"), b"MALFORMED\n", ON, 9),
    ("an empty line", b"\n" + batch(b"OFF a\n"), b"MALFORMED\n", ON, 9),
    ("a word with CR", b"RETRY\r\n" + batch(b"OFF a\n"), b"MALFORMED\n", ON, 9),
    ("a word in small letters", b"retry\n", b"MALFORMED\n", ON, 9),
    ("33 bytes without an LF", b"x" * 33, b"MALFORMED\n", ON, 9),
    ("32 bytes, and the end", b"x" * 32, b"", ON, 9),
    ("32 bytes and an LF", b"x" * 32 + b"\n", b"MALFORMED\n", ON, 9),
    ("what was done before the fault", batch(b"OFF a\n") + b"x\n" + batch(b"ON a\n"), b"PUBLISHED 10\nMALFORMED\n", OFF, 10),
    ("the end within a line", batch(b"ON a\n") + b"RETRY", b"PUBLISHED 11\n", ON, 11),
    ("the end within a batch", b"RETRY\nBATCH 7\nOFF a\n", b"IDLE\n", ON, 11),
]


class Trial:
    def __init__(self, server):
        self.port, self.admin_port = ports_of(server.stdout.readline())
        self.wrong = 0

    def client(self):
        return socket.create_connection(("127.0.0.1", self.port), LONGEST)

    def administrator(self):
        return socket.create_connection(("127.0.0.1", self.admin_port), LONGEST)

    def look(self, name, found, expected):
        if found != expected:
            self.wrong += 1
            print(f"{name}: {found[:300]!r}, not {expected[:300]!r}" if isinstance(found, bytes) else f"{name}: {found}, not {expected}")

    def get(self, query):
        with self.client() as stream:
            stream.sendall(f"GET /wms?{query} HTTP/1.1\r\nHost: a\r\nConnection: close\r\n\r\n".encode())
            return read_all(stream).partition(b"\r\n\r\n")[2]

    def look_at_state(self, name, picture, sequence):
        """Both workers answer from the state with this picture and this sequence."""
        for worker in ("one worker", "the other"):
            self.look(f"{name}, picture by {worker}", self.get(PICTURE), picture)
        for worker in ("one worker", "the other"):
            shown = re.search(rb'updateSequence="(\d+)"', self.get("SERVICE=WMS&REQUEST=GetCapabilities"))
            self.look(f"{name}, sequence by {worker}", shown and int(shown[1]), sequence)

    def send(self, commands):
        """The lines that answer them over a connection of their own, up to the server's end."""
        with self.administrator() as stream:
            stream.sendall(commands)
            stream.shutdown(socket.SHUT_WR)
            return read_all(stream)

    def wait_for_silence(self, name, stream):
        stream.settimeout(0.5)
        try:
            self.look(f"{name}, before its turn", stream.recv(65_536), b"nothing")
        except TimeoutError:
            pass
        stream.settimeout(LONGEST)


def line_of(stream):
    """What comes up to an LF or the end."""
    found = b""
    while not found.endswith(b"\n"):
        byte = stream.recv(1)
        if not byte:
            break
        found += byte
    return found


def try_lines(trial):
    trial.look_at_state("at first", ON, 0)
    for name, commands, lines, picture, sequence in TRIED:
        trial.look(name, trial.send(commands), lines)
        trial.look_at_state(name, picture, sequence)


def try_answers_in_between(trial):
    """Each command is answered before anything behind it is sent, also where it comes byte by byte."""
    with trial.administrator() as stream:
        for commands, line in [(batch(b"OFF a\n"), b"PUBLISHED 12\n"), (b"RETRY\n", b"IDLE\n"), (batch(b"ON a\n"), b"PUBLISHED 13\n")]:
            for byte in commands:
                stream.sendall(bytes([byte]))
            trial.look("byte by byte", line_of(stream), line)
        # no half of the closing is needed: the server closes where a line is malformed
        stream.sendall(b"x\n")
        trial.look("and the end", read_all(stream), b"MALFORMED\n")
    trial.look_at_state("byte by byte", ON, 13)


def try_two(trial):
    """The second waits until the first closes."""
    with trial.administrator() as first, trial.administrator() as second:
        first.sendall(batch(b"OFF a\n"))
        trial.look("the first of two", line_of(first), b"PUBLISHED 14\n")
        second.sendall(b"RETRY\n" + batch(b"ON a\n"))
        trial.wait_for_silence("the second of two", second)
        first.sendall(batch(b""))
        trial.look("the first again", line_of(first), b"PUBLISHED 15\n")
        trial.look_at_state("before the second", OFF, 15)
        first.close()
        trial.look("the second of two", line_of(second) + line_of(second), b"IDLE\nPUBLISHED 16\n")
    trial.look_at_state("two", ON, 16)


def try_vanishing(trial):
    """What is cut isn't done, whether the client closes or its system resets the connection."""
    for name, reset in [("closed", False), ("reset", True)]:
        for part, commands in [("a line", b"BATCH 6"), ("a batch", b"BATCH 6\nOFF"), ("a batch without its LF", b"BATCH 6\nOFF a")]:
            stream = trial.administrator()
            if reset:
                stream.setsockopt(socket.SOL_SOCKET, socket.SO_LINGER, struct.pack("ii", 1, 0))
            stream.sendall(commands)
            stream.close()
            trial.look(f"after {part}, {name}", trial.send(b"RETRY\n"), b"IDLE\n")
            trial.look_at_state(f"after {part}, {name}", ON, 16)


def try_large(trial):
    """838,856 commands of 5 bytes and 4 of 6 are as many bytes as a batch has at most."""
    largest = b"OFF a\n" * 4 + b"ON a\n" * 838_856
    assert len(largest) == MOST
    trial.look("the largest batch", trial.send(batch(largest) + b"RETRY\n"), b"PUBLISHED 17\nIDLE\n")
    trial.look_at_state("the largest batch", ON, 17)
    # its last command is refused, and is numbered
    trial.look("the largest with a fault", trial.send(batch(largest[:-2] + b"b\n")), b"REFUSED 838860 2\n")
    trial.look_at_state("the largest with a fault", ON, 17)
    # The line is refused, and with it the connection. What comes behind is no batch and no command, and the next
    # connection is served.
    with trial.administrator() as stream:
        try:
            stream.sendall(batch(largest + b"\n") + batch(b"OFF a\n"))
        except OSError:
            pass
        trial.look("a byte more, with the bytes", line_of(stream), b"MALFORMED\n")
    trial.look_at_state("a byte more, with the bytes", ON, 17)
    trial.look("after it", trial.send(batch(b"OFF a\n") + batch(b"ON a\n")), b"PUBLISHED 18\nPUBLISHED 19\n")


def try_silent(trial):
    """One who says nothing holds the port, and no client."""
    with trial.administrator() as silent, trial.administrator() as next_one:
        next_one.sendall(batch(b"OFF a\n"))
        trial.look_at_state("beside a silent one", ON, 19)
        trial.wait_for_silence("behind a silent one", next_one)
        silent.sendall(b"BATCH 6\nOFF")
        trial.look_at_state("beside one who stops within a batch", ON, 19)
        silent.close()
        trial.look("behind a silent one", line_of(next_one), b"PUBLISHED 20\n")
        trial.look_at_state("after a silent one", OFF, 20)


def main():
    if len(sys.argv) != 2:
        sys.exit(__doc__.split("\n\n")[1])
    words = [os.path.abspath(sys.argv[1]), "serve", "square.map", "--port", "0", "--admin-port", "0", "--workers", "2"]
    with subprocess.Popen(words, stdout=subprocess.PIPE, cwd=DEMO) as server:
        try:
            trial = Trial(server)
            for part in (try_lines, try_answers_in_between, try_two, try_vanishing, try_large, try_silent):
                part(trial)
        finally:
            server.kill()
    print("ok" if trial.wrong == 0 else f"failed: {trial.wrong}")
    sys.exit(trial.wrong > 0)


main()
