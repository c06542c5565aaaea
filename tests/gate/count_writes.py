#!/usr/bin/env python3
"""Counts the calls by which the program writes its answers to a socket (needs strace).

Usage: count_writes.py PROGRAM

An answer of less than 4,096 bytes has to leave in one call, and so has the line that answers a command of an
administrator. Ends with 1 where one doesn't.

Gate: PROGRAM; needs strace; 1 s
"""
import os
import pathlib
import re
import socket
import subprocess
import sys
import tempfile

sys.path.insert(0, str(pathlib.Path(__file__).resolve().parents[1] / "lib"))

from served import ports_of, read_all

HEAD = b"GET /wms?%s HTTP/1.1\r\nHost: x\r\n\r\n"
LAST = b"GET /wms?%s HTTP/1.1\r\nConnection: close\r\n\r\n"
MAP = "MAP LAYER NAME a TYPE POINT END END\n"
SMALL = (b"VERSION=1.3.0&REQUEST=GetMap&LAYERS=a&STYLES=&CRS=CRS:84&BBOX=0,0,4,4&WIDTH=30&HEIGHT=40"
         b"&FORMAT=image/x-portable-pixmap")
QUERIES = [b"", b"REQUEST=GetCapabilities&SERVICE=WMS", SMALL]
# a batch that is published, one that is refused, nothing to publish, and no command
COMMANDS = b"BATCH 6\nOFF a\nBATCH 6\nOFF b\nRETRY\nx\n"
LINES = b"PUBLISHED 1\nREFUSED 1 2\nIDLE\nMALFORMED\n"


def read_answer(stream):
    """The bytes of an answer, by its Content-Length."""
    data = b""
    while b"\r\n\r\n" not in data:
        data += stream.recv(65_536)
    head, body = data.split(b"\r\n\r\n", 1)
    length = int(re.search(rb"Content-Length: (\d+)", head).group(1))
    while len(body) < length:
        body += stream.recv(65_536)
    return len(head) + 4 + length


def main():
    """Asks each query on one connection, sends the commands on another, and counts the calls that wrote to them."""
    program = os.path.abspath(sys.argv[1])
    with tempfile.TemporaryDirectory() as folder:
        path, trace = os.path.join(folder, "map"), os.path.join(folder, "trace")
        with open(path, "w", encoding="utf-8") as file:
            file.write(MAP)
        words = ["strace", "-f", "-o", trace, "-e", "trace=write,writev,sendto,sendmsg", program,
                 "serve", path, "--port", "0", "--admin-port", "0", "--connections", "1"]
        with subprocess.Popen(words, stdout=subprocess.PIPE) as server:
            port, admin_port = ports_of(server.stdout.readline())
            sizes = []
            with socket.create_connection(("127.0.0.1", port)) as stream:
                for number, query in enumerate(QUERIES):
                    stream.sendall((HEAD if number + 1 < len(QUERIES) else LAST) % query)
                    sizes.append(read_answer(stream))
            with socket.create_connection(("127.0.0.1", admin_port)) as stream:
                stream.sendall(COMMANDS)
                lines = read_all(stream)
            server.wait()
        with open(trace, encoding="utf-8", errors="replace") as file:
            # a call beside which another thread made one stands in two lines
            calls = [line for line in file if ("HTTP/1.1" in line or "sendto" in line) and "resumed>" not in line]
    answers = [line for line in calls if "HTTP/1.1" in line]
    left = len(calls) - len(answers)
    print(f"{len(sizes)} answers of {', '.join(map(str, sizes))} bytes left in {len(answers)} calls, {lines.count(10)} lines in {left}")
    sys.exit(0 if len(answers) == len(sizes) and max(sizes) < 4_096 and lines == LINES and left == 4 else 1)


if __name__ == "__main__":
    main()
