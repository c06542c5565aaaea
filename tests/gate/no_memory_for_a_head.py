#!/usr/bin/env python3
"""Serves two connections where each request for the memory of a head is refused. Usage: no_memory_for_a_head.py PROGRAM

Both, of which each has a worker of its own, are to get the answer that the server is busy, and the program is to end with 0. The memory of a head is the only
allocation of 16,384 bytes: a library that is loaded before the C library, built here with cc, refuses those.

Gate: PROGRAM; needs cc; 1 s
"""
import pathlib
import socket
import subprocess
import sys
import tempfile

sys.path.insert(0, str(pathlib.Path(__file__).resolve().parents[1] / "lib"))

from preloaded import built
from served import come_and_go, ports_of, read_all

BUSY = b"HTTP/1.1 503 Service Unavailable\r\nContent-Length: 0\r\nConnection: close\r\n\r\n"


def main():
    with tempfile.TemporaryDirectory() as folder:
        top = pathlib.Path(folder)
        (top / "empty.map").write_text("MAP END\n")
        words = [sys.argv[1], "serve", top / "empty.map", "--port", "0", "--admin-port", "0", "--workers", "2", "--connections", "2"]
        with subprocess.Popen(words, stdout=subprocess.PIPE, env={"LD_PRELOAD": built("no_memory_for_a_head", folder)}) as server:
            port, admin_port = ports_of(server.stdout.readline())
            answers = []
            for _ in range(2):
                with socket.create_connection(("127.0.0.1", port)) as client:
                    answers.append(read_all(client))
                come_and_go(admin_port)
            status = server.wait()
    if answers != [BUSY, BUSY] or status != 0:
        sys.exit(f"failed: status {status}, {answers}")
    print("ok: busy, twice")


main()
