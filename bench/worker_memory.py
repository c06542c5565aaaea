#!/usr/bin/env python3
"""Says how much memory a served map takes while each worker answers the largest picture at once.

Usage: worker_memory.py PROGRAM [MAPFILE]

The map is that of demo/world.map, or of another MAPFILE with its layers, as the smoothed demo/smooth.map. The picture is the
world on 2,048 by 2,048 pixels as a transparent arbitrary map, asked for by as many clients as there are workers, which take
nothing of it until all are written. For 1, 4, 8, 16 and 32 workers it prints the memory that was resident before and at most,
and what that is for each worker. It ends with 1 where a picture isn't answered.
"""
import os
import pathlib
import re
import socket
import subprocess
import sys
import time

sys.path.insert(0, str(pathlib.Path(__file__).resolve().parents[1] / "tests" / "lib"))

from served import ports_of

TOP = os.path.dirname(os.path.dirname(os.path.realpath(__file__)))
QUERY = (
    "VERSION=1.3.0&REQUEST=GetMap&LAYERS=countries,borders,ports&STYLES=&CRS=CRS:84&BBOX=-180,-90,180,90&WIDTH=2048&HEIGHT=2048"
    "&FORMAT=image/x-portable-arbitrarymap&TRANSPARENT=TRUE"
)
LENGTH = 4 * 2048 * 2048


def memory(process, name):
    with open(f"/proc/{process.pid}/status") as status:
        return int(re.search(rf"{name}:\s+(\d+)", status.read()).group(1)) / 1024


def asked(port):
    stream = socket.create_connection(("127.0.0.1", port))
    stream.sendall(f"GET /wms?{QUERY} HTTP/1.1\r\nHost: x\r\nConnection: close\r\n\r\n".encode())
    return stream


def length_of(stream):
    """How many bytes come up to the end."""
    count = 0
    while data := stream.recv(1 << 20):
        count += len(data)
    return count


def look(program, mapfile, workers):
    words = [program, "serve", mapfile, "--port", "0", "--admin-port", "0", "--workers", str(workers)]
    with subprocess.Popen(words, stdout=subprocess.PIPE) as process:
        try:
            port, _ = ports_of(process.stdout.readline())
            before = memory(process, "VmRSS")
            streams = [asked(port) for _ in range(workers)]
            # No client reads, so that each worker holds its picture and the body of its answer.
            time.sleep(2 + workers / 2)
            at_once = memory(process, "VmRSS")
            lengths = [length_of(stream) for stream in streams]
            most = memory(process, "VmHWM")
        finally:
            process.kill()
    print(f"{workers} workers: {before:.0f} MB before, {at_once:.0f} while all wait, {most:.0f} at most: {(most - before) / workers:.1f} for each")
    return all(length > LENGTH for length in lengths)


def main():
    if len(sys.argv) not in (2, 3):
        sys.exit(__doc__.split("\n\n")[1])
    mapfile = sys.argv[2] if len(sys.argv) == 3 else os.path.join(TOP, "demo", "world.map")
    answered = [look(os.path.abspath(sys.argv[1]), mapfile, workers) for workers in (1, 4, 8, 16, 32)]
    sys.exit(0 if all(answered) else "a picture wasn't answered")


if __name__ == "__main__":
    main()
