#!/usr/bin/env python3
"""Sends heads of 16,384 bytes a byte a read, and says how much processor time they take. Usage: slow_client.py PROGRAM

Each head is sent to a server of its own, of one worker, once whole and once byte by byte, each byte when the system
says that the one before was read.
A line of the table has the head, how often a thread of the server waited, and its processor time in milliseconds,
whole and byte by byte. The script fails where an answer has another status than the expected one, or the two differ,
or a byte isn't read within a minute.

Gate: PROGRAM; 3 s
"""
import os
import pathlib
import re
import socket
import struct
import subprocess
import sys
import tempfile
import time

sys.path.insert(0, str(pathlib.Path(__file__).resolve().parents[1] / "lib"))

from served import come_and_go, ports_of, read_all

LIMIT = 16_384
LONGEST = 60
FIRST = b"GET /wms?"
LAST = b" HTTP/1.1\r\n"


def padded(fields):
    """A whole head of the limit: these fields, and a query that fills what is left."""
    room = LIMIT - len(FIRST) - len(LAST) - len(fields) - 2
    return FIRST + b"a" * room + LAST + fields + b"\r\n"


HEADS = [
    # each of the 65 lines ends where nearly all bytes have come
    ("long first line, 64 fields", padded(b"x:\r\n" * 64), b"200"),
    ("64 fields of 250 bytes", padded((b"x:" + b"y" * 246 + b"\r\n") * 64), b"200"),
    ("no line ends", FIRST + b"a" * (LIMIT - len(FIRST)), b"400"),
    ("empty lines", b"\r\n" * (LIMIT // 2), b"400"),
]


def threads_of(pid):
    """The folders of the server's threads, of which one worker alone has anything to do."""
    return [f"/proc/{pid}/task/{name}" for name in os.listdir(f"/proc/{pid}/task")]


def waits_of(pid):
    """How often a thread has waited: once for each read that finds nothing yet."""
    count = 0
    for thread in threads_of(pid):
        with open(f"{thread}/status") as status:
            count += int(re.search(r"^voluntary_ctxt_switches:\s*(\d+)", status.read(), re.M).group(1))
    return count


def nanoseconds_of(pid):
    """The processor time of its threads."""
    count = 0
    for thread in threads_of(pid):
        with open(f"{thread}/schedstat") as stat:
            count += int(stat.read().split()[0])
    return count


class Unread:
    """How many bytes of a connection the server hasn't read, as the system says (sock_diag(7))."""

    def __init__(self, port, client):
        here = socket.inet_aton("127.0.0.1") + bytes(12)
        ends = struct.pack(">HH", port, client) + here + here + struct.pack("=III", 0, 0xFFFFFFFF, 0xFFFFFFFF)
        body = struct.pack("=BBBBI", socket.AF_INET, socket.IPPROTO_TCP, 0, 0, 0xFFFFFFFF) + ends
        # SOCK_DIAG_BY_FAMILY and NLM_F_REQUEST
        self.question = struct.pack("=IHHII", 16 + len(body), 20, 1, 0, 0) + body
        self.system = socket.socket(socket.AF_NETLINK, socket.SOCK_RAW, 4)

    def count(self):
        self.system.send(self.question)
        answer = self.system.recv(4096)
        # an error says that there is no such connection
        return struct.unpack_from("=I", answer, 72)[0] if struct.unpack_from("=H", answer, 4)[0] == 20 else 0


def send_slowly(client, port, head):
    """Sends each byte once the one before was read."""
    unread = Unread(port, client.getsockname()[1])
    for byte in head:
        client.sendall(bytes([byte]))
        until = time.monotonic() + LONGEST
        while unread.count():
            if time.monotonic() > until:
                sys.exit("failed: a byte isn't read")
    unread.system.close()


def answered(mapfile, head, is_slow):
    """The response to a head, how often the worker waited, and its processor time in milliseconds."""
    words = [sys.argv[1], "serve", mapfile, "--port", "0", "--admin-port", "0", "--workers", "1", "--connections", "2", "--timeout", "3600"]
    with subprocess.Popen(words, stdout=subprocess.PIPE) as server:
        port, admin_port = ports_of(server.stdout.readline())
        client = socket.create_connection(("127.0.0.1", port))
        client.setsockopt(socket.IPPROTO_TCP, socket.TCP_NODELAY, 1)
        time.sleep(0.1)
        before, began = waits_of(server.pid), nanoseconds_of(server.pid)
        if is_slow:
            send_slowly(client, port, head)
        else:
            client.sendall(head)
        # no further head comes: else the connection stays open
        client.shutdown(socket.SHUT_WR)
        response = read_all(client)
        waits, spent = waits_of(server.pid) - before, nanoseconds_of(server.pid) - began
        client.close()
        # the second connection at each port lets the server end
        for end in (port, admin_port, admin_port):
            come_and_go(end)
        server.wait()
    return response, waits, spent / 1_000_000


def main():
    wrong = 0
    with tempfile.NamedTemporaryFile(suffix=".map") as mapfile:
        mapfile.write(b"MAP END\n")
        mapfile.flush()
        for name, head, status in HEADS:
            assert len(head) == LIMIT
            whole, waits, spent = answered(mapfile.name, head, False)
            slow, slow_waits, slow_spent = answered(mapfile.name, head, True)
            print(f"{name:>28} {waits:>6} {spent:>8.2f} ms {slow_waits:>6} {slow_spent:>8.2f} ms")
            wrong += whole != slow or whole.split(b" ")[1] != status
    print("ok" if wrong == 0 else f"failed: {wrong}")
    sys.exit(wrong)


main()
