"""Mutated request heads and lines of an administrator, for `fuzz`: both ports of a served map."""
import os
import re
import resource
import signal
import socket

from mutations import mutated
from served import ports_of
from usage_of import LONGEST, used_by

SERVED = b"""MAP LAYER NAME a TYPE POINT TEMPLATE t CLASS STYLE COLOR 255 0 0 SIZE 3 END END FEATURE POINTS 1 2 END END END
LAYER NAME c TYPE POLYGON CLASS STYLE COLOR 1 2 3 END END FEATURE POINTS 1 1 3 1 3 3 END END END END
"""
TARGET = (
    b"/wms?VERSION=1.3.0&REQUEST=GetMap&LAYERS=c,a&STYLES=&CRS=CRS:84&BBOX=0,0,4,4&WIDTH=20&HEIGHT=20"
    b"&FORMAT=image/x-portable-pixmap"
)
HEADS = [
    b"GET %s HTTP/1.1\r\nHost: a\r\n\r\n" % TARGET,
    b"GET %s HTTP/1.1\r\nHost: a\r\nConnection: keep-alive, x\r\nContent-Length: 0\r\n\r\n" % TARGET * 3,
    b"GET /?REQUEST=GetCapabilities HTTP/1.0\nHost: a\n\nGET / HTTP/1.1\n\n",
    b"GET /wms?REQUEST=GetMap HTTP/1.1\r\n\r\nHEAD / HTTP/1.1\r\n\r\nGET /x HTTP/1.1\r\nConnection: close\r\n\r\n",
    b"POST /wms HTTP/1.1\r\nContent-Length: 5\r\n\r\nabcde",
]
COMMANDS = [
    b"BATCH 6\nOFF c\nBATCH 5\nON c\nRETRY\n",
    b"BATCH 35\nCLEAR a\nAPPEND 16 a\nx,y\n1,2\n3.5,-4\nRETRY\n",
    b"RETRY\nRETRY\nBATCH 0\nBATCH 4194304\nON c\n",
    b"BATCH 5\nON zzBATCH 12345678901\n",
]
RESPONSE = re.compile(rb"HTTP/1\.1 (200 OK|400 Bad Request|404 Not Found|405 Method Not Allowed|503 Service Unavailable)\r\n((?:[A-Za-z-]+: [^\r\n]+\r\n)*)\r\n")
LINES = re.compile(rb"(PUBLISHED \d+\n|HELD\n|REFUSED \d+ [1-8]\n|NOMEMORY\n|IDLE\n)*(MALFORMED\n)?")


def statuses(got):
    """The statuses of the responses, or none where they aren't well-formed or more follows one that closes."""
    found, at = [], 0
    while at < len(got):
        head = RESPONSE.match(got, at)
        if not head:
            return None
        fields = [line.split(b": ", 1) for line in head[2].split(b"\r\n")[:-1]]
        lengths = [int(value) for name, value in fields if name == b"Content-Length" and value.isdigit()]
        closes = (b"Connection", b"close") in [tuple(field) for field in fields]
        if len(lengths) != 1 or (lengths[0] == 0) != (b"Content-Type" not in [name for name, _ in fields]):
            return None
        at = head.end() + lengths[0]
        found.append(head[1][:3].decode())
        if at > len(got) or (closes and at < len(got)):
            return None
    return found


def connect(port, sent):
    """What one connection is answered, which sends this and then no more."""
    got = []
    with socket.create_connection(("127.0.0.1", port), 6 * LONGEST) as stream:
        try:
            stream.sendall(sent)
            stream.shutdown(socket.SHUT_WR)
            for piece in iter(lambda: stream.recv(1 << 20), b""):
                got.append(piece)
        except ConnectionError:
            pass
    return b"".join(got)


def start(program, folder, count):
    """The program, started, and its two ports."""
    words = [program, "serve", "served.map", "--port", "0", "--admin-port", "0", "--timeout", "2", "--connections", str(count)]
    out, into = os.pipe()
    os.chdir(folder)
    pid = os.posix_spawn(program, words, {}, file_actions=[(os.POSIX_SPAWN_DUP2, into, 1)])
    resource.prlimit(pid, resource.RLIMIT_CPU, (6 * LONGEST, 6 * LONGEST))
    os.close(into)
    with os.fdopen(out, "rb") as output:
        return pid, ports_of(output.readline())


def seconds_of(pid):
    """The seconds of processor that a process took."""
    with open(f"/proc/{pid}/stat") as file:
        fields = file.read().rsplit(")", 1)[1].split()
    return (int(fields[11]) + int(fields[12])) / os.sysconf("SC_CLK_TCK")


def megabytes_of(pid):
    """What a process had in memory at most, or 0 where it has ended."""
    with open(f"/proc/{pid}/status") as file:
        found = re.search(r"VmHWM:\s+(\d+)", file.read())
    return int(found[1]) / 1024 if found else 0


def judge_head(got):
    """Whether what a client got is well-formed, and the statuses of it."""
    found = statuses(got)
    return found is not None, " ".join(found[:1]) if found else "nothing"


def judge_lines(got):
    found = LINES.fullmatch(got) is not None
    return found, got.split(b"\n", 1)[0].split(b" ")[0].decode("latin-1") if got else "nothing"


def ask(tried, pid, port, named, sent):
    """One connection of a client or of an administrator, and whether something is wrong with it."""
    reader, judge = named
    before = seconds_of(pid)
    got = connect(port, sent)
    is_well_formed, way = judge(got)
    took = seconds_of(pid) - before
    if is_well_formed and took <= 2 and megabytes_of(pid) <= 200:
        tried.counts[reader, way] += 1
    else:
        tried.counts[reader, "bad"] += 1
        tried.bad.append((reader, f"{took:.2f} s, {megabytes_of(pid):.0f} MB, answer {got[:200]}", sent))


def serve_all(tried, random, count):
    """Serves so many connections of both kinds. The program then ends by itself."""
    pid, ports = start(tried.program, tried.folder, count)
    sent = []
    try:
        for _ in range(count):
            sent += [mutated(random, random.choice(HEADS)), mutated(random, random.choice(COMMANDS))]
            ask(tried, pid, ports[0], ("request head", judge_head), sent[-2])
            ask(tried, pid, ports[1], ("administrator", judge_lines), sent[-1])
    except (OSError, TimeoutError) as fault:
        os.kill(pid, signal.SIGKILL)
        tried.counts["request head", "bad"] += 1
        tried.bad.append(("served", f"{fault}", b"\n--\n".join(sent)))
    used = used_by(pid)
    if used.status not in (0, -signal.SIGKILL):
        tried.bad.append(("served", f"status {used.status}", b"\n--\n".join(sent)))
