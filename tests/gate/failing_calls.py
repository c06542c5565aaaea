#!/usr/bin/env python3
"""Lets each call of the program for memory, for bytes and for a thread fail in turn.

Usage: failing_calls.py PROGRAM [EVERY]

A library that is loaded before the C library, built here with cc, counts the calls and fails the one of a number, or
lets it move one byte alone. For refusals.py it can count calls for memory between two marks alone. Maps of demo/ are checked
and played; sessions of a map's own ask for a picture with labels, for PNG of few colours, of many and of more than a palette
has, for the capabilities document and for feature information; and a map is served by two workers, to three clients
and three administrators, who change it between the clients' requests. What comes out may be less than the right answer,
never another: a reply is right or NOMEMORY; where a file or a stream fails, what was written is a prefix of the right
output, with the status of that failure; the message on a fault may be missing, and with `--explain` the line on memory may
stand in their place; where a call moves one byte, nothing changes. Of what is served each picture is, by hand, that of
the state which the lines of the administration leave, where a line that is cut or missing leaves two or three; at most
one of the six connections has less than its whole answer, 503, BUSY, HELD or NOMEMORY; and where the service fails, no client
is answered. The program always ends by itself, once so many connections as were asked for came at each port.

With EVERY only every so-many-th call fails. The script prints how many calls each kind has while it lets them fail,
and at the end how many it let fail. It ends with 1 where something else came out, or a run took longer than 30 s.

Gate: PROGRAM 3; needs cc; 5 s
"""
import os
import pathlib
import re
import socket
import subprocess
import sys
import tempfile
import threading
import time

sys.path.insert(0, str(pathlib.Path(__file__).resolve().parents[1] / "lib"))

from pictures import bodies, of_pam, of_png, seen
from preloaded import built
from served import ports_of

# the seconds of a run, which takes some hundredths
LONGEST = 30
DEMO = pathlib.Path(__file__).resolve().parents[2] / "demo"
GET = (
    b"GET /wms?VERSION=1.3.0&REQUEST=GetMap&LAYERS=a&STYLES=&CRS=CRS:84&BBOX=0,0,4,4&WIDTH=4&HEIGHT=4"
    b"&FORMAT=image/x-portable-pixmap HTTP/1.1\r\nHost: a\r\n\r\n"
)
# a point in the pixel of column 0 and row 3; a batch that puts another in its place, in column 2 and row 1; and one
# that switches the layer off
SERVED = "MAP LAYER NAME a TYPE POINT CLASS STYLE COLOR 255 0 0 SIZE 1 END END FEATURE POINTS 0.5 0.5 END END END END\n"
BATCHES = [b"CLEAR a\nAPPEND 12 a\nx,y\n2.5,2.5\n", b"OFF a\n"]
BATCH_LINES = [b"BATCH %d\n%s" % (len(batch), batch) for batch in BATCHES]
# what three clients and three administrators send by turns, each over a connection of its own, and how a command of
# an administrator is called below: the number of its batch, or none where it is RETRY
TURNS = [(BATCH_LINES[0], [0]), (b"RETRY\n" + BATCH_LINES[1], [None, 1]), (b"RETRY\n", [None])]
LINES = [b"PUBLISHED 1\n", b"IDLE\nPUBLISHED 2\n", b"IDLE\n"]
SERVE = f"serve served.map --port 0 --admin-port 0 --workers 2 --connections {len(TURNS)}"


def answer(kind, body):
    return b"HTTP/1.1 200 OK\r\nContent-Type: %s\r\nContent-Length: %d\r\n\r\n%s" % (kind, len(body), body)


def point(column, row):
    pixels = [b"\xff\xff\xff"] * 16
    pixels[4 * row + column] = b"\xff\x00\x00"
    return answer(b"image/x-portable-pixmap", b"P6\n4 4\n255\n" + b"".join(pixels))


NO_LAYER = answer(b"text/xml", b"""<?xml version="1.0" encoding="UTF-8"?>
<ServiceExceptionReport version="1.3.0" xmlns="http://www.opengis.net/ogc">
<ServiceException code="LayerNotDefined">LAYERS</ServiceException>
</ServiceExceptionReport>
""")
# before a batch, and after each of them
ANSWERS = {None: point(0, 3), 0: point(2, 1), 1: NO_LAYER}
# where there is no memory for a head, and where there is none for an answer, which doesn't end the connection
BUSY = b"HTTP/1.1 503 Service Unavailable\r\nContent-Length: 0\r\nConnection: close\r\n\r\n"
BUSY_ONCE = b"HTTP/1.1 503 Service Unavailable\r\nContent-Length: 0\r\n\r\n"


FONT = """STARTFONT 2.1
FONT tiny
SIZE 2 75 75
FONTBOUNDINGBOX 2 2 0 0
CHARS 1
STARTCHAR A
ENCODING 65
SWIDTH 1440 0
DWIDTH 3 0
BBX 2 2 0 0
BITMAP
C0
80
ENDCHAR
ENDFONT
"""
# two labels of one anchor, of which the last goes first, to the right of it
LABELS = b"""MAP CONFIG LABELFONT tiny.bdf LAYER NAME a TYPE POINT CLASS LABEL COLOR 10 20 30 POSITION AUTO END END
FEATURE TEXT A POINTS 4.5 5.5 END END FEATURE TEXT A POINTS 4.5 5.5 END END END END
%%
QUERY VERSION=1.3.0&REQUEST=GetMap&LAYERS=a&STYLES=&CRS=CRS:84&BBOX=0,0,10,10&WIDTH=10&HEIGHT=10&FORMAT=image/x-portable-pixmap
"""
# a pixmap of 272 colours
MANY = b"P6\n16 17\n255\n" + b"".join(bytes([at // 16, at % 16 * 16, 99]) for at in range(272))
PNG_MAP = b"""MAP CONFIG WMS_FORMATS image/png SYMBOL NAME s TYPE PIXMAP IMAGE many.ppm END
LAYER NAME a TYPE POINT CLASS STYLE SYMBOL s END END FEATURE POINTS 8 8.5 END END END END
%%
"""
PNG = b"QUERY VERSION=1.3.0&REQUEST=GetMap&LAYERS=a&STYLES=&CRS=CRS:84&BBOX=%s&WIDTH=%d&HEIGHT=%d&FORMAT=image/%s&TRANSPARENT=%s\n"
# sides and boxes: 8 colours with nothing beside them, 256, and all of them with nothing round them and without
PNG_BOXES = [(10, 1, b"-2,16,8,17"), (16, 16, b"0,1,16,17"), (18, 18, b"0,0,18,18"), (16, 17, b"0,0,16,17")]
CAPABILITIES = b"""MAP WEB METADATA wms_title 'A "map"' wms_onlineresource "http://a.example/?b&" END END
LAYER NAME a TYPE POINT TEMPLATE t MINSCALEDENOM 5 METADATA wms_title "<a>" END END LAYER NAME b TYPE LINE END END
%%
QUERY REQUEST=GetCapabilities&SERVICE=WMS
QUERY REQUEST=GetCapabilities&SERVICE=WMS&UPDATESEQUENCE=1
"""
# a point, a line and a polygon near the pixel of column 1 and row 1, and a point that isn't
FEATURES = b"""MAP LAYER NAME p TYPE POINT TEMPLATE t TOLERANCE 1 PROCESSING "ITEMS=name" CLASS END
FEATURE ITEMS x POINTS 3.5 2.5 END END FEATURE ITEMS y POINTS 1.5 2.5 END END END
LAYER NAME l TYPE LINE TEMPLATE t CLASS END FEATURE POINTS 0 2 4 2 END END END
LAYER NAME s TYPE POLYGON TEMPLATE t CLASS END FEATURE POINTS 1 1 3 1 3 3 1 3 END END END END
%%
QUERY VERSION=1.3.0&REQUEST=GetFeatureInfo&LAYERS=p,l,s&STYLES=&CRS=CRS:84&BBOX=0,0,4,4&WIDTH=4&HEIGHT=4&FORMAT=image/x-portable-pixmap&QUERY_LAYERS=s,p,l&INFO_FORMAT=text/plain&FEATURE_COUNT=9&I=1&J=1
QUERY VERSION=1.3.0&REQUEST=GetFeatureInfo&LAYERS=p,l,s&STYLES=&CRS=CRS:84&BBOX=0,0,4,4&WIDTH=4&HEIGHT=4&FORMAT=image/x-portable-pixmap&QUERY_LAYERS=p&INFO_FORMAT=text/plain&I=4&J=1
"""
FOUND = b"GetFeatureInfo results:\nLayer 's'\n  Feature 0:\nLayer 'p'\n  Feature 1:\n    name = 'y'\nLayer 'l'\n  Feature 0:\n"


def transcript(kind, body):
    """What a session writes for an answer."""
    lines = b"".join(body[at : at + 32].hex().encode() + b"\n" for at in range(0, len(body), 32))
    return b"ANSWER %s %d\n%s" % (kind, len(body), lines if kind.startswith(b"image") else body)


def labelled():
    """The picture of the two labels: the ink of each, of three pixels, begins in columns 1 and 5 of row 2."""
    ink = {(1, 2), (2, 2), (1, 3), (5, 2), (6, 2), (5, 3)}
    return b"P6\n10 10\n255\n" + b"".join(bytes([10, 20, 30] if (at % 10, at // 10) in ink else [255] * 3) for at in range(100))


def pngs():
    """A session of pictures, each as PAM and as PNG, transparent or not."""
    for width, height, box in PNG_BOXES:
        for clear in (b"TRUE", b"FALSE"):
            for form in (b"x-portable-arbitrarymap", b"png"):
                yield PNG % (box, width, height, form, clear)


def are_read(output):
    """Whether each PNG of a transcript has the pixels of the PAM before it."""
    found = [body for _, body in bodies(output)]
    pairs = [(of_pam(pam), of_png(png)) for pam, png in zip(found[::2], found[1::2])]
    return len(pairs) == 2 * len(PNG_BOXES) and all(pam[:2] == png[:2] and pam[2] == seen(png[2]) for pam, png in pairs)


def report(code, parameter):
    return NO_LAYER.partition(b"\r\n\r\n")[2].replace(b"LayerNotDefined", code).replace(b"LAYERS", parameter)


class Run:
    """How the program ended, what it wrote, and how many calls of each kind it made."""

    def __init__(self, shim, folder, words, session, **failing):
        out, into = os.pipe()
        self.got = []
        env = {"LD_PRELOAD": shim, "COUNTS": str(into), **{name: str(number) for name, number in failing.items()}}
        with subprocess.Popen(
            words, stdin=subprocess.PIPE, stdout=subprocess.PIPE, stderr=subprocess.PIPE, cwd=folder, env=env, pass_fds=[into]
        ) as program:
            os.close(into)
            watch = threading.Timer(LONGEST, program.kill)
            watch.start()
            if "serve" in words:
                self.ask(program)
            self.output, self.errors = program.communicate(session)
            self.status = program.returncode
            watch.cancel()
        with os.fdopen(out, "rb") as counts:
            counted = counts.read()
        self.memory, self.bytes, self.threads = (int.from_bytes(counted[at : at + 8], "little") for at in (0, 8, 16))

    def ask(self, program):
        """What clients and administrators are answered by turns, if the program gets so far as to listen."""
        ports = ports_of(program.stdout.readline())
        for commands, _ in TURNS if ports else []:
            self.got += [self.connect(ports[0], GET), self.connect(ports[1], commands)]

    def connect(self, port, sent):
        """Takes what one connection is answered."""
        got = b""
        try:
            with socket.create_connection(("127.0.0.1", port), LONGEST) as stream:
                stream.sendall(sent)
                stream.shutdown(socket.SHUT_WR)
                for piece in iter(lambda: stream.recv(65_536), b""):
                    got += piece
        except OSError:
            pass
        return got

    def key(self):
        return self.status, self.output, self.errors, self.got


def outcomes(state, command):
    """The lines that may answer a command in a state, the batches that are published and those that are pending, each
    with the state after it."""
    published, pending = state
    if command is not None:
        after = published + pending + [command]
        return [(b"PUBLISHED %d\n" % len(after), (after, [])), (b"HELD\n", (published, pending + [command])), (b"NOMEMORY\n", state)]
    if not pending:
        return [(b"IDLE\n", state)]
    after = published + pending
    return [(b"PUBLISHED %d\n" % len(after), (after, [])), (b"HELD\n", state)]


def states_after(state, commands, got):
    """The states that an administrator may leave who sent these commands and got this."""
    if not got:
        yield state
    if commands:
        for line, after in outcomes(state, commands[0]):
            if got.startswith(line):
                yield from states_after(after, commands[1:], got[len(line) :])
            elif line.startswith(got):
                yield after


def states_left(state, commands, got):
    """The same; where memory for the connection was refused nothing of it was read."""
    yield from [state] if got == b"BUSY\n" else states_after(state, commands, got)


def is_history(got, is_client_right):
    """Whether some history explains all that was got: each client's answer is right in the state of its turn."""
    states = [([], [])]
    for client, administrator, (_, commands) in zip(got[::2], got[1::2], TURNS):
        states = [state for state in states if is_client_right(client, ANSWERS[state[0][-1] if state[0] else None])]
        states = [after for state in states for after in states_left(state, commands, administrator)]
    return bool(states)


def lessened(got):
    """How many of the connections have less than a whole answer."""
    lines = [re.fullmatch(rb"((PUBLISHED \d+|IDLE)\n){%d}" % len(commands), one) for one, (_, commands) in zip(got[1::2], TURNS)]
    return sum(one not in ANSWERS.values() for one in got[::2]) + lines.count(None)


def may_have_served(run, statuses, is_client_right):
    """Whether what was served is right, or less of it, as may be where one call fails; or the service failed."""
    if run.status:
        return run.status in statuses and (run.output, run.errors) == (b"", b"") and not any(run.got[::2])
    return (run.output, run.errors) == (b"", b"") and len(run.got) == 2 * len(TURNS) and lessened(run.got) <= 1 and is_history(run.got, is_client_right)


def replies(output):
    return re.split(rb"(?=^ANSWER |^NOMEMORY$)", output, flags=re.M)


def may_want_memory(run, right):
    """A run of which one call for memory failed."""
    if right.got:
        return may_have_served(run, (3, 4), lambda got, wanted: got in (wanted, BUSY, BUSY_ONCE, b""))
    explained = len(right.errors.splitlines()) > 1
    if run.status == 4:
        return run.output == b"" and run.errors in (b"", b"error: out of memory\n" * explained)
    if run.status != right.status:
        return False
    found, wanted = replies(run.output), replies(right.output)
    same = len(found) == len(wanted) and all(one in (other, b"NOMEMORY\n") for one, other in zip(found, wanted))
    words = run.errors in (right.errors, b"".join(right.errors.splitlines(True)[:1]))
    return same and words


def may_fail(run, right):
    """A run of which one call for bytes failed."""
    if right.got and run.status in (0, 3):
        return may_have_served(run, (3,), lambda got, wanted: wanted.startswith(got))
    is_prefix = right.output.startswith(run.output) and right.errors.startswith(run.errors)
    if is_prefix and (run.status == 3 or (run.status == right.status and run.output == right.output)):
        return True
    no_file = re.fullmatch(rb"fault (file ([a-z.]+)\n(\2: the file can't be read\n)?|line \d+ kind 7\n)", run.errors)
    return (run.status, run.output, run.got) == (1, b"", []) and no_file is not None


def may_want_thread(run, right):
    """A run of which one call for a thread failed: the program starts all of them before it says that it listens."""
    return (run.status, run.output, run.errors, run.got) == (3, b"", b"", [])


def cases(folder):
    """What is tried: a name, the words, the folder, what stands on standard input, and what the output ends with."""
    (folder / "served.map").write_text(SERVED)
    (folder / "tiny.bdf").write_text(FONT)
    script = (DEMO / "harbours.script").read_bytes()
    transparent = script.replace(b"x-portable-pixmap", b"x-portable-arbitrarymap&TRANSPARENT=TRUE")
    yield "session", "", DEMO, (DEMO / "harbours.map").read_bytes() + b"%%\n" + script + transparent, b"\n"
    yield "labels", "", folder, LABELS, transcript(b"image/x-portable-pixmap", labelled())
    (folder / "many.ppm").write_bytes(MANY)
    yield "PNG", "", folder, PNG_MAP + b"".join(pngs()), b"\n"
    yield "capabilities", "", folder, CAPABILITIES, b"</WMS_Capabilities>\n" + transcript(b"text/xml", report(b"InvalidUpdateSequence", b"UPDATESEQUENCE"))
    yield "information", "", folder, FEATURES, transcript(b"text/plain", FOUND) + transcript(b"text/xml", report(b"InvalidPoint", b"I"))
    for words, ending in [("run lakes.map lakes.script", b"\n"), ("check harbours.map", b"features\n"), ("check --explain faulty.map", b"")]:
        yield words, words, DEMO, b"", ending
    yield SERVE, SERVE, folder, b"", b""


def kinds_of(name, right, ending):
    """Which calls are let fail, how many there are, and by what a run is right; the run with none has to be."""
    if right.memory == 0 or not right.output.endswith(ending):
        sys.exit(f"failed: {name} ends with {right.key()}, and {right.memory} calls for memory were counted")
    if name == "PNG" and not are_read(right.output):
        sys.exit(f"failed: a PNG has other pixels than the PAM: {right.output}")
    yield "FAIL_MEMORY", right.memory, may_want_memory
    yield "FAIL_BYTES", right.bytes, may_fail
    yield "SHORT_BYTES", right.bytes, lambda run, right: run.key() == right.key()
    if name == SERVE:
        clients = [ANSWERS[after] for after in (None, 0, 1)]
        if right.key() != (0, b"", b"", [one for both in zip(clients, LINES) for one in both]):
            sys.exit(f"failed: what is served is {right.key()}")
        yield "FAIL_THREADS", right.threads, may_want_thread


def main():
    if len(sys.argv) not in (2, 3) or not all(word.isdecimal() and int(word) for word in sys.argv[2:]):
        sys.exit(__doc__.split("\n\n")[1])
    program, tried, wrong = os.path.abspath(sys.argv[1]), 0, 0
    every = int(sys.argv[2]) if len(sys.argv) == 3 else 1
    with tempfile.TemporaryDirectory() as folder:
        shim = built("failing_calls", folder)
        for name, words, at, session, ending in cases(pathlib.Path(folder)):
            command = [program, *words.split()]
            right = Run(shim, at, command, session)
            for kind, count, is_right in kinds_of(name, right, ending):
                print(f"{name}, {kind}: {count} calls", end=", ", flush=True)
                begun = time.monotonic()
                for number in range(1, count + 1, every):
                    run = Run(shim, at, command, session, **{kind: number})
                    tried += 1
                    if not is_right(run, right):
                        wrong += 1
                        print(f"\nwrong: {name}, {kind} {number} of {count}: {run.key()}")
                print(f"{time.monotonic() - begun:.1f} s", flush=True)
    print(f"ok: {tried} calls" if wrong == 0 else f"failed: {wrong} of {tried}")
    sys.exit(wrong > 0)


if __name__ == "__main__":
    main()
