#!/usr/bin/env python3
"""Tries the exit statuses of the program, and what it writes then. Usage: exit_statuses.py PROGRAM

What is played or checked ends with 0, also a faulty script; a faulty mapfile with 1 and its line on standard
error alone, a file that can't be read with 1 and its name; words that are no form with 2 and a text on standard
error alone; a full standard output with 3, and a port that is taken, either of the two, also by the other; too little
memory for the map with 4; with --explain these have a line on standard error. What was served ends with 0 once so many connections as were asked for came at each port.

Gate: PROGRAM; 2 s
"""
import os
import pathlib
import resource
import socket
import subprocess
import sys
import tempfile

sys.path.insert(0, str(pathlib.Path(__file__).resolve().parents[1] / "lib"))

from served import come_and_go, ports_of

MAP = b'MAP LAYER NAME "a" TYPE POLYGON END END\n%%\n'
QUERY = b"QUERY a\n"
MISSING = b"""<?xml version="1.0" encoding="UTF-8"?>
<ServiceExceptionReport version="1.3.0" xmlns="http://www.opengis.net/ogc">
<ServiceException code="MissingParameterValue">REQUEST</ServiceException>
</ServiceExceptionReport>
"""
FEATURE = b" FEATURE POINTS" + b" 1 2" * 60_000 + b" END END"
LARGE = b"MAP LAYER NAME 'a' TYPE POLYGON" + FEATURE * 30 + b" END END\n%%\n"
SYMBOL = b"MAP SYMBOL NAME s TYPE PIXMAP\nIMAGE p.ppm END END\n"
REFUSED = b"""error: the following required arguments were not provided:
  <SCRIPT>

Usage: mapservd run <FILE> <SCRIPT>

For more information, try '--help'.
"""
NO_FILE = b"""error: the following required arguments were not provided:
  <FILE>

Usage: mapservd serve <FILE>

For more information, try '--help'.
"""
NOT_IN_RANGE = b"""error: invalid value '%s' for '--%s <%s>': %s is not in %s

For more information, try '--help'.
"""
IN_WORDS = b"fault line 3 kind 2\nbad.map:3: FOO is no keyword of MAP\n"
NO_ADDRESS = b"%s.map: warning: the service has no wms_onlineresource, and http://localhost/wms? has no port\n"
NO_SYMBOL = b"fault line 2 kind 7\nmaps/symbol.map:2: the file p.ppm, which IMAGE names, can't be read: maps/p.ppm is missing\n"
NOT_UTF8 = b"error: an argument is not UTF-8\n"
FILES = {
    "good.map": MAP.removesuffix(b"%%\n"),
    "bad.map": b"MAP\n\nFOO END\n",
    # The pixmap stands beside the first of two mapfiles alone, and is looked for there.
    "symbol.map": SYMBOL,
    "p.ppm": b"P6 1 1 255 abc",
    "maps/symbol.map": SYMBOL,
    "large.map": LARGE.removesuffix(b"%%\n"),
    "good.script": QUERY,
    "bad.script": b"QUERY a\nx\n",
}


def run(session, *words, limit=None, stdout=subprocess.PIPE):
    bound = None
    if limit:
        bound = lambda: resource.setrlimit(resource.RLIMIT_AS, (limit, limit))
    done = subprocess.run([sys.argv[1], *words], input=session, stdout=stdout, stderr=subprocess.PIPE, preexec_fn=bound)
    return done.returncode, done.stdout, done.stderr


def not_in_range(number, name, value, numbers):
    return 2, b"", NOT_IN_RANGE % (number, name, value, number, numbers)


def free_port():
    with socket.socket() as held:
        held.bind(("127.0.0.1", 0))
        return str(held.getsockname()[1])


def served():
    """How a server ends of which two connections at each port are wanted, and whether it still ran before the last."""
    words = [sys.argv[1], "serve", "good.map", "--port", "0", "--admin-port", "0", "--connections", "2"]
    with subprocess.Popen(words, stdout=subprocess.PIPE, stderr=subprocess.PIPE) as server:
        port, admin_port = ports_of(server.stdout.readline())
        for end in (port, port, admin_port):
            come_and_go(end)
        try:
            server.wait(0.5)
            ran = False
        except subprocess.TimeoutExpired:
            ran = True
        if ran:
            come_and_go(admin_port)
        rest, errors = server.communicate()
    return server.returncode, rest, errors, ran


def sessions(full):
    """A session on standard input."""
    answer = b"ANSWER text/xml 215\n" + MISSING
    yield "played", run(MAP + QUERY), (0, answer, b"")
    yield "faulty script", run(MAP + b"x\n"), (0, b"fault script 1\n", b"")
    yield "faulty mapfile", run(b"MAP\nFOO END\n"), (1, b"", b"fault line 2 kind 2\n")
    yield "full output", run(MAP + QUERY, stdout=full), (3, None, b"")
    yield "no memory", run(LARGE, limit=16_000_000), (4, b"", b"")


def checks(full):
    """`check`, which needs a mapfile alone."""
    yield "check", run(b"", "check", "good.map"), (0, b"ok 1 layers 0 features\n", b"")
    yield "check many", run(b"", "check", "large.map"), (0, b"ok 1 layers 30 features\n", b"")
    yield "check faulty", run(b"", "check", "bad.map"), (1, b"", b"fault line 3 kind 2\n")
    yield "explain", run(b"", "check", "--explain", "good.map"), (0, b"ok 1 layers 0 features\n", NO_ADDRESS % b"good")
    yield "explain faulty", run(b"", "check", "--explain", "bad.map"), (1, b"", IN_WORDS)
    yield "explain a symbol", run(b"", "check", "--explain", "symbol.map"), (0, b"ok 0 layers 0 features\n", NO_ADDRESS % b"symbol")
    yield "explain no symbol", run(b"", "check", "--explain", "maps/symbol.map"), (1, b"", NO_SYMBOL)
    yield "check no file", run(b"", "check", "no.map"), (1, b"", b"fault file no.map\n")
    yield "check a folder", run(b"", "check", "."), (1, b"", b"fault file .\n")
    yield "check full output", run(b"", "check", "good.map", stdout=full), (3, None, b"")
    yield "check no memory", run(b"", "check", "large.map", limit=16_000_000), (4, b"", b"")
    yield "check full output explained", run(b"", "check", "--explain", "good.map", stdout=full), (3, None, b"error: standard output can't be written\n")
    yield "check no memory explained", run(b"", "check", "--explain", "large.map", limit=16_000_000), (4, b"", b"error: out of memory\n")


def runs(full):
    """`run` of a mapfile and a script."""
    answer = b"ANSWER text/xml 215\n" + MISSING
    yield "run explained", run(b"", "run", "--explain", "good.map", "none.script"), (1, b"", NO_ADDRESS % b"good" + b"fault file none.script\nnone.script: the file is missing\n")
    yield "run", run(b"", "run", "good.map", "good.script"), (0, answer, b"")
    yield "run faulty script", run(b"", "run", "good.map", "bad.script"), (0, b"fault script 2\n", b"")
    yield "run faulty mapfile", run(b"", "run", "bad.map", "no.script"), (1, b"", b"fault line 3 kind 2\n")
    yield "run no script", run(b"", "run", "good.map", "no.script"), (1, b"", b"fault file no.script\n")
    yield "run no mapfile", run(b"", "run", "no.map", "no.script"), (1, b"", b"fault file no.map\n")
    yield "run full output", run(b"", "run", "good.map", "good.script", stdout=full), (3, None, b"")


def services(full, taken, free):
    """`serve`, on ports that are free, taken or the same."""
    yield "serve explained", run(b"", "serve", "--explain", "bad.map"), (1, b"", IN_WORDS)
    yield "served", served(), (0, b"", b"", True)
    yield "serve taken port", run(b"", "serve", "good.map", "--port", taken, "--admin-port", "0"), (3, b"", b"")
    yield "serve taken admin port", run(b"", "serve", "good.map", "--port", "0", "--admin-port", taken), (3, b"", b"")
    yield "serve one port", run(b"", "serve", "good.map", "--port", free, "--admin-port", free), (3, b"", b"")
    yield "serve full output", run(b"", "serve", "good.map", "--port", "0", "--admin-port", "0", stdout=full), (3, None, b"")
    yield "serve taken port explained", run(b"", "serve", "--explain", "good.map", "--port", taken, "--admin-port", "0"), (3, b"", NO_ADDRESS % b"good" + b"error: port %s of 127.0.0.1 is taken\n" % taken.encode())
    yield "serve faulty mapfile", run(b"", "serve", "bad.map", "--port", taken), (1, b"", b"fault line 3 kind 2\n")
    yield "serve no mapfile", run(b"", "serve", "no.map", "--port", taken), (1, b"", b"fault file no.map\n")


def arguments():
    """Arguments that are refused."""
    yield "serve no words", run(b"", "serve"), (2, b"", NO_FILE)
    yield "serve no such port", run(b"", "serve", "good.map", "--port", "65536"), not_in_range(b"65536", b"port", b"PORT", b"0..=65535")
    yield "serve no such admin port", run(b"", "serve", "good.map", "--admin-port", "70000"), not_in_range(b"70000", b"admin-port", b"PORT", b"0..=65535")
    yield "serve no workers", run(b"", "serve", "good.map", "--workers", "0"), not_in_range(b"0", b"workers", b"COUNT", b"1..=32")
    yield "serve too many workers", run(b"", "serve", "good.map", "--workers", "33"), not_in_range(b"33", b"workers", b"COUNT", b"1..=32")
    yield "words", run(MAP + QUERY, "run", "good.map"), (2, b"", REFUSED)
    yield "no text", run(MAP + QUERY, "check", b"\xff.map"), (2, b"", NOT_UTF8)


def rows(full, taken):
    """What is tried: a name, what came of it, and what has to."""
    return [*sessions(full), *checks(full), *runs(full), *services(full, taken, free_port()), *arguments()]


def main():
    wrong = 0
    sys.argv[1] = os.path.abspath(sys.argv[1])
    with tempfile.TemporaryDirectory() as folder, open("/dev/full", "wb") as full, socket.socket() as held:
        held.bind(("127.0.0.1", 0))
        held.listen()
        os.chdir(folder)
        os.mkdir("maps")
        for name, text in FILES.items():
            with open(name, "wb") as file:
                file.write(text)
        tried = rows(full, str(held.getsockname()[1]))
    for name, found, expected in tried:
        if found != expected:
            wrong += 1
            print(f"{name}: {found}, not {expected}")
    print("ok" if wrong == 0 else f"failed: {wrong}")
    sys.exit(wrong)


main()
