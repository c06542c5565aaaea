#!/usr/bin/env python3
"""Tries deploy/batch on a served map and on lines of a server's that memory or a disk would have to be refused for.

Usage: batch_client.py PROGRAM

Looked at are the exit status, and what stands on standard output and standard error. It ends with 1 where something is
wrong.

Gate: PROGRAM; 7 s
"""
import os
import pathlib
import socket
import subprocess
import sys
import tempfile
import threading

sys.path.insert(0, str(pathlib.Path(__file__).resolve().parents[1] / "lib"))

from served import ports_of

BATCH = pathlib.Path(__file__).resolve().parents[2] / "deploy" / "batch"
MAP = """MAP
LAYER NAME cities TYPE POINT CLASS STYLE COLOR 10 20 30 END END END
LAYER NAME roads TYPE LINE END
LAYER NAME "two words" TYPE POINT PROCESSING "CSV_X=long" PROCESSING "CSV_Y=lat" END
END
"""
FILES = {
    "map.map": MAP,
    "good.csv": "x,y,name\n1,2,A\n3,4,B\n",
    "bad.csv": "x,y\n1,2\n3,abc\n",
    "named.csv": "long,lat\n1,2",
    "large.csv": "x,y\n" + "1,2\n" * 1_100_000,
    "commands": "ON roads\nAPPEND good.csv cities\n",
}
NOTHING = "; nothing has changed\n"
# arguments behind the port, the file on standard input, and what is expected: the status, the output, the end of the words
TRIED = [
    (["OFF roads", "APPEND good.csv cities"], None, 0, "PUBLISHED 1\n", ""),
    (["APPEND named.csv two words", "CLEAR cities"], None, 0, "PUBLISHED 2\n", ""),
    (["-"], "commands", 0, "PUBLISHED 3\n", ""),
    (["OFF cities", "APPEND - cities"], "good.csv", 0, "PUBLISHED 4\n", ""),
    (["RETRY"], None, 0, "IDLE\n", ""),
    (["OFF rivers"], None, 1, "", "batch: command 1, OFF rivers: no layer has the name" + NOTHING),
    (["off roads"], None, 1, "", "batch: command 1, off roads: an unknown word, or a command that can't be read" + NOTHING),
    (["ON roads", "CLEAR roads"], None, 1, "", "batch: command 2, CLEAR roads: the layer isn't one of points" + NOTHING),
    (["APPEND bad.csv cities"], None, 1, "", "APPEND bad.csv cities: row 3: a coordinate that can't be read, or beyond 1,000 degrees: y is \"abc\"" + NOTHING),
    (["APPEND named.csv cities"], None, 1, "", "row 1: no column of the coordinates: x and y are looked for in long,lat" + NOTHING),
    (["APPEND good.csv two words"], None, 1, "", "does the layer read others, by CSV_X and CSV_Y? Name them by --columns" + NOTHING),
    (["--columns", "long,lat", "APPEND good.csv two words"], None, 1, "", "row 1: no column of the coordinates: long and lat are looked for in x,y,name" + NOTHING),
    (["APPEND none.csv cities"], None, 1, "", "batch: none.csv can't be read: No such file or directory; nothing was sent\n"),
    (["APPEND cities"], None, 1, "", "and no 'APPEND cities'; nothing was sent\n"),
    (["APPEND large.csv cities"], None, 1, "", "this one would have 4,400,026: send it in parts; nothing was sent\n"),
    (["ON roads\nOFF roads"], None, 1, "", "is more than one line: give each command by itself; nothing was sent\n"),
    (["--proxy", "none", "ON roads"], None, 4, "PUBLISHED 5\n", "the map has changed, and the proxy still keeps pictures from before\n"),
    ([], None, 2, "", "which commands? As 'OFF roads'; - reads them from standard input\n"),
]
# lines that a server gives, the last one before it ends the connection
LINES = [
    (["HELD", "HELD", "PUBLISHED 7"], 0, "PUBLISHED 7\n", "batch: HELD: the batch is accepted, and there was no memory to show it; tries again\n"),
    (["NOMEMORY"], 3, "", "batch: the server had no memory for the batch" + NOTHING),
    (["FAILED"], 3, "", "the sequence says, once it runs again, whether the batch is in it\n"),
    (["MALFORMED"], 1, "", "is it one of another version?\n"),
    (["REFUSED 0 8"], 1, "", "batch: no further batch can be counted" + NOTHING),
    (["HTTP/1.1 400 Bad Request"], 2, "", "is no administration port: it answers 'HTTP/1.1 400 Bad Request'\n"),
    ([], 2, "", "whether the batch was accepted isn't known: the sequence in the capabilities document shows it\n"),
]


class Trial:
    def __init__(self, program, folder):
        self.program, self.folder, self.wrong = program, folder, 0

    def look(self, port, words, file, status, output, errors):
        with open(self.folder / file if file else os.devnull, "rb") as source:
            called = [BATCH, "--program", self.program, *placed(port, words)]
            done = subprocess.run(called, stdin=source, cwd=self.folder, capture_output=True, text=True)
        if (done.returncode, done.stdout) != (status, output) or not done.stderr.endswith(errors) or (not errors and done.stderr):
            self.wrong += 1
            print(f"{words}: {done.returncode}, {done.stdout!r}, {done.stderr!r}")


def placed(port, words):
    """The arguments, with the port before the first command."""
    at = 2 if words and words[0].startswith("--") else 0
    return [*words[:at], str(port), *words[at:]]


def answer(listener, lines):
    """Plays a server that gives these lines."""
    stream, _ = listener.accept()
    with stream:
        for line in lines:
            stream.recv(65_536)
            stream.sendall(line.encode() + b"\n")
        if not lines:
            stream.recv(65_536)


def main():
    if len(sys.argv) != 2:
        sys.exit(__doc__.split("\n\n")[1])
    program = os.path.abspath(sys.argv[1])
    with tempfile.TemporaryDirectory() as folder:
        trial = Trial(program, pathlib.Path(folder))
        for name, text in FILES.items():
            (trial.folder / name).write_text(text)
        words = [program, "serve", "map.map", "--port", "0", "--admin-port", "0"]
        with subprocess.Popen(words, stdout=subprocess.PIPE, cwd=folder) as server:
            try:
                port = ports_of(server.stdout.readline())[1]
                for row in TRIED:
                    trial.look(port, *row)
            finally:
                server.kill()
        trial.look(port, ["ON roads"], None, 2, "", "Connection refused\n")
        for lines, *expected in LINES:
            with socket.create_server(("127.0.0.1", 0)) as listener:
                thread = threading.Thread(target=answer, args=(listener, lines))
                thread.start()
                trial.look(listener.getsockname()[1], ["OFF roads"], None, *expected)
                thread.join()
    print("ok" if trial.wrong == 0 else f"failed: {trial.wrong}")
    sys.exit(trial.wrong > 0)


main()
