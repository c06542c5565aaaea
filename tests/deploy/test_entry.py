#!/usr/bin/python3
"""Which signals the server doesn't heed that deploy/entry, the unit and deploy/up start."""
import os
import pathlib
import signal
import subprocess
import sys
import tempfile
import unittest
from types import SimpleNamespace

sys.path.insert(0, str(pathlib.Path(__file__).resolve().parents[1] / "lib"))

import loading

up = loading.script("deploy/up")
DEPLOY = pathlib.Path(__file__).resolve().parents[2] / "deploy"
# the server is a script that writes which signals it ignores, once it was to listen
SERVER = """#!/bin/sh
echo listening 127.0.0.1:1 127.0.0.1:2
grep SigIgn /proc/$$/status
cat > {log}
"""


def ignored(text):
    """The signals that a line of /proc has as ignored."""
    mask = int(next(line for line in text.splitlines() if line.startswith("SigIgn:")).split()[1], 16)
    return {number for number in (signal.SIGHUP, signal.SIGXFSZ, signal.SIGTERM) if mask >> (number - 1) & 1}


class Signals(unittest.TestCase):
    def setUp(self):
        folder = tempfile.TemporaryDirectory()
        self.addCleanup(folder.cleanup)
        self.program = os.path.join(folder.name, "mapservd")
        with open(self.program, "w", encoding="ascii") as file:
            file.write(SERVER.format(log=os.path.join(folder.name, "log")))
        os.chmod(self.program, 0o755)
        self.words = {**os.environ, "PATH": folder.name + ":" + os.environ["PATH"]}

    def test_entry_has_the_server_ignore_a_limit_of_file_size(self):
        entry = subprocess.Popen([DEPLOY / "entry", "serve", "a.map"], env=self.words, stdout=subprocess.PIPE, text=True)
        entry.stdout.readline()
        self.assertEqual(ignored(entry.stdout.readline()), {signal.SIGHUP, signal.SIGXFSZ})
        # the server's input ends with it
        entry.kill()
        entry.wait(10)
        entry.stdout.close()

    def test_the_unit_does_so_too(self):
        unit = (DEPLOY / "system" / "kesmoch@.service").read_text(encoding="utf-8")
        traps = [line for line in unit.splitlines() if line.startswith("ExecStart=") and 'trap "" HUP XFSZ; ' in line]
        self.assertEqual(len(traps), 1)

    def test_up_does_so_too(self):
        options = SimpleNamespace(program=self.program, mapfile="a.map", workers=1, journal=None)
        served = up.Served(options, None)
        self.assertEqual(served.start_server(), (1, 2))
        self.assertEqual(ignored(served.server.popen.stdout.readline().decode()), {signal.SIGXFSZ})
        served.server.end()
        served.server.popen.stdout.close()


if __name__ == "__main__":
    unittest.main()
