"""Rows that start a server with a journal, each in a folder of its own, and what they share.

After a row the folder must have the files that it had, each with its bytes, and the journal where one is expected. A row
whose rights, disks or compiler aren't there says so, and is skipped.
"""
import os
import pathlib
import shutil
import subprocess
import sys
import tempfile

# before the folder of the script, which may have a script of the same name
sys.path.insert(0, str(pathlib.Path(__file__).resolve().parents[2] / "deploy" / "lib"))

from administration import Administrator
from served import ports_of

MAP = "MAP EXTENT 0 0 8 8 LAYER NAME a TYPE POINT STATUS ON CLASS STYLE COLOR 10 20 30 SIZE 1 END END END END\n"
WARNING = "map.map: warning: the service has no wms_onlineresource, and http://localhost/wms? has no port\n"
HEADER = b"KESMOCH JOURNAL 1\n"
NOBODY = 65534
# Bytes of a batch: with the fourth a journal has more than a million.
BIG = 300_000
DUE = 4


class Wrong(Exception):
    """What came out otherwise, in a sentence."""


def expect(what, found, expected):
    """Raises Wrong where what was found isn't what was expected."""
    if found != expected:
        raise Wrong(f"{what}: {found!r}, and {expected!r} was expected")


def words(program, journal, *options):
    """The command that serves map.map with a journal."""
    return [program, "serve", "map.map", "--port", "0", "--admin-port", "0", "--workers", "1", "--journal", journal, *options]


class Server:
    """A server that listens."""

    def __init__(self, program, folder, journal="journal", options=(), **started):
        self.process = subprocess.Popen(words(program, journal, *options), cwd=folder, stdout=subprocess.PIPE, stderr=subprocess.PIPE, **started)
        ports = ports_of(self.process.stdout.readline())
        if ports is None:
            raise Wrong(f"no server: {self.process.stderr.read()}")
        self.clients, self.administration = ports

    def __enter__(self):
        return self

    def __exit__(self, *_):
        self.process.kill()
        self.process.communicate()

    def answer(self, batch):
        """What an administrator is answered to a batch."""
        with Administrator(("127.0.0.1", self.administration)) as administrator:
            return administrator.batch(batch)

    def submit(self):
        """The first word that answers a small batch."""
        return self.answer(b"OFF a\n").word

    def warnings(self):
        """Ends it, and gives the lines on its journal."""
        self.process.terminate()
        return [line for line in self.ended()[1].splitlines() if line.startswith("warning journal")]

    def ended(self):
        """Its status and what it wrote on standard error, once it has ended."""
        errors = self.process.communicate(timeout=30)[1]
        return self.process.returncode, errors.decode()


def refused(program, folder, message, journal="journal", user=None, explained=""):
    """That no server starts with a journal, and says why; and the line after that, where it is to explain how it ends."""
    for options, before, after in (((), "", ""), (["--explain"], WARNING, explained)):
        done = subprocess.run(words(program, journal, *options), cwd=folder, capture_output=True, timeout=30, user=user)
        expect("how it ended", (done.returncode, done.stderr.decode()), (3, f"{before}fault journal {journal}: {message}\n{after}"))


def as_nobody(program, folder):
    """A user who isn't root, and the program where that one may start it."""
    if os.geteuid() != 0:
        return program, None
    shutil.copy(program, folder / "program")
    return "./program", NOBODY


def big(number):
    """A batch of 300 KB that undoes the ones before it."""
    rows = b"x,y,n\n1,1,%s\n" % (b"%d" % (number % 10) * BIG)
    return b"CLEAR a\nAPPEND %d a\n%s" % (len(rows), rows)


def files_of(folder):
    """The files of a folder, each with its bytes or the target of its link."""
    return {path.name: os.readlink(path) if path.is_symlink() else path.read_bytes() for path in sorted(folder.iterdir()) if not path.is_dir()}


def tried(program, row):
    """What a row says of a run in a folder of its own, and whether it came out as expected."""
    with tempfile.TemporaryDirectory(prefix="journal-") as name:
        folder = pathlib.Path(name)
        folder.chmod(0o755)
        (folder / "map.map").write_text(MAP, encoding="utf-8")
        try:
            skipped = row(program, folder)
        except Wrong as wrong:
            return str(wrong), False
        return f"skipped, {skipped}" if skipped else "as expected", True


def try_all(program, rows):
    """Tries each row, prints what came of it, and ends with 1 where one came out otherwise."""
    failed = False
    for row in rows:
        said, is_right = tried(os.path.abspath(program), row)
        print(f"{row.__name__.replace('_', ' ')}: {said}", flush=True)
        failed = failed or not is_right
    sys.exit(1 if failed else 0)
