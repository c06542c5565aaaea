"""The processor's time of pictures in a session, without that of an empty layer's."""
import os
import re
import subprocess
import sys
import tempfile

SQUARE = "0,0,4,4"


def query(layers, box, width, height):
    """The line of a session that asks for a picture."""
    return (
        f"QUERY VERSION=1.3.0&REQUEST=GetMap&LAYERS={layers}&STYLES=&CRS=CRS:84&BBOX={box}"
        f"&WIDTH={width}&HEIGHT={height}&FORMAT=image/x-portable-pixmap\n"
    )


def run(program, session, output=subprocess.DEVNULL):
    """The seconds of processor, and the greatest memory in MB, of a session."""
    with tempfile.TemporaryFile() as file:
        file.write(session.encode())
        file.seek(0)
        child = subprocess.Popen([program], stdin=file, stdout=output)
        _, status, usage = os.wait4(child.pid, 0)
        if status != 0:
            sys.exit(f"failed: status {status}")
        return usage.ru_utime + usage.ru_stime, usage.ru_maxrss // 1024


class Sessions:
    """The program, and how many pictures a session asks for."""

    def __init__(self, program, pictures):
        self.program, self.pictures = program, pictures

    def measure(self, name, mapfile, asked, pictures=None):
        """Prints the time of one picture: the least of three sessions, without that of an empty layer's."""
        count = pictures or self.pictures
        empty = re.sub("LAYERS=[^&]*", "LAYERS=nothing", asked)
        full, bare = ([run(self.program, mapfile + "%%\n" + one * count) for _ in range(3)] for one in (asked, empty))
        seconds = (min(t for t, _ in full) - min(t for t, _ in bare)) / count
        peak = max(m for _, m in full)
        print(f"{name}: {seconds * 1000:.1f} ms a picture, {peak} MB at most ({max(m for _, m in bare)} MB empty)")


def with_empty_layer(mapfile):
    """The mapfile with a layer of no feature before its last END."""
    head, tail = mapfile.rstrip().rsplit("END", 1)
    return f'{head}LAYER\nNAME "nothing"\nTYPE POLYGON\nEND\nEND{tail}\n'


def small_squares(count):
    """Squares of about three pixels by three, on 2,048 by 2,048 pixels of four degrees by four."""
    size = 0.006
    for k in range(count):
        x = (k * 7919) % 3_990 / 1000
        y = (k * 104_729) % 3_990 / 1000
        yield [(x, y), (x + size, y), (x + size, y + size), (x, y + size)]
