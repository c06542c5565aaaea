"""The pixels of each format, and the means of them by which a picture is smoothed (docs/DRAWING.md, "Smoothing")."""
import re
import subprocess

from pictures import of_png

FONT = """STARTFONT 2.1
FONT blocks
SIZE 12 75 75
FONTBOUNDINGBOX 7 9 0 -2
STARTPROPERTIES 1
DEFAULT_CHAR 97
ENDPROPERTIES
CHARS 2
STARTCHAR a
ENCODING 97
DWIDTH 8 0
BBX 7 9 0 -2
BITMAP
7C
82
BA
AA
BA
82
82
7C
10
ENDCHAR
STARTCHAR b
ENCODING 98
DWIDTH 6 0
BBX 5 6 0 0
BITMAP
F8
88
A8
88
F8
20
ENDCHAR
ENDFONT
"""


def pixels_of(body):
    """The sides of an answer, and its pixels as red, green, blue and alpha."""
    if body.startswith(b"\x89PNG"):
        return of_png(body)
    if body.startswith(b"P7"):
        head, samples = body.split(b"ENDHDR\n", 1)
        width, height = (int(re.search(rb"%s (\d+)" % word, head)[1]) for word in (b"WIDTH", b"HEIGHT"))
        return width, height, samples
    head = re.match(rb"P6\n(\d+) (\d+)\n255\n", body)
    colours = body[head.end():]
    opaque = bytearray(b"\xff" * (len(colours) // 3 * 4))
    for part in range(3):
        opaque[part::4] = colours[part::3]
    return int(head[1]), int(head[2]), bytes(opaque)


def rounded(number, whole):
    """The share rounded to the nearest, a half up."""
    return (2 * number + whole) // (2 * whole)


def mean(pixels):
    """The mean of some pixels, of which each has a colour or nothing."""
    coloured = [pixel for pixel in pixels if pixel[3]]
    if not coloured:
        return bytes(4)
    return bytes([*(rounded(sum(pixel[part] for pixel in coloured), len(coloured)) for part in range(3)), rounded(255 * len(coloured), len(pixels))])


def means(fine, width, height, times):
    """The means of so many pixels each of a picture that is as many times as wide."""
    out, known, row = bytearray(), {}, 4 * times * width
    for top in range(height):
        rows = [fine[row * (times * top + at):row * (times * top + at + 1)] for at in range(times)]
        for left in range(width):
            cell = b"".join(line[4 * times * left:4 * times * (left + 1)] for line in rows)
            if cell not in known:
                known[cell] = mean([cell[at:at + 4] for at in range(0, len(cell), 4)])
            out += known[cell]
    return bytes(out)


def answers(program, folder, name, queries):
    """The body of the answer to each query."""
    (folder / "script").write_text("".join(queries))
    ran = subprocess.run([program, "run", folder / name, folder / "script"], capture_output=True, check=True)
    return [bytes.fromhex(text.decode("ascii")) for text in re.split(rb"^ANSWER .*\n", ran.stdout, flags=re.M)[1:]]
