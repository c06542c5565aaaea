"""Transcripts for people: what the program writes of a script, with its pictures drawn in letters."""
import re
import string

LETTERS = string.ascii_lowercase + string.ascii_uppercase
# The widest picture that is drawn, in pixels.
MOST_COLUMNS = 64
PPM = re.compile(rb"P6\n(\d+) (\d+)\n255\n")
PAM = re.compile(rb"P7\nWIDTH (\d+)\nHEIGHT (\d+)\nDEPTH 4\nMAXVAL 255\nTUPLTYPE RGB_ALPHA\nENDHDR\n")
NOTHING, WHITE, OPAQUE = bytes(4), b"\xff\xff\xff", b"\xff"


def marks_of(pixels, letters):
    """The letters of some pixels; no list where one is a new colour and none is left, or has a share of nothing alone."""
    marks = []
    for pixel in pixels:
        colour = pixel[:3]
        if pixel == NOTHING or colour == WHITE and pixel[3:] in (b"", OPAQUE):
            marks.append("_" if pixel == NOTHING else ".")
            continue
        if pixel[3:] not in (b"", OPAQUE) or len(letters) == len(LETTERS) and colour not in letters:
            return None
        marks.append(letters.setdefault(colour, LETTERS[len(letters) % len(LETTERS)]))
    return marks


def drawn(body):
    """A PPM or a PAM in letters: its format and sides, its rows, and a line for the colour of each letter; else nothing.

    A point is white, and an underline nothing. A picture with more than 64 columns or 52 colours isn't drawn.
    """
    head, depth = (PPM.match(body), 3) if body.startswith(b"P6") else (PAM.match(body), 4)
    if head is None or int(head[1]) > MOST_COLUMNS:
        return None
    width, letters, pixels = int(head[1]), {}, body[head.end():]
    marks = marks_of([pixels[at:at + depth] for at in range(0, len(pixels), depth)], letters)
    if marks is None:
        return None
    rows = ["".join(marks[at:at + width]) for at in range(0, len(marks), width)]
    colours = [f"{letter} {' '.join(map(str, colour))}" for colour, letter in letters.items()]
    return "\n".join([f"{body[:2].decode()} {width} {int(head[2])}", *rows, *colours]) + "\n"


def readable(transcript):
    """A transcript, in which each picture that can be drawn stands in letters in place of its hexadecimal lines."""
    lines, written = iter(transcript.splitlines()), []
    for line in lines:
        written.append(line + "\n")
        announced = re.fullmatch(r"ANSWER image/\S+ (\d+)", line)
        digits, body = [], b""
        while announced and len(body) < int(announced[1]):
            digits.append(next(lines))
            body += bytes.fromhex(digits[-1])
        written.append(drawn(body) or "".join(digit + "\n" for digit in digits))
    return "".join(written)
