"""Bitmap fonts of outline fonts, as otf2bdf makes them: which of their letters are alike, and those that aren't too large. Used by font and convert."""
import re
import subprocess

# The dots an inch at which MapServer draws letters, so that a size in points is the same here.
RESOLUTION = 96
# The pixels that a side or an offset of a glyph has at most, in a map and in a smoothed one, and those of an advance.
LONGEST, LONGEST_FINE, WIDEST_STEP = 64, 255, 255
# The points of a font that otf2bdf makes, at most.
MOST_POINTS = 256
LETTERS = [code for code in range(128) if chr(code).isalnum()]
RESEMBLING = ("0O", "0D", "OD", "1l", "1I", "lI")
# Two letters are stretched to so many dots a side, and are alike where less than this share of the dots differs.
SIDE, ALIKE = 24, 0.1


def letters_of(text):
    """The letters of a BDF font by their characters, each as its rows of dots, from the first to the last with a dot."""
    letters, character, rows = {}, None, None
    for line in text.splitlines():
        word, _, rest = line.partition(" ")
        if word == "ENCODING":
            character = int(rest.split()[0])
        elif word == "BITMAP":
            rows = []
        elif word == "ENDCHAR" and character is not None and character >= 0:
            letters[chr(character)], rows = cut(rows), None
        elif rows is not None:
            rows.append(f"{int(word, 16):0{4 * len(word)}b}")
    return letters


def cut(rows):
    """Rows of dots without those that are empty at the sides."""
    inked = [number for number, row in enumerate(rows) if "1" in row]
    if not inked:
        return []
    rows = rows[inked[0] : inked[-1] + 1]
    left, right = min(row.index("1") for row in rows if "1" in row), max(row.rindex("1") for row in rows if "1" in row)
    return [row[left : right + 1] for row in rows]


def stretched(rows):
    """The dots of a letter in a square, each as it is in the letter at the dot's middle."""
    middles = [2 * number + 1 for number in range(SIDE)]
    return [rows[down * len(rows) // (2 * SIDE)][across * len(rows[0]) // (2 * SIDE)] for down in middles for across in middles]


def are_alike(one, other):
    """Whether two letters are hard to tell apart: nearly as wide, and of one shape once they are stretched to one box."""
    if not one or not other or abs(len(one[0]) - len(other[0])) > 1:
        return False
    differing = sum(dot != there for dot, there in zip(stretched(one), stretched(other)))
    return differing < ALIKE * SIDE * SIDE


def alike_in(text):
    """The pairs of a BDF font's letters that are alike."""
    letters = letters_of(text)
    return [pair for pair in RESEMBLING if are_alike(letters.get(pair[0]), letters.get(pair[1]))]


def longest(times):
    """The pixels of a side of a glyph at most, in a font that is so many times as large as it is shown."""
    return LONGEST if times == 1 else LONGEST_FINE


def subset_of(codes):
    """Numbers of characters as otf2bdf takes them, as 32_126 160."""
    runs = []
    for code in sorted(codes):
        if runs and code == runs[-1][1] + 1:
            runs[-1][1] = code
        else:
            runs.append([code, code])
    return " ".join(f"{first}" if first == last else f"{first}_{last}" for first, last in runs)


def made(path, size, dots=RESOLUTION, codes=()):
    """A font of a size in points, at so many dots an inch, as BDF, of some characters or all; an empty text where otf2bdf makes none."""
    subset = ["-l", subset_of(codes)] if codes else []
    return subprocess.run(["otf2bdf", *subset, "-p", str(size), "-r", str(dots), path], capture_output=True).stdout.decode("latin-1")


def sides_of(glyph):
    """Width, height, and how far the box of a glyph, or of a font, lies right of the pen and above the base line."""
    return tuple(map(int, re.search(r"^(?:FONTBOUNDING)?B(?:BX|OX) (\d+) (\d+) (-?\d+) (-?\d+)", glyph, re.M).groups()))


def glyphs_of(text):
    """The glyphs of a BDF font, each as it is written, by the numbers of their characters; those of no character aren't there."""
    found = {}
    for glyph in re.split(r"^(?=STARTCHAR )", text.replace("\nENDFONT\n", "\n"), flags=re.M)[1:]:
        code = re.search(r"^ENCODING (\d+)", glyph, re.M)
        if code:
            found.setdefault(int(code[1]), glyph)
    return found


def reach_of(glyph):
    """The longest of the sides and offsets of a glyph, in pixels."""
    return max(abs(side) for side in sides_of(glyph))


def is_small(glyph, most):
    """Whether the program reads a glyph where sides have at most so many pixels."""
    step = re.search(r"^DWIDTH (-?\d+)", glyph, re.M)
    return reach_of(glyph) <= most and (step is None or 0 <= int(step[1]) <= WIDEST_STEP)


def fitted(text, most=LONGEST):
    """A BDF font without the glyphs that have more pixels a side, and as high as its letters of ASCII."""
    head = re.split(r"^(?=STARTCHAR )", text, maxsplit=1, flags=re.M)[0]
    glyphs = {code: glyph for code, glyph in glyphs_of(text).items() if is_small(glyph, most)}
    boxes = [sides_of(glyph) for code, glyph in glyphs.items() if 32 < code < 127]
    left, bottom = min(box[2] for box in boxes), min(box[3] for box in boxes)
    width, height = (min(max(box[at] + box[at + 2] for box in boxes) - first, most) for at, first in ((0, left), (1, bottom)))
    head = re.sub(r"^FONTBOUNDINGBOX .*$", f"FONTBOUNDINGBOX {width} {height} {left} {bottom}", head, flags=re.M)
    return re.sub(r"^CHARS .*$", f"CHARS {len(glyphs)}", head, flags=re.M) + "".join(glyphs.values()) + "ENDFONT\n"


def greatest(path, size, dots, most):
    """The greatest whole size, up to one, at which no letter or digit of ASCII has more than so many pixels a side; 0 where there is none."""
    size = min(size, MOST_POINTS)
    while size > 0:
        letters = glyphs_of(made(path, size, dots, LETTERS)).values()
        if not letters:
            return 0
        if all(is_small(glyph, most) for glyph in letters):
            return size
        # sides are as the size is, but for the pixel to which they are rounded
        size = min(size - 1, size * most // max(map(reach_of, letters)) + 1)
    return 0
