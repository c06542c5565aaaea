"""Labels placed and painted by the rules of docs/DRAWING.md, "Labels": what the program's are compared with."""
import dataclasses
import re

AUTO = ["UR", "UL", "LR", "LL", "CR", "CL", "UC", "LC"]
CELL = 32
ROUND = [(i, j) for i in (-1, 0, 1) for j in (-1, 0, 1) if (i, j) != (0, 0)]


class Font:
    """A BDF font: for each encoding how far it advances, and the pixels of its ink round the pen and the top."""

    def __init__(self, path):
        with open(path, encoding="latin-1") as file:
            text = file.read()
        _, self.height, _, bottom = self.box(text, "FONTBOUNDINGBOX")
        self.glyphs = {}
        for block in text.split("\nSTARTCHAR ")[1:]:
            _, high, left, low = self.box(block, "BBX")
            rows = block.split("\nBITMAP", 1)[1].split("\nENDCHAR")[0].split()
            top = self.height + bottom - low - high
            ink = [(left + i, top + j) for j, row in enumerate(rows) for i, bit in enumerate(self.bits(row)) if bit == "1"]
            advance = int(re.search(r"\nDWIDTH (\d+)", block)[1])
            self.glyphs[int(re.search(r"\nENCODING (\d+)", block)[1])] = (advance, ink)

    @staticmethod
    def box(text, word):
        return list(map(int, re.search(rf"\n{word} (-?\d+) (-?\d+) (-?\d+) (-?\d+)", text).groups()))

    @staticmethod
    def bits(row):
        return f"{int(row, 16):0{4 * len(row)}b}"

    def glyph(self, character):
        return self.glyphs.get(ord(character)) or self.glyphs.get(63, (0, []))

    def width(self, text):
        return sum(self.glyph(character)[0] for character in text)

    def ink(self, text, left, top):
        """The pixels that a text inks, whose upper left pixel is this one."""
        found, pen = [], left
        for character in text:
            advance, pixels = self.glyph(character)
            found += [(pen + i, top + j) for i, j in pixels]
            pen += advance
        return found


@dataclasses.dataclass(eq=False)
class Label:
    """What a class says of its labels. A colour that isn't there leaves its part out."""

    priority: int
    colour: tuple | None
    outline: tuple | None = None
    buffer: int = 0
    distance: int = 0
    position: str = "AUTO"
    is_partial: bool = False
    is_forced: bool = False
    width: int = 1
    times: int = 1
    font: str | None = None

    def words(self):
        """The block of a mapfile."""
        colour = "%d %d %d" % self.colour if self.colour else "-1 -1 -1"
        outline = "OUTLINECOLOR %d %d %d\n" % self.outline if self.outline else ""
        more = ("PARTIALS TRUE\n" if self.is_partial else "") + ("FORCE TRUE\n" if self.is_forced else "")
        more += f"OUTLINEWIDTH {self.width}\n" if self.width > 1 else ""
        more += f'FONT "{self.font}"\n' if self.font else ""
        return (
            f"LABEL\nCOLOR {colour}\n{outline}POSITION {self.position}\nPRIORITY {self.priority}\n"
            f"BUFFER {self.buffer}\nMINDISTANCE {self.distance}\n{more}END\n"
        )

    def finer(self, times):
        """The label on a picture so many times as fine."""
        return dataclasses.replace(self, buffer=times * self.buffer, distance=times * self.distance, times=times)

    def font_of(self, fonts):
        """Its font, of those by their names, else that of labels that name none."""
        return fonts.get(self.font, fonts[None])

    def reach(self):
        """How many pixels the outline reaches."""
        if not self.outline:
            return 0
        return self.times * self.width if self.times > 1 else 1

    def steps(self):
        """The steps from ink to the pixels of its outline: on a fine picture to all within the reach, else to the eight neighbours."""
        if self.times == 1:
            return ROUND
        reach = self.reach()
        return [(i, j) for i in range(-reach, reach + 1) for j in range(-reach, reach + 1) if i * i + j * j <= reach * reach]


def place(fonts, size, candidates):
    """The labels of candidates, each a text, its anchor and its label: texts, their upper left pixels, labels. Fonts are by their names."""
    order = sorted(range(len(candidates)), key=lambda n: (candidates[n][2].priority, n), reverse=True)
    cells, anchors, placed = {}, {}, []
    for number in order:
        text, anchor, label = candidates[number]
        others = anchors.setdefault(text, [])
        if not label.is_forced and any(squared_distance(anchor, other) < label.distance**2 for other in others):
            continue
        font = label.font_of(fonts)
        width, more = font.width(text), label.buffer + label.reach()
        for position in AUTO if label.position == "AUTO" else [label.position]:
            left, top = corner(position, anchor, width, font.height)
            box = (left - more, top - more, left + width + more, top + font.height + more)
            if not label.is_partial and (box[0] < 0 or box[1] < 0 or box[2] > size[0] or box[3] > size[1]):
                continue
            if not label.is_forced and any(share(box, other) for cell in cells_of(box) for other in cells.get(cell, [])):
                continue
            for cell in cells_of(box):
                cells.setdefault(cell, []).append(box)
            others.append(anchor)
            placed.append((text, (left, top), label))
            break
    return placed


def squared_distance(a, b):
    return (a[0] - b[0]) ** 2 + (a[1] - b[1]) ** 2


def corner(position, anchor, width, height):
    """The upper left pixel of a text of that size at a position."""
    (i, j), (down, across) = anchor, position
    left = {"L": i - width, "C": i - width // 2, "R": i + 1}[across]
    top = {"U": j - height, "C": j - height // 2, "L": j + 1}[down]
    return left, top


def share(a, b):
    """Whether some pixel lies in both boxes."""
    return max(a[0], b[0]) < min(a[2], b[2]) and max(a[1], b[1]) < min(a[3], b[3])


def cells_of(box):
    """The squares of the picture that a box lies in."""
    return [
        (i, j)
        for i in range(box[0] // CELL, (box[2] - 1) // CELL + 1)
        for j in range(box[1] // CELL, (box[3] - 1) // CELL + 1)
    ]


def paint(picture, fonts, placed):
    """Paints labels in their order: of each the outline round all its ink, and then the ink."""
    for text, (left, top), label in placed:
        ink = label.font_of(fonts).ink(text, left, top)
        if label.outline:
            for i, j in {(x + i, y + j) for x, y in ink for i, j in label.steps()}:
                picture.span(j, i, i + 1, label.outline)
        for i, j in ink if label.colour else []:
            picture.span(j, i, i + 1, label.colour)


def anchors_in(picture, places):
    """The pixels of places, and None for those off the picture."""
    found = []
    for place_of in places:
        across, down = picture.device(place_of)
        i, j = across // 16, down // 16
        found.append((i, j) if 0 <= i < picture.width and 0 <= j < picture.height else None)
    return found
