"""Pictures painted by the rules of docs/DRAWING.md, in whole numbers: what the program's are compared with."""
import collections
import math
import re


def micro(text):
    """A number of a mapfile of this repository, in millionths."""
    whole, _, decimals = text.lstrip("-").partition(".")
    size = int(whole or "0") * 1_000_000 + int((decimals + "000000")[:6])
    return -size if text.startswith("-") else size


def read_places(mapfile, name):
    """The colour and the rings of each feature of a layer of demo/world.map."""
    text = mapfile.split(f'NAME "{name}"', 1)[1].split("\n  LAYER", 1)[0]
    colours = re.findall(r'EXPRESSION "(\d)" STYLE COLOR (\d+) (\d+) (\d+)', text)
    by_class = {number: tuple(map(int, colour)) for number, *colour in colours}
    alone = re.search(r"OUTLINECOLOR (\d+) (\d+) (\d+)", text)
    found = []
    for feature in re.split(r"\bFEATURE\b", text)[1:]:
        items = re.search(r'ITEMS "([^"]*)"', feature)
        colour = by_class[items[1].split(";")[3]] if by_class else tuple(map(int, alone.groups()))
        rings = []
        for points in re.findall(r"POINTS([^E]*)END", feature):
            numbers = [micro(word) for word in points.split()]
            rings.append(list(zip(numbers[0::2], numbers[1::2])))
        found.append((colour, rings))
    return found


def between(least, most, first, step):
    """The first column in which a number lies between two bounds, and the one after the last. It is `first` in column 0, and grows by a step."""
    if step < 0:
        least, most, first, step = -most, -least, -first, -step
    if step == 0:
        return (-math.inf, math.inf) if least <= first <= most else (0, 0)
    return -((first - least) // step), (most - first) // step + 1


def round_spans(a, b, y, half):
    """Spans of the columns at a height whose centres lie at most so many sixteenths away from a point of the segment from a to b."""
    for x0, y0 in (a, b):
        if abs(y - y0) <= half:
            chord = math.isqrt(half * half - (y - y0) ** 2)
            yield between(x0 - chord, x0 + chord, 8, 16)
    # Between the perpendiculars through both ends, at most half the width aside of the segment's line: both times its length.
    (x0, y0), run, fall = a, b[0] - a[0], b[1] - a[1]
    length = run * run + fall * fall
    if length == 0:
        return
    reach = math.isqrt(half * half * length)
    along = between(0, length, (8 - x0) * run + (y - y0) * fall, 16 * run)
    aside = between(-reach, reach, (y - y0) * run - (8 - x0) * fall, -16 * fall)
    yield max(along[0], aside[0]), min(along[1], aside[1])


class Picture:
    """A picture of a box of the world, in millionths of a degree, of a ground that is white where it isn't given."""

    def __init__(self, box, size, ground=(255, 255, 255)):
        self.west, self.south, self.east, self.north = box
        self.width, self.height = size
        self.rows = [bytearray(bytes(ground) * self.width) for _ in range(self.height)]

    def bytes(self):
        return b"".join(self.rows)

    def device(self, place):
        """The device point of a place, in sixteenths of a pixel."""
        x, y = place
        across = 16 * self.width * (x - self.west) // (self.east - self.west)
        down = 16 * self.height * (self.north - y) // (self.north - self.south)
        return across, down

    def span(self, j, first, end, colour):
        """Gives a colour to the columns from the first one up to the end of a row."""
        first, end = max(first, 0), min(end, self.width)
        if 0 <= j < self.height and first < end:
            self.rows[j][3 * first : 3 * end] = bytes(colour) * (end - first)

    def fill(self, rings, colour):
        """Fills a polygon by the even-odd rule."""
        flips = {}
        for ring in rings:
            points = [self.device(place) for place in ring]
            for a, b in zip(points, points[1:] + points[:1]):
                self.cross(min(a, b, key=lambda p: p[1]), max(a, b, key=lambda p: p[1]), flips)
        for j, columns in flips.items():
            columns.sort()
            for first, end in zip(columns[0::2], columns[1::2]):
                self.span(j, first, end, colour)

    def cross(self, upper, lower, flips):
        """Notes, for each row whose pixel centres an edge crosses, the first column right of the crossing."""
        (x0, y0), (x1, y1) = upper, lower
        run, fall = x1 - x0, y1 - y0
        for j in range(max((y0 + 7) // 16, 0), min((y1 - 9) // 16, self.height - 1) + 1):
            # The crossing lies at across / fall. The column's centre, 16 i + 8, is the first at it or after it.
            across = x0 * fall + (16 * j + 8 - y0) * run
            flips.setdefault(j, []).append(-((8 * fall - across) // (16 * fall)))

    def outline(self, rings, colour, width):
        """Draws the closed line along each ring."""
        for ring in rings:
            points = [self.device(place) for place in ring]
            self.stroke(zip(points, points[1:] + points[:1]), points, colour, width)

    def line(self, places, colour, width):
        """Draws the open line along places."""
        points = [self.device(place) for place in places]
        self.stroke(zip(points, points[1:]), points, colour, width)

    def stroke(self, segments, points, colour, width):
        """A line's segments, and a square at each of its points."""
        # The rows that flat segments cover in each column, as bits: a wide line covers most of them many times.
        columns = [0] * self.width
        for a, b in segments:
            self.segment(a, b, colour, width, columns)
        for i, covered in enumerate(columns):
            for j, bit in enumerate(bin(covered)[:1:-1]):
                if bit == "1":
                    self.span(j, i, i + 1, colour)
        for point in points:
            self.square_at(point, width, colour)

    def segment(self, a, b, colour, width, columns):
        """One segment: the spans of a steep one, and of a flat one bits of the columns."""
        flat = abs(b[0] - a[0]) >= abs(b[1] - a[1])
        if not flat:
            a, b = (a[1], a[0]), (b[1], b[0])
        (x0, y0), (x1, y1) = min(a, b), max(a, b)
        run = x1 - x0
        if run == 0:
            return
        # Along the axis on which it goes further, centre by centre between its ends, as far as the picture goes.
        for i in range(max((x0 + 7) // 16, 0), min((x1 - 8) // 16 + 1, self.width if flat else self.height)):
            across = y0 * run + (16 * i + 8 - x0) * (y1 - y0)
            last = (across + (8 * width - 8) * run) // (16 * run)
            if flat:
                first, last = max(last - width + 1, 0), min(last, self.height - 1)
                columns[i] |= (1 << max(last - first + 1, 0)) - 1 << first
            else:
                self.span(i, last - width + 1, last + 1, colour)

    def round_outline(self, rings, colour, width):
        """Draws the closed round line along each ring."""
        for ring in rings:
            points = [self.device(place) for place in ring]
            self.round(zip(points, points[1:] + points[:1]), colour, width)

    def round_line(self, places, colour, width):
        """Draws the open round line along places, of which there may be one."""
        points = [self.device(place) for place in places]
        self.round(zip(points, points[1:] or points), colour, width)

    def round(self, segments, colour, width):
        """What lies at most half a width away from some segment."""
        half, rows = 8 * width, collections.defaultdict(int)
        for a, b in segments:
            if min(a[0], b[0]) - half > 16 * self.width or max(a[0], b[0]) + half < 0:
                continue
            high, low = min(a[1], b[1]) - half, max(a[1], b[1]) + half
            for j in range(max((high + 7) // 16, 0), min((low - 8) // 16, self.height - 1) + 1):
                for first, end in round_spans(a, b, 16 * j + 8, half):
                    first, end = max(first, 0), min(end, self.width)
                    if first < end:
                        rows[j] |= (1 << end) - (1 << first)
        for j, covered in rows.items():
            for run in re.finditer("1+", bin(covered)[:1:-1]):
                self.span(j, run.start(), run.end(), colour)

    def square_at(self, point, size, colour):
        """A square round a device point."""
        i, j = point[0] // 16, point[1] // 16
        before, after = (size - 1) // 2, size // 2
        for row in range(j - before, j + after + 1):
            self.span(row, i - before, i + after + 1, colour)

    def square(self, place, size, colour):
        self.square_at(self.device(place), size, colour)

    def stamp(self, place, marks, colour):
        """Stamps a drawing, `#` for the colour, round the pixel of a place."""
        self.pixmap(place, [[colour if mark == "#" else None for mark in line] for line in marks])

    def pixmap(self, place, rows):
        """Stamps rows of pixels, each a colour or nothing, round the pixel of a place."""
        across, down = self.device(place)
        left, top = across // 16 - len(rows[0]) // 2, down // 16 - len(rows) // 2
        for j, row in enumerate(rows):
            for i, colour in enumerate(row):
                if colour is not None:
                    self.span(top + j, left + i, left + i + 1, colour)
