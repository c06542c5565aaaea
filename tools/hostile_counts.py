#!/usr/bin/env python3
"""Works out what crates/hostile_tests expects, by the rules of docs/, and compares. Usage: hostile_counts.py [--write]

Of each reader there is a source, which stands below, and rows by what is made of it: every prefix; the source with each byte replaced by 0, 34, 123 or 255; eight sources of 4,096 bytes that a fixed sequence of
numbers draws, and eight whose lines are those of the source. A row has how many of them have each outcome from 0 on,
and the sum of the lines, rows or commands of their faults. `hostile_models.py` has the rules that are longer.

The script prints the sources and the rows, and ends with 1 where those of the tests are others; with --write it writes
them there.
"""
import pathlib
import re
import sys

sys.path.insert(0, str(pathlib.Path(__file__).resolve().parent / "lib"))

from hostile_models import Fault, Mapfile, bad_byte, is_text, outcome, pixmap, query, table

TESTS = pathlib.Path(__file__).resolve().parent.parent / "crates/hostile_tests/src/inputs.rt"
WAYS = ["prefixes", "0", "34", "123", "255", "drawn", "lines"]
OUTCOMES = 11
SOURCES = {
    "mapfile": b"""MAP # a map
NAME 'm' EXTENT 0 -1 1e1 2.5
LAYER NAME "a b"
TYPE POLYGON
PROCESSING "ITEMS=k,n" CLASSITEM k
CLASS
EXPRESSION ([n] >= 1 AND NOT '[k]' IN "x,y")
STYLE
COLOR 10 20 30
WIDTH 2
END
END
FEATURE
ITEMS "x;2" POINTS 1 1 3 1 3 3 END
END
END
END
""",
    "table": b'x,y,n\n1,2,a\n-3.5,4e0,"b, ""c"""\r\n\n 5 ,6,\xc3\xa9\n',
    "pixmap": b"P6 # ab\n2 3\n255\nabcdefghijklmnopqr",
    "font": b"""STARTFONT 2.1
FONTBOUNDINGBOX 2 2 0 -1
CHARS 2
STARTCHAR A
ENCODING 65
DWIDTH 3 0
BBX 2 2 0 0
BITMAP
C0
80
ENDCHAR
STARTCHAR B
ENCODING -1
DWIDTH 9 0
BBX 9 1 -1 2
BITMAP
AA80
ENDCHAR
ENDFONT
""",
    "batch": b"OFF a\nAPPEND 15 p\nx,y\n1,2\n3.5,-4\nON a\r\nCLEAR p\n",
    "head": b"GET /wms?REQUEST=x HTTP/1.1\r\nHost: a\r\nContent-Length: 0\r\n\r\n",
    "query": b"REQUEST=GetMap&VERSION=1.3.0&LAYERS=a&STYLES=&CRS=CRS:84&BBOX=0,0,4,4&WIDTH=4&HEIGHT=4&FORMAT=image/x-portable-pixmap",
    "png": b"REQUEST=GetMap&VERSION=1.3.0&LAYERS=a&STYLES=&CRS=CRS:84&BBOX=0,0,4,4&WIDTH=4&HEIGHT=4&FORMAT=image/png&TRANSPARENT=TRUE",
    "script": b"QUERY REQUEST=x\nBATCH 12\nOFF a\nOFF b\nQUERY \n",
    "administrator": b"BATCH 6\nOFF a\nRETRY\nBATCH 5\nON b\n",
}
POINTS, OTHERS = b"p", b"a"


# Fonts: docs/FILES.md, Lines of a font
def integer(word):
    return int(word) if word is not None and re.fullmatch(rb"-?\d+", word) else None


class Font:
    """A font, line by line, in one of the sections before, header, glyph, rows, between and ended."""

    KEYWORDS = b"STARTFONT STARTPROPERTIES ENDPROPERTIES FONTBOUNDINGBOX CHARS STARTCHAR ENCODING DWIDTH BBX BITMAP ENDCHAR ENDFONT".split()

    def __init__(self, source):
        self.source, self.section, self.started, self.skips, self.left = source, self.before, 0, False, 0
        # the fields of the font, and those of the glyph
        self.fields, self.given = {}, {}

    def read(self):
        """Reads all lines: a fault has the number of its kind, and its line."""
        lines = self.source.split(b"\n")
        ends = [line.removesuffix(b"\r") for line in lines[:-1]] + ([lines[-1]] if lines[-1] else [])
        for number, line in enumerate(ends, 1):
            kind = self.take(line)
            if kind:
                raise Fault(kind, number)
            if self.section is None:
                return
        raise Fault(*((6, len(ends) + 1) if ends else (1, 1)))

    def take(self, line):
        """The kind of the fault of a line, or 0."""
        words = [word for word in line.split(b" ") if word]
        keyword = words[0] if words and words[0] in self.KEYWORDS else None
        if self.section == self.rows:
            return self.rows(line, keyword)
        if self.skips or (keyword == b"STARTPROPERTIES" and self.section in (self.header, self.between)):
            self.skips = keyword != b"ENDPROPERTIES"
            return 0
        return self.section(keyword, words[1:]) if keyword or self.section == self.before else 0

    def before(self, keyword, _words):
        self.section = self.header
        return 0 if keyword == b"STARTFONT" else 1

    def box(self, words):
        """The numbers of a box, and the kind of a fault in it."""
        numbers = [integer(word) for word in (words + [None] * 4)[:4]]
        if None in numbers or min(numbers[:2]) < 0:
            return None, 2
        return (numbers, 0) if max(map(abs, numbers)) <= 64 else (None, 5)

    def header(self, keyword, words):
        """A line before the first glyph."""
        if keyword == b"FONTBOUNDINGBOX":
            self.fields["box"], kind = self.box(words)
            return kind
        if keyword == b"CHARS":
            self.fields["chars"] = integer(words[0]) if words else None
            return 0 if self.fields["chars"] is not None and self.fields["chars"] >= 0 else 2
        return self.between(keyword, words) if len(self.fields) == 2 else 2

    def between(self, keyword, _words):
        """A line between two glyphs."""
        if keyword == b"STARTCHAR":
            self.section, self.given, self.started = self.glyph, {}, self.started + 1
            return 0
        if keyword == b"ENDFONT":
            self.section = None
            return 0 if self.started == self.fields["chars"] else 4
        return 2

    def glyph(self, keyword, words):
        """A line of a glyph before its rows."""
        if keyword == b"BBX":
            self.given[keyword], kind = self.box(words)
            return kind
        if keyword in (b"ENCODING", b"DWIDTH"):
            first, second = [integer(word) for word in (words + [None] * 2)[:2]]
            self.given[keyword] = first
            if keyword == b"ENCODING":
                return 0 if first is not None and first < 2**32 else 2
            return 0 if first is not None and 0 <= first <= 255 and second is not None else 2
        if keyword == b"BITMAP" and len(self.given) == 3:
            self.section, self.left = self.rows, self.given[b"BBX"][1]
            return 0
        return 2

    def rows(self, line, keyword):
        """A row of a glyph, or its end."""
        if self.left == 0:
            self.section = self.between
            return 0 if keyword == b"ENDCHAR" else 3
        self.left -= 1
        digits = 2 * ((self.given[b"BBX"][0] + 7) // 8)
        return 0 if re.fullmatch(rb"[0-9a-fA-F]{%d}" % digits, line) else 3


# Batches: docs/SERVICE.md, Batches
def command(line):
    """The word of a line, its count and its name, or none where the line can't be read."""
    whole = re.fullmatch(rb"(?:(ON|OFF|CLEAR)|APPEND (\d{1,10})) (.*)", line, re.S)
    return whole and (whole[1] or b"APPEND", int(whole[2] or 0), whole[3])


def batch(source):
    """Reads the commands of a batch."""
    at, number = 0, 0
    while at < len(source):
        number += 1
        end = source.find(b"\n", at)
        if end < 0:
            raise Fault(6, number)
        found = command(source[at:end].removesuffix(b"\r"))
        if not found:
            raise Fault(1, number)
        word, count, name = found
        body, at = source[end + 1 : end + 1 + count], end + 1 + count
        for fails, kind in [
            (len(body) < count, 6), (name not in (POINTS, OTHERS), 2),
            (word in (b"CLEAR", b"APPEND") and name == OTHERS, 3),
            (word == b"APPEND" and outcome(lambda rows: table(rows, 200_000))(body)[0] > 0, 4),
        ]:
            if fails:
                raise Fault(kind, number)


# Request heads: docs/WMS.md, HTTP. Kinds are 1 bad request, 2 not found, 3 another method, 4 nothing
TOKEN = rb"[!#$%&'*+.^_`|~0-9A-Za-z-]+"
HEAD = re.compile(rb"(?:\r?\n)*(" + TOKEN + rb") ([\x21-\x7e\x80-\xff]+) HTTP/1\.([01])\r?\n((?:" + TOKEN + rb":[\t\x20-\x7e\x80-\xff]*\r?\n)*)\r?\n")


def head(source):
    """Reads the head of a request."""
    if not source:
        raise Fault(4, 0)
    found = HEAD.match(source)
    if not found or not is_text(found[2]):
        raise Fault(1, 0)
    fields = [field.partition(b":") for field in found[4].splitlines()]
    for name, _, value in fields:
        if name.lower() == b"transfer-encoding" or (name.lower() == b"content-length" and value.strip(b" \t") != b"0"):
            raise Fault(1, 0)
    if found[1] != b"GET":
        raise Fault(3, 0)
    if found[2].partition(b"?")[0] not in (b"/", b"/wms"):
        raise Fault(2, 0)


# Scripts and administrators: docs/SERVICE.md, Sessions and Administration
def script(source):
    """Reads the commands of a script."""
    at, number = 0, 0
    while at < len(source):
        number += 1
        end = source.find(b"\n", at)
        found = end >= 0 and re.fullmatch(rb"QUERY .*|BATCH (\d{1,10})", source[at:end], re.S)
        at = end + 1 + int(found[1] or 0) if found else 0
        if not found or at > len(source):
            raise Fault(1, number)


def administrator(source):
    """How many lines there are of each: 0 published, 1 refused, 2 nothing pending, 3 malformed."""
    lines, at = [], 0
    while at < len(source):
        end = source.find(b"\n", at, at + 33)
        if end < 0:
            return lines + ([(3, 0)] if len(source) - at > 32 else [])
        line = source[at:end]
        count = re.fullmatch(rb"BATCH (\d{1,10})", line)
        if line == b"RETRY":
            lines, at = lines + [(2, 0)], end + 1
        elif count and int(count[1]) <= 4_194_304:
            body, at = source[end + 1 : end + 1 + int(count[1])], end + 1 + int(count[1])
            if at > len(source):
                return lines
            kind, index = outcome(batch)(body)
            lines.append((1, index) if kind else (0, 0))
        else:
            return lines + [(3, 0)]
    return lines


# What is made of a source
def numbers_from(seed):
    """Numbers by a linear congruence, of 16 bits each."""
    while True:
        seed = (seed * 1_103_515_245 + 12_345) % 2**32
        yield seed // 65_536


def drawn(seed):
    numbers = numbers_from(seed)
    return bytes(next(numbers) % 256 for _ in range(4_096))


def of_lines(source, seed):
    """Lines of a source in another order, 4,096 bytes of them."""
    lines, numbers, made = source.split(b"\n"), numbers_from(seed), b""
    while len(made) < 4_096:
        made += lines[next(numbers) % len(lines)] + b"\n"
    return made[:4_096]


def made_of(source, way):
    """The inputs that are made of a source in one way."""
    if way == "prefixes":
        return [source[:length] for length in range(len(source) + 1)]
    if way == "drawn":
        return [drawn(seed) for seed in range(8)]
    if way == "lines":
        return [of_lines(source, seed) for seed in range(8)]
    return [source[:at] + bytes([int(way)]) + source[at + 1 :] for at in range(len(source))]


def one(read):
    outcome_of = outcome(read)
    return lambda source: [outcome_of(source)]


READERS = {
    "mapfile": one(lambda source: Mapfile(source).read()),
    "table": one(table),
    "pixmap": one(pixmap),
    "font": one(lambda source: Font(source).read()),
    "batch": one(batch),
    "head": one(head),
    "query": one(query),
    "png": one(lambda source: query(source, ("image/png",))),
    "script": one(script),
    "administrator": administrator,
}


def row(outcomes_of, source, way):
    """A row of the tests: how often each outcome comes, and the sum of the lines."""
    counts, lines = [0] * OUTCOMES, 0
    for made in made_of(source, way):
        for kind, line in outcomes_of(made):
            counts[kind] += 1
            lines += line
    return f"{' '.join(map(str, counts))}; {lines}={way}"


def literal(source):
    """A byte string, as the tests write it, a line for each of its lines."""
    marks = {10: "\\n", 13: "\\r", 34: '\\"', 92: "\\\\"}
    text = "".join(marks.get(byte, chr(byte) if 32 <= byte < 127 else f"\\x{byte:02x}") for byte in source)
    # after a line that goes on, Rust drops spaces
    return text.replace("\\n", "\\n\\\n").replace("\n ", "\n\\x20")


def written():
    """The module of the tests that has the sources and the rows."""
    parts = ["//! The sources, and what comes of them: written by `tools/hostile_counts.py --write`, from the rules of `docs/`.\n"]
    for name, outcomes_of in READERS.items():
        source, constant = SOURCES[name], name.upper()
        rows = "\n".join(row(outcomes_of, source, way) for way in WAYS)
        parts.append(f'/// A worked source of the reader of the {name}.\npub const {constant}: &[u8] = b"\\\n{literal(source)}";\n')
        parts.append(f'/// What comes of all that is made of it.\npub const {constant}_ROWS: &str = "\\\n{rows}";\n')
    return "\n".join(parts)


def main():
    text = written()
    if sys.argv[1:] == ["--write"]:
        TESTS.write_text(text)
    print(text)
    sys.exit("failed: the tests expect something else" if TESTS.read_text() != text else 0)


if __name__ == "__main__":
    main()
